"""Parts of logs, and logs of two clocks."""
