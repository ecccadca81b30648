"""Logs of buses, as the program follows them."""
