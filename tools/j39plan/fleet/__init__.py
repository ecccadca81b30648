"""Many logs against one plan."""
