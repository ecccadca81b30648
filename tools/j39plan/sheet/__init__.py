"""Plans from sheets: a maker's matrix of messages and signals, or the tables that `table` writes."""
