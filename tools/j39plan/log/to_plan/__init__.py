"""A first plan of a bus, from a log of it."""
