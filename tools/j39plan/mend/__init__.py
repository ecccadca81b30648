"""Changes of a plan that take findings away, tried by asking the program."""
