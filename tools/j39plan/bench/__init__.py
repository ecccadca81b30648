"""Planned units on a bench: they claim addresses, send what the plan says, and answer."""
