"""Hints at what is wrong in a plan, or may be."""
