"""Logs against plans."""
