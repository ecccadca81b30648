"""Vehicles of several buses: their files, the plans of their buses, and what the program answers of them."""
