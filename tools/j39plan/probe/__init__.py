"""A box on a bench, brought into the situations that plan and standard have."""
