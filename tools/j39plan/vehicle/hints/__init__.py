"""Hints at what is wrong with a vehicle: what is to be known of a finding or a refusal, and what would mend it."""
