"""Plans: their text, what the program answers of them, and what is made of them."""
