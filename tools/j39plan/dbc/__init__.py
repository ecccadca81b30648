"""DBC and other descriptions of networks, and plans that are made of them."""
