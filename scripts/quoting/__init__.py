"""What scripts/quote-contracts is made of: how sources are read, what is public in them, and how pages quote that."""
