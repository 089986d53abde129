"""What scripts/quote-contracts is made of: how sources are read, what is public in them, and how that is quoted in a page."""
