"""What scripts/edits is made of."""
