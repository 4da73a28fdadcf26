"""What `btcheck-many` is made of: see tools/btcheck-many."""
