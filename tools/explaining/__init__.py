"""What `tools/explain` is made of; its modules stand on those of `crosscheck`."""
