"""What `tools/picture` is made of; what it tells with settings and a capture stands on `explaining` and `crosscheck`."""
