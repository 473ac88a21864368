"""What `tools/hostile` tries."""
