"""What `tools/watch` is made of: it follows the LSDB of a live area, and says what changes."""
