"""The parts of tools/picture."""
