"""Memory, files and outputs that fail."""
