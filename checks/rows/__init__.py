"""Worked rows, whose answers were computed by hand."""
