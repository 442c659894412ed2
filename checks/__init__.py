"""Trials of the built program, outside the proof."""
