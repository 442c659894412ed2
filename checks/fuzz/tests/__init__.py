"""Tests of the model: python3 -m unittest discover -s checks/fuzz -t ."""
