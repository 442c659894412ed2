"""Bounds beside exact optima."""
