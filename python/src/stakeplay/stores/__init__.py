"""Stores, row by row."""
