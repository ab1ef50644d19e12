"""Tallies of proposals."""
