"""Sheets that are made of a run's lines."""
