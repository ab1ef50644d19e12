"""Reward statements."""
