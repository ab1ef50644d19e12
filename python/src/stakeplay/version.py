"""The version: made by checks/commands.py from VERSION."""
__version__ = "0.1.0"
