"""The lines that the program reads and writes."""
