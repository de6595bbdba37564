"""Prints the definitions behind the top calls. `tools/reading-list.py` is the command."""
