"""Proves the crates of programs side by side, builds the programs, and says how far it is."""
