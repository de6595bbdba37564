"""The commands: each module parses its words and calls one function."""
