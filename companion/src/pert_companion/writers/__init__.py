"""The writers: each writes a `Schedule` in one file format."""
