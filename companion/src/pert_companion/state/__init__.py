"""A project at a data date: its deck, what is known of it, and what is left."""
