"""Functions of one or two states of a project, with plain results."""
