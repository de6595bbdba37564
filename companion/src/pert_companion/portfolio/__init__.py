"""One page of several projects: a row for each deck, and what they load the same resources with."""
