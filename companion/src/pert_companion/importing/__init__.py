"""From a planner's file to a deck and its side file."""
