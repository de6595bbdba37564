"""What everything else stands on: plans, calendars, decks, side files, losses, errors, output."""
