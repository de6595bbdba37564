"""Manual pages of the companion's commands, made from their parsers, and completion of all."""
