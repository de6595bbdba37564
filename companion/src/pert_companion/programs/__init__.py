"""Calls `pert`, `pert_check` and `pert_whatif`, and reads what they print."""
