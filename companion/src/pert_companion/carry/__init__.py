"""Turns a plan into a deck of tasks and its side file; it knows what a deck cannot say."""

from pert_companion.carry.carrying import Carried, CarryOptions, carry, logic_of

__all__ = ["Carried", "CarryOptions", "carry", "logic_of"]
