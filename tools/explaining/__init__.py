"""Explains illegal histories of the reservation system: which calls contradict each other, and why."""
