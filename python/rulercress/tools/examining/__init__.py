"""Plays a neighbour of a live device, and sees what the device does."""
