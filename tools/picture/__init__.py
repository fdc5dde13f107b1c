"""Draws what became of the regions of a log text: what is read, in which order, and two ways to draw it."""
