"""Draws a graph: it is made planar, its boxes and outer face are chosen, and the shape gets its pixels."""
