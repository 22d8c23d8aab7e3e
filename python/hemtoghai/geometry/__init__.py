"""Curves, the distances between drones, and the paths of other programs."""
