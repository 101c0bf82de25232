"""Copper outside the profile between two bounds of whole corners: primitives, apertures, polarity and the two files."""
