"""Figures with real corners and arcs between contours and draws of whole places, as the crates' checks take them."""
