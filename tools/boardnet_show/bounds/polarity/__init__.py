"""Dark and clear areas in their order, as contours of whole corners within what is left dark, or round it."""
