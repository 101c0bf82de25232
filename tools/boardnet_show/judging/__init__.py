"""Asks the program: of the board, of its two bounds, of `between`; and which pieces the copper has."""
