"""English for what was found out as values: an answer, a hint, a declaration, a waiver."""
