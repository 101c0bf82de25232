"""Files rewritten so that `check` takes them, with every piece of copper, every plated hole and every test point
kept."""
