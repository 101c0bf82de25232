"""How a file is read that does not say it, by the board itself: each reading is told, and counts by `--yes` alone."""
