"""What every room may want: statuses, refusals, words for lengths and counts, progress, a scratch folder, files written
whole."""
