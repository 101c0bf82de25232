"""The command's words, one board from its files to its answer, what is written where, and the status."""
