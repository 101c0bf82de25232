"""Hints: changed copies of files that do not fit together, each with the answer of `check` on it."""
