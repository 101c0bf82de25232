"""Lints of documents, limits and the order of rooms, and snapshots of what is answered: no tests of behaviour."""
