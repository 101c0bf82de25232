"""A copper file outside the profile walked once, and the two files within it that are written in its place."""
