"""The one reader of drill files, Excellon and XNC, and who listens to it."""
