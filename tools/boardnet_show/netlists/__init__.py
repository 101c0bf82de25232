"""IPC-D-356A netlists made from copper: of the names that it gives its own pads, and for a tester."""
