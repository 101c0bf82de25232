"""Garbage is looked for seldom: nearly all that is made here is held until the end, and is in no cycle."""
import gc

THRESHOLDS = (3_000_000, 20, 100)


def collected() -> None:
    gc.set_threshold(*THRESHOLDS)
