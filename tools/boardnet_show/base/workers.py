"""Work on large things one by one, each in a process of its own where there are processors for it: the answers are
the same."""
import os
import signal
from typing import Any, Callable, Iterator, List, Optional, Sequence, TypeVar

LARGE = 500_000  # bytes of what is worth a process
Item = TypeVar("Item")
Made = TypeVar("Made")


def processors() -> int:
    """How many there are for this process."""
    return len(os.sched_getaffinity(0)) if hasattr(os, "sched_getaffinity") else os.cpu_count() or 1


def alone() -> None:
    """What a process of a pool does about signals: its parent ends it."""
    signal.signal(signal.SIGINT, signal.SIG_IGN)
    for number in (signal.SIGTERM, signal.SIGHUP):
        signal.signal(number, signal.SIG_DFL)


def mapped(
    work: Callable[[Item], Made],
    items: Sequence[Item],
    sizes: Sequence[int],
    here: Optional[Callable[[Item], Made]] = None,
) -> Iterator[Made]:
    """`work` of each item, in order. It is a function of a module, so that processes know it. `here` is the same in
    this process, which does what is small and what failed elsewhere."""
    here = here or work
    large = sorted((k for k, size in enumerate(sizes) if size >= LARGE), key=lambda k: -sizes[k])
    count = min(len(large), processors())
    begun = begun_elsewhere(work, items, large, count) if count > 1 and hasattr(os, "fork") else None
    if begun is None:
        yield from map(here, items)
        return
    pool, waiting = begun
    with pool:
        try:
            for k, item in enumerate(items):
                yield waited(waiting[k].result, here, item) if k in waiting else here(item)
        finally:
            for future in waiting.values():
                future.cancel()


def begun_elsewhere(work: Callable[[Item], Made], items: Sequence[Item], large: List[int], count: int) -> Any:
    """Processes with their work by number; None where there can be none."""
    try:  # loading both takes longer than a small board
        from concurrent.futures import ProcessPoolExecutor
        from multiprocessing import current_process, get_context

        if current_process().daemon:
            return None
        pool = ProcessPoolExecutor(count, get_context("fork"), alone)
        return pool, {k: pool.submit(work, items[k]) for k in large}
    except (ImportError, OSError):
        return None


def waited(result: Callable[[], Made], here: Callable[[Item], Made], item: Item) -> Made:
    try:
        return result()
    except Exception:
        return here(item)
