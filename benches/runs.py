"""Runs of the built program and of the scripts: where the program lies, and what a command takes."""
import collections
import os
import subprocess
import sys

TOP = os.path.dirname(os.path.dirname(os.path.abspath(__file__)))
# That of the variable, or where the gate leaves it.
PROGRAM = os.environ.get("BOARDNET") or os.path.join(TOP, "crates", "boardnet", "out", "boardnet")

# Runs a command from a process that holds little, since a peak is never under that of the process that starts it.
MEASURE = r"""
import os, sys, time
begun = time.perf_counter()
_, status, used = os.wait4(os.posix_spawnp(sys.argv[1], sys.argv[1:], os.environ), 0)
clock = time.perf_counter() - begun
print("\n", os.waitstatus_to_exitcode(status), clock, used.ru_utime + used.ru_stime, used.ru_maxrss, file=sys.stderr)
"""

# Seconds by the clock, and of the processor with all that the command started; the most bytes that one process of it held; the texts.
Run = collections.namedtuple("Run", "status clock processor held out notes")


def run(words, folder=None, out=subprocess.PIPE):
    """What a command takes that runs in a folder. Its output is taken, or goes to a file."""
    done = subprocess.run(
        [sys.executable, "-ISc", MEASURE, *words], cwd=folder, stdout=out, stderr=subprocess.PIPE, check=False
    )
    notes, _, told = done.stderr.decode("utf-8", "replace").rstrip("\n").rpartition("\n")
    if done.returncode:
        sys.exit(f"{' '.join(words)}: {told}")
    status, clock, processor, held = told.split()
    return Run(int(status), float(clock), float(processor), int(held) * 1024, done.stdout, notes)


def best(turns, words, folder, out, statuses=(0, 1)):
    """The least seconds of some turns, by the clock and of the processor, and the most bytes. Another status than these ends the script."""
    done = []
    for _ in range(turns):
        with open(os.path.join(folder, out), "wb") as file:
            done.append(run(words, folder, file))
        if done[-1].status not in statuses:
            sys.exit(f"{' '.join(words)}: status {done[-1].status}\n{done[-1].notes}".rstrip())
    return min(it.clock for it in done), min(it.processor for it in done), max(it.held for it in done)
