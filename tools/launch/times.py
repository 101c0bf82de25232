"""What the proofs of the crates take: seconds of processor, as a build told them in its log.

    times.py LOG     notes, beside this script, the seconds of the crates that a log tells; those of others stay
"""
import os
import re
import sys

TABLE = os.path.join(os.path.dirname(os.path.abspath(__file__)), "seconds.txt")


def head(name, seconds):
    """The line of a build's log at which what a crate's check said begins."""
    return f"== {name}, {seconds:.0f} s of processor\n"


def told(log):
    """The seconds of each crate in a log."""
    return {name: int(seconds) for name, seconds in re.findall(r"(?m)^== (\w+), (\d+) s of processor$", log)}


def noted(text):
    """The seconds of each crate in a table, a line each."""
    return {name: int(seconds) for name, seconds in re.findall(r"(?m)^(\w+) (\d+)$", text)}


def table(seconds):
    return "".join(f"{name} {seconds[name]}\n" for name in sorted(seconds))


def work(sizes, seconds):
    """The work of each crate: its seconds, or where none are noted its bytes at the mean rate of the others."""
    known = [name for name in sizes if name in seconds]
    rate = sum(seconds[it] for it in known) / max(1, sum(sizes[it] for it in known)) if known else 1
    return {name: seconds.get(name, size * rate) for name, size in sizes.items()}


def read(path=TABLE):
    try:
        with open(path, encoding="ascii") as file:
            return noted(file.read())
    except FileNotFoundError:
        return {}


def main(words):
    if len(words) != 1:
        print(__doc__.strip(), file=sys.stderr)
        return 2
    with open(words[0], encoding="utf-8", errors="replace") as file:
        seconds = {**read(TABLE), **told(file.read())}
    with open(TABLE, "w", encoding="ascii") as file:
        file.write(table(seconds))
    return 0


if __name__ == "__main__":
    sys.exit(main(sys.argv[1:]))
