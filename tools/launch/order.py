"""Which crates are proved next, and with how many jobs each."""
import re

# A check gains little from more.
MOST_JOBS = 4


def places(processors):
    """How many jobs serve so many processors: three for two, since a check of several jobs begins and ends with one of them alone."""
    return processors + processors // 2


def named(text):
    """The crates of a crates.txt in its order, each with the names on its line, of the toolchain's libraries too."""
    found = {}
    for line in text.splitlines():
        head = re.match(r"(\w+)[^:#]*:", line)
        if head:
            found[head.group(1)] = line[head.end() :].partition("#")[0].split()
    return found


def uses(names):
    """Of each crate those that it stands on; they come before it."""
    found = {}
    for name, of in names.items():
        found[name] = [it for it in of if it in found]
    return found


def below(using):
    """What each crate stands on, all the way down."""
    found = {}
    for name, of in using.items():
        found[name] = set(of).union(*(found[it] for it in of))
    return found


def wanted(under, name):
    """A crate and what it stands on, each with what it stands on itself: the others are proved by the gate alone."""
    return {it: of for it, of in under.items() if it == name or it in under[name]}


def chains(under, work):
    """For each crate the work of the longest chain that begins with it, each crate of which stands on the one before."""
    longest = {}
    for name in reversed(list(under)):
        above = [longest[it] for it in longest if name in under[it]]
        longest[name] = work[name] + max(above, default=0)
    return longest


def chosen(ready, chain, running, places):
    """The crates to begin now, each with its jobs: those of the longest chains first.

    `running` has the jobs of those that run. One job each takes the least of the processors in all, so there are more only where fewer
    crates wait than jobs are free. What the end waits for, the longest chain of all that wait or run, has half of the places, also where
    others took them before.
    """
    begun, free, waiting = {}, places - sum(running.values()), sorted(ready, key=lambda it: -chain[it])
    for at, name in enumerate(waiting):
        is_first = all(chain[name] >= chain[it] for it in [*running, *begun])
        if free < 1 and not is_first:
            break
        jobs = max(1, free // (len(waiting) - at))
        if is_first:
            jobs = max(jobs, (places + 1) // 2)
        begun[name] = min(MOST_JOBS, jobs)
        free -= begun[name]
    return begun
