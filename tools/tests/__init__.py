"""The tests of the scripts, a folder for each room in the rooms' order; `fixtures` has what they share."""
import os
import unittest

HERE = os.path.dirname(os.path.abspath(__file__))
# As boardnet_show has its rooms, then what lies beside them. A folder that is not listed comes last.
ORDER = (
    "geometry",
    "formats",
    "intake",
    "bounds",
    "judging",
    "findings",
    "fitting",
    "netlists",
    "extras",
    "output",
    "command",
    "launch",
    "program",
    "benches",
)


def load_tests(loader, _, pattern):
    """Called by `unittest` where it finds tests."""
    folders = sorted(each.name for each in os.scandir(HERE) if os.path.isfile(os.path.join(each.path, "__init__.py")))
    found = unittest.TestSuite()
    for folder in sorted(folders, key=lambda name: ORDER.index(name) if name in ORDER else len(ORDER)):
        found.addTests(loader.discover(os.path.join(HERE, folder), pattern or "test*.py", os.path.dirname(HERE)))
    return found
