"""The parts of benches/readers: what boardnet reads in a file, what other readers read, and what is asked of both.

A place is (x, y) in whole micrometres. A state is COPPER, BARE, NEAR (a border is within the tolerance), or None (not
asked, not read).
"""
import os
import sys

COPPER, BARE, NEAR = 1, 0, -1
TOP = os.path.dirname(os.path.dirname(os.path.dirname(os.path.abspath(__file__))))
# What a test record can say: six digits of micrometres.
FARTHEST = 999_999


def sides_of(text):
    """The lower and the upper side of a copper file outside the profile, as `show` writes them, or None.

    This alone is of tools/: no command gives these two as files, and whole areas are compared with them.
    """
    sys.path.insert(0, os.path.join(TOP, "tools"))
    try:
        from boardnet_show.bounds.files import bounded_file
        from boardnet_show.geometry.exact import Refused
    finally:
        sys.path.pop(0)
    try:
        return [side.file_text().encode("latin-1") for side in bounded_file.of_text(text.decode("latin-1")).sides]
    except Refused:
        return None
