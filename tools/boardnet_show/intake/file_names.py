"""Names of files as they can be printed and as `check` takes them, and why no manifest is made."""
from boardnet_show.base.wording import printable


class Refused(Exception):
    """Why no manifest is written, with the way out."""


# What `check` takes: bytes of a file, and the characters of a name.
MOST_BYTES = 67_108_864


def shown(name: str) -> str:
    """A name as it can be printed wherever."""
    return printable(name).encode("ascii", "backslashreplace").decode("ascii")
