"""What is being done and for how long: a line that is written anew on a terminal, and nothing elsewhere."""
import sys
import time
from typing import Optional, TextIO

from .wording import printable


class Progress:
    """Tells on standard error; `quiet` tells nothing."""

    def __init__(self, out: Optional[TextIO] = None, quiet: bool = False) -> None:
        self.out = out or sys.stderr
        self.is_told = not quiet and self.out.isatty()
        self.says, self.width, self.started = "", 0, time.monotonic()

    def begin(self, words: str) -> None:
        self.says = printable(words)
        self.tell()

    def step(self, words: str, number: int, count: int) -> None:
        """What is done of several things, and how far it is."""
        self.begin(f"{words} {number} of {count}")

    def tell(self) -> None:
        if not self.is_told:
            return
        text = f"boardnet: {self.says}, {int(time.monotonic() - self.started)} s"[:78]
        print("\r" + text.ljust(self.width), end="", file=self.out, flush=True)
        self.width = len(text)

    def end(self) -> None:
        """Leaves an empty line to write on."""
        if self.is_told and self.width:
            print("\r" + " " * self.width + "\r", end="", file=self.out, flush=True)
            self.width = 0
