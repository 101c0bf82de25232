"""How far a build is: one line that is written anew on a terminal, one line a minute elsewhere."""
import os
import time


def clock(seconds):
    minutes, seconds = divmod(int(seconds), 60)
    hours, minutes = divmod(minutes, 60)
    return f"{hours}:{minutes:02}:{seconds:02}" if hours else f"{minutes}:{seconds:02}"


def every():
    """Seconds between two lines where there is no terminal."""
    try:
        return float(os.environ.get("BOARDNET_TELLS_EVERY", ""))
    except ValueError:
        return 60.0


class Progress:
    def __init__(self, crates, out):
        self.crates, self.out = len(crates), out
        self.is_terminal = out.isatty()
        self.every = 1 if self.is_terminal else every()
        self.left, self.at_work, self.width = len(crates), [], 0
        self.started = self.told = time.monotonic()

    def begin(self):
        print(
            f"boardnet: proving {self.crates} crates, and then building the program; it can be interrupted, and goes on there. "
            "Other calls answer by a trial build meanwhile",
            file=self.out,
            flush=True,
        )

    def text(self):
        what = "proving " + ", ".join(self.at_work) if self.at_work else "reading the sources"
        return f"boardnet: {self.crates - self.left} of {self.crates} crates proved, {clock(time.monotonic() - self.started)}, {what}"

    def tell(self):
        """Tells how far it is, where it is time to."""
        if time.monotonic() < self.told + self.every:
            return
        self.told = time.monotonic()
        if not self.is_terminal:
            print(self.text(), file=self.out, flush=True)
            return
        text = self.text()[: max(20, self.columns() - 1)]
        print("\r" + text.ljust(self.width), end="", file=self.out, flush=True)
        self.width = len(text)

    def columns(self):
        try:
            return os.get_terminal_size(self.out.fileno()).columns or 80
        except OSError:
            return 80

    def end(self):
        """Leaves an empty line to write on."""
        if self.is_terminal and self.width:
            print("\r" + " " * self.width + "\r", end="", file=self.out, flush=True)
            self.width = 0
