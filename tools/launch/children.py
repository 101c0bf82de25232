"""Commands that the launcher starts, and signals: what it started has ended when it ends."""
import contextlib
import os
import resource
import signal
import subprocess
import time

# Seconds that a command has to end in once it is told to.
PATIENCE = 20


def interrupt(*_):
    """Ends what runs, once: a signal that comes on top would end the clean-up too."""
    for number in heard():
        signal.signal(number, lambda *_: None)
    raise KeyboardInterrupt


def heard():
    """The signals that end a build; one that was ignored when it began stays so."""
    return [it for it in (signal.SIGINT, signal.SIGTERM, signal.SIGHUP) if signal.getsignal(it) is not signal.SIG_IGN]


@contextlib.contextmanager
def heard_later():
    """Signals that come meanwhile are heard at the end: so no command starts that nobody knows of, and what is begun to end does end."""
    noted = []
    handlers = [(it, signal.signal(it, lambda *_: noted.append(True))) for it in heard()]
    try:
        yield
    finally:
        for number, handler in handlers:
            signal.signal(number, handler)
    if noted:
        interrupt()


def seconds_of_children():
    """The seconds of processors of all children that ended."""
    used = resource.getrusage(resource.RUSAGE_CHILDREN)
    return used.ru_utime + used.ru_stime


class Child:
    """A command that runs in a folder; what it says goes to files. It stays in the terminal's group, so that Ctrl-Z reaches it."""

    def __init__(self, words, folder, out, environment, err=None):
        self.seconds = 0.0
        with open(out, "wb") as told, open(err or os.devnull, "wb") as notes:
            how = {"cwd": folder, "stdin": subprocess.DEVNULL, "stdout": told, "env": environment}
            with heard_later():
                self.running = subprocess.Popen(words, stderr=notes if err else subprocess.STDOUT, **how)

    def status(self):
        """How it ended, or None while it runs; `seconds` then are those of processors that it took, with all below it."""
        before = seconds_of_children()
        status = self.running.poll()
        self.seconds += seconds_of_children() - before
        return status

    def end(self):
        """A terminal tells the command to end too, a lone signal does not; what it started itself may outlive it."""
        if self.running.poll() is None:
            self.running.terminate()
            try:
                self.running.wait(PATIENCE)
            except subprocess.TimeoutExpired:
                self.running.kill()
                self.running.wait()


def inside(folder):
    """The processes that work in a folder or below it."""
    found, folder = [], os.path.realpath(folder)
    for name in os.listdir("/proc"):
        if name.isdigit() and int(name) != os.getpid():
            with contextlib.suppress(OSError):
                at = os.readlink(f"/proc/{name}/cwd")
                if at == folder or at.startswith(folder + os.sep):
                    found.append(int(name))
    return found


def end_inside(folder):
    """Ends whatever still works in a scratch folder of the launcher's own."""
    for _ in range(50):
        left = inside(folder)
        if not left:
            return
        for number in left:
            with contextlib.suppress(OSError):
                os.kill(number, signal.SIGKILL)
        time.sleep(0.1)
