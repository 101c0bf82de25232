"""A folder of our own for the time of one board. The library has the same in two modules that take longer to load
than a small board."""
import os

PLACES = ("TMPDIR", "TEMP", "TMP")
COMMON = ("/tmp", "/var/tmp", "/usr/tmp", ".")


def name() -> str:
    """A name that nobody else has."""
    return f"boardnet-{os.urandom(8).hex()}"


def made() -> str:
    """A new folder that its owner alone can open, in the first place that takes one."""
    places = [*filter(None, map(os.environ.get, PLACES)), *COMMON]
    for place in places:
        path = os.path.join(os.path.abspath(place), name())
        try:
            os.mkdir(path, 0o700)
            return path
        except OSError as error:
            fault = error
    raise fault


def remove(folder: str) -> None:
    """Removes a folder with all that is in it; what links lead to stays."""
    with os.scandir(folder) as found:
        entries = list(found)
    for it in entries:
        if it.is_dir(follow_symlinks=False):
            remove(it.path)
        else:
            os.remove(it.path)
    os.rmdir(folder)


class Scratch:
    def __enter__(self) -> str:
        self.folder = made()
        return self.folder

    def __exit__(self, *_: object) -> None:
        remove(self.folder)
