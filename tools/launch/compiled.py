"""The scripts' modules as Python compiles them: a checkout keeps them among the user's files, and what is installed has them beside it.

    compiled.py FOLDER NAME..     writes those of sources, named from the current folder, into a folder under numbers
"""
import os
import sys


def base():
    return os.environ.get("XDG_CACHE_HOME") or os.path.join(os.path.expanduser("~"), ".cache")


def keep():
    """Has Python keep what it compiles in a folder to which nobody else can write, where there can be one and nothing forbids it."""
    folder = os.path.join(base(), "boardnet-python")
    if sys.pycache_prefix or os.environ.get("PYTHONDONTWRITEBYTECODE") or not os.path.isabs(folder):
        return
    try:
        os.makedirs(folder, 0o700, exist_ok=True)
        told = os.stat(folder)
    except OSError:
        return
    if told.st_uid == os.geteuid() and not told.st_mode & 0o022 and os.access(folder, os.W_OK):
        sys.pycache_prefix, sys.dont_write_bytecode = folder, False


def beside(name):
    """Where this Python looks for what it made of a source."""
    return os.path.join(
        os.path.dirname(name),
        "__pycache__",
        f"{os.path.basename(name)[:-len('.py')]}.{sys.implementation.cache_tag}.pyc",
    )


def of_sources(top, names):
    """What this Python makes of sources below a folder, by where it looks for that: the same bytes each time, since a new process makes
    them. They hold as long as the source has the same bytes."""
    import pathlib
    import subprocess
    import tempfile

    with tempfile.TemporaryDirectory() as folder:
        subprocess.run([sys.executable, "-I", "-B", os.path.abspath(__file__), folder, *names], cwd=top, check=True)
        return {beside(name): pathlib.Path(folder, str(k)).read_bytes() for k, name in enumerate(names)}


def main(folder, *names):
    import py_compile

    for k, name in enumerate(names):
        py_compile.compile(
            name,
            os.path.join(folder, str(k)),
            os.path.basename(name),
            True,
            invalidation_mode=py_compile.PycInvalidationMode.CHECKED_HASH,
        )


if __name__ == "__main__":
    main(*sys.argv[1:])
