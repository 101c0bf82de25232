"""Starts a script's command. Where Python lacks something, or a part of the script cannot be loaded, one line says so, and the status is
none that judges a board. It is read by any Python, however old."""
import os
import sys

NO_PYTHON, FAULT, INTERRUPTED, NOT_PROVED = 127, 70, 130, 75
# Statuses of an answer on a board. By a trial build that the caller did not ask for they are none.
ANSWERS = (0, 1, 11)
WANTED = (3, 8)


def say(words):
    """One line, where there is somewhere to write it."""
    try:
        sys.stderr.write("boardnet: %s\n" % " ".join(str(words).split()))
    except Exception:
        pass


def fault(name, why):
    """What is said of an exception, and the status."""
    words = "%s %s" % (type(why).__name__, why)
    if isinstance(why, ImportError) and not str(getattr(why, "path", None) or "").endswith(".py"):
        say("`%s` wants Python %d.%d or later with its whole library (%s)" % ((name,) + WANTED + (words,)))
        return NO_PYTHON
    say("a fault of `%s` itself, which is no answer on the board (%s): please report it" % (name, words))
    return FAULT


def loaded(module):
    """The function `main` of a module; what Python compiles is kept, where the launcher lies beside."""
    try:
        from launch import compiled

        compiled.keep()
    except Exception:
        pass  # what is installed has its modules compiled
    return __import__(module, None, None, ["main"]).main


def command(name, module):
    """Runs a command, and answers its status."""
    if sys.version_info < WANTED:
        say("`%s` wants Python %d.%d or later, and this is %d.%d" % ((name,) + WANTED + tuple(sys.version_info[:2])))
        return NO_PYTHON
    try:
        main = loaded(module)
    except KeyboardInterrupt:
        return INTERRUPTED
    except BaseException as why:
        return fault(name, why)
    try:
        status = main(sys.argv[1:])
        return NOT_PROVED if status in ANSWERS and os.environ.get("BOARDNET_TRIAL") == "unasked" else status
    except (KeyboardInterrupt, SystemExit):
        raise
    except BaseException as why:
        return fault(name, why)
