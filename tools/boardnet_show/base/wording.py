"""How lengths, counts and lists are said."""
from typing import Iterable, Optional


def printable(text: str) -> str:
    """A text as it is told wherever: controls, marks of direction, other ends of lines and halves of characters, which
    names in files may have, are written by their numbers, since on a terminal or a page they hide or turn round what
    stands beside them."""
    return text if text.isprintable() else "".join(it if it.isprintable() else numbered(ord(it)) for it in text)


def numbered(code: int) -> str:
    """A character by its number; a byte of a name that is no UTF-8 by that."""
    if 0xDC80 <= code <= 0xDCFF:
        return f"\\x{code - 0xdc00:02x}"
    return f"\\u{code:04x}" if code <= 0xFFFF else f"\\U{code:08x}"


def with_ends(text: str) -> str:
    """A text whose blanks at its ends count, in a line where they would say nothing."""
    inner = text.strip(" ")
    before = len(text) - len(text.lstrip(" ")) if inner else len(text)
    return numbered(32) * before + inner + numbered(32) * (len(text) - before - len(inner))


def in_lines(text: str) -> str:
    """The same of a text of several lines."""
    return text if text.isprintable() else "\n".join(map(printable, text.split("\n")))


def millimetres(u: int) -> str:
    """Exact, with three decimals or as many more as it takes."""
    sign, u = "-" if u < 0 else "", abs(u)
    tail = f"{u % 10_000_000:07d}"
    return f"{sign}{u // 10_000_000}.{tail[:3]}{tail[3:].rstrip('0')}"


def at_most(length: float) -> str:
    """A length in u that is a fraction, in millimetres rounded up to a micrometre."""
    return millimetres(-int(-length // 10_000) * 10_000)


def spoken(words: Iterable[str], most: int = 6) -> str:
    """Words as a list in a sentence; of many the first."""
    words = list(words)
    if len(words) > most:
        words = words[:most] + [f"{len(words) - most} more"]
    return words[0] if len(words) == 1 else ", ".join(words[:-1]) + " and " + words[-1]


def counted(number: int, one: str, many: Optional[str] = None) -> str:
    return f"{number} {one if number == 1 else many or one + 's'}"
