"""Mends of a netlist: its lines in the form of `check`, and names that stand for one whole name as one.

To `check` each name is one of its own.
"""
import re
from typing import Dict, List, Tuple

from boardnet_show.formats import ipc356

from . import netlist_forms
from .mend import Mend, short
from .table import ALIAS

NO_NET = ipc356.NO_NET.encode()
MOST_LAYERS = 99  # what the two digits of an access code hold
# A line of an alias in any letters, with zeros before its number.
LIKE_ALIAS = re.compile(rb"^P[ \t]*NNAME([0-9]{1,9})(?=[ \t])", re.M | re.I)
# A character by its number.
ESCAPE = re.compile(rb"\\[uU][0-9A-Fa-f]{4}")
ESCAPED = re.compile(r"\\U(000[0-9A-Fa-f]{5}|0010[0-9A-Fa-f]{4})|\\u([0-9A-Fa-f]{4})")
Groups = Dict[bytes, List[bytes]]


class Names:
    """What the names of records stand for. `whole` has the whole name of each, `unclear` why one is not known."""

    def __init__(self, data: bytes) -> None:
        self.unclear, found = "", list(ipc356.alias_lines(data))
        first = {it.alias: it.name for it in reversed(found)}
        self.full = {it.name for it in found if it.is_full}
        self.whole = {alias: name for alias, name in first.items() if name and name != alias}
        self.names = ipc356.fields(data).names if self.whole else []
        twice = {it.alias for it in found if it.name != first[it.alias]}
        for name in self.names:
            if name in twice:
                self.unclear = f"{name.decode()} stands for two names"
            elif self.whole.get(name) in self.whole:
                self.unclear = f"{name.decode()} stands for {self.whole[name].decode()}, which stands for another name"

    def groups(self) -> Groups:
        """{whole name: names of records that stand for it}, where there are several, or where it is no net."""
        found: Groups = {}
        for name in self.names:
            found.setdefault(self.whole.get(name, name), []).append(name)
        return {whole: its for whole, its in found.items() if len(its) > 1 or whole == NO_NET != its[0]}

    def judge(self, groups: Groups) -> None:
        """Says why names that look alike may be of two nets."""
        for whole, names in groups.items():
            first, second = (name.decode("latin-1") for name in names[:2]) if len(names) > 1 else ("", "")
            if whole in self.full:
                self.unclear = self.unclear or (
                    f"{first} and {second} stand for one name that fills its line, " "so that it may be cut"
                )
            if ipc356.ALIAS.fullmatch(whole) and whole not in self.whole and whole in names:
                self.unclear = self.unclear or (
                    f"{first} and {second} look like one name, " f"but no line says what {whole.decode()} stands for"
                )


def renamed(data: bytes) -> Tuple[Dict[bytes, bytes], str]:
    """({name: the name that is written for it}, why that is not clear)."""
    its = Names(data)
    groups = its.groups()
    its.judge(groups)
    new: Dict[bytes, bytes] = {}
    for whole, names in groups.items():
        wanted = whole if whole in names or whole == NO_NET else names[0]
        new.update({name: wanted for name in names if name != wanted})
    return new, its.unclear


def cut(data: bytes) -> str:
    """Why names that run on behind their columns may be of two nets, or nothing: the columns have what both begin
    with, be it the whole of one."""
    whole: Dict[bytes, bytes] = {}
    for name in ipc356.fields(data).long_names:
        other = whole.setdefault(name[: ipc356.NAME_WIDTH], name)
        if other != name:
            less, more = sorted((other, name), key=len)
            if len(less) <= ipc356.NAME_WIDTH:
                return f"{short(more)} runs on behind its columns, and is {short(less)} within them"
            return f"{short(other)} and {short(name)} run on behind their columns, and are one name within them"
    return ""


def without_line(data: bytes) -> str:
    """Which name has a line of aliases in other letters or digits alone, so that it may stand for what that says; or
    nothing."""
    said = {it.alias for it in ipc356.alias_lines(data)}
    alike = {int(number) for number in LIKE_ALIAS.findall(data)}
    its = (name for name in ipc356.fields(data).names if ipc356.ALIAS.fullmatch(name) and name not in said)
    found = next((name for name in its if int(name[len(b"NNAME") :]) in alike), None)
    return f"no line says what {short(found)} stands for, and one says it of a name like that" if found else ""


def characters(name: bytes) -> str:
    """A name in characters, be they written as such, by their numbers, or in parts."""
    import unicodedata  # few boards have such names

    text = ESCAPED.sub(lambda found: chr(int(found[1] or found[2], 16)), ipc356.text_of(name))
    return unicodedata.normalize("NFC", text)


def in_two_codings(data: bytes) -> str:
    """Which two names are written otherwise and are the same characters, so that they may be one net; or nothing."""
    if data.isascii() and not ESCAPE.search(data):
        return ""
    whole = Names(data).whole
    first: Dict[str, bytes] = {}
    for name in ipc356.fields(data).names:
        full = whole.get(name, name)
        other = first.setdefault(characters(full), full)
        if other != full:
            return f"{short(other)} and {short(full)} are the same characters, written in two ways"
    return ""


def unclear(data: bytes, layers: int = MOST_LAYERS) -> str:
    """Why it is not known which records are of one net, or nothing."""
    text = netlist_forms.mended(data, layers)[0]
    of_aliases = renamed(text)[1] or without_line(text) if b"NNAME" in text else ""
    return cut(text) or of_aliases or in_two_codings(text)


def mended(data: bytes, layers: int = MOST_LAYERS, last: int = 0) -> Tuple[bytes, List[Mend]]:
    """A netlist as it is mended, and its mends; the same bytes where there are none. `last` is a code that is read as
    the last layer."""
    text, found = netlist_forms.mended(data, layers, last)
    text, aliases = with_one_name(text)
    return text, sorted(found + aliases, key=line_of)


def line_of(mend: Mend) -> int:
    line: int = mend.line
    return line


def may_be_open(data: bytes, layers: int) -> bool:
    """Whether a mended netlist may leave open how it is read: without a unit that `check` takes, or with codes over the
    board's layers."""
    return ipc356.unit_of(data) is None or bool(netlist_forms.codes_over(data, layers))


def with_one_name(data: bytes) -> Tuple[bytes, List[Mend]]:
    """A netlist with one name for each whole name."""
    new, why = renamed(data) if b"NNAME" in data else ({}, "")
    if why or not new:
        return data, []
    lines = data.split(b"\n")
    found: Dict[bytes, List[int]] = {}
    for number, line in enumerate(lines, 1):
        name = ipc356.name_of(line)
        if name in new:
            lines[number - 1] = ipc356.with_name(line, new[name])
            found.setdefault(name, []).append(number)
    return b"\n".join(lines), [mend_of(name, new[name], numbers) for name, numbers in found.items()]


def mend_of(name: bytes, wanted: bytes, numbers: List[int]) -> Mend:
    what = f"stands for the same name as {wanted.decode('latin-1')}: written as that"
    return Mend(ALIAS, numbers[0], name.decode("latin-1"), len(numbers) - 1, what)
