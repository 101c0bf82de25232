"""Which kind of file some bytes are, by what they say and never by a name."""
import re

from boardnet_show.formats import ipc356

MARKS = (
    (b"\xef\xbb\xbf", "a byte order mark"),
    (b"\xff\xfe", "a byte order mark of UTF-16"),
    (b"\xfe\xff", "a byte order mark of UTF-16"),
)
GERBER = re.compile(rb"%(?:FS|MO|AD|TF|LN|IN|AM|LP)|^G04|^G0?1\*", re.M)
DRILL = re.compile(rb"\A(?:[ \t\r]*(?:;[^\n]*|%[ \t\r]*)?\n)*[ \t]*M48")
HOLE = re.compile(rb"^[ \t]*[XY][+-]?[0-9.]+", re.M)
OTHERS = (
    (b"PK\x03\x04", "it is a zip archive; give the archive itself in place of the folder"),
    (b"\x1f\x8b", "it is a gzip archive, which is not opened"),
    (b"Rar!", "it is a rar archive, which is not opened"),
    (b"7z\xbc\xaf", "it is a 7z archive, which is not opened"),
    (b"%PDF", "it is a PDF"),
    (b"\x89PNG", "it is a picture"),
    (b"(kicad_pcb", "it is a board of KiCad, and not its exports"),
    (b"{", "it is a JSON file, and no manifest is read here"),
)


class Look:
    """What a file looks like: kind is gerber, drill, netlist, empty or other; word says why it is another; mark is a
    byte order mark."""

    def __init__(self, kind, data=b"", word="", mark=""):
        self.kind, self.data, self.word, self.mark = kind, data, word, mark


def without_mark(data):
    """The data without a byte order mark, and the mark's name."""
    for mark, name in MARKS:
        if data.startswith(mark):
            if len(mark) == 3:
                return data[3:], name
            coding = "utf-16-le" if mark == b"\xff\xfe" else "utf-16-be"
            return data[2:].decode(coding, "replace").encode("utf-8"), name
    return data, ""


def look(data):
    """What these bytes are."""
    if not data:
        return Look("empty", word="it is empty")
    text, mark = without_mark(data)
    if not text.strip():
        return Look("empty", word="it has nothing but blanks", mark=mark)
    kind = kind_of(text)
    if kind != "other":
        return Look(kind, text, mark=mark)
    word = next((said for start, said in OTHERS if text.lstrip().startswith(start)), "")
    return Look("other", text, word or "it is no Gerber, drill or IPC-D-356A file", mark)


def kind_of(text):
    if DRILL.search(text):
        return "drill"
    if ipc356.is_netlist(text):
        return "netlist"
    if GERBER.search(text.lstrip()[:65536]) and b"*" in text:
        return "gerber"
    if HOLE.search(text):
        from boardnet_show.formats.drills.drill_headers import is_drilled  # few files have no `M48`

        return "drill" if is_drilled(text) else "other"
    return "other"
