"""The help text as other texts: a man page, and completions of bash and zsh.

tools/help.txt is the one place that has the words. Each section begins with a line `= HEAD`; the heads of commands begin
with the command, the other sections are boardnet, files and status. The first line of a command says what it does.
"""
import os
import re

TOOLS = os.path.dirname(os.path.dirname(os.path.abspath(__file__)))
OTHER = ("boardnet", "files", "status")
# Of what is installed: where the pages lie that the help names.
PAGES = (
    "Pages named docs/.. lie in share/doc/boardnet, beside the folder of the command, with boards to try in its folder examples.",
)


def sections():
    """Each head with its lines, in order."""
    found = []
    with open(os.path.join(TOOLS, "help.txt"), encoding="ascii") as file:
        for line in file.read().splitlines():
            if line.startswith("= "):
                found.append((line[2:], []))
            else:
                found[-1][1].append(line)
    return [(head, "\n".join(lines).strip("\n").split("\n")) for head, lines in found]


def commands():
    """Each command: its head, what it does, and the paragraphs of its page."""
    return [(head, lines[0], "\n".join(lines[1:]).strip("\n")) for head, lines in sections() if head not in OTHER]


def is_of_the_installed(head):
    """Whether the command is there where only the program and its tools are."""
    return head.split()[0] not in ("prove", "install", "package")


def installed():
    """The help text without what the repository alone can do, and with the place of the pages that it names."""
    kept = [
        (head, [*lines, *PAGES] if head == "files" else lines)
        for head, lines in sections()
        if is_of_the_installed(head)
    ]
    return "\n".join("\n".join([f"= {head}", *lines, ""]) for head, lines in kept)


def other(name):
    return next(lines for head, lines in sections() if head == name)


def roff(text):
    """A text in which roff sees no command."""
    lines = text.replace("\\", "\\e").replace("-", "\\-").split("\n")
    return "\n".join("\\&" + line if line.startswith((".", "'")) else line for line in lines)


def filled(text):
    """Paragraphs; one that is set in from the left stays as written."""
    return "\n.PP\n".join(
        as_written(part.split("\n")) if part.startswith(" ") else roff(part) for part in text.split("\n\n")
    )


def as_written(lines):
    return ".nf\n" + roff("\n".join(lines)) + "\n.fi"


def man(release):
    title, about = other("boardnet")[0].split(": ", 1)
    kept = [it for it in commands() if is_of_the_installed(it[0])]
    parts = [
        f'.TH BOARDNET 1 "" "boardnet {release}" "User commands"',
        ".SH NAME",
        f"{title} \\- {roff(about)}",
        ".SH SYNOPSIS",
    ]
    parts += [f".B boardnet {roff(head)}\n.br" for head, _, _ in kept] + [
        ".B boardnet [COMMAND] \\-\\-help | \\-\\-version",
        ".SH COMMANDS",
    ]
    for head, does, text in kept:
        parts += [f".SS boardnet {roff(head)}", roff(does[:1].upper() + does[1:]) + ".", ".PP", filled(text)]
    parts += [".SH FILES", as_written([*other("files"), *PAGES]), ".SH EXIT STATUS", as_written(other("status"))]
    return "\n".join(parts) + "\n"


BASH = r"""# Completion of boardnet for bash.
_boardnet() {
  local word=${COMP_WORDS[COMP_CWORD]}
  if [ "$COMP_CWORD" = 1 ]; then
    COMPREPLY=($(compgen -W "@NAMES@ --help --version" -- "$word"))
  elif [ "${word#-}" != "$word" ]; then
    case ${COMP_WORDS[1]} in
@OPTIONS@
      *) COMPREPLY=($(compgen -W "--help" -- "$word")) ;;
    esac
  else
    compopt -o filenames
    case ${COMP_WORDS[1]} in
@NONE@
      *) mapfile -t COMPREPLY < <(compgen -f -- "$word") ;;
    esac
  fi
}
complete -F _boardnet boardnet
"""

ZSH = """#compdef boardnet
# Completion of boardnet for zsh.
local -a commands options
commands=(
@COMMANDS@
)
options=('--help:prints all commands' '--version:prints the release, the commit, the toolchain and the sum of the sources')
if (( CURRENT == 2 )); then
  _describe command commands
  _describe -o option options
else
  case $words[2] in
@OPTIONS@
    *) _arguments '--help[prints the page of the command]' '*:file:_files' ;;
  esac
fi
"""


def options_of(head, text):
    """The options in a head or in the lines of its page, each with the name of its value or nothing."""
    words = head.replace("[", " ").replace("]", " ").split()
    found = [(word, next(iter(words[at + 1 : at + 2]), "")) for at, word in enumerate(words) if word.startswith("--")]
    return found + re.findall(r"^  (--[a-z-]+) ([A-Z]*)", text, re.M)


def takes_files(head):
    """Whether words of a command name files or folders, by what its head calls them."""
    return any(word in head for word in ("MANIFEST", "REAL", "FILE", "FOLDER", "PATH"))


def bash():
    kept = [(head, options_of(head, page)) for head, _, page in commands() if is_of_the_installed(head)]
    names = " ".join(head.split()[0] for head, _ in kept)
    options = [
        f'      {head.split()[0]}) COMPREPLY=($(compgen -W "--help {" ".join(name for name, _ in found)}" -- "$word")) ;;'
        for head, found in kept
        if found
    ]
    none = "|".join(head.split()[0] for head, _ in kept if not takes_files(head))
    text = BASH.replace("@NAMES@", names).replace("@OPTIONS@", "\n".join(options))
    return text.replace("@NONE@", f"      {none}) ;;" if none else "")


def zsh():
    kept = [(head, does, options_of(head, page)) for head, does, page in commands() if is_of_the_installed(head)]
    lines = ["  '" + f"{head.split()[0]}:{does}".replace("'", "'\\''") + "'" for head, does, _ in kept]
    options = []
    for head, _, found in kept:
        words = ["'--help[prints the page of the command]'"]
        words += [f"'{name}[]" + (":file:_files'" if value.isupper() else "'") for name, value in found]
        words += ["'*:file:_files'"] if takes_files(head) else []
        if found or not takes_files(head):
            options.append(f"    {head.split()[0]}) _arguments {' '.join(words)} ;;")
    return ZSH.replace("@COMMANDS@", "\n".join(lines)).replace("@OPTIONS@", "\n".join(options))


def release():
    with open(os.path.join(TOOLS, "release"), encoding="ascii") as file:
        return file.read().strip()
