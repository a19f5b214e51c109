"""The manual pages and the completions, made from what the commands say of themselves and from a
chapter of docs/OPERATE.md, so that nothing has to be written twice."""

from __future__ import annotations

import ast
import re
from collections.abc import Iterator, Sequence
from shlex import quote
from typing import NamedTuple

# A line of a help text about an option: its name, its value and what it does.
OPTION = re.compile(
    r"^ +(?:-\w, )?--(?P<name>[\w-]+)(?: <?(?P<value>[A-Z][A-Z.,=]*)>?)?(?: {2,}(?P<what>.*))?$",
    re.MULTILINE,
)
# A line about a command, in the part of the help that lists them.
COMMAND = re.compile(r"^  (\w+) {2,}(.*)$", re.MULTILINE)
# What stands for the name of a file or of a folder.
FILES, FOLDERS = ("FILE", "NEW", "PATH", "SCTD"), ("DIR",)
FENCE, BULLET = re.compile(r"^```"), re.compile(r"^- ")
CELLS = re.compile(r"(?<!\\)\|")
LINK = re.compile(r"\[([^]]*)\]\([^)]*\)", re.DOTALL)


class Option(NamedTuple):
    """An option of a command, the name of its value (or nothing), and what it does."""

    name: str
    value: str
    what: str


class Command(NamedTuple):
    """A command, or a command of the program as `sctd init`; its help and its options."""

    words: str
    help: str

    def options(self) -> list[Option]:
        return [Option(*(found[part] or "" for part in ("name", "value", "what")))
                for found in OPTION.finditer(self.help)]


def commands_of(help_text: str) -> list[str]:
    """The commands that the program's help lists."""
    listed = help_text.partition("Commands:\n")[2].partition("\n\n")[0]
    return [name for name, _ in COMMAND.findall(listed) if name != "help"]


def escaped(text: str) -> str:
    """A text as a manual page writes it. A hyphen is that of an option."""
    text = text.replace("\\", "\\e").replace("-", "\\-")
    return re.sub(r"^([.'])", r"\\&\1", text, flags=re.MULTILINE)


def heading(name: str, section: int, version: str) -> str:
    return '.TH "%s" "%d" "" "sctd %s" "sctd"\n' % (escaped(name.upper()), section, version)


def literal(text: str) -> str:
    """Some lines, each as it is."""
    return ".EX\n%s\n.EE\n" % escaped(text.strip("\n"))


def part(title: str, text: str) -> str:
    return '.SH "%s"\n%s' % (title, text)


def named(name: str, what: str) -> str:
    return part("NAME", "%s \\- %s\n" % (escaped(name), escaped(what)))


def paragraphs(text: str) -> str:
    """Paragraphs, of which indented ones are literal, as a docstring has them."""
    parts = re.split(r"\n{2,}", text.strip("\n"))
    return "".join(
        literal(one) if one.startswith("  ") else ".PP\n%s\n" % escaped(plain(one)) for one in parts
    )


def plain(text: str) -> str:
    """A text of Markdown without links and marks."""
    return LINK.sub(r"\1", text).replace("`", "").replace("**", "")


def program_page(program: Command, commands: Sequence[Command], version: str) -> str:
    """The page of the program: what it does, and the help of each command."""
    what = program.help.split("\n", maxsplit=1)[0]
    parts = [heading(program.words, 1, version),
             named(program.words, "the release history of a SNOMED CT terminology"),
             part("DESCRIPTION", escaped(what) + ".\n" + literal(program.help.partition("\n")[2]))]
    for command in commands:
        parts.append(part(command.words.upper(), literal(command.help)))
    return "".join(parts) + see_also("sctd-hub(8)", "sctd-gateway(8)", "sctd.conf(5)")


def service_page(command: Command, source: str, version: str) -> str:
    """The page of a command of the service: its module's own text, and its help."""
    first, _, rest = (ast.get_docstring(ast.parse(source)) or "").partition("\n")
    about, _, details = rest.strip("\n").partition("\n\n")
    if about.startswith((" ", command.words)):
        rest = details
    return "".join((
        heading(command.words, 8, version),
        named(command.words, plain(first).rstrip(".").replace(". ", "; ")),
        part("SYNOPSIS", literal(command.help.partition("\n\n")[0].removeprefix("usage: "))),
        part("DESCRIPTION", paragraphs(rest)),
        part("OPTIONS", literal(command.help.partition("options:\n")[2])),
        see_also("sctd(1)", "sctd.conf(5)")))


def settings_page(document: str, title: str, version: str) -> str:
    """The page of the file of settings: a chapter of a document."""
    chapter = re.search(r"^### %s\n(.*?)^##" % re.escape(title), document, re.M | re.S)
    assert chapter
    return "".join((
        heading("sctd.conf", 5, version),
        named("sctd.conf", "settings of the service of sctd"),
        part("DESCRIPTION", "".join(blocks(chapter[1]))),
        part("FILES", ".I /etc/sctd/sctd.conf\n"),
        see_also("sctd\\-hub(8)", "sctd\\-gateway(8)")))


def see_also(*pages: str) -> str:
    links = ", ".join(".BR".join(("", " %s (%s" % tuple(page.split("(")))) for page in pages)
    pages_of_docs = "The guide is in /usr/share/doc/sctd, from START.md.gz on.\n"
    return part("SEE ALSO", links.replace(", .BR", " ,\n.BR") + "\n.PP\n" + pages_of_docs)


def blocks(text: str) -> Iterator[str]:
    """The blocks of a chapter in Markdown: paragraphs, lists, tables and literal lines."""
    for block in re.split(r"\n{2,}", text.strip("\n")):
        if FENCE.match(block):
            yield literal("\n".join(block.split("\n")[1:-1]))
        elif block.startswith("|"):
            yield "".join(rows(block))
        elif BULLET.match(block):
            yield "".join(".IP \\(bu 2\n%s\n" % escaped(plain(" ".join(one.split())))
                          for one in re.split(r"^- ", block, flags=re.M)[1:])
        else:
            yield ".PP\n%s\n" % escaped(plain(block))


def rows(table: str) -> Iterator[str]:
    """A table of three columns: what something is stands in the last one. The head of the first one
    is the heading of all, and that of the second one stands before each of its cells."""
    (title, middle, _), _, *lines = [
        [escaped(plain(cell.strip())) for cell in CELLS.split(line)[1:-1]]
        for line in table.split("\n")]
    yield ".SS %s\n" % title
    for name, cell, what in lines:
        yield ".TP\n.B %s\n%s. %s: %s.\n" % (name, what, middle, cell)


BASH = """# Completes the words of sctd, sctd-hub and sctd-gateway in bash. Made from their help.
_sctd_words() {
    case "$1" in
%s
    esac
}
_sctd() {
    local word=${COMP_WORDS[COMP_CWORD]} last=${COMP_WORDS[COMP_CWORD-1]} of=${1##*/}
    if [[ $of == sctd && $COMP_CWORD -gt 1 ]]; then of="sctd ${COMP_WORDS[1]}"; fi
    case "$last" in
        %s) compopt -o filenames 2> /dev/null; mapfile -t COMPREPLY < <(compgen -f -- "$word") ;;
        %s) compopt -o filenames 2> /dev/null; mapfile -t COMPREPLY < <(compgen -d -- "$word") ;;
        *) mapfile -t COMPREPLY < <(compgen -W "$(_sctd_words "$of")" -- "$word") ;;
    esac
}
complete -o bashdefault -F _sctd sctd sctd-hub sctd-gateway
"""


def bash_completion(program: Sequence[Command], others: Sequence[Command]) -> str:
    """What bash completes, for the program, each of its commands, and the service's commands."""
    everything = [*program, *others]
    first = " ".join(command.words.partition(" ")[2] for command in program[1:])
    lines = ["        %s) echo %s ;;" % (quote(one.words), quote(completed(one, first)))
             for one in everything]
    options = {option for one in everything for option in one.options()}
    return BASH % ("\n".join(lines), with_value(options, FILES), with_value(options, FOLDERS))


def completed(command: Command, first: str) -> str:
    """The words that may follow a command."""
    options = " ".join("--" + option.name for option in command.options())
    return "%s %s" % (first, options) if command.words == "sctd" else options


def with_value(options: set[Option], values: Sequence[str]) -> str:
    """The options with such a value, as a pattern of the shell."""
    return "|".join(sorted({"--" + option.name for option in options if option.value in values}))


ZSH = """#compdef sctd sctd-hub sctd-gateway
# Completes the words of sctd, sctd-hub and sctd-gateway in zsh. Made from their help.
_sctd() {
    local of=$service
    if [[ $of == sctd && $CURRENT -gt 2 ]]; then of="sctd $words[2]"; fi
    case "$of" in
%s
    esac
}
_sctd "$@"
"""


def zsh_completion(program: Sequence[Command], others: Sequence[Command]) -> str:
    first = " ".join(command.words.partition(" ")[2] for command in program[1:])
    everything = [*program, *others]
    lines = ["        %s) _arguments %s ;;" % (quote(one.words), zsh_arguments(one, first))
             for one in everything]
    return ZSH % "\n".join(lines)


def zsh_arguments(command: Command, first: str) -> str:
    arguments = ["'--%s[%s]%s'" % (option.name, zsh_text(option.what), zsh_value(option))
                 for option in command.options()]
    if command.words == "sctd":
        arguments.append("'1:command:(%s)'" % first)
    elif command.words == "sctd import":
        arguments.append("'*:release:_files -/'")
    return " ".join(arguments)


def zsh_text(text: str) -> str:
    """A text as zsh has it between brackets and single quotation marks."""
    return re.sub(r"([\[\]:])", r"\\\1", text).replace("'", "'\\''")


def zsh_value(option: Option) -> str:
    if not option.value:
        return ""
    files = "_files -/" if option.value in FOLDERS else "_files" if option.value in FILES else " "
    return ":%s:%s" % (option.value, files)
