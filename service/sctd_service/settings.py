"""The words of a command, of which some stand in a file of settings.

`--config FILE` stands for the options that the command's table of the file has, in TOML: `[hub]`
for sctd-hub and `[gateway]` for sctd-gateway. A key is an option without its dashes. `true` gives
it without a value, `false` leaves it out, and a list gives it once for each value. Options behind
`--config FILE` count more than those of the file, and those before it less, as with options that
are given twice. `--version` says from which commit the package was made.
"""

import argparse
import tomllib
from collections.abc import Iterator, Sequence
from pathlib import Path

from . import VERSION

OPTION = "--config"
# The tables that a file may have.
TABLES = ("hub", "gateway")
# What says from which commit a package was made. A clone has none.
COMMIT = Path(__file__).with_name("commit")


def parsed(parser: argparse.ArgumentParser, table: str, words: Sequence[str]) -> argparse.Namespace:
    """What the words say, with those of their files. A fault in one ends the command with 2."""
    parser.add_argument(OPTION, metavar="FILE", help="a file with further options, in TOML")
    parser.add_argument("--version", action="version", version=version_of(parser.prog))
    try:
        return parser.parse_args(list(with_files(words, table)))
    except (OSError, ValueError) as why:
        parser.error(str(why))


def version_of(command: str) -> str:
    commit = COMMIT.read_text("utf-8").strip() if COMMIT.exists() else "in a clone"
    return "%s %s, %s" % (command, VERSION, commit)


def with_files(words: Sequence[str], table: str) -> Iterator[str]:
    """The words, with what each file says in its place."""
    rest = iter(words)
    for word in rest:
        option, _, path = word.partition("=")
        if option != OPTION:
            yield word
            continue
        path = path or next(rest, "")
        if not path:
            raise ValueError("%s needs a file" % OPTION)
        yield from words_of_file(path, table)


def words_of_file(path: str, table: str) -> Iterator[str]:
    with open(path, "rb") as file:
        try:
            settings = tomllib.load(file)
        except ValueError as why:
            raise ValueError("%s: %s" % (path, why)) from None
    for name, options in settings.items():
        if name not in TABLES or not isinstance(options, dict):
            raise ValueError("%s: %s is neither [%s]" % (path, name, "] nor [".join(TABLES)))
    for key, value in settings.get(table, {}).items():
        for one in value if isinstance(value, list) else [value]:
            yield from option_of(path, key, one)


def option_of(path: str, key: str, value: object) -> Iterator[str]:
    if isinstance(value, bool):
        if value:
            yield "--" + key
    elif isinstance(value, (str, int)):
        yield "--%s=%s" % (key, value)
    else:
        raise ValueError("%s: %s is no text, number, true, false or list of these" % (path, key))
