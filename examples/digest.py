#!/usr/bin/env python3
"""digest.py FOLDER.. [--all FOLDER..]: the digest that `sctd digest` gives of a store into which
these folders of releases were imported, computed from their files alone. Those behind --all were
imported while the store was in layout 3, which keeps more files. Standard library alone."""
import hashlib
import itertools
import re
import sys
from collections.abc import Iterator
from pathlib import Path

KINDS = [("sct2_Concept_", "C"), ("sct2_Description_", "D"), ("sct2_Relationship_", "R"),
         ("der2_cRefset_Association", "A"), ("sct2_RelationshipConcreteValues_", "V")]
MORE_KINDS = [("sct2_TextDefinition_", "D"), ("(der2|sct2)_[cis]*Refset_", "M")]
ORDER = "CDRAVM"


def rows_of(folder: str | Path, is_whole: bool,
            sorts: str = "Full|Delta") -> Iterator[tuple[int, bytes, bytes]]:
    """The rows of a release: the place of the kind, the identifier, and the columns behind it."""
    kinds, refsets = KINDS + MORE_KINDS * is_whole, "*" if is_whole else "Content"
    for path in [*Path(folder).glob("Terminology/*.txt"),
                 *Path(folder).glob("Refset/%s/*.txt" % refsets)]:
        kind = next((kind for name, kind in kinds if re.match(name, path.name)), None)
        if kind and re.search(sorts, path.name):
            with open(path, "rb") as file:
                for line in itertools.islice(file, 1, None):
                    # (A line ends with LF or CR LF. Any other CR is a part of a column.)
                    line = line[:-2] if line.endswith(b"\r\n") else line.removesuffix(b"\n")
                    identifier, tab, columns = line.partition(b"\t")
                    # (A UUID may be spelled in capitals.)
                    yield ORDER.index(kind), identifier.lower(), tab + columns


if __name__ == "__main__":
    rows: set[tuple[int, int, bytes, bytes]] = set()
    for at, word in enumerate(sys.argv[1:], 1):
        for place, identifier, columns in rows_of(word, "--all" in sys.argv[:at]):
            rows.add((place, len(identifier), identifier, columns))
    digest = hashlib.sha256()
    for place, _, identifier, columns in sorted(rows):
        digest.update(ORDER[place].encode() + b" " + identifier + columns + b"\n")
    print(digest.hexdigest())
