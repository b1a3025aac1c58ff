#!/usr/bin/env python3
"""Writes the rows into crates/test_rows/data, which plays them.

write_rows.py          writes the configurations, the rows said by hand here, the random scripts and vectors.txt
write_rows.py --check  changes nothing; fails where a file isn't what would be written

In each case broker.py plays every row: those that are written, and those that stand in that folder alone, as given or
written by hand; a row is refused where it answers otherwise.
"""
import pathlib
import sys
from configurations import CONFIGURATIONS
from random_files import FILES, file_text
from row import Differs, Row, check, parts_of
from vectors import text as vectors
import access, addresses, arrivals, held_replies, identifiers, logins, realms, replies, requests, rests, reverse, servers

ROWS = pathlib.Path(__file__).resolve().parent
DATA = ROWS.parent / "crates" / "test_rows" / "data"


def written():
    """The text of each file that is written."""
    files = {DATA / "rows" / f"{row.name}.row": row.text() for row in Row.rows}
    for folder, is_refused in (("rows", True), ("random", False)):
        files |= {DATA / folder / f"{name}.rows": file_text(name, is_refused) for name in FILES}
    there = [path.read_text() for path in DATA.glob("r*/*") if path not in files]
    named = {name for text in [*files.values(), *there] for name, _ in parts_of(text)}
    files |= {DATA / "configurations" / f"{name}.conf": CONFIGURATIONS[name] for name in sorted(named)}
    return files | {ROWS / "vectors.txt": vectors()}


def is_said_elsewhere(path, text):
    """Whether a row stands in the data alone."""
    return path.suffix == ".row" and text.startswith(("# Given", "# Written by hand"))


def differences(name, text):
    """How many rows of a file broker.py answers otherwise: none, or one, which it tells."""
    try:
        check(name, text)
    except Differs as differs:
        print(differs)
        return 1
    return 0


def sent_for(realm, path):
    """The lines of the packets that a file's rows send for a realm."""
    return [line for line in path.read_text().split("\n") if line.startswith(f"#> {realm} ")]


def write(files, stale):
    """Writes what isn't there."""
    for path in stale:
        print(f"{path.name}: {len(files[path])} octets")
        path.write_text(files[path])


def main(words):
    is_check = words == ["--check"]
    if words not in ([], ["--check"]):
        print(__doc__)
        return 2
    files = written()
    stale = [path for path, text in files.items() if not path.exists() or path.read_text() != text]
    problems = len(stale) if is_check else 0
    for path in stale if is_check else []:
        print(f"{path.name} isn't what is written")
    if not is_check:
        write(files, stale)
    for path in sorted(DATA.glob("r*/*")):
        text = path.read_text()
        if path not in files and not is_said_elsewhere(path, text):
            print(f"{path.name} is written by nobody")
            problems += 1
        problems += differences(path.name, text)
    if sent_for(1, DATA / "rows" / "one-world.row") != sent_for(1, DATA / "rows" / "other-world.row"):
        print("the second realm isn't the same in two worlds")
        problems += 1
    return 1 if problems else 0


if __name__ == "__main__":
    sys.exit(main(sys.argv[1:]))
