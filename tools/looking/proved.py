"""Says which names behind the crates' own lists of what is proved aren't there.

In the head of a crate's lib.rt (main.rt, of a program) stands, behind "//! # Proved", a list of what is proved of it:

    //! - the claim, in words | `function`: `clause`, `clause`; the law `name`

A name behind the bar is a function, type, clause, field or definition of the claim's own crate, or of one that the claim names there; or
proved.txt, beside this file, says which crate has it, in a line `CRATE: CRATE has NAME ..`.
"""
import pathlib
import re

ROOT = pathlib.Path(__file__).resolve().parents[2]
ELSEWHERE = pathlib.Path(__file__).with_suffix(".txt")


def head_of(crate: pathlib.Path) -> list[tuple[str, str]]:
    """Returns what a crate's head says is proved, and where."""
    path = next(it for it in (crate / "src" / "lib.rt", crate / "src" / "main.rt") if it.exists())
    rows: list[str] = []
    is_in = False
    for line in path.read_text(encoding="utf-8").split("\n"):
        if not line.startswith("//!"):
            break
        text = line[3:].strip()
        if text == "# Proved":
            is_in = True
        elif is_in and text.startswith("- "):
            rows.append(text[2:])
        elif is_in and text:
            rows[-1] += " " + text
    return [(claim, where) for claim, _, where in (row.partition(" | ") for row in rows)]


def names_of(crate: str) -> set[str]:
    """Functions, types, clauses, fields and definitions of a crate, and its own name."""
    names = {crate}
    for path in ROOT.glob(f"crates/{crate}/src/**/*.rt"):
        text = path.read_text(encoding="utf-8")
        names |= set(re.findall(r"\b(?:fn|struct|enum|trait|type|const|ensures|requires|ghost|mod) ([A-Za-z_0-9]+)", text))
        names |= set(re.findall(r"^\s+(?:pub )?([A-Za-z_0-9]+)(?::|,$| \{)", text, re.M))
    for path in ROOT.glob(f"crates/{crate}/specs/**/*.antt"):
        names |= set(re.findall(r"\bpub (?:record |data )?([A-Za-z_][A-Za-z0-9_'-]*)", path.read_text(encoding="utf-8")))
    return names


def names_elsewhere() -> dict[str, dict[str, str]]:
    """Of each crate the names behind its claims that another one has, and which: the lines of proved.txt."""
    found: dict[str, dict[str, str]] = {}
    for crate, other, names in re.findall(r"^(\w+): (\w+) has (.+)$", ELSEWHERE.read_text(encoding="utf-8"), re.M):
        found.setdefault(crate, {}).update({it: other for it in names.split()})
    return found


def crates() -> list[pathlib.Path]:
    return sorted(it.parent for it in ROOT.glob("crates/*/src") if not it.parent.name.startswith(("test_", "bench_")))


def lost_names(crate: str, elsewhere: dict[str, str]) -> list[str]:
    """Returns what is wrong with the names behind a crate's claims."""
    said, own, unused = [], names_of(crate) | {"Display"}, set(elsewhere)
    for claim, where in head_of(ROOT / "crates" / crate):
        if not where:
            said.append(f"{crate}: without a place: {claim}")
        quoted = re.findall(r"`([^`]+)`", where)
        named = {part for it in quoted for part in it.split("::") if (ROOT / "crates" / part).is_dir()}
        known = own.union(*(names_of(it) for it in named))
        for it in quoted:
            has = names_of(elsewhere[it]) if it in elsewhere else known
            unused.discard(it)
            if re.fullmatch(r"[A-Za-z_:]+", it) and not set(it.split("::")) <= has:
                said.append(f"{crate}: {elsewhere.get(it, 'it')} has no {it}: {claim[:60]}")
    return said + [f"tools/looking/proved.txt: no claim of {crate} names {it}" for it in sorted(unused)]


GOOD = "each name behind the crates' lists of what is proved is there"


def faults() -> list[str]:
    """Returns what is wrong with the heads."""
    elsewhere = names_elsewhere()
    return [it for crate in crates() for it in lost_names(crate.name, elsewhere.get(crate.name, {}))]
