"""Writes docs/ASKED.md from docs/asked.txt: each point that the project is asked for, and where it stands.

Lines that begin with > are words of the page; under a heading stand points, each so:

    - the point, in words
      by: CRATE/FILE NAME: CLAUSE ..; CRATE/FILE NAME
      is: WORD, and behind it the words that say what is missing
      shown: CRATE/MISTAKE; packaging/tests/TRIAL

FILE is one of the crate's src, or with specs/ before it one of its definitions; NAME is a function, law, type or definition there; CLAUSE is
one of its clauses, or a part of its statement; `by: none` says that no contract speaks of it. WORD is one of STATES. `{counts}` in the
page's words is how many points of each state there are. MISTAKE is an edit of mistakes/CRATE, without its ending. `shown` may be absent.
Wrong is a file, name, clause, mistake or trial that isn't there, and a point without `by` or with another state.
"""
import pathlib
import re

ROOT = pathlib.Path(__file__).resolve().parents[2]
LIST = ROOT / "docs" / "asked.txt"
PAGE = ROOT / "docs" / "ASKED.md"
MARK = "<!-- Made by tools/pages.py from docs/asked.txt: change that. -->\n"
STATES = {"whole": "whole", "part": "proved in part", "tested": "tested", "refused": "wrong bodies refused"}
TABLE = "| asked | contract or law | whole, or what is missing | kept mistakes and trials |\n|---|---|---|---|"


class Point:
    """One point of the list: its words, and its lines by their first word."""

    def __init__(self, words: str):
        self.words, self.lines = words, {}

    def cited(self) -> list[tuple[pathlib.Path, str, list[str]]]:
        """Returns the contracts and laws: file, name, clauses."""
        found = []
        if self.lines.get("by") == "none":
            return found
        for item in filter(None, map(str.strip, self.lines.get("by", "").split(";"))):
            place, _, rest = item.partition(" ")
            name, clauses = re.match(r"(\w+(?:::\w+)*)(?:: )?(.*)", rest).groups()
            crate, _, file = place.partition("/")
            path = f"{crate}/{file}.antt" if file.startswith("specs/") else f"{crate}/src/{file}.rt"
            found.append((ROOT / "crates" / path, name, clauses.split()))
        return found

    def state(self) -> str:
        """Returns the first word of what is proved of it."""
        return re.match(r"\w*", self.lines.get("is", "")).group()

    def shown(self) -> list[pathlib.Path]:
        """Returns the mistakes and trials."""
        items = filter(None, map(str.strip, self.lines.get("shown", "").split(";")))
        return [ROOT / it if it.startswith(("packaging/", "crates/")) else ROOT / "mistakes" / f"{it}.edit" for it in items]


def read() -> list[str | Point]:
    """Returns the page's words and headings, and the points, in order."""
    found: list[str | Point] = []
    key = ""
    for line in LIST.read_text(encoding="utf-8").split("\n"):
        if line.startswith(">"):
            found.append(line[1:].removeprefix(" "))
        elif line.startswith("## "):
            found.append(line)
        elif line.startswith("- "):
            found.append(Point(line[2:]))
            key = ""
        elif line.startswith("  "):
            named = re.match(r"  (by|is|shown): (.*)", line)
            key, text = named.groups() if named else (key, line.strip())
            if key:
                found[-1].lines[key] = f"{found[-1].lines.get(key, '')} {text}".strip()
            else:
                found[-1].words += " " + text
    return found


def link_to(path: pathlib.Path) -> str:
    """Returns a mistake as its function and words, in bold type where the gate may choose it, or a trial by its name."""
    function, _, words = path.stem.partition("-")
    text = f"`{function}`: {words.replace('_', ' ')}" if path.suffix == ".edit" else path.name
    mark = "**" if path.suffix == ".edit" and path.exists() and re.search("^only: ", path.read_text(encoding="utf-8"), re.M) else ""
    return f"{mark}[{text}](../{path.relative_to(ROOT)}){mark}"


def row_of(point: Point) -> str:
    """Returns a row of the page."""
    by = "; ".join(f"[`{name}`](../{path.relative_to(ROOT)})" + (": " + ", ".join(f"`{it}`" for it in clauses) if clauses else "")
                   for path, name, clauses in point.cited())
    shown = "; ".join(map(link_to, point.shown()))
    return f"| {point.words} | {by or 'none'} | {point.lines.get('is', '')} | {shown} |".replace("|  |", "| |")


def written() -> str:
    """Returns the page."""
    page, is_table = [MARK], False
    for it in read():
        if isinstance(it, Point):
            page += [] if is_table else [TABLE]
            page.append(row_of(it))
        else:
            page += [f"\n{it}\n"] if it.startswith("## ") else [it]
        is_table = isinstance(it, Point)
    states = [it.state() for it in read() if isinstance(it, Point)]
    counts = ", ".join(f"{states.count(word)} {said}" for word, said in STATES.items())
    return re.sub(r"\n{3,}", "\n\n", "\n".join(page)).replace("{counts}", f"Of {len(states)} rows: {counts}.").rstrip("\n") + "\n"


def missing_in(path: pathlib.Path, name: str, clauses: list[str]) -> list[str]:
    """Returns what a file doesn't have of a cited name and its clauses."""
    if not path.exists():
        return [f"{path.relative_to(ROOT)} isn't there"]
    text = path.read_text(encoding="utf-8")
    first, _, second = name.rpartition("::")
    said = [] if re.search(rf"\b(?:fn|struct|enum|trait|type|const|record|data|pub) {second}\b", text) else [second]
    said += [first] if first and not re.search(rf"\b{first}\b", text) else []
    crate = path.relative_to(ROOT / "crates").parts[0]
    statements = "".join(it.read_text(encoding="utf-8") for it in (ROOT / "crates" / crate / "specs").rglob("*.antt"))
    said += [it for it in clauses if not re.search(rf"\b(?:ensures|requires|ghost) {it}\b", text) and not re.search(rf"\bpub {it}\b", statements)]
    return [f"{path.relative_to(ROOT)} has no {it}" for it in said]


def faults() -> list[str]:
    """Returns what is cited and isn't there."""
    said = []
    for point in (it for it in read() if isinstance(it, Point)):
        wrong = [f"no line `{it}:`" for it in ("by", "is") if it not in point.lines]
        wrong += [] if point.state() in STATES else [f"`is:` begins with none of {', '.join(STATES)}"]
        wrong += [it for cited in point.cited() for it in missing_in(*cited)]
        wrong += [f"{it.relative_to(ROOT)} isn't there" for it in point.shown() if not it.exists()]
        said += [f"docs/asked.txt: {point.words[:60]}: {it}" for it in wrong]
    return said


def made() -> dict[pathlib.Path, str]:
    return {PAGE: written()}
