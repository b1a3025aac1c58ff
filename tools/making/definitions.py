"""Writes docs/DEFINITIONS.md: what stands above the definitions in crates/*/specs, in the order of docs/definitions.txt, with their terms.

Above a definition that the page has stands a comment of this form, and below it, after an empty line of comment, the
definition's own:

    -- ## Plain name
    -- What it means, in words.
    -- Source: the RFC's section, or ours
    -- Rules out: the mistake (where there is one)
    -- Stands in: `crate` `File.antt`: `names`; the functions and laws that carry it
    --

Below the words of a file stand the terms of those of its definitions on which the headline rests, or the provenance of packets, or a line of
`roam sim` (theorem.py reads them): without its comment where the words say it. The page isn't kept in the repository: `make pages` writes
it, and the gate looks that it can be made.

Wrong is a file with such definitions that docs/definitions.txt doesn't name, and a name behind "Stands in"
that isn't in its file.
"""
import pathlib
import re

from making import theorem
from making.terms import Definition, by_file, in_order, print_group, unread_fields

ROOT = pathlib.Path(__file__).resolve().parents[2]
PAGE = ROOT / "docs" / "DEFINITIONS.md"
ORDER = ROOT / "docs" / "definitions.txt"
MARK = "<!-- Made by tools/pages.py from the comments in crates/*/specs: change those. -->\n"
TAGS = ("Source", "Rules out", "Stands in")
KINDS = {
    "also": "**You have to believe these too**, where a contract or a definition above uses a word of theirs:",
    "laws": "**Statements of laws**, which are proved; no definition above rests on them:",
    "not": "**You needn't believe these**: words of private functions, of room and memory, of how data is kept, and of tests. No packet rests on\n"
           "them: data that stood for something else couldn't give the written answers.",
}


def file_of(crate: str, name: str) -> pathlib.Path:
    return ROOT / "crates" / crate / "specs" / (name + ".antt")


def blocks_of(path: pathlib.Path) -> dict[str, list[str]]:
    """Returns the comments of this form in a file, by plain name."""
    blocks: dict[str, list[str]] = {}
    now: list[str] | None = None
    for line in path.read_text(encoding="utf-8").split("\n"):
        line = line.strip()
        if line.startswith("-- ## "):
            now = blocks.setdefault(line[6:], [])
        elif now is not None and line.startswith("-- "):
            now.append(line[3:])
        else:
            now = None
    return blocks


def parts_of(block: list[str]) -> tuple[str, dict[str, str]]:
    """Returns the words of a comment, and what stands behind its tags."""
    words: list[str] = []
    tags: dict[str, str] = {}
    tag = None
    for line in block:
        found = re.match(r"(%s): (.*)" % "|".join(TAGS), line)
        if found:
            tag = found.group(1)
            tags[tag] = found.group(2)
        elif tag:
            tags[tag] += " " + line
        else:
            words.append(line)
    return " ".join(words), tags


def head_of(path: pathlib.Path) -> str:
    """Returns what the first sentence of a file says it is about."""
    words = []
    for line in path.read_text(encoding="utf-8").split("\n"):
        if not line.startswith("-- ") or line.startswith("-- ## "):
            break
        words.append(line[3:])
    return re.sub(r",? ?\(?[Oo]urs\)?$", "", re.split(r"\.(?: |$)", " ".join(words))[0]).rstrip()


def ordered() -> list[tuple[str, str, list[str]]]:
    """Returns the lines of docs/definitions.txt: a kind (heading, words, files, not), a text or crate, and files."""
    lines, kind = [], "files"
    for line in ORDER.read_text(encoding="utf-8").split("\n"):
        if line.startswith("## "):
            lines.append(("heading", line, []))
        elif line.startswith(">"):
            lines.append(("words", line[1:].removeprefix(" "), []))
        elif line == "not":
            kind = line
        elif line and not line.startswith("#"):
            crate, _, files = line.partition(": ")
            lines.append((kind, crate, files.split()))
    return lines


def others(lines: list[tuple[str, str, list[str]]]) -> dict[str, list[pathlib.Path]]:
    """Returns the files without definitions on the page, by kind."""
    found: dict[str, list[pathlib.Path]] = {kind: [] for kind in KINDS}
    named = {file_of(crate, name): kind for kind, crate, files in lines for name in files}
    for path in sorted(ROOT.glob("crates/*/specs/**/*.antt")):
        kind = named.get(path)
        if kind is None:
            kind = "not" if path.parent.name == "Private" else "laws" if path.stem.endswith("Laws") else "also"
        if kind in found and path.stem not in ("Lib", "Private"):
            found[kind].append(path)
    return found


def in_list(paths: list[pathlib.Path]) -> list[str]:
    """Files as a list, crate by crate."""
    crates: dict[str, list[str]] = {}
    for path in paths:
        crate = path.relative_to(ROOT / "crates").parts[0]
        name = path.relative_to(ROOT / "crates" / crate / "specs").with_suffix("")
        crates.setdefault(crate, []).append(f"`{name}`" + (f" ({head_of(path)})" if head_of(path) else ""))
    return [f"- `{crate}`: {'; '.join(names)}" for crate, names in crates.items()]


class Terms:
    """The terms of the definitions below the headline, file by file, each to be printed once."""

    def __init__(self):
        book = theorem.book()
        self.unread = unread_fields(book.chapters)
        order = [one for chapter in book.chapters[3:] for one in chapter.order]
        groups = by_file(order + in_order(book.sources, book))
        self.left = {ROOT / "crates" / group[0].crate / group[0].path: group for group in groups}
        self.first = {ROOT / "crates" / one.crate / one.path for chapter in book.chapters[:3] for one in chapter.order}

    def of_file(self, path: pathlib.Path, told: set[str] = frozenset()) -> list[str]:
        """Returns the terms of a file, without the comments of those that are told above."""
        group = [Definition(it.crate, it.path, it.name, [] if it.name in told else it.comment, it.text) for it in self.left.pop(path, [])]
        page: list[str] = []
        if group:
            print_group(page, group, self.unread)
        if path in self.first:
            page.append("Terms of this file stand in `THEOREM.md`.\n")
        return page

    def of_code(self, crate: str) -> list[str]:
        """Returns the types and constants of a crate's code."""
        return [line for path in sorted(it for it in self.left if it.is_relative_to(ROOT / "crates" / crate / "src")) for line in self.of_file(path)]

    def of_others(self) -> list[str]:
        return [line for path in sorted(self.left) for line in self.of_file(path)]


def told_in(path: pathlib.Path) -> set[str]:
    """Returns the definitions of a file that its words on the page tell."""
    tags = " ".join(parts_of(block)[1].get("Stands in", "") for block in blocks_of(path).values())
    found = re.findall(r"`%s\.antt`:((?:,? `[A-Za-z_]+`(?: and)?)+)" % path.stem, tags)
    return set(re.findall(r"`([A-Za-z_]+)`", " ".join(found)))


def written() -> str:
    """Returns the page."""
    lines, terms, begun = ordered(), Terms(), set()
    page = [MARK, "# The definitions of the broker\n"]
    for kind, text, files in lines:
        if kind == "words":
            page.append(text)
        elif kind == "heading":
            page.append(f"\n{text}\n")
        elif kind == "files":
            for name in files:
                path = file_of(text, name)
                for plain, block in blocks_of(path).items():
                    words, tags = parts_of(block)
                    page += [f"### {plain}\n", words + "\n"] + [f"- *{tag}:* {tags[tag]}" for tag in TAGS if tag in tags] + [""]
                page += terms.of_file(path, told_in(path))
                page += [] if text in begun else terms.of_code(text)
                begun.add(text)
    page.append("## The other files\n\nEach file of `specs/` has definitions above or stands in one of these lists, with its own first line.\n")
    for kind, paths in others(lines).items():
        page += [KINDS[kind] + "\n", *in_list(paths), ""]
    page += ["## Terms of the other files\n", *terms.of_others()]
    return re.sub(r"\n{3,}", "\n\n", "\n".join(page)).rstrip("\n") + "\n"


def faults() -> list[str]:
    """Returns what is wrong with the order and with the names behind "Stands in"."""
    lines, said = ordered(), []
    listed = {file_of(crate, name): kind for kind, crate, files in lines for name in files}
    said += [f"docs/definitions.txt: {path.relative_to(ROOT)} isn't there" for path in listed if not path.exists()]
    for path in sorted(ROOT.glob("crates/*/specs/**/*.antt")):
        where = path.relative_to(ROOT)
        blocks = blocks_of(path)
        if blocks and listed.get(path) != "files":
            said.append(f"docs/definitions.txt lacks {where}, which has definitions of the page")
        if not blocks and listed.get(path) == "files":
            said.append(f"docs/definitions.txt has {where}, which has no definitions of the page")
        for plain, block in blocks.items():
            said += [f"{where}: {plain}: {it}" for it in missing(parts_of(block)[1].get("Stands in", ""))]
    return said


def missing(text: str) -> list[str]:
    """Returns the names that aren't in the files where a text says that they stand."""
    said = []
    crate = ""
    for found in re.finditer(r"`(roam[a-z_]*)`(?= `)|`([A-Za-z/]+)\.antt`:((?:,? `[A-Za-z_]+`(?: and)?)+)", text):
        if found.group(1):
            crate = found.group(1)
        elif crate:
            path = file_of(crate, found.group(2))
            source = path.read_text(encoding="utf-8") if path.exists() else ""
            said += [f"{it} isn't in {crate} {found.group(2)}.antt" for it in re.findall(r"`([A-Za-z_]+)`", found.group(3))
                     if not re.search(r"\b%s\b" % it, source)]
    return said


def made() -> dict[pathlib.Path, str]:
    return {PAGE: written()}
