"""Finds what nothing uses: imports of .antt files, `ghost use` of .rt files, and lemmas that nothing names.

    tools/look.py unused [--fix] CRATE ..

Of the crates that are named, or of all, it prints each with its file and line. With --fix it takes them out, again and again until
nothing is left, for what goes may have been the only user of something else; `rt fmt` and `rt lib` in the crate come after it.

It goes by names alone: an import is used where its name stands in the same file outside of the lines that import, a lemma where
its name stands anywhere in the repository outside of itself and of such lines. So it may leave something, and takes nothing out
that is named. What a standard's values give (StandardFacts.antt) isn't looked at, nor proofs by function, in the folders below proofs/.
"""
import collections
import pathlib
import re

ROOT = pathlib.Path(__file__).resolve().parents[2]
SPLIT = re.compile(r"[\s(){}\[\],;.:\"`|&*!<>=?/#]+")
PLAIN_NAME = re.compile(r"[\w'-]+")
USE = re.compile(r"^[ \t]*(ghost )?use ([^\n{;]*?)(\{([^}]*)\})?( as \S+?)?;?[ \t]*$", re.M)
SIGNATURE = re.compile(r"( *)(?:abbrev )?(?:unfoldable )?(?:pub )?(record |data )?([^\s:(){},]+)(?: |$)")
KEPT_FILES = ("StandardFacts", "WorkedFacts", "Lib")


def is_of_lemmas(path: pathlib.Path) -> bool:
    return path.suffix == ".antt" and path.parent.name == "proofs" and path.stem not in KEPT_FILES


def bare(text: str, suffix: str) -> str:
    """Returns a text without its comments, as long as before."""
    mark = "--" if suffix == ".antt" else "//"
    return re.sub(r"(^|(?<=\s))%s[^\n]*" % mark, lambda it: " " * len(it.group(0)), text)


def uses_of(text: str, suffix: str) -> list[re.Match[str]]:
    """Returns the imports that are looked at: all of .antt files but `pub use`, and `ghost use` of .rt files."""
    return [it for it in USE.finditer(text) if bool(it.group(1)) == (suffix == ".rt")]


def items_of(use: re.Match[str]) -> list[tuple[str, str]]:
    """Returns the items of an import, each as it is written and with the name that it brings."""
    if use.group(3):
        written = [it.strip() for it in use.group(4).split(",") if it.strip()]
        return [(it, it.split(" as ")[-1].strip()) for it in written]
    name = use.group(5).split()[-1].rstrip(";") if use.group(5) else re.split(r"[.\s]", use.group(2).strip().rstrip(";"))[-1]
    return [("", name)]


def without_uses(text: str) -> str:
    """Returns a text without any line that imports."""
    return re.sub(r"^[ \t]*(?:pub |ghost )?use [^\n{;]*(?:\{[^}]*\})?[^\n]*", "", text, flags=re.M)


def is_named(name: str, rest: str, words: set[str]) -> bool:
    """Says whether a name stands in a text; a name with places for arguments, where all its parts do."""
    if "◌" in name:
        return all(part in rest for part in name.split("◌") if part)
    return name in words if PLAIN_NAME.fullmatch(name) else name in rest or name == "[]" and "[" in rest


def unused_imports(path: pathlib.Path) -> list[tuple[re.Match[str], list[str]]]:
    """Returns the imports of a file with the items that nothing in it uses."""
    text = bare(path.read_text(encoding="utf-8"), path.suffix)
    rest = without_uses(text)
    words = set(SPLIT.split(rest))
    words |= {part for word in words for part in re.split(r"'(?=\w)", word)}
    found = []
    for use in uses_of(text, path.suffix):
        lost = [written or name for written, name in items_of(use) if not is_named(name, rest, words)]
        if lost:
            found.append((use, lost))
    return found


def blocks_of(lines: list[str]) -> list[tuple[str, int, int, int]]:
    """Returns the definitions of a file of lemmas: name, first line of its comment, first line, end."""
    blocks = []
    at = 0
    while at < len(lines):
        found = SIGNATURE.match(lines[at])
        if not found or not re.match(r" *(?:abbrev |unfoldable )?(?:pub )?(?:record |data )?\S+ .*:( |$)|.*:$", lines[at]) or found.group(3) in (
                "use", "module", "mutual", "open", "mod") or not re.match(r"\w", found.group(3)):
            at += 1
            continue
        indent, name = found.group(1), found.group(3)
        end = at + 1
        while end < len(lines) and (not lines[end].strip() or lines[end].startswith(tuple(indent + it for it in (" ", name + " ", "|", "}", "]", ")")))):
            end += 1
        while not lines[end - 1].strip():
            end -= 1
        first = at
        while first and lines[first - 1].startswith(indent + "--"):
            first -= 1
        blocks.append((name, first, at, end))
        at = end
    return blocks


class Tree:
    """All texts, and how often each name stands in them."""

    def __init__(self):
        self.counts: collections.Counter[str] = collections.Counter()
        for path in [*ROOT.glob("crates/*/src/**/*.rt"), *ROOT.glob("crates/*/proofs/**/*.antt"), *ROOT.glob("crates/*/specs/**/*.antt")]:
            # what a file hands on by `pub use` counts as named
            text = bare(path.read_text(encoding="utf-8"), path.suffix)
            self.counts.update(SPLIT.split(re.sub(r"^[ \t]*use [^\n{;]*(?:\{[^}]*\})?[^\n]*", "", text, flags=re.M)))

    def dead_lemmas(self, path: pathlib.Path) -> list[tuple[str, int, int, int]]:
        """Returns the definitions of a file of lemmas that nothing names but themselves."""
        lines = path.read_text(encoding="utf-8").split("\n")
        found = []
        for name, first, at, end in blocks_of(lines):
            own = SPLIT.split(bare("\n".join(lines[at:end]), ".antt")).count(name)
            spelled = self.counts[name.replace("-", "_")] if "-" in name else 0
            if PLAIN_NAME.fullmatch(name) and self.counts[name] <= own and not spelled:
                found.append((name, first, at, end))
        return found


def without(path: pathlib.Path, imports, lemmas) -> str:
    """Returns a file's text without these."""
    text = path.read_text(encoding="utf-8")
    if lemmas:
        lines = text.split("\n")
        for _, first, _, end in reversed(lemmas):
            del lines[first:end]
            while first and first < len(lines) and not lines[first].strip() and not lines[first - 1].strip():
                del lines[first]
        return "\n".join(lines).rstrip("\n") + "\n"
    for use, lost in reversed(imports):
        kept = [written for written, _ in items_of(use) if written and written not in lost]
        begin, end = use.span()
        if kept:
            brace, close = text.index("{", begin), text.index("}", begin)
            text = text[:brace + 1] + ", ".join(kept) + text[close:]
        else:
            text = text[:begin] + text[end:].removeprefix("\n")
    return text


def files_of(crates: list[str]) -> list[pathlib.Path]:
    found = []
    for crate in crates or sorted(it.name for it in (ROOT / "crates").iterdir()):
        folder = ROOT / "crates" / crate
        found += sorted([*folder.glob("src/**/*.rt"), *folder.glob("specs/**/*.antt"), *folder.glob("proofs/**/*.antt")])
    return found


def look(crates: list[str], fix: bool) -> list[str]:
    """Returns what nothing uses; with fix it is taken out."""
    tree, said = Tree(), []
    for path in files_of(crates):
        where = path.relative_to(ROOT)
        lemmas = tree.dead_lemmas(path) if is_of_lemmas(path) else []
        imports = unused_imports(path)
        text = path.read_text(encoding="utf-8")
        said += [f"{where}:{text.count(chr(10), 0, use.start()) + 1}: nothing uses {it}" for use, lost in imports for it in lost]
        said += [f"{where}:{at + 1}: nothing names {name}" for name, _, at, _ in lemmas]
        if fix and (imports or lemmas):
            if lemmas:
                path.write_text(without(path, [], lemmas), encoding="utf-8")
            path.write_text(without(path, unused_imports(path), []), encoding="utf-8")
    return said


GOOD = "nothing is unused"


# Crates whose unused imports go with their next change: taking them out makes the proof of the crate, and of all above it, anew.
UNTIDIED = ()


def faults() -> list[str]:
    return [it for it in look([], False) if it.split("/")[1] not in UNTIDIED]


def other(words: list[str]) -> int | None:
    """Does what is asked for by further words: the status, or nothing where they aren't known."""
    fix, crates = "--fix" in words, [it for it in words if it != "--fix"]
    if any(it.startswith("-") or not (ROOT / "crates" / it).is_dir() for it in crates):
        return None
    while said := look(crates, fix):
        print("\n".join(said))
        if not fix:
            return 1
    print(GOOD)
    return 0
