"""Measures files, bodies and lines: files of at most 300 lines, bodies of at most 40, lines of at most 120 columns.

    tools/look.py sizes --list     prints all that is longer
    tools/look.py sizes --write    writes the exceptions as they are now: do so when something has become shorter

An exception is a limit of its own: what stands in sizes.txt beside this file may be as long as is said there, and no longer. Files and bodies
are those of crates/*/src, specs and proofs (bodies: of functions of the product); columns also those of proofs. A line of an import,
of a contract's name, or of one text literal may be longer. Of long lines it is counted how many a file has.
"""
import pathlib
import re

ROOT = pathlib.Path(__file__).resolve().parents[2]
KEPT = pathlib.Path(__file__).resolve().parent / "sizes.txt"
FILE, BODY, COLUMNS = 300, 40, 120


def bodies_of(text: str) -> list[tuple[str, int]]:
    """Returns the functions of a file, with how many lines the body of each has."""
    lines = text.split("\n")
    found = []
    for at, line in enumerate(lines):
        head = re.match(r"( *)(?:pub(?:\([a-z]+\))? )?(?:const )?fn (\w+)", line)
        if not head:
            continue
        indent = head.group(1)
        begin = next((it for it in range(at, len(lines)) if lines[it] == indent + "{" or (it == at and lines[it].endswith(" {"))
                      or re.fullmatch(re.escape(indent) + r"[^ ].* \{", lines[it])), None)
        if begin is None or any(re.match(re.escape(indent) + r"\}", lines[it]) for it in range(at, begin)):
            continue
        end = next((it for it in range(begin + 1, len(lines)) if lines[it].startswith(indent + "}")), None)
        if end is not None:
            found.append((head.group(2), end - begin - 1))
    return found


def is_long(line: str) -> bool:
    """Says whether a line has too many columns, and could have fewer."""
    return len(line) > COLUMNS and not re.match(r"\s*(?:pub |ghost )?use |\s*//! ", line) and not re.match(r'\s*"[^"]*",?$', line)


def longer() -> dict[str, int]:
    """Returns what passes a limit, and how long it is."""
    found: dict[str, int] = {}
    for path in sorted([*ROOT.glob("crates/*/src/**/*.rt"), *ROOT.glob("crates/*/specs/**/*.antt"), *ROOT.glob("crates/*/proofs/**/*.antt")]):
        text = path.read_text(encoding="utf-8")
        where = str(path.relative_to(ROOT))
        is_product = not path.relative_to(ROOT / "crates").parts[0].startswith(("test_", "bench_"))
        if text.count("\n") > FILE:
            found[f"lines {where}"] = text.count("\n")
        if path.suffix == ".rt" and is_product and path.stem != "tests":
            for name, size in bodies_of(text):
                if size > BODY:
                    found[f"body {where} {name}"] = size
        columns = sum(is_long(line) for line in text.split("\n"))
        if columns:
            found[f"columns {where}"] = columns
    return found


def excepted() -> dict[str, int]:
    """Returns the exceptions, and how long each may be."""
    lines = KEPT.read_text(encoding="utf-8").split("\n") if KEPT.exists() else []
    return {name: int(size) for size, _, name in (line.partition(" ") for line in lines if line)}


GOOD = "nothing is longer than it may be"


def faults() -> list[str]:
    """Returns what is longer and isn't among the exceptions."""
    may = excepted()
    return [f"{name}: {size}, where {may.get(name, 0) or 'the limit'} may be" for name, size in longer().items() if size > may.get(name, 0)]


def other(words: list[str]) -> int | None:
    """Does what is asked for by further words: the status, or nothing where they aren't known."""
    if words == ["--list"]:
        print("\n".join(f"{size} {name}" for name, size in longer().items()))
    elif words == ["--write"]:
        KEPT.write_text("".join(f"{size} {name}\n" for name, size in longer().items()), encoding="utf-8")
    return 0 if words in (["--list"], ["--write"]) else None
