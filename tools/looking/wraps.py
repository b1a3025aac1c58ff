"""Wraps lines of more than 120 columns in the .antt files of crates: signatures, proofs, and comments; not imports.

    tools/look.py wraps CRATE ..

It changes files, so it runs only where it is named, with crates. `sizes` looks for lines that are too long. Blanks mean nothing there but at
the beginning of a definition, so only blanks change; it looks itself that nothing else does. `rt fmt` comes after it.
"""
import pathlib
import re
import textwrap

ROOT = pathlib.Path(__file__).resolve().parents[2]
COLUMNS = 120
BEFORE = ("→", "∙", "×", "⊎", "↔")
RELATIONS = ("≡", "≤", "<", "++")
AFTER = (",", ";", "→", "↦", "in", "=", "[")


def places(line: str) -> list[tuple[float, int]]:
    """Returns the blanks at which a line may be broken: how bad each is, and where."""
    found, depth, is_text = [], 0, False
    first = len(line) - len(line.lstrip())
    for at, letter in enumerate(line[:COLUMNS - 2]):
        if letter == '"':
            is_text = not is_text
        if is_text:
            continue
        if letter in "([{":
            depth += 1
        elif letter in ")]}":
            depth -= 1
        elif letter == " " and at > first + 30 and line[at + 1] not in " |":
            before, after = line[:at].split()[-1], line[at + 1:].split()[0]
            if before in ("λ", "let", "as", "rw", "elim", ":") or after in ("=", ":", ":=", ","):
                continue
            is_good = after in BEFORE or before in AFTER or before.endswith((",", ";"))
            found.append((depth + (0 if is_good else 0.8 if after in RELATIONS else 1.5), at))
    return found


def wrapped(line: str) -> list[str]:
    """Returns a line as lines."""
    lines = []
    indent = len(line) - len(line.lstrip())
    begins_on = line.lstrip().split(" ")[0] in BEFORE + RELATIONS
    inner = " " * (indent if begins_on else indent + 4)
    while len(line) > COLUMNS:
        found = places(line)
        if not found:
            break
        least = min(bad for bad, _ in found)
        at = max(place for bad, place in found if bad <= least)
        lines.append(line[:at].rstrip())
        line = inner + line[at + 1:].lstrip()
    return lines + [line]


def of_file(text: str) -> str:
    """Returns a file's text with its long lines wrapped."""
    lines: list[str] = []
    for line in text.split("\n"):
        if len(line) <= COLUMNS or re.match(r"\s*(?:pub )?use ", line):
            lines.append(line)
        elif line.lstrip().startswith("-- "):
            indent = line[:len(line) - len(line.lstrip())]
            lines += textwrap.wrap(line.strip()[3:], COLUMNS - 4, initial_indent=indent + "-- ", subsequent_indent=indent + "-- ",
                                   break_long_words=False, break_on_hyphens=False)
        elif " -- " in line:
            lines.append(line)
        else:
            lines += wrapped(line)
    return "\n".join(lines)


def other(words: list[str]) -> int | None:
    """Wraps the lines of the crates that are named: the status, or nothing where they aren't known."""
    if not words or any(not (ROOT / "crates" / it).is_dir() for it in words):
        return None
    for crate in words:
        for path in [*(ROOT / "crates" / crate).glob("proofs/**/*.antt"), *(ROOT / "crates" / crate).glob("specs/**/*.antt")]:
            text = path.read_text(encoding="utf-8")
            made = of_file(text)
            if re.sub(r"\s+(?:-- )?", " ", made) != re.sub(r"\s+(?:-- )?", " ", text):
                raise SystemExit(f"{path}: more than blanks would change")
            if made != text:
                path.write_text(made, encoding="utf-8")
    return 0
