"""Says which public functions of the product nothing but tests calls, where the first line above them doesn't say so.

A first line that begins with "For tests" says so, above the function or above its type. It goes by names alone: a function is called
where its name stands before a parenthesis or behind `::` in a product crate's code, outside of contracts and imports. So one may
be left out whose name another has. Laws (laws.rt, bounds.rt, and what has no body) aren't looked at.
"""
import collections
import pathlib
import re

ROOT = pathlib.Path(__file__).resolve().parents[2]
SKIPPED = re.compile(r"\s*(//|(pub(\(\w+\))? )?use\b|ghost\b|requires\b|ensures\b|preserved\b)")


def sources() -> dict[str, list[str]]:
    """Returns the lines of each file of the product, but those of tests."""
    paths = [it for it in sorted(ROOT.glob("crates/roam*/src/**/*.rt")) if it.stem != "tests"]
    return {str(it.relative_to(ROOT / "crates")): it.read_text(encoding="utf-8").split("\n") for it in paths}


def calls(files: dict[str, list[str]]) -> collections.Counter[str]:
    """Returns how often each name is called."""
    found: collections.Counter[str] = collections.Counter()
    for lines in files.values():
        for line in lines:
            if not SKIPPED.match(line):
                line = re.sub(r"\bfn \w+", "fn", line)
                found.update(re.findall(r"\b([a-z_]\w*)(?:\(|::<)", line) + re.findall(r"::([a-z_]\w*)\b(?!\(|::<)", line))
    return found


def first_line(lines: list[str], at: int) -> str:
    """Returns the first line of what stands above a line, between attributes too."""
    said = ""
    for line in reversed(lines[:at]):
        if not re.match(r"\s*(///|#\[|#!\[)", line):
            break
        said = line.strip() if line.strip().startswith("///") else said
    return said


GOOD = "what only tests call says so"


def faults() -> list[str]:
    """Returns each such function, with its file."""
    files = sources()
    called, types, unsaid = calls(files), set(), set()
    for lines in files.values():
        types |= {found.group(1) for at, line in enumerate(lines) if (found := re.match(r"pub struct (\w+)", line))
                  and first_line(lines, at).startswith("/// For tests")}
    for name, lines in files.items():
        if name.endswith(("/laws.rt", "/bounds.rt")):
            continue
        own = ""
        for at, line in enumerate(lines):
            own = (found := re.match(r"impl(?:<.*?>)? (?:\w+ for )?(\w+)", line)) and found.group(1) or own
            found = re.match(r"\s*pub (?:const )?fn (\w+)", line)
            if not found or called[found.group(1)] or first_line(lines, at).startswith("/// For tests") or line[0] == " " and own in types:
                continue
            if next(it for it in lines[at:] if it.strip() in ("{", "{}") or it.endswith((" {", "{}"))).strip() != "{}":
                unsaid.add(f"{name} {found.group(1)}")
    return [f"crates/{it}: only tests call it, if any, and its first line doesn't say so" for it in sorted(unsaid)]
