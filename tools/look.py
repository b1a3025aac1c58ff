#!/usr/bin/env python3
"""Looks at the pages and the tree for what no proof sees: by all looks, or by those that are named.

    tools/look.py [LOOK ..]     says what is wrong, or that nothing is; ends with 1 where something is

The looks, each a module of tools/looking, whose head says what it looks at:

    names         names on the pages that aren't there: files, sections, functions, laws
    counts        counts and constants on the pages, as the sources give them
    sizes         files, bodies and lines that are too long (also: sizes --list, sizes --write)
    unused        imports and lemmas that nothing uses (also: unused [--fix] CRATE ..)
    tests_only    public functions that only tests call
    proved        names behind the crates' lists of what is proved (the head of lib.rt) that aren't there

One more changes files, and runs only where it is named:

    wraps CRATE ..    wraps lines of more than 120 columns in .antt files
"""
import importlib
import sys

sys.dont_write_bytecode = True
LOOKS = ("names", "counts", "sizes", "unused", "tests_only", "proved")
CHANGES = ("wraps",)


def main() -> int:
    words = sys.argv[1:]
    if words and words[0] in LOOKS + CHANGES and not set(words) <= set(LOOKS):
        module = importlib.import_module(f"looking.{words[0]}")
        if hasattr(module, "other") and (status := module.other(words[1:])) is not None:
            return status
    if not set(words) <= set(LOOKS):
        print(__doc__, file=sys.stderr)
        return 2
    is_good = True
    for name in words or LOOKS:
        module = importlib.import_module(f"looking.{name}")
        said = module.faults()
        print("\n".join(said) or module.GOOD, flush=True)
        is_good = is_good and not said
    return 0 if is_good else 1


if __name__ == "__main__":
    sys.exit(main())
