#!/usr/bin/env python3
"""Says which functions of a crate cost its proof most: by the size of what the borrow checker has to prove of each.

    tools/heavy.py [--tree FOLDER] [CRATE ..]    (all crates that were checked, where none is named)

It reads what the last check or `rt lib` kept in crates/NAME/out/incremental. A megabyte is about a second, and above 10 of one
function more than that. What makes it large are exits (`?`, return, the end of a match) at which much is alive.
"""
import argparse
import pathlib
import re

ROOT = pathlib.Path(__file__).resolve().parent.parent
LEAST = 2_000_000


def main() -> int:
    parser = argparse.ArgumentParser(description=__doc__, formatter_class=argparse.RawDescriptionHelpFormatter)
    parser.add_argument("--tree", type=pathlib.Path, default=ROOT)
    parser.add_argument("crates", nargs="*")
    words = parser.parse_args()
    found: dict[str, int] = {}
    whole: dict[str, int] = {}
    for crate in words.crates or sorted(it.name for it in (words.tree / "crates").iterdir()):
        for path in (words.tree / "crates" / crate / "out" / "incremental").glob(f"*/Rattle-{crate}-proofs.*.Lts.oantt"):
            name = re.sub(r"^Rattle-\w+-proofs\.|\.Lts\.oantt$", "", path.name)
            found[f"{crate} {name}"] = path.stat().st_size
            whole[crate] = whole.get(crate, 0) + path.stat().st_size
    for name, size in sorted(found.items(), key=lambda it: -it[1]):
        if size >= LEAST:
            print(f"{size / 1e6:6.1f} MB {name}")
    for crate, size in sorted(whole.items(), key=lambda it: -it[1]):
        print(f"{size / 1e6:6.1f} MB in all of {crate}")
    return 0


if __name__ == "__main__":
    raise SystemExit(main())
