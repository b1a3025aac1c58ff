#!/usr/bin/env python3
"""The quick pass over crates and their tests: layout, syntax, names, types and borrows, and no proof.

    tools/quick.py CRATE ..     (or: all)

It reads the crates below as sources, so nothing has to be proved before. `rt` makes this pass too, but of all crates at
once, and before its first proof. A crate that passes takes half a minute, the server three, and 5 GB.
"""
import os
import pathlib
import re
import subprocess
import sys

ROOT = pathlib.Path(__file__).resolve().parent.parent
# The kit's own module knows a crate's words.
sys.path.insert(0, str(pathlib.Path(os.path.realpath(subprocess.check_output(["which", "rt"], text=True).strip())).parent))
import rtlib  # noqa: E402


def passes(crate) -> bool:
    """Says whether the quick pass finds nothing; what it finds is printed."""
    if rtlib.fmt(crate.folder, "--check", sys.stdout):
        print(f"{crate.name}: run rt fmt in its folder", flush=True)
        return False
    words = crate.words(["--jobs", "1", "--only", ""], tests=crate.has_tests(), as_source=True)
    ran = subprocess.run([rtlib.RATTLE, "check", *words], cwd=crate.folder, stdout=subprocess.PIPE,
                         stderr=subprocess.STDOUT, errors="replace", check=False)
    fine = re.search(r"^only=.*\n\Z", ran.stdout, re.M) and not re.search(r"error[\[:]", ran.stdout)
    print(f"{crate.name}: {'nothing found' if fine else ran.stdout}", flush=True)
    return bool(fine)


def main() -> int:
    names = sys.argv[1:]
    if names == ["all"]:
        lines = (ROOT / "crates.txt").read_text(encoding="utf-8").splitlines()
        names = [line.split(":")[0] for line in lines if ":" in line and not line.startswith("#")]
    os.chdir(ROOT)
    known = {}
    return int(not all([passes(rtlib.Crate(str(ROOT / "crates" / name), str(ROOT), known)) for name in names]))


if __name__ == "__main__":
    sys.exit(main())
