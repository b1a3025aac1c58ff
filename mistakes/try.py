#!/usr/bin/env python3
"""Tries the mistakes that the prover has to refuse.

    mistakes/try.py [CRATE ..]            all that are kept of these crates, or of all
    mistakes/try.py --gate [JOBS]         those that .ci/run tries: a third of those with a function, which the commit chooses
    mistakes/try.py --gate --all [JOBS]   all with a function: before a release, and after a change of what they stand over

Each file of `mistakes/CRATE` is an edit in the form that `rt must-fail` takes. They are laid into the crate's `must-fail`,
`rt must-fail CRATE` tries them all (the crate and those below it are proved first, where that isn't done), and they are
taken away again. The status is 0 where the prover refuses them all.

`rt must-fail` proves the whole crate once more, from nothing. So an edit that the gate tries has a line `only: FUNCTION`: with
--gate the prover checks this function, and those that it calls, of a copy of the crate that has the edit, over the libraries that
were proved before. It is refused where the prover has read all of it and has no proof of this function, for more than a name that
the edit took away. A copy has one edit of each function that a crate's edits name: most of what such a check costs is reading.

The third is that of the commit's hash (`git rev-parse HEAD`), which no one picks: each edit of each crate has its turn as commits go by.
What it leaves out it counts; where there is no commit it tries all.
"""
import concurrent.futures
import os
import pathlib
import re
import shutil
import subprocess
import sys
import tempfile

HERE = pathlib.Path(__file__).resolve().parent
ROOT = HERE.parent


def refused(crate: str) -> bool:
    """Says whether the prover refuses each edit of a crate."""
    place = ROOT / "crates" / crate / "must-fail"
    was_there = place.exists()
    place.mkdir(exist_ok=True)
    laid = [place / it.name for it in sorted((HERE / crate).glob("*.edit"))]
    if any(it.exists() for it in laid):
        print(f"{place} has an edit of one of these names")
        return False
    try:
        for it in laid:
            shutil.copyfile(HERE / crate / it.name, it)
        return subprocess.run(["rt", "must-fail", crate], cwd=ROOT, check=False).returncode == 0
    finally:
        for it in laid:
            it.unlink(missing_ok=True)
        if not was_there:
            place.rmdir()


def function_of(edit: pathlib.Path) -> str | None:
    """Returns the function that is checked in the gate, where the edit names one."""
    found = re.search(r"^only: (.*)$", edit.read_text(encoding="utf-8"), re.M)
    return found[1] if found else None


# What the prover says of a proof that names what an edit took away, which says little of the contract.
NAMES = re.compile(r"has no field|is not in scope|has no `|was not admitted|not checked")


def file_of(edit: pathlib.Path) -> str:
    """Returns the file that an edit changes, below its crate."""
    return re.search(r"^file: (.*)$", edit.read_text(encoding="utf-8"), re.M)[1]


def lines_of(code: str, name: str) -> set[int]:
    """Returns the lines of the functions of this name, with their attributes, from 1."""
    found, above, end = set(), [], ""
    for number, line in enumerate(code.splitlines(), 1):
        begin = re.match(rf"( *)(?:pub(?:\(\w+\))? )?(?:const |unsafe )?fn {name}\b", line)
        if begin:
            found.update(above)
            end = begin[1] + "}"
        if end:
            found.add(number)
            end = "" if line == end else end
        above = above + [number] if line.lstrip().startswith("#[") else []
    return found


def judged(text: str, edit: pathlib.Path, code: str) -> str:
    """Returns what the prover's output says of an edit, whose file is this code then: nothing where it was refused, else what is wrong."""
    function = function_of(edit)
    name = function.rpartition("::")[2]
    unread = re.search(r"^(rattle: error|(\./)?(src|specs)/\S+ error).*", text, re.M)
    if unread or not re.search(r"^only=\d+ proved=\d+", text, re.M):
        return "wasn't read: " + (unread[0] if unread else text[-300:])
    if not re.search(rf"^fn \S*{re.escape(function)}: (no proof|not proved)", text, re.M):
        return f"leaves {function} proved, or not looked at"
    lines = lines_of(code, name)
    told = re.findall(rf"^(?:\./)?proofs/\S*/{name}/\S+ error: .*", text, re.M) + [
        of[0] for of in re.finditer(rf"^note: {re.escape(file_of(edit))}:(\d+):\d+: it is not proved that.*", text, re.M)
        if int(of[1]) in lines]
    return "" if any(not NAMES.search(it) for it in told) else "is refused for names that it took away alone"


def batches(edits: list[pathlib.Path]) -> list[list[pathlib.Path]]:
    """Returns the edits of one crate, such that those of one function are apart."""
    made: list[list[pathlib.Path]] = []
    for it in edits:
        free = [of for of in made if function_of(it) not in map(function_of, of)]
        if free:
            free[0].append(it)
        else:
            made.append([it])
    return made


def edit_copy(room: str, edit: pathlib.Path) -> bool:
    """Lays an edit over a copy of its crate; whether all that it changes was there."""
    text = edit.read_text(encoding="utf-8")
    file = pathlib.Path(room) / file_of(edit)
    after = file.read_text(encoding="utf-8")
    for olds, news in re.findall(r"((?:^old:.*\n)+)((?:^new:.*\n)+)", text + "\n", re.M):
        old, new = (re.sub(rf"^{word}: ?", "", lines, flags=re.M).rstrip("\n") for word, lines in (("old", olds), ("new", news)))
        if old not in after:
            return False
        after = after.replace(old, new)
    file.write_text(after, encoding="utf-8")
    return True


def refused_alone(crates: dict, edits: list[pathlib.Path]) -> bool:
    """Says whether the prover refuses each function that edits of one crate name."""
    import rtlib  # pylint: disable=import-outside-toplevel,import-error
    crate = crates[edits[0].parent.name]
    with tempfile.TemporaryDirectory(prefix="roam-edit-") as room:
        for part in rtlib.PARTS:
            if (pathlib.Path(crate.folder) / part).is_dir():
                shutil.copytree(f"{crate.folder}/{part}", f"{room}/{part}")
        laid = {it: edit_copy(room, it) for it in edits}
        only = [word for it in edits for word in ("--only", function_of(it))]
        words = crate.words(["--jobs", "1", *only], keeps=False)
        ran = subprocess.run([rtlib.RATTLE, "check", *words], cwd=room, stdin=subprocess.DEVNULL, stdout=subprocess.PIPE,
                             stderr=subprocess.STDOUT, errors="replace", check=False)
        code = {it: pathlib.Path(room, file_of(it)).read_text(encoding="utf-8") for it in edits}
    faults = {it: judged(ran.stdout, it, code[it]) if laid[it] else "changes what isn't there" for it in edits}
    for it, fault in faults.items():
        print(f"{it.relative_to(ROOT)}: {fault or 'refused, as it must be'}", flush=True)
    return not any(faults.values())


def third_of(edits: list[pathlib.Path]) -> list[pathlib.Path]:
    """Returns those of the edits that this commit's run tries, every third one from a place that its hash gives; says which these are."""
    asked = subprocess.run(["git", "rev-parse", "HEAD"], cwd=ROOT, capture_output=True, text=True, check=False)
    commit = asked.stdout.strip()
    if asked.returncode or not re.fullmatch("[0-9a-f]{40,}", commit):
        print(f"there is no commit: all {len(edits)} mistakes with a function are tried", flush=True)
        return edits
    first = int(commit, 16) % 3
    print(f"third {first + 1} of 3 of the mistakes, by commit {commit[:8]}: {len(edits[first::3])} of {len(edits)} are tried", flush=True)
    return edits[first::3]


def gate(jobs: int, is_all: bool) -> int:
    """Tries the edits that name a function, or the commit's third of them."""
    # The kit's own module knows a crate's words.
    sys.path.insert(0, str(pathlib.Path(os.path.realpath(subprocess.check_output(["which", "rt"], text=True).strip())).parent))
    import rtlib  # pylint: disable=import-outside-toplevel,import-error
    edits = sorted(it for it in HERE.glob("*/*.edit") if function_of(it))
    edits = edits if is_all else third_of(edits)
    of_crates = [[it for it in edits if it.parent.name == name] for name in sorted({it.parent.name for it in edits})]
    os.chdir(ROOT)
    known: dict = {}
    crates = {of[0].parent.name: rtlib.Crate(str(ROOT / "crates" / of[0].parent.name), str(ROOT), known) for of in of_crates}
    parts = [batch for of in of_crates for batch in batches(of)]
    with concurrent.futures.ThreadPoolExecutor(jobs) as pool:
        return int(not all(list(pool.map(lambda of: refused_alone(crates, of), parts))))


def main() -> int:
    """Tries the crates that are named, or all."""
    if sys.argv[1:2] == ["--gate"]:
        more = [it for it in sys.argv[2:] if it != "--all"]
        return gate(int(more[0]) if more else 2, "--all" in sys.argv[2:])
    named = sys.argv[1:] or sorted(it.name for it in HERE.iterdir() if it.is_dir() and not it.name.startswith("_"))
    return 0 if all([refused(crate) for crate in named]) else 1


if __name__ == "__main__":
    sys.exit(main())
