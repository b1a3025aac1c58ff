#!/usr/bin/env python3
"""Reads the processor minutes of each crate while a command proves and tests, and keeps them for the pages.

    tools/minutes.py run FILE CMD ..    runs CMD, and writes into FILE a line for each crate; ends with CMD's status. As a crate begins it
                                        says which of how many that is, and about how long all that are left take, by docs/minutes.txt
    tools/minutes.py take FILE          takes such lines over, of that file or of what .ci/run printed, into docs/minutes.txt, and
                                        writes the table of docs/CONTRIBUTING.md anew
    tools/minutes.py --check            says whether that table is what docs/minutes.txt gives; ends with 1 if not

Each second it looks at the processes below CMD: what they took so far, for which crate (`--crate-name`), and what for: proof, tests,
edits (a proof in a folder of its own), or a program that runs. What a process takes in its last second isn't seen.

A processor second is worth less on a machine whose host gives its processors to others too: the same proofs took twice as many on one
day as on another. It times a loop meanwhile, and writes its pace too, which says little of a proof: compare runs by what roam_crypto takes.
"""
import collections
import datetime
import os
import pathlib
import re
import statistics
import subprocess
import sys
import time

ROOT = pathlib.Path(__file__).resolve().parent.parent
KEPT = ROOT / "docs" / "minutes.txt"
PAGE = ROOT / "docs" / "CONTRIBUTING.md"
BEGIN, END = "<!-- minutes: made by tools/minutes.py -->\n", "<!-- minutes: end -->\n"
KINDS = ("proof", "tests", "edits", "runs")
LINE = re.compile(r"^minutes of (\w+): proof ([\d.]+), tests ([\d.]+), edits ([\d.]+), runs ([\d.]+)$", re.M)
TICKS = os.sysconf("SC_CLK_TCK")
STEPS, APART = 100_000, 20          # of the loop that is timed, and so many seconds apart
PACE = re.compile(r"^# pace: (.*)$", re.M)


def below(process: int) -> list[int]:
    """Returns a process and all that stand below it."""
    children = collections.defaultdict(list)
    for entry in os.listdir("/proc"):
        if entry.isdigit():
            try:
                parent = int(pathlib.Path("/proc", entry, "stat").read_text().rsplit(")", 1)[1].split()[1])
            except (OSError, IndexError):
                continue
            children[parent].append(int(entry))
    found = [process]
    for it in found:
        found += children[it]
    return found


def crate_and_kind(process: int) -> tuple[str, str] | None:
    """For which crate a process works, and what for."""
    words = pathlib.Path("/proc", str(process), "cmdline").read_bytes().decode(errors="replace").split("\0")
    if "--crate-name" in words:
        crate = words[words.index("--crate-name") + 1].removesuffix("_tests")
        # `rt ci NAME` works on a copy of the tree
        at_home = os.readlink(f"/proc/{process}/cwd").endswith(f"/crates/{crate}")
        return crate, "tests" if "--test" in words else "proof" if at_home else "edits"
    ran = re.search(r"(\w+)$", os.readlink(f"/proc/{process}/exe").removesuffix(" (deleted)").removesuffix(".by-rattle"))
    name = ran.group(1).removesuffix("_tests") if ran else ""
    return (name, "runs") if (ROOT / "crates" / name).is_dir() and name else None


def is_proving(process: int) -> bool:
    """Says whether a process proves something: a pass over names and types alone has no logic among its words."""
    return b"\0--logic-built\0" in pathlib.Path("/proc", str(process), "cmdline").read_bytes()


def look(process: int, seen: dict[tuple[int, str], tuple[tuple[str, str], float]]) -> set[str]:
    """Notes what each process below one has taken so far; the crates that one proves now."""
    working = set()
    for it in below(process):
        try:
            fields = pathlib.Path("/proc", str(it), "stat").read_text().rsplit(")", 1)[1].split()
            what = crate_and_kind(it)
            if what and what[1] in ("proof", "tests") and is_proving(it):
                working.add(what[0])
        except (OSError, IndexError):
            continue
        if what:
            seen[it, fields[19]] = (what, (int(fields[11]) + int(fields[12])) / TICKS)
    return working


def seconds_of_loop() -> float:
    """Returns what a million steps of a loop take of a processor now, in seconds."""
    begin, steps = time.process_time(), 0
    for step in range(STEPS):
        steps += step * step
    return (time.process_time() - begin) * 1_000_000 / STEPS


def pace_of(looks: list[float]) -> str:
    return f"# pace: {statistics.median(looks):.2f} s of a processor for a million steps of a loop (median of {len(looks)} looks)\n"


class Progress:
    """Which crates have begun, and what is left of them."""

    def __init__(self) -> None:
        kept = {name: sum(of.values()) for name, of in read(KEPT.read_text(encoding="utf-8")).items()}
        # For a crate that no run had, take what half of them take less than.
        usual = statistics.median(kept.values())
        # All crates below each one, of which crates.txt names the lowest first.
        self.below: dict[str, set[str]] = {}
        for name, used in re.findall(r"^(\w+):(.*)$", (ROOT / "crates.txt").read_text(encoding="utf-8"), re.M):
            self.below[name] = set().union(*({it} | self.below[it] for it in used.split() if it in self.below))
        self.left = {name: kept.get(name, usual) for name in self.below}
        self.running: dict[str, float] = {}
        self.done, self.began = 0.0, time.monotonic()

    def clock(self) -> float:
        """Returns about how many minutes by the clock are left: for all crates as many at once as so far (at first as there are processors), and
        no less than for those that wait for each other, one after the other."""
        elapsed = (time.monotonic() - self.began) / 60
        at_once = self.done / elapsed if self.done > 10 and elapsed > 5 else os.cpu_count() or 1
        rest = self.left | {name: minutes / 2 for name, minutes in self.running.items()}
        in_row: dict[str, float] = {}
        for name in filter(rest.__contains__, self.below):
            in_row[name] = rest[name] + max((in_row.get(it, 0) for it in self.below[name]), default=0)
        return max([sum(rest.values()) / max(at_once, .1), *in_row.values()])

    def tell(self, working: set[str]) -> None:
        """Says of each crate that begins which it is. Nothing is said of one that ends: so the command's last line stays the last."""
        for name in set(self.running) - working:
            self.done += self.running.pop(name)
        for name in sorted(working & set(self.left)):
            self.running[name] = self.left.pop(name)
            # A crate begins when those below it are proved: by this run, or by an earlier one that kept them.
            for it in self.below[name] & set(self.left):
                del self.left[it]
            print(f"progress: {name} begins, crate {len(self.below) - len(self.left)} of {len(self.below)}; "
                  f"about {self.clock():.0f} minutes of proofs and tests are left", file=sys.stderr, flush=True)


def run(file: str, words: list[str]) -> int:
    """Runs a command, and writes the minutes of each crate."""
    progress = Progress()
    seen: dict[tuple[int, str], tuple[tuple[str, str], float]] = {}
    looks = [seconds_of_loop()]
    started = subprocess.Popen(words)
    timed = time.monotonic()
    while started.poll() is None:
        try:
            progress.tell(look(started.pid, seen))
        except (OSError, ValueError):
            pass                        # a process that ended while it was looked at: the next look has the others
        if time.monotonic() - timed >= APART:
            looks.append(seconds_of_loop())
            timed = time.monotonic()
        time.sleep(1)
    minutes: dict[str, dict[str, float]] = {}
    for (crate, kind), seconds in seen.values():
        of = minutes.setdefault(crate, dict.fromkeys(KINDS, 0.0))
        of[kind] += seconds / 60
    pathlib.Path(file).write_text(pace_of(looks) + lines_of(minutes), encoding="utf-8")
    return started.returncode if started.returncode >= 0 else 128 - started.returncode


def lines_of(minutes: dict[str, dict[str, float]]) -> str:
    return "".join(f"minutes of {crate}: " + ", ".join(f"{kind} {of[kind]:.1f}" for kind in KINDS) + "\n"
                   for crate, of in sorted(minutes.items(), key=lambda it: -sum(it[1].values())))


def read(text: str) -> dict[str, dict[str, float]]:
    """Returns the minutes that a text has, by crate."""
    return {found[0]: dict(zip(KINDS, map(float, found[1:]))) for found in LINE.findall(text)}


def table() -> str:
    """Returns the table of the page: what takes longest of each kind, and what the others take together."""
    text = KEPT.read_text(encoding="utf-8")
    minutes, rows = read(text), []
    names = {"proof": "proofs", "tests": "tests, proved", "edits": "must-fail edits", "runs": "programs and tests, run"}
    for kind in KINDS:
        of = sorted(((each[kind], crate) for crate, each in minutes.items() if each[kind] > 0), reverse=True)
        long = [(taken, crate) for taken, crate in of if taken >= 8]
        said = ", ".join(f"`{crate}` {taken:.1f}" for taken, crate in long)
        rest = sum(taken for taken, _ in of) - sum(taken for taken, _ in long)
        if of:
            rows.append(f"| {names[kind]} | {sum(taken for taken, _ in of):.0f} | {said}{', ' if said else ''}all others together {rest:.0f} |")
    whole = sum(sum(each.values()) for each in minutes.values())
    gone = ", ".join(f"`{it}`" for it in sorted(minutes) if not (ROOT / "crates" / it).exists())
    return (f"{text.splitlines()[0].lstrip('# ')} In all {whole:.0f} processor minutes.{f' Gone since: {gone}.' if gone else ''}\n\n"
            "| | minutes | |\n|---|---|---|\n" + "\n".join(rows) + "\n")


def page() -> str:
    text = PAGE.read_text(encoding="utf-8")
    return text.split(BEGIN)[0] + BEGIN + table() + END + text.split(END)[1]


def main() -> int:
    words = sys.argv[1:]
    if len(words) >= 3 and words[0] == "run":
        return run(words[1], words[2:])
    if len(words) == 2 and words[0] == "take":
        text = pathlib.Path(words[1]).read_text(encoding="utf-8")
        minutes, pace = read(text), PACE.search(text)
        read_on = f"# Read on {datetime.date.today()} by tools/minutes.py" + (f", at a pace of {pace.group(1)}." if pace else ".")
        if not minutes:
            print(f"{words[1]} has no minutes of crates", file=sys.stderr)
            return 1
        head = KEPT.read_text(encoding="utf-8").splitlines()[0] if pathlib.Path(words[1]).samefile(KEPT) else read_on
        KEPT.write_text(head + "\n" + lines_of(minutes), encoding="utf-8")
        PAGE.write_text(page(), encoding="utf-8")
        return 0
    if words == ["--check"]:
        same = PAGE.read_text(encoding="utf-8") == page()
        print("the table of minutes is what docs/minutes.txt gives" if same else "docs/CONTRIBUTING.md: run tools/minutes.py take docs/minutes.txt")
        return int(not same)
    print(__doc__, file=sys.stderr)
    return 2


if __name__ == "__main__":
    sys.exit(main())
