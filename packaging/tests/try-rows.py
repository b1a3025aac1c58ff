#!/usr/bin/env python3
"""try-rows.py PROGRAM

Plays each row of crates/test_rows/data by `PROGRAM sim`: it must print the packets that stand in the row, octet for octet, and nothing else.
The rows come from outside the program (oracle/README.md). It doesn't play what needs the crates themselves: the program `test_rows` also holds
refusals to the rows, and refuses memory.
"""
import concurrent.futures
import os
import pathlib
import sys
import tempfile

sys.dont_write_bytecode = True
from looks import be_quiet, end, go_on, want, words
from server import run

DATA = pathlib.Path(__file__).resolve().parents[2] / "crates" / "test_rows" / "data"


def packets_of(script):
    """Returns the packets that come of a row's events, not of its probes: those are made only where memory is refused."""
    packets, is_event = [], False
    for line in script.splitlines():
        if not line.startswith(("#>", "#!", "# ")):
            is_event = not line.startswith("#?")
        elif line.startswith("#> ") and is_event and not line.startswith("#> refused"):
            packets.append(line[3:])
    return packets


def printed_for(program, row):
    """Returns the status of a simulation of a row, and the lines that it prints."""
    head, _, script = row.partition("\n")
    with tempfile.NamedTemporaryFile("w", suffix=".script") as file:
        file.write(script)
        file.flush()
        status, printed, _ = run(program, "sim", DATA / "configurations" / f"{head.split()[0]}.conf", file.name)
    return status, printed.splitlines()


def main():
    program, = words(__doc__)
    go_on()
    be_quiet()
    rows = [(path.name, row) for path in sorted(DATA.glob("r*/*")) for row in ("\n" + path.read_text(encoding="utf-8")).split("\n#@ ")[1:]]
    with concurrent.futures.ThreadPoolExecutor(os.cpu_count()) as players:
        for (name, row), (status, printed) in zip(rows, players.map(lambda it: printed_for(program, it[1]), rows)):
            want(status == 0 and printed == packets_of(row), f"{name}: the row {row.splitlines()[0]}")
    return end("rows")


if __name__ == "__main__":
    sys.exit(main())
