#!/usr/bin/env python3
"""trials.py [--until SECONDS] WHEN [PROGRAM]

Runs the trials of trials.txt that run then (scripts, gate, trials, around), each within five minutes in the gate, and says how long
each took. With `trials` it runs those of the gate too, under their full load. One that fails is run once more, since a busy machine drops
datagrams; what it printed last is shown. Each has a network of its own where root runs them and one can be had (unshare, ip): so nothing
else here holds its ports. One for which something isn't installed is left out, and named; so is one that would begin
later than so many seconds from now. The status is 1 where one fails, and the last lines name each of them.
"""
import os
import re
import shutil
import subprocess
import sys
import time

HERE = os.path.dirname(os.path.abspath(__file__))
WHEN = {"scripts": ["scripts"], "gate": ["gate"], "trials": ["gate", "trials"], "around": ["around"]}
BEGAN = time.monotonic()


def rows(when):
    """The words of each trial that runs then, and what it needs."""
    found = []
    with open(os.path.join(HERE, "trials.txt"), encoding="utf-8") as file:
        for line in file:
            of, *cells = [cell.strip() for cell in line.split("#")[0].split("|")]
            if of in WHEN[when]:
                # What stands in brackets is for the gate alone.
                words = re.sub(r"\[(.*)\]", r"\1" if when in ("gate", "scripts") else "", cells[0]).split()
                found.append((words, cells[1].split() if cells[1:] else []))
    return found


def own_network():
    """The words before those of a command that give it a network of its own; none where that can't be had."""
    # The ports that the system gives out there are none that a trial names.
    line = 'ip link set lo up || exit 1; { echo 50000 60999 > /proc/sys/net/ipv4/ip_local_port_range; } 2> /dev/null; exec "$@"'
    before = ["unshare", "-n", "sh", "-c", line, "sh"]
    try:
        return before if os.geteuid() == 0 and subprocess.run([*before, "true"], capture_output=True, check=False).returncode == 0 else []
    except OSError:
        return []


def is_good(words, limit, before):
    """Whether a trial passes; what it printed last is shown where it doesn't."""
    try:
        ran = subprocess.run([*before, os.path.join(HERE, words[0]), *words[1:]], stdout=subprocess.PIPE, stderr=subprocess.STDOUT, timeout=limit, check=False)
        status, printed = ran.returncode, ran.stdout
    except subprocess.TimeoutExpired as late:
        status, printed = f"nothing within {limit} s", late.stdout or b""
    if status != 0:
        print("\n".join(printed.decode(errors="replace").splitlines()[-30:]), f"ended with {status}: {' '.join(words)}", sep="\n", flush=True)
    return status == 0


def main():
    given, until = sys.argv[1:], None
    if given[:1] == ["--until"] and len(given) > 2:
        until, given = float(given[1]), given[2:]
    if not 1 <= len(given) <= 2 or given[0] not in WHEN:
        print(__doc__, file=sys.stderr)
        return 2
    failed, found, before = [], rows(given[0]), own_network()
    for place, (words, needs) in enumerate(found, 1):
        words = [os.path.abspath(given[1]) if it == "PROGRAM" and given[1:] else it for it in words]
        missing = [it for it in needs if not (shutil.which(it) or shutil.which(it, path="/usr/sbin:/sbin"))]
        if "PROGRAM" in words or missing or until is not None and time.monotonic() - BEGAN > until:
            why = f"since {', '.join(missing)} isn't here" if missing else "for want of a program" if "PROGRAM" in words else "for want of time"
            print(f"LEFT OUT {why}: {words[0]}", flush=True)
            continue
        begun, limit = time.monotonic(), 300 if given[0] in ("gate", "scripts") else 900
        if not is_good(words, limit, before) and not is_good(words, limit, before):
            failed.append(" ".join(words))
        print(f"tried: {' '.join(words)} ({time.monotonic() - begun:.0f} s), {place} of {len(found)}", flush=True)
    print("".join(f"FAILED: {it}\n" for it in failed), end="")
    return int(bool(failed))


if __name__ == "__main__":
    sys.exit(main())
