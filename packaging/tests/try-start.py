#!/usr/bin/env python3
"""try-start.py PROGRAM

Starts PROGRAM as roam.service does, and runs wait-until-it-serves beside it: it has to end with 0 once the program serves, and with 1 where
that has ended by a socket that is taken, with and without a control socket.
"""
import os
import socket
import subprocess
import sys
import tempfile
import time

sys.dont_write_bytecode = True
from looks import be_quiet, end, want, words
from server import HERE, Server, configuration, peer, places, realm

WAIT = os.path.join(os.path.dirname(os.path.dirname(os.path.abspath(__file__))), "installed", "wait-until-it-serves")
TEXT = configuration(peer("nas1"), realm("a.example", 21940, out=f"{HERE}:21950"), **places(21930))


def status_of(server):
    """The status of the wait, and its seconds; an ended program is taken note of meanwhile, as systemd does."""
    begun = time.monotonic()
    waiting = subprocess.Popen([WAIT, str(server.process.pid), server.conf, server.program])
    while waiting.poll() is None and time.monotonic() < begun + 60:
        server.process.poll()
        time.sleep(.05)
    waiting.kill()
    return waiting.wait(), time.monotonic() - begun


def main():
    [program] = words(__doc__, 1)
    be_quiet()
    program = os.path.abspath(program)
    with tempfile.TemporaryDirectory() as folder, socket.socket(socket.AF_INET, socket.SOCK_DGRAM) as taken:
        for control in (True, False):
            with Server(program, folder, TEXT, control=control) as server:
                status, seconds = status_of(server)
                want(status == 0 and seconds < 40, f"with control {control} it serves: {status} after {seconds:.1f} s")
                want("serving " in server.said() or not control, f"and it says so: {server.said()}")
        taken.bind((HERE, 21950))
        for control in (True, False):
            with Server(program, folder, TEXT, control=control) as server:
                status, seconds = status_of(server)
                want(status == 1 and seconds < 40, f"with control {control} it can't bind: {status} after {seconds:.1f} s")
                want(f"cannot bind {HERE}:21950" in server.said(), f"and it says so: {server.said()}")
    with open(os.path.join(os.path.dirname(WAIT), "roam.service"), encoding="utf-8") as unit:
        line = "\nExecStartPost=/usr/local/lib/roam/wait-until-it-serves ${MAINPID} /run/roam-conf/roam.conf /usr/local/bin/roam\n"
        want(line in unit.read(), "the unit waits for it")
    return end()


if __name__ == "__main__":
    sys.exit(main())
