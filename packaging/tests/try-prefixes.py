#!/usr/bin/env python3
"""try-prefixes.py PROGRAM

Serves peers at an address and at a prefix that has it, and has `roam ctl .. reload` read changed files: one of the peers goes, and others
come at its address. What is asked from there must be the peer's of the longest prefix that is in the file: an Accounting-Request that is
signed by its secret is answered, and one signed by another's isn't, those of peers that went among them.
"""
import sys
import tempfile
import time

sys.dont_write_bytecode = True
from looks import be_quiet, end, want, words
from radius import HERE, accounting, asked
from server import Server, configuration, peer, places, realm

PORT = 17820
REALM = realm("a.example", {"auth": f"{HERE}:{PORT + 10}"}, out=f"{HERE}:{PORT + 2}", accounting="answer")
NETWORK = ("network", "127.0.0.0/8")
# The peers of each file, and whose the requests from 127.0.0.1 are.
FILES = [
    ([("one", HERE)], "one"),
    ([NETWORK], "network"),
    ([("two", HERE), NETWORK], "two"),
    ([("three", HERE), NETWORK], "three"),
    ([("everybody", "0.0.0.0/0"), ("three", "127.0.0.2"), NETWORK], "network"),
    ([("everybody", "0.0.0.0/0")], "everybody"),
    ([("three", "127.0.0.0/31"), ("everybody", "0.0.0.0/0"), NETWORK], "three"),
    ([("three", ["127.0.0.2", "127.0.0.0/30"]), ("everybody", ["0.0.0.0/0", "127.0.0.0/31"]), NETWORK], "everybody"),
    ([("three", ["10.0.0.0/8", HERE]), ("everybody", ["127.0.0.0/31", "0.0.0.0/0"]), NETWORK], "three"),
]
NAMES = sorted({name for peers, _ in FILES for name, _ in peers})


def secret_of(name):
    return f"a-secret-of-{name}"


def is_answered(name, times=1):
    """Whether an Accounting-Request that is signed by the secret of a peer is answered, where it is sent so often, two seconds apart."""
    reply = asked(accounting(7, b"u@a.example", b"1", secret_of(name).encode()), (HERE, PORT + 1), seconds=2, times=times)
    return reply is not None and reply[0] == 5


def look_at(peers, owner, round_of):
    for name in NAMES:
        want(is_answered(name, 5 if name == owner else 1) == (name == owner), f"{round_of}: of {peers} it isn't {owner} alone that is answered, but {name}")


def text_of(peers):
    return configuration(*(peer(name, ip, secret_of(name)) for name, ip in peers), REALM, shards=1, **places(PORT))


def main():
    [program] = words(__doc__)
    be_quiet()
    with tempfile.TemporaryDirectory() as folder, Server(program, folder, text_of(FILES[0][0])) as server:
        until = time.monotonic() + 60
        while not is_answered(FILES[0][1]):
            want(server.process.poll() is None and time.monotonic() < until, "it serves")
        for number, (peers, owner) in enumerate(FILES):
            if number:
                ran = server.reload(text_of(peers))
                want(ran.returncode == 0, f"{peers} are taken: {ran.stdout}{ran.stderr}")
            look_at(peers, owner, f"file {number}")
        server.stop()
    return end(f"of {len(FILES)} files each has its peer at an address")


if __name__ == "__main__":
    sys.exit(main())
