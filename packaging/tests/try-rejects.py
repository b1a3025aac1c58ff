#!/usr/bin/env python3
"""try-rejects.py PROGRAM [SECONDS]

Serves on loopback with one worker, and sends it Access-Requests of names that no realm has. It needs no root. It fails
unless

1. a single one is told with its peer, User-Name and Calling-Station-Id, within two seconds;
2. equal ones are told in one line, with their number;
3. a flood of as many names as datagrams, for so many seconds (5), gives nine lines a second at most, and the numbers in
   these lines are as many as the server counts.
"""
import os
import re
import sys
import tempfile
import time

sys.dont_write_bytecode = True
from looks import end, go_on, want, words
from radius import HERE, access, attribute, bound, heard
from server import Server, configuration, peer, places, realm

PORT = 18126
TEXT = configuration(
    peer("north", secret="a-secret-of-peer"),
    realm("b.example", 28126, out=f"{HERE}:22126", reverse=f"{HERE}:23126", tries=1, wait=1000, hold=0, max_pending=10, max_sessions=0),
    shards=1, **places(PORT), trace_limit=1000)
LINE = re.compile(r'^[^"\n]*INFO exchange result=local_reject request=(?:access|other) realm=- peer=(\S+) user=(\S+) station=(\S+) '
                  r'server=- ms=0 tries=0(?: why=\w+)?(?: times=(\d+))?$', re.MULTILINE)


def request(user, station=b"02-00-00-00-00-01", identifier=0):
    return access(identifier, user, attribute(31, station))


def lines_of(server):
    """The lines of local rejects: peer, user, station, and how many they tell of."""
    return [(who, user, station, int(times or 1)) for who, user, station, times in LINE.findall(server.said())]


def counted(server):
    return server.count("roam_peer_local_rejects_total", peer="north")


def settle(server):
    """Waits until no more are rejected, what lay in the socket's buffer among them, and until all of them are told."""
    for _ in range(60):
        before = counted(server)
        time.sleep(2.5)
        if counted(server) == before:
            return


def ask(client, packet):
    """Sends a request until it is answered."""
    for _ in range(100):
        client.sendto(packet, (HERE, PORT))
        if reply := heard(client)[0]:
            return reply
        time.sleep(.05)
    return b""


def flood(client, seconds):
    """Sends requests of different names, some with long values, as fast as it can."""
    client.setblocking(False)
    until, sent = time.monotonic() + seconds, 0
    while time.monotonic() < until:
        for _ in range(50):
            name = b"%d@nowhere%d.example" % (sent, sent)
            try:
                client.sendto(request(name.ljust(253, b"\n"), b"\0" * 253, sent % 256), (HERE, PORT))
                sent += 1
            except BlockingIOError:
                pass
        while heard(client)[0]:
            pass
    return sent


def main():
    program, *given = words(__doc__, 1, 2)
    seconds = float(given[0]) if given else 5
    go_on()
    with tempfile.TemporaryDirectory() as folder, bound(seconds=.2) as client, Server(program, folder, TEXT) as server:
        want(ask(client, request(b"dean@nowhere.example"))[:1] == b"\3", "a request for no realm is rejected")
        time.sleep(2)
        want(('"north"', '"dean@nowhere.example"', '"02-00-00-00-00-01"') in [line[:3] for line in lines_of(server)],
             "and told with its peer, user and station")
        before = len(lines_of(server))
        for identifier in range(1, 101):
            ask(client, request(b"same@nowhere.example", identifier=identifier))
        time.sleep(2)
        told = [line for line in lines_of(server)[before:] if line[1] == '"same@nowhere.example"']
        want(1 <= len(told) <= 4, f"a hundred equal ones are told in few lines ({len(told)})")
        want(sum(line[3] for line in told) >= 100, "which say how many they were")
        before, size, began = len(lines_of(server)), os.path.getsize(server.log), time.monotonic()
        sent = flood(client, seconds)
        settle(server)
        flooded = lines_of(server)[before:]
        print(f"{sent} datagrams sent, {sum(line[3] for line in flooded)} told in {len(flooded)} lines of {os.path.getsize(server.log) - size} octets")
        want(len(flooded) <= 9 * (time.monotonic() - began), "a flood gives nine lines a second at most")
        want(flooded, "and one at least")
        every = sum(line[3] for line in lines_of(server))
        want(every == counted(server), f"and all are told: {every} of {counted(server)}")
        server.stop(is_told=False)
    return end()


if __name__ == "__main__":
    sys.exit(main())
