#!/usr/bin/env python3
"""try-balance.py PROGRAM

Logs in 600 users of a realm with three home servers and `balance = "user"`, on loopback. It fails unless

1. each server gets between a quarter and 0.42 of them, the one that the users' hashes say; and each user's second login and its
   accounting come to the server of the first;
2. once one server is silent all logins are answered: that server's users by the server behind it, and nobody else's server changes;
3. once it answers again each user is back at its server;
4. the metrics balance, and the server stops, audited.
"""
import collections
import hashlib
import sys
import tempfile
import time

sys.dont_write_bytecode = True
from looks import end, want, words
from radius import HERE, HomeServer, access, accounting, answered, asked, user_name
from server import Server, configuration, peer, places, realm

PORT, HOMES, OUT = 31220, (31230, 31232, 31234), 31240
USERS, NAME, SECRET, CLIENT = 600, b"u%d@a.example", b"a-secret-of-home", b"a-secret-of-nas1"
REST, WAIT = 1000, 200


class Home:
    """A home server: whose requests came to it, and whether it is silent."""

    def __init__(self, port):
        self.users, self.is_silent = collections.Counter(), False
        self.ends = [HomeServer(port + more, SECRET, self.takes) for more in (0, 1)]

    def takes(self, packet):
        if not self.is_silent:
            self.users[user_name(packet)] += 1
        return not self.is_silent


def conf():
    return configuration(
        peer("nas1", HERE),
        realm("a.example", *HOMES, balance="user", out=f"{HERE}:{OUT}", tries=1, wait=WAIT, rest=REST, rest_after=1, hold=0),
        **places(PORT))


def place_of(user):
    """The server that a user's hash says: the first four octets of MD5, big-endian, modulo the number of servers."""
    return int.from_bytes(hashlib.md5(user).digest()[:4], "big") % len(HOMES)


def logged_in(homes):
    """Logs in all users, and answers by which server each was answered."""
    for home in homes:
        home.users.clear()
    want(answered(USERS, (HERE, PORT), name=NAME) == USERS, "all logins are answered")
    at = [[place for place, home in enumerate(homes) if home.users[NAME % n]] for n in range(USERS)]
    want(all(len(places) == 1 for places in at), "each user is answered by one server")
    return [places[0] for places in at if places]


def main():
    [program] = words(__doc__, 1)
    homes = [Home(port) for port in HOMES]
    with tempfile.TemporaryDirectory() as folder, Server(program, folder, conf()) as server:
        server.waits_for()
        first = logged_in(homes)
        shares = [first.count(place) / USERS for place in range(len(HOMES))]
        want(all(.25 <= share <= .42 for share in shares), f"each server has its share: {shares}")
        want(first == [place_of(NAME % n) for n in range(USERS)], "each user is where its hash says")
        want(logged_in(homes) == first, "a second login comes to the same server")
        for home in homes:
            home.users.clear()
        for n in range(0, USERS, 10):
            want(asked(accounting(n % 256, NAME % n, b"s%d" % n, CLIENT), (HERE, PORT + 1)) is not None, "accounting is answered")
            want(homes[first[n]].users[NAME % n] == 1, "accounting comes to the server of the login")
        print(f"shares {[round(share, 3) for share in shares]}")
        homes[1].is_silent = True
        moved = logged_in(homes)
        want(moved == [2 if place == 1 else place for place in first], "nobody else's server changes")
        homes[1].is_silent = False
        time.sleep((REST + 3 * WAIT) / 1000)
        # One login finds out that it answers again.
        want(asked(access(7, NAME % first.index(1)), (HERE, PORT)) is not None, "a login tries it")
        want(logged_in(homes) == first, "each user is back")
        server.stop()
    return end()


if __name__ == "__main__":
    sys.exit(main())
