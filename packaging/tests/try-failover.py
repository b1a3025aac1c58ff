#!/usr/bin/env python3
"""try-failover.py [--seconds N] [--rate N] [--no-seals] [PROGRAM]

Puts two FreeRADIUS behind a broker, as the home servers of one realm, on loopback, and has six loops of eapol_test log in by PEAP side
by side, for N seconds (120). The first home server is killed a sixth of the way in, and comes back after a third of the whole (40
seconds at most). It fails where a login fails but those that ran at the kill; where the second server is said to keep silent; where
the first isn't used for new logins within `rest` of its return. With --no-seals the servers' replies need no Message-Authenticator.

Then, with 50 requests a second (--rate) that are answered, bursts of 3, 10 and 100 that no server answers: the one that answers the others
may not rest. (The second is asked for nothing else by then: it may.)
Without PROGRAM the broker that is written apart (oracle/broker.py) stands in.

It needs freeradius, eapol_test (Debian's eapoltest) and openssl, and no root.
"""

import argparse
import os
import re
import select
import sys
import threading
import time

sys.dont_write_bytecode = True
from around import command, tried
from looks import go_on, want
from peap import PASSWORD, SECRET, accepted_by, logs_in, start_home, write_certificate
from radius import access_with_password, bound, packets
from server import configuration, peer, realm

BROKER, FIRST, SECOND, ACCESS = "127.0.10.1", "127.0.10.17", "127.0.10.18", "127.0.10.33"
AUTH, ACCT, OUT, USER = 29012, 29013, 29020, "u@a.example"
LOOPS, REST = 6, 15000


def conf(seals):
    homes = [{"auth": f"{ip}:{AUTH}", "acct": f"{ip}:{ACCT}", "secret": SECRET, "require_seal": seals} for ip in (FIRST, SECOND)]
    return configuration(
        peer("access", ACCESS, SECRET, require_seal=True),
        realm("a.example", *homes, conversations=True, peer_share=192, out=f"{BROKER}:{OUT}", tries=3, wait=1000, rest=REST, rest_after=3),
        auth=f"{BROKER}:{AUTH}", acct=f"{BROKER}:{ACCT}", max_attributes=195)


class Login(threading.Thread):
    """Logs in again and again, and keeps when each login began and ended, and whether it succeeded."""

    def __init__(self, number, around, ends):
        super().__init__(daemon=True)
        self.number, self.around, self.ends, self.logins = number, around, ends, []

    def run(self):
        while time.monotonic() < self.ends:
            begun = time.monotonic()
            success = logs_in(self.around, f"loop-{self.number}", USER, (ACCESS, BROKER, AUTH), f"02:00:00:00:00:{self.number:02x}")
            self.logins.append((begun, time.monotonic(), success))


def said_of(around, endpoint):
    """How often the broker's log says of a home server that it keeps silent."""
    return len(re.findall(rf"home server {re.escape(endpoint)}.* (?:stopped|never) answer(?:ing|ed)", around.log("broker")))


def try_outage(around, seconds):
    """A home server dies and comes back under six logins side by side."""
    begun = time.monotonic()
    loops = [Login(number, around, begun + seconds) for number in range(LOOPS)]
    for loop in loops:
        loop.start()
    time.sleep(seconds / 6)
    killed = time.monotonic()
    around.kill("first")
    time.sleep(min(40, seconds / 3))
    # What the one that was killed had accepted isn't counted: the log goes on.
    before = len(accepted_by(around, "first"))
    start_home(around, "first", (FIRST, AUTH), BROKER)
    back, used = time.monotonic(), None
    while any(loop.is_alive() for loop in loops):
        if used is None and len(accepted_by(around, "first")) > before:
            used = time.monotonic() - back
        time.sleep(0.25)
    logins = [login for loop in loops for login in loop.logins]
    failed = [(one - begun, end - begun) for one, end, success in logins if not success]
    others = [it for it in failed if not it[0] + begun <= killed <= it[1] + begun]
    slow = max((end - one for one, end, success in logins if success and one > killed + 20), default=0)
    want(not others and len(logins) > LOOPS,
         f"no login fails but those that ran at the kill: {len(logins)} logins, {len(failed)} of them failed" + (f", {others}" if others else ""))
    want(used is not None and used < REST / 1000 + 5,
         f"the first server is used for new logins within its rest, once it is back ({f'after {used:.1f} s' if used else 'never'})")
    want(said_of(around, f"{SECOND}:{AUTH}") == 0, "the second one is never said to keep silent")
    want(said_of(around, f"{FIRST}:{AUTH}") > 0, "the first one is, while it is away")
    print(f"       the slowest login from 20 s behind the kill on took {slow:.1f} s")


# Bursts

def ask(opened, number, user):
    opened.send(access_with_password(number, user.encode(), SECRET.encode(), password=PASSWORD.encode()))


def socket_of_access():
    opened = bound(0, ACCESS)
    opened.connect((BROKER, AUTH))
    return opened


def try_bursts(around, rate):
    """So many requests a second are answered, and bursts aren't."""
    before = {ip: said_of(around, f"{ip}:{AUTH}") for ip in (FIRST, SECOND)}
    steady, burst, answered, sent, begun = socket_of_access(), socket_of_access(), 0, 0, time.monotonic()
    bursts = [(1, 3), (5, 10), (9, 100)]
    while time.monotonic() < begun + 24:
        if bursts and time.monotonic() > begun + bursts[0][0]:
            for number in range(bursts.pop(0)[1]):
                ask(burst, number, "nobody@a.example")
        if sent < rate * (time.monotonic() - begun):
            ask(steady, sent % 256, USER)
            sent += 1
        while select.select([steady], [], [], 0.005)[0]:
            answered += steady.recv(4096)[0] == packets.ACCESS_ACCEPT
    rested = {ip: said_of(around, f"{ip}:{AUTH}") - before[ip] for ip in before}
    want(not rested[FIRST], f"the server that answers others rests after no burst of 3, 10 or 100 that it leaves without an answer: {rested}")
    want(answered >= sent - 2, f"all others are answered: {answered} of {sent}")


def main():
    words = argparse.ArgumentParser(usage=__doc__)
    words.add_argument("--seconds", type=float, default=120)
    words.add_argument("--rate", type=float, default=50)
    words.add_argument("--no-seals", action="store_true")
    words.add_argument("program", nargs="?")
    given = words.parse_args()
    program = os.path.abspath(given.program) if given.program else None
    go_on()

    def start(around):
        command("eapol_test")
        write_certificate(around)
        around.broker(program, conf(not given.no_seals), int(given.seconds * 1000) + 120000)
        start_home(around, "first", (FIRST, AUTH), BROKER)
        start_home(around, "second", (SECOND, AUTH), BROKER)

    def look(around):
        try_outage(around, given.seconds)
        try_bursts(around, given.rate)
    return tried(start, look)


if __name__ == "__main__":
    sys.exit(main())
