#!/usr/bin/env python3
"""try-operators.py [--users N] [--outage N] [PROGRAM]

Puts a broker between servers as operators have them, on loopback:

1. An institution asks by three radsecproxies, at two addresses of IPv4 and at ::1, and is one RADIUS client. It fails unless a login and
   accounting by each of them are answered, its home server sees the institution's Operator-Name in each, and an address beside them gets
   nothing.
2. The accounting of that realm goes to a FreeRADIUS of its own, with a secret of its own. It fails unless that one gets all accounting and
   no login, and the home server the reverse; and unless logins go on where it is gone.
3. N users (600), each with a station, log in by PEAP at a realm with three FreeRADIUS and `balance = "user"`. It fails unless each server has
   between a quarter and 0.42 of them, those that their stations' hashes say. Then the second server is killed for N seconds (40) under
   logins of the same users, and comes back. It fails where a login fails but those that ran at the kill; where a user of another server
   is accepted by another one than before; and where a user of the killed one isn't back there once its rest is over.

Without PROGRAM the broker that is written apart (oracle/broker.py) stands in.

It needs freeradius, radsecproxy, eapol_test (Debian's eapoltest) and openssl, and no root.
"""

import argparse
import collections
import concurrent.futures
import hashlib
import itertools
import os
import re
import sys
import threading
import time

sys.dont_write_bytecode = True
from around import command, tried
from looks import go_on, over_lines, want
from peap import PASSWORD, SECRET, accepted_by, logs_in, start_home, write_certificate
from radius import access_with_password, accounting, asked, packets
from server import configuration, peer, realm

BROKER, SIX, NAS, STRANGER = "127.0.12.1", "::1", "127.0.12.33", "127.0.12.19"
HOME, BOOKS, HOMES = "127.0.12.49", "127.0.12.50", ("127.0.12.65", "127.0.12.66", "127.0.12.67")
AUTH, ACCT, OUT, OF_SIX = 28912, 28913, (28920, 28921), (28914, 28915)
OF_BOOKS, OPERATOR = "a secret of the books alone", "INSTITUTION:EX"
# The institution's proxies: where each is asked, from where, and by which of the broker's addresses.
PROXIES = {"first": ("127.0.12.17", (AUTH, ACCT), NAS, BROKER), "second": ("127.0.12.18", (AUTH, ACCT), NAS, BROKER), "of-six": (SIX, OF_SIX, SIX, SIX)}
LOOPS, REST, KILLED = 6, 15000, 1


def conf():
    homes = [{"auth": f"{ip}:{AUTH}", "secret": SECRET, "require_seal": True} for ip in HOMES]
    return configuration(
        peer("institution", [ip for ip, *_ in PROXIES.values()], SECRET, operator_name=OPERATOR, operator_namespace="4"),
        peer("access", NAS, SECRET, require_seal=True),
        realm("a.example", *homes, balance="user", accounting="answer", conversations=True, peer_share=192, out=f"{BROKER}:{OUT[0]}", tries=2, wait=1000,
              rest=REST, rest_after=3),
        realm("b.example", {"auth": f"{HOME}:{AUTH}", "secret": SECRET}, {"acct": f"{BOOKS}:{ACCT}", "secret": OF_BOOKS}, out=f"{BROKER}:{OUT[1]}"),
        auth=[f"{BROKER}:{AUTH}", f"[{SIX}]:{AUTH}"], acct=[f"{BROKER}:{ACCT}", f"[{SIX}]:{ACCT}"], max_attributes=195)


# One that tells what it sees in the Reply-Message.
SERVER = """
client broker {{ ipaddr = {broker}; secret = "{secret}" }}
modules {{
  pap {{ }}
  always ok {{ rcode = ok }}
}}
server default {{
  listen {{ type = auth; ipaddr = {ip}; port = {auth} }}
  listen {{ type = acct; ipaddr = {ip}; port = {acct} }}
  authorize {{
    update control {{ Cleartext-Password := "{password}" }}
    pap
  }}
  authenticate {{ pap }}
  accounting {{ ok }}
  post-auth {{
    update reply {{ Reply-Message := "%{{request:Operator-Name}}" }}
  }}
}}
"""
PROXY = """ListenUDP {at}:{auth}
ListenUDP {at}:{acct}
SourceUDP {at}
LogLevel 2
client nas {{ host {nas}; type udp; secret "{secret}" }}
server broker {{ host {broker}; port {to_auth}; type udp; secret "{secret}" }}
server broker-acct {{ host {broker}; port {to_acct}; type udp; secret "{secret}" }}
realm * {{ server broker; accountingServer broker-acct }}
"""


def in_brackets(ip):
    return f"[{ip}]" if ":" in ip else ip


def start(around, program, seconds):
    """Starts all of them; their logs lie in the directory."""
    around.broker(program, conf(), int(seconds * 1000) + 600000)
    for name, ip, secret in (("home", HOME, SECRET), ("books", BOOKS, OF_BOOKS)):
        around.freeradius(name, SERVER.format(broker=BROKER, secret=secret, ip=ip, auth=AUTH, acct=ACCT, password=PASSWORD))
    for name, (ip, ports, nas, broker) in PROXIES.items():
        text = PROXY.format(at=in_brackets(ip), auth=ports[0], acct=ports[1], nas=in_brackets(nas), secret=SECRET, broker=in_brackets(broker), to_auth=AUTH, to_acct=ACCT)
        around.start(name, [command("radsecproxy"), "-f", "-c", around.write(f"{name}.conf", over_lines(text)), "-i", around.path(f"{name}.pid")])
    write_certificate(around)
    for name, ip in zip(("home-1", "home-2", "home-3"), HOMES):
        start_home(around, name, (ip, AUTH), BROKER)


# An institution, and its accounting

def login_by(name, number):
    """The answer to a login by a proxy of the institution, or None."""
    ip, ports, nas, _ = PROXIES[name]
    octets = asked(access_with_password(number, b"u%d@b.example" % number, SECRET.encode(), password=PASSWORD.encode()), (ip, ports[0]), nas, 2, 3)
    return octets and packets.Packet(octets)


def try_institution(around):
    """The institution asks by each of its proxies."""
    for number, (name, (ip, ports, nas, _)) in enumerate(PROXIES.items()):
        reply = login_by(name, number)
        want(reply and reply.code == packets.ACCESS_ACCEPT, f"a login by the proxy at {ip}")
        want(reply and reply.values(18) == [b"4" + OPERATOR.encode()], f"its home server sees the institution's Operator-Name: {reply and reply.values(18)}")
        octets = asked(accounting(number, b"u%d@b.example" % number, b"session-%d" % number, SECRET.encode()), (ip, ports[1]), nas, 2, 3)
        want(octets and octets[0] == packets.ACCOUNTING_RESPONSE, f"accounting by the proxy at {ip}")
    request = access_with_password(9, b"u@b.example", SECRET.encode(), password=PASSWORD.encode())
    want(asked(request, (BROKER, AUTH), STRANGER, 1) is None, "an address beside them gets nothing")
    if around.server:
        count = around.server.count("roam_peer_forwarded_total", peer="institution")
        want(count == 2 * len(PROXIES), f"{count} requests are counted as those of one client, of {2 * len(PROXIES)}")
    home, books = around.log("home"), around.log("books")
    sessions = {f"session-{number}" for number in range(len(PROXIES))}
    want(set(re.findall(r'Acct-Session-Id = "([^"]*)"', books)) == sessions, "all accounting comes to the server for it")
    want("Received Access-Request" not in books, "and no login")
    want("Received Access-Request" in home and "Received Accounting-Request" not in home, "the home server has the logins alone")
    around.kill("books")
    want((reply := login_by("first", 7)) and reply.code == packets.ACCESS_ACCEPT, "a login where the server for accounting is gone")


# Users over three home servers

Login = collections.namedtuple("Login", "user name begun ended success")


def station_of(user):
    return "02-00-00-00-%02X-%02X" % divmod(user, 256)


def place_of(user):
    """The server that a station's hash says: the first four octets of MD5, big-endian, modulo the number of servers."""
    return int.from_bytes(hashlib.md5(station_of(user).encode()).digest()[:4], "big") % len(HOMES)


class Logins:
    """Logins of users, each by a name of its own, six side by side, with a pause behind each."""

    def __init__(self, around):
        self.around, self.numbers, self.lock, self.made = around, itertools.count(), threading.Lock(), []

    def loop(self, nth, users, pause):
        while True:
            with self.lock:
                user, name = next(users, None), f"u{next(self.numbers)}@a.example"
            if user is None:
                return
            begun = time.monotonic()
            success = logs_in(self.around, f"loop-{nth}", name, (NAS, BROKER, AUTH), station_of(user).replace("-", ":"))
            self.made.append(Login(user, name, begun, time.monotonic(), success))
            time.sleep(pause)

    def of(self, users, pause=0, meanwhile=lambda: None):
        """The logins of these users, beside what is done meanwhile, and of each name the servers that accepted it."""
        self.made, shared = [], iter(users)
        with concurrent.futures.ThreadPoolExecutor(LOOPS) as pool:
            loops = [pool.submit(self.loop, nth, shared, pause) for nth in range(LOOPS)]
            meanwhile()
            for it in loops:
                it.result()
        servers = collections.defaultdict(list)
        for place in range(len(HOMES)):
            for name in accepted_by(self.around, f"home-{place + 1}"):
                servers[name].append(place)
        return self.made, servers


def try_balance(logins, count):
    """Each user logs in once."""
    made, servers = logins.of(range(count))
    want(all(it.success for it in made), f"{sum(it.success for it in made)} of {count} users log in")
    want(all(servers[it.name] == [place_of(it.user)] for it in made), "each at the server that the station's hash says")
    shares = [sum(servers[it.name] == [place] for it in made) / count for place in range(len(HOMES))]
    want(all(.25 <= it <= .42 for it in shares), "each server has between a quarter and 0.42 of them: " + ", ".join(f"{it:.3f}" for it in shares))


def try_outage(around, logins, count, outage):
    """A home server dies and comes back under logins."""
    moments = {"end": time.monotonic() + 3600}

    def users():
        for user in itertools.cycle(range(count)):
            if time.monotonic() >= moments["end"]:
                return
            yield user

    def die():
        time.sleep(5)
        around.kill(f"home-{KILLED + 1}")
        moments["killed"] = time.monotonic()
        time.sleep(outage)
        start_home(around, f"home-{KILLED + 1}", (HOMES[KILLED], AUTH), BROKER)
        # It has to read its files before it answers; and who tries it first is late.
        moments["back"] = time.monotonic() + REST / 1000 + 8
        moments["end"] = moments["back"] + 10

    made, servers = logins.of(users(), .2, die)
    killed = moments["killed"]
    failed = [it for it in made if not it.success]
    others = [it for it in failed if place_of(it.user) != KILLED or not it.begun <= killed <= it.ended]
    want(not others, f"no login fails but those that ran at the kill: {len(made)} logins, {len(failed)} of them failed" + "".join(f"; {it}" for it in others))
    moved = [it for it in made if it.success and place_of(it.user) != KILLED and servers[it.name] != [place_of(it.user)]]
    want(not moved, "nobody else's server changes" + "".join(f"; {it} by {servers[it.name]}" for it in moved))
    away = [it for it in made if it.success and place_of(it.user) == KILLED and killed < it.begun and it.ended < killed + outage]
    behind = (KILLED + 1) % len(HOMES)
    want(away and all(servers[it.name] == [behind] for it in away), f"the {len(away)} logins of its users meanwhile are at the server behind it")
    back = [it for it in made if place_of(it.user) == KILLED and it.begun > moments["back"]]
    want(back and all(servers[it.name] == [KILLED] for it in back), f"the {len(back)} logins of its users once it is back are at it")
    print(f"       the slowest login from 20 s behind the kill on took {max(it.ended - it.begun for it in made if it.begun > killed + 20):.1f} s")


def main():
    given = argparse.ArgumentParser(usage=__doc__)
    given.add_argument("--users", type=int, default=600)
    given.add_argument("--outage", type=float, default=40)
    given.add_argument("program", nargs="?")
    given = given.parse_args()
    program = os.path.abspath(given.program) if given.program else None
    go_on()

    def look(around):
        try_institution(around)
        logins = Logins(around)
        try_balance(logins, given.users)
        try_outage(around, logins, given.users, given.outage)
    return tried(lambda around: start(around, program, given.outage), look)


if __name__ == "__main__":
    sys.exit(main())
