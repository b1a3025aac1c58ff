#!/usr/bin/env python3
"""The parts of try-spreading.sh that send and receive. Each is run in a network namespace of its own.

spreading.py conf BROKER SERVICE SOURCES      prints the configuration of a broker: its address, where its peers send to
spreading.py home SEEN                        a home server, which writes whence each request came
spreading.py access-servers SERVICE SOURCES   access servers: requests, each sent twice, from several ports
spreading.py disconnected SOURCES             access servers, which take Disconnects
spreading.py disconnect SEEN BROKER..         Disconnects, to the broker from which a session came, and to another
spreading.py verdict SEEN SOURCES BROKERS     whether each source kept to one broker, and so many were used
"""
import os
import select
import sys

sys.dont_write_bytecode = True
from radius import bound
from server import configuration, peer, realm
from packets import *  # noqa: F403

REALM, SECRET, HOME_SECRET = "a.example", b"a secret of access servers", b"a secret of the home server"
HOME = "10.60.3.1"
OUT, REVERSE, COA = 2000, 3000, 3799
ROUNDS = 3


def source_address(number):
    return f"10.60.1.{number}"


def udp(ip, port=0):
    return bound(port, ip)


def conf(broker, service, sources):
    peers = [peer(f"nas{number}", source_address(number), SECRET.decode(), coa=f"{source_address(number)}:{COA}", nas_id=f"nas{number}")
             for number in range(1, int(sources) + 1)]
    home = {"auth": f"{HOME}:1812", "acct": f"{HOME}:1813", "secret": HOME_SECRET.decode()}
    print(configuration(
        *peers, realm(REALM, home, out=f"{broker}:{OUT}", reverse=f"{broker}:{REVERSE}", tries=2, wait=1000, hold=5000, max_pending=1000,
                      max_sessions=1000, rest=0),
        shards=1, seed=os.urandom(32).hex(), auth=f"{service}:1812", acct=f"{service}:1813", trace_limit=1000000), end="")


# A home server

def home(seen):
    sockets = [udp(HOME, 1812), udp(HOME, 1813)]
    with open(seen, "a") as file:
        while True:
            for opened in select.select(sockets, [], [])[0]:
                datagram, source = opened.recvfrom(65535)
                request = Packet(datagram)
                user = request.first(USER_NAME).decode().split("@")[0]
                print(request.code, user, source[0], file=file, flush=True)
                reply = {ACCESS_REQUEST: ACCESS_ACCEPT, ACCOUNTING_REQUEST: ACCOUNTING_RESPONSE}
                states = [(PROXY_STATE, value) for value in request.values(PROXY_STATE)]
                opened.sendto(signed(reply[request.code], request.id, request.authenticator,
                                     states, HOME_SECRET), source)


# Access servers

def exchange(opened, to, request):
    """The reply to a request, sent up to five times, a second apart."""
    for _ in range(5):
        opened.sendto(request, to)
        if select.select([opened], [], [], 1)[0]:
            datagram, source = opened.recvfrom(65535)
            reply = Packet(datagram)
            assert source == to, f"a reply from {source}, not from {to}"
            assert reply.id == request[1] and reply.is_signed(request[4:20], SECRET), "a wrong reply"
            return datagram
    raise SystemExit(f"no reply from {to} to {opened.getsockname()}")


def ask(service, number, round):
    """An Access-Request and an Accounting-Request from new ports, each of them sent twice."""
    ip, user = source_address(number), f"{number}@{REALM}".encode()
    named = [(USER_NAME, user), (NAS_IDENTIFIER, f"nas{number}".encode())]
    # Of 3,000 octets in the second round, so that it comes in fragments.
    classes = [(CLASS, bytes(250))] * (12 if round == 1 else 0)
    words = os.urandom(16)
    access = text(ACCESS_REQUEST, round, words,
                  sealed(ACCESS_REQUEST, round, words, named + classes + [(SEAL, ZEROS)], SECRET))
    started = [(ACCT_STATUS_TYPE, bytes([0, 0, 0, 1])), (ACCT_SESSION_ID, b"%d" % number)]
    accounting = signed(ACCOUNTING_REQUEST, round, ZEROS, named + started, SECRET)
    for port, request in ((1812, access), (1813, accounting)):
        with udp(ip) as opened:
            first = exchange(opened, (service, port), request)
            assert exchange(opened, (service, port), request) == first, "another reply to a duplicate"


def access_servers(service, sources):
    for round in range(ROUNDS):
        for number in range(1, int(sources) + 1):
            ask(service, number, round)
    print(f"access servers: {sources} sources, {ROUNDS} rounds, each request sent twice, "
          "every reply right")


def disconnected(sources):
    sockets = [udp(source_address(number), COA) for number in range(1, int(sources) + 1)]
    while True:
        for opened in select.select(sockets, [], [])[0]:
            datagram, source = opened.recvfrom(65535)
            request = Packet(datagram)
            if request.code == DISCONNECT_REQUEST and request.is_signed(ZEROS, SECRET):
                states = [(PROXY_STATE, value) for value in request.values(PROXY_STATE)]
                opened.sendto(signed(DISCONNECT_ACK, request.id, request.authenticator, states,
                                     SECRET), source)


# What the home server saw

def brokers_of(seen):
    """For each source the brokers from which its requests came, and how many came."""
    found = {}
    with open(seen) as file:
        for code, user, ip in (line.split() for line in file):
            found.setdefault(int(user), []).append((int(code), ip))
    return found


def verdict(seen, sources, brokers):
    found, used, bad = brokers_of(seen), {}, 0
    for number in range(1, int(sources) + 1):
        ips = sorted({ip for _, ip in found.get(number, [])})
        used.setdefault(" and ".join(ips), []).append(number)
        # Each round has one of either kind: a duplicate isn't forwarded.
        if len(ips) != 1 or len(found[number]) != 2 * ROUNDS:
            bad += 1
    for ips, numbers in sorted(used.items()):
        print(f"{ips}: sources {' '.join(map(str, numbers))}")
    if bad or len(used) != int(brokers):
        raise SystemExit(f"NOT SPREAD WELL: {bad} of {sources} sources met two brokers, or their "
                         f"duplicates were forwarded; or not {brokers} brokers were used")
    print(f"each source kept to one broker; brokers used: {brokers}")


def disconnect(seen, *brokers):
    secret, right, wrong = HOME_SECRET, 0, 0
    for number, came in sorted(brokers_of(seen).items()):
        named = [(NAS_IDENTIFIER, f"nas{number}".encode()), (ACCT_SESSION_ID, b"%d" % number)]
        request = signed(DISCONNECT_REQUEST, number % 256, ZEROS, named, secret)
        for broker in brokers:
            with udp(HOME) as opened:
                opened.sendto(request, (broker, REVERSE))
                if not select.select([opened], [], [], 3)[0]:
                    raise SystemExit(f"no answer to a Disconnect from {broker}")
                reply = Packet(opened.recv(65535))
            assert reply.is_signed(request[4:20], secret), "a wrong answer to a Disconnect"
            if came[0][1] == broker:
                assert reply.code == DISCONNECT_ACK, f"{reply.code} from the session's own broker"
                right += 1
            else:
                assert reply.first(ERROR_CAUSE) == (503).to_bytes(4, "big"), "no 503"
                wrong += 1
    print(f"Disconnects: {right} by the session's own broker, each with an ACK; "
          f"{wrong} by another one, each with a NAK 503")


if __name__ == "__main__":
    name, *words = sys.argv[1:]
    {"conf": conf, "home": home, "access-servers": access_servers,
     "disconnected": disconnected, "verdict": verdict, "disconnect": disconnect}[name](*words)
