#!/usr/bin/env python3
"""Rows in which the configuration changes, said by hand, and what changes.py answers to them.

changed_realms.py   plays them, and ends with 1 where one differs
"""
import sys
from changes import ChangingBroker
from broker import Config, spelled
from packets import chacha_words
from configurations import CONFIGURATIONS
from formulas import *

TWO = CONFIGURATIONS["two-realms"]
HEAD, PEER, REALM_A, REALM_B = (part if at == 0 else "[[" + part for at, part in enumerate(
    TWO.replace("[[realm.server]]", "[realm_server]").split("[[")))
REALM_A, REALM_B = (text.replace("[realm_server]", "[[realm.server]]") for text in (REALM_A, REALM_B))
PEER_2 = PEER.replace("nas1", "nas2").replace("192.0.2.1", "192.0.2.2")
SERVER_1 = REALM_A[REALM_A.index("[[realm.server]]"):]
SERVER_2 = SERVER_1.replace("198.51.100.1", "198.51.100.2").replace('"h1"', '"h2"')


def file_of(*tables):
    return HEAD + "".join(table.rstrip() + "\n\n" for table in tables)


class Row:
    rows = []

    def __init__(self, name, first):
        self.name, self.first, self.now, self.events = name, first, first, []
        Row.rows.append(self)

    def change(self, text):
        if text == self.now:
            raise SystemExit(f"{self.name}: a change that changes nothing tests nothing")
        self.now = text
        self.events.append((None, text, None))

    def note(self, line, expected):
        self.events.append((line, None, expected))

    def arrive(self, octets, expected, place="acct", source=NAS, now=0):
        self.note(f"A {now} {place} {source} {octets.hex()}", expected)

    def reply(self, octets, expected, realm=0, source=S1, now=0):
        self.arrive(octets, expected, f"out:{realm}", source, now)

    def tick(self, now, expected):
        self.note(f"T {now} 0", expected)

    def differences(self):
        broker = ChangingBroker(Config(self.first))
        for line, text, expected in self.events:
            if line is None:
                broker.follow(Config(text))
                continue
            packets, refusal = broker.event(line)
            got = refusal if refusal is not None else [spelled(packet) for packet in packets]
            if got != expected:
                yield f"{self.name}: {line}\n  says {expected}\n  played {got}"


BOTH = file_of(PEER, REALM_A, REALM_B)
TURNED = file_of(PEER, REALM_B, REALM_A)
qa, qb = request(5), request(5, B)
fa, fb = forward(qa, 0, 0), forward(qb, 0, 0)

row = Row("tables-turned-about", BOTH)
row.arrive(qa, [sent(fa)])
row.arrive(qb, [sent(fb, realm=1)])
row.reply(response(fb), [given_back(back(qb), realm=1)], realm=1)
row.change(TURNED)
row.arrive(qb, [given_back(back(qb), realm=0)])
row.reply(response(fa), [given_back(back(qa), realm=1)], realm=1)
row.arrive(request(6), [sent(forward(request(6), 1, 1), realm=1)])
row.change(BOTH)
row.arrive(request(7), [sent(forward(request(7), 2, 2))])

row = Row("a-peer-with-another-secret", file_of(PEER, PEER_2, REALM_A, REALM_B))
q2 = request(5)
row.arrive(qa, [sent(fa)])
row.arrive(q2, [sent(forward(q2, 1, 1))], source="192.0.2.2:5000")
row.change(file_of(PEER.replace("xyzzy5461", "another"), PEER_2, REALM_A, REALM_B))
row.reply(response(fa), 14)
row.reply(response(forward(q2, 1, 1)), [given_back(back(q2), "192.0.2.2:5000")])
row.arrive(qa, 6)
row.arrive(request(5, A, b"another"), [sent(forward(request(5, A, b"another"), 2, 2))])

def at(addresses, peer=PEER):
    """A peer's table with another `ip`."""
    return peer.replace('ip = "192.0.2.1"', f"ip = {addresses}", 1)


SECOND = "192.0.2.9:5000"
ELSEWHERE = PEER.replace("nas1", "nas2").replace("192.0.2.1:3799", "192.0.2.2:3799").replace('nas_ip = "192.0.2.1"', 'nas_ip = "192.0.2.2"')
q9 = forward(qa, 1, 1)
row = Row("addresses-that-turn-come-and-go", file_of(at('["192.0.2.1", "192.0.2.9"]'), REALM_A))
row.arrive(qa, [sent(fa)])
row.arrive(qa, [sent(q9)], source=SECOND)
row.change(file_of(at('["2001:db8::9", "192.0.2.9", "192.0.2.1"]'), REALM_A))
row.arrive(qa, [])
row.arrive(qa, [], source=SECOND)
row.arrive(qa, [sent(forward(qa, 2, 2))], source="[2001:db8::9]:5000")
row.reply(response(q9), [given_back(back(qa), SECOND)])
row.change(file_of(at('["192.0.2.1", "192.0.2.8/29"]'), REALM_A))
row.arrive(qa, [given_back(back(qa), SECOND)], source=SECOND)
row.reply(response(forward(qa, 2, 2)), 14)
row.change(file_of(PEER, REALM_A))
row.arrive(qa, 4, source=SECOND)
row.reply(response(fa), [given_back(back(qa))])
row.change(file_of(at('["192.0.2.1", "192.0.2.9"]'), REALM_A))
row.arrive(qa, [given_back(back(qa))])
row.arrive(qa, [sent(forward(qa, 3, 3))], source=SECOND)

row = Row("a-longer-prefix-of-another-peer", file_of(at('"192.0.2.0/24"'), REALM_A))
row.arrive(qa, [sent(fa)])
row.arrive(qa, [sent(q9)], source=SECOND)
row.change(file_of(at('"192.0.2.0/24"'), at('["192.0.2.9", "10.0.0.1"]', ELSEWHERE), REALM_A))
row.reply(response(q9), 14)
row.arrive(qa, [sent(forward(qa, 2, 2))], source=SECOND)
row.reply(response(fa), [given_back(back(qa))])
row.change(file_of(at('["192.0.2.0/24", "192.0.2.9"]'), REALM_A))
row.reply(response(forward(qa, 2, 2)), 14)

row = Row("a-session-outlives-a-secret", BOTH)
row.arrive(qa, [sent(fa)])
row.reply(response(fa), [given_back(back(qa))])
row.change(file_of(PEER.replace("xyzzy5461", "another"), REALM_A, REALM_B))
asked = reverse(40, 7, SESSION + b"\x20\x06nas1")
row.arrive(asked, [sent(request(0, asked[20:] + T(1), b"another", 40), COA)], "reverse:0", HOME)

row = Row("a-peer-that-goes-takes-its-sessions", file_of(PEER, PEER_2, REALM_A))
row.arrive(qa, [sent(fa)])
row.reply(response(fa), [given_back(back(qa))])
row.change(file_of(PEER_2, REALM_A))
row.change(file_of(PEER_2, PEER, REALM_A))
row.arrive(asked, [given_back(refused_with(503, asked), HOME, place="reverse:0")], "reverse:0", HOME)

row = Row("a-server-at-another-place", file_of(PEER, REALM_A + "\n" + SERVER_2))
row.arrive(qa, [sent(fa)])
row.change(file_of(PEER, REALM_A.replace(SERVER_1, SERVER_2 + "\n" + SERVER_1)))
row.arrive(request(6), [sent(forward(request(6), 0, 1, H2), S2)])
row.reply(response(fa), [given_back(back(qa))])
row.change(file_of(PEER, REALM_A))
row.arrive(request(7), [sent(forward(request(7), 1, 2))])
row.reply(response(forward(request(6), 0, 1, H2), b"", H2), 4, source=S2)

row = Row("another-out", file_of(PEER, REALM_A))
row.arrive(qa, [sent(fa)])
row.arrive(q6, [sent(forward(q6, 1, 1))])
row.reply(response(fa), [given_back(back(qa))])
row.change(file_of(PEER, REALM_A.replace("127.0.0.1:2000", "127.0.0.1:2009")))
row.arrive(qa, [given_back(back(qa))])
row.reply(response(forward(q6, 1, 1)), 14)
row.arrive(q7, [sent(forward(q7, 0, 2))])

row = Row("fewer-may-be-pending", file_of(PEER, REALM_A))
for n in range(3):
    row.arrive(request(n), [sent(forward(request(n), n, n))])
for n in (1, 2):
    row.reply(response(forward(request(n), n, n)), [given_back(back(request(n)))])
row.change(file_of(PEER, REALM_A.replace("max_pending = 300", "max_pending = 2")))
row.arrive(request(2), [given_back(back(request(2)))])
row.arrive(request(0), [])
row.arrive(request(1), [sent(forward(request(1), 3, 3))])

row = Row("held-above-a-limit-that-stays", file_of(PEER, REALM_A))
for n in range(3):
    row.arrive(request(n), [sent(forward(request(n), n, n))])
row.change(file_of(PEER, REALM_A.replace("max_pending = 300", "max_pending = 2")))
for n in range(3):
    row.reply(response(forward(request(n), n, n)), [given_back(back(request(n)))])
row.change(file_of(PEER, REALM_A.replace("max_pending = 300", "max_pending = 2").replace("hold = 5000", "hold = 4000")))
for n in range(3):
    row.arrive(request(n), [given_back(back(request(n)))])
row.change(file_of(PEER, REALM_A.replace("max_pending = 300", "max_pending = 1")))
row.arrive(request(2), [given_back(back(request(2)))])
row.arrive(request(0), [sent(forward(request(0), 3, 3))])

row = Row("a-realm-in-front-goes-and-comes-back", BOTH)
row.arrive(qb, [sent(fb, realm=1)])
row.change(file_of(PEER, REALM_B))
row.reply(response(fb), [given_back(back(qb), realm=0)])
row.arrive(qa, 9)
row.change(BOTH)
row.arrive(qb, [given_back(back(qb), realm=1)])
row.arrive(qa, [sent(fa)])
row.arrive(request(6, B), [sent(forward(request(6, B), 1, 1), realm=1)])


row = Row("words-go-on-by-number", BOTH)
xa, xb = access(1, NAME), access(1, named("u@b.example"))
row.arrive(xa, [sent(forward_access(NAME, 0, 0), S1_AUTH)], "auth")
row.arrive(xb, [sent(forward_access(named("u@b.example"), 0, 0, realm=1), S1_AUTH, 1)], "auth")
row.change(TURNED)
row.arrive(access(2, NAME), [sent(forward_access(NAME, 1, 1), S1_AUTH, 1)], "auth")
row.change(file_of(PEER, REALM_B))
row.arrive(access(2, named("u@b.example")), [sent(forward_access(named("u@b.example"), 1, 1, K(1, 1)), S1_AUTH)], "auth")

row.change(BOTH)
row.arrive(access(3, NAME), [sent(forward_access(NAME, 0, 0, chacha_words(bytes(32), 2, 0)), S1_AUTH)], "auth")

row = Row("peers-turned-about", file_of(PEER, PEER_2, REALM_A))
row.arrive(qa, [sent(fa)])
row.arrive(q6, [sent(forward(q6, 1, 1))], source="192.0.2.2:5000")
row.change(file_of(PEER_2, PEER, REALM_A))
row.reply(response(fa), [given_back(back(qa))])
row.reply(response(forward(q6, 1, 1)), [given_back(back(q6), "192.0.2.2:5000")])
row.arrive(asked, [sent(request(0, asked[20:] + T(2), P, 40), COA)], "reverse:0", HOME)
row.change(file_of(PEER_2, REALM_A))
row.arrive(q6, [given_back(back(q6), "192.0.2.2:5000")], source="192.0.2.2:5000")

row = Row("fewer-sessions-are-kept", file_of(PEER, REALM_A))
starts = [request(n, NAME + START + attribute(44, b"%d" % n)) for n in range(3)]
for n, start in enumerate(starts):
    row.arrive(start, [sent(forward(start, n, n))])
    row.reply(response(forward(start, n, n)), [given_back(back(start))])
row.change(file_of(PEER, REALM_A.replace("max_sessions = 100", "max_sessions = 2")))
for n in range(3):
    ended = reverse(40, 10 + n, attribute(44, b"%d" % n) + attribute(32, b"nas1"))
    row.arrive(ended, [given_back(refused_with(503, ended), HOME, place="reverse:0")] if n == 0 else
               [sent(request(n - 1, ended[20:] + T(2 + n), P, 40), COA)], "reverse:0", HOME)

row = Row("sessions-told-otherwise", file_of(PEER, REALM_A))
row.arrive(qa, [sent(fa)])
row.reply(response(fa), [given_back(back(qa))])
row.change(file_of(PEER, REALM_A.replace("max_sessions = 100", "max_sessions = 100\nown_sessions = true")))
row.arrive(asked, [given_back(refused_with(503, asked), HOME, place="reverse:0")], "reverse:0", HOME)

row = Row("another-coa", file_of(PEER, REALM_A))
named_session = reverse(40, 7, NAME + attribute(32, b"nas1"))
row.arrive(named_session, [sent(request(0, named_session[20:] + T(0), P, 40), COA)], "reverse:0", HOME)
row.change(file_of(PEER.replace("192.0.2.1:3799", "192.0.2.1:3800"), REALM_A))
row.arrive(named_session, [sent(request(0, named_session[20:] + T(1), P, 40), "192.0.2.1:3800")], "reverse:0", HOME)

row = Row("a-home-server-with-another-secret-asks-again", file_of(PEER, REALM_A))
row.arrive(named_session, [sent(request(0, named_session[20:] + T(0), P, 40), COA)], "reverse:0", HOME)
row.change(file_of(PEER, REALM_A.replace('"h1"', '"h9"')))
row.arrive(named_session, 6, "reverse:0", HOME)
row.reply(response(request(0, named_session[20:] + T(0), P, 40), b"", P, 41), 14, source=COA)
anew = reverse(40, 7, NAME + attribute(32, b"nas1"), b"h9")
row.arrive(anew, [sent(request(1, anew[20:] + T(1), P, 40), COA)], "reverse:0", HOME)

row = Row("a-rest-goes-with-its-server", file_of(PEER, REALM_A.replace("rest = 0", "rest = 10000\nrest_after = 1") + "\n" + SERVER_2))
row.arrive(qa, [sent(fa)])
row.tick(1000, [sent(fa)])
row.tick(2000, [sent(forward(qa, 0, 0, H2), S2)])
row.change(file_of(PEER, REALM_A.replace("rest = 0", "rest = 10000\nrest_after = 1").replace(
    SERVER_1, SERVER_2 + "\n" + SERVER_1)))
row.arrive(q6, [sent(forward(q6, 1, 1, H2), S2)], now=2100)
row.change(file_of(PEER, REALM_A.replace("rest = 0", "rest = 10000\nrest_after = 1") + "\n" + SERVER_2))
row.arrive(q7, [sent(forward(q7, 2, 2, H2), S2)], now=2200)
row.reply(response(forward(qa, 0, 0, H2), b"", H2), [given_back(back(qa))], source=S2, now=2300)


def main():
    found = [difference for row in Row.rows for difference in row.differences()]
    print(*found, f"{len(Row.rows)} rows, {sum(len(row.events) for row in Row.rows)} events, {len(found)} differ", sep="\n")
    return bool(found)


if __name__ == "__main__":
    sys.exit(main())
