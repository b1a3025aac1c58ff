#!/usr/bin/env python3
"""try-places.py PROGRAM

Serves on loopback with two `auth`, two `acct`, two `reverse` and eight `out`. Requests at each `auth` and `acct` are answered from
there; one that comes at both is two. 2,000 Access-Requests are sent toward one home server, which answers each half a second after
it came; and 2,000 more, which it answers half a second after the last of them came, so that all wait at one time: all are answered, no
`out` has more than 256 of them, and each reply goes back from where its request came. What isn't answered is sent again, as access
servers do. A reply at another `out` than its request left from is refused. A Disconnect at the second `reverse` is answered from there.

It needs no root.
"""

import collections
import hashlib
import select
import sys
import threading
import time

sys.dont_write_bytecode = True
import radius
from around import tried
from looks import want, words
from radius import HERE, bound, packets, received, sealed_answer
from server import configuration, peer, realm

AUTH, ACCT, REVERSE, COA, HOME = (29511, 29521), (29512, 29522), (29530, 29531), 29532, (29541, 29542)
OUT = tuple(range(29550, 29558))
PEER, SERVER = b"a secret of the peer", b"a secret of the server"
COUNT, NASES = 2000, 8
CONF = configuration(
    peer("nas", secret=PEER.decode(), coa=f"{HERE}:{COA}", nas_id="nas"),
    realm("a.example", {"auth": f"{HERE}:{HOME[0]}", "acct": f"{HERE}:{HOME[1]}", "secret": SERVER.decode()},
          out=[f"{HERE}:{port}" for port in OUT], reverse=[f"{HERE}:{port}" for port in REVERSE], wait=5000),
    shards=2, auth=[f"{HERE}:{port}" for port in AUTH], acct=[f"{HERE}:{port}" for port in ACCT])


def opened(port):
    return bound(port, seconds=5)


def access(number, source):
    """A request of an Identifier, told from others by its source's number."""
    return radius.access_with_password(number, b"u@a.example", PEER, hashlib.md5(b"%d %d" % (number, source)).digest())


def accounting(number, session):
    return radius.accounting(number, b"u@a.example", session, PEER, body=radius.attribute(32, b"nas"))


class SlowServer:
    """A home server that answers each request half a second after it came, or after all came, and notes by which `out` how many waited."""

    def __init__(self, waits_for_all):
        self.socket, self.waiting, self.most, self.is_over = opened(HOME[0]), collections.deque(), collections.Counter(), False
        self.now, self.seen, self.waits_for_all = collections.Counter(), set(), waits_for_all
        self.thread = threading.Thread(target=self.serve)
        self.thread.start()

    def take(self):
        """A request that waits from now on; one that is sent again, too, and is counted once."""
        octets, source = self.socket.recvfrom(4096)
        is_new = (source[1], octets[:20]) not in self.seen
        self.seen.add((source[1], octets[:20]))
        self.waiting.append((time.monotonic(), octets, source, is_new))
        self.now[source[1]] += is_new
        self.most[source[1]] = max(self.most[source[1]], self.now[source[1]])

    def is_answered(self, came):
        """Whether one that came then is answered now: all, where the last of all doesn't come."""
        waits = 4 if self.waits_for_all and len(self.seen) < COUNT else 0.5
        return came + waits <= time.monotonic()

    def serve(self):
        while not self.is_over:
            if select.select([self.socket], [], [], 0.005)[0]:
                self.take()
            last = self.waiting[-1][0] if self.waiting and self.waits_for_all else 0
            while self.waiting and self.is_answered(max(last, self.waiting[0][0])):
                _, asked, source, is_new = self.waiting.popleft()
                self.now[source[1]] -= is_new
                self.socket.sendto(sealed_answer(packets.ACCESS_ACCEPT, asked, SERVER), source)

    def close(self):
        self.is_over = True
        self.thread.join()
        self.socket.close()


def send_all(nases, first, back):
    """What isn't answered, of so many access servers at each `auth` in turn."""
    for number in range(COUNT // NASES):
        for n, nas in enumerate(nases):
            if (n, number) not in back:
                nas.sendto(access(number, first + n), (HERE, AUTH[n % 2]))


def answered(nases, first):
    """The requests that are answered from where they came, and how often what wasn't yet was sent again."""
    back, times, again, end = set(), 0, time.monotonic() + 3, time.monotonic() + 20
    while len(back) < COUNT and time.monotonic() < end:
        for nas in select.select(nases, [], [], 0.1)[0]:
            octets, source = nas.recvfrom(4096)
            n = nases.index(nas)
            if source[1] == AUTH[n % 2] and octets[0] == packets.ACCESS_ACCEPT:
                back.add((n, octets[1]))
        if time.monotonic() > again:
            send_all(nases, first, back)
            times, again = times + 1, time.monotonic() + 3
    return back, times


def many(waits_for_all):
    server, first = SlowServer(waits_for_all), 29610 if waits_for_all else 29602
    nases, begin = [opened(first + n) for n in range(NASES)], time.monotonic()
    send_all(nases, first, ())
    sent = time.monotonic() - begin
    back, times = answered(nases, first)
    took = time.monotonic() - begin
    server.close()
    for nas in nases:
        nas.close()
    print(f"      {len(back)} answered in {took:.1f} s, sent in {sent:.1f} s, again {times} times; waited by each out: {sorted(server.most.items())}")
    want(len(back) == COUNT, f"{COUNT} requests are all answered, each from where it came")
    want(set(server.most) <= set(OUT) and max(server.most.values()) <= 256, "no more than 256 wait at one time by an out")
    if waits_for_all:
        want(sum(server.most.values()) == COUNT, f"all {COUNT} wait at one time")


def each_place():
    """One request at each `auth` and `acct`, and a Disconnect at the second `reverse`."""
    nas, homes, coa = opened(29601), [opened(port) for port in HOME], opened(COA)
    for at, home, request, code in ((AUTH, homes[0], access(1, 1), packets.ACCESS_ACCEPT),
                                    (ACCT, homes[1], accounting(2, b"0001"), packets.ACCOUNTING_RESPONSE)):
        for port in at:
            nas.sendto(request, (HERE, port))
            asked, source = received(home)
            want(asked is not None and source == (HERE, OUT[0]), f"a request at {port} is forwarded, though it came elsewhere before")
            home.sendto(sealed_answer(code, asked.octets, SERVER), (HERE, OUT[1]))
            nas.settimeout(0.5)
            want(received(nas) == (None, None), "a reply at another out goes nowhere")
            nas.settimeout(5)
            home.sendto(sealed_answer(code, asked.octets, SERVER), source)
            reply, replied_from = received(nas)
            want(reply is not None and (reply.code, replied_from) == (code, (HERE, port)), "its reply leaves from where it came")
    names = [(1, b"u@a.example"), (32, b"nas"), (44, b"0001"), (55, int(time.time()).to_bytes(4, "big"))]
    homes[0].sendto(packets.signed(packets.DISCONNECT_REQUEST, 3, packets.ZEROS, names, SERVER), (HERE, REVERSE[1]))
    asked, source = received(coa)
    want(asked is not None and source == (HERE, OUT[0]), "a Disconnect at the second reverse is forwarded")
    coa.sendto(radius.answer(packets.DISCONNECT_ACK, asked.octets, PEER), source)
    reply, replied_from = received(homes[0])
    want(reply is not None and (reply.code, replied_from) == (packets.DISCONNECT_ACK, (HERE, REVERSE[1])), "its ACK leaves from there")
    for one in (nas, coa, *homes):
        one.close()


def main():
    [program] = words(__doc__, 0, 1) or [None]

    def look(_):
        each_place()
        if program:
            many(waits_for_all=False)
            many(waits_for_all=True)
    return tried(lambda around: around.broker(program, CONF, 120000), look)


if __name__ == "__main__":
    sys.exit(main())
