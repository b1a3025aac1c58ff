#!/usr/bin/env python3
"""Whether one realm's junk changes what another realm gets, on loopback.

Realm b has --rate requests a second, and a home server that answers after --delay ms. From the endpoint of realm a's home
server datagrams that answer nothing come to realm a's `out`, --junk a second, of each of --sizes octets in turn. It is
counted which of b's requests had no answer; held replies are asked for again; and a Disconnect by session id is sent
when everything else is over: of a session that began before all that junk.
"""

import argparse
import multiprocessing
import sys
import time

import processes
from loopback import HERE, Access, Home, Loop, Served, table, top
from packets import (ACCESS_ACCEPT, ACCOUNTING_REQUEST, ACCT_SESSION_ID, ACCT_STATUS_TYPE, DISCONNECT_ACK, DISCONNECT_NAK,
                     DISCONNECT_REQUEST, NAS_IDENTIFIER, PROXY_STATE, ZEROS, Packet, signed)

PEER, HOMES = "peer-secret", ("home-secret-a", "home-secret-b")
SESSION = b"a session of realm b"


def read_options():
    parser = argparse.ArgumentParser(description=__doc__, formatter_class=argparse.RawDescriptionHelpFormatter)
    parser.add_argument("--command", help="in which {conf} and {ms} are filled in")
    parser.add_argument("--sizes", default="20,4084", help="octets of a datagram, with commas between them")
    numbers = {"base": 22000, "rate": 100, "requests": 10000, "delay": 300, "junk": 20000, "trace_limit": 20000,
               "trace_octets": 0, "shards": 1}
    for name, default in numbers.items():
        parser.add_argument("--" + name.replace("_", "-"), type=int, default=default)
    return parser.parse_args()


def configuration(options):
    text = top(options.base, options.shards, trace_limit=options.trace_limit, trace_octets=options.trace_octets or None)
    text += table("peer", name="peer", ip=HERE, secret=PEER, coa=f"{HERE}:{options.base + 2}", nas_id="peer")
    for number, name in enumerate("ab"):
        port = options.base + 1000 + 2 * number
        text += table("realm", name=f"{name}.example", out=f"{HERE}:{options.base + 10 + 2 * number}",
                      reverse=f"{HERE}:{options.base + 11 + 2 * number}", tries=3, wait=2000, hold=10000,
                      max_pending=4096, max_sessions=1000)
        text += table("realm.server", auth=f"{HERE}:{port}", acct=f"{HERE}:{port + 1}", secret=HOMES[number])
    return text


def junk_of(size, id):
    """Returns a well-formed Access-Accept of so many octets with a wrong Response Authenticator."""
    attributes, left = b"", size - 20
    while left:
        length = min(left, 254)
        attributes += bytes([25, length]) + bytes(length - 2)
        left -= length
    return bytes([ACCESS_ACCEPT, id]) + size.to_bytes(2, "big") + bytes(16) + attributes


def send_junk(opened, to, size, rate, seconds, sent):
    """Sends at that rate, a millisecond's worth at a time."""
    junk = [junk_of(size, id) for id in range(256)]
    begin, count = time.monotonic(), 0
    while (passed := time.monotonic() - begin) < seconds:
        while count < passed * rate:
            try:
                opened.sendto(junk[count % 256], to)
            except BlockingIOError:
                time.sleep(0.0001)
                continue
            count += 1
        time.sleep(0.001)
    sent.value = count


class Reached:
    """The access server's `coa`: it acknowledges a Disconnect."""

    def __init__(self, loop, port):
        self.requests = 0
        self.opened = loop.open((HERE, port), self.take)

    def take(self, octets, source):
        self.requests += 1
        request = Packet(octets)
        states = [(kind, value) for kind, value in request.attributes if kind == PROXY_STATE]
        self.opened.sendto(signed(DISCONNECT_ACK, request.id, request.authenticator, states, PEER.encode()), source)


def refused():
    """Returns what the log says was refused, by number: how often."""
    counts = {}
    with open(processes.LOG, "rb") as log:
        for line in log:
            if found := processes.refused_in(line):
                number, count = found
                counts[number] = counts.get(number, 0) + count
    return counts


def dropped(ports):
    """Returns how many datagrams found the buffers of these ports full."""
    with open("/proc/net/udp", encoding="ascii") as file:
        lines = [line.split() for line in file.readlines()[1:]]
    return sum(int(line[-1]) for line in lines if int(line[1].split(":")[1], 16) in ports)


def play(options, size):
    seconds = options.requests / options.rate
    with Served(options, configuration(options), seconds + 90) as broker, Loop() as loop:
        home_a, home_b = (Home(loop, options.base + 1000 + 2 * n, HOMES[n], n * options.delay / 1000) for n in (0, 1))
        coa = Reached(loop, options.base + 2)
        access = Access(loop, (HERE, options.base), (HERE, options.base + 1), PEER)
        answers = {"disconnect": None}

        def take_answer(octets, _source):
            answers["disconnect"] = {DISCONNECT_ACK: "acknowledged", DISCONNECT_NAK: "refused"}.get(octets[0])

        home = loop.open((HERE, 0), take_answer)
        start = access.ask("u@b.example", ACCOUNTING_REQUEST,
                           [(ACCT_STATUS_TYPE, (1).to_bytes(4, "big")), (ACCT_SESSION_ID, SESSION)])
        loop.run_until(loop.now() + 2)
        sent = multiprocessing.Value("q", 0)
        junk = multiprocessing.Process(target=send_junk, daemon=True, args=(
            home_a.auth, (HERE, options.base + 10), size, options.junk, seconds + 2, sent))
        junk.start()
        begin, memory, duplicates = loop.now() + 1, [broker.memory()], []

        def ask(number):
            request = access.ask("u@b.example")
            if number % 10 == 0:
                # When its answer is held for a while.
                duplicates.append(request)
                loop.at(loop.now() + options.delay / 1000 + 3, lambda: access.send(request))
            if number + 1 < options.requests:
                loop.at(begin + (number + 1) / options.rate, lambda: ask(number + 1))

        def look():
            memory.append(broker.memory())
            if loop.now() < begin + seconds + 5:
                loop.at(loop.now() + 1, look)

        loop.at(begin, lambda: ask(0))
        loop.at(begin, look)
        loop.run_until(begin + seconds + 12)
        junk.join(10)
        lost = dropped({options.base + 10})
        disconnect = signed(DISCONNECT_REQUEST, 1, ZEROS, [(NAS_IDENTIFIER, b"peer"), (ACCT_SESSION_ID, SESSION)],
                            HOMES[1].encode())
        home.sendto(disconnect, (HERE, options.base + 13))
        loop.run_until(loop.now() + 2)
    asked = [request for request in access.asked if request is not start]
    print(f"junk of {size} octets: {sent.value} sent, {lost} found the buffer full, so that a shard's steps came to "
          f"{(sent.value - lost) / options.trace_limit:.1f} times trace_limit")
    print(f"  realm b: {len(asked)} asked, {sum(one['answer'] is None for one in asked)} unanswered, {access.bad} bad, "
          f"{home_b.asked} datagrams at its home server")
    print(f"  asked again while held: {len(duplicates)}, answered as before: {sum(one['copies'] > 0 for one in duplicates)}")
    print(f"  the session: start {'answered' if start['answer'] else 'unanswered'}; the Disconnect by its id after that: "
          f"{coa.requests} at the access server, {answers['disconnect'] or 'unanswered'}")
    print(f"  resident MiB: at first {memory[0]:.0f}, most {max(memory):.0f}, last {memory[-1]:.0f}; "
          f"refusals in the log: {refused()}", flush=True)


def main():
    options = read_options()
    for size in (int(number) for number in options.sizes.split(",")):
        play(options, size)
    return 0


if __name__ == "__main__":
    sys.exit(main())
