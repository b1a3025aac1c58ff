#!/usr/bin/env python3
"""try-stream-load.py PROGRAM [CONNECTIONS RATE SECONDS]

Runs `roam streams` beside `roam serve` with so many connections (1024), 16 of each address, and so many logins a second on them in turn
(1000) for so long (20), from one client with many sockets, to a home server by UDP. Wants each login to be answered on its connection by
the right octets, and the memory of `roam streams` to stay below 90,112 octets a connection and what it has without one. Prints how long
the answers took, and the processor time of both programs for each.

It needs no root. By hand it may run in a network of its own:

    unshare -rn sh -c 'ip link set lo up; exec packaging/tests/try-stream-load.py PROGRAM 1024 5000 600'
"""
import multiprocessing
import os
import re
import resource
import select
import socket
import sys
import tempfile
import time

sys.dont_write_bytecode = True
from around import Around
from looks import end, want, words
from radius import access_with_password, bound, packets
from radius import answer as answer_of
from server import configuration, peer, places, processor_time, realm
from stream_ends import SECRET, connected

TAKE, AUTH, HOME, OUT = ("127.0.0.1", 29700), 29702, 29710, 29720
OF_ONE, OUTS, PAUSE, LATEST = 16, 16, 0.01, 20.0
STREAMS = f"""take = ["{TAKE[0]}:{TAKE[1]}"]
auth = "127.0.0.1:{AUTH}"
acct = "127.0.0.1:{AUTH + 1}"
most = 4096
"""


def serve_home(port):
    """A home server that answers each datagram at once."""
    here = bound(port)
    while True:
        octets, source = here.recvfrom(4096)
        here.sendto(answer_of(packets.ACCESS_ACCEPT, octets, SECRET), source)


def resident(pid, name="VmRSS"):
    with open(f"/proc/{pid}/status", encoding="ascii") as file:
        return int(re.search(rf"^{name}:\s+(\d+) kB$", file.read(), re.M)[1]) * 1024


class Load:
    """All connections, and the logins that go on them in turn. Each Identifier's login has the same octets on each connection, so its
    answer has too."""

    def __init__(self, count):
        self.requests = [access_with_password(number, b"u@a.example", SECRET) for number in range(256)]
        self.answers, self.streams, self.sent_at, self.took, self.bad = {}, [], {}, [], 0
        self.poll, self.of = select.epoll(), {}
        for number in range(count):
            stream = connected(TAKE, f"127.1.0.{number // OF_ONE + 1}")
            stream.connection.setblocking(False)
            self.streams.append(stream)
            self.of[stream.connection.fileno()] = number
            self.poll.register(stream.connection.fileno(), select.EPOLLIN)

    def send(self, nth):
        """Sends the login of this number."""
        number, identifier = nth % len(self.streams), nth // len(self.streams) % 256
        self.streams[number].connection.send(self.requests[identifier])
        self.sent_at[number, identifier] = time.monotonic()

    def take(self, number, packet):
        """Looks at an answer: the right one of its request, and of one that waits."""
        identifier = packet[1]
        if identifier not in self.answers:
            asked, got = packets.Packet(self.requests[identifier]), packets.Packet(packet)
            good = got.code == packets.ACCESS_ACCEPT and packets.signed(got.code, got.id, asked.authenticator, got.attributes, SECRET) == packet
            self.answers[identifier] = packet if good else b""
        sent = self.sent_at.pop((number, identifier), None)
        if sent is None or packet != self.answers[identifier]:
            self.bad += 1
        else:
            self.took.append(time.monotonic() - sent)

    def receive(self, seconds):
        for descriptor, _ in self.poll.poll(seconds):
            stream = self.streams[self.of[descriptor]]
            try:
                octets = stream.connection.recv(65536)
            except BlockingIOError:
                continue
            if not octets:
                self.poll.unregister(descriptor)
                continue
            stream.rest += octets
            while len(stream.rest) >= 4 and len(stream.rest) >= (size := int.from_bytes(stream.rest[2:4], "big")):
                packet, stream.rest = stream.rest[:size], stream.rest[size:]
                self.take(self.of[descriptor], packet)

    def run(self, rate, seconds):
        """Sends at a rate for so long, and waits for the last answers. Returns how many were sent."""
        begun, sent = time.monotonic(), 0
        while (now := time.monotonic()) < begun + seconds:
            while sent < (now - begun) * rate:
                self.send(sent)
                sent += 1
            self.receive(PAUSE)
        until = time.monotonic() + LATEST
        while self.sent_at and time.monotonic() < until:
            self.receive(PAUSE)
        return sent


def look(around, program, count, rate, seconds):
    conf = configuration(*(peer(f"p{number}", f"127.1.0.{number + 1}", SECRET.decode()) for number in range(-(-count // OF_ONE))),
                         realm("a.example", {**places(HOME), "secret": SECRET.decode()}, out=[f"127.0.0.1:{OUT + nth}" for nth in range(OUTS)], max_pending=4096),
                         log_exchanges="none", shards=1, **places(AUTH))
    milliseconds = int((seconds + 120) * 1000)
    around.broker(program, conf, milliseconds)
    around.server.waits_for()
    around.start("streams", [program, "streams", around.write("streams.conf", STREAMS), str(milliseconds)])
    for _ in range(100):
        try:
            connected(TAKE).close()
            break
        except OSError:
            time.sleep(0.05)
    streams, broker = around.running["streams"].pid, around.running["broker"].pid
    alone, load = resident(streams), Load(count)
    before = [processor_time(it) for it in (streams, broker)]
    sent = load.run(rate, seconds)
    used = [processor_time(it) - was for it, was in zip((streams, broker), before)]
    most, took = resident(streams, "VmHWM"), sorted(load.took)
    want(len(took) == sent and not load.bad, f"{len(took)} of {sent} logins on {count} connections are answered, {load.bad} wrongly")
    want(most - alone < count * 90112, f"roam streams has {most >> 10} KiB at most, {alone >> 10} of them without a connection")
    at = lambda share: took[min(len(took) - 1, int(len(took) * share))] * 1000
    print(f"answered within {at(.5):.1f} ms (half), {at(.99):.1f} ms (99 %), {at(1):.1f} ms (all); processor time of a login:"
          f" streams {used[0] / sent * 1e6:.0f} us, broker {used[1] / sent * 1e6:.0f} us")


def main():
    program, *more = words(__doc__, 1, 4)
    count, rate, seconds = (int(more[nth]) if len(more) > nth else usual for nth, usual in enumerate((1024, 1000, 20)))
    most = resource.getrlimit(resource.RLIMIT_NOFILE)[1]
    resource.setrlimit(resource.RLIMIT_NOFILE, (most, most))
    home = multiprocessing.Process(target=serve_home, args=(HOME,), daemon=True)
    home.start()
    with tempfile.TemporaryDirectory() as directory:
        around = Around(directory)
        try:
            look(around, program, count, rate, seconds)
            ended = around.close()
            want(not ended, f"nothing ended by itself {ended}")
        except BaseException:
            around.close()
            around.tell(40)
            raise
        finally:
            home.terminate()
    return end()


if __name__ == "__main__":
    sys.exit(main())
