#!/usr/bin/env python3
"""try-addresses.py PROGRAM

Serves on loopback a RADIUS client at two addresses, which ask 300 times a second together, and changes its `ip` meanwhile: the array is
turned about, gets a third address and loses it again. It fails unless

1. each request is answered, to the address from which it came;
2. a reply that was held before is sent again after each change, octet for octet, to the address that asks again, and equal octets from
   another address are another request;
3. requests that wait go on over each change, and are answered;
4. an address goes only where it is agreed to lose what came from it, and takes that and no more; so does an address that another client
   gets, though the table of the first one is as it was; `roam check` says so of both;
5. the metrics balance, and the server stops, audited.
"""
import select
import sys
import tempfile
import threading
import time

sys.dont_write_bytecode = True
from looks import end, go_on, want, words
from radius import HomeServer, access, all_of, answer, bound, heard, user_name
from server import Server, configuration, peer, places, realm, run

PORT, HOME, OUT, RATE = 41812, 41830, 41840, 300
FIRST, SECOND, THIRD, BROKER = "127.0.21.1", "127.0.21.2", "127.0.21.3", "127.0.21.9"
SECRET = b"a-secret-of-home"


def file_of(*tables):
    """The file with these clients."""
    return configuration(*tables, realm("a.example", HOME, out=f"{BROKER}:{OUT}", wait=30000, hold=60000), **places(PORT, BROKER))


def of_first(*addresses):
    return peer("nas1", list(addresses) if addresses[1:] else addresses[0])


class Asker:
    """A socket at an address, and what was asked and answered there."""

    def __init__(self, address):
        self.address, self.socket, self.sent, self.waiting, self.took = address, bound(0, address, 0), 0, {}, []

    def ask(self, user=b"u"):
        """Sends a request with octets of its own."""
        packet = access(self.sent % 256, user + b"@a.example", authenticator=self.sent.to_bytes(8, "big") + bytes(8))
        self.waiting[packet[1]] = time.monotonic()
        self.sent += 1
        self.socket.sendto(packet, (BROKER, PORT))
        return packet

    def take(self):
        for packet, _ in all_of(self.socket):
            begin = self.waiting.pop(packet[1], None)
            if packet[0] == 2 and begin is not None:
                self.took.append(time.monotonic() - begin)

    def again(self, packet, seconds=2):
        """What comes for a request that is sent once more, or for another one, within so many seconds."""
        self.socket.sendto(packet, (BROKER, PORT))
        return self.heard(seconds)

    def heard(self, seconds=2):
        return heard(self.socket)[0] if select.select([self.socket], [], [], seconds)[0] else None


class Load(threading.Thread):
    """Asks from each of the addresses in turn, so many times a second, until it is told to end."""

    def __init__(self, askers):
        super().__init__(daemon=True)
        self.askers, self.is_over = askers, threading.Event()
        self.start()

    def run(self):
        begin, count = time.monotonic(), 0
        while not self.is_over.is_set():
            while count < (time.monotonic() - begin) * RATE:
                self.askers[count % len(self.askers)].ask()
                count += 1
            for at in select.select([one.socket for one in self.askers], [], [], .002)[0]:
                next(one for one in self.askers if one.socket is at).take()
        until = time.monotonic() + 5
        while any(one.waiting for one in self.askers) and time.monotonic() < until:
            for one in self.askers:
                one.take()
            time.sleep(.01)

    def ends(self):
        self.is_over.set()
        self.join()


def under_load(server, home):
    """What comes of changes that take nothing, while 300 requests a second come."""
    askers, holders = [Asker(it) for it in (FIRST, SECOND)], [Asker(it) for it in (FIRST, SECOND)]
    held = [(one, one.ask(b"held"), one.heard()) for one in holders]
    want(all(reply and reply[0] == 2 for _, _, reply in held), "a request from each address is answered")
    slow = [(one, one.ask(b"slow")) for one in (Asker(FIRST), Asker(SECOND))]
    load = Load(askers)
    time.sleep(1)
    for what, addresses in (("the array is turned about", (SECOND, FIRST)), ("gets a third", (THIRD, SECOND, FIRST)),
                            ("and loses it", (SECOND, FIRST)), ("one as before", (FIRST, SECOND))):
        done = server.reload(file_of(of_first(*addresses)))
        want(done.returncode == 0, f"{what}: {done.stdout}{done.stderr}")
        if THIRD in addresses:
            third, before = Asker(THIRD), home.came
            third.ask(b"third")
            want(third.heard() is not None, "the third address is answered")
            other = third.again(held[0][1])
            want(other is not None and home.came > before, "equal octets from another address are another request")
        came = home.came
        for one, packet, reply in held:
            want(one.again(packet) == reply, f"{what}: the held reply to {one.address} is as before")
        time.sleep(1)
        want(home.came > came, "the load goes on")
    load.ends()
    for one in askers:
        want(len(one.took) == one.sent and not one.waiting, f"{one.address}: {one.sent - len(one.took)} of {one.sent} unanswered")
    longest = max(max(one.took) for one in askers) * 1000
    print(f"{sum(one.sent for one in askers)} requests, each answered, the last after {longest:.0f} ms")
    return slow


def release(home, slow, stays):
    """Lets the home server answer what waited, and looks at who gets a reply."""
    home.takes = lambda packet: True
    home.late()
    for (one, _), is_answered in zip(slow, stays):
        reply = one.heard()
        want((reply is not None and reply[0] == 2) == is_answered, f"{one.address}: what waited is answered: {is_answered}")


class Holding(HomeServer):
    """A home server that can answer later what it didn't take."""

    def __init__(self):
        self.left = []
        super().__init__(HOME, SECRET, self.is_quick, "127.0.0.1")

    def is_quick(self, packet):
        return not user_name(packet).startswith(b"slow")

    def run(self):
        while True:
            packet, source = self.socket.recvfrom(4096)
            self.came += 1
            if self.takes(packet):
                self.socket.sendto(answer(packet[0] + 1, packet, self.secret), source)
            else:
                self.left.append((answer(packet[0] + 1, packet, self.secret), source))

    def late(self):
        for packet, source in self.left:
            self.socket.sendto(packet, source)
        self.left.clear()


def said_of(program, folder, old, new):
    """What `roam check` says of a change."""
    paths = []
    for name, text in (("old", old), ("new", new)):
        paths.append(f"{folder}/{name}.conf")
        with open(paths[-1], "w", encoding="utf-8") as file:
            file.write(text)
    return run(program, "check", *paths)[1]


def goes(program, folder, server, home, case):
    """A change that takes an address of a client: it is declined, and made where that is agreed to."""
    what, before, after, line = case
    home.takes = home.is_quick
    want(server.reload(before).returncode == 0, f"{what}: the file before it is served")
    slow = [(one, one.ask(b"slow")) for one in (Asker(FIRST), Asker(SECOND))]
    until = time.monotonic() + 3
    while len(home.left) < 2 and time.monotonic() < until:
        time.sleep(.01)
    want(line in said_of(program, folder, before, after), f"{what}: roam check says {line!r}")
    done = server.reload(after)
    want(done.returncode != 0 and "lose" in done.stdout + done.stderr, f"{what}: it is declined: {done.stdout}{done.stderr}")
    done = server.reload(after, ("--lose",))
    want(done.returncode == 0, f"{what}: agreed to: {done.stdout}{done.stderr}")
    release(home, slow, (True, False))


def main():
    [program] = words(__doc__)
    go_on()
    home = Holding()
    both = of_first(FIRST, SECOND)
    lost = "peer nas1: ip: loses what came from addresses that are no longer its own\n"
    cases = [("an address goes", file_of(both), file_of(of_first(FIRST)), lost),
             ("another client gets it", file_of(of_first("127.0.21.0/24")), file_of(of_first("127.0.21.0/24"), peer("nas2", SECOND)),
              f"peer nas2: new\npeer nas1: loses what came from {SECOND}, which is nas2's\n")]
    with tempfile.TemporaryDirectory() as folder:
        want("peer nas1: ip: loses nothing\n" in said_of(program, folder, file_of(both), file_of(of_first(THIRD, SECOND, FIRST))),
             "roam check says that a further address takes nothing")
        want("peer nas1" not in said_of(program, folder, file_of(both), file_of(of_first(SECOND, FIRST))), "roam check says nothing of another order")
        with Server(program, folder, file_of(both)) as server:
            server.waits_for()
            server.may_lose = {"a.example"}
            release(home, under_load(server, home), (True, True))
            for case in cases:
                goes(program, folder, server, home, case)
            server.balances()
            server.stop()
    return end()


if __name__ == "__main__":
    sys.exit(main())
