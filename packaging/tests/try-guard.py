#!/usr/bin/env python3
"""try-guard.py PROGRAM [SECONDS]

Serves two realms on loopback, and changes the file again and again under a steady load, SECONDS long (15). It fails unless

1. while the second realm's `out` goes to and fro, with `hold = 0` and a home server that answers at once, no reload without
   `--lose` loses a request: each that was sent is answered. A change is made, or it is declined and says of which realm how
   much would be lost; both come, and the log and the counts tell them apart;
2. a change that takes nothing but held replies is made; where the rest is agreed to, what a change drops is counted by realm:
   waiting requests, held replies and sessions; and the log says how many;
3. at rest each realm's forwarded requests are those that were returned, given up, replaced or dropped, after each change;
4. the server stops after all that, audited.

It prints how many changes were made and declined, and how many requests were sent and answered.
"""
import re
import sys
import tempfile
import threading
import time

sys.dont_write_bytecode = True
import radius
import server as servers
from looks import end, want, words
from radius import HERE, HomeServer, access, all_of, asked, bound
from server import configuration, peer, places, realm, total

PORT, HOME = 17620, 27620
REALMS = ['a.example', 'b.example']
SECRET, NAS_SECRET = b'a-secret-of-home', 'a-secret-of-nas1'
DROPPED = {it: f'roam_realm_dropped_{it}total' for it in ('', 'replies_', 'sessions_')}


class Load(threading.Thread):
    """Sends requests of a realm, so many a second, until it is told to stop, and takes the replies."""

    def __init__(self, name, rate):
        super().__init__(daemon=True)
        self.name_of, self.rate, self.is_over, self.sent, self.replies = name.encode(), rate, False, 0, set()
        # So many that seconds pass until an Identifier of one comes again: a request that still waits then would be replaced.
        self.sockets = [bound() for _ in range(16)]
        for one in self.sockets:
            one.connect((HERE, PORT))
        self.start()

    def take(self):
        self.replies |= {packet[4:20] for one in self.sockets for packet, _ in all_of(one) if packet[0] == 2}

    def run(self):
        begin = time.monotonic()
        while not self.is_over:
            self.sockets[self.sent // 256 % 16].send(access(self.sent % 256, b'u%d@%s' % (self.sent, self.name_of)))
            self.sent += 1
            time.sleep(max(0, begin + self.sent / self.rate - time.monotonic()))
            self.take()

    def stop(self):
        """How many were sent, and how many answered."""
        self.is_over = True
        self.join()
        last = time.monotonic() + 20
        while len(self.replies) < self.sent and time.monotonic() < last:
            time.sleep(.05)
            self.take()
        return self.sent, len(self.replies)


class Server(servers.Server):
    def __init__(self, program, work):
        self.out, self.hold, self.sessions, self.secret = PORT + 210, 0, 100, NAS_SECRET
        self.served = self.out
        super().__init__(program, work, self.text())
        self.waits_for()

    def text(self):
        realms = [realm(name, HOME + 10 * at, out=f'{HERE}:{self.out if at else PORT + 200}', tries=1, wait=20000, rest=0,
                        hold=self.hold, max_sessions=self.sessions) for at, name in enumerate(REALMS)]
        return configuration(peer('nas1', secret=self.secret), *realms, shards=2, seed='0' * 64, **places(PORT),
                             log_exchanges='none')

    def moves(self):
        """The second realm gets another `out` than the one that is served: where a change was declined the file has that one."""
        self.out = PORT + 210 + (self.served + 1) % 2

    def changes(self, *lose):
        """What a change to the file as it is to be comes to."""
        result = self.reload(self.text(), lose)
        if result.returncode == 0:
            self.served = self.out
        return result

    def dropped(self):
        """What is counted as dropped of the second realm."""
        counts = self.counts()
        return {kind: total(counts, name, realm=REALMS[1]) for kind, name in DROPPED.items()}

    def has(self, gauge, count):
        """Wants a gauge of the second realm to come to a count."""
        last = time.monotonic() + 20
        while self.count(gauge, realm=REALMS[1]) != count and time.monotonic() < last:
            time.sleep(.05)
        want(self.count(gauge, realm=REALMS[1]) == count, f'{gauge} comes to {count}')


def try_to_and_fro(server, seconds):
    """Changes that nobody agreed to, under load."""
    loads = [Load(name, rate) for name, rate in zip(REALMS, (50, 200))]
    done = declined = 0
    begin = time.monotonic()
    # On a machine that has much else to do it may take longer until both have come.
    while time.monotonic() < begin + (seconds if done and declined else seconds + 45):
        server.moves()
        result = server.changes()
        done += result.returncode == 0
        declined += result.returncode == 1
        if result.returncode and not re.search('^realm b.example: would lose [1-9]', result.stdout, re.M):
            want(False, f'a change that is declined says why: {result}')
        if 'realm a.example: would lose' in result.stdout:
            want(False, f'the realm that nothing changes loses nothing: {result}')
    counts = [load.stop() for load in loads]
    print(f'     {done} changes made, {declined} declined; sent and answered {counts}')
    want(done and declined, 'some changes are made, and some declined')
    want(all(sent == answered > 0 for sent, answered in counts), 'each request that was sent is answered')
    want(server.count('roam_reloads_total', outcome='served') == done
         and server.count('roam_reloads_total', outcome='declined') == declined, 'each change is counted as it went')
    # Lines may be written after what they tell.
    last, lines = time.monotonic() + 20, ('reload: the file is served', 'reload declined: nothing has changed')
    while [server.said().count(line) for line in lines] != [done, declined] and time.monotonic() < last:
        time.sleep(.05)
    want([server.said().count(line) for line in lines] == [done, declined] and 'dropped' not in server.said(), 'and told so')
    want(not any(server.dropped().values()), 'nothing is dropped')
    server.balances()


def send(count, first):
    """So many requests of the second realm, and the socket from which they were sent."""
    one = bound()
    for number in range(first, first + count):
        one.sendto(access(number % 256, b'u%d@%s' % (number, REALMS[1].encode())), (HERE, PORT))
    return one


def open_sessions(count):
    """Wants so many sessions of the second realm to be opened."""
    for number in range(count):
        packet = radius.accounting(number, b'user@' + REALMS[1].encode(), b'session-%d' % number, NAS_SECRET.encode())
        want((asked(packet, (HERE, PORT + 1)) or b' ')[0] == 5, 'a session is opened')


def made(server, line, wanted, *agreed):
    """A change that is made: so much is dropped by it, and this is said."""
    before, result = server.dropped(), server.changes(*agreed)
    more = {kind: count - before[kind] for kind, count in server.dropped().items() if count != before[kind]}
    want(result.returncode == 0 and more == wanted, f'the change is made: counted as dropped are {more}')
    want(server.tells(f'reload: realm b.example: dropped: {line}'), f'and told: {line}')
    server.balances()


def lose(server, what, line, wanted):
    """A change that is declined, which names what of the file takes it, and made where that is agreed to."""
    result = server.changes()
    line_of = f'^realm b.example: would lose .* sessions: .*{re.escape(what)}.* changes?$'
    want(result.returncode == 1 and re.search(line_of, result.stdout, re.M),
         f'{what} is declined: {result.returncode}, {" ".join((result.stdout + result.stderr).split())}')
    made(server, line, wanted, '--lose')


def try_lose(server, silent):
    """Changes that were agreed to, some of them while the second realm's home server is silent."""
    silent.set()
    sockets = [send(20, 0)]
    server.has('roam_realm_waiting_requests', 20)
    server.moves()
    lose(server, 'its out', '20 waiting requests, 0 sessions', {'': 20})
    silent.clear()
    server.hold = 60000
    want(server.changes().returncode == 0, '`hold` changes without a loss')
    open_sessions(5)
    sockets.append(send(7, 100))
    server.has('roam_realm_held_replies', 12)
    server.secret = 'a-second-secret-of-nas1'
    made(server, '0 waiting requests, 0 sessions, 12 held replies', {'replies_': 12})
    sockets.append(send(7, 150))
    server.has('roam_realm_held_replies', 7)
    silent.set()
    sockets.append(send(3, 200))
    server.has('roam_realm_waiting_requests', 3)
    server.sessions = 1
    lose(server, 'its max_sessions', '0 waiting requests, 4 sessions', {'sessions_': 4})
    server.secret = 'another-secret-of-nas1'
    lose(server, '[[peer]]', '3 waiting requests, 0 sessions, 7 held replies', {'': 3, 'replies_': 7})


def main():
    program, *more = words(__doc__, 1, 2)
    silent = threading.Event()
    for at in range(2):
        HomeServer(HOME + 10 * at, SECRET, (lambda packet: not silent.is_set()) if at else lambda packet: True)
        HomeServer(HOME + 10 * at + 1, SECRET)
    with tempfile.TemporaryDirectory() as work, Server(program, work) as server:
        try_to_and_fro(server, float(more[0]) if more else 15)
        try_lose(server, silent)
        server.stop()
    return end()


if __name__ == '__main__':
    sys.exit(main())
