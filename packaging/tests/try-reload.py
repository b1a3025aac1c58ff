#!/usr/bin/env python3
"""try-reload.py PROGRAM [RATE]

Serves eight realms with a control socket on loopback, and has `roam ctl .. reload` read a changed file again and again
under load: RATE exchanges a second (10,000) over all realms. Two processes ask, each in four realms, and two others are
the home servers. It fails unless

1. no realm loses a request that a change doesn't take, and is sent none again, while a realm is added, a peer is added,
   one realm gets another home server and secret, and one goes; while all tables are turned about, a peer that asks for
   another realm gets another secret and goes, a realm in front comes, goes and comes back, while a realm's own `wait`,
   `hold` and `max_sessions` change, it gets a server more, and loses one that it doesn't use, and while `spread` changes
   and the broker's endpoints come from 0.0.0.0 to an address;
2. what is added or changed serves at once, a session that was opened before is disconnected after and a reply that was held
   is sent again, counts of what stays go on, and a file with a fault changes nothing and is told of as `roam check` tells
   of it;
3. a change by which something would be lost is made only where that is agreed to, and it is said what is lost;
4. fifty changes, half of them with faults (syntax, a port that is taken, an endpoint twice, another number of shards),
   leave memory and descriptors as they were;
5. under 60 limits of memory, from less than it has to more than it wants, a change is made or declined for want of
   memory, and it serves on;
6. the server stops after all that, audited.

It prints the times of answers with and without changes, and how long a request waited at most around each change. What a
busy machine drops since a buffer is full counts as lost too, and is said: net.core.rmem_max is to be 4194304.
"""
import array
import collections
import contextlib
import heapq
import multiprocessing
import os
import re
import resource
import select
import sys
import tempfile
import time

sys.dont_write_bytecode = True
import server as servers
from looks import changed, end, want, words
from radius import HERE, NAS_IP, all_of, access, accounting, answer, asked, attribute, bound, heard, signed
from server import configuration, peer, places, realm, run

SECRET = b'a-secret-of-home'
NEW_SECRET = b'another-secret-of-home'
NAS_SECRET = b'a-secret-of-nas1'
PORT, HOME = 17120, 27120


def dropped():
    """How many datagrams the system dropped, since there was no room for them in the buffer of a socket."""
    with open('/proc/net/snmp') as file:
        names, values = [line.split() for line in file if line.startswith('Udp:')]
    return int(values[names.index('RcvbufErrors')])


class HomeServers(multiprocessing.Process):
    """Accepts each Access-Request, in every second realm 10 ms after it came, in realm 7 a quarter of a second after, so that
    some always wait there, and answers accounting. `told` says how many came in each realm, and how many of them again."""

    def __init__(self, realms):
        super().__init__(daemon=True)
        self.near, self.far = multiprocessing.Pipe()
        self.homes = {}
        for realm, secret in realms:
            for port in HOME + realm, HOME + 100 + realm:
                one = bound(port, seconds=0)
                self.homes[one.fileno()] = one, realm, secret, .25 if realm == 7 else 0 if realm % 2 else .01

    def told(self):
        self.near.send(None)
        return self.near.recv()

    def run(self):
        waiting, seen, again = [], collections.defaultdict(set), collections.Counter()
        poll = select.epoll()
        for at in [*self.homes, self.far.fileno()]:
            poll.register(at, select.EPOLLIN)
        while True:
            for at, _ in poll.poll(max(0, waiting[0][0] - time.monotonic()) if waiting else 1):
                if at == self.far.fileno():
                    self.far.recv()
                    self.far.send(({realm: len(all) for realm, all in seen.items()}, again))
                    continue
                one, realm, secret, delay = self.homes[at]
                for packet, source in all_of(one):
                    key = packet[1:20] + source[1].to_bytes(2, 'big')
                    again[realm] += key in seen[realm]
                    seen[realm].add(key)
                    if delay:
                        heapq.heappush(waiting, (time.monotonic() + delay, at, answer(packet[0] + 1, packet, secret), source))
                    else:
                        one.sendto(answer(packet[0] + 1, packet, secret), source)
            while waiting and waiting[0][0] <= time.monotonic():
                _, at, packet, source = heapq.heappop(waiting)
                self.homes[at][0].sendto(packet, source)


class Requests:
    """Sends Access-Requests of one realm, each of a user of its own, from so many sockets, and counts the replies."""

    def __init__(self, realm, source=HERE, sockets=1):
        self.realm, self.sent, self.answered, self.overtaken = realm, 0, 0, 0
        self.sockets, self.waiting = [], {}
        self.when, self.took = array.array('d'), array.array('d')
        for _ in range(sockets):
            one = bound(0, source, 0)
            one.connect((HERE, PORT))
            self.sockets.append(one)
        self.by_fd = {one.fileno(): at for at, one in enumerate(self.sockets)}

    def send(self):
        at, number = self.sent % len(self.sockets), self.sent // len(self.sockets) % 256
        drawn = self.sent.to_bytes(8, 'big') + self.realm[:8].ljust(8)
        packet = access(number, b'u%d@%s' % (self.sent, self.realm), authenticator=drawn)
        self.overtaken += (at, number) in self.waiting
        self.waiting[at, number] = time.monotonic()
        self.sockets[at].send(packet)
        self.sent += 1

    def take(self, fd):
        at = self.by_fd[fd]
        for packet, _ in all_of(self.sockets[at]):
            begin = self.waiting.pop((at, packet[1]), None)
            if packet[0] == 2 and begin is not None:
                self.answered += 1
                self.when.append(begin)
                self.took.append(time.monotonic() - begin)

    def wait(self, seconds):
        """Whether what is waited for has come in so many seconds."""
        end = time.monotonic() + seconds
        while self.waiting and time.monotonic() < end:
            for fd in select.select(self.sockets, [], [], .05)[0]:
                self.take(fd.fileno())
        return self.answered == self.sent


class Load(multiprocessing.Process):
    """Asks in some realms, so often a second in each, until it is told to stop."""

    def __init__(self, realms, rate):
        super().__init__(daemon=True)
        self.realms, self.rate = realms, rate
        self.near, self.far = multiprocessing.Pipe()
        self.is_over = multiprocessing.Value('b', 0, lock=False)

    def told(self):
        """What became of the requests of each realm."""
        self.is_over.value = 1
        return self.near.recv()

    def run(self):
        asks = [Requests(b'%c.example' % (97 + realm), sockets=12) for realm in self.realms]
        poll, by_fd = select.epoll(), {fd: one for one in asks for fd in one.by_fd}
        for fd in by_fd:
            poll.register(fd, select.EPOLLIN)
        begin = time.monotonic()
        while not self.is_over.value:
            due = (time.monotonic() - begin) * self.rate
            for one in asks:
                for _ in range(min(32, int(due) - one.sent)):
                    one.send()
            for fd, _ in poll.poll(.0005):
                by_fd[fd].take(fd)
        took = time.monotonic() - begin
        for one in asks:
            one.wait(20)
        self.far.send({realm: (one.sent, one.answered, one.overtaken, one.when, one.took, took)
                       for realm, one in zip(self.realms, asks)})


class Realm:
    def __init__(self, number, further=(), home=None, secret=SECRET, **more):
        home = HOME + number if home is None else home
        of_home = [(home, secret), *((one, SECRET) for one in further)]
        self.name = '%c.example' % (97 + number)
        self.servers = [{'auth': f'{HERE}:{at}', 'acct': f'{HERE}:{at + 100}', 'secret': of.decode()} for at, of in of_home]
        self.keys = {'out': f'{HERE}:{PORT + 200 + number}', 'reverse': f'{HERE}:{PORT + 300 + number}', 'tries': 2, 'wait': 4000,
                     'hold': 2000, 'max_pending': 4096, 'max_sessions': 100, 'rest': 0, **more}

    def __str__(self):
        return realm(self.name, *self.servers, **self.keys)


def a_peer(name, ip, secret=NAS_SECRET.decode(), **more):
    return name, ip, secret, more


class Server(servers.Server):
    def __init__(self, program, work, realms):
        self.peers = [a_peer('nas1', HERE, coa=f'{HERE}:{PORT + 400}', nas_ip='192.0.2.1')]
        self.realms, self.shards, self.spread, self.address = realms, 2, True, '0.0.0.0'
        super().__init__(program, work, self.text())
        self.waits_for()

    def text(self):
        tables = [*(peer(name, ip, secret, **(more or {})) for name, ip, secret, more in self.peers), *map(str, self.realms)]
        return configuration(*tables, shards=self.shards, seed='0' * 64, **places(PORT, self.address), trace_limit=100000,
                             spread=self.spread, log_exchanges=False)

    def reload(self, text=None, lose=()):
        """Has it read its file anew. The realms that lose something then by its answer are noted."""
        result = super().reload(self.text() if text is None else text, lose)
        self.may_lose.update(re.findall(r'^realm (\S+): (?:loses|gone)', result.stdout, re.M) if lose else [])
        return result

    def of_realm_a(self):
        return self.count('roam_realm_requests_total', realm='a.example', code='access_request')

    def size(self):
        """Pages in memory, and open descriptors."""
        with open(f'/proc/{self.process.pid}/statm') as file:
            return int(file.read().split()[1]) * 4, len(os.listdir(f'/proc/{self.process.pid}/fd'))


def asks_once(realm, source=HERE, seconds=10):
    """Whether a request of a realm is accepted within so many seconds."""
    one = Requests(realm, source)
    one.send()
    return one.wait(seconds)


def open_session():
    """An Accounting-Request Start at realm a, whose reply says that the ledger has the session."""
    reply = asked(accounting(1, b'user@a.example', b'session-1', NAS_SECRET, body=NAS_IP), (HERE, PORT + 1), seconds=5)
    return reply is not None and reply[0] == 5


def disconnect():
    """A Disconnect-Request of realm a's home server that names a session and no user: whether the access server gets it, and
    its answer comes back."""
    with contextlib.closing(bound(PORT + 400, seconds=10)) as nas, contextlib.closing(bound(seconds=10)) as home:
        home.sendto(signed(40, 7, NAS_IP + attribute(44, b'session-1'), SECRET), (HERE, PORT + 300))
        packet, source = heard(nas)
        if packet is None:
            return False
        nas.sendto(answer(41, packet, NAS_SECRET), source)
        return (heard(home)[0] or b'\0')[0] == 41


def says(result, *lines):
    return result.returncode == 0 and all(line in result.stdout.splitlines() for line in lines)


LOSE = ('--lose',)


def try_changes(server):
    """One change after the other, under load."""
    want(open_session(), 'a session is opened')
    before = server.of_realm_a()
    server.realms.append(Realm(8))
    want(says(server.reload(), 'realm a.example: unchanged', 'realm h.example: unchanged', 'realm i.example: new'),
         'a realm is added')
    want(asks_once(b'i.example'), 'and serves at once')
    server.peers.append(a_peer('nas2', '127.0.0.2'))
    want(says(server.reload(), 'peer nas2: new', 'realm a.example: unchanged', 'realm i.example: unchanged'), 'a peer is added')
    want(asks_once(b'a.example', '127.0.0.2'), 'and is served at once')
    server.realms[7] = Realm(7, home=HOME + 9, secret=NEW_SECRET)
    declined = server.reload()
    want(declined.returncode == 1 and 'realm h.example: would lose' in declined.stdout,
         'another home server and secret is declined while requests wait')
    want(says(server.reload(lose=LOSE), 'realm a.example: unchanged',
              'realm h.example: carried: keys 1 server, peers 0, servers 1',
              f'realm h.example: loses what waits at 127.0.0.1:{HOME + 7}'),
         'a realm gets another home server and secret')
    want(asks_once(b'h.example'), 'and asks it at once')
    server.realms.pop()
    want(says(server.reload(lose=LOSE), 'realm a.example: unchanged', 'realm i.example: gone: loses all'), 'a realm goes')
    want(not asks_once(b'i.example', seconds=2), 'and asks its home server no more')
    after = server.of_realm_a()
    want(after > before > 0, f'the counts of a realm go on ({before}, {after})')
    want(disconnect(), 'a session of before is disconnected after')


class Held:
    """A request whose reply is held."""

    def __init__(self, realm):
        self.socket, self.packet = bound(seconds=10), access(77, b'held@' + realm, authenticator=b'held-held-held-h')
        self.reply = self.ask()

    def ask(self):
        self.socket.sendto(self.packet, (HERE, PORT))
        return heard(self.socket)[0]

    def is_held(self):
        return self.reply is not None and self.ask() == self.reply


def follow(server, what, *lines, lose=()):
    """A change that takes nothing of realm b."""
    result = server.reload(lose=lose)
    want(says(result, *lines), f'{what} ({result.stdout.splitlines()[-1] if result.returncode else "followed"})')


def try_what_others_change(server):
    """Changes that take nothing of realm b, and those of its own keys, under load."""
    realm = 'realm b.example: '
    server.realms[1] = Realm(1, hold=60000)
    follow(server, "b's hold", realm + 'carried: keys 1 hold, peers 0, servers 0')
    held = Held(b'b.example')
    server.realms.reverse()
    server.peers.reverse()
    follow(server, 'all tables are turned about', realm + 'unchanged')
    name, ip, _, more = next(peer for peer in server.peers if peer[0] == 'nas2')
    server.peers = [peer for peer in server.peers if peer[0] != 'nas2'] + [(name, ip, 'another-secret', more)]
    follow(server, 'a peer gets another secret', 'peer nas2: secret: loses its requests, and what waits at its coa', lose=LOSE)
    server.peers = [peer for peer in server.peers if peer[0] != 'nas2']
    follow(server, 'and goes', 'peer nas2: gone: loses its requests and sessions', lose=LOSE)
    for count in range(2):
        server.realms.insert(0, Realm(8))
        follow(server, 'a realm comes in front', 'realm i.example: new', realm + 'unchanged')
        want(asks_once(b'i.example'), 'and serves')
        server.realms.pop(0)
        follow(server, 'and goes', 'realm i.example: gone: loses all', realm + 'unchanged', lose=LOSE)
    place = next(at for at, one in enumerate(server.realms) if one.name == 'b.example')
    for what, more in (('wait', {'wait': 3000}), ('max_sessions', {'max_sessions': 200}), ('server', {'further': [HOME + 2]}),
                       ('server', {'further': []})):
        server.realms[place] = Realm(1, hold=60000, **more)
        want(server.reload().returncode == 0, f"b's {what} changes without a loss: {more}")
    want(held.is_held(), 'the reply that was held is sent again')
    want(disconnect(), 'and a session of before is disconnected')
    server.realms.sort(key=lambda one: one.name)


def try_sockets(server):
    """Other sockets at the same ports, under load: one for all workers, one for each, and at an address of every one's."""
    for spread in (False, True):
        server.spread = spread
        want(server.reload().returncode == 0, f'spread = {spread} follows')
        time.sleep(.5)
    server.address = HERE
    want(server.reload().returncode == 0, '127.0.0.1 follows 0.0.0.0')
    time.sleep(.5)
    taken = bound(PORT, '127.0.0.3')
    server.address = '0.0.0.0'
    result = server.reload()
    want(result.returncode == 1 and f'0.0.0.0:{PORT}' in result.stdout and f'127.0.0.1:{PORT} is served' in result.stdout,
         'where the system lets no second one be bound, both endpoints are named')
    taken.close()
    server.address = HERE
    want(server.reload().returncode == 0, 'and all is served as before')


def faults(server):
    """Texts that may not follow, each with a word of what is said of it."""
    good = server.text()
    return [(changed(good, 'auth =', 'auht =', 1), 'Missing'),
            (good + 'this is no toml', 'roam.conf'),
            (good + str(Realm(9, out=f'{HERE}:{PORT + 500}')), 'cannot bind'),
            (good + str(Realm(9, out=f'{HERE}:{PORT + 200}')), 'Duplicate'),
            (changed(good, 'shards = 2', 'shards = 3'), 'needs a restart: shards')]


def try_fifty(server):
    taken = bound(PORT + 500)
    sizes, slowest = [], 0
    for number in range(50):
        if number % 2:
            text, word = faults(server)[number // 2 % 5]
            result = server.reload(text)
            if result.returncode != 1 or word not in result.stdout:
                want(False, f'{word}: {result}')
        else:
            server.realms[6] = Realm(6, wait=3900 - number)
            begin = time.monotonic()
            result = server.reload()
            slowest = max(slowest, time.monotonic() - begin)
            if not says(result, 'realm a.example: unchanged', 'realm g.example: carried: keys 1 wait, peers 0, servers 0'):
                want(False, f'change {number}: {result}')
        time.sleep(.1)
        sizes.append(server.size())
    taken.close()
    print(f'     the slowest change took {1000 * slowest:.1f} ms; {sizes[9]} and {sizes[-1]} (KiB, descriptors)')
    want(all(one[1] == sizes[0][1] for one in sizes), f'{sizes[0][1]} descriptors after each of fifty')
    want(sizes[-1][0] < sizes[9][0] * 1.1 + 2048, 'and the same memory')


def try_check(server):
    """The text of a fault is that of `roam check`."""
    text, _ = faults(server)[0]
    result = server.reload(text)
    _, _, told = run(server.program, 'check', server.conf)
    want(result.returncode == 1 and result.stdout == told, 'a fault is told as `roam check` tells it')
    want(server.reload().returncode == 0, 'and a good file follows')


def try_refused(server):
    """Changes for which memory is refused, at another growth each time."""
    none = resource.RLIM_INFINITY
    declined = 0
    with open(f'/proc/{server.process.pid}/status') as file:
        base = next(int(line.split()[1]) for line in file if line.startswith('VmData')) * 1024
    for number in range(60):
        resource.prlimit(server.process.pid, resource.RLIMIT_DATA, (base + (number - 4) * (2 << 20), none))
        result = server.ctl('reload')
        resource.prlimit(server.process.pid, resource.RLIMIT_DATA, (none, none))
        is_declined = result.stdout.startswith('roam: out of memory\n')
        declined += is_declined
        if not (result.returncode == 0 or is_declined) or not asks_once(b'a.example'):
            want(False, f'under limit {number}: {result} {server.said()[-200:]}')
    want(0 < declined < 60, f'of 60 changes {declined} are declined for want of memory, and it serves on after each')


def part(times, share):
    return 1000 * sorted(times)[min(len(times) - 1, int(len(times) * share))]


def tell_times(what, answered, begin, end):
    """The times of the answers that were asked for in a window."""
    times = [took for when, took in answered if begin <= when < end]
    print(f'     {what}: {len(times) / (end - begin):.0f} a second answered; median {part(times, .5):.2f} ms, '
          f'p99 {part(times, .99):.2f}, p99.9 {part(times, .999):.2f}, longest {part(times, 1):.2f}')


def tell_pauses(answered, changes):
    """How long a request waited at most around each change: the longest time of those that waited at some moment of it."""
    longest = []
    for begin, end in changes:
        longest.append(max((took for when, took in answered if when < end and when + took > begin), default=0))
    print(f'     the longest wait around each of {len(longest)} changes: median {part(longest, .5):.2f} ms, '
          f'least {part(longest, 0):.2f}, most {part(longest, 1):.2f}')


def change_often(server, seconds):
    """Changes without a difference, four a second."""
    changes, end = [], time.monotonic() + seconds
    while time.monotonic() < end:
        begin = time.monotonic()
        want_done = server.reload().returncode == 0
        changes.append((begin, time.monotonic()))
        if not want_done:
            want(False, 'a file without a difference follows')
        time.sleep(.25)
    return changes


def try_all(server, homes, rate):
    loads = [Load(realms, rate / 8) for realms in (range(4), range(4, 8))]
    for one in loads:
        one.start()
    time.sleep(1)
    quiet = time.monotonic(), time.sleep(5), time.monotonic()
    try_changes(server)
    try_what_others_change(server)
    try_sockets(server)
    try_check(server)
    try_fifty(server)
    often = time.monotonic()
    changes = change_often(server, 5)
    done = time.monotonic()
    told = {realm: what for one in loads for realm, what in one.told().items()}
    again = sum((home.told()[1] for home in homes), collections.Counter())
    print(f'     the system dropped {dropped()} datagrams, for which a buffer had no room')
    same = [told[realm] for realm in range(7)]
    sent, answered, overtaken = (sum(one[at] for one in same) for at in range(3))
    every = sum(one[1] for one in told.values()) / told[0][5]
    print(f'     seven realms of which no change takes anything: {sent} requests, {answered} answered, '
          f'{sum(again[realm] for realm in range(7))} sent again; over all eight {every:.0f} answered a second')
    at_once = [one for realm in (1, 3, 5) for one in zip(told[realm][3], told[realm][4])]
    tell_times('without changes', at_once, quiet[0], quiet[2])
    tell_times('with four a second', at_once, often, done)
    tell_pauses(at_once, changes)
    want(sent == answered > 0 and not overtaken, 'none of theirs is lost')
    want(not any(again[realm] for realm in range(7)), 'and none is sent again')
    print(f'     the one that got another home server: {told[7][0]} requests, {told[7][1]} answered')
    try_refused(server)
    server.stop()


def main():
    program, *given = words(__doc__, 1, 2)
    with tempfile.TemporaryDirectory() as work:
        homes = [HomeServers([(realm, SECRET) for realm in range(0, 5)]),
                 HomeServers([(realm, SECRET) for realm in range(5, 9)] + [(9, NEW_SECRET)])]
        for home in homes:
            home.start()
        with Server(program, work, [Realm(realm) for realm in range(8)]) as server:
            try_all(server, homes, int(given[0]) if given else 10000)
    return end()


if __name__ == '__main__':
    sys.exit(main())
