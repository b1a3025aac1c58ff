#!/usr/bin/env python3
"""try-control.py PROGRAM [RATE]

Serves a configuration with a control socket on loopback, and has `roam ctl` and others ask it, misuse it and stop it.
It fails unless: the socket is its owner's alone; the sums of `status` are those of the requests that were sent, as text
and as JSON; a thousand idle connections, an octet a second and ten megabytes of header hold nothing up; a socket that a
killed server left behind is taken over, one of a server that runs is not; and a server that is asked to stop under load
answers each request that it took, takes none any more, ends with 0 and removes the socket. The load is RATE requests a
second (4,000), by as many processes as there are realms, each with a home server in another process.
"""
import array
import collections
import contextlib
import http.client
import json
import multiprocessing
import os
import select
import signal
import socket
import stat
import subprocess
import sys
import tempfile
import time

sys.dont_write_bytecode = True
from looks import end, want, words
from radius import HERE, access, answer, bound, user_name
from server import Server, configuration, peer, realm, run

PORT, HOME, REALMS = 18120, 28120, 4
NAMES = ['%c.example' % letter for letter in b'abcd']
TEXT = configuration(
    peer('nas1'), *(realm(name, {'auth': f'{HERE}:{HOME + number}', 'acct': f'{HERE}:{HOME + 10 + number}'}, out=f'{HERE}:{PORT + 20 + number}',
                          reverse=f'{HERE}:{PORT + 30 + number}', tries=2, wait=2000, hold=5000, max_pending=4096, max_sessions=100, rest=0)
                    for number, name in enumerate(NAMES)),
    shards=2, seed='0' * 64, auth=f'{HERE}:{PORT}', acct=f'{HERE}:{PORT + 10}', trace_limit=100000)


class HomeServer(multiprocessing.Process):
    """Accepts each Access-Request, `delay` seconds after it came. `count` tells whose requests came."""

    def __init__(self, realm, delay):
        super().__init__(daemon=True)
        self.delay, self.taken = delay, set()
        self.near, self.far = multiprocessing.Pipe()
        self.socket = bound(HOME + realm)

    def count(self):
        """How many users' requests came since this was asked last."""
        self.near.send(None)
        return self.near.recv()

    def run(self):
        waiting = collections.deque()
        while True:
            pause = max(0, waiting[0][0] - time.monotonic()) if waiting else 1
            ready = select.select([self.socket, self.far], [], [], pause)[0]
            if self.socket in ready:
                packet, source = self.socket.recvfrom(4096)
                self.taken.add(user_name(packet))
                waiting.append((time.monotonic() + self.delay, packet, source))
            if self.far in ready:
                self.far.recv()
                self.far.send(len(self.taken))
                self.taken.clear()
            while waiting and waiting[0][0] <= time.monotonic():
                _, packet, source = waiting.popleft()
                self.socket.sendto(answer(2, packet, b'a-secret-of-home'), source)


class AccessServer:
    """Sends Access-Requests, each of a user of its own of one realm, and counts the replies."""

    def __init__(self, realm=0):
        self.realm, self.users, self.answered = f'@{NAMES[realm]}'.encode(), 0, 0
        self.sockets, self.poll = {}, select.epoll()

    def send(self):
        number = self.users % 256
        if number == 0:
            self.last = bound()
            self.last.connect((HERE, PORT))
            self.sockets[self.last.fileno()] = self.last
            self.poll.register(self.last, select.EPOLLIN)
        with contextlib.suppress(ConnectionRefusedError):
            self.last.send(access(number, b'u%d' % self.users + self.realm))
        self.users += 1

    def take(self, seconds):
        """Takes the replies that there are, and waits so long for the first. Answers whether some came."""
        before = self.answered
        for at, _ in self.poll.poll(max(0, seconds)):
            with contextlib.suppress(ConnectionRefusedError):
                self.answered += len(self.sockets[at].recv(4096)) >= 20
        return self.answered > before

    def take_all(self, count, seconds=20):
        """Takes replies until there are so many, so long at most. Answers whether there are."""
        end = time.monotonic() + seconds
        while self.answered < count and time.monotonic() < end:
            self.take(.05)
        return self.answered == count


def ask_for(realm, rate, seconds, told):
    """Sends so many requests a second, and tells at which moments, and, when it is asked, how many of them were answered."""
    access, begin, moments = AccessServer(realm), time.monotonic(), array.array('d')
    while time.monotonic() < begin + seconds:
        while access.users < (time.monotonic() - begin) * rate:
            access.send()
            moments.append(time.monotonic())
        access.take(.001)
    told.send(moments)
    # What comes too late or twice is counted, too.
    access.take_all(told.recv())
    while access.take(.2):
        pass
    told.send(access.answered)


class OverUnix(http.client.HTTPConnection):
    def __init__(self, path):
        super().__init__('roam', timeout=10)
        self.path = path

    def connect(self):
        self.sock = socket.socket(socket.AF_UNIX)
        self.sock.connect(self.path)


def asks(server, method, path):
    connection = OverUnix(server.path)
    connection.request(method, path)
    answer = connection.getresponse()
    return answer.status, answer.read()


def try_status(server, sent):
    answer = server.ctl('status')
    want(answer.returncode == 0 and 'realms 4 peers 1 shards 2' in answer.stdout, 'status as text')
    rows = [line.split() for line in answer.stdout.splitlines()]
    heads, realm = ([row for row in rows if row[:1] == [word]][0] for word in ('REALM', 'a.example'))
    want(heads[4:7] == ['REQUESTS', 'FORWARDED', 'RETURNED'] and realm[1:4] == ['0', 'of', '4096'] and realm[5:] == ['0', 'of', '100'] + [str(sent)] * 3 + ['0'] * 4,
         f'of a realm {sent} requests that came, were forwarded and returned')
    want(len({len(line) for line in answer.stdout.splitlines() if line.startswith('  ') and '.example' in line and '127' not in line}) == 1, 'in columns')
    auth, acct = ([row for row in rows if row[:3] == [word, f'{HERE}:{HOME + more}', 'a.example']][0] for word, more in (('auth', 0), ('acct', 10)))
    want(auth[3] == 'answers' and auth[7] == str(sent) and acct[3:5] == ['never', 'asked'], 'of its home server that it answers')
    want(['nas1', '127.0.0.1', str(sent), str(sent), str(sent), '0', '0', '0'] in rows, 'of the peer its address')
    status, body = asks(server, 'GET', '/status.json')
    told = json.loads(body)
    same = server.ctl('status', '--json')
    want(same.returncode == 0 and json.loads(same.stdout)['realms'] == told['realms'], '`--json` prints the same as JSON')
    want(status == 200 and told['realms'][0]['requests'] == sent and told['realms'][0]['servers'][0]['replies'] == sent
         and told['peers'][0]['name'] == 'nas1' and told['shards'] == 2 and told['realms'][0]['servers'][0]['auth']['stands'] == 'answers'
         and told['realms'][0]['max_pending'] == 4096 and abs(told['began'] + told['seconds'] - time.time()) < 5, 'status as JSON')
    metrics = server.ctl('metrics').stdout
    want(f'roam_realm_requests_total{{realm="a.example",code="access_request",}} {sent}' in metrics, 'metrics')
    want(all(f'roam_realm_sessions{{realm="{name}",}} 0' in metrics for name in NAMES), 'and how each realm of each shard stands')
    want(asks(server, 'GET', '/stop')[0] == 405 and asks(server, 'POST', '/status')[0] == 405
         and asks(server, 'GET', '/nothing')[0] == 404, 'other methods and paths are refused')


def try_hostile(server, access):
    idle = []
    for _ in range(1000):
        one = socket.socket(socket.AF_UNIX)
        one.setblocking(False)
        with contextlib.suppress(BlockingIOError):
            one.connect(server.path)
        idle.append(one)
    slow, long = socket.socket(socket.AF_UNIX), socket.socket(socket.AF_UNIX)
    for one in (slow, long):
        one.connect(server.path)
    with contextlib.suppress(OSError):
        long.sendall(b'GET /status HTTP/1.1\r\nx: ' + b'y' * 10_000_000)
    for octet in b'GET':
        with contextlib.suppress(OSError):
            slow.send(bytes([octet]))
        time.sleep(1)
    for _ in range(100):
        access.send()
    want(access.take_all(access.users), 'who opens connections and asks nothing holds no request up')
    want(server.ctl('status').returncode == 0, 'nor `roam ctl`')
    for one in idle + [slow, long]:
        one.close()


def try_watch(server):
    """Of a server that is stopped meanwhile."""
    watch = subprocess.Popen([server.program, 'ctl', server.path, 'status', '--watch'], stdout=subprocess.PIPE, text=True)
    time.sleep(3.5)
    want(watch.poll() is None, '`--watch` goes on')
    return watch


def end_watch(watch):
    shown = watch.communicate(timeout=30)[0].split('\x1b[H\x1b[2J')
    want(watch.returncode == 0 and len(shown) > 3 and all('up for' in one for one in shown) and shown[-1].endswith('no more answers\n'),
         f'and showed {len(shown)} times how it stands, and that it answers no more')


def try_stop(server, homes, rate):
    """Under load: each request that a home server got was taken, and is to be answered."""
    for home in homes:
        home.count()
    told, loads = [], []
    for realm in range(REALMS):
        near, far = multiprocessing.Pipe()
        loads.append(multiprocessing.Process(target=ask_for, args=(realm, rate / REALMS, 5, far), daemon=True))
        told.append(near)
    for load in loads:
        load.start()
    time.sleep(2)
    asked = time.monotonic()
    answer = server.ctl('stop')
    ended, status = time.monotonic(), server.ends(40)
    moments = [near.recv() for near in told]
    of_each = [home.count() for home in homes]
    for near, count in zip(told, of_each):
        near.send(count)
    taken, back = sum(of_each), sum(near.recv() for near in told)
    # What lay in its sockets when it was asked is lost, and a worker may take some more until it knows of it.
    before, until = (sum(when < moment for one in moments for when in one) for moment in (asked - .5, ended + .5))
    print(f'     {sum(map(len, moments))} sent in 5 s, {before} and {until} of them until half a second before it was asked and after that, '
          f'{taken} taken, {back} answered, {ended - asked:.2f} s from the question to the end')
    want(0 < before <= taken <= until, 'it took requests until it was asked, and none after it')
    want(back == taken, 'each request that it took was answered')
    want(answer.returncode == 0 and answer.stdout == 'stopping\n', '`roam ctl` says so')
    want(status == 0 and 'audited' in server.said() and 'asked to stop' in server.said(), 'it ends with 0, audited')
    want(not os.path.exists(server.path), 'and removes the socket')


def main():
    program, *given = words(__doc__, 1, 2)
    with tempfile.TemporaryDirectory() as work:
        homes, access = [HomeServer(realm, .01) for realm in range(REALMS)], AccessServer()
        for home in homes:
            home.start()
        with Server(program, work, TEXT) as killed:
            killed.waits_for()
            mode = os.stat(killed.path).st_mode
            want(stat.S_ISSOCK(mode) and stat.S_IMODE(mode) == 0o600, "the socket is its owner's alone")
            killed.process.send_signal(signal.SIGKILL)
        want(os.path.exists(killed.path), 'a killed server leaves its socket behind')
        want(killed.ctl('status').returncode == 1 and 'nobody listens there' in killed.ctl('status').stderr, 'nobody answers there')
        with Server(program, work, TEXT) as server:
            server.waits_for()
            want(server.ctl('status').returncode == 0, 'and the next one takes it over')
            status, _, said = run(program, 'serve', server.conf)
            want(status == 1 and f'cannot listen at {server.path}' in said and server.ctl('status').returncode == 0,
                 'but not while somebody listens')
            for _ in range(200):
                access.send()
            want(access.take_all(200), '200 requests are answered')
            try_status(server, 200)
            try_hostile(server, access)
            server.balances()
            watch = try_watch(server)
            try_stop(server, homes, int(given[0]) if given else 4000)
            end_watch(watch)
    return end()


if __name__ == '__main__':
    sys.exit(main())
