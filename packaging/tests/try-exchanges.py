#!/usr/bin/env python3
"""try-exchanges.py PROGRAM [EXCHANGES [FLOOD]]
try-exchanges.py PROGRAM pipe SECONDS RATE

Serves on loopback, and compares what the log and `roam ctl PATH metrics` say with what was really sent and answered:

1. so many exchanges (20,000) with losses, failovers, requests that nobody answers, duplicates and refusals: each count and
   each kind of line is as often as the generator and the home servers counted it;
2. one wrong secret among 200 peers, while another source floods with so many datagrams a second (20,000): the log alone and
   the metrics alone name that peer;
3. a home server that falls silent, and answers again: a line each, and a gauge;
4. a User-Name of line feeds, escapes and quotation marks: one line, which reads back;
5. a full pipe for standard error: nothing stalls, and lines are dropped and counted;
6. the trace of a shard, played by `roam sim`.

With `pipe` only the fifth, for so many seconds, at so many requests a second.
"""
import collections
import json
import os
import re
import select
import sys
import tempfile
import threading
import time

sys.dont_write_bytecode = True
import radius
import server as servers
from looks import end, want, words
from radius import HERE, attribute, bound, user_name
from server import configuration, peer, realm, run, total

SECRET, HOMES = b'a-secret-of-peer', (28120, 28122)
AUTH = (HERE, 18120)
PEER = peer('peer0', secret=SECRET.decode())


def a_realm(wait, rest, homes=HOMES):
    of_homes = [{'auth': f'{HERE}:{home}', 'acct': f'{HERE}:{home + 10}'} for home in homes]
    return realm('a.example', *of_homes, out=f'{HERE}:18140', reverse=f'{HERE}:18150', tries=2, wait=wait, hold=5000, max_pending=4096,
                 max_sessions=100, rest=rest, rest_after=1)


def access_request(number, name, station=b'02-00-00-00-00-01', secret=None):
    return radius.access(number, name, radius.NAS_IP + attribute(31, station), secret)


class HomeServer(radius.HomeServer):
    """Accepts an Access-Request, unless its name says otherwise: `l` loses its first sending, `f` is for the second server
    alone, `g` is for none. While it is `silent` it answers nothing."""

    def __init__(self, place):
        self.place, self.silent, self.seen = place, False, set()
        super().__init__(HOMES[place], b'a-secret-of-home', self.is_taken)

    def is_taken(self, packet):
        name = user_name(packet)
        kind, again = name[:1], name in self.seen
        if kind == b'l':
            self.seen.add(name)
            return again
        return not self.silent and kind != b'g' and (kind != b'f' or self.place == 1)


class Server(servers.Server):
    def __init__(self, program, work, *tables, name='roam', **how):
        text = configuration(*tables, shards=2, seed='0' * 64, auth=f'{HERE}:18120', acct=f'{HERE}:18130', trace_limit=1000000)
        super().__init__(program, work, text, name=name, **how)
        want(self.is_asked(), 'it serves')


class AccessServer:
    """Sends Access-Requests from many ports, and matches the replies by port and Identifier."""

    def __init__(self, ports):
        self.sockets, self.poll, self.by_fd = [bound() for _ in range(ports)], select.epoll(), {}
        for at, one in enumerate(self.sockets):
            one.connect(AUTH)
            self.poll.register(one, select.EPOLLIN)
            self.by_fd[one.fileno()] = at
        self.answers = collections.Counter()

    def take(self, seconds):
        """Takes what there is, and waits so long for the first. Gives the keys that were answered."""
        keys = []
        for fd, _ in self.poll.poll(seconds):
            at = self.by_fd[fd]
            for packet, _ in radius.all_of(self.sockets[at]):
                self.answers[packet[0]] += 1
                keys.append((at, packet[1]))
        return keys


# How long the broker waits for each answer where exchanges are counted, in milliseconds.
WAIT = 3000
KINDS = [b'a'] * 190 + [b'l'] * 4 + [b'd', b'd', b'w', b'w', b'f', b'g']


def try_counts(program, work, exchanges, homes):
    server = Server(program, work, PEER, a_realm(WAIT, 0))
    access, free = AccessServer(16), collections.deque((p, n) for n in range(256) for p in range(16))
    before = [(h.came, h.answered) for h in homes]
    sent, kinds, waiting, again, bad, duplicates = 0, collections.Counter(), {}, set(), 0, 0
    begun = time.monotonic()
    while sent < exchanges or waiting:
        while sent < exchanges and free and len(waiting) < 150:
            key = free.popleft()
            kind = KINDS[sent % len(KINDS)]
            packet = access_request(key[1], kind + b'%d@a.example' % sent)
            access.sockets[key[0]].send(packet)
            if kind == b'w':
                access.sockets[key[0]].send(packet)
                duplicates += 1
            waiting[key] = (kind, packet, time.monotonic())
            kinds[kind] += 1
            sent += 1
            # So seldom that never 32 come within 64 ms: then the server would read few of the others from this address.
            if sent % 100 == 0:
                broken = access_request(0, b'bad@a.example', secret=b'another-secret!!')
                access.sockets[0].send(broken)
                bad += 1
        for key in access.take(.02):
            if key in again:
                again.remove(key)
                free.append(key)
            if key not in waiting:
                continue
            kind, packet, _ = waiting.pop(key)
            if kind == b'd':
                access.sockets[key[0]].send(packet)
                again.add(key)
                duplicates += 1
            else:
                free.append(key)
        now = time.monotonic()
        for key in [k for k, (kind, _, at) in waiting.items() if kind == b'g' and now - at > 6 * WAIT / 1000]:
            del waiting[key]
            free.append(key)
        for key, (kind, packet, at) in list(waiting.items()):
            if now - at > 45:
                want(False, f'a reply to {kind} came within 45 s')
    access.take(.3)
    seconds = time.monotonic() - begun
    time.sleep(1)
    access.take(.1)
    # The last lines, and the counts, may come a moment later.
    until = time.monotonic() + 20
    while True:
        found, log = server.counts(), server.said()
        result = collections.Counter(re.findall(r'exchange result=(\w+) .*', log))
        dropped = total(found, 'roam_exchange_lines_lost_total')
        if result['accept'] + result['given_up'] + dropped >= exchanges or time.monotonic() > until:
            break
        time.sleep(.2)
    came = [h.came - b[0] for h, b in zip(homes, before)]
    over, given_up, answered = kinds[b'f'] + kinds[b'g'], kinds[b'g'], exchanges - kinds[b'g']
    print(f'      {exchanges} exchanges in {seconds:.0f} s: {dict((k.decode(), v) for k, v in kinds.items())}, {bad} refused, '
          f'{duplicates} duplicates; to the home servers {came}; lines {dict(result)}, dropped {dropped}')
    one, two = 'server="127.0.0.1:28120"', 'server="127.0.0.1:28122"'
    for name, labels, count in [
            ('roam_realm_requests_total', [], exchanges + duplicates), ('roam_peer_requests_total', [], exchanges + duplicates),
            ('roam_realm_forwarded_total', [], exchanges), ('roam_realm_returned_total', [], answered),
            ('roam_realm_failed_over_total', [], over), ('roam_server_failed_over_total', [one], over),
            ('roam_server_taken_over_total', [two], over), ('roam_server_given_up_total', [two], given_up),
            ('roam_realm_given_up_total', [], given_up), ('roam_server_given_up_total', [one], 0),
            ('roam_refusals_total', ['number="7"'], bad), ('roam_peer_refusals_total', ['number="7"'], bad),
            ('roam_server_answer_seconds_count', [], answered), ('roam_realm_waiting_requests', [], 0),
            ('roam_server_identifiers_in_use', [], 0)]:
        counted = total(found, name, *labels)
        want(counted == count, f'{name} {" ".join(labels)} is {count}' + (f', and not {counted}' if counted != count else ''))
    twice = total(found, 'roam_realm_waiting_duplicates_total') + total(found, 'roam_realm_answered_duplicates_total')
    want(twice == duplicates, f'{duplicates} duplicates are counted')
    for place, label in enumerate([one, two]):
        to = sum(total(found, f'roam_server_{it}_total', label) for it in ('forwarded', 'sent_again', 'taken_over'))
        want(to == came[place], f'home server {place + 1} was sent {came[place]} packets')
    want(result['accept'] + result['given_up'] + dropped == exchanges, 'a line tells of each exchange, or it is counted as dropped')
    if not dropped:
        want(result['given_up'] == given_up and result['accept'] == answered, 'and of how it ended')
    realm = json.loads(server.ctl('status', '--json').stdout)['realms'][0]
    want(realm['given_up'] == given_up and realm['failed_over'] == over, '`roam ctl status --json` says so too')
    trace = server.ctl('trace', '0').stdout
    script = os.path.join(work, 'script')
    with open(script, 'w') as file:
        file.write(trace)
    status, _, _ = run(program, 'sim', server.conf, script)
    want(status == 0 and trace.count('\n') > min(exchanges, 100000), f'`roam sim` plays a trace of {trace.count(chr(10))} events')
    want('\nA ' not in server.ctl('trace', '0').stdout and server.ctl('trace', '7').returncode == 1, 'which is given once, and of shards that there are')
    server.stop()


def try_wrong_secret(program, work, flood):
    peers = [peer(f'peer{n}', f'127.1.{n // 100}.{n % 100 + 1}', SECRET.decode()) for n in range(200)]
    server = Server(program, work, *peers, a_realm(200, 0, HOMES[:1]), name='secrets')
    ends = time.monotonic() + 6
    sent = [0]

    def pour():
        one = bound(0, '127.2.0.1')
        begun = time.monotonic()
        while time.monotonic() < ends:
            for _ in range(100):
                one.sendto(b'x' * 30, AUTH)
            sent[0] += 100
            ahead = sent[0] / flood - (time.monotonic() - begun)
            if ahead > 0:
                time.sleep(ahead)

    pouring = threading.Thread(target=pour)
    pouring.start()
    peers = [bound(0, f'127.1.{number // 100}.{number % 100 + 1}') for number in range(200)]
    asked = 0
    while time.monotonic() < ends - 1:
        for number, one in enumerate(peers):
            secret = b'a-wrong-secret!!' if number == 137 else SECRET
            one.sendto(access_request(asked % 256, b'u%d@a.example' % asked, secret=secret), AUTH)
        asked += 1
        time.sleep(.2)
    pouring.join()
    server.tells('refused 7 ')
    found, log = server.counts(), server.said()
    refused = {k: v for k, v in found.items() if k.startswith('roam_peer_refusals_total') and 'number="7"' in k}
    lines = [line for line in log.splitlines() if 'refused 7 ' in line]
    print(f'      {sent[0]} datagrams in 6 s from elsewhere; refused 7: {dict(refused)}; lines {lines[:2]}')
    want(set(re.findall(r'peer="(\w+)"', ' '.join(refused))) == {'peer137'}, 'the metrics name the peer with the wrong secret, and no other')
    want(lines and all('from 127.1.1.38:' in line for line in lines), 'so does the log, by its address')
    server.stop()


def try_silent(program, work, homes):
    server, access = Server(program, work, PEER, a_realm(1500, 3000), name='silent'), AccessServer(1)
    homes[0].silent = True
    access.sockets[0].send(access_request(1, b's1@a.example'))
    # It waits for three seconds at that home server, and goes to the next one then.
    waiting, ends = [], time.monotonic() + 10
    while waiting != [1, 1] and time.monotonic() < ends:
        time.sleep(.1)
        found = server.counts()
        waiting = [total(found, *it) for it in [('roam_realm_waiting_requests',), ('roam_server_identifiers_in_use', '28120', 'auth')]]
    want(waiting == [1, 1], 'a request that waits is told of its realm, and of the endpoint at which it does')
    is_told = server.tells('home server 127.0.0.1:28120 of a.example never answered: marked dead')
    rests = server.count('roam_server_rests', '28120', 'auth')
    want(is_told and rests == 1, 'a line and a gauge for a home server that keeps silent')
    homes[0].silent = False
    time.sleep(3.2)
    access.sockets[0].send(access_request(2, b's2@a.example'))
    want(server.tells('home server 127.0.0.1:28120 of a.example answers again'), 'and a line when it answers again')
    name = b'l\n[INFO] exchange result=accept \x1b[2J"\\x22 \xff@a.example'
    access.sockets[0].send(access_request(3, name, b'a"b\nc'))
    server.tells('x1b')
    log = server.said()
    line = next(line for line in log.splitlines() if 'x1b' in line)
    value = re.search(r'user="((?:[^"\\]|\\x[0-9a-f]{2})*)" station="((?:[^"\\]|\\x[0-9a-f]{2})*)"', line)
    back = [re.sub(rb'\\x([0-9a-f]{2})', lambda m: bytes([int(m[1], 16)]), v.encode()) for v in value.groups()]
    want(back == [name, b'a"b\nc'] and all(32 <= ord(c) < 127 for c in log.replace('\n', '')), 'a hostile User-Name is one line, printable, and reads back')
    server.stop()


def ask_at_rate(access, count, rate):
    """Sends so many requests, each at its time or when fewer than 200 wait; gives how many were answered, and after how
    long the last answer of each was there at the latest."""
    begun, answered, longest, asked = time.monotonic(), 0, 0., {}
    for at in range(count):
        while at / rate > time.monotonic() - begun or len(asked) >= 200:
            for key in access.take(.005):
                if key in asked:
                    answered, longest = answered + 1, max(longest, time.monotonic() - asked.pop(key))
            if asked and time.monotonic() - next(iter(asked.values())) > 20:
                return answered, longest
        key = (at // 256 % 4, at % 256)
        access.sockets[key[0]].send(access_request(key[1], b'p%d@a.example' % at))
        asked[key] = time.monotonic()
    ends = time.monotonic() + 10
    while asked and time.monotonic() < ends:
        for key in access.take(.05):
            if key in asked:
                answered, longest = answered + 1, max(longest, time.monotonic() - asked.pop(key))
    return answered, longest


def try_full_pipe(program, work, seconds=8, rate=2000):
    reads, writes = os.pipe()
    server, access = Server(program, work, PEER, a_realm(WAIT, 0, HOMES[:1]), name='pipe', stderr=writes), AccessServer(4)
    os.close(writes)
    count = seconds * rate
    answered, longest = ask_at_rate(access, count, rate)
    time.sleep(1)
    dropped = server.count('roam_exchange_lines_lost_total')
    print(f'      {count} requests in {seconds} s with a pipe that nobody reads: {answered} answered, each within '
          f'{longest * 1000:.0f} ms, {dropped} lines dropped')
    want(answered == count and dropped > count // 2, 'nothing stalls, and the lines are counted')
    server.balances()
    ended, said = server.ctl('stop'), b''
    while True:
        piece = os.read(reads, 1 << 16)
        if not piece:
            break
        said += piece
    want(ended.returncode == 0 and server.process.wait() == 0, 'it ends with 0')
    want(said.count(b'exchange result=accept') + dropped >= count, 'each exchange was told or counted')


def main():
    program, *given = words(__doc__, 1, 4)
    with tempfile.TemporaryDirectory() as work:
        if len(given) == 3:
            HomeServer(0)
            try_full_pipe(program, work, int(given[1]), int(given[2]))
            return end()
        exchanges, flood = [int(it) for it in given] + [20000] * (2 - len(given))
        homes = [HomeServer(0), HomeServer(1)]
        try_silent(program, work, homes)
        try_full_pipe(program, work)
        try_wrong_secret(program, work, flood)
        try_counts(program, work, exchanges, homes)
    return end()


if __name__ == '__main__':
    sys.exit(main())
