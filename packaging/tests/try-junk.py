#!/usr/bin/env python3
"""try-junk.py PROGRAM

Sends a server more junk than it can read, and looks whether access servers at another address are answered meanwhile. The junk
comes from a peer, each datagram with a wrong Message-Authenticator, and from a stranger; from one port and from 64 ports of that
address; `spread` is false and true. Beside it an access server asks 300 times a second from 16 ports, each request once: one in a
thousand may be lost. Each datagram that was received has to be counted as handled in the end.

It needs no root: it makes a network of its own in a namespace of its own (unshare, ip), and says so where that can't be had,
or where there are fewer than 4 processors. It takes a minute, and prints `ok` or `BAD` for each thing that it wants; the
status is 1 where one is bad.
"""
import collections
import contextlib
import ctypes
import hashlib
import hmac
import os
import re
import select
import shutil
import socket
import struct
import subprocess
import sys
import tempfile
import threading
import time

HERE, PEER, STRANGER, AUTH, HOME, METRICS = '127.0.0.1', '127.0.0.2', '127.0.0.3', 1812, 11812, 9812
SECRET, HOME_SECRET = b'a-secret-of-nas1', b'a-secret-of-home'
CONF = f'''shards = 2
spread = {{spread}}
auth = "{HERE}:{AUTH}"
acct = "{HERE}:1813"
metrics = "{HERE}:{METRICS}"
log_exchanges = "none"

[[peer]]
name = "nas1"
ip = "{HERE}"
secret = "{SECRET.decode()}"

[[peer]]
name = "nas2"
ip = "{PEER}"
secret = "a-secret-of-nas2"

[[realm]]
name = "a.example"
out = "{HERE}:20001"
tries = 1
wait = 2000
hold = 1000
max_pending = 4096

[[realm.server]]
auth = "{HERE}:{HOME}"
acct = "{HERE}:{HOME + 1}"
secret = "{HOME_SECRET.decode()}"
'''
PORTS, RATE, SECONDS, IN_A_CALL = 16, 300, 4, 64
BAD = []


def want(holds, what):
    print('  ok ' if holds else '  BAD', what, flush=True)
    if not holds:
        BAD.append(what)


def attribute(kind, value):
    return bytes([kind, len(value) + 2]) + value


def request(number, secret, octets=0):
    """An Access-Request of so many octets at least, with a Message-Authenticator under a secret (RFC 2869, section 5.14)."""
    body = attribute(80, bytes(16)) + attribute(1, b'u%d@a.example' % number) + attribute(4, bytes([192, 0, 2, 1]))
    while octets - len(body) - 20 > 2:
        body += attribute(79, bytes(min(255, octets - len(body) - 20) - 2))
    packet = struct.pack('!BBH', 1, number % 256, 20 + len(body)) + os.urandom(16) + body
    return packet[:22] + hmac.new(secret, packet, hashlib.md5).digest() + packet[38:]


class Home(threading.Thread):
    """Accepts each Access-Request (RFC 2865, section 3)."""

    def __init__(self):
        super().__init__(daemon=True)
        self.socket = socket.socket(socket.AF_INET, socket.SOCK_DGRAM)
        self.socket.bind((HERE, HOME))

    def run(self):
        while True:
            packet, source = self.socket.recvfrom(4096)
            at, states = 20, b''
            while at + 2 <= len(packet):
                if packet[at] == 33:
                    states += packet[at:at + packet[at + 1]]
                at += max(2, packet[at + 1])
            head, body = struct.pack('!BBH', 2, packet[1], 38 + len(states)), attribute(80, bytes(16)) + states
            body = attribute(80, hmac.new(HOME_SECRET, head + packet[4:20] + body, hashlib.md5).digest()) + states
            self.socket.sendto(head + hashlib.md5(head + packet[4:20] + body + HOME_SECRET).digest() + body, source)


class Piece(ctypes.Structure):
    """An iovec, and as `Message` an mmsghdr without addresses, of sendmmsg(2)."""
    _fields_ = [('base', ctypes.c_void_p), ('length', ctypes.c_size_t)]


class Message(ctypes.Structure):
    _fields_ = [('name', ctypes.c_void_p), ('name_length', ctypes.c_uint32), ('pieces', ctypes.c_void_p), ('count', ctypes.c_size_t),
                ('control', ctypes.c_void_p), ('control_length', ctypes.c_size_t), ('flags', ctypes.c_int), ('sent', ctypes.c_uint32)]


def send_junk(kind, ports):
    """Sends junk as fast as that goes from so many ports in turn, until it is ended."""
    packets = [request(number, b'another secret', 120 if kind == 'peer' else 60) for number in range(IN_A_CALL)]
    junk = [ctypes.create_string_buffer(one, len(one)) for one in packets]
    pieces = (Piece * IN_A_CALL)(*[Piece(ctypes.addressof(one), len(one)) for one in junk])
    messages = (Message * IN_A_CALL)(*[Message(pieces=ctypes.addressof(pieces[at]), count=1) for at in range(IN_A_CALL)])
    library = ctypes.CDLL(None)
    ends = [socket.socket(socket.AF_INET, socket.SOCK_DGRAM) for _ in range(ports)]
    for one in ends:
        one.bind((PEER if kind == 'peer' else STRANGER, 0))
        one.connect((HERE, AUTH))
    while os.getppid() != 1:
        for one in ends:
            library.sendmmsg(one.fileno(), messages, IN_A_CALL, 0)


def ask(seconds):
    """Asks from all ports, and answers how many requests each port has unanswered, and all times in milliseconds, the shortest first."""
    ends = [socket.socket(socket.AF_INET, socket.SOCK_DGRAM) for _ in range(PORTS)]
    for one in ends:
        one.connect((HERE, AUTH))
        one.setblocking(False)
    asked, took, count, begin = {}, [], 0, time.monotonic()
    while asked or count < seconds * RATE:
        now = time.monotonic()
        if now > begin + seconds + 2:
            break
        if count < seconds * RATE and now >= begin + count / RATE:
            at, number = count % PORTS, count // PORTS
            asked[at, number % 256] = now
            count += 1
            with contextlib.suppress(ConnectionRefusedError):
                ends[at].send(request(number, SECRET))
            continue
        left = begin + count / RATE - now if count < seconds * RATE else .05
        for one in select.select(ends, [], [], max(0, left))[0]:
            with contextlib.suppress(ConnectionRefusedError):
                took.append((time.monotonic() - asked.pop((ends.index(one), one.recv(4096)[1]))) * 1000)
    for one in ends:
        one.close()
    return collections.Counter(at for at, _ in asked), sorted(took)


def dropped():
    """How many datagrams found the buffer of a socket at `auth` full that is read, and how many such sockets there are."""
    with open('/proc/net/udp') as file:
        rows = [row.split() for row in file.read().splitlines()[1:]]
    counts = [int(row[-1]) for row in rows if int(row[1].split(':')[1], 16) == AUTH and row[2] == '00000000:0000']
    return sum(counts), len(counts)


def counted(name):
    with socket.create_connection((HERE, METRICS), 5) as one:
        one.sendall(b'GET /metrics HTTP/1.1\r\nHost: roam\r\nConnection: close\r\n\r\n')
        text = b''
        while part := one.recv(1 << 16):
            text += part
    return sum(int(count) for count in re.findall(rb'^roam_%s_total{[^}]*} (\d+)' % name, text, re.M))


def within(took, percent):
    return took[len(took) * percent // 100] if took else 0


def try_beside(kind, ports):
    """Junk of a kind from so many ports, and requests beside it, of which one in a thousand may be lost."""
    before = dropped()[0]
    junk = subprocess.Popen([sys.executable, os.path.realpath(__file__), sys.argv[1], 'junk', kind, str(ports)])
    try:
        time.sleep(.5)
        lost, took = ask(SECONDS)
    finally:
        junk.kill()
        junk.wait()
    found_full = dropped()[0] - before
    print(f'       {found_full} datagrams found a buffer full that is read; half are answered within',
          f'{within(took, 50):.1f} ms, 99 of 100 within {within(took, 99):.1f}; unanswered by port {list(lost.values())}', flush=True)
    want(sum(lost.values()) * 1000 <= SECONDS * RATE, f'{len(took)} of {SECONDS * RATE} are answered beside junk of a {kind} from {ports} ports')


def try_served(program, spread):
    with tempfile.TemporaryDirectory() as work:
        conf = os.path.join(work, 'roam.conf')
        with open(conf, 'w') as file:
            file.write(CONF.format(spread=spread))
        server = subprocess.Popen([program, 'serve', conf], stdin=subprocess.DEVNULL, stderr=subprocess.DEVNULL)
        try:
            end = time.monotonic() + 30
            while not ask(1 / RATE)[1] and time.monotonic() < end and server.poll() is None:
                pass
            print(f'spread = {spread}, {dropped()[1]} sockets at auth', flush=True)
            lost, took = ask(1)
            want(not lost, f'alone all are answered, half within {within(took, 50):.1f} ms')
            for kind in ('peer', 'stranger'):
                for ports in (1, 64):
                    try_beside(kind, ports)
            end = time.monotonic() + 20
            while counted(b'received_datagrams') != counted(b'handled_datagrams') and time.monotonic() < end:
                time.sleep(.2)
            received, handled = counted(b'received_datagrams'), counted(b'handled_datagrams')
            want(received == handled, f'each datagram that was received is counted as handled: {received}, {handled}')
        finally:
            server.kill()
            server.wait()


def try_apart():
    """Tries all in a network of its own, and answers the status; 0 where none can be had."""
    missing = [tool for tool in ('unshare', 'ip') if not shutil.which(tool)]
    if missing or subprocess.run(['unshare', '-Urn', 'ip', 'link', 'set', 'lo', 'up'], capture_output=True).returncode:
        print('not tried: no network of its own can be had here (unshare, ip)')
        return 0
    if len(os.sched_getaffinity(0)) < 4:
        print('not tried: junk beside requests, since here are fewer than 4 processors')
        return 0
    inside = [sys.executable, os.path.realpath(__file__), os.path.realpath(sys.argv[1]), 'inside']
    return subprocess.run(['unshare', '-Urn', *inside]).returncode


def main():
    if len(sys.argv) < 2 or not os.access(sys.argv[1], os.X_OK):
        print('usage: try-junk.py PROGRAM', file=sys.stderr)
        return 2
    if sys.argv[2:3] == ['junk']:
        return send_junk(sys.argv[3], int(sys.argv[4]))
    if sys.argv[2:] != ['inside']:
        return try_apart()
    subprocess.run(['ip', 'link', 'set', 'lo', 'up'], check=True)
    Home().start()
    for spread in ('false', 'true'):
        try_served(sys.argv[1], spread)
    print('ok' if not BAD else f'BAD: {len(BAD)}')
    return 1 if BAD else 0


if __name__ == '__main__':
    sys.exit(main())
