#!/usr/bin/env python3
"""try-blocked.py PROGRAM

Has sockets take no packet, in three ways. It prints `ok` or `BAD` for each thing that it wants; the status is 1 where one is bad.
It needs no root, and says what it leaves out where a tool isn't there.

blocked: the socket of one realm has no room, and another realm of the same worker goes on: its packets are lost by nobody, and
no processor is used up. What leaves realm a's socket lies in a queue of the kernel that lets 1,000 bits a second through
(tc-tbf(8)), and so stays charged to that socket. It makes a network of its own in a namespace of its own (unshare, ip, tc).

unwatched: each second packet finds no room (EAGAIN), and the system can't tell when there is some, since it watches no more
descriptors (ENOSPC; strace(1) injects both). Each exchange has to end long before the second in which a worker looks by itself.

interrupted: each second call that sends fails by a signal (EINTR), or for want of memory in the system (ENOBUFS). No packet is lost.
"""
import contextlib
import os
import shutil
import subprocess
import sys
import tempfile
import threading
import time
import urllib.request

sys.dont_write_bytecode = True
from looks import end, go_on, want, words
from radius import HERE, HomeServer, access, bound, heard
from server import Server, configuration, counts_of, peer, places, processor_time, realm, total, want_balance

SLOW, BEYOND = '10.9.9.1', '10.9.9.2'
TEXT = configuration(
    peer('nas1', require_seal=False),
    realm('a.example', {'auth': f'{BEYOND}:1812', 'acct': f'{BEYOND}:1813'}, out=f'{SLOW}:20001', tries=1, wait=100, hold=1000, max_pending=4096),
    realm('b.example', 11812, out=f'{HERE}:20002', tries=1, wait=2000, hold=1000, max_pending=4096),
    shards=1, **places(1812), metrics=f'{HERE}:9812', log_exchanges='none')
# Realm a's socket has a device of its own; the other end of it takes nothing that the queue doesn't let through.
NETWORK = f'''ip link set lo up
ip link add slow type veth peer name beyond
ip addr add {SLOW}/24 dev slow
ip link set slow up
ip link set beyond up
ip neigh add {BEYOND} lladdr 02:00:00:00:00:02 dev slow
tc qdisc add dev slow root tbf rate 1kbit burst 1540 limit 100mb'''
# How often it is asked in realm a, and in realm b, each second.
RATE, BESIDE = 150, 25


class Flood(threading.Thread):
    """Asks in realm a so often a second, until it is told to end."""

    def __init__(self, rate):
        super().__init__(daemon=True)
        self.rate, self.sent, self.is_over = rate, 0, threading.Event()

    def run(self):
        sockets = [bound() for _ in range(16)]
        begin = time.monotonic()
        while not self.is_over.is_set():
            while self.sent < (time.monotonic() - begin) * self.rate:
                sockets[self.sent // 256 % 16].sendto(access(self.sent % 256, b'u%d@a.example' % self.sent), (HERE, 1812))
                self.sent += 1
            time.sleep(.002)


def answered(count, rate):
    """Asks so often in realm b, and answers how many are answered, and the longest time that an answer took in milliseconds."""
    with contextlib.closing(bound(seconds=1)) as one:
        one.connect((HERE, 1812))
        done, longest = 0, 0
        for number in range(count):
            if number - done > 20:
                break
            begin, octets = time.monotonic(), b''
            with contextlib.suppress(ConnectionRefusedError):
                one.send(access(number % 256, b'v%d@b.example' % number))
                while octets is not None and octets[1:2] != bytes([number % 256]):
                    octets, _ = heard(one)
            done += bool(octets)
            took = time.monotonic() - begin
            longest = max(longest, took * 1000)
            time.sleep(max(0, 1 / rate - took))
        return done, longest


def page():
    with urllib.request.urlopen(f'http://{HERE}:9812/metrics', timeout=5) as opened:
        return opened.read().decode()


def lost(**labels):
    """How many packets were lost, for each cause or for one."""
    return total(counts_of(page()), 'roam_lost_packets_total', **labels)


@contextlib.contextmanager
def served(program):
    """The program, while it serves, and realm b's home server."""
    HomeServer(11812, b'a-secret-of-home')
    with tempfile.TemporaryDirectory() as work, Server(program, work, TEXT, control=False) as server:
        until = time.monotonic() + 60
        while answered(1, 5)[0] == 0 and time.monotonic() < until and server.process.poll() is None:
            pass
        want(answered(10, 10)[0] == 10, 'realm b is answered')
        yield server.process
        want_balance(page)


def try_blocked(program):
    with served(program) as process:
        flood = Flood(RATE)
        flood.start()
        until = time.monotonic() + 60
        while lost(cause='full_ring') == 0 and time.monotonic() < until:
            time.sleep(.5)
        before, began = processor_time(process.pid), time.monotonic()
        done, longest = answered(125, BESIDE)
        used = (processor_time(process.pid) - before) / (time.monotonic() - began)
        flood.is_over.set()
        want(lost(cause='full_ring') > 0, f"realm a's socket has no room: {lost(cause='full_ring')} of {flood.sent} packets are lost")
        want(done == 125, f'of realm b {done} of 125 are answered, {longest:.0f} ms at most')
        want(used < .6, f'{used * 100:.0f} % of a processor')


@contextlib.contextmanager
def failing(process, *faults):
    """Has calls of a server fail meanwhile. Answers whether that can be had."""
    line = [word for fault in ('trace=sendto,epoll_ctl', *faults) for word in ('-e', fault)]
    tracer = subprocess.Popen(['strace', '-f', '-p', str(process.pid), *line], stderr=subprocess.PIPE, text=True)
    try:
        is_there = 'attached' in tracer.stderr.readline()
        threading.Thread(target=tracer.stderr.read, daemon=True).start()
        if not is_there:
            print('not tried: strace may not trace here')
        yield is_there
    finally:
        tracer.terminate()
        tracer.wait()


def try_unwatched(program):
    with served(program) as process:
        with failing(process, 'inject=sendto:error=EAGAIN:when=1+2', 'inject=epoll_ctl:error=ENOSPC') as is_there:
            if not is_there:
                return
            asked = [answered(1, 1000) for _ in range(11)]
        took = sorted(longest for done, longest in asked if done)
        want(len(took) == len(asked), f'{len(took)} of {len(asked)} are answered within a second')
        want(took[5:] and took[5] < 200, f'half of them within {(took[5:] or [0])[0]:.0f} ms')


def try_interrupted(program):
    with served(program) as process:
        for fault in ('EINTR', 'ENOBUFS'):
            with failing(process, f'inject=sendto:error={fault}:when=1+2') as is_there:
                if not is_there:
                    return
                done = sum(answered(1, 1000)[0] for _ in range(5))
            want(done == 5, f'{fault} at each second call: {done} of 5 are answered')
        want(lost() == 0, f'{lost()} packets are lost')


LOOPBACK = f'ip link set lo up\nip addr add {SLOW}/24 dev lo'
# Each case, the tools that it needs, and its network.
CASES = {'blocked': (try_blocked, 'unshare ip tc', NETWORK), 'unwatched': (try_unwatched, 'unshare ip strace', LOOPBACK),
         'interrupted': (try_interrupted, 'unshare ip strace', LOOPBACK)}


def try_apart(program, case):
    """Tries a case in a network of its own, and answers its status; 0 where none can be had."""
    missing = [tool for tool in CASES[case][1].split() if not shutil.which(tool)]
    if missing or subprocess.run(['unshare', '-Urn', 'ip', 'link', 'add', 'x', 'type', 'veth'], capture_output=True).returncode:
        print(f'not tried: {case}:', f"{', '.join(missing)} isn't installed" if missing else 'no network of its own can be had here')
        return 0
    return subprocess.run(['unshare', '-Urn', sys.executable, os.path.realpath(__file__), program, case]).returncode


def main():
    program, *case = words(__doc__, 1, 2)
    go_on()
    if not case:
        return max([try_apart(program, it) for it in CASES])
    run, _, network = CASES[case[0]]
    for line in network.splitlines():
        subprocess.run(line.split(), check=True)
    run(program)
    return end(case[0])


if __name__ == '__main__':
    sys.exit(main())
