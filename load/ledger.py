#!/usr/bin/env python3
"""What a realm's ledger of sessions costs a server, where it has one session and where it is full; with Acct-Session-Ids by
chance and with such that collide under a hash with a fixed seed, which the ledger's is not.

    load/ledger.py PROGRAM [--sessions N ..] [--id-octets N] [--count N]

It serves a configuration on loopback, and is its access servers and its home server. Each figure is processor microseconds of the
server's process for an exchange (all that an exchange costs, its system calls too), over some thousand of them; and how many octets
of memory a session took. No expected values: it measures.
"""
import argparse
import os
import pathlib
import random
import socket
import subprocess
import sys
import tempfile
import time

sys.dont_write_bytecode = True
HERE = pathlib.Path(__file__).resolve().parent
sys.path.insert(0, str(HERE.parent / "oracle"))
import packets  # noqa: E402

# A word that makes a product zero in the toolchain's fast hash, whatever stands before it.
ZEROING = (0x9E3779B97F4A7C15).to_bytes(8, "little")
AT_ONCE = 64
CONFIG = """
trace_limit = 100
auth = "127.0.0.1:18612"
acct = "127.0.0.1:18613"
[[peer]]
name = "one"
ip = "127.0.0.1"
secret = "peersecret"
coa = "127.0.0.1:18799"
nas_id = "one"
[[peer]]
name = "two"
ip = "127.0.0.2"
secret = "peersecret"
[[realm]]
name = "a.example"
out = "127.0.0.1:18620"
reverse = "127.0.0.1:18630"
own_sessions = {own}
max_sessions = 65536
hold = 0
[[realm.server]]
auth = "127.0.0.1:18650"
acct = "127.0.0.1:18651"
secret = "homesecret"
"""
START, STOP, INTERIM_UPDATE, ACCOUNTING_ON = 1, 2, 3, 7


class Server:
    """A program that serves, with an access server at each of two addresses and a home server."""

    def __init__(self, program, folder, own):
        conf = folder / "ledger.conf"
        conf.write_text(CONFIG.format(own="true" if own else "false"))
        self.process = subprocess.Popen([program, "serve", str(conf)], stdout=subprocess.DEVNULL, stderr=subprocess.PIPE)
        self.home = self.bound("127.0.0.1", 18651)
        self.asking = {ip: [self.bound(ip, 0) for _ in range(64)] for ip in ("127.0.0.1", "127.0.0.2")}
        self.sent = 0
        time.sleep(1)

    def bound(self, ip, port):
        made = socket.socket(socket.AF_INET, socket.SOCK_DGRAM)
        made.setsockopt(socket.SOL_SOCKET, socket.SO_RCVBUF, 1 << 20)
        made.bind((ip, port))
        made.settimeout(5)
        return made

    def seconds(self):
        """Processor seconds of the process so far."""
        fields = pathlib.Path(f"/proc/{self.process.pid}/stat").read_text().rsplit(")", 1)[1].split()
        return (int(fields[11]) + int(fields[12])) / os.sysconf("SC_CLK_TCK")

    def octets(self):
        """Its resident memory."""
        return int(pathlib.Path(f"/proc/{self.process.pid}/statm").read_text().split()[1]) * os.sysconf("SC_PAGE_SIZE")

    def exchange(self, ip, records):
        """Accounting-Requests, each answered by the home server and returned, so many at a time. Each record is a status and an id."""
        records = list(records)
        for begin in range(0, len(records), AT_ONCE):
            some = records[begin:begin + AT_ONCE]
            used = []
            for status, id in some:
                number, self.sent = self.sent, self.sent + 1
                at = self.asking[ip][number // 256 % len(self.asking[ip])]
                attributes = [(packets.USER_NAME, b"user@a.example"), (packets.NAS_IDENTIFIER, b"controller-7"),
                              (packets.ACCT_STATUS_TYPE, status.to_bytes(4, "big"))]
                attributes += [(packets.ACCT_SESSION_ID, id)] if id is not None else []
                at.sendto(packets.signed(4, number % 256, packets.ZEROS, attributes, b"peersecret"), ("127.0.0.1", 18613))
                used.append(at)
            for _ in some:
                octets, source = self.home.recvfrom(4096)
                request = packets.Packet(octets)
                passed = [(packets.PROXY_STATE, value) for value in request.values(packets.PROXY_STATE)]
                self.home.sendto(packets.signed(5, request.id, request.authenticator, passed, b"homesecret"), source)
            for at in used:
                at.recv(4096)

    def cost(self, ip, records):
        """Processor microseconds of an exchange."""
        records = list(records)
        before = self.seconds()
        self.exchange(ip, records)
        return (self.seconds() - before) * 1e6 / len(records)

    def end(self):
        self.process.kill()
        self.process.wait()
        for it in [self.home] + self.asking["127.0.0.1"] + self.asking["127.0.0.2"]:
            it.close()


def ids_of(kind, octets):
    """Ids that no two have in common, of so many octets."""
    chance = random.Random(7)
    for number in range(1 << 20):
        front = b"%08d" % number
        if kind == "colliding":
            yield front + b"-" * (octets - 16) + ZEROING
        else:
            yield front + bytes(chance.randrange(33, 127) for _ in range(octets - 8))


def measure(program, folder, kind, own, sessions, count, octets):
    server = Server(program, folder, own)
    try:
        ids = ids_of(kind, octets)
        server.exchange("127.0.0.1", [(START, next(ids)) for _ in range(256)])
        server.exchange("127.0.0.1", [(ACCOUNTING_ON, None)])
        before = server.octets()
        kept = [next(ids) for _ in range(sessions)]
        last = min(count, sessions)
        server.exchange("127.0.0.1", [(START, id) for id in kept[:-last]])
        start = server.cost("127.0.0.1", [(START, id) for id in kept[-last:]]) if sessions > 1 else None
        took = (server.octets() - before) / sessions if sessions > 1 else None
        update = server.cost("127.0.0.1", [(INTERIM_UPDATE, kept[-1 - i % last]) for i in range(count)])
        clear = server.cost("127.0.0.2", [(ACCOUNTING_ON, None) for _ in range(count)])
        stop = server.cost("127.0.0.1", [(STOP, id) for id in reversed(kept[-last:])]) if sessions > 1 else None
        return start, update, clear, stop, took
    finally:
        server.end()


def main():
    parser = argparse.ArgumentParser(description=__doc__, formatter_class=argparse.RawDescriptionHelpFormatter)
    parser.add_argument("program")
    parser.add_argument("--sessions", type=int, nargs="+", default=[1, 20000, 65536])
    parser.add_argument("--id-octets", type=int, default=24)
    parser.add_argument("--count", type=int, default=4000)
    given = parser.parse_args()
    print(f"Ids of {given.id_octets} octets; {given.count} exchanges for each figure, in processor microseconds of the server.\n")
    print("| own_sessions | ids | sessions | Start | Interim-Update | Accounting-On of another peer | Stop | octets a session |")
    print("|---|---|---|---|---|---|---|---|")
    with tempfile.TemporaryDirectory() as folder:
        for own in (True, False):
            for kind in ("chance", "colliding"):
                for sessions in given.sessions:
                    figures = measure(os.path.abspath(given.program), pathlib.Path(folder), kind, own, sessions, given.count,
                                      given.id_octets)
                    shown = ["" if it is None else f"{it:.0f}" if at == 4 else f"{it:.1f}" for at, it in enumerate(figures)]
                    print(f"| {'yes' if own else 'no'} | {kind} | {sessions} | {' | '.join(shown)} |", flush=True)


if __name__ == "__main__":
    main()
