#!/usr/bin/env python3
"""tls.py PROGRAM [CONNECTIONS OUTSTANDING SECONDS ROUNDS]

What a login over TLS costs: haproxy and `roam streams` before `roam serve`, and a radsecproxy before it that ends the same TLS, in turn,
so often (3). Each time so many connections (8) of one certificate have so many logins waiting (8), each answer bringing the next one, for
so many seconds (10); the home server is by UDP. Prints for each round the logins a second, and the processor time of a login in each program.

It needs haproxy, radsecproxy, openssl, unshare and ip; all of it is in a network of its own.
"""
import multiprocessing
import os
import select
import ssl
import subprocess
import sys
import tempfile
import time

sys.dont_write_bytecode = True
sys.path.insert(0, os.path.join(os.path.dirname(os.path.abspath(__file__)), "..", "packaging", "tests"))
from around import Around, command  # noqa: E402
from looks import over_lines  # noqa: E402
from radius import access_with_password, answer, bound, packets  # noqa: E402
from server import configuration, peer, places, processor_time, realm  # noqa: E402
from stream_ends import SECRET  # noqa: E402
from stream_tls import client, make_certificates  # noqa: E402

FRONT, PROXY, AUTH, HOME, OUT = ("127.0.0.1", 2083), ("127.0.7.1", 2083), 1812, 11812, 20001
NAMES = ("radius.roam.example", "proxy.university.example")
STREAMS = """take = ["127.0.0.1:12083"]
auth = "127.0.0.1:1812"
acct = "127.0.0.1:1813"
most_of_one = 256
"""
HAPROXY = """global
    maxconn 1024
defaults
    mode tcp
    timeout connect 5s
    timeout client 1h
    timeout server 1h
frontend radsec
    bind 127.0.0.1:2083 ssl crt {0}/own.pem ca-file {0}/ca.pem verify required ssl-min-ver TLSv1.2
    default_backend peers
backend peers
    server university 127.0.0.1:12083 source 127.1.0.7
"""
RADSECPROXY = r"""ListenTLS 127.0.7.1:2083
SourceUDP 127.0.7.1
LogLevel 4
tls default { CACertificateFile {0}/ca.pem; CertificateFile {0}/radius.roam.example.crt; CertificateKeyFile {0}/radius.roam.example.key }
client university { host 127.0.0.0/8; type tls; secret radsec; certificateNameCheck off }
server roam { host 127.0.0.1; type udp; port 1812; secret radsec }
realm * { server roam }
"""


def serve_home():
    """A home server that answers each datagram at once."""
    here = bound(HOME)
    while True:
        octets, source = here.recvfrom(4096)
        here.sendto(answer(packets.ACCESS_ACCEPT, octets, SECRET), source)


class Load:
    """Connections on each of which so many logins wait."""

    def __init__(self, folder, to, connections, outstanding):
        self.streams = [client(folder, NAMES[1], to) for _ in range(connections)]
        self.outstanding, self.answered, self.numbers = outstanding, 0, [0] * connections
        for stream in self.streams:
            stream.connection.setblocking(False)

    def send(self, nth):
        number = self.numbers[nth] = (self.numbers[nth] + 1) % 256
        self.streams[nth].connection.sendall(access_with_password(number, b"u@a.example", SECRET))

    def receive(self, nth):
        """Takes what came, and sends as many logins more."""
        stream = self.streams[nth]
        try:
            while more := stream.connection.recv(65536):
                stream.rest += more
        except (ssl.SSLWantReadError, BlockingIOError):
            pass
        while len(stream.rest) >= 4 and len(stream.rest) >= (size := int.from_bytes(stream.rest[2:4], "big")):
            self.answered += stream.rest[0] == packets.ACCESS_ACCEPT
            stream.rest = stream.rest[size:]
            self.send(nth)

    def run(self, seconds):
        """Returns how many logins were accepted."""
        of = {stream.connection: nth for nth, stream in enumerate(self.streams)}
        for nth in of.values():
            for _ in range(self.outstanding):
                self.send(nth)
        until = time.monotonic() + seconds
        while time.monotonic() < until:
            for connection in select.select(list(of), [], [], 0.1)[0]:
                self.receive(of[connection])
        for stream in self.streams:
            stream.close()
        return self.answered


def start(around, program):
    folder = around.directory
    make_certificates(folder, NAMES, ())
    around.broker(program, configuration(peer("streams", "127.1.0.7", "radsec"), peer("radsecproxy", "127.0.7.1", "radsec"),
                                         realm("a.example", {**places(HOME), "secret": "radsec"}, out=[f"127.0.0.1:{OUT + nth}" for nth in range(8)]),
                                         log_exchanges="none", shards=1, **places(AUTH)), 3600000)
    around.server.waits_for()
    around.start("streams", [program, "streams", around.write("streams.conf", STREAMS), "3600000"])
    around.start("haproxy", [command("haproxy"), "-db", "-f", around.write("haproxy.cfg", HAPROXY.format(folder))])
    path = around.write("radsecproxy.conf", over_lines(RADSECPROXY.replace("{0}", folder), 4))
    around.start("radsecproxy", [command("radsecproxy"), "-f", "-c", path, "-i", around.path("radsecproxy.pid")])
    for to in (FRONT, PROXY):
        until = time.monotonic() + 20
        while (stream := client(folder, NAMES[1], to)) is None and time.monotonic() < until:
            time.sleep(0.1)
        if stream:
            stream.close()


def main():
    program, *more = sys.argv[1:]
    connections, outstanding, seconds, rounds = (int(more[nth]) if len(more) > nth else usual for nth, usual in enumerate((8, 8, 10, 3)))
    if "ROAM_OWN_NETWORK" not in os.environ:
        net = ["unshare", *(["-n"] if os.getuid() == 0 else ["-rn"]), "sh", "-c", "ip link set lo up; exec \"$@\"", "sh", sys.executable,
               os.path.abspath(__file__), os.path.abspath(program), *more]
        return subprocess.run(net, env={**os.environ, "ROAM_OWN_NETWORK": "1"}, check=False).returncode
    home = multiprocessing.Process(target=serve_home, daemon=True)
    home.start()
    with tempfile.TemporaryDirectory() as directory:
        around = Around(directory)
        try:
            start(around, program)
            for _ in range(rounds):
                for to, names in ((FRONT, ("haproxy", "streams", "broker")), (PROXY, ("radsecproxy", "broker"))):
                    load = Load(directory, to, connections, outstanding)
                    before = [processor_time(around.running[name].pid) for name in names]
                    answered = load.run(seconds)
                    used = [processor_time(around.running[name].pid) - was for name, was in zip(names, before)]
                    print(f"{answered / seconds:.0f} logins a second: " + ", ".join(f"{name} {time_of / max(1, answered) * 1e6:.0f} us" for name, time_of in zip(names, used)),
                          flush=True)
        finally:
            around.close()
            home.terminate()
    return 0


if __name__ == "__main__":
    sys.exit(main())
