#!/usr/bin/env python3
"""try-in-front.py PROGRAM

Puts others in front of `roam serve` by the samples of packaging/samples/tls, in a network of its own: the package's FreeRADIUS, which has TLS on
both sides; then haproxy with the package's radsecproxy for each peer, and `roam streams` toward the home server. Of each it looks at logins by
PAP and by EAP-TTLS, accounting, from which peer the proxy has a certificate's requests, 256 requests in flight, a certificate of no peer, a
revoked one and none, and a home server whose certificate has another name.

It needs haproxy, radsecproxy, freeradius, openssl, unshare and ip, and no root where users may have networks of their own.
"""
import importlib
import os
import re
import subprocess
import sys
import tempfile
import time

sys.dont_write_bytecode = True
import eap_ttls
from around import Around, command, in_own_network
from looks import BAD, changed, end, go_on, over_lines, want, words
from radius import asked, bound, heard, packets
from stream_ends import SECRET, Home, access, accounting, answer, answers
from stream_tls import SAMPLES, client, home_context, make_certificates, placed

FRONT, AT_HOME = ("127.0.0.1", 2083), "127.0.4.1"
# The certificates of two peers, a revoked one, and one of no peer.
UNIVERSITY, COLLEGE, REVOKED, STRANGER = "proxy1.university.example", "proxy1.college.example", "proxy2.university.example", "stranger.example"
NAMES = ("radius.roam.example", "radius.home.example", "radius.other.example", UNIVERSITY, COLLEGE, REVOKED, STRANGER)
# A home server by TLS that looks at passwords, and signs its replies as the sample's `require_seal` wants it.
HOME = """
modules {{
  eap {{
    default_eap_type = ttls
    tls-config common {{ private_key_file = {0}/radius.home.example.key; certificate_file = {0}/radius.home.example.crt; ca_file = {0}/ca.pem; tls_max_version = "1.2" }}
    ttls {{ tls = common; virtual_server = "inner" }}
  }}
  pap {{ }}
  always ok {{ rcode = ok }}
}}
clients radsec {{
  client everybody {{ ipaddr = 127.0.0.0/8; proto = tls; secret = radsec }}
}}
server default {{
  listen {{
    type = auth+acct
    ipaddr = 127.0.4.1
    port = 2083
    proto = tcp
    clients = radsec
    tls {{ private_key_file = {0}/radius.home.example.key; certificate_file = {0}/radius.home.example.crt; ca_file = {0}/ca.pem; require_client_cert = yes; fragment_size = 8192; tls_max_version = "1.2" }}
  }}
  authorize {{
    eap {{ ok = return }}
    update control {{ Cleartext-Password := "a password" }}
    pap
  }}
  authenticate {{ pap; eap }}
  accounting {{ ok }}
  post-auth {{
    update reply {{ Message-Authenticator := 0x00 }}
    Post-Auth-Type REJECT {{
      update reply {{ Message-Authenticator := 0x00 }}
    }}
  }}
}}
server inner {{
  authorize {{
    update control {{ Cleartext-Password := "a password" }}
    pap
  }}
  authenticate {{ pap }}
}}
"""


def sample(name, folder):
    """The text of a sample, with the trial's folder, and addresses of this machine for the front and the home server."""
    with open(os.path.join(SAMPLES, name), encoding="utf-8") as file:
        text = placed(file.read(), folder)
    text = re.sub(r"(ipaddr = |server home )radius\.home\.example", rf"\g<1>{AT_HOME}", text)
    return re.sub(r"ipaddr = \*(?=\n +port = 2083)", f"ipaddr = {FRONT[0]}", text.replace("bind :2083", f"bind {FRONT[0]}:2083"))


def for_another(text):
    """The text of a peer for another one: its name, its certificate, its addresses."""
    return changed(text.replace("university", "college"), re.compile(r"\b(127\.[01]\.\d+)\.7\b"), r"\1.8")


def broker(around, program):
    """Starts the proxy of the sample, with another peer beside that of the sample."""
    conf = changed(sample("roam.conf", around.directory), re.compile("^control = .*\n", re.M), "")
    block = re.search(r"^\[\[peer\]\]\n(?:.+\n)+", conf, re.M)[0]
    around.broker(program, changed(conf, block, block + "\n" + for_another(block)), 600000)
    around.server.waits_for()


def freeradius(around):
    """Starts the FreeRADIUS of the sample, with what it has for a peer once more for another one."""
    text = sample("freeradius-in-front.conf", around.directory)
    part = text[text.index("# For each peer"):text.index("# For each home server")]
    around.freeradius("front", text + for_another(part), proxies="yes")


def radsecproxy(around):
    """Starts the radsecproxy of the sample, another one, haproxy before them, and `roam streams` behind the proxy."""
    folder = around.directory
    text = sample("radsecproxy-in-front.conf", folder)
    for name, conf in (("university", text), ("college", for_another(text))):
        around.start(name, [command("radsecproxy"), "-f", "-c", around.write(f"{name}.conf", conf), "-i", around.path(f"{name}.pid")])
    around.start("streams", [around.server.program, "streams", around.write("streams.conf", sample("streams.conf", folder)), "600000"])
    around.write("names.map", sample("names.map", folder) + f"{COLLEGE} college\n")
    front = changed(sample("haproxy.cfg", folder), "    user haproxy\n    group haproxy\n", "")
    line = re.search(r"^    server university .*\n", front, re.M)[0]
    at_peer = changed(line, "127.0.0.1:12083", "127.0.10.7:2083")
    around.start("haproxy", [command("haproxy"), "-db", "-f", around.write("haproxy.cfg", changed(front, line, at_peer + for_another(at_peer)))])


class Peer:
    """A RADIUS client with a certificate, whose requests go one by one."""

    def __init__(self, folder, name):
        self.number, self.stream = 0, client(folder, name, FRONT)

    def next(self):
        self.number = (self.number + 1) % 256
        return self.number

    def ask(self, octets, seconds=12.0):
        """The packet that answers a request, or nothing."""
        if self.stream is None:
            return None
        try:
            self.stream.send(octets)
            while (packet := self.stream.packet(seconds)) and packet.id != octets[1]:
                pass
            return packet
        except OSError:
            return None

    def code(self, octets, seconds=12.0):
        packet = self.ask(octets, seconds)
        return packet and packet.code

    def login(self, user, seconds=12.0, password=b"a password"):
        return self.code(access(self.next(), os.urandom(8), user, password=password), seconds)


def serves(folder, seconds=40):
    """Whether a peer's login is accepted within so many seconds: a front leaves a home server alone for a while when it wasn't there."""
    until = time.monotonic() + seconds
    while time.monotonic() < until:
        if Peer(folder, UNIVERSITY).login(b"first@home.example", 3) == packets.ACCESS_ACCEPT:
            return True
        time.sleep(0.2)
    return False


def exchanges(around, name, certificate):
    """Logins and accounting by a peer's certificate. Returns its connection."""
    one, user = Peer(around.directory, certificate), f"u-of-{name}@home.example".encode()
    want(one.stream is not None, f"a connection by {certificate}")
    for password, code in ((b"a password", packets.ACCESS_ACCEPT), (b"another", packets.ACCESS_REJECT)):
        got = one.login(user, password=password)
        want(got == code, f"{name}: a login by PAP with {password.decode()!r}: {got}")
        got = eap_ttls.Login(one.ask, user, password, around.path("ca.pem"), SECRET).code()
        want(got == code, f"{name}: a login by EAP-TTLS with {password.decode()!r}: {got}")
    got = one.code(accounting(one.next(), b"s-of-" + name.encode(), user))
    want(got == packets.ACCOUNTING_RESPONSE, f"{name}: accounting: {got}")
    until, told = time.monotonic() + 5, []
    while len(told) < 3 and time.monotonic() < until:
        time.sleep(0.05)
        told = [line for line in around.log("broker").splitlines() if f'user="{user.decode()}"' in line]
    of_it = sum(f'peer="{name}"' in line for line in told)
    want(of_it == len(told) == 3, f"{name}: the proxy has {of_it} of {len(told)} requests from that peer")
    return one


def strangers(around, code):
    """Certificates by which no request comes to the proxy: one of no peer gets this code, others nothing."""
    one, user = Peer(around.directory, STRANGER), b"stranger@home.example"
    got = (one.login(user, 5), one.code(accounting(one.next(), b"of nobody", user), 2))
    want(got == (code, None), f"a certificate of no peer: {got}")
    for what, name in (("a revoked certificate", REVOKED), ("a peer's name by another authority", "foreign"), ("no certificate", None)):
        got = Peer(around.directory, name).login(user, 5)
        want(got is None, f"{what}: {got}")
    want("stranger@" not in around.log("broker"), "nothing of these comes to the proxy")


def at_once(around):
    """A peer has 256 logins at one time, and the FreeRADIUS behind accepts them: in TLS this front puts each packet in a record of its own."""
    one, begun, got = Peer(around.directory, UNIVERSITY), time.monotonic(), set()
    for number in range(256):
        one.stream.send(access(number, b"at once", b"u%d@home.example" % number))
    while len(got) < 256 and (packet := one.stream.packet(20)) and packet.code == packets.ACCESS_ACCEPT:
        got.add(packet.id)
    want(len(got) == 256, f"{len(got)} of 256 logins at once are accepted, within {time.monotonic() - begun:.1f} s")
    # FreeRADIUS takes 16 unless it is told otherwise, of all clients by TLS together.
    many = [Peer(around.directory, UNIVERSITY) for _ in range(64)]
    good = sum(it.login(b"one of many@home.example") == packets.ACCESS_ACCEPT for it in many)
    want(good == 64, f"{good} of 64 connections at once have a login")


def of_freeradius(around):
    """64 logins at once of a client that is a FreeRADIUS: it too has each reply in a record of its own."""
    text = importlib.import_module("try-tls").COLLEGE.replace("proxy.college.example", COLLEGE)
    around.freeradius("college", text.format(around.directory), proxies="yes")
    to, got = ("127.0.3.2", 1812), set()
    want(asked(access(0, b"first", b"u@home.example"), to, "127.0.3.9", 1, 20), "a login of a FreeRADIUS")
    with bound(0, "127.0.3.9", 10) as nas:
        for number in range(64):
            nas.sendto(access(number, b"at once", b"u%d@home.example" % number), to)
        while len(got) < 64 and (octets := heard(nas)[0]) and octets[0] == packets.ACCESS_ACCEPT:
            got.add(octets[1])
    want(len(got) == 64, f"{len(got)} of 64 at once are accepted")


def in_flight(around):
    """A peer's connection has 256 requests waiting at a home server, which then answers all of them."""
    home, one = Home((AT_HOME, 2083), home_context(around.directory, "radius.home.example")), Peer(around.directory, UNIVERSITY)
    begun, waiting = time.monotonic(), {}
    for number in range(256):
        # Each in a TLS record of its own, and so are the answers: FreeRADIUS 3.2.1 wants that.
        one.stream.send(access(number, b"in flight", b"u%d@home.example" % number))
    while len(waiting) < 256 and time.monotonic() < begun + 30:
        time.sleep(0.05)
        waiting = {packet.first(1): (number, packet) for _, number, packet in list(home.came)}
    want(len(waiting) == 256, f"{len(waiting)} of 256 requests wait at the home server, within {time.monotonic() - begun:.1f} s")
    for number, packet in waiting.values():
        home.streams[number].outbox.append(answer(packet))
    begun, got = time.monotonic(), set()
    while len(got) < 256 and (packet := one.stream.packet(20)) and packet.code == packets.ACCESS_ACCEPT:
        got.add(packet.id)
    want(len(got) == 256, f"{len(got)} of 256 are answered, within {time.monotonic() - begun:.1f} s")
    home.close()


def another_home(around):
    """A home server whose certificate has another name is dialed, and gets nothing; then the right one is there again."""
    home, one = Home((AT_HOME, 2083), home_context(around.directory, "radius.other.example")), Peer(around.directory, UNIVERSITY)
    until, got = time.monotonic() + 30, set()
    while not home.dialed and time.monotonic() < until:
        got.add(one.login(b"u@home.example", 3))
    time.sleep(1)
    want(home.dialed and not home.came and packets.ACCESS_ACCEPT not in got,
         f"a home server by another name: dialed {home.dialed} times, {len(home.came)} requests came, answers {got}")
    home.close()
    home = Home((AT_HOME, 2083), home_context(around.directory, "radius.home.example"))
    home.clear(answers)
    want(serves(around.directory), "the right one is dialed again")
    home.close()


def two_in_a_record(around):
    """What docs/TLS.md says of FreeRADIUS 3.2.1: two packets in one TLS record end a connection. Another one may take them."""
    if "FreeRADIUS Version 3.2.1," in subprocess.run([command("freeradius"), "-v"], capture_output=True, text=True, check=False).stdout:
        one = Peer(around.directory, UNIVERSITY)
        one.stream.send(access(1) + access(2))
        want(one.stream.ends(5), "two packets in one TLS record end the connection")


def tried(program, front, begin, code):
    """Tries one front, with all that is around it; `code` is what a certificate of no peer gets."""
    print(f"{front}:", flush=True)
    with tempfile.TemporaryDirectory() as folder:
        around, ended = Around(folder), []
        try:
            make_certificates(folder, NAMES, (REVOKED,))
            both = subprocess.run(["cat", "ca.pem", "crl.pem"], cwd=folder, capture_output=True, text=True, check=True).stdout
            around.write("ca_and_crl.pem", both)
            around.freeradius("home", HOME.format(folder))
            broker(around, program)
            begin(around)
            want(serves(folder), "it takes a peer's connection")
            for name, certificate in (("college", COLLEGE), ("university", UNIVERSITY)):
                exchanges(around, name, certificate)
            strangers(around, code)
            if "front" in around.running:
                at_once(around)
                of_freeradius(around)
            home = around.running["home"]
            around.kill("home")
            home.wait()
            in_flight(around)
            another_home(around)
            if "front" in around.running:
                two_in_a_record(around)
            ended = around.close()
            want(not ended, "all of them still serve" + "".join(f", but not {it}" for it in ended))
        finally:
            around.close()
            if BAD or sys.exc_info()[0]:
                around.tell()


def main():
    [program] = words(__doc__)
    in_own_network(__file__, program)
    go_on()
    tried(program, "FreeRADIUS on both sides", freeradius, packets.ACCESS_REJECT)
    tried(program, "haproxy and radsecproxy, and `roam streams` behind", radsecproxy, None)
    return end()


if __name__ == "__main__":
    sys.exit(main())
