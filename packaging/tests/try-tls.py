#!/usr/bin/env python3
"""try-tls.py PROGRAM [SECONDS]

Puts the packages haproxy, radsecproxy and FreeRADIUS round `roam streams` and `roam serve`, by TLS on both sides, in a network of its own;
haproxy.cfg, names.map, streams.conf and roam.conf are what from-radsecproxy.py makes of a radsecproxy.conf. Logins by PAP and by EAP-TTLS and
accounting, from radsecproxy and FreeRADIUS to these two as home servers, a Status-Server, a Disconnect from a home server; then logins while
haproxy gets another certificate and is loaded anew, while the broker is started anew, and while a home server ends its connections with 100
requests waiting; and one login after the other beside a peer that floods, and one that reads nothing, for so many seconds each (10).

It needs haproxy, radsecproxy, freeradius, openssl, unshare and ip, and no root where users may have networks of their own.
"""
import os
import re
import signal
import socket
import subprocess
import sys
import tempfile
import threading
import time

sys.dont_write_bytecode = True
import eap_ttls
from around import Around, command, in_own_network
from looks import BAD, changed, end, go_on, over_lines, want, words
from radius import bound, packets
from stream_ends import SECRET, Home, Stream, access, accounting, answer, answers, answers_at_length
from stream_tls import client, comes, home_context, make_certificates, openssl, wait_for_front

HERE = os.path.dirname(os.path.abspath(__file__))
CONVERTER = os.path.join(os.path.dirname(HERE), "installed", "from-radsecproxy.py")
FRONT, CONTROLLER = ("127.0.0.1", 2083), ("127.1.0.3", 3799)
NAMES = ("radius.roam.example", "proxy.university.example", "proxy.college.example", "proxy.probe.example", "proxy.idle.example",
         "radius.home.example", "radius.direct.example", "radius.python.example")
# The proxy that roam takes the place of. Its clients and servers are told by their certificates alone.
BEFORE = r"""ListenTLS 127.0.0.1:2083
tls default { CACertificateFile ca.pem; CertificateFile own.pem; CertificateKeyFile own.pem }
client university { host 127.0.3.1; type tls; certificateNameCheck off; matchCertificateAttribute CN:/^proxy\.university\.example$/ }
client college { host 127.0.3.2; type tls; certificateNameCheck off; matchCertificateAttribute CN:/^proxy\.college\.example$/ }
client probe { host 127.0.3.3; type tls; certificateNameCheck off; matchCertificateAttribute CN:/^proxy\.probe\.example$/ }
client idle { host 127.0.3.4; type tls; certificateNameCheck off; matchCertificateAttribute CN:/^proxy\.idle\.example$/ }
server home { host 127.0.4.1; type tls; matchCertificateAttribute CN:/^radius\.home\.example$/; retryInterval 1; retryCount 8 }
server direct { host 127.0.5.1; type tls; matchCertificateAttribute CN:/^radius\.direct\.example$/; retryInterval 1; retryCount 8 }
server python { host 127.0.6.1; type tls; matchCertificateAttribute CN:/^radius\.python\.example$/; retryInterval 1; retryCount 8 }
realm home.example { server home; accountingServer home }
realm direct.example { server direct; accountingServer direct }
realm a.example { server python; accountingServer python }
"""
# A radsecproxy before the front, and one before a home server's FreeRADIUS.
UNIVERSITY = r"""ListenUDP 127.0.3.1:1812
ListenUDP 127.0.3.1:1813
SourceUDP 127.0.3.1
LogLevel 2
tls default { CACertificateFile {0}/ca.pem; CertificateFile {0}/proxy.university.example.crt; CertificateKeyFile {0}/proxy.university.example.key }
client nas { host 127.0.3.9; type udp; secret radsec }
server front { host 127.0.0.1; type tls; secret radsec; certificateNameCheck off; matchCertificateAttribute CN:/^radius\.roam\.example$/; statusServer on }
realm * { server front; accountingServer front }
"""
OF_HOME = r"""ListenTLS 127.0.4.1:2083
SourceUDP 127.0.4.1
LogLevel 2
tls default { CACertificateFile {0}/ca.pem; CertificateFile {0}/radius.home.example.crt; CertificateKeyFile {0}/radius.home.example.key }
client roam { host 127.0.0.0/8; type tls; secret radsec; certificateNameCheck off; matchCertificateAttribute CN:/^radius\.roam\.example$/ }
server radius { host 127.0.4.1; type udp; port 1812; secret radsec }
server radius-acct { host 127.0.4.1; type udp; port 1813; secret radsec }
realm * { server radius; accountingServer radius-acct }
"""
USERS = """
modules {{
  eap {{
    default_eap_type = ttls
    timer_expire = 60
    max_sessions = 4096
    tls-config common {{ private_key_file = {folder}/{name}.key; certificate_file = {folder}/{name}.crt; ca_file = {folder}/ca.pem; tls_max_version = "1.2" }}
    ttls {{ tls = common; virtual_server = "inner" }}
  }}
  pap {{ }}
  always ok {{ rcode = ok }}
}}
client everybody {{ ipaddr = 127.0.0.0/8; secret = radsec }}
clients radsec {{
  client everybody {{ ipaddr = 127.0.0.0/8; proto = tls; secret = radsec }}
}}
server default {{
{listens}
  authorize {{
    eap {{ ok = return }}
    update control {{ Cleartext-Password := "a password" }}
    pap
  }}
  authenticate {{ pap; eap }}
  accounting {{ ok }}
}}
server inner {{
  authorize {{
    update control {{ Cleartext-Password := "a password" }}
    pap
  }}
  authenticate {{ pap }}
}}
"""
LISTEN = "  listen {{ type = {0}; ipaddr = {1}; port = {2} }}\n"
OVER_TLS = """  listen {{
    type = auth+acct
    ipaddr = 127.0.5.1
    port = 2083
    proto = tcp
    clients = radsec
    tls {{ private_key_file = {0}/radius.direct.example.key; certificate_file = {0}/radius.direct.example.crt; ca_file = {0}/ca.pem; require_client_cert = yes; fragment_size = 8192; tls_max_version = "1.2" }}
  }}
"""
COLLEGE = """
client everybody {{ ipaddr = 127.0.0.0/8; secret = radsec }}
home_server front {{
  type = auth+acct
  ipaddr = 127.0.0.1
  port = 2083
  proto = tcp
  secret = radsec
  tls {{ private_key_file = {0}/proxy.college.example.key; certificate_file = {0}/proxy.college.example.crt; ca_file = {0}/ca.pem; fragment_size = 8192; tls_max_version = "1.2" }}
}}
home_server_pool front {{ home_server = front }}
realm front {{ auth_pool = front; acct_pool = front; nostrip }}
server default {{
  listen {{ type = auth; ipaddr = 127.0.3.2; port = 1812 }}
  listen {{ type = acct; ipaddr = 127.0.3.2; port = 1813 }}
  authorize {{
    update control {{ Proxy-To-Realm := "front" }}
  }}
  preacct {{
    update control {{ Proxy-To-Realm := "front" }}
  }}
}}
"""


def start(around, program):
    """Makes the certificates, has the files made, and starts all of them."""
    folder = around.directory
    make_certificates(folder, NAMES, ())
    made = subprocess.run([sys.executable, CONVERTER, around.write("before.conf", over_lines(BEFORE, 4)), "--front", folder, "--reverse", "3799"],
                          capture_output=True, text=True, check=False)
    want(made.returncode == 0, f"the converter makes the files: {made.stderr.strip()}")
    conf = changed(made.stdout, re.compile("^control = .*\n", re.M), "")
    conf = changed(conf, 'name = "probe"\n', f'name = "probe"\ncoa = "{CONTROLLER[0]}:{CONTROLLER[1]}"\nnas_id = "nas"\n')
    # So that a peer that floods leaves Identifiers to others.
    conf = changed(conf, 'name = "a.example"\n', 'name = "a.example"\npeer_share = 128\n')
    with open(around.path("haproxy.cfg"), encoding="utf-8") as file:
        front = changed(changed(file.read(), "    user haproxy\n    group haproxy\n", ""), "/etc/roam/tls/", folder + "/")
    around.write("haproxy.cfg", changed(changed(front, "/etc/roam/tls", folder) if "/etc/roam" in front else front, "/run/haproxy/", folder + "/"))
    around.broker(program, conf, 600000)
    around.start("streams", [program, "streams", around.path("streams.conf"), "600000"])
    around.start("haproxy", [command("haproxy"), "-W", "-db", "-f", around.path("haproxy.cfg"), "-p", around.path("haproxy.pid")])
    around.home = Home(("127.0.6.1", 2083), home_context(folder, "radius.python.example"))
    around.home.clear(answers)
    listens = LISTEN.format("auth", "127.0.4.1", 1812) + LISTEN.format("acct", "127.0.4.1", 1813)
    around.freeradius("home", USERS.format(listens=listens, folder=folder, name="radius.home.example"))
    around.freeradius("direct", USERS.format(listens=OVER_TLS.format(folder), folder=folder, name="radius.direct.example"))
    around.freeradius("college", COLLEGE.format(folder), proxies="yes")
    for name, text in (("university", UNIVERSITY), ("of-home", OF_HOME)):
        path = around.write(f"{name}.conf", over_lines(text.replace("{0}", folder), 4))
        around.start(name, [command("radsecproxy"), "-f", "-c", path, "-i", around.path(f"{name}.pid")])
    want(wait_for_front(folder, FRONT), "haproxy takes connections")


def asked(to, octets, seconds=12):
    """The packet that answers a datagram, sent again each two seconds, or nothing."""
    with bound(0, "127.0.3.9", 2) as opened:
        for _ in range(int(seconds / 2)):
            opened.sendto(octets, to)
            try:
                return packets.Packet(opened.recv(4096))
            except TimeoutError:
                pass
    return None


def code_of(packet):
    return packet and packet.code


def exchanges(around):
    """Logins and accounting between the servers of others."""
    for name, proxy in (("radsecproxy", "127.0.3.1"), ("FreeRADIUS", "127.0.3.2")):
        for behind, realm in (("radsecproxy", b"home.example"), ("FreeRADIUS", b"direct.example")):
            got = code_of(asked((proxy, 1812), access(os.urandom(1)[0], os.urandom(8), b"u@" + realm)))
            want(got == packets.ACCESS_ACCEPT, f"a login by {name} to a home server behind {behind}: {got}")
            for password, code in ((b"a password", packets.ACCESS_ACCEPT), (b"another", packets.ACCESS_REJECT)):
                login = eap_ttls.Login(lambda octets, to=(proxy, 1812): asked(to, octets), b"u@" + realm, password, around.path("ca.pem"), SECRET)
                got = login.code()
                want(got == code, f"a login by EAP-TTLS with {password.decode()!r} by {name} to a home server behind {behind}: {got}")
            got = code_of(asked((proxy, 1813), accounting(os.urandom(1)[0], b"s-" + os.urandom(4).hex().encode(), b"u@" + realm)))
            want(got == packets.ACCOUNTING_RESPONSE, f"accounting by {name} to a home server behind {behind}: {got}")


class Probe:
    """A peer whose requests go one by one: each has to be answered."""

    def __init__(self, folder, name="proxy.probe.example"):
        self.folder, self.name, self.number, self.slowest, self.stream = folder, name, 0, 0.0, None
        self.connect()

    def connect(self):
        self.stream = client(self.folder, self.name, FRONT)
        return self.stream is not None

    def octets(self):
        self.number += 1
        return access(self.number % 256, b"%s %d" % (self.name.encode(), self.number))

    def logs_in(self, seconds=9):
        """Whether a login is accepted in time."""
        begun = time.monotonic()
        self.stream.send(self.octets())
        packet = self.stream.packet(seconds)
        self.slowest = max(self.slowest, time.monotonic() - begun)
        return packet is not None and (packet.code, packet.id) == (packets.ACCESS_ACCEPT, self.number % 256)

    def goes_on(self, until, pause=0.01):
        """How many logins there were until a moment or an event, and how many of them were accepted."""
        good, all_of, self.slowest = 0, 0, 0.0
        while not until.is_set() if isinstance(until, threading.Event) else time.monotonic() < until:
            good, all_of = good + self.logs_in(), all_of + 1
            time.sleep(pause)
        return good, all_of


def small_things(around, probe):
    """A Status-Server, and a Disconnect from the home server's side."""
    authenticator = os.urandom(16)
    octets = packets.text(12, 200, authenticator, packets.sealed(12, 200, authenticator, [(80, packets.ZEROS)], SECRET))
    probe.stream.send(octets)
    packet = probe.stream.packet()
    want(packet and (packet.code, packet.id) == (packets.ACCESS_ACCEPT, 200), "a Status-Server over TLS is answered")
    probe.stream.send(accounting(201, b"of probe"))
    want(probe.stream.packet().code == packets.ACCOUNTING_RESPONSE, "a session begins")
    around.home.clear()
    with bound(CONTROLLER[1], CONTROLLER[0], 5) as controller:
        request = packets.signed(packets.DISCONNECT_REQUEST, 5, packets.ZEROS, [(32, b"nas"), (44, b"of probe")], SECRET)
        [it for it in around.home.streams if not it.is_ended][-1].outbox.append(request)
        octets, source = controller.recvfrom(4096)
        got = packets.Packet(octets)
        controller.sendto(packets.signed(packets.DISCONNECT_ACK, got.id, got.authenticator, [(33, it) for it in got.values(33)], SECRET), source)
    want(around.home.wait_for(1) and around.home.came[0][2].code == packets.DISCONNECT_ACK, "a Disconnect of the home server is answered on its connection")
    around.home.clear(answers)


def serial(folder):
    """The serial number of the front's certificate, as a new connection sees it; nothing where none is made."""
    stream = client(folder, "proxy.probe.example", FRONT)
    if stream is None:
        return None
    try:
        return stream.connection.getpeercert()["serialNumber"]
    finally:
        stream.close()


def beside(probe, act):
    """How many logins there were, and how many were accepted, while something is done."""
    over, found = threading.Event(), []
    thread = threading.Thread(target=lambda: found.extend(probe.goes_on(over)))
    thread.start()
    time.sleep(0.5)
    act()
    time.sleep(0.5)
    over.set()
    thread.join()
    return found


def changes(around, probe):
    """Another certificate of the front, and the broker started anew, while logins go on."""
    folder, before = around.directory, serial(around.directory)

    def another_certificate():
        openssl(folder, "ca", "-batch", "-config", "authority.cnf", "-in", "radius.roam.example.csr", "-out", "radius.roam.example.crt", "-notext")
        with open(around.path("own.pem"), "w", encoding="ascii") as pem:
            for part in ("radius.roam.example.crt", "radius.roam.example.key"):
                with open(around.path(part), encoding="ascii") as file:
                    pem.write(file.read())
        around.running["haproxy"].send_signal(signal.SIGUSR2)
        until = time.monotonic() + 20
        while serial(folder) in (None, before) and time.monotonic() < until:
            time.sleep(0.2)
    good, all_of = beside(probe, another_certificate)
    want(good == all_of > 0, f"while haproxy gets another certificate: {good} of {all_of} logins")
    want(serial(folder) != before, "a new connection has the new certificate")
    time.sleep(1)
    taken = around.log("streams").count(" taken from 127.1.0.3")

    def broker_anew():
        around.server.stop()
        around.server.start()
        around.server.waits_for()
        around.running["broker"] = around.server.process
    broker_anew()
    want(probe.logs_in(), "the broker is started anew: the next login goes by the same connection")
    want(around.log("streams").count(" taken from 127.1.0.3") == taken, "no connection was made for that")


def waiting(around, probe):
    """A home server ends its connections with 100 requests waiting."""
    around.home.clear(None)
    begun, asked_for = time.monotonic(), [probe.octets() for _ in range(100)]
    probe.stream.send(b"".join(asked_for))
    want(around.home.wait_for(100), "a hundred requests wait at the home server")
    around.home.cut()
    around.home.clear(answers)
    got = {packet.id for packet in (probe.stream.packet(9) for _ in asked_for) if packet}
    want(len(got) == 100, f"its connection ends: {len(got)} of 100 are answered by the next one, within {time.monotonic() - begun:.1f} s")


def floods(around, probe, seconds, reads):
    """A peer that sends as fast as it goes, and reads or not, beside a hundred logins a second."""
    around.home.clear(answers if reads else answers_at_length)
    stop, sent = threading.Event(), [0]

    def flood():
        while not stop.is_set():
            stream = client(around.directory, "proxy.idle.example", FRONT)
            if stream is None:
                continue
            stream.connection.settimeout(0.2)
            number = 0
            try:
                while not stop.is_set():
                    try:
                        stream.connection.send(access(number % 256, b"%d" % sent[0]))
                        number, sent[0] = number + 1, sent[0] + 1
                    except TimeoutError:
                        pass
                    if reads and number % 64 == 0:
                        stream.packet(0.01)
            except OSError:
                pass
            stream.close()
    thread = threading.Thread(target=flood)
    thread.start()
    good, all_of = probe.goes_on(time.monotonic() + seconds, 0.005)
    stop.set()
    thread.join()
    around.home.clear(answers)
    how = "floods" if reads else "reads nothing"
    want(good == all_of > 0, f"beside a peer that {how} ({sent[0]} requests): {good} of {all_of} logins, the slowest {probe.slowest:.2f} s")


def look(around, seconds):
    exchanges(around)
    probe = Probe(around.directory)
    want(probe.logs_in(), "a login by a client in Python")
    want(comes(around, "broker", 'peer="probe"'), "the broker has it from that peer")
    small_things(around, probe)
    changes(around, probe)
    waiting(around, probe)
    floods(around, probe, seconds, True)
    floods(around, probe, seconds, False)


def main():
    program, *more = words(__doc__, 1, 2)
    in_own_network(__file__, program, *more)
    go_on()
    seconds = float(more[0]) if more else 10
    with tempfile.TemporaryDirectory() as directory:
        around, ended = Around(directory), []
        try:
            start(around, program)
            time.sleep(3)
            look(around, seconds)
            ended = around.close()
            want(not ended, "all of them still serve" + "".join(f", but not {it}" for it in ended))
        finally:
            around.close()
            if BAD or sys.exc_info()[0]:
                around.tell()
    return end()


if __name__ == "__main__":
    sys.exit(main())
