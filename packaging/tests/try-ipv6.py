#!/usr/bin/env python3
"""try-ipv6.py [PROGRAM]

Serves on loopback over IPv6: a peer at a prefix around ::1, a realm whose home server is at ::1 and sends Disconnects there, and
a realm whose home server is at 127.0.0.1. A login of each and accounting go both ways; a Disconnect that names its peer by a
NAS-IPv6-Address reaches it, and one that names nobody gets a NAK. A socket of ::1 takes nothing of IPv4. Then FreeRADIUS is a home
server at ::1, and radclient asks it, by itself and through a radsecproxy. With PROGRAM the counts are asked for at [::1] too; without
it the broker that is written apart (oracle/broker.py) stands in.

It needs freeradius, radclient and radsecproxy (Debian has them), and no root.
"""

import hashlib
import socket
import subprocess
import sys
import time
import urllib.request

sys.dont_write_bytecode = True
import radius
from around import command, tried
from looks import over_lines, want, words
from radius import attribute, bound, packets, received, sealed_answer
from server import configuration, peer, realm

SIX, FOUR = "::1", "127.0.0.1"
AUTH, ACCT, COA, METRICS, OUT, REVERSE, HOME = 29012, 29013, 29799, 29812, (29020, 29021, 29022), 29030, (29112, 29113, 29212, 29213)
FREERADIUS, RADSECPROXY = (29312, 29313), (29412, 29413)
PEER, SERVERS = b"a secret of the peer", b"a secret of the servers"


def of_home(ip, ports):
    host = f"[{ip}]" if ":" in ip else ip
    return {"auth": f"{host}:{ports[0]}", "acct": f"{host}:{ports[1]}", "secret": SERVERS.decode()}


CONF = configuration(
    peer("six", "::/127", PEER.decode(), coa=f"[{SIX}]:{COA}", nas_ipv6="2001:db8::7"),
    realm("six.example", of_home(SIX, HOME), own_sessions=True, out=f"[{SIX}]:{OUT[0]}", reverse=f"[{SIX}]:{REVERSE}"),
    realm("four.example", of_home(FOUR, HOME[2:]), out=f"{FOUR}:{OUT[1]}"),
    realm("free.example", of_home(SIX, FREERADIUS), out=f"[{SIX}]:{OUT[2]}"),
    auth=f"[{SIX}]:{AUTH}", acct=f"[{SIX}]:{ACCT}")

HOME_OF_FREERADIUS = f"""
client broker {{ ipv6addr = {SIX}; secret = "{SERVERS.decode()}" }}
modules {{
  pap {{ }}
  always ok {{ rcode = ok }}
}}
server default {{
  listen {{ type = auth; ipv6addr = {SIX}; port = {FREERADIUS[0]} }}
  listen {{ type = acct; ipv6addr = {SIX}; port = {FREERADIUS[1]} }}
  authorize {{
    update control {{ Cleartext-Password := "hello" }}
    pap
  }}
  authenticate {{ pap }}
  accounting {{ ok }}
}}
"""
PROXY = f"""ListenUDP [{SIX}]:{RADSECPROXY[0]}
ListenUDP [{SIX}]:{RADSECPROXY[1]}
SourceUDP [{SIX}]
client nas {{ host [{SIX}]; type udp; secret "{PEER.decode()}" }}
server broker {{ host [{SIX}]; port {AUTH}; type udp; secret "{PEER.decode()}" }}
server broker-acct {{ host [{SIX}]; port {ACCT}; type udp; secret "{PEER.decode()}" }}
realm * {{ server broker; accountingServer broker-acct }}
"""


def opened(ip, port):
    return bound(port, ip, seconds=3)


def access(number, user):
    return radius.access_with_password(number, user, PEER, hashlib.md5(bytes([number])).digest())


def accounting(number, user, session):
    return radius.accounting(number, user, session, PEER, body=attribute(95, socket.inet_pton(socket.AF_INET6, "2001:db8::7")))


def exchange(nas, home, to, request, code, source):
    """Whether a request comes to its home server, from there, and the reply back."""
    nas.sendto(request, (SIX, to))
    asked, came_from = received(home)
    if asked is None or came_from != source:
        return False
    home.sendto(sealed_answer(code, asked.octets, SERVERS), came_from)
    reply, replied_from = received(nas)
    return reply is not None and (reply.code, reply.id, replied_from) == (code, request[1], (SIX, to))


def disconnect(home, number, name):
    """Sends one for the session that has begun, and says nothing of what comes of it."""
    names = [(1, b"u@six.example"), (95, socket.inet_pton(socket.AF_INET6, name)), (44, b"0001"), (55, int(time.time()).to_bytes(4, "big"))]
    home.sendto(packets.signed(packets.DISCONNECT_REQUEST, number, packets.ZEROS, names, SERVERS), (SIX, REVERSE))


def asked(port, kind, attributes):
    """Whether radclient gets what it expects."""
    words = [command("radclient"), "-6", "-r", "1", "-t", "3", f"[{SIX}]:{port}", kind, PEER.decode()]
    return subprocess.run(words, input=attributes, capture_output=True, text=True, timeout=20, check=False).returncode == 0


def try_neighbours():
    """What others send and answer over ::1."""
    login = 'User-Name = "u@free.example", User-Password = "{}", Message-Authenticator = 0x00'
    start = 'User-Name = "u@free.example", Acct-Status-Type = Start, Acct-Session-Id = "1", NAS-IPv6-Address = 2001:db8::7'
    for what, ports in (("radclient and FreeRADIUS", (AUTH, ACCT)), ("radclient, radsecproxy and FreeRADIUS", RADSECPROXY)):
        want(asked(ports[0], "auth", login.format("hello")), f"{what}: a login")
        want(not asked(ports[0], "auth", login.format("no")), f"{what}: a login with a wrong password")
        want(asked(ports[1], "acct", start), f"{what}: accounting")


def try_it(program):
    nas, coa = opened(SIX, 29040), opened(SIX, COA)
    home = [opened(ip, port) for ip, port in zip((SIX, SIX, FOUR, FOUR), HOME)]
    six, four = (SIX, OUT[0]), (FOUR, OUT[1])
    want(exchange(nas, home[0], AUTH, access(1, b"u@six.example"), packets.ACCESS_ACCEPT, six), "a login over IPv6")
    want(exchange(nas, home[2], AUTH, access(2, b"u@four.example"), packets.ACCESS_ACCEPT, four), "a login over IPv6, and over IPv4 to its home server")
    want(exchange(nas, home[1], ACCT, accounting(3, b"u@six.example", b"0001"), packets.ACCOUNTING_RESPONSE, six), "accounting over IPv6")
    want(exchange(nas, home[3], ACCT, accounting(4, b"u@four.example", b"0002"), packets.ACCOUNTING_RESPONSE, four), "accounting, and over IPv4 to its home server")
    disconnect(home[0], 5, "2001:db8::7")
    asked, came_from = received(coa)
    want(asked is not None and asked.code == packets.DISCONNECT_REQUEST and came_from == six, "a Disconnect by its NAS-IPv6-Address")
    coa.sendto(radius.answer(packets.DISCONNECT_ACK, asked.octets, PEER), came_from)
    reply, _ = received(home[0])
    want(reply is not None and (reply.code, reply.id) == (packets.DISCONNECT_ACK, 5), "its ACK")
    disconnect(home[0], 6, "2001:db8::8")
    reply, _ = received(home[0])
    want(reply is not None and reply.code == packets.DISCONNECT_NAK and reply.values(101) == [(502).to_bytes(4, "big")], "a NAK, where nobody has that address")
    by_four = opened(FOUR, 29041)
    by_four.settimeout(1)
    by_four.sendto(access(7, b"u@six.example"), (FOUR, AUTH))
    want(received(by_four) == (None, None), "nothing for a request over IPv4")
    if program:
        with urllib.request.urlopen(f"http://[{SIX}]:{METRICS}/metrics", timeout=5) as page:
            text = page.read().decode()
        want(f"[{SIX}]:{HOME[0]}" in text and f"{FOUR}:{HOME[2]}" in text, "the counts, of home servers of both kinds")


def main():
    [program] = words(__doc__, 0, 1) or [None]

    def start(around):
        around.broker(program, (f'metrics = "[{SIX}]:{METRICS}"\n' if program else "") + CONF, 60000)
        around.freeradius("home", HOME_OF_FREERADIUS)
        around.start("proxy", [command("radsecproxy"), "-f", "-c", around.write("proxy.conf", over_lines(PROXY)), "-i", around.path("proxy.pid")])

    def look(_):
        try_it(program)
        try_neighbours()
    return tried(start, look)


if __name__ == "__main__":
    sys.exit(main())
