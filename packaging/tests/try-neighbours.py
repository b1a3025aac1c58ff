#!/usr/bin/env python3
"""try-neighbours.py [PROGRAM]

Puts radsecproxy before, above and behind a broker of a country, and FreeRADIUS behind it, on loopback; asks as access servers do; and
looks whether what each of them gets is what an operator decided (CONF): which names go where, who may ask, what a home server sees and
what an access server gets, what becomes of accounting. Without PROGRAM the broker that is written apart (oracle/broker.py) stands in.

It needs radsecproxy and freeradius (Debian has them), and no root.
"""

import hashlib
import os
import re
import select
import sys

sys.dont_write_bytecode = True
from around import command, tried
from looks import go_on, want, words
from radius import bound, packets
from server import configuration, peer, realm

# Whom there is, each at an address of its own: the broker, two institutions' home servers, a third one's that lets the country in alone,
# a foreign one; the proxy of an institution, the proxy above, an access server of its own; and access servers behind these two proxies.
BROKER, COLLEGE, SCHOOL, FOREIGN = "127.0.9.1", "127.0.9.17", "127.0.9.49", "127.0.9.41"
UNIVERSITY, ABOVE, LIBRARY, OF_UNIVERSITY, OF_ABOVE = "127.0.9.11", "127.0.9.65", "127.0.9.32", "127.0.9.31", "127.0.9.33"
AUTH, ACCT, SECRET, PASSWORD = 28812, 28813, b"a secret of everybody here", b"hello"
GONE, OPERATOR, CUI = (6, 64, 65, 81), "1university.example", "0x00"



def of_home(ip, *services):
    return {**{name: f"{ip}:{port}" for name, port in services}, "secret": SECRET.decode()}


BOTH = (("auth", AUTH), ("acct", ACCT))
CONF = configuration(
    peer("university", UNIVERSITY, SECRET.decode(), require_seal=True, operator_name="university.example", ask_cui=True,
         request_without=["26.9", "126"], reply_without=["6", "64", "65", "81"]),
    peer("above", ABOVE, SECRET.decode(), require_seal=True),
    peer("library", LIBRARY, SECRET.decode(), limit_proxy_state=True),
    realm("college.example", of_home(COLLEGE, *BOTH), also=["*.college.example"], loop_prevention=True, out=f"{BROKER}:28820"),
    realm("school.example", of_home(SCHOOL, BOTH[0]), peers=["university", "library"], accounting="drop", out=f"{BROKER}:28821"),
    realm("elsewhere.invalid", of_home(ABOVE, BOTH[0]), also=["*"], accounting="answer", loop_prevention=True, share=64, rest_after=50,
          out=f"{BROKER}:28822"),
    auth=f"{BROKER}:{AUTH}", acct=f"{BROKER}:{ACCT}", reject=["example", "*.example", "*.3gppnetwork.org"], well_formed=True,
    answer_unnamed=True, status_server=True)


def radsecproxy(address, clients, servers, realms):
    """A radsecproxy.conf: clients and servers by name with their addresses, realms with what stands in them."""
    lines = [f"ListenUDP {address}:{AUTH}", f"ListenUDP {address}:{ACCT}", f"SourceUDP {address}", "LogLevel 2"]
    for name, ip in clients.items():
        lines.append(f'client {name} {{\n host {ip}\n type udp\n secret "{SECRET.decode()}"\n}}')
    for name, (ip, port) in servers.items():
        lines.append(f'server {name} {{\n host {ip}\n port {port}\n type udp\n secret "{SECRET.decode()}"\n retryInterval 2\n}}')
    return "\n".join(lines + [f"realm {name} {{\n {said}\n}}" for name, said in realms.items()]) + "\n"


# All that isn't its own goes to the broker.
BEFORE = radsecproxy(UNIVERSITY, {"nas": OF_UNIVERSITY}, {"broker": (BROKER, AUTH), "broker-acct": (BROKER, ACCT)},
                     {"*": "server broker\n accountingServer broker-acct"})
# What it doesn't know it sends down again: a loop, if the broker would have it. Names that aren't to come up are let in here.
UPPER = radsecproxy(ABOVE, {"broker": BROKER, "nas": OF_ABOVE},
                    {"down": (BROKER, AUTH), "foreign": (FOREIGN, AUTH)}, {**{name: "server foreign" for name in ("inst.org", "inst..org", "nobody.example", r"/3gppnetwork\.org$")}, "*": "server down"})
# It tells what it sees in the Reply-Message, and gives what no guest is to get.
HOME = """
client everybody {{ ipaddr = 127.0.9.0/24; secret = "{secret}"; require_message_authenticator = yes }}
modules {{
  pap {{ }}
  always ok {{ rcode = ok }}
}}
server default {{
{listens}
  authorize {{
    update control {{ Cleartext-Password := "{password}" }}
    pap
  }}
  authenticate {{ pap }}
  accounting {{ ok }}
  post-auth {{
    update reply {{
      Reply-Message := "%{{request:Operator-Name}},%{{request:Chargeable-User-Identity}},%{{request:Called-Station-Id}},%{{request:Cisco-AVPair}}"
      Service-Type := Administrative-User
      Tunnel-Type := VLAN
      Tunnel-Medium-Type := IEEE-802
      Tunnel-Private-Group-Id := "99"
      Class := "of a class"
    }}
  }}
}}
"""


def listens():
    said = ""
    for kind, port, addresses in (("auth", AUTH, (COLLEGE, SCHOOL, FOREIGN)), ("acct", ACCT, (COLLEGE,))):
        for ip in addresses:
            said += f"  listen {{\n    type = {kind}\n    ipaddr = {ip}\n    port = {port}\n  }}\n"
    return said


# Asking

def ask(source, to, code, user, attributes=(), password=PASSWORD, sealed=True, seconds=4):
    """The reply to a request, sent again each second and a half: its code and attributes, or nothing."""
    number, attributes = os.urandom(1)[0], ([(1, user.encode())] if user else []) + list(attributes)
    if code == packets.ACCESS_REQUEST:
        authenticator = os.urandom(16)
        attributes += [(2, packets.hidden(password.ljust(16, b"\0"), SECRET, authenticator))] + ([(80, packets.ZEROS)] if sealed else [])
        octets = packets.text(code, number, authenticator, packets.sealed(code, number, authenticator, attributes, SECRET))
    else:
        octets = packets.signed(code, number, packets.ZEROS, attributes, SECRET)
    with bound(0, source) as opened:
        opened.connect(to)
        for _ in range(max(1, int(seconds / 1.5))):
            opened.send(octets)
            if select.select([opened], [], [], min(1.5, seconds))[0]:
                reply = packets.Packet(opened.recv(4096))
                body = packets.text(reply.code, reply.id, octets[4:20], reply.attributes)
                assert hashlib.md5(body + SECRET).digest() == reply.authenticator, "a reply that isn't signed"
                return reply
    return None


ACCESS, ACCOUNTING = packets.ACCESS_REQUEST, packets.ACCOUNTING_REQUEST
ACCEPT, REJECT, RESPONSE = packets.ACCESS_ACCEPT, packets.ACCESS_REJECT, packets.ACCOUNTING_RESPONSE
CISCO, CALLED, START = (26, bytes([0, 0, 0, 9, 1, 6]) + b"priv"), (30, b"room"), [(40, bytes([0, 0, 0, 1])), (44, b"0001")]
ON = [(40, bytes([0, 0, 0, 7])), (4, bytes([127, 0, 9, 32]))]
BY_PROXY, BY_ABOVE, BY_ITSELF = (OF_UNIVERSITY, UNIVERSITY), (OF_ABOVE, ABOVE), (LIBRARY, BROKER)
# Who asks whom, for what, and what comes of it: a code (none: silence), and what the home server saw, where it was asked.
CASES = [
    ("a user of another institution", BY_PROXY, ACCESS, "u@college.example", {}, ACCEPT, f"{OPERATOR},{CUI},room,"),
    ("a department of it", BY_PROXY, ACCESS, "u@x.college.example", {}, ACCEPT, f"{OPERATOR},{CUI},room,"),
    ("an Operator-Name that isn't believed", BY_PROXY, ACCESS, "u@college.example", {"attributes": [(126, b"1other.example")]}, ACCEPT, f"{OPERATOR},{CUI},"),
    ("a wrong password", BY_PROXY, ACCESS, "u@college.example", {"password": b"no"}, REJECT, None),
    ("the country's own name that nobody has", BY_PROXY, ACCESS, "u@nobody.example", {}, REJECT, None),
    ("a phone's name", BY_PROXY, ACCESS, "0001@wlan.mnc001.mcc001.3gppnetwork.org", {}, REJECT, None),
    ("an ill-formed name", BY_PROXY, ACCESS, "u@inst..org", {}, REJECT, None),
    ("a foreign user", BY_PROXY, ACCESS, "u@inst.org", {}, ACCEPT, f"{OPERATOR},{CUI},room,"),
    ("a name that the proxy above sends back", BY_PROXY, ACCESS, "u@nowhere.net", {}, REJECT, None),
    ("pupils within the country", BY_PROXY, ACCESS, "u@school.example", {}, ACCEPT, f"{OPERATOR},{CUI},room,"),
    ("pupils from abroad", BY_ABOVE, ACCESS, "u@school.example", {}, REJECT, None),
    ("a user from abroad", BY_ABOVE, ACCESS, "u@college.example", {}, ACCEPT, ",,room,priv"),
    ("nobody's name from abroad", BY_ABOVE, ACCESS, "u@none.example", {}, REJECT, None),
    ("no Message-Authenticator", BY_ITSELF, ACCESS, "u@college.example", {"sealed": False}, ACCEPT, ",,room,priv"),
    ("a Proxy-State beside it", BY_ITSELF, ACCESS, "u@college.example", {"sealed": False, "attributes": [(33, b"x")]}, None, None),
    ("accounting that is forwarded", BY_PROXY, ACCOUNTING, "u@college.example", {}, RESPONSE, None),
    ("accounting that stays", BY_PROXY, ACCOUNTING, "u@inst.org", {}, RESPONSE, None),
    ("accounting that is dropped", BY_ITSELF, ACCOUNTING, "u@school.example", {}, None, None),
    ("an Accounting-On", BY_ITSELF, ACCOUNTING, None, {}, RESPONSE, None),
]


def wrong_of(by, code, user, more, expected, seen):
    """What is wrong of a case, or nothing."""
    attributes = list(more.get("attributes", [])) + ([CALLED, CISCO] if code == ACCESS and not more.get("attributes") else [])
    attributes += (START if user else ON) if code == ACCOUNTING else []
    reply = ask(by[0], (by[1], AUTH if code == ACCESS else ACCT), code, user, attributes, more.get("password", PASSWORD), more.get("sealed", True))
    if reply is None or expected is None:
        return None if reply is None and expected is None else f"got {reply and reply.code}"
    if reply.code != expected:
        return f"got {reply.code}"
    told = (reply.first(18) or b"").decode(errors="replace")
    if seen is not None and not told.startswith(seen):
        return f"the home server saw {told!r}, not {seen!r}"
    kept = [kind for kind in GONE if reply.values(kind)]
    is_filtered = by == BY_PROXY
    if expected == ACCEPT and (is_filtered and kept or not is_filtered and len(kept) != len(GONE) or reply.values(25) != [b"of a class"]):
        return f"came back with {kept}, Class {reply.values(25)}"
    return None


def start(around, program):
    """Starts all of them; their logs lie in the directory."""
    around.broker(program, CONF, 120000)
    around.freeradius("home", HOME.format(secret=SECRET.decode(), password=PASSWORD.decode(), listens=listens()))
    for name, text in (("before", BEFORE), ("upper", UPPER)):
        around.start(name, [command("radsecproxy"), "-f", "-c", around.write(f"{name}.conf", text), "-i", around.path(f"{name}.pid")])


def look_at_cases(around):
    for what, *case in CASES:
        wrong = wrong_of(*case)
        want(wrong is None, what + (f": {wrong}" if wrong else ""))
    accounted = len(set(re.findall(r"Received Accounting-Request Id (\d+)", around.log("home"))))
    want(accounted == 1, f"the home server had {accounted} Accounting-Request, of 1")


def main():
    [program] = words(__doc__, 0, 1) or [None]
    go_on()
    return tried(lambda around: start(around, program), look_at_cases)


if __name__ == "__main__":
    sys.exit(main())
