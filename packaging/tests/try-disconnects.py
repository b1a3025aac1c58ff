#!/usr/bin/env python3
"""try-disconnects.py [PROGRAM]

Puts FreeRADIUS behind a broker as the home servers of two realms, and before it as the access servers behind two proxies, on
loopback, and has radclient send Disconnects and CoAs as home servers and a policy server do; the first home server sends one by
itself, too. Each case says which access server gets it, or what the broker answers. Without PROGRAM the broker that is written apart
(oracle/broker.py) stands in.

It needs freeradius and radclient (Debian's freeradius and freeradius-utils), and no root.
"""

import re
import subprocess
import sys
import time

sys.dont_write_bytecode = True
from around import command, tried
from looks import go_on, want, words
from server import configuration, peer, realm, table

# The broker; home servers of two realms, and what may disconnect for the first of them beside its server; a proxy with all
# controllers of a city behind it, and one that says of its users by Operator-Name where they are.
BROKER, FIRST, SECOND, POLICY = "127.0.11.1", "127.0.11.17", "127.0.11.49", "127.0.11.81"
CITY, STADIUM = "127.0.11.11", "127.0.11.12"
AUTH, ACCT, COA, OUT, REVERSE = 28912, 28913, 23799, (28920, 28921), (28930, 28931)
SECRET = "a secret of everybody here"
FRESH = 300



def of_home(name, nth, ip, *clients):
    """A realm whose home server is at an address, and which takes Disconnects of further clients."""
    at = {"auth": f"{ip}:{AUTH}", "acct": f"{ip}:{ACCT}", "secret": SECRET}
    text = realm(name, at, own_sessions=True, out=f"{BROKER}:{OUT[nth]}", reverse=f"{BROKER}:{REVERSE[nth]}", tries=2, wait=1000)
    return text + "".join(table("realm.coa_client", ip=client, secret=SECRET) for client in clients)


CONF = configuration(
    peer("city", CITY, SECRET, coa=f"{CITY}:{COA}", nas_ip=CITY, nas_ids=["wlc-*"]),
    peer("stadium", STADIUM, SECRET, coa=f"{STADIUM}:{COA}", nas_ids=["ap-*"], operator_name="stadium.example"),
    of_home("a.example", 0, FIRST, POLICY), of_home("b.example", 1, SECOND),
    auth=f"{BROKER}:{AUTH}", acct=f"{BROKER}:{ACCT}", fresh=FRESH)

# It answers accounting, and asks for a Disconnect itself where a session's Interim-Update has the Class `ends`.
HOME = """
client broker {{ ipaddr = {broker}; secret = "{secret}"; coa_server = reverse }}
home_server reverse {{
  type = coa
  ipaddr = {broker}
  port = {reverse}
  secret = "{secret}"
  src_ipaddr = {ip}
  coa {{ irt = 2; mrt = 16; mrc = 1; mrd = 5 }}
}}
modules {{
  always ok {{ rcode = ok }}
}}
server default {{
  listen {{ type = acct; ipaddr = {ip}; port = {acct} }}
  accounting {{
    if (&Class && &Class == 0x656e6473) {{
      update disconnect {{ User-Name = &request:User-Name; NAS-Identifier = &request:NAS-Identifier; Acct-Session-Id = &request:Acct-Session-Id }}
    }}
    ok
  }}
}}
"""

# It has each session that it is asked for.
NAS = """
client broker {{ ipaddr = {broker}; secret = "{secret}" }}
modules {{
  always ok {{ rcode = ok }}
}}
server coa {{
  listen {{ type = coa; ipaddr = {ip}; port = {coa}; virtual_server = coa }}
  recv-coa {{ ok }}
}}
"""


def radclient(source, to, kind, attributes):
    """What a request of that source is answered with: the packet's name and its Error-Cause, or nothing."""
    text = "\n".join(attributes + [f"Packet-Src-IP-Address = {source}"]) + "\n"
    words = [command("radclient"), "-x", "-r", "2", "-t", "2", f"{to[0]}:{to[1]}", kind, SECRET]
    ran = subprocess.run(words, input=text, capture_output=True, text=True, timeout=30, check=False)
    received = re.search(r"Received (\S+) Id", ran.stdout)
    cause = re.search(r"Error-Cause = (\S+)", ran.stdout[received.start():]) if received else None
    return (received[1], cause[1] if cause else None) if received else None


def account(peer, user, nas, session, status="Start", more=()):
    """An accounting request of an access server behind a proxy."""
    named = [f'NAS-Identifier = "{nas}"'] if nas else []
    return radclient(peer, (BROKER, ACCT), "acct", [f'User-Name = "{user}"', f"Acct-Status-Type = {status}",
                                                    f'Acct-Session-Id = "{session}"',
                                                    f"NAS-IP-Address = {peer}", *named, *more])


# The sessions that begin: of each realm one of the same id, at access servers of the same proxy; and one of the other proxy.
SESSIONS = [(CITY, "u@a.example", "wlc-1", "0001"), (CITY, "v@b.example", "wlc-2", "0002"), (CITY, "w@a.example", "wlc-1", "0003"),
            (CITY, "x@a.example", "wlc-2", "0003"), (STADIUM, "y@a.example", "ap-7", "0004")]
ACK, NAK = "ACK", "NAK"
OF_A, OF_B, BY_POLICY = (FIRST, 0), (SECOND, 1), (POLICY, 0)
# Who asks for what, with which attributes, and what comes of it: the answer, its Error-Cause, and whose access server got it.
CASES = [
    ("a session of one's own, at a controller behind the city's proxy", OF_A, "disconnect",
     ['User-Name = "u@a.example"', 'NAS-Identifier = "wlc-1"', 'Acct-Session-Id = "0001"'], (ACK, None), CITY),
    ("the same by its id alone", OF_A, "disconnect", ['NAS-Identifier = "wlc-1"', 'Acct-Session-Id = "0001"'], (ACK, None), CITY),
    ("another realm's session, with a User-Name of one's own", OF_A, "disconnect",
     ['User-Name = "u@a.example"', 'NAS-Identifier = "wlc-2"', 'Acct-Session-Id = "0002"'], (NAK, "Session-Context-Not-Found"), None),
    ("its own realm may", OF_B, "disconnect", ['User-Name = "v@b.example"', 'NAS-Identifier = "wlc-2"', 'Acct-Session-Id = "0002"'], (ACK, None), CITY),
    ("a session at another controller of the same proxy", OF_A, "disconnect",
     ['NAS-Identifier = "wlc-2"', 'Acct-Session-Id = "0001"'], (NAK, "Session-Context-Not-Found"), None),
    ("a session that two controllers have, with the controller's name", OF_A, "coa",
     ['NAS-Identifier = "wlc-1"', 'Acct-Session-Id = "0003"', "Session-Timeout = 60"], (ACK, None), CITY),
    ("the same by the proxy's address alone", OF_A, "coa",
     [f"NAS-IP-Address = {CITY}", 'Acct-Session-Id = "0003"', "Session-Timeout = 60"], (NAK, "Multiple-Session-Selection-Unsupported"), None),
    ("two User-Names", OF_A, "disconnect",
     ['User-Name = "u@a.example"', 'User-Name = "v@b.example"', 'NAS-Identifier = "wlc-1"', 'Acct-Session-Id = "0001"'], (NAK, "Invalid-Request"), None),
    ("a User-Name alone", OF_A, "disconnect", ['User-Name = "u@a.example"', 'NAS-Identifier = "wlc-1"'], (NAK, "Session-Context-Not-Found"), None),
    ("a controller that nobody has", OF_A, "disconnect", ['NAS-Identifier = "controller-9"', 'Acct-Session-Id = "0001"'], (NAK, "Proxy-Request-Not-Routable"), None),
    ("a session by its operator's name", OF_A, "disconnect",
     ['Operator-Name = "1Stadium.Example"', 'Acct-Session-Id = "0004"'], (ACK, None), STADIUM),
    ("a session elsewhere by that operator's name", OF_A, "disconnect",
     ['Operator-Name = "1stadium.example"', 'Acct-Session-Id = "0001"'], (NAK, "Session-Context-Not-Found"), None),
    ("an operator that nobody is, beside a controller's name", OF_A, "disconnect",
     ['Operator-Name = "1nobody.example"', 'NAS-Identifier = "wlc-1"', 'Acct-Session-Id = "0001"'], (NAK, "Proxy-Request-Not-Routable"), None),
    ("the policy server asks", BY_POLICY, "coa", ['NAS-Identifier = "wlc-1"', 'Acct-Session-Id = "0001"', "Session-Timeout = 60"], (ACK, None), CITY),
    ("the other realm's home server asks at this realm's place", (SECOND, 0), "disconnect",
     ['NAS-Identifier = "wlc-1"', 'Acct-Session-Id = "0001"'], None, None),
    ("the policy server asks at the other realm's place", (POLICY, 1), "disconnect",
     ['NAS-Identifier = "wlc-2"', 'Acct-Session-Id = "0002"'], None, None),
    ("a Disconnect of an hour ago", OF_A, "disconnect",
     ['NAS-Identifier = "wlc-1"', 'Acct-Session-Id = "0001"', ("Event-Timestamp", -3600)], None, None),
    ("one of now", OF_A, "disconnect", ['NAS-Identifier = "wlc-1"', 'Acct-Session-Id = "0001"', ("Event-Timestamp", 0)], (ACK, None), CITY),
]


def received_by(around, name):
    """How many Disconnects and CoAs an access server got."""
    return len(re.findall(r"Received (?:Disconnect|CoA)-Request", around.log(name)))


def wrong_of(around, by, kind, attributes, expected, gets):
    """What is wrong of a case, or nothing."""
    before = {name: received_by(around, name) for name in ("city", "stadium")}
    words = [f"{it[0]} = {int(time.time()) + it[1]}" if isinstance(it, tuple) else it for it in attributes]
    answer = radclient(by[0], (BROKER, REVERSE[by[1]]), kind, words)
    time.sleep(0.1)
    got = [name for name in before if received_by(around, name) > before[name]]
    name = "Disconnect" if kind == "disconnect" else "CoA"
    wanted = (f"{name}-{expected[0]}", expected[1]) if expected else None
    goes_to = {CITY: ["city"], STADIUM: ["stadium"], None: []}[gets]
    return None if (answer, got) == (wanted, goes_to) else f"{answer}, got by {got}"


def look(what, wrong):
    want(wrong is None, what + (f": {wrong}" if wrong else ""))


def look_at_cases(around):
    for peer, user, nas, session in SESSIONS:
        answer = account(peer, user, nas, session)
        look(f"session {session} at {nas} begins", None if answer == ("Accounting-Response", None) else answer)
    for what, *case in CASES:
        look(what, wrong_of(around, *case))
    # The home server asks by itself.
    before = received_by(around, "city")
    account(CITY, "u@a.example", "wlc-1", "0001", "Interim-Update", ["Class = 0x656e6473"])
    time.sleep(2)
    acked = len(re.findall(r"Received Disconnect-ACK", around.log("first")))
    look("the home server ends a session by itself", None if received_by(around, "city") == before + 1 and acked == 1 else f"{acked} answers")
    # One controller starts anew.
    account(CITY, "u@a.example", "wlc-1", "", "Accounting-On")
    for nas, expected, gets in (("wlc-1", (NAK, "Session-Context-Not-Found"), None), ("wlc-2", (ACK, None), CITY)):
        wrong = wrong_of(around, OF_A, "disconnect", [f'NAS-Identifier = "{nas}"', 'Acct-Session-Id = "0003"'], expected, gets)
        look(f"a session at {nas} after wlc-1 started anew", wrong)


def main():
    [program] = words(__doc__, 0, 1) or [None]
    go_on()

    def start(around):
        around.broker(program, CONF, 180000)
        for number, (name, ip) in enumerate((("first", FIRST), ("second", SECOND))):
            around.freeradius(name, HOME.format(broker=BROKER, secret=SECRET, reverse=REVERSE[number], ip=ip, acct=ACCT), "yes")
        for name, ip in (("city", CITY), ("stadium", STADIUM)):
            around.freeradius(name, NAS.format(broker=BROKER, secret=SECRET, ip=ip, coa=COA))
    return tried(start, look_at_cases)


if __name__ == "__main__":
    sys.exit(main())
