#!/usr/bin/env python3
"""try-samples.py [PROGRAM]

Plays requests over each configuration of packaging/samples, and looks whether what comes of each is what the sample says
that an operator gets: CASES has that. It is played by the broker that is written apart (oracle/broker.py); where a PROGRAM
is given, `roam check` has to accept each sample, and `roam sim` to print the same packets.
"""

import hashlib
import ipaddress
import os
import re
import sys
import tempfile

sys.dont_write_bytecode = True
from looks import be_quiet, end, go_on, want, words
from radius import packets, sealed_answer
from server import run
import broker

ROOT = os.path.dirname(os.path.dirname(os.path.dirname(os.path.abspath(__file__))))
SAMPLES = os.path.join(ROOT, "packaging", "samples")

ACCESS, ACCOUNTING = packets.ACCESS_REQUEST, packets.ACCOUNTING_REQUEST
CLASS = (25, b"of a class")
CISCO = (26, bytes([0, 0, 0, 9, 1, 6]) + b"priv")
CALLED, OPERATOR, CUI = 30, 126, 89
SERVICE, TUNNEL_TYPE, TUNNEL_MEDIUM, TUNNEL_GROUP = (6, bytes([0, 0, 0, 6])), (64, bytes([0, 0, 0, 13])), (65, bytes([0, 0, 0, 6])), (81, b"99")
VLAN = [SERVICE, TUNNEL_TYPE, TUNNEL_MEDIUM, TUNNEL_GROUP]
ASKED = [(4, bytes([192, 0, 2, 200])), (CALLED, b"00-11-22-33-44-55:room"), CISCO]
START, OF_SESSION = (40, bytes([0, 0, 0, 1])), (44, b"0001")


def to(endpoint, has=(), lacks=(), accept=None):
    """Forwarded there, with these attributes and none of those types; an Access-Accept of the first comes back as the second."""
    return ("to", endpoint, list(has), set(lacks), accept)


REJECT, ANSWER = ("reject",), ("answer",)


def refused(number):
    return ("refused", number)


def named(name, namespace="1"):
    """The attributes of an Operator-Name, and of the question for a Chargeable-User-Identity."""
    return [(OPERATOR, (namespace + name).encode()), (CUI, b"\0")]


# Of which sample and peer a request of which code is for which User-Name (none: without), and what comes of it; and how it is made
# where it isn't sealed, or has further attributes.
UNSEALED, IN_A_CIRCLE = "unsealed", "unsealed, with a Proxy-State"
CASES = [
    ("federation", "university", ACCESS, "u@college.example", to("192.0.2.17:1812", named("university.example"), (), (VLAN + [CLASS], [CLASS]))),
    ("federation", "university", ACCESS, "u@dep.institute.example", to("192.0.2.33:1812")),
    ("federation", "college", ACCESS, "u@University.Example", to("192.0.2.1:1812", named("college.example"))),
    ("federation", "university", ACCESS, "u@university.example", REJECT),
    ("federation", "university", ACCESS, "u@nobody.example", REJECT),
    ("federation", "university", ACCESS, "u@example", REJECT),
    ("federation", "university", ACCESS, "0001@wlan.mnc001.mcc001.3gppnetwork.org", REJECT),
    ("federation", "university", ACCESS, "u@a..b", REJECT),
    ("federation", "university", ACCESS, "u@b.", REJECT),
    ("federation", "university", ACCESS, "u@a b.org", REJECT),
    ("federation", "university", ACCESS, "u", REJECT),
    ("federation", "university", ACCESS, "u@inst.org", to("198.51.100.65:1812", (), (), ([CLASS], [CLASS]))),
    ("federation", "university", ACCESS, "u@inst.test", to("198.51.100.65:1812")),
    ("federation", "above-1", ACCESS, "u@inst.org", REJECT),
    ("federation", "above-2", ACCESS, "u@inst.test", REJECT),
    ("federation", "above-1", ACCESS, "u@college.example", to("192.0.2.17:1812", (), (OPERATOR, CUI), (VLAN, VLAN))),
    ("federation", "above-1", ACCESS, "u@school.example", REJECT),
    ("federation", "library", ACCESS, "u@school.example", to("[2001:db8:1:49::1]:1812")),
    ("federation", "institute", ACCESS, "u@college.example", to("192.0.2.17:1812", (), (26,))),
    ("federation", "university", ACCESS, "u@college.example", refused(8), UNSEALED),
    ("federation", "school", ACCESS, "u@college.example", to("192.0.2.17:1812", named("school.example")[:1], (CUI,)), UNSEALED),
    ("federation", "school", ACCESS, "u@college.example", refused(8), IN_A_CIRCLE),
    ("federation", "university", ACCOUNTING, "u@college.example", to("192.0.2.17:1813", named("university.example")[:1], (CUI,))),
    ("federation", "university", ACCOUNTING, "u@institute.example", ANSWER),
    ("federation", "university", ACCOUNTING, "u@inst.org", ANSWER),
    ("federation", "university", ACCOUNTING, None, ANSWER),
    ("federation", "university", ACCOUNTING, "u@school.example", refused(26)),
    ("federation", "above-1", ACCOUNTING, "u@school.example", refused(25)),
    ("federation", "university", ACCOUNTING, "u@nobody.example", refused(9)),
    ("hub", "airport", ACCESS, "0001@mnc001.mcc001.3gppnetwork.org",
     to("198.51.100.1:1812", [*named("AIRPORT:US", "4"), ASKED[1]], (), (VLAN + [CISCO, CLASS], [CLASS]))),
    ("hub", "airport", ACCESS, "0002@wlan.mnc002.mcc001.3gppnetwork.org", to("198.51.100.17:1812", (), (CALLED,))),
    ("hub", "trains", ACCESS, "u@operator.example", to("198.51.100.17:1812", named("trains.example"), (CALLED,)), [(OPERATOR, b"1another.example")]),
    ("hub", "airport", ACCESS, "u@operator.example", to("198.51.100.17:1812", [(OPERATOR, b"1another.example")]), [(OPERATOR, b"1another.example")]),
    ("hub", "airport", ACCESS, "u@operator.example", to("198.51.100.17:1812", [(OPERATOR, b"4AIRPORT:US")]), [(OPERATOR, b"4AIRPORT:US")]),
    ("hub", "stadium", ACCESS, "0001@mnc001.mcc001.3gppnetwork.org", REJECT),
    ("hub", "stadium", ACCESS, "u@operator.example", to("198.51.100.17:1812", named("stadium.example"))),
    ("hub", "stadium", ACCOUNTING, "0001@mnc001.mcc001.3gppnetwork.org", refused(25)),
    ("hub", "airport", ACCESS, "u@a.members.example", to("198.51.100.33:1812")),
    ("hub", "airport", ACCOUNTING, "u@a.members.example", refused(26)),
    ("hub", "airport", ACCOUNTING, "u@operator.example", to("198.51.100.17:1813", named("AIRPORT:US", "4")[:1], (CALLED,))),
    ("hub", "airport", ACCESS, "u@unknown.example", REJECT),
    ("visited-network", "visited-network", ACCESS, "u@university.example", to("198.51.100.1:1812", ASKED, (OPERATOR, CUI), (VLAN, VLAN))),
    ("visited-network", "visited-network", ACCOUNTING, "u@college.example", to("198.51.100.17:1813")),
    ("visited-network", "visited-network", ACCESS, "u@elsewhere.example", REJECT),
    ("visited-network", "visited-network", ACCOUNTING, "u@elsewhere.example", refused(9)),
]


# Of which sample and peer a user's session begins, at which access server, and who ends it then: the Disconnect goes to that endpoint.
SESSIONS = [
    ("federation", "institute", "u@college.example", b"institute-library", "192.0.2.17", "192.0.2.33:3799"),
    ("hub", "airport", "0001@mnc001.mcc001.3gppnetwork.org", b"airport-7", "198.51.100.9", "192.0.2.1:3799"),
    ("hub", "trains", "u@operator.example", b"train-2", "198.51.100.17", "192.0.2.17:3799"),
    ("visited-network", "visited-network", "u@university.example", b"ap-1", "198.51.100.2", "192.0.2.1:3799"),
    ("README", "library", "u@university.example", b"library-wlc", "198.51.100.1", "192.0.2.21:3799"),
]


def within(peer):
    """An address of the peer's: of a prefix the last."""
    return peer["prefixes"][-1][-1]


def request(code, number, user, secret, how):
    """The octets of a request."""
    attributes = ([(1, user.encode())] if user else []) + ASKED + (how if isinstance(how, list) else [])
    if code == ACCOUNTING:
        return packets.signed(code, number, packets.ZEROS, attributes + [START, OF_SESSION], secret)
    authenticator = hashlib.md5(bytes([number])).digest()
    attributes += [(2, packets.hidden(b"a password".ljust(16, b"\0"), secret, authenticator))]
    attributes += [(33, b"of a proxy")] if how == IN_A_CIRCLE else []
    attributes += [] if how in (UNSEALED, IN_A_CIRCLE) else [(80, packets.ZEROS)]
    return packets.text(code, number, authenticator, packets.sealed(code, number, authenticator, attributes, secret))


def reply(octets, secret, attributes):
    """A home server's sealed Access-Accept of a forwarded request."""
    return sealed_answer(packets.ACCESS_ACCEPT, octets, secret, attributes)


def text_of(name):
    """The text of a sample, or the configuration that the README begins with."""
    path = os.path.join(ROOT, "README.md") if name == "README" else os.path.join(SAMPLES, f"{name}.conf")
    with open(path, encoding="utf-8") as file:
        text = file.read()
    return text.split("```toml\n")[1].split("```")[0] if name == "README" else text


class Played:
    """A sample as it is played, with its script."""

    def __init__(self, name):
        self.config = broker.Config(text_of(name))
        self.broker, self.script, self.sent, self.now = broker.Broker(self.config), [], [], 0

    def event(self, line):
        self.script.append(line)
        sent, number = self.broker.event(line)
        self.sent += [broker.spelled(it) for it in sent]
        return sent, number

    def secret_at(self, realm, endpoint):
        """The secret of the home server that is asked there."""
        servers = self.config.realms[realm]["server"]
        return next(it["secret"].encode() for it in servers if endpoint in it["links"].values())

    def play(self, number, name, code, user, expected, how=None):
        """What is wrong of a case, or nothing."""
        peer = next(it for it in self.config.peers if it["name"] == name)
        octets = request(code, number, user, peer["secret"].encode(), how)
        # Each case has a moment of its own, at which nothing of the cases before it is held.
        self.now += 100000
        for shard in range(self.config.shards):
            for past in range(10):
                self.event(f"T {self.now - 90000 + past * 5000} {shard}")
        at = "auth" if code == ACCESS else "acct"
        sent, why = self.event(f"A {self.now} {at} {within(peer)}:40000 {octets.hex()}")
        if expected[0] == "refused":
            return None if why == expected[1] and not sent else f"{why} {sent}"
        if why is not None or len(sent) != 1:
            return f"refused {why}, {len(sent)} packets"
        realm, place, goes_to, octets = sent[0]
        packet = packets.Packet(octets)
        if expected[0] in ("reject", "answer"):
            wanted = packets.ACCESS_REJECT if expected == REJECT else packets.ACCOUNTING_RESPONSE
            return None if realm == "-" and packet.code == wanted else f"realm {realm}, code {packet.code}"
        return self.forwarded(realm, place, goes_to, packet, *expected[1:])

    def forwarded(self, realm, place, goes_to, packet, endpoint, has, lacks, accept):
        if realm == "-" or broker.at(*goes_to) != endpoint:
            return f"went to {goes_to}"
        missing = [it for it in has if packet.attributes.count(it) != 1]
        kept = [kind for kind, _ in packet.attributes if kind in lacks]
        if missing or kept:
            return f"lacks {missing}, keeps {kept}"
        if accept is None:
            return None
        octets = reply(packet.octets, self.secret_at(realm, goes_to), accept[0])
        sent, why = self.event(f"A {self.now + 5} {place} {endpoint} {octets.hex()}")
        returned = [it for it in packets.Packet(sent[0][3]).attributes if it[0] not in (80, 33)] if sent else why
        return None if returned == accept[1] else f"returned {returned}"


def session(played, name, user, nas, sender, endpoint):
    """What is wrong of a session's end: its own realm may end it, and no other one by a User-Name of its own."""
    peer = next(it for it in played.config.peers if it["name"] == name)
    played.now += 100000
    octets = request(ACCOUNTING, 1, user, peer["secret"].encode(), [(32, nas)])
    [(realm, place, goes_to, sent)], _ = played.event(f"A {played.now} acct {within(peer)}:40002 {octets.hex()}")
    secret = played.secret_at(realm, goes_to)
    answer = packets.signed(packets.ACCOUNTING_RESPONSE, sent[1], sent[4:20], [], secret)
    played.event(f"A {played.now} {place} {broker.at(*goes_to)} {answer.hex()}")
    secret, wrong = played.config.home_of(realm, sender)["secret"].encode(), []
    for number, (id, wanted) in enumerate(((b"0001", endpoint), (b"0002", None))):
        ends = [(1, user.encode()), (32, nas), (44, id), (55, int(played.now / 1000).to_bytes(4, "big"))]
        octets = packets.signed(packets.DISCONNECT_REQUEST, number, packets.ZEROS, ends, secret)
        [(_, _, goes_to, sent)], _ = played.event(f"A {played.now} reverse:{realm} {sender}:40003 {octets.hex()}")
        got = broker.at(*goes_to) if sent[0] == packets.DISCONNECT_REQUEST else None
        wrong += [] if got == wanted else [f"a Disconnect of {user} with {id} goes to {got}, not {wanted}"]
    return wrong


def numbers_of(played, name, users):
    """The refusals of a peer's requests for these users, which no home server answers."""
    peer = next(it for it in played.config.peers if it["name"] == name)
    numbers = []
    for number, user in enumerate(users):
        octets = request(ACCESS, number % 256, user, peer["secret"].encode(), None)
        numbers.append(played.event(f"A {played.now} auth {within(peer)}:{40001 + number // 256} {octets.hex()}")[1])
    return numbers


def share(played):
    """What is wrong of a realm's shares: one peer has no more waiting than the sample says, of a name that is dead at home, and
    another one may still ask for that name, up to the name's share, and for others."""
    played.now += 100000
    first = numbers_of(played, "university", ["u@dead.org"] * 129 + ["u@alive.org"])
    second = numbers_of(played, "college", ["u@dead.org"] * 33 + ["u@alive.org"])
    if (first, second) == ([None] * 128 + [27, 27], [None] * 32 + [27, None]):
        return []
    return [f"federation: of one peer {first.count(None)} wait, {first[-2:]}, and of another {second.count(None)}, {second[-2:]}"]


# What `roam check` advises of each sample: that its secrets are everybody's, and what it says of itself that a proxy is old.
ADVISED = {
    "federation": ("secret: is a sample's, ", 'advice: peer "school": require_seal: ', 'advice: realm "school.example", server 1: require_seal: ',
                   'advice: realm "school.example": name: has no *. '),
    "hub": ("secret: is a sample's, ",),
    "visited-network": ("secret: is a sample's, ",),
}


def by_program(program, name, played):
    """What the program does otherwise."""
    path = os.path.join(SAMPLES, f"{name}.conf")
    counts = f"ok realms {len(played.config.realms)} peers {len(played.config.peers)} shards {played.config.shards}\n"
    status, printed, said = run(program, "check", path)
    if (status, printed) != (0, counts):
        return [f"{name}: check prints {printed!r} {said!r}, not {counts!r}"]
    further = [line for line in said.splitlines() if not any(it in line for it in ADVISED[name])]
    if further:
        return [f"{name}: check advises {further}"]
    with tempfile.NamedTemporaryFile("w", suffix=".script") as script:
        script.write("\n".join(played.script) + "\n")
        script.flush()
        status, printed, said = run(program, "sim", path, script.name)
    wrong = [(one, other) for one, other in zip(printed.splitlines(), played.sent) if one != other]
    if status == 0 and printed.splitlines() == played.sent:
        return []
    return [f"{name}: sim ends with {status} {said!r}, {len(printed.splitlines())} lines, not {len(played.sent)}: {wrong[:1]}"]


def look_at_homes(config):
    """An institution's home servers are its peer's too, where it asks: the federation's in 192.0.2.0/24."""
    for realm in config.realms:
        for server in realm["server"]:
            if server["auth"].startswith("192.0.2."):
                address = ipaddress.ip_address(server["auth"].rpartition(":")[0])
                peers = [it["name"] for it in config.peers if any(address in prefix for prefix in it["prefixes"])]
                want(peers == [realm["name"].partition(".")[0]], f"{address} of {realm['name']} is of the peers {peers}")


def look_at_package():
    """The package's description has both kinds of addresses, and each alert has a severity."""
    with open(os.path.join(ROOT, "packaging", "debian", "control"), encoding="utf-8") as file:
        text = file.read()
    want("IPv4 and IPv6" in text and not re.search(r"no [^.]*IPv6", text), "the description has IPv6")
    with open(os.path.join(ROOT, "packaging", "installed", "roam.rules.yml"), encoding="utf-8") as file:
        alerts = file.read().split("- alert: ")[1:]
    for alert in alerts:
        want("severity: " in alert, f"{alert.splitlines()[0]} has a severity")


def main():
    [program] = words(__doc__, 0, 1) or [None]
    go_on()
    be_quiet()
    names = sorted(it.removesuffix(".conf") for it in os.listdir(SAMPLES) if it.endswith(".conf"))
    played = {name: Played(name) for name in [*names, "README"]}
    look_at_homes(played["federation"].config)
    look_at_package()
    for number, (sample, *case) in enumerate(CASES, 1):
        wrong = played[sample].play(number, *case)
        want(not wrong, f"{sample}: {case[:3]}: {wrong}")
    faults = share(played["federation"])
    want(not faults, f"{faults}")
    for sample, *case in SESSIONS:
        faults = session(played[sample], *case)
        want(not faults, f"{sample}: {faults}")
    for name in names:
        want(name in {it[0] for it in CASES}, f"{name}: a case is of it")
        faults = by_program(program, name, played[name]) if program else []
        want(not faults, f"{faults}") if program else None
    return end(f"{len(CASES)} requests and the ends of {len(SESSIONS)} sessions are answered and forwarded as {len(names)} samples say")


if __name__ == "__main__":
    sys.exit(main())
