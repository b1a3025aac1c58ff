"""Rows of arrivals: what is a packet, who may send which code to which place, signatures, and names of realms."""
from formulas import *
from row import Row

SOURCE = "arrivals"
NAS_PORT_1, S1_OTHER = "192.0.2.1:1", "198.51.100.1:9999"

row = Row("arrivals-that-pass", "two-realms", SOURCE)
row.arrive(0, q5, [sent(f0)], "a Start")
row.arrive(0, q5 + b"\xff\xff\0", [], "the same with padding: it is known")
row.arrive(0, q5, [sent(forward(q5, 1, 1))], "a Start from another port", source=NAS_PORT_1)
sealed = request(6, seal(4, 6, Z, A, b"", P))
g = request(2, seal(4, 2, Z, A, T(2), H1), H1)
row.arrive(0, sealed, [sent(g)], "a sealed Start")
row.reply(1, r0, 14, "the response at the other realm's place", realm=1)
row.reply(1, r0[:7] + bytes([r0[7] ^ 1]) + r0[8:], 16, "a response with a wrong digest, which the realm judges")
row.reply(1, r0, [given_back(b5)], "the response")
r1 = response(forward(q5, 1, 1))
row.reply(1, r1 + b"\0\0", [given_back(b5, NAS_PORT_1)], "the other one's with padding")

row = Row("arrivals-of-no-packet", "two-realms", SOURCE)
row.arrive(0, b"", 1, "no octets")
row.arrive(0, q5[:19], 1, "19 octets")
row.arrive(0, q5[:19], 1, "19 octets of a stranger", source=STRANGER)
for length in (19, 44, 4097):
    row.arrive(0, q5[:2] + length.to_bytes(2, "big") + q5[4:], 2, f"Length {length}; the datagram has 43 octets")
for length in (0, 1):
    row.arrive(0, q5[:21] + bytes([length]) + q5[22:], 3, f"an attribute of length {length}")
row.arrive(0, q5[:40] + b"\x05" + q5[41:], 3, "an attribute that passes the end")
row.arrive(0, q5[:21] + b"\0" + q5[22:], 3, "one of a stranger", source=STRANGER)

row = Row("arrivals-signed-and-sealed", "two-realms", SOURCE)
no_realm = ON
two, short, long = mac + mac, b"\x50\x11" + bytes(15), b"\x50\x13" + bytes(17)
right = seal(4, 5, Z, NAME, b"", P)
other = seal(4, 5, Z, NAME, b"", b"no")
ones = seal(4, 5, b"\x01" * 16, NAME, b"", P)
def wrong(packet):
    return packet[:4] + bytes([packet[4] ^ 1]) + packet[5:]
row.arrive(0, wrong(q5), 6, "a wrong digest")
row.arrive(0, request(5, A, b"no"), 6, "a digest with another secret")
row.arrive(0, q5[:-1] + b"\x30", 6, "one bit of the last octet turned round")
row.arrive(0, wrong(request(5, no_realm)), 6, "a wrong digest without a realm")
row.arrive(0, wrong(request(5, NAME + two)), 6, "a wrong digest and two Message-Authenticators")
row.arrive(0, request(5, NAME + two), 7, "two Message-Authenticators")
row.arrive(0, request(5, NAME + short), 7, "one of 15 octets")
row.arrive(0, request(5, NAME + long), 7, "one of 17 octets")
row.arrive(0, request(5, right[:-1] + bytes([right[-1] ^ 1])), 7, "a wrong one")
row.arrive(0, request(5, other), 7, "one with another secret")
row.arrive(0, request(5, ones), 7, "one over another Authenticator than zeros")
row.arrive(0, request(5, mac), 7, "a wrong one without a realm")
moved = request(0, seal(4, 0, Z, NAME, T(0), H1), H1)
row.arrive(0, request(5, right), [sent(moved)], "a right one")

row = Row("names-of-realms", "two-realms", SOURCE)
tickets = [0, 0]
NAMES = [
    ("no User-Name", b"", None),
    ("no octets", named(""), None),
    ("no @", named("a.example"), None),
    ("nothing behind the @", named("u@"), None),
    ("nothing before the @", named("@b.example"), 1),
    ("another case", named("u@A.EXAMPLE"), 0),
    ("two @, the last counts", named("u@b.example@a.example"), 0),
    ("two @, the last names no realm", named("u@b.example@c.example"), None),
    ("two @ in a row", named("u@@b.example"), 1),
    ("a longer name", named("u@xa.example"), None),
    ("a longer name behind", named("u@a.examples"), None),
    ("a shorter name", named("u@.example"), None),
    ("the second realm", named("u@b.example"), 1),
    ("two User-Names, the first counts", named("u@b.example") + NAME, 1),
    ("two User-Names, the first without a realm", named("u") + NAME, None),
]
for id, (what, name, realm) in enumerate(NAMES):
    q = request(id, name + START)
    if realm is None:
        row.arrive(0, q, 9, what)
    else:
        ticket = tickets[realm]
        tickets[realm] += 1
        row.arrive(0, q, [sent(forward(q, ticket, ticket), realm=realm)], what)

row = Row("sources-before-codes", "two-realms", SOURCE)
access = header(1, 7, NAME) + bytes.fromhex("0f403f9473978057bd83d5cb98f4227a") + NAME
reverse = request(0x22, bytes.fromhex("20066e6173312c043031"), H1, 40)
row.arrive(0, q5, 4, "a stranger", source=STRANGER)
row.arrive(0, q5, 4, "a home server where access servers send", source=S1)
row.arrive(0, access, 4, "a stranger with a wrong code", source=STRANGER)
row.arrive(0, access, 5, "an Access-Request where accounting is taken")
row.arrive(0, r0, 5, "an Accounting-Response there")
row.arrive(0, access, 4, "a stranger's Access-Request", place="auth", source=STRANGER)
row.arrive(0, q5, 5, "an Accounting-Request where Access-Requests are taken", place="auth")
row.arrive(0, b"\x0c" + access[1:], 5, "code 12 there", place="auth")
row.reply(0, r0, 4, "a response from another port of the server", source=S1_OTHER)
row.reply(0, r0, 4, "a response from an access server", source=NAS)
row.reply(0, r0, 4, "a response at a place without a realm", realm=2)
row.reply(0, q5, 5, "a request from the server")
row.reply(0, r0, 5, "an Accounting-Response from the endpoint for Access-Requests", source=S1_AUTH)
row.reply(0, r0, 5, "one from the access server's endpoint for reverse requests", source=COA)
row.arrive(0, reverse, 4, "a reverse request of a stranger", "reverse:0", STRANGER)
row.arrive(0, reverse, 4, "a reverse request of an access server", "reverse:0", NAS)
row.arrive(0, q5, 5, "an Accounting-Request where reverse requests are taken", "reverse:0", S1_OTHER)
row.arrive(0, reverse, 4, "a reverse request at a place without a realm", "reverse:2", S1)
