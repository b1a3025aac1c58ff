"""Rows of requests that are refused before a realm, and of those that pass."""
from formulas import *
from row import Row

SOURCE = "requests"

row = Row("requests-refused", "one-server", SOURCE)
row.arrive(0, request(5, ON), 9, "Accounting-On without User-Name, rightly signed")
row.arrive(0, request(5, ON, b"xyzzy546"), 6, "the same signed with a shorter secret")
row.arrive(0, request(5, b"\x01\x0du@b.example" + START), 9, "a realm that isn't configured")
row.arrive(0, request(5, code=5), 5, "code 5 at the accounting place")
row.arrive(0, q5, 5, "an Accounting-Request at the authentication place", place="auth")
row.arrive(0, q5, 4, "from an address that is no access server's", source="192.0.2.9:5000")
row.arrive(0, q5, 4, "at a place of no realm", place="out:1", source=S1)
row.arrive(0, q5, 5, "a request from the home server", place="out:0", source=S1)
row.arrive(0, q5, 5,
           "a request at the realm's endpoint for reverse requests", place="reverse:0", source="198.51.100.1:40000")
good80 = seal(4, 5, Z, A, b"", P)[len(A):]
row.arrive(0, request(5, A + good80 + good80), 7, "two Message-Authenticators")
row.arrive(0, request(5, A + b"\x50\x11" + bytes(15)), 7, "one of 15 octets")
row.arrive(0, request(5, A + mac), 7, "a wrong one")
row.arrive(0, request(5, A + mac, b"no"), 6, "a wrong digest and a wrong one: the digest is looked at first")
row.arrive(0, request(5, mac), 7, "a wrong one and no realm: it is looked at first")
big = filled(4087, A)
row.arrive(0, request(5, big), 10, "an Accounting-Request of 4087 octets")
row.arrive(0, request(5, b"\x01\x0du@b.example" + filled(4087 - 13)), 9,
           "the same size of no realm: that is looked at first")
row.arrive(0, b"", 1, "no octets")
row.arrive(0, q5[:19], 1, "19 octets")
row.arrive(0, q5[:-1], 2, "an octet short of its Length")
row.arrive(0, q5[:20] + b"\x01\x0e" + q5[22:], 3, "an attribute that ends within the next, whose length is then wrong")
row.arrive(0, q5, [sent(f0)], "a good one: nothing was changed")
upper = request(6, b"\x01\x0du@A.EXAMPLE" + START)
row.arrive(0, upper, [sent(forward(upper, 1, 1))], "the realm's name in capitals")
two = request(7, b"\x01\x17u@b.example@a.example" + START)
row.arrive(0, two, [sent(forward(two, 2, 2))], "the realm stands behind the last at sign")
largest = request(8, filled(4086, A))
row.arrive(0, largest, [sent(forward(largest, 3, 3))], "one of 4086 octets, forwarded at 4096")

row = Row("all-kinds-of-accounting", "one-server", SOURCE)
kinds = [("Start", START), ("Stop", STOP), ("Interim-Update", INTERIM), ("Accounting-On", ON), ("Accounting-Off", OFF)]
for n, (what, status) in enumerate(kinds):
    q = request(16 + n, NAME + status + SESSION)
    f = forward(q, n, n)
    row.arrive(n, q, [sent(f)], f"{what}; it is forwarded")
    row.reply(n, response(f, b""), [given_back(back(q))], "its response")
    row.arrive(n, q, [given_back(back(q))], "its held reply")
