"""Rows in which all Identifiers toward a server are in use."""
from formulas import *
from row import Row

SOURCE = "identifiers"

row = Row("all-identifiers-in-use", "one-server", SOURCE)
many = [request(n) for n in range(256)]
for n, q in enumerate(many):
    row.arrive(0, q, [sent(forward(q, n, n))], f"Identifier {n}")
row.arrive(1, many[0], 12, "a request from another port: no Identifier is free", source=NAS2)
row.arrive(2, many[9], [], "a known one while it waits: nothing is sent")
row.reply(3, response(forward(many[3], 3, 3), b""), [given_back(back(many[3]))], "Identifier 3 is answered")
row.arrive(3, many[0], 12, "Identifier 3 is still in use", source=NAS2, probe=True)
row.arrive(4, many[0], [sent(forward(many[0], 3, 256))], "the refused one again: Identifier 3, ticket 256", source=NAS2)
row.arrive(5, many[1], 12, "another one: all are in use again", source=NAS2)
row.arrive(6, many[3], [given_back(back(many[3]))], "the answered one again: its held reply")
other = request(7, A + b"\x19\x03\xaa")
row.arrive(7, other, [sent(forward(other, 7, 257))],
           "the key of a waiting one with other octets: its own Identifier counts as free, ticket 257")
row.reply(8, response(forward(many[7], 7, 7), b""), 16, "the response to the former one is wrong for the new one")
row.reply(9, response(forward(other, 7, 257), b""), [given_back(back(other))], "the response to the new one")
row.arrive(10, many[1], [sent(forward(many[1], 7, 258))],
           "its Identifier is free: the other port's next one", source=NAS2)

row = Row("identifiers-of-the-second-server", "two-servers-of-many-places", SOURCE)
for n, q in enumerate(many):
    row.arrive(0, q, [sent(forward(q, n, n))], f"the first server's Identifier {n}")
row.arrive(1, many[0], [sent(forward(many[0], 0, 256, H2), S2)], "the next goes to the second server", source=NAS2)
row.reply(2, response(forward(many[9], 9, 9), b""), [given_back(back(many[9]))],
          "the first server answers Identifier 9")
row.arrive(3, many[1], [sent(forward(many[1], 9, 257))], "the next goes to the first server again", source=NAS2)
row.arrive(4, many[2], [sent(forward(many[2], 1, 258, H2), S2)], "and the next to the second", source=NAS2)

row = Row("all-identifiers-and-places-in-use", "256-places", SOURCE)
for n, q in enumerate(many):
    row.arrive(0, q, [sent(forward(q, n, n))], f"Identifier {n}")
row.arrive(1, many[0], 12, "no Identifier is free and no place: the Identifier is looked at first", source=NAS2)
row.reply(2, response(forward(many[255], 255, 255), b""), [given_back(back(many[255]))], "Identifier 255 is answered")
row.arrive(2, many[0], 12, "Identifier 255 is still in use", source=NAS2, probe=True)
row.arrive(3, many[255], [given_back(back(many[255]))], "it is held")
row.arrive(4, many[0], [sent(forward(many[0], 255, 256))], "the refused one again: what is held makes way", source=NAS2)
row.arrive(5, many[255], 12, "the answered one is new: no Identifier is free")
row.tick(1000, [sent(forward(q, n, n)) for n, q in enumerate(many[:255])], "the other 255 are sent again")

row = Row("moved-where-an-identifier-is-free", "one-try-at-two-servers", SOURCE)
for n, q in enumerate(many):
    row.arrive(0, q, [sent(forward(q, n, n))], f"the first server's Identifier {n}")
for n, q in enumerate(many):
    row.arrive(10 if n != 5 else 0, q, [sent(forward(q, n, 256 + n, H2), S2)],
               f"the second server's Identifier {n}", source=NAS2)
row.arrive(11, request(0, A + ps), 12, "both are full", source="192.0.2.1:5002")
row.tick(1000, [], "all of the first server are due at 1000, and ticket 261 of the second: "
         "no Identifier is free there until that one goes, which comes last: all are given up")
row.arrive(1001, many[5], [sent(forward(many[5], 0, 512))],
           "Identifier 5 of the second server was freed; the first server's are free", source=NAS2)

row = Row("moved-to-an-identifier-freed-in-the-tick", "one-try-at-two-servers", SOURCE)
for n, q in enumerate(many):
    row.arrive(10, q, [sent(forward(q, n, n))], f"the first server's Identifier {n}")
for n, q in enumerate(many):
    row.arrive(20 if n != 5 else 0, q, [sent(forward(q, n, 256 + n, H2), S2)],
               f"the second server's Identifier {n}", source=NAS2)
row.tick(1010, [sent(forward(many[0], 5, 0, H2), S2)],
         "ticket 261 is due first and is given up; ticket 0 takes its Identifier 5; "
         "all others of the first server are given up")
row.reply(1011, response(forward(many[0], 5, 0, H2), b"", H2), [given_back(back(many[0]))],
          "it is answered there", source=S2)
row.tick(1020, [], "the second server's others are given up")
row.arrive(1021, many[0], [given_back(back(many[0]))], "it is still held")

row = Row("second-realm-while-the-first-uses-all-identifiers", "two-realms", SOURCE)
for n, q in enumerate(many):
    row.arrive(0, q, [sent(forward(q, n, n))], f"the first realm's Identifier {n}")
of_b = [request(n, B) for n in range(3)]
g0 = forward(of_b[0], 0, 0)
row.arrive(1, of_b[0], [sent(g0, realm=1)], "the second realm's first request: Identifier 0, ticket 0")
row.arrive(2, many[0], 12, "one more of the first realm, from another port: no Identifier is free", source=NAS2)
row.arrive(3, of_b[1], [sent(forward(of_b[1], 1, 1), realm=1)], "the second realm has more")
row.reply(4, response(g0), 16, "the second realm's response at the first realm's place, where Identifier 0 waits too")
row.reply(5, response(g0), [given_back(back(of_b[0]), realm=1)], "at its own place: it is returned", realm=1)
row.arrive(6, many[0], 12, "the second realm's Identifier 0 is free again, and of no use to the first", source=NAS2)
row.reply(7, response(forward(many[3], 3, 3)), [given_back(back(many[3]))],
          "the first realm's Identifier 3 is answered")
row.arrive(8, many[0], [sent(forward(many[0], 3, 256))],
           "the refused request again: Identifier 3, ticket 256", source=NAS2)
row.arrive(9, of_b[2], [sent(forward(of_b[2], 2, 2), realm=1)],
           "the second realm's next Identifier and ticket are its own")
