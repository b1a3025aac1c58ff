"""Rows of two realms, and of the greatest moment."""
from formulas import *
from row import Row

SOURCE = "realms"

qa, qb = request(5), request(5, B)
fa, fb = forward(qa, 0, 0), forward(qb, 0, 0)
row = Row("two-realms-share-a-server", "two-realms", SOURCE)
row.arrive(0, qa, [sent(fa)], "an Accounting-Request of u@a.example")
row.arrive(0, qb, [sent(fb, realm=1)], "one of u@b.example with the same key: the same Identifier and ticket")
row.reply(1, response(fa, b""), 16, "the first realm's response at the second realm's place", realm=1)
row.reply(2, response(fb, T(0)), [given_back(back(qb), realm=1)], "the second realm's response first", realm=1)
row.arrive(3, qa, [], "the first realm's request still waits")
row.arrive(3, qb, [given_back(back(qb), realm=1)], "the second realm's is held")
row.reply(4, response(fb, T(0)), 16, "the second realm's response at the first realm's place")
row.reply(5, response(fa, T(0)), [given_back(back(qa))], "the first realm's response")
row.reply(6, response(fa, T(0)), 14, "it again")
row.arrive(7, qa, [given_back(back(qa))], "the first realm's held reply")
row.tick(5002, [], "the second realm's held reply goes")
row.arrive(5003, qb, [sent(forward(qb, 1, 1), realm=1)], "it is new there")
row.arrive(5003, qa, [given_back(back(qa))], "the first realm's is held until 5005")

row = Row("two-realms-in-one-tick", "two-realms", SOURCE)
ra, rb = [request(n) for n in (1, 2)], [request(n, B) for n in (1, 2)]
row.arrive(0, rb[0], [sent(forward(rb[0], 0, 0), realm=1)], "the second realm's ticket 0")
row.arrive(1, ra[0], [sent(forward(ra[0], 0, 0))], "the first realm's ticket 0")
row.arrive(2, rb[1], [sent(forward(rb[1], 1, 1), realm=1)], "the second realm's ticket 1")
row.arrive(3, ra[1], [sent(forward(ra[1], 1, 1))], "the first realm's ticket 1")
row.tick(1003, [sent(forward(ra[0], 0, 0)), sent(forward(ra[1], 1, 1)),
                sent(forward(rb[0], 0, 0), realm=1), sent(forward(rb[1], 1, 1), realm=1)],
         "the first realm's by ticket, then the second's, although the second's were earlier")
row.reply(1500, response(forward(rb[0], 0, 0), b""), [given_back(back(rb[0]), realm=1)],
          "the second realm's ticket 0 is answered", realm=1)
row.tick(2003, [], "the three others are given up")
row.reply(2004, response(forward(ra[0], 0, 0), b""), 14, "too late")
row.arrive(2005, rb[0], [given_back(back(rb[0]), realm=1)], "what is held stays")
row.arrive(2005, ra[0], [sent(forward(ra[0], 2, 2))], "what was given up is new")

row = Row("two-realms-in-two-shards", "two-shards", SOURCE)
row.arrive(0, qa, [sent(fa)], "an Accounting-Request of the first realm, in shard 0; it waits 1000")
row.arrive(0, qb, [sent(fb, realm=1)], "one of the second realm, in shard 1; it waits 500")
row.tick(1000, [sent(fb, realm=1)], "a tick of shard 1 is the second realm's alone", shard=1)
row.tick(1000, [sent(fa)], "a tick of shard 0 is the first realm's alone")
row.tick(1499, [], "one before the second realm's deadline", shard=1)
row.tick(1500, [sent(fb, realm=1)], "its third send", shard=1)
row.tick(2000, [], "it is given up", shard=1)
row.tick(2000, [], "so is the first realm's, after two sends")
row.tick(2000, 20, "no such shard", shard=2)
row.arrive(2001, qb, [sent(forward(qb, 1, 1), realm=1)], "new")
row.arrive(2001, qa, [sent(forward(qa, 1, 1))], "new")

row = Row("one-realm-full-and-the-other-not", "few-places", SOURCE)
row.arrive(0, ra[0], [sent(forward(ra[0], 0, 0))], "the first realm's only place")
row.arrive(0, ra[1], 13, "busy there")
row.arrive(0, rb[0], [sent(forward(rb[0], 0, 0), realm=1)], "the second realm has two places")
row.arrive(0, rb[1], [sent(forward(rb[1], 1, 1), realm=1)], "and takes two")
row.arrive(0, request(3, B), 13, "busy there too")
row.reply(1, response(forward(rb[0], 0, 0), b""), [given_back(back(rb[0]), realm=1)],
          "one of the second realm is answered", realm=1)
row.arrive(2, ra[1], 13, "the first realm is still busy")
row.arrive(2, request(3, B), [sent(forward(request(3, B), 2, 2), realm=1)], "the second realm takes another")

row = Row("greatest-moment", "one-server", SOURCE)
row.arrive(TOP + 1, q5, 19, "one past the greatest moment")
row.arrive(2 ** 64 - 1, q5, 19, "the greatest number")
row.arrive(TOP, q5, [sent(f0)], "the greatest moment: Identifier 0, ticket 0")
row.arrive(TOP, q5, [], "the same: nothing is sent")
row.arrive(TOP + 1, q5, 19, "the same, one past: refused although it is known")
row.arrive(TOP + 1, q6, 19, "another one, one past")
row.reply(TOP + 1, r0, 19, "its response, one past")
row.reply(TOP + 1, response(f0, b"", id=9), 19, "a stale response, one past: the moment is looked at first")
row.reply(TOP + 1, response(f0, b"", b"h9"), 19, "a wrongly signed response, one past")
row.tick(TOP + 1, 19, "a tick, one past")
row.tick(2 ** 64 - 1, 19, "a tick at the greatest number")
row.tick(TOP + 1, 20, "no such shard, one past: the shard is looked at first", shard=1)
row.arrive(TOP + 1, q6[:4] + bytes([q6[4] ^ 1]) + q6[5:], 6, "a wrong digest, one past: it is looked at first")
row.tick(TOP, [], "a tick at the greatest moment: no deadline is reached")
row.reply(TOP, r0, [given_back(b5)], "the response at the greatest moment")
row.arrive(TOP, q5, [given_back(b5)], "the held reply")
row.arrive(TOP + 1, q5, 19, "the same, one past")
row.tick(TOP, [], "the hold ends past it")
row.arrive(TOP - 1000, q6, [sent(forward(q6, 1, 1))], "its deadline is the greatest moment")
row.tick(TOP, [sent(forward(q6, 1, 1))], "sent again there")

# ---- each of these events may be lost

row = Row("events-of-two-realms", "two-realms", SOURCE)
row.arrive(0, qa, [sent(fa)], "the first realm's request")
row.arrive(0, qb, [sent(fb, realm=1)], "the second realm's, of the same key")
row.reply(10, response(fb), [given_back(back(qb), realm=1)], "the second realm's response", realm=1)
row.arrive(20, qb, [given_back(back(qb), realm=1)], "its request again: its held reply")
row.tick(1015, [sent(fa)], "the first realm's is sent again")

# ---- a tick whose growths are refused, while each entry is looked at

row = Row("tick-of-two-realms-without-memory", "two-realms", SOURCE)
waiting = [[request(n, attributes) for n in range(4)] for attributes in (A, B)]
for n in range(4):
    for realm in range(2):
        row.arrive(0, waiting[realm][n], [sent(forward(waiting[realm][n], n, n), realm=realm)],
                   f"ticket {n} of the {('first', 'second')[realm]} realm")
row.tick(1000, [sent(forward(req, n, n), realm=realm) for realm in range(2) for n, req in enumerate(waiting[realm])],
         "the event whose growths are refused: the first realm's tickets, then the second's")
for realm in range(2):
    for n, req in enumerate(waiting[realm]):
        row.arrive(999, req, [], "it waits", probe=True)
row.tick(999, [], "nothing is due yet", probe=True)
row.tick(1999, [], "nothing is due after it")
row.reply(1999, response(forward(waiting[1][3], 3, 3)), [given_back(back(waiting[1][3]), realm=1)],
          "the second realm's last one is answered", realm=1)
row.tick(2000, [], "the others are given up")
row.arrive(2001, waiting[0][0], [sent(forward(waiting[0][0], 4, 4))], "new in the first realm")
row.arrive(2001, waiting[1][0], [sent(forward(waiting[1][0], 4, 4), realm=1)], "new in the second realm")
row.arrive(2001, waiting[1][3], [given_back(back(waiting[1][3]), realm=1)], "its held reply")
