"""Rows of requests that are sent again, moved to the next server, and given up."""
from formulas import *
from row import Row

SOURCE = "servers"

row = Row("moved-to-the-second-server", "two-servers", SOURCE)
row.arrive(0, q5, [sent(f0)], "an Accounting-Request; it goes to the first server")
row.tick(999, [], "one before its deadline")
row.tick(1000, [sent(f0)], "the deadline: the same octets again")
row.tick(1999, [], "one before the next deadline")
row.tick(2000, [sent(s2, S2)], "no send left: built anew with the same ticket for the second server")
row.reply(2500, r0, 14, "the first server's late response finds nothing that waits")
row.arrive(2600, q5, [], "the same request while it waits there: nothing is sent")
row.tick(2999, [], "one before its deadline there")
row.tick(3000, [sent(s2, S2)], "the same octets to the second server again")
row.tick(4000, [], "no send and no server left: it is given up")
row.reply(4000, response(s2, T(0), H2), 14, "the second server's late response finds nothing that waits", source=S2)
row.arrive(4001, q5, [sent(forward(q5, 1, 1))], "the same request is new now: the first server's next Identifier")

row = Row("answered-by-the-second-server", "two-servers", SOURCE)
row.arrive(0, q5, [sent(f0)], "an Accounting-Request; it goes to the first server")
row.tick(1000, [sent(f0)], "sent again")
row.tick(2000, [sent(s2, S2)], "moved to the second server")
row.reply(2100, response(s2, b"", H1), 16, "a response signed with the first server's secret", source=S2)
row.reply(2100, response(s2, b"", H2), 14, "the second server's response from the first server's endpoint")
row.reply(2200, response(s2, b"\x19\x04cc", H2), [given_back(back(q5, b"\x19\x04cc"))],
          "the second server's response; it is returned", source=S2)
row.arrive(7199, q5, [given_back(back(q5, b"\x19\x04cc"))], "the held reply")
row.tick(7200, [], "the hold ends at 7200")
row.arrive(7201, q5, [sent(forward(q5, 1, 1))], "new now")

row = Row("answered-after-it-was-sent-again", "one-server", SOURCE)
row.arrive(0, q5, [sent(f0)], "an Accounting-Request")
row.tick(1200, [sent(f0)], "a late tick: sent again, its deadline is 2200")
row.tick(2199, [], "one before that")
row.reply(2199, r0, [given_back(b5)], "the response; it is held until 7199")
row.tick(2200, [], "nothing waits any more")
row.tick(7198, [], "one before the end of the hold")
row.arrive(7198, q5, [given_back(b5)], "the held reply")
row.tick(7199, [], "it goes")
row.arrive(7199, q5, [sent(forward(q5, 1, 1))], "new now")

row = Row("one-try-at-each-of-three-servers", "one-try-at-three-servers", SOURCE)
f3 = forward(q5, 0, 0, b"h3")
row.arrive(0, q5, [sent(f0)], "an Accounting-Request; it goes to the first server")
row.tick(1, [sent(s2, S2)], "one try, one millisecond: moved to the second server")
row.tick(2, [sent(f3, S3)], "moved to the third server")
row.reply(2, response(s2, b"", H2), 14, "the second server's late response", source=S2)
row.tick(3, [], "given up")
row.reply(3, response(f3, b"", b"h3"), 14, "the third server's late response", source=S3)
row.arrive(3, q5, [sent(forward(q5, 1, 1))], "new now")
row.arrive(3, q6, [sent(forward(q6, 2, 2))], "another one")
row.tick(100, [sent(forward(q5, 1, 1, H2), S2), sent(forward(q6, 2, 2, H2), S2)],
         "one tick, however late, moves each of them once: the second server's Identifiers go on from 1")
row.reply(100, response(forward(q5, 1, 1, H2), b"", H2), [given_back(b5)], "answered there", source=S2)

row = Row("four-tries", "four-tries", SOURCE)
row.arrive(0, q5, [sent(f0)], "an Accounting-Request")
for n in (10, 20, 30):
    row.tick(n, [sent(f0)], f"sent again at {n}")
row.tick(40, [], "given up")
row.reply(41, r0, 14, "a late response finds nothing that waits")

row = Row("eight-moved-in-one-tick", "two-servers", SOURCE)
eight = [request(n) for n in range(8)]
for n, q in enumerate(eight):
    row.arrive(0, q, [sent(forward(q, n, n))], f"Accounting-Request {n}")
row.tick(1000, [sent(forward(q, n, n)) for n, q in enumerate(eight)], "all are sent again, in order of ticket")
row.tick(2000, [sent(forward(q, n, n, H2), S2) for n, q in enumerate(eight)],
         "all are moved to the second server, with Identifiers 0 to 7")
for n in (3, 0):
    row.reply(2100, response(forward(eight[n], n, n, H2), b"", H2), [given_back(back(eight[n]))],
              f"the second server answers Identifier {n}", source=S2)
left = [n for n in range(8) if n not in (0, 3)]
row.tick(3000, [sent(forward(eight[n], n, n, H2), S2) for n in left], "the six that wait are sent again")
row.tick(4000, [], "they are given up")
row.arrive(4001, eight[3], [given_back(back(eight[3]))], "what was answered is still held")
row.arrive(4001, eight[1], [sent(forward(eight[1], 8, 8))], "what was given up is new")

row = Row("due-by-deadline-then-ticket", "two-servers", SOURCE)
row.arrive(100, q5, [sent(f0)], "ticket 0, deadline 1100")
row.arrive(50, q6, [sent(forward(q6, 1, 1))], "ticket 1, deadline 1050")
row.arrive(100, q7, [sent(forward(q7, 2, 2))], "ticket 2, deadline 1100")
row.tick(1100, [sent(forward(q6, 1, 1)), sent(f0), sent(forward(q7, 2, 2))],
         "by deadline: ticket 1; then, of one deadline, tickets 0 and 2")
row.arrive(1000, request(8), [sent(forward(request(8), 3, 3))], "ticket 3, deadline 2000")
row.tick(2100, [sent(forward(request(8), 3, 3)), sent(forward(q5, 0, 0, H2), S2),
                sent(forward(q6, 1, 1, H2), S2), sent(forward(q7, 2, 2, H2), S2)],
         "ticket 3 is sent again; then 0, 1 and 2, whose deadline is 2100, are moved in order of ticket")
