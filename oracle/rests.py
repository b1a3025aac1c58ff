"""Rows of servers that rest."""
from formulas import *
from row import Row

SOURCE = "rests"

q8, q9 = request(8), request(9)
s6 = forward(q6, 1, 1, H2)
row = Row("a-rest-that-becomes-shorter", "rest", SOURCE)
row.arrive(0, q5, [sent(f0)], "an Accounting-Request; it goes to the first server")
row.arrive(100, q6, [sent(forward(q6, 1, 1))], "another one")
row.tick(1000, [sent(f0)], "the first one again")
row.tick(1100, [sent(forward(q6, 1, 1))], "the other one again")
row.tick(2000, [sent(s2, S2)], "the first one has no send left: the first server rests until 12000, the second has it")
row.tick(2100, [sent(s6, S2)], "the other one likewise: the first server rests until 12100")
row.tick(3000, [sent(s2, S2)], "the first one again")
row.tick(3100, [sent(s6, S2)], "the other one again")
row.tick(4000, [], "the first one is given up: the second server rests until 14000, the other one waits there")
row.arrive(1500, q7, [sent(forward(q7, 2, 2))],
           "at an earlier moment, while both rest: to the first server, which rests until 11500 from then on")
row.reply(4050, response(s6, b"", H2), [given_back(b6)], "the second server answers: it rests no more", source=S2)
row.arrive(11499, q8, [sent(forward(q8, 2, 3, H2), S2)], "one before that end: to the second server")
row.arrive(11500, q9, [sent(forward(q9, 3, 4))], "at that end: to the first server")

row = Row("where-nothing-more-is-said", "least", SOURCE)
asked = [(q, forward(q, n, n), forward(q, n, n, H2)) for n, q in enumerate((q5, q6, q7))]
for q, first, _ in asked:
    row.arrive(0, q, [sent(first)], "an Accounting-Request; it goes to the first server")
row.reverse(0, reverse(40, 7, attribute(32, b"nas1") + NAME), 4, "there is no place for a Disconnect", source=S1)
row.tick(1999, [], "one before their deadline")
row.tick(2000, [sent(first) for _, first, _ in asked], "the second try of each")
row.tick(4000, [sent(first) for _, first, _ in asked], "the third and last one")
row.tick(5999, [], "one before their deadline")
row.tick(6000, [sent(second, S2) for *_, second in asked],
         "three silences in a row: the first server rests until 36000, the second has them")
for q, _, second in asked:
    row.reply(6100, response(second, b"", H2), [given_back(back(q))], "the second server answers", source=S2)
row.tick(16099, [], "one before the end of the hold")
row.arrive(16099, q5, [given_back(back(q5))], "the held reply")
row.tick(16100, [], "it goes")
row.arrive(35999, q5, [sent(forward(q5, 3, 3, H2), S2)], "one before the end of the rest: to the second server")
row.arrive(36000, q8, [sent(forward(q8, 3, 4))], "at that end: to the first one")
