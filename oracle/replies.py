"""Rows of replies: which are refused, and what is returned."""
from formulas import *
from row import Row

SOURCE = "replies"

row = Row("replies-refused", "two-servers", SOURCE)
row.arrive(0, q5, [sent(f0)], "an Accounting-Request")
row.reply(1, response(f0, b"", id=1), 14, "well signed, for an Identifier where nothing waits")
row.reply(1, response(f0, b"", code=2), 5, "code 2 from the accounting endpoint")
row.reply(1, response(f0, b"", code=4), 5, "code 4 from the accounting endpoint")
row.reply(1, response(f0, b""), 5, "code 5 from the authentication endpoint", source=S1_AUTH)
row.reply(1, response(f0, b""), 5, "code 5 from the access server's endpoint for reverse requests", source=COA)
row.reply(1, response(f0, b""), 4, "from a port that is no link's", source="198.51.100.1:1814")
row.reply(1, response(f0, b"", H2), 14, "from the second server, where nothing waits", source=S2)
row.reply(1, response(f0, b""), 4, "at a place of no realm", realm=1)
row.reply(1, header(5, 0, b"") + Z, 16, "an authenticator of zeros")
good = response(f0, T(0))
row.reply(1, good[:4] + bytes([good[4] ^ 128]) + good[5:], 16, "one bit of its authenticator changed")
row.reply(1, good[:19] + bytes([good[19] ^ 1]) + good[20:], 16, "its last bit changed")
row.reply(1, good[:-1] + b"\1", 16, "one octet of its Proxy-State changed")
row.reply(1, response(f0, b"", P), 16, "signed with the access server's secret")
row.reply(1, response(f0, b"", b"h1\0"), 16, "signed with a longer secret")
row.reply(1, response(q5, b"", id=0), 16, "signed over the access server's request")
row.reply(1, response(f0, mac), 17, "rightly signed, with a wrong Message-Authenticator")
fine = seal(5, 0, f0[4:20], b"", b"", H1)
row.reply(1, response(f0, fine + fine), 17, "two Message-Authenticators")
row.reply(1, response(f0, b"\x50\x11" + bytes(15)), 17, "one of 15 octets")
row.reply(1, response(f0, b"\x50\x02"), 17, "one of no octets")
over = seal(5, 0, q5[4:20], b"", b"", H1)
row.reply(1, response(f0, over), 17, "one made over the access server's request")
row.reply(1, header(5, 0, mac) + Z + mac, 16, "wrong in both: the signature is looked at first")
row.reply(1, bytes([5, 0, 0, 19]) + f0[4:20], 2, "Length 19")
row.reply(1, response(f0, b"\x19\x03\xaa")[:-1] , 2, "an octet short of its Length")
row.arrive(2, q5, [], "it still waits")
row.tick(999, [], "and its deadline is what it was")
row.tick(1000, [sent(f0)], "sent again")
row.reply(1001, good + b"\xff", [given_back(b5)], "a good one, with padding")
row.reply(1002, good, 14, "the same again: nothing waits there")
row.arrive(1003, q6, [sent(forward(q6, 1, 1))], "the next Identifier and ticket are as if nothing had been refused")

row = Row("replies-with-seals", "one-server", SOURCE)
row.arrive(0, q5, [sent(f0)], "an Accounting-Request without a seal")
cls = b"\x19\x04cc"
m1 = seal(5, 0, f0[4:20], cls, T(0), H1)
w1 = seal(5, 5, q5[4:20], cls, b"", P)
row.reply(1, response(f0, m1), [given_back(back(q5, w1))],
          "a response with a seal over the request, between two attributes; it is sealed anew in its place")
row.arrive(2, q6, [sent(forward(q6, 1, 1))], "another one")
g = forward(q6, 1, 1)
m2 = seal(5, 1, Z, cls, cls, H1)
w2 = seal(5, 6, q6[4:20], cls, cls, P)
row.reply(3, response(g, m2), [given_back(back(q6, w2))], "a response with a seal over sixteen zero octets")
sealed7 = request(7, seal(4, 7, Z, NAME, START + SESSION, P))
g7 = request(2, seal(4, 2, Z, NAME, START + SESSION + T(2), H1), H1)
row.arrive(4, sealed7, [sent(g7)], "a request with a seal after its name; it is sealed anew in its place")
row.reply(5, response(g7, b"\x21\x03\xaa" + cls), [given_back(back(sealed7, cls))],
          "a response without a seal and with a strange Proxy-State")

qp = request(5, A + ps)
fp = forward(qp, 0, 0)
def filled(size, last=b""):
    """Classes that fill a packet of that size, before `last`."""
    left, out = size - 20 - len(last), b""
    while left > 255:
        n = 255 if left - 255 not in (1,) else 254
        out += bytes([25, n]) + b"\xc1" * (n - 2)
        left -= n
    return out + bytes([25, left]) + b"\xc2" * (left - 2) + last
row = Row("largest-reply", "one-server", SOURCE)
row.arrive(0, qp, [sent(fp)], "an Accounting-Request with a Proxy-State of three octets")
big, fit = filled(4094), filled(4093)
row.reply(1, response(fp, big), 18, "a response of 4094 octets without Proxy-State: it would be returned at 4097")
wrong = bytearray(response(fp, big)); wrong[4] ^= 1
row.reply(1, bytes(wrong), 16, "the same wrongly signed: that is looked at first")
row.reply(1, response(fp, filled(4094, b"\x50\x12" + Z)), 17, "one with a wrong seal: that is looked at first")
row.arrive(2, qp, [], "it still waits")
row.reply(3, response(fp, fit), [given_back(back(qp, fit + ps))], "one of 4093 octets; it is returned at 4096")
row.arrive(4, qp, [given_back(back(qp, fit + ps))], "the held reply of 4096 octets")
q6p = request(6, A + ps)
f6p = forward(q6p, 1, 1)
row.arrive(5, q6p, [sent(f6p)], "another one")
full = filled(4096, T(1))
row.reply(6, response(f6p, full), [given_back(back(q6p, full[:-10] + ps))],
          "a response of 4096 octets with the broker's Proxy-State; it is returned at 4089")

row = Row("reply-with-another-proxy-state", "one-server", SOURCE)
q = request(5, A + ps + b"\x21\x03\xbb")
f = forward(q, 0, 0)
row.arrive(0, q, [sent(f)], "an Accounting-Request with two Proxy-States")
row.reply(1, response(f, b"\x21\x03\xcc" + T(0) + b"\x19\x03\xee" + b"\x21\x02"),
          [given_back(back(q, b"\x19\x03\xee" + ps + b"\x21\x03\xbb"))],
          "a response with another, the broker's own, a Class and an empty one: the Class goes first, "
          "and then the request's")
