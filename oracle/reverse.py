"""Rows of Disconnect and CoA: sessions, access servers, NAKs, answers."""
from formulas import *
from row import Row

SOURCE = "reverse"
NAS1, NAS4 = attribute(32, b"nas1"), attribute(4, bytes([192, 0, 2, 3]))
NAS1_IP, NAS3, NAS5 = attribute(4, bytes([192, 0, 2, 1])), attribute(32, b"n"), attribute(32, b"nas5")
OTHER = named("u@b.example")
ANY = bytes(range(16, 32))
KEY = attribute(16, b"\x80\x01" + ANY)
CAUSE = attribute(101, (503).to_bytes(4, "big"))
# Access servers: what names them, their `coa`, whence they send, their secrets.
FIRST = (NAS1, COA, NAS, P)
THIRD = (NAS3, "192.0.2.3:3799", "192.0.2.3:5000", b"0123456789abcdef" * 4)
FOURTH = (NAS4, "192.0.2.1:3798", "192.0.2.4:5000", b"k4")


def id_of(session):
    return attribute(44, session)


class Story(Row):
    """A row of one realm, which counts its tickets and the Identifiers toward each link."""

    def __init__(self, name, configuration):
        super().__init__(name, configuration, SOURCE)
        self.ticket, self.ids, self.now = 0, {}, 0

    def take(self, link):
        ticket, id = self.ticket, self.ids.get(link, 0)
        self.ticket, self.ids[link] = ticket + 1, (id + 1) % 256
        return id, ticket

    def account(self, what, status, session=None, server=FIRST, name=NAME, answered=True, lost=False):
        """An Accounting-Request with a new Identifier, and its response, which may find no memory for the session."""
        _, _, source, secret = server
        body = name + status + (b"" if session is None else id_of(session))
        id, ticket = self.take(S1)
        req = request(ticket % 256, body, secret)
        fwd = forward(req, id, ticket)
        self.arrive(self.now, req, [sent(fwd)], what, source=source)
        if answered:
            head = header(5, ticket % 256, b"")
            octets = head + md5(head, req[4:20], secret)
            reply, what = (self.lost, "it is answered, without its session") if lost else (self.reply, "it is answered")
            reply(self.now, response(fwd), [given_back(octets, source)], what)
        return req, fwd

    def ask(self, what, attributes, code=40, id=None, server=FIRST, answered=True):
        """A Disconnect or CoA that is forwarded, and its ACK."""
        _, coa, _, secret = server
        lane_id, ticket = self.take(coa)
        req = reverse(code, ticket % 256 if id is None else id, attributes)
        fwd = reverse(code, lane_id, attributes + T(ticket), secret)
        self.reverse(self.now, req, [sent(fwd, coa)], what)
        if answered:
            self.answer(req, fwd, "it is answered", server)
        return req, fwd

    def answer(self, req, fwd, what, server=FIRST, list=b""):
        ack = response(fwd, list, server[3], fwd[0] + 1)
        expected = [given_back(reverse_back(req, req[0] + 1, list), HOME, place="reverse:0")]
        self.reply(self.now, ack, expected, what, source=server[1])

    def nak(self, what, cause, attributes, code=40, id=77, proxy_states=b""):
        req = reverse(code, id, attributes)
        expected = [given_back(refused_with(cause, req, proxy_states), HOME, place="reverse:0")]
        self.reverse(self.now, req, expected, what)

    def kept(self, what, session, server=FIRST):
        self.ask(what + ": it is kept", server[0] + id_of(session), server=server)

    def gone(self, what, session, server=FIRST):
        self.nak(what + ": it isn't kept", 503, server[0] + id_of(session))


row = Story("sessions-in-order", "access-servers-of-two-sessions")
row.account("a Start", START, b"1")
row.account("a second one", START, b"2")
row.account("an Interim-Update of the first, which keeps its place", INTERIM, b"1")
row.account("a third one: the first one goes", START, b"3")
row.gone("the first", b"1")
row.kept("the second", b"2")
row.kept("the third", b"3")
row.account("a Stop of one that isn't kept", STOP, b"1")
row.account("a Stop of the second", STOP, b"2")
row.account("a fourth", START, b"4")
row.gone("the second", b"2")
row.kept("the third", b"3")
row.account("a Start of the third, which keeps its place", START, b"3")
row.account("a fifth at the other access server: the third goes", START, b"5", THIRD)
row.gone("the third", b"3")
row.kept("the fourth", b"4")
row.kept("the fifth", b"5", THIRD)
row.gone("the fifth at the first access server", b"5")

row = Story("sessions-begin-and-end", "access-servers")
for server in (FIRST, THIRD, FOURTH):
    row.account("a Start", START, b"1", server)
    row.account("an Interim-Update", INTERIM, b"2", server)
row.account("a Stop at the fourth", STOP, b"1", FOURTH)
row.gone("the fourth's", b"1", FOURTH)
row.kept("the first's", b"1")
row.account("an Accounting-On at the first", ON, None)
for session in (b"1", b"2"):
    row.gone("the first's", session)
    row.kept("the third's", session, THIRD)
row.account("an Accounting-Off with an id at the third", OFF, b"2", THIRD)
row.gone("the third's", b"1", THIRD)
row.gone("the third's", b"2", THIRD)
row.kept("the fourth's", b"2", FOURTH)
row.account("a Start after it", START, b"1", THIRD)
row.kept("the third's", b"1", THIRD)

row = Story("sessions-without-memory", "access-servers-of-two-sessions")
row.account("a Start for which there is no memory", START, b"1", lost=True)
row.gone("its session", b"1")
row.account("an Interim-Update of it", INTERIM, b"1")
row.kept("its session", b"1")
row.account("a Stop for which there is no memory", STOP, b"1", lost=True)
row.kept("its session", b"1")
row.account("a second Start", START, b"2")
row.account("a third one without memory, which takes nobody's place", START, b"3", lost=True)
row.kept("the first", b"1")
row.kept("the second", b"2")
row.gone("the third", b"3")
req, fwd = row.account("a request that waits", START, b"4", answered=False)
row.lost(0, response(fwd, b"", P), 16, "its response with another secret, without memory for the session")
row.gone("not answered yet", b"4")

row = Story("what-is-a-session", "access-servers")
row.account("a Start without an id", START)
row.account("a Start of an id without octets", START, b"")
row.kept("the one without octets", b"")
row.account("a status of three octets, and a good one", b"\x28\x05\0\0\1" + START, b"1")
row.account("one of five octets", b"\x28\x07\0\0\0\0\1", b"1")
row.account("one of none", b"\x28\x02", b"1")
row.account("no status", b"", b"1")
row.account("status 9", b"\x28\x06\0\0\0\x09", b"1")
row.account("status 257", b"\x28\x06\0\0\1\1", b"1")
row.gone("each of them", b"1")
row.account("a Stop and a Start", STOP + START, b"1")
row.gone("its first status counts", b"1")
row.account("a Start and a Stop, with two ids", START + STOP + id_of(b"2"), b"3")
row.kept("the first id", b"2")
row.gone("the second id", b"3")
row.account("a Stop of both", STOP + id_of(b"3"), b"2")
row.kept("the first one's wasn't kept, the other", b"2")
row.account("an id of the most octets", START, bytes(253))
row.kept("that one", bytes(253))
row.gone("one of an octet less", bytes(252))
_, fwd = row.account("a Start", START, b"4", answered=False)
row.reply(0, response(fwd, b"", P), 16, "its response with another secret")
row.reply(0, response(fwd, mac), 17, "one with a wrong Message-Authenticator")
row.gone("not answered yet", b"4")

row = Story("held-replies-and-sessions", "access-servers")
start, _ = row.account("a Start", START, b"1")
stop, _ = row.account("a Stop", STOP, b"1")


def again(what, req):
    head = header(5, req[1], b"")
    row.arrive(0, req, [given_back(head + md5(head, req[4:20], P))], what)


again("the Start again: its held response", start)
row.gone("the session", b"1")
row.account("another Start", START, b"1")
again("the Stop again: its held response", stop)
row.kept("the session", b"1")

row = Story("sessions-of-accounting-alone", "access-servers")
req = access(1, NAME + START + id_of(b"1"))
id, ticket = row.take(S1_AUTH)
fwd = forward_access(NAME + START + id_of(b"1"), id, ticket)
row.access(0, req, [sent(fwd, S1_AUTH)], "an Access-Request with what a Start has")
row.reply(0, response(fwd, code=2), [given_back(access_back(req, 2), place="auth")], "it is accepted", source=S1_AUTH)
row.gone("the Access-Request's session", b"1")
row.account("a Start", START, b"1")
row.ask("a Disconnect with what a Stop has", NAS1 + STOP + id_of(b"1"))
row.ask("a CoA with what an Accounting-Off has", OFF + NAS1 + id_of(b"1"), 43)
row.kept("the session", b"1")

row = Story("disconnects-of-a-session-that-ends", "access-servers")
row.account("a Start", START, b"1")
req, fwd = row.ask("a Disconnect", NAS1 + id_of(b"1"), id=200, answered=False)
row.account("a Stop", STOP, b"1")
row.reverse(0, req, [], "the Disconnect again: it waits")
row.gone("the session", b"1")
row.answer(req, fwd, "the Disconnect's answer")
held = given_back(reverse_back(req, 41), HOME, place="reverse:0")
row.reverse(0, req, [held], "the Disconnect again: its held answer")
row.nak("its key with other octets", 503, NAS1 + id_of(b"1") + ps, id=200, proxy_states=ps)
row.reverse(0, req, [held], "the Disconnect again")
row.tick(5000, [], "the held answer goes")
row.nak("the Disconnect again", 503, NAS1 + id_of(b"1"), id=200)

row = Story("for-no-access-server", "access-servers")
row.account("a Start", START, b"1")
row.account("a Start at one without `coa`", START, b"1", (NAS5, None, "192.0.2.5:5000", b"k5"))
for what, attributes in (
    ("neither NAS-Identifier nor NAS-IP-Address", NAME),
    ("only a session", id_of(b"1")),
    ("no such NAS-Identifier", attribute(32, b"nas") + NAME),
    ("one in capitals", attribute(32, b"NAS1") + NAME),
    ("one of no octets", attribute(32, b"") + NAME),
    ("no such NAS-IP-Address", attribute(4, bytes([192, 0, 2, 2])) + NAME),
    ("one of three octets", attribute(4, bytes([192, 0, 2])) + NAME),
    ("one of five octets", attribute(4, bytes([192, 0, 2, 1, 0])) + NAME),
    ("a wrong one before a right one", attribute(4, bytes(4)) + NAS1_IP + NAME),
    ("a wrong NAS-Identifier before a right one", attribute(32, b"x") + NAS1 + NAME),
    ("a right NAS-Identifier and a wrong NAS-IP-Address", NAS1 + attribute(4, bytes(4)) + NAME),
    ("two that name two access servers", NAS1 + NAS4 + NAME),
    ("an access server without `coa`", NAS5 + NAME),
    ("its session", NAS5 + id_of(b"1")),
    ("an address of an access server that is named otherwise", attribute(4, bytes([192, 0, 2, 4])) + NAME),
    ("neither User-Name nor session", NAS1),
    ("another realm's User-Name", NAS1 + OTHER),
    ("another realm's User-Name and a session that is kept", NAS1 + OTHER + id_of(b"1")),
    ("a User-Name without a realm", NAS1 + named("u")),
    ("another realm's User-Name before this one's", NAS1 + OTHER + NAME),
    ("salted values for nobody", NAME + KEY + attribute(69, b"")),
    ("salted values for another realm", NAS1 + OTHER + attribute(69, b"")),
):
    row.nak(what, 502, ps + attributes, 43 if "User-Name" in what else 40, proxy_states=ps)
row.nak("a session that isn't kept", 503, NAS1 + id_of(b"2") + ps + ps, 43, proxy_states=ps + ps)
row.nak("the same with salted values", 503, attribute(69, b"") + NAS1 + id_of(b"2"))
row.nak("two sessions: the first one counts", 503, NAS1 + id_of(b"2") + id_of(b"1"))
row.nak("salted values and a session that is kept", 401, attribute(69, b"") + NAS1 + id_of(b"1"))
row.nak("salted values and a User-Name", 401, NAS1 + NAME + id_of(b"2") + attribute(69, ANY) + ps, proxy_states=ps)
row.ask("a session that isn't kept, with a User-Name", NAS1 + NAME + id_of(b"2"))
row.ask("both NAS-Identifier and NAS-IP-Address", NAS1_IP + NAME + NAS1, 43)
row.ask("NAS-IP-Address alone", NAME + NAS1_IP)
row.ask("a right one before a wrong one", NAS1_IP + attribute(4, b"") + NAME)
row.ask("another realm's User-Name behind this one's", NAME + OTHER + NAS1)
row.ask("the realm in capitals", NAS1 + named("@A.EXAMPLE"))
row.ask("one that is known by name alone", NAS3 + NAME, server=THIRD)
row.ask("one that is known by address alone", NAS4 + NAME, 43, server=FOURTH)
row.ask("two sessions", NAS1 + id_of(b"1") + id_of(b"2"))

row = Story("salted-disconnects", "one-server")
for what, attributes in (
    ("a Tunnel-Password", attribute(69, b"\0\x80\1" + ANY)),
    ("one of one octet", attribute(69, b"\0")),
    ("a key", microsoft(KEY)),
    ("a key of no octets", microsoft(attribute(17, b""))),
    ("a key behind another sub-attribute", microsoft(attribute(7, b"\0\0\0\1"), attribute(17, b"\x80\1" + ANY))),
    ("a key in the second Vendor-Specific", microsoft(attribute(7, b"")) + microsoft(KEY)),
    ("a key behind a list that is none", microsoft(KEY, b"\x11") + microsoft(KEY)),
):
    row.nak(what, 401, NAS1 + attributes + NAME, 43)
for what, attributes in (
    ("a list that is none", microsoft(KEY, b"\x11")),
    ("a list whose last length is below 2", microsoft(KEY, b"\x11\1")),
    ("a list that passes the end", microsoft(KEY, b"\x11\x13" + ANY)),
    ("no sub-attribute", microsoft()),
    ("keys of another kind", microsoft(attribute(12, ANY + ANY))),
    ("another vendor", attribute(26, bytes([0, 0, 0, 9]) + KEY)),
    ("a vendor of three octets", attribute(26, bytes([0, 1, 55]))),
    ("a User-Password, which stays", attribute(2, ANY)),
):
    row.ask(what, NAS1 + attributes + NAME)

row = Story("disconnects-salted-by-vendors", "one-server")
for number, kinds, tag in SALTING_VENDORS:
    for kind in kinds:
        row.nak(f"type {kind} of vendor {number}", 401, NAS1 + of_vendor(
            number, attribute(200, b""), attribute(kind, tag + b"\x80\1" + ANY)) + NAME, 43)
for what, attributes in (
    ("a vendor whose values go on", of_vendor(24757, attribute(5, b"\0\x80\1" + ANY))),
    ("another vendor's type", of_vendor(6527, attribute(58, b"\x80\1" + ANY))),
    ("a vendor's type that isn't hidden", of_vendor(2356, attribute(21, b""), attribute(18, b""))),
    ("a list that is none", of_vendor(14823, attribute(44, b"\x80\1" + ANY), b"\x2c")),
):
    row.ask(what, NAS1 + attributes + NAME)

row = Story("answers-of-access-servers", "two-servers")
for code in (40, 43):
    req, fwd = row.ask("a request", NAS1 + NAME + ps, code, 9, answered=False)
    for other in sorted({41, 42, 44, 45} - {code + 1, code + 2}):
        row.reply(0, response(fwd, b"", P, other), 15, f"code {other}", source=COA)
        row.reply(0, header(other, fwd[1], b"") + Z, 15, f"code {other}, wrongly signed", source=COA)
    for other in (2, 5, 40):
        row.reply(0, response(fwd, b"", P, other), 5, f"code {other}", source=COA)
    row.reply(0, response(fwd, b"", P, code + 1), 5, "from a home server", source=S1)
    row.reply(0, response(fwd, b"", P, code + 1), 4, "from the access server's other port", source=NAS)
    row.reply(0, response(fwd, b"", H1, code + 1), 16, "with the home server's secret", source=COA)
    row.reply(0, response(req, b"", P, code + 1, fwd[1]), 16, "over the home server's request", source=COA)
    row.reply(0, response(fwd, b"", P, code + 1, 99), 14, "for another Identifier", source=COA)
    row.reply(0, response(fwd, mac, P, code + 2), 17, "with a wrong Message-Authenticator", source=COA)
    row.reply(0, response(fwd, filled(4094), P, code + 1), 18, "one that is too long", source=COA)
    row.reverse(0, req, [], "it still waits")
    reply = response(fwd, CAUSE + b"\x21\x03\xbb" + T(0), P, code + 2)
    back_to = reverse_back(req, code + 2, CAUSE + ps)
    row.reply(0, reply, [given_back(back_to, HOME, place="reverse:0")], "a NAK", source=COA)
    row.reply(0, reply, 14, "again: nothing waits", source=COA)
    row.reverse(0, req, [given_back(back_to, HOME, place="reverse:0")], "the request again: the held NAK")
req, fwd = row.ask("a Disconnect", NAS1 + NAME, id=10, answered=False)
row.answer(req, fwd, "values that are salted, and an EAP-Message, stay",
           list=microsoft(KEY) + attribute(69, ANY) + attribute(79, b"e"))
for over in ("forwarded", "zeros"):
    req, fwd = row.ask("a CoA", NAS1 + NAME + ps, 43, 11, answered=False)
    good = seal(44, fwd[1], fwd[4:20] if over == "forwarded" else Z, CAUSE, T(0), P)
    back_list = seal(44, 11, req[4:20], CAUSE, ps, H1)
    row.reply(0, response(fwd, good, P, 44), [given_back(reverse_back(req, 44, back_list), HOME, place="reverse:0")],
              f"sealed over the {over}" if over == "zeros" else "sealed over the forwarded request", source=COA)
    row.tick(5000, [], "all that is held goes")

row = Story("seals-of-disconnects", "one-server")
for what, attributes, number in (
    ("a wrong Message-Authenticator", NAS1 + NAME + mac, 7),
    ("two", seal(40, 5, Z, NAS1 + NAME, b"", H1) + mac, 7),
    ("one of 15 octets, for nobody", attribute(80, bytes(15)), 7),
    ("one over ones", seal(40, 5, b"\1" * 16, NAS1 + NAME, b"", H1), 7),
    ("one with the access server's secret", seal(40, 5, Z, NAS1 + NAME, b"", P), 7),
):
    row.reverse(0, reverse(40, 5, attributes), number, what)
    row.reverse(0, reverse(40, 5, attributes, P), 6, "the same signed with another secret")
req = reverse(40, 5, seal(40, 5, Z, NAS1, NAME, H1))
fwd = reverse(40, 0, seal(40, 0, Z, NAS1, NAME + T(0), P), P)
row.reverse(0, req, [sent(fwd, COA)], "a right one, which stays in its place")
row.reverse(0, reverse(43, 6, seal(43, 6, Z, ps, b"", H1)),
            [given_back(refused_with(502, reverse(43, 6, seal(43, 6, Z, ps, b"", H1)), ps), HOME, place="reverse:0")],
            "a NAK has none")
for code in (1, 4, 41, 44):
    row.reverse(0, reverse(code, 5, NAS1 + NAME), 5, f"code {code}")
row.reverse(0, req, 4, "from a stranger", source="192.0.2.1:3799")
row.reverse(0, req, 4, "at a place of no realm", realm=1)
row.arrive(0, req, 4, "at the authentication place", place="auth", source=HOME)
row.arrive(0, req, 5, "at the authentication place from an access server", place="auth")

row = Story("largest-disconnects", "one-server")
for size in (4087, 4086):
    body = filled(size, NAS1 + NAME)
    if size == 4086:
        row.ask("a Disconnect of 4086 octets, forwarded at 4096", body)
    else:
        row.reverse(0, reverse(40, 1, body), 10, "one of 4087 octets")
row.reverse(0, reverse(40, 1, filled(4087)), 10, "one of 4087 octets for nobody")
row.nak("one of 4086 octets for nobody", 502, filled(4086))
row.nak("one of Proxy-States", 502, (b"\x21\xff" + bytes(253)) * 15, proxy_states=(b"\x21\xff" + bytes(253)) * 15)

row = Story("naks-keep-nothing", "one-place")
req, fwd = row.ask("a Disconnect", NAS1 + NAME, id=1, answered=False)
row.nak("its key with other octets, for nobody", 502, NAME, id=1)
row.nak("another one for nobody", 502, NAME, id=2)
row.reverse(0, req, [], "the first one again: it waits")
row.reverse(0, reverse(43, 3, NAS1 + NAME), 13, "another one: the only place is taken")
row.reverse(TOP + 1, req, 19, "the first one too late")
row.reverse(TOP + 1, reverse(40, 2, NAME), 19, "the one for nobody too late")
row.reverse(TOP, reverse(40, 2, NAME), [given_back(refused_with(502, reverse(40, 2, NAME)), HOME, place="reverse:0")],
            "at the greatest moment")
row.answer(req, fwd, "the first one's answer")
row.access(0, access(1, NAME), [sent(forward_access(NAME, 0, 1, K(0)), S1_AUTH)],
           "an Access-Request: the held answer makes way")
row.nak("its key with other octets, for nobody", 502, NAME, id=1)
row.reverse(0, req, 13, "the first one again: it isn't known")

row = Story("no-answer-of-an-access-server", "no-hold")
body = NAS1 + NAME + ps
for n in range(2):
    req, fwd = row.ask("a Disconnect", body, id=8, answered=False)
    row.tick(row.now + 999, [], "it waits")
    row.reverse(row.now + 999, req, [], "it again")
    row.tick(row.now + 1000, [sent(fwd, COA)], "sent again")
    expected = [given_back(refused_with(505, req, ps), HOME, place="reverse:0")]
    row.tick(row.now + 2000, expected, "given up: a NAK, which isn't held")
    row.reply(row.now + 2000, response(fwd, b"", P, 41), 14, "too late an answer", source=COA)
    row.now += 2001

row = Story("no-failover-of-a-disconnect", "one-try-at-two-servers")
req, fwd = row.ask("a CoA", NAS1 + NAME, 43, 8, answered=False)
row.arrive(0, q5, [sent(forward(q5, 0, 1))], "an Accounting-Request")
nak = given_back(refused_with(505, req), HOME, place="reverse:0")
row.tick(1000, [nak, sent(forward(q5, 0, 1, H2), S2)], "a NAK, and the Accounting-Request is moved")
row.reverse(1001, req, [nak], "the CoA again: the held NAK")
row.tick(5999, [], "the Accounting-Request is given up")
row.reverse(5999, req, [nak], "the CoA again")
row.tick(6000, [], "the held NAK goes")
row.ticket, row.now = 2, 6000
row.ask("the CoA again", NAS1 + NAME, 43, 8)

row = Row("whence-disconnects-come", "home-servers", SOURCE)
body = NAS1 + NAME
ticket = 0
for source, secret in ((HOME, H1), ("198.51.100.1:1", H1), (S1, H1), ("198.51.100.9:40000", H2),
                       ("198.51.100.9:1813", H2)):
    req = reverse(40, 3, body, secret)
    fwd = reverse(40, ticket, body + T(ticket), P)
    row.reverse(0, reverse(40, 3, body, H3), 6, f"from {source} with the third server's secret", source=source)
    row.reverse(0, reverse(40, 3, body, b"zz"), 6, "with the other realm's", source=source)
    row.reverse(0, req, [sent(fwd, COA)], "with the first of that address", source=source)
    row.reply(0, response(fwd, ps, P, 41), [given_back(reverse_back(req, 41, b"", secret), source, place="reverse:0")],
              "its answer", source=COA)
    ticket += 1
req = reverse(40, 3, NAS1 + OTHER, b"zz")
row.reverse(0, req, [sent(reverse(40, 0, NAS1 + OTHER + T(0), P), COA, 1)], "the other realm's", realm=1)
row.reverse(0, reverse(40, 4, NAS1 + NAME, b"zz"),
            [given_back(refused_with(502, reverse(40, 4, NAS1 + NAME, b"zz"), secret=b"zz"), HOME, 1, "reverse:1")],
            "there for the first realm", realm=1)
row.reverse(0, req, 4, "from an address of the first realm alone", realm=1, source="198.51.100.9:40000")

row = Story("all-identifiers-toward-an-access-server", "access-servers-of-many-places")
body, port = NAS1 + NAME, "198.51.100.1:40001"
asked = [row.ask(f"Identifier {n}", body, id=n, answered=False) for n in range(256)]
other = reverse(43, 0, body)
row.reverse(0, other, 12, "from another port: all of them are in use", source=port)
row.reverse(0, reverse(40, 0, NAS1), [given_back(refused_with(502, reverse(40, 0, NAS1)), port, place="reverse:0")],
            "one for nobody", source=port)
third = reverse(43, 1, NAS3 + NAME)
row.reverse(0, third, [sent(reverse(43, 0, NAS3 + NAME + T(256), THIRD[3]), THIRD[1])], "one at another access server",
            source=port)
row.arrive(0, q5, [sent(forward(q5, 0, 257))], "an Accounting-Request")
row.answer(*asked[7], "one is answered")
row.reverse(0, other, [sent(reverse(43, 7, body + T(258), P), COA)], "its Identifier", source=port)
row.reverse(0, reverse(43, 9, body), [sent(reverse(43, 9, body + T(259), P), COA)],
            "another request in an entry's place: that one's Identifier counts as free, and is")

# A ledger of four sessions, and three access servers.
row = Story("who-makes-way-in-a-full-ledger", "full-ledger")
for session in (b"1", b"2", b"3"):
    row.account("a Start", START, session)
row.account("one at another", START, b"4", THIRD)
row.account("one at a third: the first one has most, and its oldest goes", START, b"5", FOURTH)
row.gone("the first one's first", b"1")
row.kept("its second", b"2")
row.kept("the third's", b"5", FOURTH)
row.account("one more at the second: it has two then, as the first has, whose oldest is older", START, b"6", THIRD)
row.gone("the first one's second", b"2")
row.kept("its third", b"3")
row.kept("the second's older one", b"4", THIRD)
row.account("one more at the third: it has two then, as the second has, whose oldest is older", START, b"7", FOURTH)
row.gone("the second's older one", b"4", THIRD)
row.kept("the second's other", b"6", THIRD)
row.kept("the first one's last", b"3")
row.account("one more at the third, which has most itself", START, b"8", FOURTH)
row.gone("its oldest", b"5", FOURTH)
row.kept("the first one's last", b"3")
row.account("a Start of one that is there", START, b"3")
row.kept("the third's", b"7", FOURTH)
row.account("a Stop at the third", STOP, b"7", FOURTH)
row.account("one more at the first, for which there is room", START, b"9")
row.kept("the second's", b"6", THIRD)
row.kept("the third's", b"8", FOURTH)
row.account("one more at the third: it and the first have two, and the first's oldest is older", START, b"0", FOURTH)
row.gone("the first one's third", b"3")
row.kept("its last", b"9")

row = Story("who-has-most-with-the-one-that-comes", "full-ledger")
for session, server in ((b"1", FIRST), (b"2", FIRST), (b"3", THIRD), (b"4", THIRD)):
    row.account("a Start, two at either access server", START, session, server)
row.account("one more at the second: it has three then, and loses its own oldest", START, b"5", THIRD)
row.gone("its oldest", b"3", THIRD)
row.kept("the first one's oldest", b"1")
row.account("one more at the first", START, b"6")
row.gone("its oldest", b"1")
row.kept("the second's older one", b"4", THIRD)
row.account("one at a third: both have two, and the first's oldest is older", START, b"7", FOURTH)
row.gone("the first one's oldest", b"2")
row.kept("the second's older one", b"4", THIRD)


def stamp(seconds):
    return attribute(55, seconds.to_bytes(4, "big"))


# The seconds of the wall clock stand behind a moment.
row = Story("old-and-new-timestamps", "fresh")
for what, seconds, stamps in (
        ("the same second", "/1000", stamp(1000)), ("300 seconds old", "/1000", stamp(700)), ("300 seconds ahead", "/1000", stamp(1300)),
        ("an older one, where no wall clock is known", "", stamp(0)), ("none", "/1000", b""),
        ("one of three octets", "/1000", attribute(55, b"\0\0\0")), ("one of five octets", "/1000", attribute(55, bytes(5))),
        ("an old one behind one that counts", "/1000", stamp(1000) + stamp(0)),
        ("the last second that there is", f"/{2 ** 32 + 299}", stamp(2 ** 32 - 1))):
    row.now = f"{0}{seconds}"
    row.ask(what, NAS1 + NAME + stamps, 40 + 3 * (len(stamps) % 2), answered=False)
for what, seconds, stamps in (
        ("301 seconds old", "/1000", stamp(699)), ("301 seconds ahead", "/1000", stamp(1301)),
        ("an old one before one that is new", "/1000", stamp(0) + stamp(1000)), ("the last second, and one later", f"/{2 ** 32 + 300}", stamp(2 ** 32 - 1)),
        ("the latest wall clock", f"/{2 ** 64 - 1}", stamp(2 ** 32 - 1)), ("the first second", "/301", stamp(0))):
    for code in (40, 43):
        row.reverse(f"0{seconds}", reverse(code, 99, NAS1 + NAME + stamps), 29, what)
old = NAS1 + NAME + stamp(0)
row.reverse("0/1000", reverse(40, 99, old, b"no"), 6, "an old one with a wrong secret: that is looked at first")
row.reverse("0/1000", reverse(40, 99, old + mac), 7, "and so is a wrong seal")
row.reverse("0/1000", reverse(40, 99, old + ps + ps), 24, "and how many Proxy-States there are")
row.reverse("0/1000", reverse(40, 99, filled(4090, old)), 29, "one that would grow too long: that comes behind")
row.reverse("0/1000", reverse(40, 99, stamp(0)), 29, "one for nobody: NAKs come behind")
row.reverse(f"{TOP + 1}/1000", reverse(40, 99, old), 29, "one past the greatest moment: that comes behind")
row.now = "1/1000"
row.account("an Accounting-Request with an old one: it isn't looked at", START + stamp(0), b"1")
row.reverse("2/5000", reverse(40, 0, NAS1 + NAME + stamp(1000)), 29, "the first one again, later: 29 before what is known")
row.reverse("2/1300", reverse(40, 0, NAS1 + NAME + stamp(1000)), [], "the first one again, soon: it waits")
