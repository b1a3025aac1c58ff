"""Rows of Access: passwords, Message-Authenticators, local rejects, random words and salted values."""
from formulas import *
from row import Row

SOURCE = "access"
EAP = attribute(79, b"\x02\x01\x00\x05\x01")
CHAP = attribute(3, b"\x01" + bytes(range(16)))
ANY = bytes(range(16, 32))


def give(row, now, req, id, ticket, what, attributes=None, **keys):
    """An Access-Request that is forwarded: with its own list, where no other is said."""
    sent_to, source = keys.pop("to", S1_AUTH), keys.pop("source", NAS)
    octets = forward_access(req[20:] if attributes is None else attributes, id, ticket, **keys)
    row.access(now, req, [sent(octets, sent_to, keys.get("realm", 0))], what, source)
    return octets


row = Row("password-of-each-size", "two-servers", SOURCE)
for n in range(8):
    plain = (b"correct horse battery staple" * 5)[:16 * n + 9].ljust(16 * n + 16, b"\0")
    req = access(n, NAME + password(plain, P, Q) + ps)
    give(row, 0, req, n, n, f"a User-Password of {len(plain)} octets", NAME + password(plain, H1, K(n)) + ps)

row = Row("password-at-the-second-server", "one-try-at-two-servers", SOURCE)
plain = b"seventeen octets.".ljust(32, b"\0")
req = access(1, password(plain, P, Q) + NAME)
give(row, 0, req, 0, 0, "a User-Password", password(plain, H1, K(0)) + NAME)
moved = forward_access(password(plain, H2, K(1)) + NAME, 0, 0, K(1), H2)
row.tick(1000, [sent(moved, S2_AUTH)], "moved: hidden with the second server's secret and new words")
good = response(moved, attribute(18, b"hi"), H2, code=2)
row.reply(1001, response(forward_access(b"", 0, 0), b"", code=2), 14, "the first server is too late", source=S1_AUTH)
row.reply(1002, good, [given_back(access_back(req, 2, attribute(18, b"hi")), place="auth")],
          "the second one's Accept", source=S2_AUTH)

row = Row("passwords-that-are-not-hidden", "one-server", SOURCE)
hidden = attribute(2, ANY)
req = request(5, A + hidden)
row.arrive(0, req, [sent(forward(req, 0, 0))], "a User-Password of an Accounting-Request stays")
give(row, 0, access(1, NAME + CHAP + attribute(60, b"")), 0, 1, "a CHAP-Challenge of no octets: none is added",
     words=K(0))
give(row, 0, access(2, attribute(60, ANY) + CHAP + NAME), 1, 2, "a CHAP-Challenge before the CHAP-Password", words=K(1))
give(row, 0, access(3, CHAP + NAME + CHAP + ps), 2, 3, "two CHAP-Passwords: one CHAP-Challenge",
     CHAP + NAME + CHAP + ps + attribute(60, Q), words=K(2))
give(row, 0, access(4, attribute(69, ANY) + NAME + microsoft(attribute(16, ANY))), 3, 4,
     "salted values of a request stay", words=K(3))
give(row, 0, access(5, NAME + attribute(60, ANY)), 4, 5, "a CHAP-Challenge alone", words=K(4))

row = Row("seals-of-access-requests", "one-server", SOURCE)
give(row, 0, access(0, seal(1, 0, Q, b"", NAME + ps, P)), 0, 0, "a Message-Authenticator in front", NAME + ps)
give(row, 0, access(1, seal(1, 1, Q, NAME, ps, P)), 1, 1, "one between", NAME + ps)
give(row, 0, access(2, seal(1, 2, ANY, NAME + EAP + EAP, b"", P), ANY), 2, 2, "one behind two EAP-Messages",
     NAME + EAP + EAP)
row.access(0, access(3, seal(1, 3, Z, NAME, b"", P)), 7, "one made over zeros")
row.access(0, access(3, seal(1, 3, Q, NAME, b"", H1)), 7, "one made with the home server's secret")
row.access(0, access(4, seal(1, 3, Q, NAME, b"", P)), 7, "another Identifier")
row.access(0, access(3, seal(1, 3, Q, NAME, b"", P) + ps), 7, "a Proxy-State that came behind it")
row.access(0, access(3, seal(1, 3, Q, NAME, EAP, P) + mac), 7, "a second one")
row.access(0, access(3, NAME + EAP), 8, "an EAP-Message, and none")
give(row, 0, access(3, NAME), 3, 3, "none, and no EAP-Message")

row = Row("local-rejects", "one-server", SOURCE)
row.access(0, access(1, attribute(1, b"u@b.example")), [rejected(access(1, b""))], "no such realm")
row.access(0, access(1, attribute(1, b"a.example")), [rejected(access(1, b""))], "no realm behind an at sign")
row.access(0, access(1, ps + attribute(1, b"u@") + NAME + ps), [rejected(access(1, b""), ps + ps)],
           "the first User-Name names none")
row.access(0, access(1, b""), [rejected(access(1, b""))], "no User-Name")
row.access(0, access(1, b""), [rejected(access(1, b""))], "again")
row.access(0, access(1, NAME + CHAP + hidden), [rejected(access(1, b""))], "both kinds of passwords")
row.access(0, access(1, hidden + NAME + ps + hidden), [rejected(access(1, b""), ps)], "two User-Passwords")
for size in (1, 15, 17, 127, 129, 144, 253):
    row.access(0, access(1, NAME + attribute(2, bytes(size))), [rejected(access(1, b""))],
               f"a User-Password of {size} octets")
row.access(TOP + 1, access(1, b""), [rejected(access(1, b""))], "too late a moment: it isn't looked at")
row.access(0, access(1, filled(4090)), [rejected(access(1, b""))], "one whose forwarded packet would be too long")
row.access(0, access(1, seal(1, 1, Q, ps, EAP, P)), [rejected(access(1, b""), ps)], "one with a Message-Authenticator")
row.access(0, access(1, mac), 7, "a wrong Message-Authenticator is looked at before")
row.access(0, access(1, EAP), 8, "so is none where there is an EAP-Message")
row.access(0, access(1, b""), 4, "from a stranger", source=STRANGER)
row.access(0, access(1, b"", ANY), [rejected(access(1, b"", ANY), to=NAS2)], "from another port", source=NAS2)
give(row, 0, access(1, NAME), 0, 0, "a good one: nothing was kept")
row.access(0, access(1, b""), [rejected(access(1, b""))], "the same key, rejected")
row.access(0, access(1, NAME), [], "the good one waits as before")

row = Row("seals-before-local-rejects", "seal-required", SOURCE)
row.access(0, access(1, b""), 8, "no Message-Authenticator, and no User-Name")
row.access(0, access(1, NAME + hidden + hidden), 8, "none, and two User-Passwords")
row.access(0, access(1, mac), 7, "a wrong one")
row.access(0, access(1, seal(1, 1, Q, ps, b"", P)), [rejected(access(1, b""), ps)], "a right one, and no User-Name")
row.arrive(0, q5, [sent(f0)], "an Accounting-Request needs none")
give(row, 0, access(1, seal(1, 1, Q, NAME, b"", P)), 0, 1, "a right one", NAME, words=K(0))

row = Row("words-are-for-access-alone", "one-try-at-three-servers", SOURCE)
give(row, 0, access(1, NAME), 0, 0, "an Access-Request")
row.arrive(0, q5, [sent(forward(q5, 0, 1))], "an Accounting-Request of the same user: no words, Identifiers of its own")
give(row, 0, access(2, NAME), 1, 2, "an Access-Request with the next words", words=K(1))
row.access(0, access(2, NAME), [], "the same again takes none")
row.access(0, access(1, b""), [rejected(access(1, b""))], "a local reject takes none")
row.access(0, access(9, filled(4069, NAME)), 10, "nor does one that is too long")
row.tick(1, [sent(forward_access(NAME, 0, 0, K(2), H2), S2_AUTH), sent(forward(q5, 0, 1, H2), S2),
             sent(forward_access(NAME, 1, 2, K(3), H2), S2_AUTH)], "each that is moved takes the next four")
row.tick(2, [sent(forward_access(NAME, 0, 0, K(4), H3), S3_AUTH), sent(forward(q5, 0, 1, H3), S3),
             sent(forward_access(NAME, 1, 2, K(5), H3), S3_AUTH)], "and again")
row.tick(3, [], "all are given up")
give(row, 4, access(1, NAME), 2, 3, "a new one", words=K(6))

row = Row("words-of-two-realms", "two-realms", SOURCE)
OTHER = named("u@b.example")
give(row, 0, access(1, OTHER), 0, 0, "the second realm has a stream of its own", realm=1)
give(row, 0, access(2, NAME), 0, 0, "the first realm's begins")
give(row, 0, access(3, OTHER), 1, 1, "the second realm's goes on", realm=1)
row.tick(1000, [sent(forward_access(NAME, 0, 0), S1_AUTH), sent(forward_access(OTHER, 0, 0, realm=1), S1_AUTH, 1),
                sent(forward_access(OTHER, 1, 1, realm=1), S1_AUTH, 1)], "sent again with their words")
give(row, 1000, access(4, NAME), 1, 1, "the first realm's goes on")
give(row, 1000, access(5, OTHER), 2, 2, "and the second's", realm=1)

row = Row("failover-without-memory", "two-servers", SOURCE)
waiting = [access(n, NAME) for n in range(4)]
for n in range(4):
    give(row, 0, waiting[n], n, n, f"ticket {n}")
row.tick(1000, [sent(forward_access(NAME, n, n), S1_AUTH) for n in range(4)], "they are sent again")
moved = [forward_access(NAME, n, n, K(4 + n), H2) for n in range(4)]
row.tick(2000, [sent(octets, S2_AUTH) for octets in moved],
         "the event whose growths are refused: they are moved, each with the next four words")
for n in range(4):
    row.access(1999, waiting[n], [], "it waits", probe=True)
row.reply(1999, response(moved[3], b"", H2, 2), 14, "nothing waits at the second server", source=S2_AUTH, probe=True)
row.tick(1999, [], "nothing is due yet", probe=True)
row.reply(2001, response(forward_access(NAME, 3, 3), b"", code=2), 14, "nothing waits at the first server",
          source=S1_AUTH)
row.reply(2001, response(moved[3], b"", H2, 2), [given_back(access_back(waiting[3], 2), place="auth")],
          "the second server answers the last one", source=S2_AUTH)
row.tick(3000, [sent(octets, S2_AUTH) for octets in moved[:3]], "the others are sent again there")

row = Row("challenge-and-answer", "one-server", SOURCE)
req = access(1, seal(1, 1, Q, NAME + EAP, b"", P))
fwd = give(row, 0, req, 0, 0, "an EAP-Message", NAME + EAP)
STATE = attribute(24, b"\x01\x02")
row.reply(1, response(fwd, EAP + STATE, code=11), 17, "a Challenge with an EAP-Message and no Message-Authenticator",
          source=S1_AUTH)
row.reply(1, response(fwd, seal(11, 0, K(0), EAP + STATE, T(0), H1), code=11),
          [given_back(access_back(req, 11, EAP + STATE), place="auth")], "one with both", source=S1_AUTH)
again = access(2, seal(1, 2, ANY, NAME + EAP + STATE, b"", P), ANY)
fwd = give(row, 2, again, 1, 1, "the user's answer", NAME + EAP + STATE)
row.reply(3, response(fwd, b"", code=2), [given_back(access_back(again, 2), place="auth")],
          "an Accept without an EAP-Message and a Message-Authenticator", source=S1_AUTH)
row.access(4, req, [given_back(access_back(req, 11, EAP + STATE), place="auth")], "the first one again: its Challenge")

row = Row("access-replies-refused", "two-servers", SOURCE)
req = access(7, NAME + ps)
fwd = give(row, 0, req, 0, 0, "an Access-Request")
for code in (1, 4, 5, 12, 41, 44):
    row.reply(1, response(fwd, code=code), 5, f"code {code} from the authentication endpoint", source=S1_AUTH)
row.reply(1, response(fwd, code=2), 5, "an Accept from the accounting endpoint")
row.reply(1, response(fwd, code=2), 5, "one from the access server's endpoint", source=COA)
row.reply(1, response(fwd, b"", H2, 2), 14, "one from the second server", source=S2_AUTH)
row.reply(1, response(fwd, code=2, id=1), 14, "one for another Identifier", source=S1_AUTH)
row.reply(1, response(fwd, b"", P, 2), 16, "one with the access server's secret", source=S1_AUTH)
row.reply(1, response(req, code=2, id=0), 16, "one over the access server's request", source=S1_AUTH)
for code in (2, 3, 11):
    row.reply(1, response(fwd, mac, code=code), 17, "a wrong Message-Authenticator", source=S1_AUTH)
    row.reply(1, response(fwd, seal(code, 0, Z, b"", b"", H1), code=code), 17, "one made over zeros", source=S1_AUTH)
    row.reply(1, response(fwd, EAP, code=code), 17, "an EAP-Message alone", source=S1_AUTH)
row.reply(1, response(fwd, seal(2, 0, Q, b"", b"", H1), code=2), 17, "one made over the access server's request",
          source=S1_AUTH)
row.reply(1, response(fwd, seal(2, 0, K(0), b"", b"", H1) * 2, code=2), 17, "two", source=S1_AUTH)
row.reply(1, response(fwd, b"\x50\x02", code=3), 17, "one of no octets", source=S1_AUTH)
row.reply(1, response(fwd, filled(4076), code=2), 18, "one that is too long with the request's Proxy-State",
          source=S1_AUTH)
row.access(1, req, [], "it still waits")
row.reply(1, response(fwd, filled(4075) + T(0), code=2),
          [given_back(access_back(req, 2, filled(4075) + ps), place="auth")], "one of an octet less", source=S1_AUTH)
row.reply(1, response(fwd, code=3), 14, "another one: nothing waits", source=S1_AUTH)

row = Row("largest-sealed-access-request", "one-server", SOURCE)
for size, id in ((4087, 1), (4086, 2)):
    body = filled(size - 18, NAME)
    req = access(id, seal(1, id, Q, b"", body, P))
    expected = [sent(forward_access(body, 0, 0), S1_AUTH)] if size == 4086 else 10
    row.access(0, req, expected, f"an Access-Request of {size} octets with a Message-Authenticator")
row.access(0, access(3, filled(4069, NAME)), 10, "one of 4069 octets without")
give(row, 0, access(3, filled(4068, NAME)), 1, 1, "one of 4068")

row = Row("one-key-at-two-places", "two-places", SOURCE)
row.arrive(0, q5, [sent(f0)], "an Accounting-Request")
req = access(5, NAME)
fwd = give(row, 0, req, 0, 1, "an Access-Request with its Identifier from its port", words=K(0))
row.reply(1, response(fwd, code=2), 5, "an Accept from the accounting endpoint")
row.reply(1, r0, 5, "the response from the authentication endpoint", source=S1_AUTH)
row.access(1, access(6, NAME), 13, "another Access-Request: both places are taken")
row.reply(2, r0, [given_back(b5)], "the response")
give(row, 3, access(6, NAME), 1, 2, "the other one again: the held response makes way", words=K(1))
row.reply(4, response(fwd, code=3), [given_back(access_back(req, 3), place="auth")], "a Reject", source=S1_AUTH)
row.access(5, access(5, NAME + ps), [sent(forward_access(NAME + ps, 2, 3, K(2)), S1_AUTH)],
           "its key with other octets takes its place")

# Salted values: those that are hidden, for a secret and an authenticator, and those that stay.
BLOCK, BLOCKS = b"\x05hello" + bytes(10), b"\x2a" + bytes(range(47))


def salted(secret, authenticator):
    keys = [key(kind, bytes([0x80 + n, kind]), plain, secret, authenticator)
            for n, (kind, plain) in enumerate([(16, BLOCK), (17, BLOCKS), (16, BLOCKS), (17, BLOCK)])]
    return (tunnel(b"\0", b"\x80\x01", BLOCK, secret, authenticator) + microsoft(keys[0]) + attribute(25, ANY)
            + tunnel(b"\x1f", b"\xff\xff", BLOCKS, secret, authenticator) + microsoft(keys[1], keys[2])
            + microsoft(attribute(7, b"\0\0\0\x01"), keys[3], attribute(12, ANY + ANY), attribute(8, b"")))


KEY = attribute(16, b"\x80\x01" + ANY)
STAYS = [attribute(69, bytes(n)) for n in (0, 1, 2, 3, 18, 20, 34)]
STAYS += [attribute(26, value) for value in (
    b"", b"\0", b"\0\0\1", bytes([0, 0, 1, 54]) + KEY, bytes([1, 0, 1, 55]) + KEY)]
STAYS += [microsoft(*subs) for subs in (
    [], [attribute(16, b"")], [attribute(17, b"\x80")], [attribute(16, b"\x80\1")], [attribute(17, bytes(17))],
    [attribute(16, bytes(33))], [attribute(12, bytes(18))], [KEY, b"\x11"], [KEY, b"\x11\0"], [KEY, b"\x11\1"],
    [KEY, b"\x11\x15" + bytes(18)], [b"\x10\x01" + KEY])]
STAYS += [attribute(70, b"\0\x80\1" + ANY), attribute(2, ANY)]
STAYS = b"".join(STAYS)

row = Row("salted-values", "two-servers", SOURCE)
req = access(1, NAME + ps)
fwd = give(row, 0, req, 0, 0, "an Access-Request")
row.reply(1, response(fwd, salted(H1, K(0)) + T(0), code=2),
          [given_back(access_back(req, 2, salted(P, Q) + ps), place="auth")], "salted values of an Accept",
          source=S1_AUTH)
for n, code, what in ((1, 3, "a Reject"), (2, 11, "a Challenge")):
    req = access(1 + n, NAME)
    fwd = give(row, 1, req, n, n, "an Access-Request")
    row.reply(1, response(fwd, salted(H1, K(n)), code=code),
              [given_back(access_back(req, code, salted(H1, K(n))), place="auth")], "those of " + what, source=S1_AUTH)
req = access(4, NAME, ANY)
fwd = give(row, 1, req, 3, 3, "an Access-Request")
row.reply(1, response(fwd, STAYS, code=2), [given_back(access_back(req, 2, STAYS), place="auth")],
          "values that aren't salted, or not well", source=S1_AUTH)
fwd = forward(q5, 0, 4)
row.arrive(1, q5, [sent(fwd)], "an Accounting-Request")
row.reply(1, response(fwd, salted(H1, Q)), [given_back(back(q5, salted(H1, Q)))], "those of its response")
req = access(6, NAME)
row.access(2, req, [sent(forward_access(NAME, 4, 5, K(4)), S1_AUTH)], "an Access-Request")
row.tick(1002, [sent(forward_access(NAME, 4, 5, K(4)), S1_AUTH)], "sent again")
fwd = forward_access(NAME, 0, 5, K(5), H2)
row.tick(2002, [sent(fwd, S2_AUTH)], "moved")
row.reply(2003, response(fwd, salted(H2, K(5)), H2, 2), [given_back(access_back(req, 2, salted(P, Q)), place="auth")],
          "those of the second server's Accept", source=S2_AUTH)

# The same of other vendors, and what stays: a vendor whose values go on, one with another hiding, other types, values
# too short or without whole blocks, and a list that is none.
SALTED = b"\x80\1" + ANY


def of_vendors(secret, authenticator):
    return b"".join(of_vendor(number, attribute(200, SALTED), *(
        tunnel(tag, bytes([0x80 + n, kind]), BLOCKS if kind == 19 else BLOCK, secret, authenticator, kind)
        for kind in kinds)) for n, (number, kinds, tag) in enumerate(SALTING_VENDORS))


VENDORS_STAY = b"".join(of_vendor(number, *subs) for number, subs in (
    (24757, [attribute(5, b"\0" + SALTED)]), (529, [attribute(214, SALTED)]), (4846, [attribute(214, SALTED)]),
    (6527, [attribute(kind, SALTED) for kind in (58, 121, 126, 137, 140, 141, 143)]),
    (4874, [attribute(kind, SALTED) for kind in (9, 57, 62, 122)]), (0, [attribute(69, b"\0" + SALTED)]),
    (2356, [attribute(19, value) for value in (b"", b"\1", b"\1\x80", b"\1\x80\1", SALTED, b"\1" + SALTED + b"\0")]),
    (14823, [attribute(44, SALTED), b"\x2c"]), (26928, [attribute(3, SALTED), b"\3\1"]), (2356, [])))

row = Row("salted-vendors", "two-servers", SOURCE)
req = access(1, NAME + ps)
fwd = give(row, 0, req, 0, 0, "an Access-Request")
row.reply(1, response(fwd, of_vendors(H1, K(0)) + VENDORS_STAY, code=2),
          [given_back(access_back(req, 2, of_vendors(P, Q) + VENDORS_STAY + ps), place="auth")],
          "what vendors hide with a salt, in an Accept, and what stays", source=S1_AUTH)
req = access(2, NAME)
fwd = give(row, 1, req, 1, 1, "an Access-Request")
row.reply(1, response(fwd, of_vendors(H1, K(1)), code=11),
          [given_back(access_back(req, 11, of_vendors(H1, K(1))), place="auth")], "in a Challenge", source=S1_AUTH)
