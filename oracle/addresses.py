"""Rows of IPv6: places, sources, home servers, and access servers that Disconnect and CoA name by such an address."""
from formulas import *
from reverse import Story, id_of
from row import Row

SOURCE = "addresses"
NAS6, COA6 = "[2001:db8::1]:5000", "[2001:db8::1]:3799"
S6, S6_AUTH, HOME6 = "[2001:db8:1::1]:1813", "[2001:db8:1::1]:1812", "[2001:db8:1::1]:40000"
IPV6 = bytes.fromhex("20010db8") + bytes(11) + b"\x01"
BY_IPV6, BY_NAME = attribute(95, IPV6), attribute(32, b"nas1")

# The octets of accounting-exchange.row: where they come from and go to changes nothing in them.
row = Row("ipv6-exchange", "ipv6", SOURCE)
row.arrive(0, q5, [sent(f0, S6)], "a request; it goes to the home server of IPv6", source=NAS6)
row.reply(0, response(f0), [given_back(back(q5), NAS6)], "its response; it is returned", source=S6)
row.arrive(1, q5, [given_back(back(q5), NAS6)], "the request again, from the same address in another form",
           source="[2001:DB8:0:0:0:0:0:1]:5000")
row.arrive(1, q6, 4, "one from an IPv4 address", source=NAS)
row.arrive(1, q6, 4, "one from the access server's address with a group more", source="[2001:db8::1:1]:5000")
row.reply(1, response(f0), 4, "a response from another port", source="[2001:db8:1::1]:1814")
row.reply(1, response(f0), 4, "a response from an IPv4 address", source=S1)
row.reply(1, response(f0, code=2), 5, "an Accept from the accounting endpoint", source=S6)

row = Row("ipv6-login", "ipv6", SOURCE)
a0 = access(1, NAME)
fwd = forward_access(NAME, 0, 0)
row.access(0, a0, [sent(fwd, S6_AUTH)], "an Access-Request", source=NAS6)
row.tick(1000, [sent(fwd, S6_AUTH)], "it is sent again")
row.access(1000, access(2, named("u@nowhere")), [rejected(access(2, named("u@nowhere")), to=NAS6)],
           "one of no realm is rejected", source=NAS6)


def ask(row, now, id, names, ticket, what, to=COA6, realm=0, home=HOME6, secret=H1, key=P):
    """A Disconnect that is forwarded."""
    req = reverse(40, id, names + NAME, secret)
    row.reverse(now, req, [sent(reverse(40, ticket, names + NAME + T(ticket), key), to, realm)], what, realm, home)
    return req


def nak(row, now, id, names, what, realm=0, home=HOME6, secret=H1, name=NAME):
    """One that nobody is found for."""
    req = reverse(40, id, names + name, secret)
    row.reverse(now, req, [given_back(refused_with(502, req, secret=secret), home, realm, f"reverse:{realm}")], what, realm, home)


row = Row("ipv6-names-of-access-servers", "ipv6", SOURCE)
first = ask(row, 0, 0, BY_IPV6, 0, "a Disconnect by NAS-IPv6-Address")
ack = response(reverse(40, 0, BY_IPV6 + NAME + T(0), P), secret=P, code=41)
row.reply(0, ack, [given_back(reverse_back(first, 41), HOME6, place="reverse:0")], "its ACK", source=COA6)
ask(row, 0, 1, BY_NAME, 1, "by name alone")
ask(row, 0, 2, BY_NAME + BY_IPV6, 2, "by both")
ask(row, 0, 3, BY_IPV6 + attribute(95, bytes(16)), 3, "by two, of which the first counts")
nak(row, 0, 4, attribute(95, IPV6[:15]), "one of fifteen octets")
nak(row, 0, 5, attribute(95, IPV6 + b"\0"), "one of seventeen octets")
nak(row, 0, 6, attribute(95, bytes(15) + b"\x01"), "another one")
nak(row, 0, 7, BY_NAME + attribute(95, bytes(16)), "the name, and another one")
nak(row, 0, 8, attribute(32, b"nas2") + BY_IPV6, "another name, and the right one")
nak(row, 0, 9, BY_IPV6 + attribute(4, bytes([192, 0, 2, 1])), "a NAS-IP-Address besides, which nobody has")
nak(row, 0, 10, b"", "no name")
row.reverse(0, reverse(40, 11, BY_IPV6 + NAME), 4, "from an IPv4 address", source=HOME)

# Where no access server has a `nas_ipv6`, it isn't looked at.
row = Row("ipv6-names-that-nobody-has", "one-server", SOURCE)
ask(row, 0, 0, BY_NAME + attribute(95, bytes(16)), 0, "the name, and a NAS-IPv6-Address", COA, home=HOME)
nak(row, 0, 1, BY_IPV6, "a NAS-IPv6-Address alone", home=HOME)



def of_nas(number):
    """The name of an access server with one of its own behind it, as a NAS-IPv6-Address."""
    return BY_NAME + attribute(95, IPV6[:15] + bytes([number]))


# An id that two access servers of one peer gave. In any realm with `own_sessions` what tells them apart is looked at.
row = Story("ipv6-names-of-sessions", "own-sessions")
row.account("a Start at a first access server", START, b"1", name=NAME + of_nas(1))
row.account("a Start at a second one", START, b"1", name=NAME + of_nas(2))
row.nak("the id: two have it", 508, BY_NAME + id_of(b"1"))
row.ask("the id, of the first", of_nas(1) + id_of(b"1"))
row.ask("the id, of the second, and of a third behind it", of_nas(2) + of_nas(3) + id_of(b"1"))
row.nak("the id, of a third", 503, of_nas(3) + id_of(b"1"))
row.nak("the id, and fifteen octets", 503, BY_NAME + attribute(95, IPV6[:15]) + id_of(b"1"))
row.nak("the id, and no octets", 503, BY_NAME + attribute(95, b"") + id_of(b"1"))
row.account("a Stop at a third", STOP, b"1", name=NAME + of_nas(3))
row.account("a Stop at none of them", STOP, b"1", name=NAME + BY_NAME)
row.nak("the id: two have it", 508, BY_NAME + id_of(b"1"))
row.account("an Accounting-On of the first", ON, name=NAME + of_nas(1))
row.nak("the id, of the first", 503, of_nas(1) + id_of(b"1"))
row.ask("the id", BY_NAME + id_of(b"1"))
row.account("a Start at none of them", START, b"1", name=NAME + BY_NAME)
row.nak("the id: two have it", 508, BY_NAME + id_of(b"1"))
row.ask("the id, of the second", of_nas(2) + id_of(b"1"))
row.account("a Stop at the second", STOP, b"1", name=NAME + of_nas(2))
row.nak("the id, of the second", 503, of_nas(2) + id_of(b"1"))
row.ask("the id", BY_NAME + id_of(b"1"))
row.account("a Start at the second", START, b"1", name=NAME + of_nas(2))
row.account("an Accounting-Off of all with that name", OFF, name=NAME + BY_NAME)
row.nak("the id", 503, BY_NAME + id_of(b"1"))

OTHER = named("u@b.example")
K6, H6 = b"k6", b"h6"
row = Row("both-kinds", "both-kinds", SOURCE)
row.arrive(0, q5, [sent(f0)], "from an IPv4 address for a home server of IPv4")
to_b = request(6, B)
row.arrive(0, to_b, [sent(forward(to_b, 0, 0, H6), S6, 1)], "from there for one of IPv6")
from_6 = request(5, A, K6)
fwd = forward(from_6, 1, 1)
row.arrive(0, from_6, [sent(fwd)], "from an IPv6 address for a home server of IPv4", source=NAS6)
head = header(5, 5, b"")
row.reply(0, response(fwd), [given_back(head + md5(head, from_6[4:20], K6), NAS6)], "its response")
row.arrive(0, q6, 6, "with the secret of the IPv4 access server", source=NAS6)
row.reply(0, response(fwd), 4, "a response from the other realm's home server", source=S6)
by_name = lambda name: attribute(32, name)


def disconnect(id, names, what, expected, realm, home, secret, name):
    row.reverse(1, reverse(40, id, names + name, secret), expected, what, realm, home)


disconnect(0, BY_IPV6, "a Disconnect for the access server of IPv6, which a realm of IPv4 doesn't reach",
           [given_back(refused_with(502, reverse(40, 0, BY_IPV6 + NAME)), HOME, 0, "reverse:0")], 0, HOME, H1, NAME)
disconnect(1, by_name(b"nas7"), "for the one that takes it at an IPv4 address",
           [sent(reverse(40, 0, by_name(b"nas7") + NAME + T(2), b"k7"), "192.0.2.7:3799")], 0, HOME, H1, NAME)
disconnect(0, BY_IPV6, "from the home server of IPv6 for the access server of IPv6",
           [sent(reverse(40, 0, BY_IPV6 + OTHER + T(1), K6), COA6, 1)], 1, HOME6, H6, OTHER)
req = reverse(40, 1, by_name(b"nas1") + OTHER, H6)
disconnect(1, by_name(b"nas1"), "for the access server of IPv4, which a realm of IPv6 doesn't reach",
           [given_back(refused_with(502, req, secret=H6), HOME6, 1, "reverse:1")], 1, HOME6, H6, OTHER)
req = reverse(40, 2, by_name(b"nas7") + OTHER, H6)
disconnect(2, by_name(b"nas7"), "for the one that takes it at an IPv4 address",
           [given_back(refused_with(502, req, secret=H6), HOME6, 1, "reverse:1")], 1, HOME6, H6, OTHER)
disconnect(0, BY_IPV6, "from a further sender of IPv4, to the realm of IPv6",
           [sent(reverse(40, 1, BY_IPV6 + OTHER + T(2), K6), COA6, 1)], 1, "192.0.2.9:40000", b"pc", OTHER)

# Whose secret a request is signed with is who sent it.
row = Row("the-longest-prefix", "prefixes", SOURCE)
for ticket, (what, ip, name) in enumerate((
        ("an address that has an access server alone", "192.0.2.1", P), ("the next one, of the prefix of 24 bits", "192.0.2.2", b"net"),
        ("the last of its first half", "192.0.2.127", b"net"), ("the first of the prefix of 25 bits", "192.0.2.128", b"half"),
        ("its last", "192.0.2.255", b"half"), ("one behind it, of the prefix of no bits", "192.0.3.0", b"all"),
        ("the last address of IPv4", "255.255.255.255", b"all"),
        ("an address of the prefix of 32 bits", "[2001:db8::1]", b"ipv6"), ("the last before the prefix of 48", "[2001:db8:0:ffff:ffff:ffff:ffff:ffff]", b"ipv6"),
        ("the first of that", "[2001:db8:1::]", b"site"), ("one that stands alone", "[2001:db8:1::7]", b"one"),
        ("the next one", "[2001:db8:1::8]", b"site"))):
    req = request(ticket, A, name)
    row.arrive(0, req, [sent(forward(req, ticket, ticket))], what, source=f"{ip}:5000")
    if name not in (b"all", b"ipv6"):
        shorter = b"ipv6" if ip[0] == "[" else b"all"
        row.arrive(0, request(200, A, shorter), 6, "with the secret of a shorter prefix", source=f"{ip}:5000")
row.arrive(0, q5, 4, "an address of IPv6 that no prefix has: that of no bits is one of IPv4", source="[2001:db9::1]:5000")
row.arrive(0, q5, 4, "an address whose first bits are those of an IPv4 address", source="[c000:201::]:5000")
to_b = request(99, B, b"homes")
row.arrive(0, to_b, 25, "a request that would go to a server at an address of its sender's prefix", source="198.51.100.2:5000")
to_a = request(99, A, b"homes")
row.arrive(0, to_a, [sent(forward(to_a, 12, 12))], "one for a realm that doesn't guard against that", source="198.51.100.2:5000")
to_b = request(99, B, b"net")
row.arrive(0, to_b, [sent(forward(to_b, 0, 0), S1, 1)], "one of another prefix", source="192.0.2.9:5000")
