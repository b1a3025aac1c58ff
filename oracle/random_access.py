"""Random scripts of Access beside accounting, answered by broker.py.

What random_scripts.py makes, and: User-Password, CHAP-Password, EAP-Message, Challenges, salted values, long and
odd attributes, local rejects and Message-Authenticators.
"""
import broker
from broker import *
from random_scripts import Script, signed_as_it_is, with_wrong_bit

REPLY_MESSAGE, UNKNOWN = 18, 200
OTHER_VENDOR = bytes([0, 0, 0, 9])


def with_seal(code, id, authenticator, attributes, secret):
    """An Access-Request, or any packet whose authenticator field stands: sealed, and not signed."""
    return text(code, id, authenticator, sealed(code, id, authenticator, attributes, secret))


def classes(size):
    """Classes of so many octets in all."""
    sizes = [255] * (size // 255) + [size % 255]
    if sizes[-1] == 1:
        sizes[-2:] = [254, 2]
    return [(CLASS, bytes(n - 2)) for n in sizes if n > 0]


class AccessScript(Script):
    EVENTS = 14

    # Choices

    def chance(self, share):
        return self.random.random() < share

    def octets(self, *sizes):
        return self.random.randbytes(self.random.choice(sizes))

    def put(self, attributes, *more):
        """Puts attributes somewhere."""
        for attribute in more:
            attributes.insert(self.random.randrange(len(attributes) + 1), attribute)

    def peer(self):
        return self.random.choice(self.config.peers)

    def port_of(self, peer):
        return at(self.address_of(peer), self.random.choice((5000, 5000, 5001)))

    def address_of(self, peer):
        """An address of an access server."""
        prefixes = peer["prefixes"]
        prefix = prefixes[0] if len(prefixes) == 1 else self.random.choice(prefixes)
        return str(prefix[0] if prefix.num_addresses == 1 else prefix[self.random.randrange(1, min(prefix.num_addresses, 9))])

    def id(self):
        return self.random.randrange(3)

    def user(self):
        name = self.random.choice(self.config.realms)["name"]
        name = self.random.choice(("u@", "u@", "@", "v@x@")) + self.random.choice((name, name, name.upper()))
        return name.encode()

    # Requests

    def proxy_states(self):
        return [(PROXY_STATE, self.octets(0, 1, 2)) for _ in range(self.random.choice((0, 0, 0, 1, 2)))]

    def password(self):
        """What proves who the user is, or nothing, and whether it must be sealed."""
        kind = self.random.choice(("pap", "pap", "pap", "chap", "chap", "eap", "eap", "none"))
        if kind == "pap":
            return [(USER_PASSWORD, self.octets(*[16] * 9, 32, 32, 48, 128))], False
        if kind == "chap":
            more = [(CHAP_CHALLENGE, self.octets(0, 8, 16))] if self.chance(0.3) else []
            return [(CHAP_PASSWORD, self.octets(17, 17, 17, 5))] + more, False
        if kind == "eap":
            return [(EAP_MESSAGE, self.octets(5, 7)) for _ in range(self.random.choice((1, 1, 2)))], True
        return [], False

    def odd(self):
        """What is carried as it stands."""
        return self.random.choice((
            (CLASS, self.octets(0, 1)), (UNKNOWN, self.octets(0, 3)), (VENDOR_SPECIFIC, OTHER_VENDOR + b"\x10\x04ab"),
            (VENDOR_SPECIFIC, self.octets(0, 3)), (TUNNEL_PASSWORD, self.octets(19)), (CHAP_CHALLENGE, b""),
            (NAS_IP_ADDRESS, bytes([192, 0, 2, 7])), (NAS_IDENTIFIER, b"x"),
            (USER_NAME, b"w@nowhere"), (CLASS, self.octets(253)) if self.chance(0.2) else (STATE, b""),
        ))

    def access_list(self, must_seal):
        attributes, needs_seal = self.password()
        if self.chance(0.25):
            self.put(attributes, (STATE, self.octets(1, 4)))
        if self.chance(0.3):
            self.put(attributes, self.odd())
        attributes.insert(0, (USER_NAME, self.user()))
        self.put(attributes, *self.proxy_states())
        if must_seal or needs_seal or self.chance(0.25):
            self.put(attributes, (SEAL, ZEROS))
        return attributes

    def ask(self, what, place, source, octets):
        self.asked.append((place, source, octets))
        self.arrive(what, place, source, octets)

    def access_of(self, peer, attributes):
        secret = peer["secret"].encode()
        return with_seal(ACCESS_REQUEST, self.id(), self.random.randbytes(16), attributes, secret)

    def access(self):
        peer = self.peer()
        octets = self.access_of(peer, self.access_list(peer.get("require_seal", False)))
        self.ask("an Access-Request", "auth", self.port_of(peer), octets)

    def accounting(self):
        peer = self.peer()
        octets = signed(4, self.id(), ZEROS, self.attributes(), peer["secret"].encode())
        self.ask("an Accounting-Request", "acct", self.port_of(peer), octets)

    def repeat(self):
        if self.asked:
            place, source, octets = self.random.choice(self.asked[-4:])
            padding = self.random.choice((b"", b"", b"", b"\0"))
            self.arrive("a request again", place, source, octets + padding)

    def local_reject(self):
        """What is answered by a local Access-Reject."""
        what, some = self.random.choice((
            ("no User-Name", []),
            ("no such realm", [(USER_NAME, b"u@nowhere")]),
            ("no realm", [(USER_NAME, b"u"), (USER_NAME, self.user())]),
            ("two passwords", [(USER_NAME, self.user())] + [(USER_PASSWORD, self.octets(16))] * 2),
            ("a password of a wrong size",
             [(USER_NAME, self.user()), (USER_PASSWORD, self.octets(0, 1, 15, 17, 144))]),
            ("both kinds of passwords",
             [(USER_NAME, self.user()), (CHAP_PASSWORD, self.octets(17)), (USER_PASSWORD, self.octets(16))]),
        ))
        peer = self.peer()
        self.put(some, *self.proxy_states())
        if peer.get("require_seal", False) or self.chance(0.3):
            self.put(some, (SEAL, ZEROS))
        octets = self.access_of(peer, some)
        if self.chance(0.1):
            some = some + [self.random.choice(((SEAL, ZEROS), (EAP_MESSAGE, b"e")))]
            what, octets = what + ", perhaps not well sealed", text(1, 1, self.random.randbytes(16), some)
        now = 2 ** 62 + 1 if self.chance(0.1) else None
        self.arrive("a local reject: " + what, "auth", self.port_of(peer), octets, now)

    def bad_access(self):
        peer = self.peer()
        secret, source = peer["secret"].encode(), self.port_of(peer)
        name, authenticator = (USER_NAME, self.user()), self.random.randbytes(16)
        good = self.access_of(peer, [name, (SEAL, ZEROS)])
        over_zeros = sealed(1, 1, ZEROS, [(SEAL, ZEROS), name], secret)
        seals = self.random.choice(([b"short"], [bytes(15)], [b""], [ZEROS, ZEROS]))
        what, place, source, octets = self.random.choice((
            ("a wrong seal", "auth", source, good[:-1] + bytes([good[-1] ^ 1])),
            ("a seal with another secret", "auth", source, self.access_of({"secret": "no"}, [name, (SEAL, ZEROS)])),
            ("a seal over zeros", "auth", source, text(1, 1, authenticator, over_zeros)),
            ("wrong seals", "auth", source, text(1, 1, authenticator, [name] + [(SEAL, s) for s in seals])),
            ("an EAP-Message without a seal", "auth", source, text(1, 1, authenticator, [name, (EAP_MESSAGE, b"e")])),
            ("perhaps a seal is wanted", "auth", source, self.access_of(peer, [name])),
            ("a wrong place", "acct", source, good),
            ("a wrong code", "auth", source, with_seal(self.random.choice((2, 4, 12)), 1, authenticator, [], secret)),
            ("a stranger", "auth", "192.0.2.9:5000", good),
            ("too few octets", "auth", source, good[:self.random.randrange(20)]),
            ("an octet short", "auth", source, good[:-1]),
            ("a wrong attribute", "auth", source, good[:21] + b"\1" + good[22:]),
        ))
        self.arrive(what, place, source, octets)

    # Replies

    def keys(self):
        """Vendor-Specific of Microsoft: keys, other sub-attributes, and lists that are none."""
        subs = self.random.choices((
            (SEND_KEY, self.octets(18, 18, 34)), (RECV_KEY, self.octets(18)), (SEND_KEY, self.octets(0, 1, 2, 17)),
            (12, self.octets(18)), (7, b""),
        ), (6, 6, 1, 1, 1), k=self.random.choice((1, 1, 2, 3)))
        listed = b"".join(bytes([k, len(v) + 2]) + v for k, v in subs)
        if self.chance(0.15):
            listed += self.random.choice((b"\x10", b"\x10\x01", b"\x10\x14abc"))
        return (VENDOR_SPECIFIC, MICROSOFT + listed)

    def salted(self):
        return self.random.choice((
            (TUNNEL_PASSWORD, self.octets(19, 19, 19, 35)), self.keys(), self.keys(),
            (TUNNEL_PASSWORD, self.octets(0, 1, 2, 3, 18, 20)),
            (VENDOR_SPECIFIC, OTHER_VENDOR + bytes([SEND_KEY, 20]) + self.octets(18)),
        ))

    def reply_list(self):
        """The list of a reply to what isn't an Access-Request: salted values stay as they are."""
        attributes = super().reply_list()
        if self.chance(0.12):
            self.put(attributes, self.random.choice((
                (TUNNEL_PASSWORD, self.octets(19)), (EAP_MESSAGE, b"e"), self.keys())))
        return attributes

    def access_reply_list(self, code):
        attributes = []
        if self.chance(0.35):
            self.put(attributes, self.random.choice((
                (CLASS, self.octets(1, 2)), (REPLY_MESSAGE, b"no"), (UNKNOWN, b""), (STATE, self.octets(4)))))
        for _ in range(self.random.choice((0, 1, 1, 2))):
            if self.chance(0.7 if code == 2 else 0.2):
                self.put(attributes, self.salted())
        if self.chance(0.4):
            self.put(attributes, (PROXY_STATE, self.random.choice((b"x", bytes(8)))))
        if self.chance(0.2):
            attributes += [(EAP_MESSAGE, self.octets(4)), (SEAL, ZEROS)]
        elif self.chance(0.4):
            self.put(attributes, (SEAL, ZEROS))
        return attributes

    def reply_to(self, octets, secret, code=None):
        sent = broker.Packet(octets)
        if sent.code != ACCESS_REQUEST:
            return super().reply_to(octets, secret, code or ACCOUNTING_RESPONSE)
        code = code or self.random.choice((2, 2, 2, 3, 11))
        return signed(code, sent.id, sent.authenticator, self.access_reply_list(code), secret)

    def bad_access_reply(self):
        """A reply of a wrong code or authenticator, or badly sealed, or from elsewhere."""
        accesses = [(r, e) for r, e in self.waiting() if e.request.packet.code == ACCESS_REQUEST]
        if not accesses:
            return
        realm, entry = self.random.choice(accesses)
        secret, source = realm.secret_of(entry.link), realm.endpoint_of(entry.link)
        sent, code = broker.Packet(entry.octets), self.random.choice(ACCESS_REPLIES)
        good = self.reply_to(entry.octets, secret)
        other = (source[0][:-1] + self.random.choice("123"), source[1])
        seals = self.random.choice(([b"short"], [ZEROS], [b""], [ZEROS, ZEROS]))

        def reply(attributes, code=code, authenticator=sent.authenticator):
            return signed_as_it_is(code, sent.id, authenticator, attributes, secret)

        what, source, octets = self.random.choice((
            ("a wrong digest", source, with_wrong_bit(good, 4 + self.random.randrange(16))),
            ("another secret", source, self.reply_to(entry.octets, b"no")),
            ("the requester's authenticator", source,
             reply([], authenticator=entry.request.packet.authenticator)),
            ("another Identifier", source, good[:1] + bytes([(good[1] + 1) % 256]) + good[2:]),
            ("a wrong code", source, reply([], self.random.choice((1, 5, 41)))),
            ("perhaps another server", other, good),
            ("the port of accounting", (source[0], 1813), good),
            ("wrong seals", source, reply([(SEAL, s) for s in seals])),
            ("a seal over zeros", source, reply(sealed(code, sent.id, ZEROS, [(SEAL, ZEROS)], secret))),
            ("an EAP-Message without a seal", source, reply([(EAP_MESSAGE, b"e")])),
            ("an octet short", source, good[:-1]),
        ))
        self.from_server(what, realm.index, source, octets, entry.link[2])

    def long_reply(self):
        """A reply whose returned packet may pass 4096 octets, or just not."""
        if not self.chance(0.12):
            return
        for realm, entry in self.waiting():
            request = entry.request.packet
            room = 4096 - 20 - sum(len(v) + 2 for v in request.values(PROXY_STATE))
            room -= 18 * (request.code == ACCESS_REQUEST) - self.random.choice((0, 0, 1))
            code = REPLIES_OF[request.code][0]
            sent, secret = broker.Packet(entry.octets), realm.secret_of(entry.link)
            octets = signed(code, sent.id, sent.authenticator, classes(room), secret)
            self.from_server("a long reply", realm.index, realm.endpoint_of(entry.link), octets, entry.link[2])
            return

    KINDS = (access, accounting, repeat, local_reject, bad_access, Script.reply, Script.late_reply,
             bad_access_reply, long_reply, Script.tick, Script.late_tick, Script.no_shard, Script.too_late)
    WEIGHTS = (30, 8, 11, 5, 6, 26, 5, 7, 1, 14, 4, 0.5, 1)


class VendorScript(AccessScript):
    """Access whose replies have other vendors' salted values, of all sizes, in lists and in what is none."""

    def keys(self):
        vendor = self.random.choice([vendor for vendor in TAGS if vendor])
        kinds = self.random.choices([*TAGS[vendor], *TAGS[vendor], 16, 58, 69], k=self.random.choice((1, 1, 2, 3)))
        values = [self.octets(18, 18, 19, 19, 34, 35, 0, 1, 2, 3, 17) for _ in kinds]
        listed = b"".join(bytes([k, len(v) + 2]) + v for k, v in zip(kinds, values))
        if self.chance(0.1):
            listed += self.random.choice((b"\x10", b"\x10\x01", b"\x10\x14abc"))
        return (VENDOR_SPECIFIC, vendor.to_bytes(4, "big") + listed)

    def salted(self):
        return self.keys()
