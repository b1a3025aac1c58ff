"""Random scripts of Disconnect and CoA beside Access and accounting, answered by broker.py.

What random_access.py makes, and: sessions that begin, go on and end; Disconnect- and CoA-Requests by User-Name and
by Acct-Session-Id, to access servers with and without `coa`; salted values in them; their replies, and NAKs.
"""
import broker
from broker import *
from random_access import AccessScript
from random_scripts import Script, signed_as_it_is, with_wrong_bit

PORT = 40000


class ReverseScript(AccessScript):
    EVENTS = 16

    # Sessions

    def session(self):
        return self.random.choice((b"1", b"1", b"1", b"2", b"2", b""))

    def accounting_list(self):
        status = self.random.choice((1, 1, 1, 1, 1, 3, 3, 2, 2, 7, 8, 9)).to_bytes(4, "big")
        if self.chance(0.05):
            status = status[1:]
        attributes = [(USER_NAME, self.user()), (ACCT_STATUS_TYPE, status)]
        if self.chance(0.05):
            attributes.append((EAP_MESSAGE, b""))
        if self.chance(0.9):
            self.put(attributes, (ACCT_SESSION_ID, self.session()))
        if self.chance(0.1):
            attributes.append(self.random.choice(((ACCT_SESSION_ID, b"1"), (ACCT_STATUS_TYPE, bytes([0, 0, 0, 1])))))
        self.put(attributes, *self.proxy_states())
        return attributes

    def accounting(self):
        peer = self.peer()
        octets = signed(4, self.id(), ZEROS, self.accounting_list(), peer["secret"].encode())
        self.ask("an Accounting-Request", "acct", self.port_of(peer), octets)

    def answered(self):
        """An Accounting-Request, and its reply."""
        held = self.entries()
        before = {id(entry) for entry in held}
        self.accounting()
        for realm, entry in self.waiting():
            if id(entry) not in before:
                octets = self.reply_to(entry.octets, realm.secret_of(entry.link))
                self.from_server("its reply", realm.index, realm.endpoint_of(entry.link), octets, entry.link[2])

    # Disconnect and CoA

    def home(self, realm):
        """An address from which a realm's Disconnects and CoAs come, and its secret."""
        server = self.random.choice(self.config.realms[realm]["server"])
        ip = server["links"][self.random.choice(("auth", "acct"))][0]
        return ip, self.config.home_of(realm, ip)["secret"].encode()

    def access_server(self, peer):
        """What names an access server, or seems to."""
        named = []
        if "nas_id" in peer and self.chance(0.6):
            named.append((NAS_IDENTIFIER, peer["nas_id"].encode()))
        if "nas_ip" in peer and (not named or self.chance(0.4)):
            named.append((NAS_IP_ADDRESS, address(peer["nas_ip"])))
        if self.chance(0.06):
            named.append(self.random.choice((
                (NAS_IDENTIFIER, b"nas"), (NAS_IP_ADDRESS, bytes([192, 0, 2, 9])), (NAS_IP_ADDRESS, bytes(3)))))
            self.random.shuffle(named)
        return named

    def reverse_list(self, realm):
        records = self.broker.realms[realm].sessions.records
        reachable = [peer for peer in self.config.peers if "coa" in peer]
        peer, session = self.random.choice(reachable), self.session()
        if records and self.chance(0.8):
            index, _, session = self.random.choice(records)
            peer = self.config.peers[index]
        if "coa" not in peer and self.chance(0.7):
            peer = self.random.choice(reachable)
        attributes = self.access_server(peer)
        kind = self.random.choice(["session"] * (5 if records else 1) + ["name"] * 4 + ["both"])
        kind = "neither" if self.chance(0.03) else kind
        if kind in ("session", "both"):
            self.put(attributes, (ACCT_SESSION_ID, session))
        if kind in ("name", "both"):
            name = self.config.realms[realm]["name"].encode()
            self.put(attributes, (USER_NAME, self.user() if self.chance(0.1) else b"u@" + name))
        if self.chance(0.12):
            self.put(attributes, self.random.choice((
                self.keys(), self.keys(), (TUNNEL_PASSWORD, self.octets(0, 1, 19)))))
        if self.chance(0.15):
            self.put(attributes, self.random.choice(((STATE, b"s"), (CLASS, b""), (USER_PASSWORD, self.octets(16)))))
        self.put(attributes, *self.proxy_states())
        if self.chance(0.2):
            self.put(attributes, (SEAL, ZEROS))
        return attributes

    def reverse(self):
        realm = self.random.randrange(len(self.config.realms))
        code, (ip, secret) = self.random.choice(REVERSE_REQUESTS), self.home(realm)
        octets = signed(code, self.id(), ZEROS, self.reverse_list(realm), secret)
        what = "a Disconnect-Request" if code == DISCONNECT_REQUEST else "a CoA-Request"
        self.ask(what, f"reverse:{realm}", at(ip, PORT), octets)

    def bad_reverse(self):
        realm = self.random.randrange(len(self.config.realms))
        ip, secret = self.home(realm)
        source, place = at(ip, PORT), f"reverse:{realm}"
        name = (USER_NAME, b"u@" + self.config.realms[realm]["name"].encode())
        some = [(NAS_IDENTIFIER, b"nas1"), name]
        good = signed(43, 1, ZEROS, some, secret)
        seals = self.random.choice(([b"short"], [ZEROS], [b""], [ZEROS, ZEROS]))
        over_ones = sealed(40, 1, b"\1" * 16, [(SEAL, ZEROS), name], secret)
        what, place, source, octets, now = self.random.choice((
            ("a wrong digest", place, source, with_wrong_bit(good, 4 + self.random.randrange(16)), None),
            ("a digest with another secret", place, source, signed(40, 1, ZEROS, some, b"no"), None),
            ("another server's secret", place, source, signed(40, 1, ZEROS, some, b"h2"), None),
            ("wrong seals", place, source,
             signed_as_it_is(40, 1, ZEROS, some + [(SEAL, s) for s in seals], secret), None),
            ("a seal over ones", place, source, signed_as_it_is(40, 1, ZEROS, over_ones, secret), None),
            ("a wrong code", place, source, signed(self.random.choice((4, 41, 44)), 1, ZEROS, some, secret), None),
            ("an access server", place, "192.0.2.1:3799", good, None),
            ("no such realm", f"reverse:{len(self.config.realms)}", source, good, None),
            ("perhaps a server of another realm", "reverse:0", source, good, None),
            ("a wrong place", "auth", source, good, None),
            ("too late", place, source, good, 2 ** 62 + 1),
            ("too late, and for nobody", place, source, signed(40, 1, ZEROS, [name], secret), 2 ** 62 + 1),
            ("an octet short", place, source, good[:-1], None),
        ))
        self.arrive(what, place, source, octets, now)

    # Replies

    def reply_to(self, octets, secret, code=None):
        sent = broker.Packet(octets)
        if sent.code in REVERSE_REQUESTS:
            code = code or self.random.choice(REPLIES_OF[sent.code])
        return super().reply_to(octets, secret, code)

    def bad_reverse_reply(self):
        """A reply of an access server with a wrong code or authenticator, or badly sealed, or from elsewhere."""
        reverses = [(r, e) for r, e in self.waiting() if e.request.packet.code in REVERSE_REQUESTS]
        if not reverses:
            return
        realm, entry = self.random.choice(reverses)
        secret, source = realm.secret_of(entry.link), realm.endpoint_of(entry.link)
        sent = broker.Packet(entry.octets)
        good = self.reply_to(entry.octets, secret)
        seals = self.random.choice(([b"short"], [ZEROS], [b""], [ZEROS, ZEROS]))
        badly_sealed = signed_as_it_is(good[0], sent.id, sent.authenticator, [(SEAL, s) for s in seals], secret)
        other = self.random.choice((41, 42, 44, 45))
        what, source, octets = self.random.choice((
            ("perhaps the other request's code", source, self.reply_to(entry.octets, secret, other)),
            ("perhaps the other request's code", source, self.reply_to(entry.octets, secret, other)),
            ("a server's code", source, self.reply_to(entry.octets, secret, self.random.choice((2, 5, 43)))),
            ("a wrong digest", source, with_wrong_bit(good, 4 + self.random.randrange(16))),
            ("another secret", source, self.reply_to(entry.octets, b"h1")),
            ("another Identifier", source, good[:1] + bytes([(good[1] + 1) % 256]) + good[2:]),
            ("wrong seals", source, badly_sealed),
            ("another port", (source[0], 3798), good),
            ("perhaps another access server", ("192.0.2.3", 3799), good),
            ("a home server", list(self.random.choice(realm.table["server"])["links"].values())[-1], good),
        ))
        self.from_server(what, realm.index, source, octets, entry.link[2])

    KINDS = (AccessScript.access, accounting, answered, AccessScript.repeat, AccessScript.local_reject,
             AccessScript.bad_access, reverse, bad_reverse, Script.reply, Script.late_reply,
             AccessScript.bad_access_reply, bad_reverse_reply, AccessScript.long_reply, Script.tick,
             Script.late_tick, Script.no_shard, Script.too_late)
    WEIGHTS = (7, 8, 14, 8, 1, 1, 28, 4, 38, 4, 1, 11, 0.4, 10, 7, 0.3, 0.7)
