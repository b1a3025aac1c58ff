"""Random scripts of sessions of one's own, answered by broker.py.

What random_policy.py makes, and: many access servers behind one, named by a whole text, by how a text begins and by an address;
sessions of equal ids there; Accounting-On of one of them; Disconnects and CoAs that name a session of the realm's own, of another
realm, of another access server, one of several or none, two of them or two users; senders that aren't home servers; full
ledgers; Operator-Names; Event-Timestamps, and a wall clock beside the moments.
"""
from broker import *
from sessions import ACCOUNTING_OFF, ACCOUNTING_ON, NAMES_OF_NAS, START, STOP
from random_policy import PolicyScript
from random_reverse import PORT, ReverseScript
from random_scripts import Script

NOW = 1_000_000


class OwnScript(PolicyScript):
    EVENTS = 26

    # The wall clock

    def wall_clock(self):
        if self.config.fresh is None and not self.chance(0.1) or self.chance(0.3):
            return ""
        return f"/{self.random.choice((NOW, NOW, NOW, NOW, 0, 5, 2 ** 32 + 5, 2 ** 64 - 1))}"

    def timestamp(self):
        near = self.config.fresh or 10
        seconds = NOW + self.random.choice((0, 0, near, near, -near, near + 1, -near - 1, -NOW, 3600))
        octets = self.random.choice((seconds, seconds, seconds, 5 + near, 2 ** 32 - 1)).to_bytes(4, "big")
        return (EVENT_TIMESTAMP, octets if self.chance(0.9) else self.random.choice((octets[1:], octets + b"\0", b"")))

    # Access servers behind others

    def names_of_nas(self, peer):
        """Texts that mean an access server, or nearly."""
        texts = peer.get("nas_ids", []) + ([peer["nas_id"]] if "nas_id" in peer else [])
        names = [text.rstrip("*") + end for text in texts for end in (("1", "1", "2", "") if text.endswith("*") else ("",))]
        return [name.encode() for name in names] or [b"nobody"]

    def nas(self, peer):
        """What names an access server behind one, in accounting."""
        named = [(NAS_IDENTIFIER, self.random.choice(self.names_of_nas(peer)))] if self.chance(0.85) else []
        if self.chance(0.6 if "nas_ip" in peer else 0.1):
            self.put(named, (NAS_IP_ADDRESS, address(peer["nas_ip"]) if "nas_ip" in peer else bytes([10, 0, 0, 1])))
        if any("nas_ipv6" in it for it in self.config.peers) and self.chance(0.6 if "nas_ipv6" in peer else 0.1):
            self.put(named, (NAS_IPV6_ADDRESS, address(peer.get("nas_ipv6", "2001:db8::99")) if self.chance(0.95) else bytes(15)))
        if self.chance(0.04):
            named.append(self.random.choice(((NAS_IDENTIFIER, b"wlc-9"), (NAS_IP_ADDRESS, bytes(3)), (NAS_IDENTIFIER, b""))))
        return named

    def session(self):
        return self.random.choice((b"1", b"1", b"1", b"2", b""))

    def proxy_states(self):
        return super().proxy_states() if self.chance(0.15) else []

    def accounting(self):
        peer = self.peer()
        attributes = self.accounting_list()
        self.put(attributes, *self.nas(peer))
        octets = signed(4, self.id(), ZEROS, attributes, peer["secret"].encode())
        self.ask("an Accounting-Request", "acct", self.port_of(peer), octets)

    def a_realm(self):
        """A realm, mostly one that has sessions."""
        some = [realm.index for realm in self.broker.realms if realm.sessions.records]
        return self.random.choice(some) if some and self.chance(0.85) else self.random.randrange(len(self.config.realms))

    def of_session(self, status, realm, peer, nas):
        """An Accounting-Request of that status, and a reply to it."""
        attributes = [(USER_NAME, b"u@" + self.name_of(realm).encode()), (ACCT_STATUS_TYPE, bytes([0, 0, 0, status])),
                      (ACCT_SESSION_ID, self.session())]
        self.put(attributes, *nas)
        octets = signed(4, self.id(), ZEROS, attributes, peer["secret"].encode())
        self.answer_what(lambda: self.ask(f"accounting of status {status}", "acct", self.port_of(peer), octets))

    def begin(self):
        """Sessions that begin, one after the other, until a ledger may be full."""
        realm, peer = self.random.randrange(len(self.config.realms)), self.peer()
        for _ in range(self.random.choice((1, 2, 3, 4))):
            peer = peer if self.chance(0.6) else self.peer()
            self.of_session(START, realm, peer, self.nas(peer))

    def some_end(self):
        """An Accounting-On or -Off, or a Stop, of access servers that have sessions."""
        realm = self.a_realm()
        records = self.broker.realms[realm].sessions.records
        if not records:
            return self.begin()
        index, nas, _ = self.random.choice(records)
        named = self.known(nas) if self.chance(0.7) else self.nas(self.config.peers[index])
        some = [it for it in named if self.chance(0.7)]
        return self.of_session(self.random.choice((STOP, ACCOUNTING_ON, ACCOUNTING_ON, ACCOUNTING_OFF)), realm, self.config.peers[index], some)

    def known(self, nas):
        """The attributes by which a record knows its access server."""
        return [(kind, value) for kind, value in zip(NAMES_OF_NAS, nas or ()) if value is not None]

    def answer_what(self, asks):
        """What is asked for, and a reply to what was sent for it."""
        held = self.entries()
        before = {id(entry) for entry in held}
        asks()
        for realm, entry in self.waiting():
            if id(entry) not in before:
                octets = self.reply_to(entry.octets, realm.secret_of(entry.link))
                self.from_server("its reply", realm.index, realm.endpoint_of(entry.link), octets, entry.link[2])

    # Disconnect and CoA

    def home(self, realm):
        senders = [ip for server in self.config.realms[realm]["server"] for ip, _ in server["links"].values()]
        senders += [client["ip"] for client in self.config.realms[realm].get("coa_client", [])] * 2
        ip = self.random.choice(senders)
        return ip, self.config.home_of(realm, ip)["secret"].encode()

    def reverse_list(self, realm):
        """What names a session of some realm, as it is kept or somewhat otherwise."""
        attributes = self.session_list(realm)
        if self.chance(0.3 if self.config.fresh else 0.05):
            self.put(attributes, self.timestamp())
            if self.chance(0.1):
                self.put(attributes, self.timestamp())
        return self.some_listed(attributes, 0.15)

    def session_list(self, realm):
        whose = realm if self.chance(0.85) else self.random.randrange(len(self.config.realms))
        records = self.broker.realms[whose].sessions.records
        if not records or self.chance(0.1):
            return super().reverse_list(realm)
        reachable = [record for record in records if "coa" in self.config.peers[record[0]]]
        index, nas, session = self.random.choice(reachable or records)
        peer, known = self.config.peers[index], self.known(nas)
        attributes = [it for it in (known if known and self.chance(0.85) else self.nas(peer)) if self.chance(0.85)]
        if "operator_name" in peer and self.chance(0.4):
            value = operator_of(peer)
            self.put(attributes, (OPERATOR_NAME, self.random.choice((value, value.swapcase()))))
        elif "nas_ip" in peer and self.chance(0.45):
            attributes = [(NAS_IP_ADDRESS, address(peer["nas_ip"]))]
        elif "nas_ipv6" in peer and self.chance(0.45):
            attributes = [(NAS_IPV6_ADDRESS, address(peer["nas_ipv6"]))]
        if self.chance(0.94):
            self.put(attributes, (ACCT_SESSION_ID, session if self.chance(0.92) else self.session()))
        if self.chance(0.4):
            self.put(attributes, (USER_NAME, b"u@" + self.name_of(realm).encode() if self.chance(0.85) else self.user()))
        if self.chance(0.15):
            self.put(attributes, self.random.choice((
                (ACCT_SESSION_ID, session), (ACCT_SESSION_ID, self.session()), (USER_NAME, b"v@" + self.name_of(realm).encode()),
                (USER_NAME, self.user()), (NAS_IDENTIFIER, b"wlc-9"), self.keys())))
        self.put(attributes, *self.proxy_states())
        return attributes

    def reverse(self):
        realm = self.a_realm()
        code, (ip, secret) = self.random.choice(REVERSE_REQUESTS), self.home(realm)
        octets = signed(code, self.id(), ZEROS, self.reverse_list(realm), secret)
        self.ask("a Disconnect" if code == DISCONNECT_REQUEST else "a CoA", f"reverse:{realm}", at(ip, PORT), octets)

    def other_sender(self):
        """A Disconnect of a sender of another realm, or with another sender's secret."""
        realm, other = (self.random.randrange(len(self.config.realms)) for _ in range(2))
        (ip, secret), (_, another) = self.home(other), self.home(realm)
        octets = signed(DISCONNECT_REQUEST, self.id(), ZEROS, self.reverse_list(realm), self.random.choice((secret, another)))
        self.arrive("perhaps another realm's sender", f"reverse:{realm}", at(ip, PORT), octets)

    KINDS = (PolicyScript.access, accounting, ReverseScript.answered, begin, some_end, ReverseScript.repeat, reverse, other_sender,
             ReverseScript.bad_reverse, PolicyScript.reply, Script.late_reply, ReverseScript.bad_reverse_reply, Script.tick,
             Script.late_tick, Script.too_late)
    WEIGHTS = (2, 3, 4, 10, 6, 3, 36, 3, 1, 8, 1, 2, 3, 2, 0.3)
