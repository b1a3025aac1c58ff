"""Random scripts of what an operator decides, answered by broker.py.

What random_federation.py makes, and: names to reject, and names that aren't well formed; requests of access servers that
may not ask; accounting that names no user, or is answered or dropped; attributes that don't pass, in requests, replies
and CoAs, in lists of vendors and in what is no list; Operator-Names and Chargeable-User-Identities that are there; many
requests of one name. What the lists, peers and shares are is in the configurations.
"""
from broker import *
from random_access import OTHER_VENDOR
from random_federation import FederationScript, names_near

CALLED, CALLING, SERVICE_TYPE, TUNNEL_TYPE, GROUP = 30, 31, 6, 64, 81
ILL_FORMED = ("a..b", "-a.b", "a-.b", "a b.c", "b", "\u00e9.fr", "a.b-", "o.t")


class PolicyScript(FederationScript):
    EVENTS = 24

    def id(self):
        return self.random.randrange(6)

    # Names

    def all_names(self):
        rejected = [name for pattern in self.config.reject for name in names_near(pattern.decode())]
        return super().all_names() + rejected + list(ILL_FORMED)

    def server_ends(self):
        return [end for realm in self.config.realms for server in realm["server"] for end in server["links"].values()]

    def home(self, realm):
        server = self.random.choice(self.config.realms[realm]["server"])
        ip = self.random.choice(list(server["links"].values()))[0]
        return ip, self.config.home_of(realm, ip)["secret"].encode()

    # Attributes

    def of_vendor(self, vendor):
        """A Vendor-Specific: a list, one with what is none, or less than a vendor's number."""
        subs = [(self.random.choice((1, 2, 7)), self.octets(0, 1, 2)) for _ in range(self.random.choice((0, 1, 2, 3)))]
        listed = b"".join(bytes([kind, len(value) + 2]) + value for kind, value in subs)
        if self.chance(0.2):
            listed += self.random.choice((b"\x01", b"\x01\x01", b"\x02\x09a"))
        return (VENDOR_SPECIFIC, vendor + listed if self.chance(0.9) else vendor[:self.random.randrange(4)])

    def listed(self):
        """What some list may name."""
        return self.random.choice((
            (CALLED, self.octets(0, 3)), (CALLING, self.octets(5)), (SERVICE_TYPE, bytes([0, 0, 0, 2])),
            (TUNNEL_TYPE, bytes([0, 0, 0, 13])), (GROUP, b"v1"), (CLASS, self.octets(2)),
            (OPERATOR_NAME, self.random.choice((b"1other.example", b""))), (CHARGEABLE_USER_IDENTITY, self.octets(0, 1, 4)),
            self.of_vendor(OTHER_VENDOR), self.of_vendor(OTHER_VENDOR), self.of_vendor(MICROSOFT),
        ))

    def some_listed(self, attributes, share):
        while self.chance(share):
            self.put(attributes, self.listed())
        return attributes

    def access_list(self, must_seal):
        return self.some_listed(super().access_list(must_seal), 0.4)

    def accounting_list(self):
        attributes = self.some_listed(super().accounting_list(), 0.3)
        if self.chance(0.15):
            return [(kind, value) for kind, value in attributes if kind != USER_NAME]
        if self.chance(0.1):
            self.put(attributes, (SEAL, ZEROS))
        return attributes

    def access_reply_list(self, code):
        return self.some_listed(super().access_reply_list(code), 0.4)

    def reverse_list(self, realm):
        return self.some_listed(super().reverse_list(realm), 0.4)

    # Many of one name

    def crowd(self):
        """Requests of one name, until it has its share, and one of another."""
        peer, user = self.peer(), self.user()
        for _ in range(self.random.choice((2, 3, 4))):
            if self.chance(0.7):
                octets = self.access_of(peer, [(USER_NAME, self.random.choice((user, user, user.upper()))), (SEAL, ZEROS)])
                self.ask("one of a crowd", "auth", self.port_of(peer), octets)
            else:
                octets = signed(4, self.id(), ZEROS, [(USER_NAME, user)], peer["secret"].encode())
                self.ask("one of a crowd", "acct", self.port_of(peer), octets)
        self.access()

    KINDS = FederationScript.KINDS + (crowd,)
    WEIGHTS = FederationScript.WEIGHTS + (5,)
