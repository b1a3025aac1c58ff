"""Random scripts of logins that stay at their server, and of shares, answered by broker.py.

What random_policy.py makes, and: Challenges with one State, another's, two or none, and requests that go on with them, from the
same access server and from another; servers that fall silent, that answer and are refused, and that answer others meanwhile;
requests of one access server until it has its share; requests of many attributes; Access-Accepts with User-Names.
"""
import broker
from broker import *
from random_access import AccessScript, classes
from random_federation import FederationScript, SilenceScript
from random_policy import PolicyScript
from random_scripts import Script, signed_as_it_is

STATES = (b"a", b"a", b"b", b"c", b"")


class LoginScript(PolicyScript):
    EVENTS = 30

    def id(self):
        return self.random.randrange(9)

    def user(self):
        return b"u@" + self.name_of(self.random.choice((0, 0, 0, 1))).encode() if self.chance(0.85) else super().user()

    def proxy_states(self):
        return [] if self.chance(0.8) else super().proxy_states()

    # Requests

    def access_list(self, must_seal):
        if self.chance(0.3):
            return super().access_list(must_seal)
        attributes = [(USER_NAME, self.user()), (EAP_MESSAGE, self.octets(3)), (SEAL, ZEROS)]
        for _ in range(self.random.choice((0, 1, 1, 1, 2))):
            self.put(attributes, (STATE, self.random.choice(STATES)))
        return attributes

    def round(self):
        """A round of a login: what was challenged goes on, mostly from where it came."""
        held = [e for e in self.entries() if not e.waits() and e.reply[0] == ACCESS_CHALLENGE]
        if not held:
            return self.access()
        entry = self.random.choice(held)
        peer = self.config.peers[entry.request.peer] if self.chance(0.85) else self.peer()
        states = Packet(entry.reply).values(STATE) if self.chance(0.9) else [self.random.choice(STATES)]
        some = [(USER_NAME, entry.request.packet.first(USER_NAME) or b"u"), (EAP_MESSAGE, self.octets(3))]
        some += [(STATE, state) for state in states] + [(SEAL, ZEROS)]
        return self.ask("a login goes on", "auth", self.port_of(peer), self.access_of(peer, some))

    def login(self):
        """A request, a Challenge to it, and the next round."""
        held = self.entries()
        before = {id(e) for e in held}
        self.access()
        for realm, entry in self.waiting():
            if id(entry) not in before and entry.request.packet.code == ACCESS_REQUEST:
                octets = self.reply_to(entry.octets, realm.secret_of(entry.link), ACCESS_CHALLENGE)
                self.from_server("a Challenge", realm.index, realm.endpoint_of(entry.link), octets, entry.link[2])
        self.round()

    def many_attributes(self):
        """A request of as many attributes as may be, or one more."""
        most, peer = self.config.max_attributes or 8, self.peer()
        some = [(USER_NAME, self.user()), (SEAL, ZEROS)]
        some += [(CLASS, b"")] * (most - len(some) + self.random.choice((0, 0, 1, 1, 5)))
        if self.chance(0.7):
            octets, place = self.access_of(peer, some), "auth"
        else:
            octets, place = signed(self.random.choice((4, 4, 12)), self.id(), ZEROS, some, peer["secret"].encode()), "acct"
        if self.chance(0.2):
            octets = octets[:-1] + bytes([octets[-1] ^ 1])
        self.ask("a request of many attributes", place, self.port_of(peer), octets)

    def share(self):
        """Requests of one access server, until it has its share, and one of another."""
        peer = self.peer()
        for _ in range(self.random.choice((2, 3, 4))):
            octets = self.access_of(peer, [(USER_NAME, self.user()), (SEAL, ZEROS)])
            place = "auth"
            if self.chance(0.3):
                octets, place = signed(4, self.id(), ZEROS, [(USER_NAME, self.user())], peer["secret"].encode()), "acct"
            self.ask("one of many of an access server", place, self.port_of(peer), octets)
        self.access()

    # Replies

    def access_reply_list(self, code):
        if self.chance(0.15):
            return super().access_reply_list(code)
        attributes = [(SEAL, ZEROS)] if self.chance(0.9) else []
        for _ in range(self.random.choice((0, 1, 1, 1, 2)) if code == ACCESS_CHALLENGE else self.chance(0.1)):
            self.put(attributes, (STATE, self.random.choice(STATES)))
        for _ in range(self.random.choice((0, 1, 1, 2)) if code != ACCESS_CHALLENGE else 0):
            name = self.random.choice((self.user(), self.user(), self.user().swapcase(), b"anonymous", b"@", b"u@a@b"))
            self.put(attributes, (USER_NAME, name))
        return attributes

    def reply_to(self, octets, secret, code=None):
        if octets[0] == ACCESS_REQUEST:
            code = code or self.random.choice((2, 3, 11, 11, 11, 11))
        return super().reply_to(octets, secret, code)

    def refused_sign(self):
        """A well signed reply that is refused for its seals, its size or its code: a sign of life, or none."""
        of_servers = [(r, e) for r, e in self.waiting() if e.link[0] != "coa"]
        if not of_servers:
            return
        realm, entry = self.random.choice(of_servers)
        secret, source, sent = realm.secret_of(entry.link), realm.endpoint_of(entry.link), broker.Packet(entry.octets)
        code = self.random.choice(REPLIES_OF[sent.code] if self.chance(0.9) else (2, 5))
        wrong = self.random.choice(([(SEAL, ZEROS)], [(SEAL, b"")], [], [(EAP_MESSAGE, b"e")]))
        if self.chance(0.1):
            wrong = classes(4096 - 20)
        octets = signed_as_it_is(code, sent.id, sent.authenticator, wrong, secret)
        if self.chance(0.1):
            octets = octets[:5] + bytes([octets[5] ^ 1]) + octets[6:]
        self.from_server("perhaps a sign of life", realm.index, source, octets, entry.link[2])

    KINDS = (AccessScript.access, login, round, PolicyScript.accounting, AccessScript.repeat, many_attributes, share,
             PolicyScript.reply, Script.late_reply, refused_sign, AccessScript.bad_access_reply, Script.tick, Script.late_tick,
             SilenceScript.next_tick, SilenceScript.end_of_rest, FederationScript.falls_silent, FederationScript.comes_back,
             FederationScript.silence, PolicyScript.crowd)
    WEIGHTS = (10, 9, 16, 4, 4, 3, 4, 16, 3, 8, 2, 3, 3, 14, 9, 3, 3, 6, 2)
