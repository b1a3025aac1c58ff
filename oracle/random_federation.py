"""Random scripts of a federation, answered by broker.py.

What random_reverse.py makes, and: names that fit each kind of pattern, and nearly; servers that fall silent and come
back; requests that come back from where they were sent, with as many Proxy-States as may be, and more; Status-Server.
Home servers that want seals are in the configurations.
"""
import broker
from broker import *
from random_access import AccessScript, with_seal
from random_reverse import ReverseScript
from random_scripts import Script


def names_near(pattern):
    """Names that fit a pattern, and some that nearly do."""
    if pattern == "*":
        return ["o", "o.t", "*"]
    if pattern.startswith("*."):
        end = pattern[2:]
        return ["y." + end, "y." + end, "y.z." + end, "." + end, end, "y" + end, "y.." + end, "*." + end]
    return [pattern, pattern, "x" + pattern, pattern + "."]


class FederationScript(ReverseScript):
    EVENTS = 20

    def __init__(self, configuration, seed):
        self.silent = set()
        super().__init__(configuration, seed)

    # Names

    def all_names(self):
        return [name for realm in self.config.realms for pattern in (realm["name"], *realm.get("also", []))
                for name in names_near(pattern)]

    def name_of(self, realm):
        """A name of a realm."""
        names = [name for name in self.all_names() if self.config.realm_named(b"@" + name.encode()) == realm]
        return self.random.choice(names)

    def user(self):
        names = self.all_names()
        if self.chance(0.6):
            names = [name for name in names if self.config.realm_named(b"@" + name.encode()) is not None]
        name = self.random.choice(names)
        user = self.random.choice(("u@", "u@", "@", "v@a@")) + self.random.choice((name, name, name.upper()))
        return user.encode()

    def nobody(self):
        """A User-Name that names no realm, or seems so."""
        return self.random.choice((b"u", b"", b"u@", b"@", b"u@a@", b"u@nowhere", b"u@y.", b"u@."))

    def local_reject(self):
        """What is answered by a local Access-Reject, perhaps."""
        peer = self.peer()
        some = self.random.choice((
            [], [(USER_NAME, self.nobody())], [(USER_NAME, self.nobody()), (USER_NAME, self.user())],
            [(USER_NAME, self.user()), (USER_PASSWORD, self.octets(0, 15, 144))]))
        self.put(some, (SEAL, ZEROS), *self.proxy_states())
        octets = self.access_of(peer, some)
        self.arrive("perhaps a local reject", "auth", self.port_of(peer), octets)

    # Hops

    def proxy_states(self):
        most = self.config.max_hops or 2
        count = self.random.choice((0, 0, 0, 0, 1, most, most, most + 1))
        return [(PROXY_STATE, self.octets(0, 1, 2)) for _ in range(count)]

    def answer_to(self, source):
        """The packet that the last event gave back to that address and port, or None."""
        last = self.lines[-1].split(" ")
        return bytes.fromhex(last[4]) if last[0] == "#>" and last[3:4] == [source] else None

    def loop(self):
        """A request that comes back from where it was sent, until no more of it is sent; then its answers, which come
        back likewise."""
        before, sent = len(self.sent), []
        self.random.choice((type(self).access, type(self).accounting))(self)
        while len(self.sent) == before + 1:
            realm, source, octets, _ = self.sent[-1]
            place = {ACCESS_REQUEST: "auth", ACCOUNTING_REQUEST: "acct"}[octets[0]]
            if self.config.peer_of(source[0]) is None:
                return
            before += 1
            sent.append((realm, source))
            self.arrive("it comes back", place, f"{source[0]}:5000", octets)
        while sent:
            realm, source = sent.pop()
            answer = self.answer_to(f"{source[0]}:5000")
            if answer is None:
                return
            self.from_server("its answer comes back", realm, source, answer)

    # Status-Server

    def status(self):
        peer, place = self.peer(), self.random.choice(("auth", "auth", "acct"))
        secret, authenticator = peer["secret"].encode(), self.random.randbytes(16)
        some = [(SEAL, ZEROS)]
        self.put(some, *self.proxy_states())
        if self.chance(0.2):
            self.put(some, (NAS_IDENTIFIER, b"x"), (USER_NAME, self.user()))
        good = with_seal(STATUS_SERVER, self.id(), authenticator, some, secret)
        over_zeros = sealed(STATUS_SERVER, 1, ZEROS, some, secret)
        wrong = self.random.choice((
            ("over zeros", place, self.port_of(peer), text(STATUS_SERVER, 1, authenticator, over_zeros)),
            ("not sealed", place, self.port_of(peer), text(STATUS_SERVER, 1, authenticator, some[:-1])),
            ("signed", place, self.port_of(peer), signed(STATUS_SERVER, 1, ZEROS, some[:-1], secret)),
            ("of a stranger", place, "192.0.2.9:5000", good),
            ("of a server", "out:0", "198.51.100.1:1812", good),
            ("at another place", "reverse:0", "198.51.100.1:40000", good),
            ("an octet short", place, self.port_of(peer), good[:-1]),
        ))
        if self.chance(0.6):
            now = 2 ** 62 + 1 if self.chance(0.1) else None
            self.arrive("a Status-Server", place, self.port_of(peer), good, now)
        else:
            self.arrive("perhaps a wrong Status-Server: " + wrong[0], *wrong[1:])

    # Servers that are silent

    def server_ends(self):
        return [server["links"][kind] for realm in self.config.realms for server in realm["server"]
                for kind in ("auth", "acct")]

    def falls_silent(self):
        self.silent.add(self.random.choice(self.server_ends()))

    def comes_back(self):
        if self.silent:
            self.silent.remove(self.random.choice(sorted(self.silent)))

    def reply(self):
        """A reply of a server that isn't silent."""
        heard = [(r, e) for r, e in self.waiting() if r.endpoint_of(e.link) not in self.silent]
        if heard:
            realm, entry = self.random.choice(heard)
            octets = self.reply_to(entry.octets, realm.secret_of(entry.link))
            self.from_server("a reply", realm.index, realm.endpoint_of(entry.link), octets, entry.link[2])

    def silence(self):
        """Requests, and a tick for each time that they are sent."""
        # Held, so that no entry that comes has the number of one that went.
        held = self.entries()
        before = {id(e) for e in held}
        for _ in range(self.random.choice((1, 2))):
            self.random.choice((type(self).access, type(self).accounting))(self)
        asked = [(realm, e) for realm, e in self.waiting() if id(e) not in before]
        for realm, entry in asked[:1]:
            for _ in range(realm.table["tries"]):
                self.now = max(self.now, entry.deadline)
                self.give("nothing came", f"T {self.now} {realm.index % self.config.shards}")

    # Disconnect and CoA

    def reverse_list(self, realm):
        named = (USER_NAME, b"u@" + self.name_of(realm).encode())
        return [named if kind == USER_NAME and self.chance(0.8) else (kind, value)
                for kind, value in super().reverse_list(realm)]

    KINDS = (AccessScript.access, ReverseScript.accounting, ReverseScript.answered, AccessScript.repeat, local_reject,
             ReverseScript.reverse, reply, Script.late_reply, AccessScript.bad_access_reply,
             ReverseScript.bad_reverse_reply, Script.tick, Script.late_tick, loop, status, falls_silent, comes_back,
             silence)
    WEIGHTS = (14, 6, 5, 4, 3, 7, 22, 6, 4, 2, 8, 6, 4, 6, 6, 3, 9)


class SilenceScript(FederationScript):
    """What happens at servers that fall silent and come back: few other faults."""
    EVENTS = 24

    def id(self):
        return self.random.randrange(8)

    def user(self):
        return b"u@" + self.name_of(self.random.choice((0, 0, 1))).encode()

    def proxy_states(self):
        return []

    def next_tick(self):
        """A tick at which something is due, or just not."""
        due = [(e.deadline, realm.index) for realm, e in self.waiting()]
        if due:
            deadline, realm = min(due)
            self.now = max(self.now, deadline - self.random.choice((0, 0, 0, 0, 0, 1)))
            self.give("a tick of what waits", f"T {self.now} {realm % self.config.shards}")

    def end_of_rest(self):
        """A request just before, at or behind the end of a rest."""
        ends = [until for realm in self.broker.realms for until in realm.rests.values() if until >= self.now]
        if ends:
            self.now = self.random.choice(ends) + self.random.choice((-1, 0, 0, 0, 1))
        self.access()

    KINDS = (AccessScript.access, ReverseScript.accounting, AccessScript.repeat, ReverseScript.reverse,
             FederationScript.reply, Script.late_reply, AccessScript.bad_access_reply, AccessScript.long_reply,
             Script.tick, next_tick, end_of_rest, FederationScript.falls_silent, FederationScript.comes_back,
             FederationScript.silence)
    WEIGHTS = (16, 5, 3, 3, 16, 5, 3, 2, 3, 18, 12, 4, 4, 8)
