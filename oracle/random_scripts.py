"""Random scripts of accounting, answered by broker.py: requests, repeats, losses, replies, ticks and faults."""
import random
import broker
from broker import PROXY_STATE, SEAL, ZEROS, signed, sealed, text
from configurations import CONFIGURATIONS
from row import played

PEER = "192.0.2.1"
SECRET = b"xyzzy5461"
USER_NAME, CLASS, STATUS, SESSION = 1, 25, 40, 44


def with_wrong_bit(octets, place):
    return octets[:place] + bytes([octets[place] ^ 1]) + octets[place + 1:]


def signed_as_it_is(code, id, authenticator, attributes, secret):
    """A packet with a right digest and its Message-Authenticators left as they are."""
    digest = broker.md5(text(code, id, authenticator, attributes), secret)
    return text(code, id, digest, attributes)


class Script:
    """A script while it is made. Its broker knows what waits, so that most of what is made has an effect."""
    EVENTS = 24

    def __init__(self, configuration, seed):
        self.random = random.Random(seed)
        self.config = broker.Config(CONFIGURATIONS[configuration])
        self.broker = broker.Broker(self.config)
        self.now = 0
        self.asked, self.sent = [], []
        self.lines = [f"#@ {configuration} seed {seed}"]
        while sum(not line.startswith("#") for line in self.lines) < self.EVENTS:
            self.now += self.random.choice((0, 0, 1, 2, 5, 12))
            self.random.choices(self.KINDS, self.WEIGHTS)[0](self)

    # What happens

    def moment(self):
        """Now, or somewhat before: moments need not rise."""
        return max(0, self.now - self.random.choice((0, 0, 0, 0, 0, 4)))

    def give(self, what, line):
        held = self.entries()
        before = {id(e): e.octets for e in held}
        answer = played(self.broker, line)
        self.lines += ["# " + what, line] + answer
        for realm in self.broker.realms:
            for e in realm.entries:
                if before.get(id(e)) != e.octets:
                    self.sent.append((realm.index, realm.endpoint_of(e.link), e.octets, e.link[2]))

    def arrive(self, what, place, source, octets, now=None):
        now = self.moment() if now is None else now
        self.give(what, f"A {now}{self.wall_clock()} {place} {source} {octets.hex() or '-'}")

    def wall_clock(self):
        """What says the wall clock's seconds behind a moment, or nothing."""
        return ""

    def entries(self):
        return [e for realm in self.broker.realms for e in realm.entries]

    # Requests

    def attributes(self):
        """A list of a user of some realm."""
        pick, r = self.random.choice, self.random.random
        name = pick(self.config.realms)["name"]
        name = pick(("u@", "u@", "u@", "@", "v@x@")) + pick((name, name, name.upper()))
        attributes = [(USER_NAME, name.encode()), (STATUS, pick((1, 2, 3)).to_bytes(4, "big"))]
        if r() < 0.3:
            attributes.append((SESSION, pick((b"1", b"2"))))
        for _ in range(pick((0, 0, 0, 1, 2))):
            attributes.insert(pick((0, len(attributes))), (PROXY_STATE, pick((b"", b"p", b"pq"))))
        if r() < 0.2:
            attributes.insert(self.random.randrange(len(attributes) + 1), (SEAL, ZEROS))
        return attributes

    def source(self):
        return f"{PEER}:{self.random.choice((5000, 5000, 5001))}"

    def request(self):
        source, id = self.source(), self.random.randrange(4)
        octets = signed(4, id, ZEROS, self.attributes(), SECRET)
        self.asked.append((source, octets))
        self.arrive("a request", "acct", source, octets)

    def repeat(self):
        if self.asked:
            source, octets = self.random.choice(self.asked[-4:])
            padding = self.random.choice((b"", b"", b"", b"\0"))
            self.arrive("a request again", "acct", source, octets + padding)

    def bad_request(self):
        octets = signed(4, self.random.randrange(4), ZEROS, self.attributes(), SECRET)
        nowhere = signed(4, 1, ZEROS, [(USER_NAME, b"u@nowhere")], SECRET)
        seals = self.random.choice(([b"short"], [ZEROS], [ZEROS, ZEROS]))
        badly_sealed = signed_as_it_is(4, 1, ZEROS, [(USER_NAME, b"u@a")] + [(SEAL, s) for s in seals], SECRET)
        what, place, source, octets = self.random.choice((
            ("a wrong digest", "acct", self.source(), with_wrong_bit(octets, 4 + self.random.randrange(16))),
            ("a wrong last bit", "acct", self.source(), with_wrong_bit(octets, len(octets) - 1)),
            ("a digest with another secret", "acct", self.source(), signed(4, 1, ZEROS, self.attributes(), b"h1")),
            ("a wrong code", "acct", self.source(), signed(5, 1, ZEROS, self.attributes(), SECRET)),
            ("a wrong place", "auth", self.source(), octets),
            ("a stranger", "acct", "192.0.2.9:5000", octets),
            ("no such realm", "acct", self.source(), nowhere),
            ("a wrong seal", "acct", self.source(), badly_sealed),
            ("too few octets", "acct", self.source(), octets[:self.random.randrange(20)]),
            ("an octet short", "acct", self.source(), octets[:-1]),
            ("a wrong attribute", "acct", self.source(), octets[:21] + b"\1" + octets[22:]),
        ))
        self.arrive(what, place, source, octets)

    # Replies

    def waiting(self):
        return [(realm, e) for realm in self.broker.realms for e in realm.entries if e.waits()]

    def reply_list(self):
        pick, r = self.random.choice, self.random.random
        attributes = []
        if r() < 0.3:
            attributes.append((CLASS, pick((b"c", b"dd"))))
        if r() < 0.4:
            attributes.append((PROXY_STATE, pick((b"x", bytes(8)))))
        return attributes

    def reply_to(self, octets, secret, code=5):
        """A reply, well signed; a Message-Authenticator in it is made in either way."""
        sent, attributes = broker.Packet(octets), self.reply_list()
        if self.random.random() < 0.25:
            attributes.insert(self.random.randrange(len(attributes) + 1), (SEAL, ZEROS))
            if self.random.random() < 0.5:
                attributes = sealed(code, sent.id, ZEROS, attributes, secret)
                return signed_as_it_is(code, sent.id, sent.authenticator, attributes, secret)
        return signed(code, sent.id, sent.authenticator, attributes, secret)

    def reply(self):
        if self.waiting():
            realm, entry = self.random.choice(self.waiting())
            octets = self.reply_to(entry.octets, realm.secret_of(entry.link))
            self.from_server("a reply", realm.index, realm.endpoint_of(entry.link), octets, entry.link[2])

    def from_server(self, what, realm, source, octets, out=0):
        self.arrive(what, self.place_of_out(realm, out), broker.at(*source), octets)

    def place_of_out(self, realm, out):
        return f"out:{realm}" + f":{out}" * (out > 0)

    def secret_at(self, realm, source, out):
        table = self.broker.realms[realm]
        return table.secret_of(self.config.link_of(realm, out, source))

    def late_reply(self):
        if self.sent:
            realm, source, octets, out = self.random.choice(self.sent)
            octets = self.reply_to(octets, self.secret_at(realm, source, out))
            self.from_server("a reply to what was sent before", realm, source, octets, out)

    def bad_reply(self):
        if not self.waiting():
            return
        realm, entry = self.random.choice(self.waiting())
        index, source = realm.index, realm.endpoint_of(entry.link)
        secret = realm.secret_of(entry.link)
        good = self.reply_to(entry.octets, secret)
        other = (source[0][:-1] + self.random.choice("123"), source[1])
        some = self.random.randrange(len(self.broker.realms) + 1)
        seals = self.random.choice(([b"short"], [ZEROS], [ZEROS, ZEROS]))
        authenticator = broker.Packet(entry.octets).authenticator
        badly_sealed = signed_as_it_is(5, entry.id, authenticator, [(SEAL, s) for s in seals], secret)
        what, realm, source, octets = self.random.choice((
            ("a wrong digest", index, source, with_wrong_bit(good, 4 + self.random.randrange(16))),
            ("another secret", index, source, self.reply_to(entry.octets, b"no")),
            ("another Identifier", index, source, good[:1] + bytes([(good[1] + 1) % 256]) + good[2:]),
            ("a wrong code", index, source, self.reply_to(entry.octets, secret, 2)),
            ("perhaps another server", index, other, good),
            ("perhaps another realm's place", some, source, good),
            ("another port", index, (source[0], 1814), good),
            ("the port of Access-Requests", index, (source[0], 1812), good),
            ("a wrong seal", index, source, badly_sealed),
            ("a request", index, source, signed(4, entry.id, ZEROS, [], secret)),
        ))
        self.from_server(what, realm, source, octets, entry.link[2])

    # Ticks, and moments

    def tick(self):
        self.give("a tick", f"T {self.moment()} {self.random.randrange(self.config.shards)}")

    def late_tick(self):
        self.now += 25
        self.tick()

    def no_shard(self):
        self.give("no such shard", f"T {self.moment()} {self.config.shards}")

    def too_late(self):
        if self.random.random() < 0.3:
            self.give("too late a tick", f"T {2 ** 62 + 1} 0")
        elif self.waiting():
            realm, entry = self.random.choice(self.waiting())
            source = realm.endpoint_of(entry.link)
            octets = self.reply_to(entry.octets, realm.secret_of(entry.link))
            place = self.place_of_out(realm.index, entry.link[2])
            self.arrive("too late a reply", place, broker.at(*source), octets, 2 ** 62 + 1)

    KINDS = (request, repeat, bad_request, reply, late_reply, bad_reply, tick, late_tick, no_shard, too_late)
    WEIGHTS = (26, 12, 8, 18, 6, 9, 14, 4, 1, 2)

