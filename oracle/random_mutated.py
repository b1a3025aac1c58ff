"""Random scripts of mutated datagrams, answered by broker.py.

What random_federation.py makes, and before it, behind it or in its place copies that are mutated: octets flipped, cut
or prolonged, wrong lengths, attributes doubled, moved, taken out or of another type, odd User-Names, many
Proxy-States, seals too many or of a wrong size, packets of 4096 octets and above, other codes, places and sources.
Half of the copies are sealed and signed anew, so that what is wrong is met behind those checks too.
"""
import broker
from broker import *
from random_access import AccessScript, classes
from random_federation import FederationScript
from random_reverse import ReverseScript
from random_scripts import Script, signed_as_it_is

REPLY_MESSAGE, UNKNOWN, MOST_IN_VALUE = 18, 200, 253
TYPES = (USER_NAME, USER_PASSWORD, CHAP_PASSWORD, NAS_IP_ADDRESS, STATE, CLASS, VENDOR_SPECIFIC, NAS_IDENTIFIER,
         PROXY_STATE, ACCT_STATUS_TYPE, ACCT_SESSION_ID, CHAP_CHALLENGE, TUNNEL_PASSWORD, EAP_MESSAGE, SEAL,
         ERROR_CAUSE, UNKNOWN, 0, 255)
CODES = (0, 1, 1, 2, 3, 4, 4, 5, 6, 11, 12, 12, 13, 40, 40, 41, 42, 43, 43, 44, 45, 255)
# Codes that are easily taken for one another.
LIKE_CODES = ((1, 4, 12), (2, 3, 11), (40, 43), (41, 42, 44, 45))


def with_octet(octets, place, octet):
    return octets[:place] + bytes([octet]) + octets[place + 1:] if place < len(octets) else octets


def with_length(octets, length):
    """The Length field says so."""
    return octets[:2] + (length % 65536).to_bytes(2, "big") + octets[4:] if len(octets) >= 4 else octets


def attribute_places(octets):
    """Where attributes begin, as far as their lengths lead, and where the last one ends."""
    places, place = [], 20
    while place + 1 < len(octets) and octets[place + 1] >= 2 and place + octets[place + 1] <= len(octets):
        places.append(place)
        place += octets[place + 1]
    return places, place


def resealed(code, id, authenticator, attributes, secret):
    """A Message-Authenticator made anew, where there is one of sixteen octets."""
    sizes = [len(v) for k, v in attributes if k == SEAL]
    return sealed(code, id, authenticator, attributes, secret) if sizes == [16] else attributes


class MutatedScript(FederationScript):
    EVENTS = 66

    def arrive(self, what, place, source, octets, now=None):
        """A datagram, or copies of it that are mutated, or both."""
        if self.chance(0.25):
            super().arrive(what, place, source, octets, now)
        for _ in range(self.random.choice((1, 1, 1, 2))):
            self.arrive_mutated(place, source, octets)
        if self.chance(0.45):
            super().arrive(what, place, source, octets, now)

    def arrive_mutated(self, place, source, octets):
        said = []
        for _ in range(self.random.choice((1, 1, 1, 2, 3))):
            what, mutate = self.random.choices(self.MUTATIONS, self.MUTATION_WEIGHTS)[0]
            octets = mutate(self, octets)
            said.append(what)
        if self.chance(0.1):
            said.append("elsewhere")
            place, source = self.elsewhere(place, source)
        if "grown" in said or self.chance(0.55):
            said.append("signed anew")
            octets = self.signed_anew(place, source, self.with_length_mended(octets))
        now = self.random.choice((LATEST, LATEST + 1, LATEST + 1, 2 ** 64 - 1)) if self.chance(0.02) else None
        super().arrive("mutated: " + ", ".join(said), place, source, octets, now)

    # Octets

    def flipped(self, octets):
        for _ in range(self.random.choice((1, 1, 1, 2, 8))):
            if octets:
                place = self.random.randrange(len(octets))
                octets = with_octet(octets, place, octets[place] ^ 1 << self.random.randrange(8))
        return octets

    def cut(self, octets):
        return octets[:self.random.choice((-1, -2, 19, 20, 21, self.random.randrange(len(octets) + 1)))]

    def prolonged(self, octets):
        return octets + self.octets(1, 2, 3, 16, 64)

    def of_other_length(self, octets):
        size = len(octets)
        return with_length(octets, self.random.choice((
            size - 1, size - 2, size + 1, size + 2, size - 18, 0, 19, 20, 21, LARGEST, LARGEST + 1,
            self.random.randrange(65536))))

    def with_other_attribute_length(self, octets):
        places, _ = attribute_places(octets)
        if not places:
            return octets
        place = self.random.choice(places) + 1
        size = octets[place]
        return with_octet(octets, place, self.random.choice((0, 1, 2, 3, 255, size - 1, size + 1, size + 2)) % 256)

    def with_other_type(self, octets):
        places, _ = attribute_places(octets)
        return with_octet(octets, self.random.choice(places), self.random.choice(TYPES)) if places else octets

    def with_other_code(self, octets):
        codes = [code for like in LIKE_CODES for code in like if octets[:1] and octets[0] in like]
        return with_octet(octets, 0, self.random.choice(codes if codes and self.chance(0.6) else CODES))

    def with_other_identifier(self, octets):
        return with_octet(octets, 1, self.random.choice((0, 1, 2, 3, 255)))

    def shifted(self, octets):
        """Some octets taken out, or put in."""
        place, count = self.random.randrange(len(octets) + 1), self.random.choice((1, 1, 2, 16))
        if self.chance(0.5):
            return octets[:place] + octets[place + count:]
        return octets[:place] + self.random.randbytes(count) + octets[place:]

    def overwritten(self, octets):
        """Any octets from a place on."""
        place = self.random.randrange(len(octets) + 1)
        return octets[:place] + self.random.randbytes(len(octets) - place)

    # Attributes

    def with_list(self, octets, change):
        """With a list that is changed, where it is a packet: its Length is right, and what is behind it stays."""
        try:
            packet = Packet(octets)
        except Refused:
            return self.flipped(octets)
        attributes = list(packet.attributes)
        change(attributes)
        changed = text(packet.code, packet.id, packet.authenticator, attributes)
        return changed + octets[len(packet.octets):]

    def some(self, attributes):
        return self.random.randrange(len(attributes))

    def doubled(self, octets):
        return self.with_list(octets, lambda some: some and self.put(some, self.random.choice(some)))

    def moved(self, octets):
        return self.with_list(octets, lambda some: some and self.put(some, some.pop(self.some(some))))

    def taken_out(self, octets):
        return self.with_list(octets, lambda some: some and some.pop(self.some(some)))

    def added(self, octets):
        return self.with_list(octets, lambda some: self.put(some, self.any_attribute()))

    def any_attribute(self):
        return self.random.choice((
            (USER_NAME, self.user()), (USER_PASSWORD, self.octets(16, 16, 15, 32)), (CHAP_PASSWORD, self.octets(17)),
            (NAS_IP_ADDRESS, bytes([192, 0, 2, self.random.randrange(6)])), (NAS_IDENTIFIER, b"nas1"),
            (ACCT_SESSION_ID, self.session()), (ACCT_STATUS_TYPE, bytes([0, 0, 0, self.random.randrange(9)])),
            (CHAP_CHALLENGE, self.octets(0, 16)), (EAP_MESSAGE, self.octets(0, 4)),
            (ERROR_CAUSE, bytes([0, 0, 1, 145])), (STATE, self.octets(0, 8)), (SEAL, self.octets(16, 16, 15, 17, 0)),
            (self.random.randrange(256), b"any"),
            self.salted(), self.odd(), (PROXY_STATE, self.octets(0, 1, 8, 253)),
        ))

    def with_other_value(self, octets):
        def change(attributes):
            if attributes:
                place = self.some(attributes)
                kind, value = attributes[place]
                attributes[place] = (kind, self.random.choice((
                    b"", value[:-1], (value + b"\0")[:MOST_IN_VALUE], value[::-1], bytes(len(value)),
                    self.random.randbytes(len(value)), (value * 2)[:MOST_IN_VALUE])))
        return self.with_list(octets, change)

    def odd_name(self):
        name = self.user()
        return self.random.choice((
            b"", b"@", name + b"\0", name + b" ", b"\0" + name, name.replace(b"@", b"@@"), name.replace(b"@", b""),
            name + b"@", b"\xff\xfe" + name, name + b"\xc3\xa9", name.replace(b"u", b"\n\r"), name.swapcase(),
            name.replace(b"@", b"\xef\xbc\xa0"), b"@" * 253, b"x" * (MOST_IN_VALUE - len(name)) + name,
            bytes(octet if octet == 64 else octet ^ 0x20 for octet in name), name[:-1] + bytes([name[-1] | 0x80])))

    def with_odd_name(self, octets):
        def change(attributes):
            attributes[:] = [(kind, value) for kind, value in attributes if kind != USER_NAME or self.chance(0.2)]
            self.put(attributes, (USER_NAME, self.odd_name()))
        return self.with_list(octets, change)

    def with_proxy_states(self, octets):
        """Proxy-States as many as may be and more."""
        def change(attributes):
            for _ in range(self.random.choice((1, 2, 3, 4, 17, 60))):
                self.put(attributes, (PROXY_STATE, self.octets(0, 1, 8)))
        return self.with_list(octets, change)

    def with_other_seals(self, octets):
        def change(attributes):
            attributes[:] = [(kind, value) for kind, value in attributes if kind != SEAL or self.chance(0.3)]
            for _ in range(self.random.choice((0, 0, 1, 1, 2))):
                self.put(attributes, (SEAL, self.octets(16, 16, 16, 15, 17, 0)))
        return self.with_list(octets, change)

    def grown(self, octets):
        """Of 4096 octets, or as many as just fit when more is added, or above."""
        def change(attributes):
            size = sum(len(value) + 2 for _, value in attributes)
            room = LARGEST - 20 - self.random.choice((-1, 0, 9, 10, 27, 28))
            kind = self.random.choice((CLASS, CLASS, CLASS, PROXY_STATE, VENDOR_SPECIFIC, EAP_MESSAGE))
            attributes += [(kind, value) for _, value in classes(max(room - size, 255))]
        return self.with_list(octets, change) + self.random.choice((b"", b"", b"", b"\0", bytes(5)))

    # Places and sources, and signing anew

    def elsewhere(self, place, source):
        ip, port = endpoint(source)
        known = [end[0] for end in self.server_ends()] + [self.address_of(peer) for peer in self.config.peers]
        realm = self.random.choice((*range(len(self.config.realms) + 1), 65535))
        places = ("auth", "acct", f"out:{realm}", f"reverse:{realm}")
        return self.random.choice((
            (self.random.choice(places), source), (self.random.choice(places), source),
            (place, at(self.random.choice(known), port)), (place, f"203.0.113.{self.random.randrange(256)}:{port}"),
            (place, at(ip, self.random.choice((1, 1812, 1813, 3799, 65535))))))

    def with_length_mended(self, octets):
        """Mostly the Length says where whole attributes end, or where all ends."""
        _, end = attribute_places(octets[:LARGEST])
        length = self.random.choice((None, len(octets), end, end, end, end))
        return octets if length is None else with_length(octets, length)

    def secret_of_source(self, place, source):
        """What is shared with a source at a place, or None."""
        kind, _, number = place.partition(":")
        ip, _ = endpoint(source)
        if not number:
            peer = self.config.peer_of(ip)
            return None if peer is None else self.config.peers[peer]["secret"].encode()
        if int(number) >= len(self.config.realms):
            return None
        if kind == "reverse":
            server = self.config.home_of(int(number), ip) if "reverse" in self.config.realms[int(number)] else None
            return None if server is None else server["secret"].encode()
        link = self.config.link_of(int(number), 0, endpoint(source))
        return None if link is None else self.broker.realms[int(number)].secret_of(link)

    def asked_with(self, place, source, id):
        """The Authenticator of the last request that was sent to a source with an Identifier."""
        for realm, end, octets, out in reversed(self.sent):
            if (self.place_of_out(realm, out), end, id) == (place, endpoint(source), octets[1]):
                return broker.Packet(octets).authenticator
        return ZEROS

    def signed_anew(self, place, source, octets):
        """Sealed and signed with the secret of its source, where it is a packet."""
        secret = self.secret_of_source(place, source)
        try:
            packet = Packet(octets)
        except Refused:
            return octets
        if secret is None:
            return octets
        code, id, attributes = packet.code, packet.id, packet.attributes
        behind = octets[len(packet.octets):]
        if not place.startswith("out:") and code in (ACCESS_REQUEST, STATUS_SERVER):
            authenticator = packet.authenticator
            return text(code, id, authenticator, resealed(code, id, authenticator, attributes, secret)) + behind
        over = self.asked_with(place, source, id) if place.startswith("out:") else ZEROS
        is_over_zeros = code not in ACCESS_REPLIES and self.chance(0.3)
        attributes = resealed(code, id, ZEROS if is_over_zeros else over, attributes, secret)
        return signed_as_it_is(code, id, over, attributes, secret) + behind

    MUTATIONS = (
        ("flipped", flipped), ("cut", cut), ("prolonged", prolonged), ("another Length", of_other_length),
        ("another attribute's length", with_other_attribute_length), ("another type", with_other_type),
        ("another code", with_other_code), ("another Identifier", with_other_identifier), ("shifted", shifted),
        ("overwritten", overwritten), ("doubled", doubled), ("moved", moved), ("taken out", taken_out),
        ("an attribute more", added), ("another value", with_other_value), ("an odd User-Name", with_odd_name),
        ("Proxy-States", with_proxy_states), ("other seals", with_other_seals), ("grown", grown))
    MUTATION_WEIGHTS = (14, 5, 3, 5, 6, 8, 6, 3, 4, 3, 8, 7, 7, 12, 9, 5, 4, 6, 0.8)

    KINDS = (AccessScript.access, ReverseScript.accounting, ReverseScript.answered, AccessScript.repeat,
             FederationScript.local_reject, ReverseScript.reverse, Script.reply, Script.late_reply,
             AccessScript.long_reply, Script.tick, Script.late_tick, Script.no_shard, FederationScript.loop,
             FederationScript.status)
    WEIGHTS = (14, 7, 5, 3, 2, 9, 26, 4, 0.3, 7, 4, 0.3, 2, 5)
