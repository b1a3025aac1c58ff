"""Packets, with their digests, seals and hidden values, written from the RFCs.

Nothing here is taken from the project's code.
"""
import hashlib
import hmac

ACCESS_REQUEST, ACCESS_ACCEPT, ACCESS_REJECT, ACCESS_CHALLENGE = 1, 2, 3, 11
ACCOUNTING_REQUEST, ACCOUNTING_RESPONSE = 4, 5
STATUS_SERVER = 12
DISCONNECT_REQUEST, DISCONNECT_ACK, DISCONNECT_NAK = 40, 41, 42
COA_REQUEST, COA_ACK, COA_NAK = 43, 44, 45
ACCESS_REPLIES = (ACCESS_ACCEPT, ACCESS_REJECT, ACCESS_CHALLENGE)
REVERSE_REQUESTS = (DISCONNECT_REQUEST, COA_REQUEST)

USER_NAME, USER_PASSWORD, CHAP_PASSWORD, NAS_IP_ADDRESS = 1, 2, 3, 4
STATE, CLASS, VENDOR_SPECIFIC, NAS_IDENTIFIER, PROXY_STATE = 24, 25, 26, 32, 33
NAS_IPV6_ADDRESS = 95
CALLING_STATION_ID = 31
ACCT_STATUS_TYPE, ACCT_SESSION_ID, EVENT_TIMESTAMP, CHAP_CHALLENGE, TUNNEL_PASSWORD = 40, 44, 55, 60, 69
EAP_MESSAGE, SEAL, ERROR_CAUSE = 79, 80, 101
ZEROS = bytes(16)
LARGEST = 4096


class Refused(Exception):
    def __init__(self, number):
        self.number = number


def md5(*pieces):
    return hashlib.md5(b"".join(pieces)).digest()


def hmac_md5(key, octets):
    return hmac.new(key, octets, hashlib.md5).digest()


def text(code, id, authenticator, attributes):
    body = b"".join(bytes([k, len(v) + 2]) + v for k, v in attributes)
    return bytes([code, id]) + (20 + len(body)).to_bytes(2, "big") + authenticator + body


class Packet:
    """A datagram that is a packet (RFC 2865 section 3). The others are refused: 1, 2, 3."""

    def __init__(self, datagram):
        if len(datagram) < 20:
            raise Refused(1)
        length = int.from_bytes(datagram[2:4], "big")
        if length < 20 or length > LARGEST or length > len(datagram):
            raise Refused(2)
        self.octets = datagram[:length]
        self.code, self.id, self.authenticator = datagram[0], datagram[1], datagram[4:20]
        self.attributes = pairs(self.octets[20:])
        if self.attributes is None:
            raise Refused(3)

    def values(self, kind):
        return [value for k, value in self.attributes if k == kind]

    def first(self, kind):
        """The value of the first attribute of a type, or None."""
        return next(iter(self.values(kind)), None)

    def is_signed(self, authenticator, secret):
        """Whether the authenticator field is the digest over that authenticator."""
        body = text(self.code, self.id, authenticator, self.attributes)
        return md5(body, secret) == self.authenticator

    def is_well_sealed(self, authenticators, secret):
        """No seal, or one of sixteen octets that is right for one of the authenticators."""
        seals = self.values(SEAL)
        if not seals:
            return True
        if len(seals) > 1 or len(seals[0]) != 16:
            return False
        return any(
            sealed(self.code, self.id, a, self.attributes, secret) == self.attributes
            for a in authenticators
        )

    def is_salted(self):
        """Whether it holds what is hidden with a salt, of whatever size."""
        return any(kind in TAGS[None] for kind, _ in self.attributes) or any(
            kind in TAGS.get(vendor_of(value), ())
            for value in self.values(VENDOR_SPECIFIC) for kind, _ in vendor_list(value) or []
        )


def pairs(octets):
    """The attributes that the octets list, or None."""
    found = []
    while octets:
        if len(octets) < 2 or octets[1] < 2 or octets[1] > len(octets):
            return None
        found.append((octets[0], octets[2:octets[1]]))
        octets = octets[octets[1]:]
    return found


# Seals and signatures

def sealed(code, id, authenticator, attributes, secret):
    """The attributes, a Message-Authenticator among them made anew (RFC 3579 section 3.2)."""
    if all(k != SEAL for k, _ in attributes):
        return attributes
    blank = [(k, ZEROS if k == SEAL else v) for k, v in attributes]
    seal = hmac_md5(secret, text(code, id, authenticator, blank))
    return [(k, seal if k == SEAL else v) for k, v in attributes]


def signed(code, id, authenticator, attributes, secret):
    """A packet, sealed and signed, whose authenticator field is the digest over `authenticator`."""
    attributes = sealed(code, id, authenticator, attributes, secret)
    digest = md5(text(code, id, authenticator, attributes), secret)
    return text(code, id, digest, attributes)


def seal_in_front(attributes):
    return [(SEAL, ZEROS)] + [(k, v) for k, v in attributes if k != SEAL]


# Hidden values. A key is a secret and an authenticator.

MICROSOFT, SEND_KEY, RECV_KEY = bytes([0, 0, 1, 55]), 16, 17

# Of what is hidden with a salt, by vendor and type, how many octets of tag stand before the salt: RFC 2868 section 3.5,
# RFC 2548 section 2.4, and of other vendors what FreeRADIUS 3.2.1 marks `encrypt=2` (a tag with `has_tag`).
TAGS = {
    None: {TUNNEL_PASSWORD: 1},
    161: {11: 0},
    311: {SEND_KEY: 0, RECV_KEY: 0},
    831: {116: 0, 117: 0, 118: 0, 119: 0},
    2356: {19: 1, 20: 1},
    4874: {58: 0, 59: 0, 60: 0, 61: 0},
    5535: {58: 0},
    6527: {122: 0, 123: 0, 124: 0, 125: 0, 138: 0, 139: 0, 142: 0},
    14823: {44: 0},
    26928: {3: 0},
}


def xor(some, others):
    return bytes(a ^ b for a, b in zip(some, others))


def blocks(octets):
    return [octets[i:i + 16] for i in range(0, len(octets), 16)]


def hidden(plain, secret, start):
    """RFC 2865 section 5.2: each pad is the digest of the secret and the hidden block before."""
    list_of_hidden = [start]
    for block in blocks(plain):
        list_of_hidden.append(xor(block, md5(secret, list_of_hidden[-1])))
    return b"".join(list_of_hidden[1:])


def shown(octets, secret, start):
    """What `hidden` was given."""
    before = [start] + blocks(octets)
    return b"".join(xor(block, md5(secret, b)) for block, b in zip(blocks(octets), before))


def hidden_anew(octets, key, new_key, salt=b""):
    """Hidden under another key; what isn't whole blocks stays."""
    if len(octets) % 16:
        return octets
    (secret, authenticator), (new_secret, new_authenticator) = key, new_key
    plain = shown(octets, secret, authenticator + salt)
    return hidden(plain, new_secret, new_authenticator + salt)


def salted_value_anew(value, tag, key, new_key):
    """Tag, salt, string (RFC 2868 section 3.5), with so many octets of tag."""
    front = value[:tag + 2]
    return front + hidden_anew(value[tag + 2:], key, new_key, front[tag:])


def vendor_of(value):
    return int.from_bytes(value[:4], "big") if len(value) >= 4 else None


def vendor_list(value):
    """What a Vendor-Specific lists (RFC 2865 section 5.26), or None."""
    return None if vendor_of(value) is None else pairs(value[4:])


def listed_anew(listed, vendor, key, new_key):
    """The attributes of a packet, or a vendor's, hidden anew by their types."""
    tags = TAGS.get(vendor, {})
    return [(k, salted_value_anew(v, tags[k], key, new_key) if k in tags else v) for k, v in listed]


def vendor_anew(value, key, new_key):
    """A Vendor-Specific hidden anew; one without a list stays."""
    listed = vendor_list(value)
    if listed is None:
        return value
    return value[:4] + b"".join(
        bytes([k, len(v) + 2]) + v for k, v in listed_anew(listed, vendor_of(value), key, new_key))


def salted_anew(attributes, key, new_key):
    return [(k, vendor_anew(v, key, new_key) if k == VENDOR_SPECIFIC else v)
            for k, v in listed_anew(attributes, None, key, new_key)]


def password_fits(value):
    return len(value) in range(16, 129, 16)


# What the broker builds

def with_seal_and_challenge(request, attributes):
    """Attributes of a request: of Access with a seal in front, and with a CHAP-Challenge where one is wanting."""
    if request.code == ACCESS_REQUEST:
        attributes = seal_in_front(attributes)
        if request.values(CHAP_PASSWORD) and not request.values(CHAP_CHALLENGE):
            attributes = attributes + [(CHAP_CHALLENGE, request.authenticator)]
    return attributes


def forwarded_size(request, attributes):
    return len(text(request.code, 0, ZEROS, attributes + [(PROXY_STATE, bytes(8))]))


def forwarded(request, attributes, secret, id, ticket, link_secret, words):
    """The packet with these attributes that goes on under that Identifier and ticket; an Access-Request takes
    `words`."""
    attributes = attributes + [(PROXY_STATE, ticket.to_bytes(8, "big"))]
    if request.code != ACCESS_REQUEST:
        return signed(request.code, id, ZEROS, attributes, link_secret)
    key, new_key = (secret, request.authenticator), (link_secret, words)
    attributes = [
        (k, hidden_anew(v, key, new_key) if k == USER_PASSWORD else v) for k, v in attributes
    ]
    return text(1, id, words, sealed(1, id, words, attributes, link_secret))


def restored(request, attributes):
    """The attributes and the request's Proxy-States."""
    return [(k, v) for k, v in attributes if k != PROXY_STATE] + [
        (PROXY_STATE, v) for v in request.values(PROXY_STATE)
    ]


def returned(reply, attributes, request, secret, sent, link_secret):
    """The packet that the requester gets for a reply to what was sent to a link, of which these attributes pass."""
    attributes = restored(request, attributes)
    if reply.code in ACCESS_REPLIES:
        attributes = seal_in_front(attributes)
    if reply.code == ACCESS_ACCEPT:
        key, new_key = (link_secret, sent.authenticator), (secret, request.authenticator)
        attributes = salted_anew(attributes, key, new_key)
    return signed(reply.code, request.id, request.authenticator, attributes, secret)


def local_answer(code, request, secret):
    """A sealed answer that has the request's Proxy-States alone."""
    attributes = restored(request, [(SEAL, ZEROS)])
    return signed(code, request.id, request.authenticator, attributes, secret)


def local_accounting_answer(request, secret):
    """The same of accounting: sealed where the request is."""
    attributes = restored(request, [(SEAL, ZEROS)] if request.values(SEAL) else [])
    return signed(ACCOUNTING_RESPONSE, request.id, request.authenticator, attributes, secret)


def nak(request, secret, cause):
    code = {DISCONNECT_REQUEST: DISCONNECT_NAK, COA_REQUEST: COA_NAK}[request.code]
    attributes = restored(request, [(ERROR_CAUSE, cause.to_bytes(4, "big"))])
    return signed(code, request.id, request.authenticator, attributes, secret)


# Random words

ROUNDS = [(0, 4, 8, 12), (1, 5, 9, 13), (2, 6, 10, 14), (3, 7, 11, 15),
          (0, 5, 10, 15), (1, 6, 11, 12), (2, 7, 8, 13), (3, 4, 9, 14)]


def chacha_block(seed, stream, block):
    """A block of ChaCha20 in its first form, whose block and stream numbers have 64 bits each."""
    octets = b"expand 32-byte k" + seed + block.to_bytes(8, "little") + stream.to_bytes(8, "little")
    start = [int.from_bytes(octets[i:i + 4], "little") for i in range(0, 64, 4)]
    w = list(start)
    for a, b, c, d in ROUNDS * 10:
        for x, y, z, n in ((a, b, d, 16), (c, d, b, 12), (a, b, d, 8), (c, d, b, 7)):
            w[x] = (w[x] + w[y]) & 0xFFFFFFFF
            w[z] = ((w[z] ^ w[x]) << n | (w[z] ^ w[x]) >> 32 - n) & 0xFFFFFFFF
    sums = [(x + y) & 0xFFFFFFFF for x, y in zip(w, start)]
    return b"".join(x.to_bytes(4, "little") for x in sums)


def chacha_words(seed, stream, number):
    """Four words of the stream, from word 4 * number on, each little-endian."""
    return blocks(chacha_block(seed, stream, number // 4 % 2 ** 64))[number % 4]
