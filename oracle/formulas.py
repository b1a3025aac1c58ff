"""Packets, spelled by the formulas of RFC 2865, RFC 2866, RFC 2868, RFC 2548, RFC 3579 and RFC 5176.

Nothing here is taken from the project's code, nor from broker.py.
"""
import hashlib
import hmac

# The secrets of the access server, and of the first, second and third home server.
P, H1, H2, H3 = b"xyzzy5461", b"h1", b"h2", b"h3"
Z = bytes(16)
NAS, NAS2 = "192.0.2.1:5000", "192.0.2.1:5001"
S1, S2, S3 = "198.51.100.1:1813", "198.51.100.2:1813", "198.51.100.3:1813"
S1_AUTH, COA = "198.51.100.1:1812", "192.0.2.1:3799"
# Where the first home server's Disconnects and CoAs come from.
HOME = "198.51.100.1:40000"
STRANGER = "192.0.2.9:5000"
START, STOP, INTERIM, ON, OFF = (b"\x28\x06" + n.to_bytes(4, "big") for n in (1, 2, 3, 7, 8))
SESSION = bytes.fromhex("2c043031")
# The greatest moment.
TOP = 2 ** 62


def named(name):
    """User-Name."""
    return bytes([1, len(name) + 2]) + name.encode()


def start_of(name):
    """A Start of that user, Acct-Session-Id `01`."""
    return named(name) + START + SESSION


NAME = named("u@a.example")
A, B, C = (start_of(f"u@{realm}.example") for realm in "abc")


def md5(*pieces):
    return hashlib.md5(b"".join(pieces)).digest()


def header(code, id, attributes):
    return bytes([code, id]) + (20 + len(attributes)).to_bytes(2, "big")


def seal(code, id, authenticator, before, behind, key):
    """The list with a Message-Authenticator between, over that authenticator."""
    whole = header(code, id, before + b"\x50\x12" + Z + behind) + authenticator
    mac = hmac.new(key, whole + before + b"\x50\x12" + Z + behind, hashlib.md5).digest()
    return before + b"\x50\x12" + mac + behind


def request(id, attributes=A, secret=P, code=4):
    """An Accounting-Request of the access server."""
    head = header(code, id, attributes)
    return head + md5(head, Z, attributes, secret) + attributes


def T(ticket):
    """The broker's Proxy-State."""
    return b"\x21\x0a" + ticket.to_bytes(8, "big")


def forward(req, id, ticket, secret=H1):
    """The packet forwarded for a request without a Message-Authenticator."""
    return request(id, req[20:] + T(ticket), secret)


def response(sent, attributes=b"", secret=H1, code=5, id=None):
    """A reply to a forwarded packet, well signed."""
    head = header(code, sent[1] if id is None else id, attributes)
    return head + md5(head, sent[4:20], attributes, secret) + attributes


def back(req, attributes=b""):
    """The response that the access server gets, with this list."""
    head = header(5, req[1], attributes)
    return head + md5(head, req[4:20], attributes, P) + attributes


def filled(size, last=b""):
    """Classes that fill a packet of that size, before `last`."""
    left, out = size - 20 - len(last), b""
    while left > 255:
        n = 255 if left - 255 not in (1,) else 254
        out += bytes([25, n]) + b"\xc1" * (n - 2)
        left -= n
    return out + bytes([25, left]) + b"\xc2" * (left - 2) + last


def sent(octets, to=S1, realm=0):
    """The line of a packet that is forwarded."""
    return f"{realm} out:{realm} {to} {octets.hex()}"


def given_back(octets, to=NAS, realm=0, place="acct"):
    """The line of a packet that is returned."""
    return f"{realm} {place} {to} {octets.hex()}"


# The packets of most rows: three requests, the first as forwarded, its reply, and what is returned for each.
q5, q6, q7 = request(5), request(6), request(7)
f0 = forward(q5, 0, 0)
r0 = response(f0, T(0))
b5, b6, b7 = back(q5), back(q6), back(q7)
# The first request as forwarded to the second server.
s2 = forward(q5, 0, 0, H2)
# A Proxy-State of an access server, and a Message-Authenticator that is right for nothing.
ps = b"\x21\x03\xaa"
mac = b"\x50\x12" + bytes(range(16))


# Access

# The first 128 octets of ChaCha20's stream 0 under a key of zeros, as they are published, and the first 60 of stream 1:
# the Request Authenticators of the first eight Access-Requests that a realm forwards.
STREAMS = [bytes.fromhex(
    "76b8e0ada0f13d90405d6ae55386bd28bdd219b8a08ded1aa836efcc8b770dc7"
    "da41597c5157488d7724e03fb8d84a376a43b8f41518a11cc387b669b2ee6586"
    "9f07e7be5551387a98ba977c732d080dcb0f29a048e3656912c6533e32ee7aed"
    "29b721769ce64e43d57133b074d839d531ed1f28510afb45ace10a1f4b794d6f"), bytes.fromhex(
    "ef3fdfd6c61578fbf5cf35bd3dd33b8009631634d21e42ac33960bd138e50d32"
    "111e4caf237ee53ca8ad6426194a88545ddc497a0b466e7d6bbdb004")]
# A Request Authenticator of an access server.
Q = bytes.fromhex("0f403f9473978057bd83d5cb98f4227a")
S2_AUTH, S3_AUTH = "198.51.100.2:1812", "198.51.100.3:1812"


def K(number, realm=0):
    """The Request Authenticator of the Access-Request that a realm forwards as its first, second, ..."""
    words = STREAMS[realm][16 * number:16 * number + 16]
    assert len(words) == 16
    return words


def attribute(kind, value):
    return bytes([kind, len(value) + 2]) + value


def access(id, attributes, authenticator=Q):
    """An Access-Request without a Message-Authenticator, or with one that stands in the list."""
    return header(1, id, attributes) + authenticator + attributes


def forward_access(attributes, id, ticket, words=None, secret=H1, realm=0):
    """The Access-Request that is forwarded with this list; its words are the ticket's where they aren't said."""
    words = K(ticket, realm) if words is None else words
    attributes = seal(1, id, words, b"", attributes + T(ticket), secret)
    return header(1, id, attributes) + words + attributes


def access_back(req, code, attributes=b"", key=P):
    """What the access server gets for its Access-Request, with this list."""
    attributes = seal(code, req[1], req[4:20], b"", attributes, key)
    head = header(code, req[1], attributes)
    return head + md5(head, req[4:20], attributes, key) + attributes


def rejected(req, proxy_states=b"", to=NAS):
    """The line of a local Access-Reject."""
    return f"- auth {to} {access_back(req, 3, proxy_states).hex()}"


def hide(plain, secret, start):
    """RFC 2865 section 5.2, RFC 2868 section 3.5: hidden, of whole blocks."""
    hidden = b""
    while plain:
        pad, block, plain = md5(secret, start), plain[:16], plain[16:]
        start = bytes(a ^ b for a, b in zip(pad, block))
        hidden += start
    return hidden


def password(plain, secret, authenticator):
    """User-Password."""
    return attribute(2, hide(plain, secret, authenticator))


def tunnel(tag, salt, plain, secret, authenticator, kind=69):
    """Tunnel-Password (RFC 2868 section 3.5), or a vendor's type that is hidden as it is."""
    return attribute(kind, tag + salt + hide(plain, secret, authenticator + salt))


def key(kind, salt, plain, secret, authenticator):
    """MS-MPPE-Send-Key (16) or MS-MPPE-Recv-Key (17) in a Vendor-Specific (RFC 2548 section 2.4), or another vendor's
    type that is hidden as they are."""
    return tunnel(b"", salt, plain, secret, authenticator, kind)


def of_vendor(number, *subs):
    """A Vendor-Specific (RFC 2865 section 5.26)."""
    return attribute(26, number.to_bytes(4, "big") + b"".join(subs))


def microsoft(*subs):
    return of_vendor(311, *subs)


# Whose types are hidden as Tunnel-Password's string is: vendor, types, and what stands before the salt.
SALTING_VENDORS = [
    (161, (11,), b""), (831, (116, 117, 118, 119), b""), (2356, (19, 20), b"\x01"), (4874, (58, 59, 60, 61), b""),
    (5535, (58,), b""), (6527, (122, 123, 124, 125, 138, 139, 142), b""), (14823, (44,), b""), (26928, (3,), b""),
]


# Disconnect and CoA

def reverse(code, id, attributes, secret=H1):
    return request(id, attributes, secret, code)


def reverse_back(req, code, attributes=b"", secret=H1):
    """What a home server gets for its Disconnect or CoA, with this list."""
    head = header(code, req[1], attributes)
    return head + md5(head, req[4:20], attributes, secret) + attributes


def refused_with(cause, req, proxy_states=b"", secret=H1):
    """The NAK for a Disconnect or CoA."""
    return reverse_back(req, req[0] + 2, attribute(101, cause.to_bytes(4, "big")) + proxy_states, secret)
