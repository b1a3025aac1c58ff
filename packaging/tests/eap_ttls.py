"""A login by EAP-TTLS with PAP within (RFC 5281), as an access server passes it on in EAP-Messages (RFC 3579)."""

import os
import ssl
import struct

from around import packets

# Codes and types of EAP, and flags of EAP-TTLS.
RESPONSE, IDENTITY, TTLS, LENGTH, MORE = 2, 1, 21, 0x80, 0x40


def response(number, kind, data):
    """An EAP-Response."""
    return struct.pack("!BBHB", RESPONSE, number, 5 + len(data), kind) + data


def avp(code, data):
    """An attribute within the tunnel."""
    return struct.pack("!II", code, 0x40 << 24 | 8 + len(data)) + data + bytes(-len(data) % 4)


class Login:
    """A login. `ask` sends an Access-Request's octets, and returns the packet that answers it, or None."""

    def __init__(self, ask, user, password, authority, secret):
        self.ask, self.user, self.password, self.secret = ask, user, password, secret
        self.outer = b"anonymous@" + user.split(b"@")[1]
        context = ssl.SSLContext(ssl.PROTOCOL_TLS_CLIENT)
        context.maximum_version = ssl.TLSVersion.TLSv1_2
        context.check_hostname = False
        context.load_verify_locations(authority)
        self.read, self.written = ssl.MemoryBIO(), ssl.MemoryBIO()
        self.tunnel = context.wrap_bio(self.read, self.written)
        self.state, self.number, self.is_sent = [], 0, False

    def answer_to(self, eap):
        """The packet that answers an Access-Request with this EAP-Message."""
        self.number = (self.number + 1) % 256
        authenticator = os.urandom(16)
        attributes = [(80, packets.ZEROS), (1, self.outer)]
        attributes += [(79, eap[at:at + 253]) for at in range(0, len(eap), 253)] + [(24, it) for it in self.state]
        return self.ask(packets.text(packets.ACCESS_REQUEST, self.number, authenticator,
                                     packets.sealed(packets.ACCESS_REQUEST, self.number, authenticator, attributes, self.secret)))

    def go_on(self):
        """What is to be sent in the tunnel's TLS now that more came."""
        try:
            self.tunnel.do_handshake()
            if not self.is_sent:
                self.tunnel.write(avp(1, self.user) + avp(2, self.password + bytes(-len(self.password) % 16)))
                self.is_sent = True
        except ssl.SSLWantReadError:
            pass
        return self.written.read()

    def code(self, rounds=30):
        """The code of the last answer: that of an Access-Accept where the login is accepted."""
        packet = self.answer_to(response(0, IDENTITY, self.outer))
        for _ in range(rounds):
            if packet is None or packet.code != packets.ACCESS_CHALLENGE:
                break
            eap, self.state = b"".join(packet.values(79)), packet.values(24)
            number, kind, flags, data = eap[1], eap[4], eap[5], eap[6:]
            if kind != TTLS:
                return None
            self.read.write(data[4:] if flags & LENGTH else data)
            packet = self.answer_to(response(number, TTLS, b"\0" + (b"" if flags & MORE else self.go_on())))
        return packet and packet.code
