"""RADIUS packets for the trials (RFC 2865, 2866, 2869, 5176), and who sends and answers them on loopback.

What `oracle/packets.py` has of packets stands there once; here it is on octets, as fast as a load needs it.
"""
import contextlib
import hashlib
import hmac
import os
import select
import socket
import sys
import threading
import time

sys.path.insert(0, os.path.join(os.path.dirname(os.path.abspath(__file__)), "..", "..", "oracle"))
import packets  # noqa: E402

HERE = "127.0.0.1"
ACCESS, ACCOUNTING, DISCONNECT = packets.ACCESS_REQUEST, packets.ACCOUNTING_REQUEST, packets.DISCONNECT_REQUEST
NAS_IP = bytes([4, 6, 192, 0, 2, 1])


# Packets

def attribute(kind, value):
    return bytes([kind, len(value) + 2]) + value


def attributes(packet):
    """The types and values of a packet's attributes."""
    at = 20
    while at + 2 <= len(packet) and packet[at + 1] >= 2:
        yield packet[at], packet[at + 2:at + packet[at + 1]]
        at += packet[at + 1]


def value_of(packet, kind):
    """The value of the first attribute of a type, or None."""
    return next((value for one, value in attributes(packet) if one == kind), None)


def user_name(packet):
    return value_of(packet, packets.USER_NAME) or b""


def with_head(code, number, authenticator, body):
    return bytes([code, number]) + (20 + len(body)).to_bytes(2, "big") + authenticator + body


def access(number, user, body=NAS_IP, secret=None, authenticator=None):
    """An Access-Request, with a Message-Authenticator behind the others where there is a secret (RFC 2869, section 5.14)."""
    authenticator, body = authenticator or os.urandom(16), attribute(1, user) + body
    if secret is None:
        return with_head(ACCESS, number, authenticator, body)
    body += attribute(packets.SEAL, packets.ZEROS)
    unsealed = with_head(ACCESS, number, authenticator, body)
    return unsealed[:-16] + hmac.new(secret, unsealed, hashlib.md5).digest()


def access_with_password(number, user, secret, authenticator=None, password=b"a password"):
    """A sealed Access-Request that has a hidden User-Password (RFC 2865, section 5.2)."""
    authenticator = authenticator or os.urandom(16)
    hidden = packets.hidden(password.ljust(16, b"\0"), secret, authenticator)
    return access(number, user, attribute(2, hidden), secret, authenticator)


def signed(code, number, body, secret):
    """A request whose Authenticator is a digest over it (RFC 2866, section 3; RFC 5176, section 2.3)."""
    digest = hashlib.md5(with_head(code, number, packets.ZEROS, body) + secret).digest()
    return with_head(code, number, digest, body)


def accounting(number, user, session, secret, status=1, body=b""):
    """An Accounting-Request, a Start unless another Acct-Status-Type is given."""
    body = attribute(1, user) + attribute(40, status.to_bytes(4, "big")) + attribute(44, session) + body
    return signed(ACCOUNTING, number, body, secret)


def answer(code, request, secret):
    """A reply with the request's Proxy-States and a Response Authenticator (RFC 2865, section 3)."""
    states = b"".join(attribute(33, value) for kind, value in attributes(request) if kind == 33)
    head = bytes([code, request[1]]) + (20 + len(states)).to_bytes(2, "big")
    return head + hashlib.md5(head + request[4:20] + states + secret).digest() + states


def sealed_answer(code, request, secret, more=()):
    """The same with these attributes before the Proxy-States, and a Message-Authenticator in front where it is one to an Access-Request."""
    asked = packets.Packet(request)
    states = [(33, value) for value in asked.values(33)]
    seal = [(packets.SEAL, packets.ZEROS)] if code in packets.ACCESS_REPLIES else []
    sealed = packets.sealed(code, asked.id, asked.authenticator, [*seal, *more, *states], secret)
    digest = hashlib.md5(packets.text(code, asked.id, asked.authenticator, sealed) + secret).digest()
    return packets.text(code, asked.id, digest, sealed)


# Sockets

def bound(port=0, address=HERE, seconds=None, room=1 << 22):
    """A UDP socket at a port (any), with room for what comes at one time, at which a datagram is waited for so long (for ever)."""
    it = socket.socket(socket.AF_INET6 if ":" in address else socket.AF_INET, socket.SOCK_DGRAM)
    it.setsockopt(socket.SOL_SOCKET, socket.SO_RCVBUF, room)
    it.bind((address, port))
    it.settimeout(seconds)
    return it


def heard(at):
    """What arrives in time, and from which address and port; nothing."""
    try:
        octets, source = at.recvfrom(65535)
    except (TimeoutError, ConnectionRefusedError, BlockingIOError):
        return None, None
    return octets, source[:2]


def received(at):
    """What arrives in time as a packet, and from where; nothing."""
    octets, source = heard(at)
    return (octets and packets.Packet(octets), source)


def all_of(at):
    """What lies in a socket's buffer, 64 datagrams at most."""
    for _ in range(64):
        try:
            yield at.recvfrom(4096, socket.MSG_DONTWAIT)
        except (BlockingIOError, ConnectionRefusedError):
            return


def drained(at, first=.3, then=.3):
    """All that arrives, until nothing comes for a while; how long is waited for the first one, and for the next ones."""
    found = []
    while select.select([at], [], [], then if found else first)[0]:
        found.append(at.recvfrom(4096))
    return found


def asked(packet, to, source=HERE, seconds=10, times=1):
    """The reply to a request that is sent so often, so many seconds apart, from a port of its own; nothing."""
    with contextlib.closing(bound(0, source, seconds)) as one:
        for _ in range(times):
            one.sendto(packet, to)
            if reply := heard(one)[0]:
                return reply
    return None


def answered(count, to, patience=8.0, name=b"u%d@a.example"):
    """Sends so many Access-Requests, 64 at a time, each again after a second without an answer, as access servers do, and
    answers how many are answered."""
    done = 0
    for begin in range(0, count, 64):
        with contextlib.closing(bound()) as one:
            one.connect(to)
            waiting = {number: access(number, name % (begin + number)) for number in range(min(64, count - begin))}
            sent, end = len(waiting), time.monotonic() + patience
            while waiting and time.monotonic() < end:
                for packet in waiting.values():
                    with contextlib.suppress(ConnectionRefusedError):
                        one.send(packet)
                again = min(end, time.monotonic() + 1)
                while waiting and select.select([one], [], [], max(0, again - time.monotonic()))[0]:
                    with contextlib.suppress(ConnectionRefusedError):
                        waiting.pop(one.recv(4096)[1], None)
            done += sent - len(waiting)
            if waiting:
                break
    return done


class HomeServer(threading.Thread):
    """Answers each request that comes to a port by the code behind the request's own: an Access-Accept, an Accounting-Response, an ACK.
    It is asked by `takes` whether it answers one, and counts what came and what it answered."""

    def __init__(self, port, secret, takes=lambda packet: True, address=HERE):
        super().__init__(daemon=True)
        self.socket, self.secret, self.takes = bound(port, address), secret, takes
        self.came, self.answered = 0, 0
        self.start()

    def run(self):
        while True:
            packet, source = self.socket.recvfrom(4096)
            self.came += 1
            if self.takes(packet):
                self.answered += 1
                self.socket.sendto(answer(packet[0] + 1, packet, self.secret), source)
