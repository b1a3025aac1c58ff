"""The ends of streams in the trial of `roam streams`: RADIUS clients and home servers over TCP (RFC 6613)."""

import hashlib
import socket
import threading
import time

from around import packets

SECRET = b"radsec"


def access(number, salt=b"", user=b"u@a.example", attributes=(), password=b"a password"):
    """An Access-Request of an Identifier, told from others by its salt, with further attributes."""
    authenticator = hashlib.md5(b"%d" % number + salt).digest()
    password = packets.hidden(password.ljust(16, b"\0"), SECRET, authenticator)
    attributes = [(80, packets.ZEROS), (1, user), (2, password), *attributes]
    return packets.text(packets.ACCESS_REQUEST, number, authenticator,
                        packets.sealed(packets.ACCESS_REQUEST, number, authenticator, attributes, SECRET))


def accounting(number, session, user=b"u@a.example"):
    """An Accounting-Request that opens a session."""
    attributes = [(1, user), (32, b"nas"), (40, bytes([0, 0, 0, 1])), (44, session)]
    return packets.signed(packets.ACCOUNTING_REQUEST, number, packets.ZEROS, attributes, SECRET)


def answer(asked, code=None, filling=()):
    """The good reply to a request, with its Proxy-States and what else is to be in it."""
    attributes = [(33, it) for it in asked.values(33)] + list(filling)
    if asked.code == packets.ACCESS_REQUEST:
        code = code or packets.ACCESS_ACCEPT
        attributes = packets.sealed(code, asked.id, asked.authenticator, [(80, packets.ZEROS)] + attributes, SECRET)
    else:
        code = code or packets.ACCOUNTING_RESPONSE
    return packets.signed(code, asked.id, asked.authenticator, attributes, SECRET)


class Stream:
    """One end of a connection: packets are read of it."""

    def __init__(self, connection):
        self.connection, self.rest, self.is_ended, self.outbox = connection, b"", False, []

    def send(self, octets):
        self.connection.sendall(octets)

    def packet(self, seconds=10.0):
        """The next packet, or None where none comes in time or the other side ends it."""
        end = time.monotonic() + seconds
        while len(self.rest) < 4 or len(self.rest) < int.from_bytes(self.rest[2:4], "big"):
            self.connection.settimeout(max(0.001, end - time.monotonic()))
            try:
                more = self.connection.recv(65536)
            except TimeoutError:
                return None
            except OSError:
                more = b""
            if not more:
                self.is_ended = True
                return None
            self.rest += more
        size = int.from_bytes(self.rest[2:4], "big")
        octets, self.rest = self.rest[:size], self.rest[size:]
        return packets.Packet(octets)

    def ends(self, seconds=10.0):
        """Whether the other side ends it in time."""
        while not self.is_ended:
            if self.packet(seconds) is None:
                break
        return self.is_ended

    def close(self):
        self.connection.close()


def connected(to, source="127.1.0.7", room=None):
    """A connection of a RADIUS client: as a front makes it, from the peer's own address."""
    one = socket.socket(socket.AF_INET, socket.SOCK_STREAM)
    if room:
        one.setsockopt(socket.SOL_SOCKET, socket.SO_RCVBUF, room)
    one.bind((source, 0))
    one.connect(to)
    one.setsockopt(socket.IPPROTO_TCP, socket.TCP_NODELAY, 1)
    return Stream(one)


class Home:
    """A home server behind a front, or with TLS of its own by a context: it takes connections, and does with each packet what its
    rule says."""

    def __init__(self, at, context=None):
        self.context = context
        self.listener = socket.socket(socket.AF_INET, socket.SOCK_STREAM)
        self.listener.setsockopt(socket.SOL_SOCKET, socket.SO_REUSEADDR, 1)
        self.listener.bind(at)
        self.listener.listen(64)
        # Each packet that came: when, the number of its connection, and the packet.
        self.came, self.streams, self.rule, self.is_over = [], [], None, False
        # How many connections came, also such as weren't taken since TLS failed.
        self.dialed = 0
        threading.Thread(target=self.take, daemon=True).start()

    def take(self):
        while not self.is_over:
            try:
                connection, _ = self.listener.accept()
            except OSError:
                return
            self.dialed += 1
            connection.setsockopt(socket.IPPROTO_TCP, socket.TCP_NODELAY, 1)
            try:
                connection = self.context.wrap_socket(connection, server_side=True) if self.context else connection
            except OSError:
                continue
            self.streams.append(Stream(connection))
            threading.Thread(target=self.read, args=(len(self.streams) - 1,), daemon=True).start()

    def read(self, number):
        stream = self.streams[number]
        while not self.is_over and not stream.is_ended:
            # What is to be sent besides goes from here: of a connection with TLS one thread reads and writes.
            while stream.outbox:
                stream.send(stream.outbox.pop(0))
            packet = stream.packet(0.2)
            if packet is not None:
                self.came.append((time.monotonic(), number, packet))
                if self.rule:
                    try:
                        self.rule(stream, packet)
                    except OSError:
                        return

    def wait_for(self, count, seconds=10.0):
        """Waits until so many packets came. Answers whether they did."""
        end = time.monotonic() + seconds
        while len(self.came) < count and time.monotonic() < end:
            time.sleep(0.005)
        return len(self.came) >= count

    def clear(self, rule=None):
        self.came, self.rule = [], rule

    def cut(self):
        """Ends all its connections."""
        for stream in self.streams:
            try:
                stream.connection.shutdown(socket.SHUT_RDWR)
            except OSError:
                pass
            stream.is_ended = True

    def close(self):
        self.is_over = True
        # So that the thread that accepts ends, and the address is free.
        self.listener.shutdown(socket.SHUT_RDWR)
        self.listener.close()
        self.cut()


def answers(stream, packet):
    """The rule by which each request is answered at once."""
    if packet.code in (packets.ACCESS_REQUEST, packets.ACCOUNTING_REQUEST):
        stream.send(answer(packet))


def answers_at_length(stream, packet):
    """The rule by which each request is answered by as many octets as a reply may have."""
    filling = [(25, bytes(253))] * 15
    reply = answer(packet, filling=filling)
    stream.send(reply)


def accepted_by(stream, number, seconds=10.0):
    """Whether an Access-Accept with this Identifier comes next."""
    packet = stream.packet(seconds)
    return packet is not None and (packet.code, packet.id) == (packets.ACCESS_ACCEPT, number)
