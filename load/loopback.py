"""Partners of a broker on loopback, for rates that Python can carry: access servers, home servers that may be silent or
slow, and relays that count. One loop serves them all; packets are those of oracle/packets.py, and each answer is checked.
"""

import heapq
import os
import secrets
import select
import socket
import subprocess
import sys
import time

import processes

sys.path.insert(0, os.path.join(os.path.dirname(processes.BENCH), "oracle"))
from packets import (ACCESS_ACCEPT, ACCESS_REQUEST, ACCOUNTING_REQUEST, ACCOUNTING_RESPONSE, PROXY_STATE,  # noqa: E402
                     SEAL, USER_NAME, ZEROS, Packet, hidden, sealed, signed, text)

HERE = "127.0.0.1"
USER_PASSWORD = 2


class Loop:
    """Sockets that are read, and what is done at a moment."""

    def __init__(self):
        self.poller, self.readers, self.due, self.number = select.epoll(), {}, [], 0
        self.begin = time.monotonic()

    def __enter__(self):
        return self

    def __exit__(self, *_):
        self.poller.close()
        for opened, _ in self.readers.values():
            opened.close()

    def now(self):
        """Seconds since the loop was made."""
        return time.monotonic() - self.begin

    def open(self, address, take):
        """Returns a socket with that address; `take(octets, source)` is called for each datagram."""
        opened = socket.socket(socket.AF_INET, socket.SOCK_DGRAM)
        opened.setsockopt(socket.SOL_SOCKET, socket.SO_RCVBUF, 4 << 20)
        opened.bind(address)
        opened.setblocking(False)
        self.readers[opened.fileno()] = (opened, take)
        self.poller.register(opened, select.EPOLLIN)
        return opened

    def at(self, moment, act):
        self.number += 1
        heapq.heappush(self.due, (moment, self.number, act))

    def run_until(self, end):
        while self.now() < end:
            while self.due and self.due[0][0] <= self.now():
                heapq.heappop(self.due)[2]()
            wait = min(end, self.due[0][0] if self.due else end) - self.now()
            for file, _ in self.poller.poll(max(0, wait)):
                opened, take = self.readers[file]
                for _ in range(64):
                    try:
                        octets, source = opened.recvfrom(65535)
                    except BlockingIOError:
                        break
                    except ConnectionError:
                        continue
                    take(octets, source)


class Home:
    """A home server at two ports: it answers after `delay` seconds, or not while it is silent."""

    def __init__(self, loop, port, secret, delay=0.0):
        self.loop, self.secret, self.delay = loop, secret.encode(), delay
        self.is_silent, self.asked, self.answered, self.first_answered = False, 0, 0, None
        self.auth, self.acct = (loop.open((HERE, number), self.taker(number - port)) for number in (port, port + 1))

    def taker(self, place):
        return lambda octets, source: self.take((self.auth, self.acct)[place], octets, source)

    def take(self, through, octets, source):
        self.asked += 1
        if self.is_silent:
            return
        request = Packet(octets)
        if request.code == ACCESS_REQUEST:
            answer = signed(ACCESS_ACCEPT, request.id, request.authenticator, [(SEAL, ZEROS)], self.secret)
        elif request.code == ACCOUNTING_REQUEST:
            answer = signed(ACCOUNTING_RESPONSE, request.id, request.authenticator, [], self.secret)
        else:
            return
        self.answered += 1
        self.loop.at(self.loop.now() + self.delay, lambda: through.sendto(answer, source))


class Access:
    """An access server: each request has an Identifier of its own for half a minute at least."""
    SOCKETS = 64

    def __init__(self, loop, auth, acct, secret, address=HERE):
        self.loop, self.auth, self.acct, self.secret = loop, auth, acct, secret.encode()
        self.waiting, self.asked, self.bad = {}, [], 0
        self.sockets = [loop.open((address, 0), self.taker(number)) for number in range(self.SOCKETS)]

    def taker(self, number):
        return lambda octets, source: self.take(number, octets)

    def ask(self, name, code=ACCESS_REQUEST, more=(), dead_line=None):
        """Sends a request, and answers what is known of it: when it was asked, its octets, and its answer."""
        number = len(self.asked)
        socket_number, id = number % self.SOCKETS, number // self.SOCKETS % 256
        attributes = [(USER_NAME, name.encode()), *more]
        if code == ACCESS_REQUEST:
            authenticator = secrets.token_bytes(16)
            password = hidden(b"password".ljust(16, b"\0"), self.secret, authenticator)
            attributes = [(SEAL, ZEROS), (USER_PASSWORD, password), *attributes]
            octets = text(code, id, authenticator, sealed(code, id, authenticator, attributes, self.secret))
        else:
            octets = signed(code, id, ZEROS, attributes, self.secret)
        request = {"asked": self.loop.now(), "octets": octets, "answer": None, "answered": None, "copies": 0,
                   "socket": socket_number, "name": name}
        self.asked.append(request)
        self.waiting[socket_number, id] = request
        self.send(request)
        return request

    def send(self, request):
        to = self.auth if request["octets"][0] == ACCESS_REQUEST else self.acct
        self.sockets[request["socket"]].sendto(request["octets"], to)

    def take(self, number, octets):
        request = self.waiting.get((number, octets[1]))
        if request is None or not is_answer(octets, Packet(request["octets"]), self.secret):
            self.bad += 1
        elif request["answer"] is None:
            request["answer"], request["answered"] = octets, self.loop.now()
        elif request["answer"] == octets:
            request["copies"] += 1
        else:
            self.bad += 1


def is_answer(octets, request, secret):
    answer = Packet(octets)
    return (answer.is_signed(request.authenticator, secret)
            and answer.is_well_sealed([request.authenticator], secret)
            and answer.values(PROXY_STATE) == request.values(PROXY_STATE))


def waited(request):
    """Returns how many seconds a request waited for its answer; forever where there is none."""
    return float("inf") if request["answered"] is None else request["answered"] - request["asked"]


class Relay:
    """Stands before a port of the broker, and counts the codes that pass; each sender has a socket of its own there."""

    def __init__(self, loop, port, to):
        self.loop, self.to, self.behind = loop, to, {}
        self.asked, self.answered = {}, {}
        self.front = loop.open((HERE, port), self.take)

    def take(self, octets, source):
        self.asked[octets[0]] = self.asked.get(octets[0], 0) + 1
        if source not in self.behind:
            self.behind[source] = self.loop.open((HERE, 0), lambda answer, _: self.give_back(answer, source))
        self.behind[source].sendto(octets, self.to)

    def give_back(self, octets, source):
        self.answered[octets[0]] = self.answered.get(octets[0], 0) + 1
        self.front.sendto(octets, source)


def top(base, shards, **keys):
    """Returns the first lines of a configuration."""
    stated = {"shards": shards, "seed": secrets.token_hex(32), "auth": f"{HERE}:{base}", "acct": f"{HERE}:{base + 1}",
              **keys}
    return "".join(f"{name} = {value_text(value)}\n" for name, value in stated.items() if value is not None)


def value_text(value):
    if isinstance(value, bool):
        return "true" if value else "false"
    return f'"{value}"' if isinstance(value, str) else str(value)


def table(kind, **keys):
    """Returns a table of a configuration, without the keys that have no value."""
    lines = [f"{key} = {value_text(value)}\n" for key, value in keys.items() if value is not None]
    return f"\n[[{kind}]]\n" + "".join(lines)


class Served:
    """A broker that serves a configuration, while the block lasts and `seconds` more at most."""

    def __init__(self, options, configuration, seconds):
        os.makedirs(processes.DIRECTORY, exist_ok=True)
        self.path = os.path.join(processes.DIRECTORY, "federation.conf")
        with open(self.path, "w", encoding="ascii") as file:
            file.write(configuration)
        repository = os.path.dirname(processes.BENCH)
        command = options.command or "{repository}/crates/roam/out/roam serve {conf} {ms}"
        self.words = command.format(conf=self.path, ms=int(1000 * seconds) + 60000, repository=repository).split()
        self.port = options.base

    def __enter__(self):
        with open(processes.LOG, "wb") as log:
            self.process = subprocess.Popen(self.words, stdout=log, stderr=log, preexec_fn=processes.end_with_parent)
        processes.wait_for(self.process, self.port, self.words[0])
        time.sleep(1)
        return self

    def __exit__(self, *_):
        self.ended = self.process.poll()
        processes.stop(self.process)

    def memory(self):
        """Resident MiB."""
        return processes.resident_mebibytes(self.process.pid)
