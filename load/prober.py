"""A prober: what a broker answers by itself, asked every millisecond."""

import select
import socket
import threading
import time

EVERY = 0.001
SOCKETS = 16
NAME = b"\x01\x07probe"


def request(number):
    """Returns an Access-Request that names no realm."""
    head = bytes([1, number % 256]) + (20 + len(NAME)).to_bytes(2, "big")
    return head + number.to_bytes(16, "big") + NAME


class Prober(threading.Thread):
    """Sends for so many seconds, and keeps how long each answer took and when it was asked for."""

    def __init__(self, base, seconds):
        super().__init__()
        self.to, self.seconds = ("127.0.0.1", base), seconds
        self.waits, self.sent = [], {}
        # In turn, so that an Identifier comes again after some four seconds.
        self.sockets = [socket.socket(socket.AF_INET, socket.SOCK_DGRAM) for _ in range(SOCKETS)]

    def send(self, number, now):
        opened = self.sockets[number % SOCKETS]
        opened.sendto(request(number // SOCKETS), self.to)
        self.sent[opened.fileno(), number // SOCKETS % 256] = now

    def take(self, file, begin):
        answer = next(one for one in self.sockets if one.fileno() == file).recv(4096)
        asked = self.sent.pop((file, answer[1]), None)
        if asked is not None:
            self.waits.append((time.monotonic() - asked, asked - begin))

    def run(self):
        poller = select.epoll()
        for opened in self.sockets:
            poller.register(opened, select.EPOLLIN)
        begin, number = time.monotonic(), 0
        while (now := time.monotonic()) < begin + self.seconds:
            due = begin + EVERY * number
            if now >= due:
                self.send(number, now)
                number += 1
            for file, _ in poller.poll(max(0, due - now)):
                self.take(file, begin)

    def longest(self, count):
        """Returns the longest waits that lie half a second apart: (seconds, when it was asked for)."""
        found = []
        for wait, asked in sorted(self.waits, reverse=True):
            if all(abs(asked - other) > 0.5 for _, other in found):
                found.append((wait, asked))
            if len(found) == count:
                break
        return found
