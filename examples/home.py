#!/usr/bin/env python3
"""A home server and an access server, to try roam with examples/loopback.conf. Not for users.

The home server answers at 127.0.0.1, ports 1812 and 1813: an Access-Accept where the password is the one below, else an
Access-Reject; and an Accounting-Response. The access server takes Disconnect- and CoA-Requests at port 3799, and
acknowledges each. Each packet is told in a line. Ctrl-C ends it.
"""

import os
import select
import socket
import sys

sys.path.insert(0, os.path.join(os.path.dirname(os.path.abspath(__file__)), "..", "oracle"))
from packets import *  # noqa: E402,F403

HOME_SECRET, ACCESS_SECRET = b"testing123", b"a secret of access servers"
USERS = {b"bob@home.example": b"hello"}
NAMES = {ACCESS_REQUEST: "Access-Request", ACCESS_ACCEPT: "Access-Accept", ACCESS_REJECT: "Access-Reject",
         ACCOUNTING_REQUEST: "Accounting-Request", ACCOUNTING_RESPONSE: "Accounting-Response",
         DISCONNECT_REQUEST: "Disconnect-Request", DISCONNECT_ACK: "Disconnect-ACK",
         COA_REQUEST: "CoA-Request", COA_ACK: "CoA-ACK"}


def has_right_password(request):
    password, user = request.first(USER_PASSWORD), request.first(USER_NAME)
    if password is None or user not in USERS:
        return False
    return shown(password, HOME_SECRET, request.authenticator).rstrip(b"\0") == USERS[user]


def answer(request):
    """The code of the reply, and the secret that signs it; none where nobody here answers."""
    if request.code == ACCESS_REQUEST and request.is_well_sealed([request.authenticator], HOME_SECRET):
        return ACCESS_ACCEPT if has_right_password(request) else ACCESS_REJECT, HOME_SECRET
    if request.code == ACCOUNTING_REQUEST and request.is_signed(ZEROS, HOME_SECRET):
        return ACCOUNTING_RESPONSE, HOME_SECRET
    if request.code in REVERSE_REQUESTS and request.is_signed(ZEROS, ACCESS_SECRET):
        return request.code + 1, ACCESS_SECRET
    return None


def reply_to(request, code, secret):
    """Its Proxy-States; an Access reply has a Message-Authenticator first."""
    attributes = [(SEAL, ZEROS)] if code in ACCESS_REPLIES else []
    return signed(code, request.id, request.authenticator, restored(request, attributes), secret)


def serve(datagram, source, opened):
    try:
        request = Packet(datagram)
    except Refused:
        return
    user = (request.first(USER_NAME) or b"").decode(errors="replace")
    found = answer(request)
    told = NAMES[found[0]] if found else "no answer"
    print(f"{NAMES.get(request.code, request.code)} {user} from {source[0]}:{source[1]}: {told}", flush=True)
    if found:
        opened.sendto(reply_to(request, *found), source)


def main():
    sockets = []
    for port in (1812, 1813, 3799):
        sockets.append(socket.socket(socket.AF_INET, socket.SOCK_DGRAM))
        sockets[-1].bind(("127.0.0.1", port))
    while True:
        for opened in select.select(sockets, [], [])[0]:
            datagram, source = opened.recvfrom(65535)
            serve(datagram, source, opened)


if __name__ == "__main__":
    try:
        main()
    except KeyboardInterrupt:
        pass
