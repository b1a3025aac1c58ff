"""Rows of the trial of `roam streams`: where octets are cut, and when a home server is dialed, and for whom."""

import socket
import time

from around import packets
from looks import want
from stream_ends import SECRET, access, accepted_by, answers, connected


def cuts(trial, take):
    """The longest packet, one that begins as TLS does, and what stands before a Length that no packet has."""
    one = connected(take)
    one.send(b"\x01\x07\x10\x00" + bytes(4092))
    one.send(access(1))
    want(accepted_by(one, 1), "4,096 octets are one packet, and what comes behind is answered")
    octets = bytes.fromhex("1603010200") + bytes(15) + b"\x01\xee" + bytes(236)
    one.send(octets[:257])
    time.sleep(0.3)
    want("refused 5 " not in trial.around.log("broker"), "what begins as TLS does is no packet before its 258 octets are there")
    one.send(octets[257:])
    want(trial.told("refused 5 ", of="broker"), "with them the broker refuses it")
    one.send(access(2))
    want(accepted_by(one, 2), "and the connection stays")
    trial.home.clear(answers)
    one.send(access(3) + b"\x01\x07\x00\x00")
    want(one.ends() and trial.home.wait_for(1), "what stands before a Length of 0 goes on, and the connection ends")


def realms(trial, take):
    """Two realms at one home server: two connections."""
    one = connected(take)
    trial.home.clear(answers)
    for number, user in ((1, b"u@a.example"), (2, b"u@b.example")):
        one.send(access(number, b"of two", user))
        want(accepted_by(one, number), f"a login of {user.decode()}")
    (_, first, _), (_, second, _) = trial.home.came
    want(first != second, "two realms of a home server have a connection each")
    want(all(trial.told(f" dialed for 127.0.0.1:{out}\n") for out in (29658, 29659)), "dialed for the `out` of each, which is told within 10 s")
    one.close()


def without_reverse(trial, take, away):
    """A Disconnect-Request of a home server for whose realm the file has no `reverse`."""
    one = connected(take)
    trial.away.clear(answers)
    one.send(access(1, b"c", b"u@c.example"))
    want(accepted_by(one, 1), "a login of the third realm")
    refused = f"refused 34 StreamPlace from {away[0]}:{away[1]} at "
    before = trial.around.log("streams").count(refused)
    trial.away.streams[-1].send(packets.signed(packets.DISCONNECT_REQUEST, 5, packets.ZEROS, [(44, b"s2")], SECRET))
    want(trial.told(refused, times=before + 1), "a Disconnect-Request without `reverse` is refused")
    one.close()


def silent(trial, take, away):
    """A home server that answers nothing for `silence`."""
    one = connected(take)
    trial.away.clear(None)
    begin = time.monotonic()
    one.send(access(2, b"silent", b"u@c.example"))
    want(trial.told(f"stream {away[0]}:{away[1]} ended: 36 StreamSilent"), "a connection on which no answer comes ends")
    want(1.8 < time.monotonic() - begin < 8, f"after 2,000 ms ({time.monotonic() - begin:.1f} s)")
    one.close()


def away_and_back(trial, take, away):
    """A home server that ends each connection without an answer is dialed at 0, 1 and 3 s, and what comes between is dropped."""
    one = connected(take)
    # An answer: so the next delay is the shortest one.
    trial.away.clear(answers)
    time.sleep(5)
    one.send(access(3, b"back", b"u@c.example"))
    want(accepted_by(one, 3, 12), "it is back")
    ended = f"stream {away[0]}:{away[1]} ended: "
    before = trial.around.log("streams").count(ended)
    trial.away.cut()
    want(trial.told(ended, times=before + 1), "its connection is cut, which is told within 10 s")
    time.sleep(0.6)
    trial.away.clear(lambda stream, packet: stream.connection.shutdown(socket.SHUT_RDWR))
    one.send(access(4, b"away", b"u@c.example"))
    trial.away.wait_for(4, 6)
    moments = [round(when - trial.away.came[0][0], 1) for when, _, _ in trial.away.came]
    want(len(moments) == 3 and 0.9 <= moments[1] < 1.9 < moments[2] - moments[1] < 3.9, f"a request is put at 0, 1 and 3 s: {moments}")
    want(len({number for _, number, _ in trial.away.came}) == 3, "on a connection of its own each time")
    want(trial.told("33 StreamAway"), "and dropped between")
    one.close()


def strangers(trial, away):
    """What is no request dials nothing, and no more than 64 senders have a connection toward a home server."""
    trial.away.clear(answers)
    before = len(trial.away.streams)
    some = []
    for _ in range(66):
        one = socket.socket(socket.AF_INET, socket.SOCK_DGRAM)
        one.bind(("127.0.0.1", 0))
        some.append(one)
    for octets in (b"nothing", access(1)[:-1], packets.text(2, 1, packets.ZEROS, [])):
        some[0].sendto(octets, away)
    time.sleep(0.5)
    port = some[0].getsockname()[1]
    want(len(trial.away.streams) == before, "what is no request dials nothing")
    want(trial.told(f"refused 34 StreamPlace from 127.0.0.1:{port} at {away[0]}:{away[1]}"), "and is refused")
    for number, one in enumerate(some):
        one.sendto(access(number, b"many"), away)
        time.sleep(0.01)
    want(trial.told(f"refused 31 StreamLimit from 127.0.0.1:{some[65].getsockname()[1]} at {away[0]}:{away[1]}"), "of more than 64 senders one is refused")
    for one in some:
        one.close()


def stranger_at_socket(trial, take):
    """A datagram of neither `auth` nor `acct` at a connection's socket is dropped."""
    one = connected(take, "127.1.0.9")
    port = one.connection.getsockname()[1]
    want(trial.told(f" taken from 127.1.0.9:{port}\n"), "a connection is taken")
    line = next(it for it in trial.around.log("streams").splitlines() if it.endswith(f" taken from 127.1.0.9:{port}"))
    at = line.split(" stream ", 1)[1].split(" ", 1)[0]
    with socket.socket(socket.AF_INET, socket.SOCK_DGRAM) as stranger:
        stranger.bind(("127.0.0.1", 0))
        stranger.sendto(packets.text(2, 1, packets.ZEROS, []), (at.split(":")[0], int(at.split(":")[1])))
        want(trial.told(f"refused 34 StreamPlace from 127.0.0.1:{stranger.getsockname()[1]} at {at}"), "a stranger's datagram at its socket is refused")
    want(one.packet(0.3) is None and not one.is_ended, "nothing of it comes on the connection")
    one.close()


def few_descriptors(trial, auth, acct):
    """A limit by which a connection can't be taken, or gets no socket: that is told, and the others go on."""
    for limit in (24, 25):
        name, take = f"few-{limit}", ("127.0.0.1", 29661 + limit - 24)
        conf = f'take = ["{take[0]}:{take[1]}"]\nauth = "{auth[0]}:{auth[1]}"\nacct = "{acct[0]}:{acct[1]}"\n'
        trial.around.start(name, ["sh", "-c", f'ulimit -n {limit} && exec "$0" streams "$1" 120000', trial.program, trial.around.write(f"{name}.conf", conf)])
        some = []
        until = time.monotonic() + 20
        while not some and time.monotonic() < until:
            try:
                some.append(connected(take))
            except OSError:
                time.sleep(0.05)
        some += [connected(take, "127.1.0.9") for _ in range(14)]
        want(trial.told("refused 32 StreamSocket", of=name), f"with {limit} descriptors a connection is refused")
        some[0].send(access(limit, b"few"))
        want(accepted_by(some[0], limit), "and the first one goes on")
        for one in some:
            one.close()


def play(trial, take, away):
    cuts(trial, take)
    realms(trial, take)
    without_reverse(trial, take, away)
    silent(trial, take, away)
    away_and_back(trial, take, away)
    strangers(trial, away)
    stranger_at_socket(trial, take)
