#!/usr/bin/env python3
"""try-restart.py PROGRAM

Serves two realms with `state` in the configuration, on loopback, while sessions are opened as fast as they are answered, and
ends and starts it again. It fails unless

1. after `roam ctl PATH stop` and a start each session that was open is disconnected, and one that was closed isn't known;
   so also by `roam-run` and the signal TERM, and where tables stand in another order then;
2. after a kill (KILL) each session is that was open `state_every` seconds before;
3. the file has mode 0600, and no other is left beside it;
4. a file that was cut (wherever), one of another version and one that is somebody else's is said, stays beside under another
   name, and the server begins without; where the file can't be written that is said, and all else goes on;
5. a session of a peer that went isn't taken up, nor one whose realm tells its sessions otherwise now;
6. sessions are known by their NAS-IPv6-Address too.

It prints how many sessions there were.
"""
import os
import signal
import socket
import sys
import tempfile
import threading
import time

sys.dont_write_bytecode = True
import radius
import server as servers
from looks import changed, end, want, words
from radius import HERE, HomeServer, asked, attribute, signed
from server import configuration, peer, places, realm

PORT, HOME, COA = 17520, 27520, 17920
PEERS = [('nas1', HERE, b'a-secret-of-nas1', COA), ('nas2', '127.0.0.2', b'a-secret-of-nas2', COA + 1)]
REALMS = ['a.example', 'b.example']
SECRET = b'a-secret-of-home'
RUN = os.path.join(os.path.dirname(os.path.abspath(__file__)), '..', 'installed', 'roam-run')


class Server(servers.Server):
    def __init__(self, program, work, starts=True):
        self.state, self.peers, self.realms, self.own = os.path.join(work, 'sessions'), list(PEERS), list(REALMS), False
        super().__init__(program, work, '', starts=starts)

    def text(self):
        peers = [peer(name, ip, secret.decode(), coa=f'{ip}:{coa}', nas_id=name) for name, ip, secret, coa in self.peers]
        realms = [realm(name, {'auth': f'{HERE}:{HOME + at}', 'acct': f'{HERE}:{HOME + 100 + at}'}, out=f'{HERE}:{PORT + 200 + at}',
                        reverse=f'{HERE}:{PORT + 300 + at}', own_sessions=self.own, tries=2, wait=500)
                  for at, name in sorted(enumerate(REALMS), key=lambda it: self.realms.index(it[1]))]
        return configuration(*peers, *realms, shards=2, **places(PORT), log_exchanges='none', state=self.state, state_every=1)

    def start(self, by_script=False):
        self.write(self.text())
        super().start(*([RUN, self.conf] if by_script else []), ROAM=self.program)
        self.waits_for()

    def stop(self):
        super().stop(is_told=False)

    def restart(self):
        self.stop()
        self.start()


def accounting(number_of_peer, realm, status, session, number, more=b''):
    """Whether an Accounting-Request of a peer is answered."""
    name, ip, secret, _ = PEERS[number_of_peer]
    body = attribute(32, name.encode()) + more
    reply = asked(radius.accounting(number % 256, b'user@' + realm.encode(), session, secret, status, body), (HERE, PORT + 1), ip, 3)
    return reply is not None and reply[0] == 5


def is_disconnected(realm, session, number_of_peer, more=b''):
    """Whether a Disconnect-Request of the realm's home server, which names a session and no user, is acknowledged."""
    body = attribute(32, PEERS[number_of_peer][0].encode()) + attribute(44, session) + more
    reply = asked(signed(40, 7, body, SECRET), (HERE, PORT + 300 + REALMS.index(realm)))
    return reply is not None and reply[0] == 41


class Sessions:
    """Opens sessions of both peers in both realms, one after the other, and closes each tenth."""

    def __init__(self):
        self.open, self.closed, self.count, self.is_over = {}, {}, 0, False
        self.thread = None

    def some(self, count):
        for _ in range(count):
            peer, realm = self.count % 2, REALMS[self.count // 2 % 2]
            session = b'%08X' % self.count
            self.count += 1
            if accounting(peer, realm, 1, session, self.count):
                self.open[session] = realm, peer, time.monotonic()
                if self.count % 10 == 0 and accounting(peer, realm, 2, session, self.count):
                    self.closed[session] = self.open.pop(session)

    def go_on(self):
        self.is_over = False

        def run():
            while not self.is_over:
                self.some(1)
        self.thread = threading.Thread(target=run)
        self.thread.start()

    def end(self):
        self.is_over = True
        self.thread.join()

    def are_disconnected(self, what, before=None):
        """Each that was open then is disconnected, and none that was closed."""
        lost = [it for it, (realm, peer, when) in self.open.items()
                if (before is None or when < before) and not is_disconnected(realm, it, peer)]
        want(self.open and not lost, f'{what}: of {len(self.open)} sessions that were open {len(lost)} are lost')
        known = [it for it, (realm, peer, when) in list(self.closed.items())[:20]
                 if (before is None or when < before) and is_disconnected(realm, it, peer)]
        want(not known, 'and none is known that was closed')


def try_stop(server):
    sessions = Sessions()
    sessions.some(200)
    sessions.go_on()
    time.sleep(2)
    server.stop()
    sessions.end()
    want(os.stat(server.state).st_mode & 0o777 == 0o600, 'the file is for its owner alone')
    want(not os.path.exists(server.state + '.new'), 'and none is left beside it but its lock')
    server.peers.reverse()
    server.realms.reverse()
    server.start()
    want('sessions restored from ' + server.state in server.said(), 'it says what it takes up')
    sessions.are_disconnected('after a stop, with all tables turned about')


def try_signal(server):
    server.stop()
    server.start(by_script=True)
    sessions = Sessions()
    sessions.some(50)
    server.process.send_signal(signal.SIGTERM)
    want(server.ends(60) == 0, 'roam-run ends it by TERM')
    server.start()
    sessions.are_disconnected('after TERM')


def savings(server, seconds):
    """The moments at which the file was written meanwhile."""
    found, last, until = [], None, time.monotonic() + seconds
    while time.monotonic() < until:
        written = os.stat(server.state).st_mtime_ns if os.path.exists(server.state) else None
        if written != last:
            found.append(time.monotonic())
        last = written
        time.sleep(.02)
    return found


def try_kill(server):
    sessions = Sessions()
    sessions.some(50)
    time.sleep(1.5)
    sessions.go_on()
    moments = savings(server, 4)
    killed = time.monotonic()
    # A machine that has much else to do may save later than each second.
    late = max([0., *(after - before - 1 for before, after in zip(moments, moments[1:] + [killed]))])
    server.process.kill()
    server.process.wait()
    sessions.end()
    server.start()
    want(len(moments) > 1 and late < 2, f'it saves about each second: {late:.1f} s late at most')
    sessions.are_disconnected('after a kill', killed - 1.5 - late)


def try_faulty(server):
    sessions = Sessions()
    sessions.some(10)
    server.stop()
    with open(server.state, 'rb') as file:
        whole = file.read()
    faulty = [('cut', whole[:-1]), ('cut', whole[:len(whole) // 2]), ('cut', whole[:15]), ('no file of sessions', b''),
              ("another version's file of sessions", changed(whole, b'ledgers 2\n', b'ledgers 1\n', 1)),
              ('no file of sessions', b'somebody else\'s\n'), ('octets behind the end', whole + b'\0')]
    for word, octets in faulty:
        with open(server.state, 'wb') as file:
            file.write(octets)
        server.start()
        with open(server.state + '.old', 'rb') as file:
            kept = file.read()
        want(f'{word}; the file is {server.state}.old now' in server.said() and kept == octets, f'said and put aside: {word}')
        server.stop()
    with open(server.state, 'wb') as file:
        file.write(whole)
    server.start()
    sessions.are_disconnected('of the whole file')
    server.stop()


def try_unwritable(server):
    state, server.state = server.state, os.path.join(server.folder, 'no', 'sessions')
    server.start()
    want(server.tells(f"sessions are not saved in {server.state}: No such file or directory"), 'where it cannot be written that is said')
    sessions = Sessions()
    sessions.some(4)
    sessions.are_disconnected('and all else goes on')
    server.state = state
    result = server.reload(server.text())
    sessions.some(4)
    server.stop()
    want(result.returncode == 0, 'a reload takes another path')
    server.start()
    sessions.open = dict(list(sessions.open.items())[-3:])
    sessions.are_disconnected('which counts from then on')


def try_other(server):
    sessions = Sessions()
    sessions.some(20)
    server.stop()
    server.peers = [peer for peer in server.peers if peer[0] == 'nas1']
    server.start()
    server.stop()
    server.peers = list(PEERS)
    server.start()
    want(all(is_disconnected(realm, it, peer) == (peer == 0) for it, (realm, peer, _) in sessions.open.items()),
         'sessions of a peer that went are not taken up, all others are')
    server.stop()
    server.own = True
    server.start()
    want(not any(is_disconnected(realm, it, peer) for it, (realm, peer, _) in sessions.open.items()),
         'nor are those of a realm that tells its sessions otherwise now')
    server.stop()


def try_names(server):
    """Two sessions of one id, of access servers that are told by their NAS-IPv6-Address (RFC 3162, section 2.1)."""
    server.own = True
    server.start()
    names = [attribute(95, socket.inet_pton(socket.AF_INET6, it)) for it in ('2001:db8::1', '2001:db8::2', '2001:db8::3')]
    want(all(accounting(0, REALMS[0], 1, b'1', number, it) for number, it in enumerate(names[:2])), 'two sessions have one id')
    server.restart()
    want(not is_disconnected(REALMS[0], b'1', 0), 'after that a request which leaves open which one it means gets a NAK')
    want([is_disconnected(REALMS[0], b'1', 0, it) for it in names] == [True, True, False], 'each is known by its NAS-IPv6-Address')
    server.stop()


def main():
    [program] = words(__doc__)
    for at in range(2):
        HomeServer(HOME + at, SECRET)
        HomeServer(HOME + 100 + at, SECRET)
    for _, ip, secret, coa in PEERS:
        HomeServer(coa, secret, address=ip)
    with tempfile.TemporaryDirectory() as work, Server(program, work) as server:
        for part in try_stop, try_signal, try_kill, try_faulty, try_unwritable, try_other, try_names:
            part(server)
    return end()


if __name__ == '__main__':
    sys.exit(main())
