#!/usr/bin/env python3
"""try-lost-sessions.py PROGRAM

Serves a realm on loopback, and takes the memory away that its session table wants to grow. It fails unless each Accounting-Request
is answered all the same, each session that finds no memory is counted as lost, and told in the trace, its Disconnect-Request is
answered by a NAK, that of a session before it goes through, a session is kept once there is memory, and the metrics balance.
It needs no root.
"""
import resource
import sys
import tempfile

sys.dont_write_bytecode = True
import radius
import server as servers
from looks import end, want, words
from radius import HERE, HomeServer, asked, attribute, signed
from server import configuration, peer, places, realm

PORT, HOME, COA = 18220, 28220, 18620
NAME, SECRET, HOME_SECRET = b'nas1', b'a-secret-of-nas1', b'a-secret-of-home'
FIRST, MORE, ROOM = 1000, 3000, 256 << 10
LOST = 'roam_realm_lost_sessions_total'


class Trial:
    def __init__(self, server):
        self.server, self.count, self.silent = server, 0, 0

    def open(self):
        """Opens one session more, asking again each second as access servers do, and gives its Acct-Session-Id."""
        session = b'%08X' % self.count
        self.count += 1
        packet = radius.accounting(self.count % 256, b'user@a.example', session, SECRET, 1, attribute(32, NAME))
        reply = asked(packet, (HERE, PORT + 1), HERE, 1, 8)
        self.silent += reply is None or reply[0] != 5
        return session

    def lost(self):
        return self.server.count(LOST, realm='a.example')

    def limit(self, most):
        resource.prlimit(self.server.process.pid, resource.RLIMIT_DATA, (most, resource.RLIM_INFINITY))

    def data(self):
        with open(f'/proc/{self.server.process.pid}/status', encoding='ascii') as file:
            return 1024 * next(int(line.split()[1]) for line in file if line.startswith('VmData'))


def code_for(session):
    """The code of the answer to a Disconnect-Request that names a session and no user."""
    reply = asked(signed(40, 7, attribute(32, NAME) + attribute(44, session), HOME_SECRET), (HERE, PORT + 20))
    return reply and reply[0]


def try_sessions(trial):
    kept = [trial.open() for _ in range(FIRST)]
    want(trial.silent == 0 and trial.lost() == 0, f'{FIRST} sessions are opened')
    trial.limit(trial.data() + ROOM)
    more = []
    while len(more) < MORE and not trial.silent:
        more.append(trial.open())
    trial.limit(resource.RLIM_INFINITY)
    lost, trace = trial.lost(), trial.server.ctl('trace', '0').stdout
    want(not trial.silent, f'of {len(more)} Accounting-Requests with no memory for the session table to grow {trial.silent} are not answered')
    want(0 < lost <= MORE, f'of their sessions {lost} are counted as lost')
    want(trial.server.count('roam_realm_returned_total', realm='a.example') == FIRST + MORE, 'each is counted as returned')
    want(any(line.startswith('L ') for line in trace.splitlines()), 'the trace says which replies were taken without their session')
    want(code_for(more[-1]) == 42, 'a Disconnect-Request for a lost one is answered by a NAK')
    want(code_for(kept[-1]) == 41, 'and one for a session before it goes through')
    want(code_for(trial.open()) == 41 and trial.lost() == lost, 'once there is memory a session is kept')


def main(program):
    text = configuration(
        peer(NAME.decode(), secret=SECRET.decode(), coa=f'{HERE}:{COA}', nas_id=NAME.decode()),
        realm('a.example', HOME, out=f'{HERE}:{PORT + 10}', reverse=f'{HERE}:{PORT + 20}', hold=0, max_sessions=65536),
        **places(PORT), shards=1, trace_limit=700, log_exchanges='none')
    HomeServer(HOME + 1, HOME_SECRET)
    HomeServer(COA, SECRET)
    with tempfile.TemporaryDirectory() as work, servers.Server(program, work, text) as server:
        server.waits_for()
        try_sessions(Trial(server))
        server.stop()
    return end()


if __name__ == '__main__':
    sys.exit(main(*words(__doc__)))
