#!/usr/bin/env python3
"""try-abandoned.py PROGRAM

Serves three realms on loopback, one with `conversations` and one without `hold`, and logs in by several rounds, as EAP does: each
Access-Challenge has a State that the next Access-Request gives back. It fails unless

1. a login that stops behind its third Challenge is one line `result=abandoned` with `rounds=3` and the time since its first round,
   also where a reload came between two rounds;
2. one that is accepted in its third round is one line with `rounds=3`, that time, and the last round's `ms`; one of one round has
   neither;
3. one that stops and begins anew is told as stopped once, and so is one of two peers whose Challenges have one State;
4. one State that is sent twice, with two Identifiers, is no stop where the second goes on;
5. the metrics, `ctl status` and its JSON count the stops, and `--problems` names the realm until a hundred times as many replies were
   returned;
6. a realm that holds no replies tells of none.

It needs no root, and takes seven seconds.
"""
import json
import re
import sys
import tempfile
import time

sys.dont_write_bytecode = True
import radius
import server as servers
from looks import end, want, words
from radius import HERE, attribute, bound, heard, sealed_answer, user_name, value_of
from server import configuration, peer, places, realm

PORT, HOMES = 18260, (28260, 28262, 28264)
OTHER, SECRET, HOME_SECRET = '127.0.0.2', b'a-secret-of-nas1', b'a-secret-of-home'
CHALLENGE, ACCEPT, STATE, EAP = 11, 2, 24, 79
HOLD, PAUSE = 4000, .1
REALMS, UNHELD = ('a.example', 'b.example'), 'c.example'


class HomeServer(radius.HomeServer):
    """Answers the requests of a login by Challenges, and the last one of a user `doneN-..` by an Access-Accept in its Nth round. The State
    says the user and the round; that of users `same-..` the round alone."""

    def run(self):
        while True:
            packet, source = self.socket.recvfrom(4096)
            name, state = user_name(packet), value_of(packet, STATE)
            round_ = 1 + int(state.rpartition(b':')[2]) if state else 1
            last = re.match(rb'done(\d+)-', name)
            if last and round_ == int(last[1]):
                reply = sealed_answer(ACCEPT, packet, self.secret)
            else:
                owner = b'same' if name.startswith(b'same-') else name
                reply = sealed_answer(CHALLENGE, packet, self.secret, [(STATE, b'%s:%d' % (owner, round_)), (EAP, b'\1\1\0\5\1')])
            self.socket.sendto(reply, source)


class Login:
    """The rounds of a login, each with the State of the last Challenge, from a port of its own."""

    def __init__(self, user, source=HERE):
        self.user, self.state, self.number, self.begun = user.encode(), None, 0, time.monotonic()
        self.socket = bound(0, source, 10)

    def sends(self, state=None):
        """Sends the next round, with another State where one is given, and gives the code of the reply."""
        state, self.number = state or self.state, self.number + 1
        body = radius.NAS_IP + attribute(EAP, b'\2\1\0\5\1') + (attribute(STATE, state) if state else b'')
        self.socket.sendto(radius.access(self.number, self.user, body, SECRET), (HERE, PORT))
        reply = heard(self.socket)[0]
        self.state = value_of(reply, STATE) if reply else None
        return reply and reply[0]

    def goes(self, rounds):
        """Goes so many rounds on, and gives the codes of the replies."""
        codes = []
        for _ in range(rounds):
            time.sleep(PAUSE)
            codes.append(self.sends())
        return codes


def lines_of(server, user):
    """The words of the lines of a user, each a result and its keys."""
    found = [line for line in server.said().splitlines() if f'user="{user}"' in line and 'exchange result=' in line]
    return [dict(re.findall(r'(\w+)=("[^"]*"|\S+)', line)) for line in found]


def told(server, user):
    return [(it['result'], it.get('rounds')) for it in lines_of(server, user)]


def want_time(line, rounds, held):
    """Wants the whole time of a line: its pauses, and for how long its last Challenge was held."""
    least = (rounds - 1) * PAUSE * 1000 + (HOLD if held else 0)
    # So much more at most: each round may be late where the machine has much else to do.
    want(least <= int(line['login_ms']) <= least + 3500, f"{line['user']}: {line['login_ms']} ms since the first of {rounds} rounds")
    want(int(line['ms']) <= int(line['login_ms']) - (rounds - 1) * PAUSE * 1000 + 50, f"of which the last round took {line['ms']}")


def log_in(name, server, text):
    """The logins of a realm, and what is to be told of each user."""
    left, done, over, once = (Login(f'{it}@{name}') for it in ('left', 'done3-a', 'over', 'done1-c'))
    anew, twice = Login(f'done2-b@{name}'), Login(f'done3-d@{name}')
    want(left.goes(3) == [CHALLENGE] * 3, f'{name}: a login gets three Challenges, and stops')
    want(done.goes(3) == [CHALLENGE, CHALLENGE, ACCEPT], f'{name}: another one is accepted in its third round')
    want(once.goes(1) == [ACCEPT], f'{name}: one is accepted at once')
    want(anew.goes(1) == [CHALLENGE], f'{name}: one stops')
    anew.state = None
    want(anew.goes(2) == [CHALLENGE, ACCEPT], f'{name}: begins anew, and is accepted')
    want(twice.goes(1) == [CHALLENGE] and (state := twice.state), f'{name}: one sends its State twice')
    want([twice.sends(state), twice.sends(state), twice.sends()] == [CHALLENGE, CHALLENGE, ACCEPT], f'{name}: and is accepted')
    want(over.goes(2) == [CHALLENGE] * 2, f'{name}: one goes two rounds')
    changed = server.reload(text.replace('max_pending = 512', f'max_pending = {513 + REALMS.index(name)}'))
    want(changed.returncode == 0 and over.goes(1) == [CHALLENGE], f'{name}: and one more behind a reload, and stops')
    mine, yours = Login(f'same-x@{name}'), Login(f'same-y@{name}', OTHER)
    want(mine.goes(1) == yours.goes(1) == [CHALLENGE] and mine.state == yours.state, f'{name}: two peers get Challenges with one State')
    want(yours.goes(1) == [CHALLENGE], f'{name}: one of them goes on, and both stop')
    return {'left': [('abandoned', '3')], 'done3-a': [('accept', '3')], 'over': [('abandoned', '3')], 'done1-c': [('accept', None)],
            'done2-b': [('abandoned', '1'), ('accept', '2')], 'done3-d': [('accept', '3')], 'same-x': [('abandoned', '1')],
            'same-y': [('abandoned', '2')]}


def try_lines(server, name, wanted):
    for user, lines in wanted.items():
        found = told(server, f'{user}@{name}')
        want(sorted(found, key=str) == sorted(lines, key=str), f'{name}: of {user} is told {found}')
    for user, rounds, held in (('left', 3, True), ('done3-a', 3, False), ('over', 3, True)):
        want_time(lines_of(server, f'{user}@{name}')[0], rounds, held)
    yours = lines_of(server, f'same-y@{name}')[0]
    want(yours['peer'] == '"nas2"', f'{name}: the one with a State of another peer is told of its own, {yours["peer"]}')


def try_counts(server, stops):
    for name in REALMS:
        want(server.count('roam_realm_abandoned_total', realm=name) == stops, f'{name}: {stops} stops are counted')
        want(server.count('roam_server_abandoned_total', realm=name) == stops, f'{name}: and of its home server')
    of_peers = [server.count('roam_peer_abandoned_total', peer=it) for it in ('nas1', 'nas2')]
    want(of_peers == [2 * stops - 2, 2], f'of the peers {of_peers}')
    status = [line.strip() for line in server.ctl('status').stdout.splitlines()]
    heads = next(line for line in status if line.startswith('REALM '))
    rows = [re.split(r'  +', line) for line in status if line.startswith(REALMS)]
    column = re.split(r'  +', heads).index('ABANDONED')
    want([row[column] for row in rows] == [str(stops)] * 2, '`ctl status` has them')
    text = json.loads(server.ctl('status', '--json').stdout)
    want([it['abandoned'] for it in text['realms']] == [stops] * 2 + [0], 'and so has its JSON')
    problems = server.ctl('status', '--problems').stdout
    want(all(name in problems for name in REALMS), '`--problems` names both realms')
    codes = [Login(f'done1-{number}@{REALMS[0]}').sends() for number in range(490)]
    problems = server.ctl('status', '--problems').stdout
    want(codes == [ACCEPT] * 490 and [name in problems for name in REALMS] == [False, True],
         '`--problems` names one no more where a hundred times as many replies were returned')


def main(program):
    keys = {'tries': 2, 'wait': 500, 'max_pending': 512, 'max_sessions': 100}
    text = configuration(
        peer('nas1', secret=SECRET.decode()), peer('nas2', OTHER, SECRET.decode()),
        *(realm(name, HOMES[at], out=f'{HERE}:{PORT + 10 + at}', reverse=f'{HERE}:{PORT + 20 + at}', conversations=at == 1,
                **{**keys, 'hold': 0 if name == UNHELD else HOLD})
          for at, name in enumerate([*REALMS, UNHELD])), **places(PORT), shards=1, log_exchanges='final')
    for home in HOMES:
        HomeServer(home, HOME_SECRET)
    with tempfile.TemporaryDirectory() as folder, servers.Server(program, folder, text) as server:
        want(server.is_asked(), 'it serves')
        want(Login(f'left@{UNHELD}').goes(2) == [CHALLENGE] * 2, f'{UNHELD}: a login stops')
        wanted = [log_in(name, server, text) for name in REALMS]
        time.sleep(HOLD / 1000 + .5)
        for name, lines in zip(REALMS, wanted):
            try_lines(server, name, lines)
        want(not told(server, f'left@{UNHELD}'), f'{UNHELD}: which nothing tells, since nothing is held')
        try_counts(server, 5)
        server.stop()
    return end()


if __name__ == '__main__':
    sys.exit(main(*words(__doc__)))
