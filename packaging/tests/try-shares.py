#!/usr/bin/env python3
"""try-shares.py PROGRAM

Looks at what one RADIUS client can take of a realm from another one, on loopback. The first peer sends more requests than the realm
has Identifiers, for users whom the home servers don't answer. Then the second peer logs in with users whom they answer at once.
Nothing is given up meanwhile, so no count depends on the machine. The trial fails unless

1. with the numbers of each realm of the samples that several peers may ask, and with `peer_share` below `share` or alone, the first peer
   has `peer_share` requests waiting and its further ones are refused (27), and all logins of the second peer are answered;
2. without `peer_share`, or where it isn't less than `share`, logins of the second peer are refused: 27 where the first peer took a
   name, 12 where it took all Identifiers;
3. `roam check` advises on shares in these cases, and in no other;
4. the metrics balance, and the server stops, audited.
"""
import collections
import dataclasses
import os
import re
import select
import sys
import tempfile
import time
import tomllib

sys.dont_write_bytecode = True
from looks import end, go_on, want, words
from radius import HERE, HomeServer, access, all_of, bound, user_name
from server import Server, configuration, peer, places, realm, run, total

SAMPLES = os.path.join(os.path.dirname(os.path.realpath(__file__)), '..', 'samples')
PORT, HOMES, OUT = 31120, (31130, 31132), 31140
PEERS = {'first': HERE, 'second': '127.0.0.2'}
SECRET = b'a-secret-of-home'
NO_IDENTIFIER, SHARE_TAKEN = 12, 27
LOGINS = 8
ABSENT, NOT_LESS = 'peer_share: is absent where several peers may ask', "peer_share: isn't less than share"


@dataclasses.dataclass
class Case:
    """A realm, and what comes of it: how many requests of the first peer wait, and by which number its further ones are refused; by which
    the second peer's logins are, for the name for which the first one asks and for another name (None: they are answered); and the advice."""
    title: str
    names: tuple
    keys: dict
    waits: int
    refused: int = SHARE_TAKEN
    same: int | None = None
    another: int | None = None
    advice: str | None = None
    has_a_name_each: bool = False
    servers: int = 1
    text: str = ''


# The keys of a realm, and behind them as in a Case: what docs/OPERATING.md says that one client can take.
NUMBERS = [
    ('neither', {}, 256, NO_IDENTIFIER, NO_IDENTIFIER, NO_IDENTIFIER, ABSENT),
    ('share alone', {'share': 32}, 32, SHARE_TAKEN, SHARE_TAKEN, None, ABSENT),
    ('share alone, and a name for each request', {'share': 32}, 256, NO_IDENTIFIER, NO_IDENTIFIER, NO_IDENTIFIER, ABSENT, True),
    ('a larger peer_share', {'share': 32, 'peer_share': 128}, 32, SHARE_TAKEN, SHARE_TAKEN, None, NOT_LESS),
    ('an equal one', {'share': 64, 'peer_share': 64}, 64, SHARE_TAKEN, SHARE_TAKEN, None, NOT_LESS),
    ('one that is less by 1', {'share': 65, 'peer_share': 64}, 64),
    ('peer_share alone', {'peer_share': 128}, 128),
    ('a quarter', {'share': 96, 'peer_share': 64}, 64),
    ('a quarter, and a name for each request', {'share': 96, 'peer_share': 64}, 64, SHARE_TAKEN, None, None, None, True),
]


def own_cases():
    for at, (title, keys, *wanted) in enumerate(NUMBERS):
        name = f'r{at}.example'
        yield Case(f'{title} {keys}', (name, f'*.{name}'), keys, *wanted)


def cases_of(sample):
    """The realms of a sample that several peers may ask, with their names and numbers."""
    with open(os.path.join(SAMPLES, sample), 'rb') as file:
        read = tomllib.load(file)
    for table in read['realm']:
        if len(table.get('peers', read['peer'])) > 1:
            keys = {key: table[key] for key in ('share', 'peer_share') if key in table}
            outs = table['out'] if isinstance(table['out'], list) else [table['out']]
            yield Case(f'{sample}, {table["name"]} {keys}', (table['name'], *table.get('also', [])), {**keys, 'outs': len(outs)},
                       keys.get('peer_share', 256 * len(outs) * len(table['server'])), servers=len(table['server']))


def file_of(*texts):
    peers = [peer(name, ip, require_seal=False) for name, ip in PEERS.items()]
    return configuration(*peers, *texts, shards=2, status_server=True, well_formed=True, log_exchanges='none', **places(PORT))


def laid_out(cases):
    """The cases, each with the text of its realm: with places of its own, and nothing is given up within a minute."""
    port = OUT
    for case in cases:
        keys = dict(case.keys)
        count = keys.pop('outs', 1)
        outs, port = [f'{HERE}:{port + at}' for at in range(count)], port + count
        case.text = realm(case.names[0], *HOMES[:case.servers], also=list(case.names[1:]), out=outs, tries=1, wait=60000, rest=0,
                          max_pending=4096, **keys)
    return cases


def name_in(case, label):
    """A name of the realm: its own where it has no pattern."""
    pattern = next((name for name in case.names if name.startswith('*')), case.names[0])
    return pattern.replace('*', label if len(pattern) > 1 else f'{label}.invalid')


def look_at_advice(program, work, case):
    """3. of one case, as a file of its own."""
    path = os.path.join(work, 'one.conf')
    with open(path, 'w', encoding='utf-8') as file:
        file.write(file_of(case.text))
    status, printed, told = run(program, 'check', path)
    advice = [line.split(': ', 3)[-1] for line in told.splitlines() if 'share: ' in line]
    is_right = len(advice) == 1 and advice[0].startswith(case.advice) if case.advice else not advice
    want(status == 0 and printed.startswith('ok ') and is_right, f'{case.title}: `roam check` advises {advice or "nothing"}')


def refusals(counts, who):
    """How many requests of a peer were refused, by the number."""
    found = collections.Counter()
    for key, count in counts.items():
        if count and key.startswith('roam_peer_refusals_total{') and f'peer="{who}"' in key:
            found[int(re.search('number="(.*?)"', key)[1])] += int(count)
    return found


def take_all(server, case):
    """Has the first peer send more requests than there are Identifiers, and wants so many to wait and the others to be refused."""
    at_all = 256 * case.keys.get('outs', 1) * case.servers + 44
    before, waiting, refused = refusals(server.counts(), 'first'), 0, {}
    sockets = [bound(0, PEERS['first']) for _ in range(0, at_all, 256)]
    for begin in range(0, at_all, 128):
        until = min(at_all, begin + 128)
        for number in range(begin, until):
            user = f'silent{number}@{name_in(case, f"n{number}" if case.has_a_name_each else "one")}'
            sockets[number // 256].sendto(access(number % 256, user.encode()), (HERE, PORT))
        # The next ones follow when these were looked at: the system drops none.
        last = time.monotonic() + 10
        while waiting + sum(refused.values()) < until and time.monotonic() < last:
            counts = server.counts()
            waiting = total(counts, 'roam_realm_waiting_requests', realm=case.names[0])
            refused = refusals(counts, 'first') - before
    want(waiting == case.waits and refused == {case.refused: at_all - case.waits},
         f'{case.title}: of {at_all} requests of the first peer {waiting} wait, refused are {dict(refused)}')


def login(server, one, number, user, before):
    """What comes of a login of the second peer: an accept, or the number by which it is refused."""
    last = time.monotonic() + 10
    one.sendto(access(number, user), (HERE, PORT))
    while time.monotonic() < last:
        if select.select([one], [], [], .05)[0]:
            return 'accept' if [packet[:2] for packet, _ in all_of(one)] == [bytes([2, number])] else 'another reply'
        if refused := refusals(server.counts(), 'second') - before:
            before.update(refused)
            return next(iter(refused))
    return 'nothing'


def log_in(server, case, label, wanted):
    """Wants all logins of the second peer to come to the same: they are answered, or refused by that number."""
    name, one, before = name_in(case, label), bound(0, PEERS['second']), refusals(server.counts(), 'second')
    came = [login(server, one, number, f'u{number}@{name}'.encode(), before) for number in range(LOGINS)]
    want(came == [wanted or 'accept'] * LOGINS,
         f'{case.title}: {LOGINS} logins of the second peer for {name}: ' + ', '.join(sorted(set(map(str, came)))))


def main():
    program, = words(__doc__)
    go_on()
    cases = laid_out([*own_cases(), *(case for sample in sorted(os.listdir(SAMPLES)) if sample.endswith('.conf') for case in cases_of(sample))])
    for port in HOMES:
        HomeServer(port, SECRET, lambda packet: not user_name(packet).startswith(b'silent'))
    with tempfile.TemporaryDirectory() as work:
        for case in cases:
            look_at_advice(program, work, case)
        with Server(program, work, file_of(*(case.text for case in cases))) as server:
            server.waits_for()
            for case in cases:
                take_all(server, case)
                log_in(server, case, 'one', case.same)
                if any(name.startswith('*') for name in case.names):
                    log_in(server, case, 'two', case.another)
            server.balances()
            # A stop would wait half a minute for what waits.
            last = realm('last.example', HOMES[0], out=f'{HERE}:{OUT - 1}')
            want(server.reload(file_of(last), ['--lose']).returncode == 0, 'what waits is dropped where that is agreed to')
            server.stop()
    return end()


if __name__ == '__main__':
    sys.exit(main())
