#!/usr/bin/env python3
"""try-on.py PROGRAM

Counts by valgrind the instructions of `PROGRAM sim` for an Accounting-On of an access server with 600 and with 3,000 open sessions:
what a script costs with the On at its end, less what it costs without. (That counts the end of the program too, which frees less where
sessions were ended: so it may be less than nothing.) In the same way it counts an Accounting-Request, and one that
comes next after the On. As many scripts run side by side as there are processors. The trial fails unless

1. the On costs four times as much as an Accounting-Request at most, and with 3,000 sessions twice as much as with 600, or as such a
   request, at most;
2. with 600, an Accounting-Request next after it costs four times as much as another one at most: it doesn't pay for the On;
3. a Disconnect-Request for a session of that access server gets a NAK with the Error-Cause 503 behind the On, and is forwarded without
   it; for a session of another access server it is forwarded also behind the On.

Where valgrind isn't installed nothing is counted, and that is said.
"""
import concurrent.futures
import os
import re
import shutil
import subprocess
import sys
import tempfile

sys.dont_write_bytecode = True
from looks import end, go_on, want, words
from radius import ACCOUNTING, DISCONNECT, answer, attribute, packets, signed
from server import configuration, peer, realm

COUNTS, MOST = (600, 3000), 4
START, ON = 1, 7
SECRET, HOME_SECRET = b'a-secret-of-nas1', b'a-secret-of-home'
HOME, ACCT, COA = '198.51.100.1:1813', '203.0.113.10:1813', 3799
ADDRESSES = {'nas1': '192.0.2.1', 'nas2': '192.0.2.2'}
OTHERS = 10


def configuration_of(most):
    """One realm, whose ledger has room for so many sessions."""
    peers = [peer(name, ip, SECRET.decode(), coa=f'{ip}:{COA}', nas_id=name) for name, ip in ADDRESSES.items()]
    home = {'auth': '198.51.100.1:1812', 'acct': HOME, 'secret': HOME_SECRET.decode()}
    return configuration(*peers, realm('a.example', home, out='203.0.113.10:20001', reverse='203.0.113.10:30001', own_sessions=True,
                                       max_sessions=most), auth='203.0.113.10:1812', acct=ACCT)


class Script:
    """What `roam sim` plays: exchanges of accounting, which the home server answers, and Disconnect-Requests."""

    def __init__(self):
        self.lines, self.count = [], 0

    def arrive(self, place, source, packet):
        self.lines.append(f'A {self.count} {place} {source} {packet.hex()}')

    def account(self, nas, status, session=b''):
        """An Accounting-Request and its response. The broker forwards its attributes with a Proxy-State, which has the ticket, by the
        next Identifier; each request here is answered before the next one, so that both are known beforehand."""
        number, state = self.count % 256, attribute(packets.PROXY_STATE, self.count.to_bytes(8, 'big'))
        body = attribute(1, b'user@a.example') + attribute(packets.ACCT_STATUS_TYPE, status.to_bytes(4, 'big'))
        body += attribute(packets.NAS_IDENTIFIER, nas.encode()) + (attribute(packets.ACCT_SESSION_ID, session) if session else b'')
        self.arrive('acct', f'{ADDRESSES[nas]}:5000', signed(ACCOUNTING, number, body, SECRET))
        self.arrive('out:0', HOME, answer(ACCOUNTING + 1, signed(ACCOUNTING, number, body + state, HOME_SECRET), HOME_SECRET))
        self.count += 1

    def disconnect(self, nas, session):
        body = attribute(packets.NAS_IDENTIFIER, nas.encode()) + attribute(packets.ACCT_SESSION_ID, session)
        self.arrive('reverse:0', '198.51.100.1:40000', signed(DISCONNECT, len(self.lines) % 256, body, HOME_SECRET))


def session(number):
    return b'%08X' % number


def script_of(count, *then):
    """So many sessions of one access server, some of another one, and then what these add."""
    script = Script()
    for number in range(count + OTHERS):
        script.account('nas2' if number >= count else 'nas1', START, session(number))
    for add in then:
        add(script)
    return script


def on(script):
    script.account('nas1', ON)


def start(script):
    script.account('nas2', START, session(1 << 24))


NAMES = {on: 'an Accounting-On', start: 'a Start'}


class Trial:
    def __init__(self, program, work):
        self.program, self.work, self.conf = program, work, os.path.join(work, 'one.conf')
        with open(self.conf, 'w', encoding='ascii') as file:
            file.write(configuration_of(2 * COUNTS[-1]))

    def plays(self, name, script, *before):
        """What a run over a script tells, and the packets that it prints."""
        path = os.path.join(self.work, name)
        with open(path, 'w', encoding='ascii') as file:
            file.write('\n'.join(script.lines))
        ran = subprocess.run([*before, self.program, 'sim', self.conf, path], capture_output=True, text=True, check=False)
        printed = ran.stdout.splitlines()
        want(ran.returncode == 0 and len(printed) == len(script.lines), f'{name}: each arrival is forwarded, returned or answered')
        return ran.stderr, printed

    def instructions(self, name, script):
        told, _ = self.plays(name, script, 'valgrind', '--tool=cachegrind', '--cache-sim=no', '--cachegrind-out-file=/dev/null')
        return int(re.search(r'I\s+refs:\s+([\d,]+)', told)[1].replace(',', ''))

    def begin(self, pool, count, *then):
        """A run that begins: over a script of so many sessions, and then what these add."""
        name = f'{count} sessions{"".join(" and " + NAMES[add] for add in then)}'
        return pool.submit(self.instructions, name, script_of(count, *then))


def look_at_costs(trial):
    """1. and 2."""
    if not shutil.which('valgrind'):
        print('try-on: nothing is counted: no valgrind is installed')
        return
    few, many = COUNTS
    with concurrent.futures.ThreadPoolExecutor(len(os.sched_getaffinity(0))) as pool:
        runs = [trial.begin(pool, many), trial.begin(pool, many, on), trial.begin(pool, few), trial.begin(pool, few, on),
                trial.begin(pool, few, on, start), trial.begin(pool, few, start)]
    many_without, many_on, without, with_on, with_both, with_start = (run.result() for run in runs)
    request = with_start - without
    want(request > 0, f'a Start takes {request} instructions')
    if request <= 0:
        return
    of_few, of_many = with_on - without, many_on - many_without
    for what, cost in ((f'{few} sessions: the Accounting-On', of_few), (f'{few} sessions: a Start next after it', with_both - with_on),
                       (f'{many} sessions: the Accounting-On', of_many)):
        want(cost <= MOST * request, f'{what} takes {cost}: {cost / request:.2f} times as many, {MOST} times at most')
    want(of_many <= 2 * max(of_few, request), f'the Accounting-On takes with {many} sessions {of_many} and with {few} {of_few}, twice as many at most')


def came_of(line):
    """What came of a Disconnect-Request, by the line of the packet."""
    _, place, endpoint, octets = line.split()
    packet = packets.Packet(bytes.fromhex(octets))
    if packet.code == packets.DISCONNECT_NAK:
        return f'NAK {int.from_bytes(packet.first(packets.ERROR_CAUSE), "big")}'
    return f'sent on to {endpoint}' if packet.code == DISCONNECT and place == 'out:0' else line


def look_at_sessions(trial, count):
    """3."""
    for name, then in ('without an On', ()), ('behind an On', (on,)):
        script = script_of(count, *then)
        asked = [('nas1', 0), ('nas1', count - 1), ('nas2', count), ('nas2', count + OTHERS - 1)]
        for nas, number in asked:
            script.disconnect(nas, session(number))
        _, printed = trial.plays(f'{count} sessions, Disconnect-Requests {name}', script)
        for (nas, number), line in zip(asked, printed[2 * script.count:]):
            came = came_of(line)
            want(came == ('NAK 503' if then and nas == 'nas1' else f'sent on to {ADDRESSES[nas]}:{COA}'),
                 f'{count} sessions, {name}: a Disconnect-Request for session {number}, of {nas}: {came}')


def main():
    program, = words(__doc__)
    go_on()
    with tempfile.TemporaryDirectory() as work:
        trial = Trial(program, work)
        for count in COUNTS:
            look_at_sessions(trial, count)
        look_at_costs(trial)
    return end()


if __name__ == '__main__':
    sys.exit(main())
