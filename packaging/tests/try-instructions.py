#!/usr/bin/env python3
"""try-instructions.py PROGRAM [--store]

Counts by valgrind the instructions of `PROGRAM sim` for an Access exchange and for one of accounting (a Start, an Interim-Update and a
Stop of each session, by turns): what a script of them costs, less what the same datagrams cost where strangers send them. So what it
takes to read the script doesn't count. The trial fails unless

1. an exchange of accounting costs at most as many times what an Access exchange costs as MOST says, with 3 % of room;
2. of the gate's program, crates/roam/out/roam, each costs at most 3 % more than the figure that `instructions.txt` keeps of it.

`--store` writes the figures there. Other builds count otherwise, so of another program they aren't compared. Figures that aren't there
fail nothing. Where valgrind isn't installed nothing is counted, and that is said.
"""
import concurrent.futures
import hashlib
import os
import re
import shutil
import subprocess
import sys
import tempfile

sys.dont_write_bytecode = True
from looks import end, go_on, want, words
from radius import ACCOUNTING, access_with_password, answer, attribute, packets, sealed_answer, signed
from server import configuration, peer, realm

HERE = os.path.dirname(os.path.abspath(__file__))
KEPT, GATES = os.path.join(HERE, 'instructions.txt'), os.path.join(HERE, '..', '..', 'crates', 'roam', 'out', 'roam')
MOST, ROOM = 1.05, 1.03
COUNT = 192
START, STOP, INTERIM_UPDATE = 1, 2, 3
SECRET, HOME_SECRET = b'a-secret-of-nas1', b'a-secret-of-home'
AUTH, ACCT, HOME_AUTH, HOME_ACCT = '203.0.113.10:1812', '203.0.113.10:1813', '198.51.100.1:1812', '198.51.100.1:1813'
NAS, STRANGER = '192.0.2.1', '198.18.0.1'
NAMES = attribute(4, bytes([192, 0, 2, 1])) + attribute(packets.NAS_IDENTIFIER, b'access-server-number-007')
BEHIND = attribute(31, b'02-00-00-00-00-01') + attribute(packets.PROXY_STATE, b'\x01nas\x02')


def written(folder):
    """The path of a configuration of one realm, which tells sessions apart by the names of their access servers."""
    home = {'auth': HOME_AUTH, 'acct': HOME_ACCT, 'secret': HOME_SECRET.decode()}
    path = os.path.join(folder, 'one.conf')
    with open(path, 'w', encoding='ascii') as file:
        file.write(configuration(peer('nas1', NAS, SECRET.decode()),
                                 realm('a.example', home, out='203.0.113.10:20001', own_sessions=True, hold=100), auth=AUTH, acct=ACCT))
    return path


class Scripts:
    """Scripts of exchanges, one each millisecond, with a tick behind every 16th."""

    def __init__(self, program, folder):
        self.program, self.folder, self.conf = program, folder, written(folder)

    def play(self, name, lines, *before):
        """What a run over a script tells, and the lines that it prints."""
        path = os.path.join(self.folder, name)
        with open(path, 'w', encoding='ascii') as file:
            file.write('\n'.join(lines))
        ran = subprocess.run([*before, self.program, 'sim', self.conf, path], capture_output=True, text=True, check=False)
        want(ran.returncode == 0, f'{name}: the script is played {ran.stderr if ran.returncode else ""}')
        return ran.stderr, ran.stdout.splitlines()

    def count(self, name, lines, packets_sent):
        """The instructions of a run, which has to send so many packets."""
        told, printed = self.play(name, lines, 'valgrind', '--tool=cachegrind', '--cache-sim=no', '--cachegrind-out-file=/dev/null')
        want(len(printed) == packets_sent, f'{name}: {len(printed)} packets leave')
        return int(re.search(r'I\s+refs:\s+([\d,]+)', told)[1].replace(',', ''))


def lines_of(place, home, asked, replies, is_peer=True):
    """The lines of exchanges: each request, and the home server's reply; from strangers none of them is taken."""
    nas, server = (NAS, home) if is_peer else (STRANGER, f'{STRANGER}:1812')
    lines = []
    for now, (request, reply) in enumerate(zip(asked, replies)):
        lines += [f'A {now} {place} {nas}:5000 {request.hex()}', f'A {now} out:0 {server} {reply.hex()}']
        lines += [f'T {now} 0'] if now % 16 == 15 else []
    return lines


def access_exchanges(scripts):
    """Access-Requests and their replies. The broker draws the Request Authenticators that it forwards, so a run without replies says them."""
    asked = [access_with_password(number, b'user@a.example', SECRET, hashlib.md5(b'%d' % number).digest(), b'a password')
             for number in range(COUNT)]
    _, forwarded = scripts.play('requests alone', [f'A {now} auth {NAS}:5000 {one.hex()}' for now, one in enumerate(asked)])
    want(len(forwarded) == COUNT, f'{len(forwarded)} Access-Requests are forwarded')
    octets = [bytes.fromhex(line.split()[3]) for line in forwarded]
    return asked, [sealed_answer(2, one, HOME_SECRET, [(25, b'user@a.example')]) for one in octets]


def accounting_exchanges():
    """Accounting-Requests and their responses. What is forwarded has one Proxy-State, the ticket, and the next Identifier."""
    asked, replies = [], []
    for number in range(COUNT):
        status, session = (START, INTERIM_UPDATE, STOP)[number % 3], b'%08X-%07X' % (number // 3, 1)
        body = attribute(1, b'user@a.example') + NAMES + attribute(packets.ACCT_STATUS_TYPE, status.to_bytes(4, 'big'))
        body += attribute(packets.ACCT_SESSION_ID, session) + BEHIND
        ticket = attribute(packets.PROXY_STATE, number.to_bytes(8, 'big'))
        asked.append(signed(ACCOUNTING, number, body, SECRET))
        replies.append(answer(ACCOUNTING + 1, signed(ACCOUNTING, number, body + ticket, HOME_SECRET), HOME_SECRET))
    return asked, replies


def counted(program, folder):
    """The instructions of an exchange of each kind."""
    scripts = Scripts(program, folder)
    kinds = {'access': ('auth', HOME_AUTH, *access_exchanges(scripts)), 'accounting': ('acct', HOME_ACCT, *accounting_exchanges())}
    with concurrent.futures.ThreadPoolExecutor(len(os.sched_getaffinity(0))) as pool:
        runs = {name: [pool.submit(scripts.count, f'{name}, {who}', lines_of(*those, is_peer), 2 * COUNT if is_peer else 0)
                       for who, is_peer in (('of a peer', True), ('of strangers', False))] for name, those in kinds.items()}
    return {name: (own.result() - strangers.result()) // COUNT for name, (own, strangers) in runs.items()}


def kept():
    """The figures that are kept of the gate's program, if any are."""
    if not os.path.exists(KEPT):
        return {}
    with open(KEPT, encoding='ascii') as file:
        rows = [line.split() for line in file if line[0] != '#']
    return {name: int(figure) for name, figure in rows}


def store(figures):
    with open(KEPT, 'w', encoding='ascii') as file:
        file.write('# Instructions of an exchange by the gate\'s program: `packaging/tests/try-instructions.py crates/roam/out/roam --store`\n')
        file.writelines(f'{name} {figure}\n' for name, figure in figures.items())


def main():
    program, *more = words(__doc__, 1, 2)
    go_on()
    if not shutil.which('valgrind'):
        want(True, 'left out: no valgrind is installed')
        return end()
    with tempfile.TemporaryDirectory() as folder:
        figures = counted(program, folder)
    ratio = figures['accounting'] / figures['access']
    print(f'an Access exchange takes {figures["access"]} instructions, one of accounting {figures["accounting"]}: {ratio:.3f} times as many')
    want(ratio <= MOST * ROOM, f'{ratio:.3f} times as many, {MOST} at most, with {ROOM} of room')
    if more == ['--store']:
        store(figures)
    elif os.path.realpath(program) == os.path.realpath(GATES):
        for name, before in kept().items():
            want(figures[name] <= ROOM * before, f'{name}: {figures[name]} instructions, {figures[name] / before:.3f} times the {before} that '
                 f'are kept, {ROOM} times at most (a change that is worth more: --store)')
    return end()


if __name__ == '__main__':
    sys.exit(main())
