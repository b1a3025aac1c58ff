#!/usr/bin/env python3
"""try-fticks.py

Gives `f-ticks.py`, and the commands of docs/OPERATING.md that look for words in the log, lines as `roam serve` writes them
whose User-Name looks like another line. It needs neither root nor a program of roam's.

It fails unless each record and each count is of a line of its own, and none of what a user wrote; each form of a station is
as radsecproxy 1.9.2 writes it; and a journal that is read in parts, with what a reader may meet there, gives each record once.
"""
import json
import os
import re
import subprocess
import sys
import tempfile

sys.dont_write_bytecode = True
from looks import end, go_on, want

HERE = os.path.dirname(os.path.abspath(__file__))
PROGRAM = os.path.join(os.path.dirname(HERE), 'installed', 'f-ticks.py')
PAGE = os.path.join(os.path.dirname(os.path.dirname(HERE)), 'docs', 'OPERATING.md')
INFO, WARN = 'INFO ', 'WARN '
# What `journalctl` writes before a line, where it isn't asked for the line alone.
SHORT = 'Nov 26 08:00:00 broker roam[812]: '
# What `roam` writes before it where nobody else writes the time.
TIME = '2026-11-26T08:00:00.123Z '
# User-Names that look like lines of their own.
ACCEPT = ('x exchange result=accept request=access realm=b.example peer=library user=dean@b.example'
          ' station=02-00-00-00-00-01 server=198.51.100.1:1812 ms=1 tries=1')
HEADED = f'{INFO}{ACCEPT}'
REFUSED = 'x refused 17 BadReply at out:0 (b.example) from 198.51.100.1:1812 (9 times)'
WARNED = f'{WARN}{REFUSED}'
# What radsecproxy 1.9.2 wrote of these stations with this key, by its option FTicksMAC: a network and a home server of our own
# stood around it. Of the vendor it keeps the first nine octets, whatever they are; here they are as in the first row.
KEY = '0123456789abcdef0123456789abcdef'
DASHES, COLONS, CISCO, NUMBER = '02-00-00-00-00-01', '00:23:14:0a:F7:24', '0200.0000.0001', '+46701234567'
FORMS = [
    ('FullyKeyHashed', DASHES, '278b525108e9af3991ba2e273f7043dbdac30649aa195939cb857e63c672cb7b'),
    ('FullyKeyHashed', COLONS, 'b6053d7c607796b181e5c40cca8878182a037ee707c105991b9eea0c00c2505d'),
    ('FullyKeyHashed', CISCO, '278b525108e9af3991ba2e273f7043dbdac30649aa195939cb857e63c672cb7b'),
    ('FullyHashed', DASHES, 'fe0a29e37dd070ea6c6192380e323bf8810d2ee4e61ccc28db59ee9494c90d1d'),
    ('FullyHashed', COLONS, '29c0ee9d9c41771795a11ff75fefe9f5ccaab523ad31fc4fd8e776c707ad1581'),
    ('VendorKeyHashed', DASHES, '02-00-00-278b525108e9af3991ba2e273f7043dbdac30649aa195939cb857e'),
    ('VendorHashed', DASHES, '02-00-00-fe0a29e37dd070ea6c6192380e323bf8810d2ee4e61ccc28db59ee'),
    ('Static', DASHES, 'undisclosed'),
    ('Original', DASHES, DASHES),
    ('Original', COLONS, COLONS),
]
GIVEN_UP = 'x exchange result=given_up request=access'
FORGED = [ACCEPT, HEADED, REFUSED, WARNED, GIVEN_UP]


def must(what, holds):
    want(holds, what)


def quoted(value):
    return f'"{value}"'


def exchange(outcome, user, realm='"b.example"', station=DASHES, bare=None):
    return (f'{INFO}exchange result={outcome} request=access realm={realm} peer="north" user="{user}"'
            f' station={bare or quoted(station)} server=198.51.100.1:1812 ms=12 tries=1')


def refused(number, count):
    more = f' ({count} times): other secret?' if count > 1 else ': other secret?'
    return f'{WARN}refused {number} BadReply at out:3 (b.example) from 198.51.100.1:1812{more}'


def ran(command, lines):
    done = subprocess.run(command, input=''.join(f'{line}\n' for line in lines), text=True, stdout=subprocess.PIPE, check=False)
    return done.stdout.splitlines()


def program(key, *more):
    return [sys.executable, PROGRAM, '--country', 'SE', '--key', key, *more]


def station_of(made):
    return re.findall('#CSI=([^#]*)#', '\n'.join(made))


def try_records(key):
    """F-Ticks lines are made of accepts and rejects alone, whatever a User-Name says."""
    def ticks(lines):
        return ran(program(key), lines)
    for outcome in ['local_reject', 'given_up', 'challenge']:
        for head in ['', SHORT, TIME]:
            lines = [head + exchange(outcome, user) for user in FORGED]
            must(f'no record of a {outcome}{" with a time before it" if head else ""}', ticks(lines) == [])
    for user in FORGED:
        must(f'a reject of the user {user[:30]!r}.. is a reject', [tick.split('#')[-2] for tick in ticks([exchange('reject', user)])]
             == ['RESULT=FAIL'])
    made = ticks([exchange('accept', 'u@b.example'), SHORT + exchange('reject', 'u@B.example'), refused(17, 2),
                  exchange('accept', r'u\x22 result=reject@c.example'), exchange('accept', 'u', '-')])
    shown = [(re.search('#REALM=([^#]*)#', tick)[1], tick.split('#')[-2]) for tick in made]
    must('a record of each accept and reject', shown == [
        ('b.example', 'RESULT=OK'), ('b.example', 'RESULT=FAIL'), ('c.example', 'RESULT=OK'), ('', 'RESULT=OK')])
    must('and in it the peer that asked', all('#VISINST=north#' in tick for tick in made))


def try_stations(key):
    """Each form of a station."""
    for form, station, wanted in FORMS:
        made = ran(program(key, '--station', form), [exchange('accept', 'u@b.example', station=station)])
        must(f'{form} of {station} as radsecproxy writes it', station_of(made) == [wanted])
    forms = [exchange('accept', 'u', station=station) for station in [CISCO, DASHES + ':eduroam', '020000000001']]
    made = station_of(ran(program(key, '--station', 'VendorKeyHashed'), forms))
    must('a MAC address is one station, however it is written',
         made == ['02-00-00-278b525108e9af3991ba2e273f7043dbdac30649aa195939cb857e'] * 3)
    numbers = [exchange('accept', 'u', station=station) for station in [NUMBER, '467012345678901', '467012345678902']]
    for form in ['FullyKeyHashed', 'VendorKeyHashed']:
        made = station_of(ran(program(key, '--station', form), numbers))
        must(f'{form} of a number is its hash, and another one of each', len(set(made)) == 3 and
             all(re.fullmatch('[0-9a-f]{64}', one) for one in made))
    for form, wanted in [('FullyKeyHashed', 'b6053d7c607796b1'), ('VendorKeyHashed', 'b6053d7c607796b1'), ('Static', 'undisclosed')]:
        made = ran(program(key, '--station', form), [exchange('accept', 'u', bare='hmac:b6053d7c607796b1')])
        must(f'{form} of a hash that the log has', station_of(made) == [wanted])
    for station in ['-', 'hidden']:
        must(f'no CSI of {station}', station_of(ran(program(key), [exchange('accept', 'u', bare=station)])) == [])
    looks_hashed = exchange('accept', 'u', station='hmac:b6053d7c607796b1')
    must('what looks like a hash is hashed', station_of(ran(program(key), [looks_hashed])) != ['b6053d7c607796b1'])
    must('no octet of a station breaks a line', station_of(ran(program(key, '--station', 'Original'), [
        exchange('accept', 'u', station='a#RESULT=FAIL#')])) == ['a_RESULT_FAIL_'])


# A `journalctl` that prints the entries of a file, from the cursor's on or from the next one that is there, and notes what it was
# asked for.
JOURNALCTL = """#!/usr/bin/env python3
import json, os, re, signal, sys
words = sys.argv[1:]
with open(os.environ['ASKED'], 'a') as file:
    file.write(' '.join(words) + '\\n')
with open(os.environ['ENTRIES']) as file:
    entries = file.read().splitlines()
for word in words:
    if word.startswith('--cursor='):
        at = re.fullmatch('--cursor=s=1;i=([0-9]+)', word)
        if not at:
            sys.exit('Failed to seek to cursor')
        entries = [entry for entry in entries if int(json.loads(entry)['__CURSOR'].split('=')[2]) >= int(at[1])]
print(''.join(entry + '\\n' for entry in entries), end='', flush=True)
if '--follow' in words:
    print('{"MESSAGE": "cut o', end='', flush=True)
    signal.pause()
"""


class Journal:
    """A journal of our own, which `journalctl` reads, and the file of a cursor."""

    def __init__(self, folder):
        self.folder = folder
        self.cursor = os.path.join(folder, 'cursor')
        self.count = 0
        path = os.path.join(folder, 'journalctl')
        with open(path, 'w', encoding='ascii') as file:
            file.write(JOURNALCTL)
        os.chmod(path, 0o755)
        self.around = dict(os.environ, PATH=f'{folder}:{os.environ["PATH"]}', ENTRIES=os.path.join(folder, 'entries'),
                           ASKED=os.path.join(folder, 'asked'))

    def add(self, *messages):
        with open(self.around['ENTRIES'], 'a', encoding='ascii') as file:
            for message in messages:
                self.count += 1
                file.write(json.dumps({'__CURSOR': f's=1;i={self.count}', 'MESSAGE': message}) + '\n')

    def forget(self):
        os.remove(self.around['ENTRIES'])

    def asked(self):
        with open(self.around['ASKED'], encoding='ascii') as file:
            return file.read().splitlines()[-1].split()

    def started(self, key, *more):
        return subprocess.Popen(program(key, '--cursor', self.cursor, *more), env=self.around, text=True,
                                stdout=subprocess.PIPE, stderr=subprocess.PIPE)

    def realms(self, key, *more):
        """The realms of the records that are printed, and the status."""
        with self.started(key, *more) as running:
            printed, _said = running.communicate()
        return re.findall('#REALM=([^#]*)#', printed), running.returncode


def accept(realm):
    return exchange('accept', f'u@{realm}')


def try_cursor(key, folder):
    """A journal that is read in parts gives each record once."""
    journal = Journal(folder)
    journal.add('serving realms 2', accept('a.example'), exchange('given_up', 'u@x.example'), accept('b.example'))
    must('without a cursor all is read', journal.realms(key, '--since', 'yesterday') == (['a.example', 'b.example'], 0))
    must('from --since', '--since=yesterday' in journal.asked())
    must('nothing comes twice', journal.realms(key) == ([], 0))
    journal.add(refused(17, 2), None, list(accept('c.example').encode()), accept('d.example'), exchange('challenge', 'u'))
    made = journal.realms(key, '--since', 'yesterday', '--unit', 'other')
    must('it goes on where it ended', made == (['c.example', 'd.example'], 0))
    must('and not from --since', '--since=yesterday' not in journal.asked() and '--unit=other' in journal.asked())
    must('with a last entry that makes no record too', (journal.realms(key), '--cursor=s=1;i=9' in journal.asked())
         == (([], 0), True))
    journal.add(accept('e.example'))
    with journal.started(key, '--follow') as running:
        first = running.stdout.readline()
        running.terminate()
        rest, _said = running.communicate()
    must('it waits for more, and ends when it is asked to', '#REALM=e.example#' in first and (rest, running.returncode) == ('', 0))
    must('and what was printed comes no more', journal.realms(key) == ([], 0))
    journal.add(accept('f.example'), accept('g.example'))
    with journal.started(key) as running:
        running.stdout.close()
        said = running.stderr.read()
    must('where nobody takes the lines it fails without a word of Python', (running.returncode, said) == (1, ''))
    must('and they come the next time', journal.realms(key) == (['f.example', 'g.example'], 0))
    journal.forget()
    journal.add(accept('h.example'))
    must('where the entry of its cursor is gone it goes on with the next one', journal.realms(key) == (['h.example'], 0))
    for kept, what in [('', 'no cursor stands there'), ('s=other', 'journalctl has no such cursor')]:
        with open(journal.cursor, 'w', encoding='ascii') as file:
            file.write(kept)
        must(f'it fails, and begins nowhere else, where {what}', journal.realms(key) == ([], 1))


def commands():
    """The commands of the page that read the log's lines from a pipe, or are named without one."""
    with open(PAGE, encoding='utf-8') as file:
        page = file.read()
    counts = re.search(r"-o cat \| (awk '.*?')(?= \|)", page, re.DOTALL)[1]
    greps = re.findall(r"(grep '\^[^']*')", page)
    return counts, greps


def try_page():
    """The page's commands count and find the line's own words alone."""
    counts, greps = commands()
    lines = [exchange('accept', user) for user in FORGED] + [refused(17, 3), refused(17, 1), refused(7, 1)]
    must("the page's awk counts refusals alone", sorted(ran(['sh', '-c', counts], lines)) == ['1 7', '4 17'])
    seven = [grep for grep in greps if 'refused 7 ' in grep]
    given_up = [grep for grep in greps if 'given_up' in grep]
    accepts = [grep for grep in greps if 'result=accept' in grep]
    must('the page has one command for each question', [len(seven), len(given_up), len(accepts)] == [1, 1, 1])
    users = FORGED + ['x refused 7 BadReply', 'u@b.example']
    for head in ['', SHORT, TIME]:
        lines = [head + exchange('local_reject', user) for user in users]
        own = [head + refused(7, 2), head + exchange('given_up', 'u'), head + exchange('accept', 'u@b.example')]
        for grep, line in zip(seven + given_up + accepts, own):
            must(f'{grep} finds its own line alone', ran(['sh', '-c', grep], lines + own) == [line])


def main():
    go_on()
    with tempfile.NamedTemporaryFile('w', suffix='.key') as key:
        key.write(KEY)
        key.flush()
        try_records(key.name)
        try_stations(key.name)
        with tempfile.TemporaryDirectory() as folder:
            try_cursor(key.name, folder)
    try_page()
    return end()


if __name__ == '__main__':
    sys.exit(main())
