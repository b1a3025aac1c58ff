#!/usr/bin/env python3
"""f-ticks.py --country CC [--institution NAME] [--station FORM] [--key FILE] [--cursor FILE [--follow] ..] [FEDERATION]

Reads the log of `roam serve` from standard input, or with `--cursor` from the journal, and prints an F-Ticks line for each
Access-Request that was accepted or rejected (https://tools.ietf.org/html/draft-johansson-fticks-00):

    F-TICKS/eduroam/1.0#REALM=b.example#VISCOUNTRY=SE#VISINST=nas1#CSI=..#RESULT=OK#

REALM is what follows the last `@` of the User-Name, or else the realm that was asked; VISINST the peer that asked, behind
`NAME-` where `--institution` is given. FEDERATION is `eduroam` where it isn't given. Other lines are passed over.

CSI is the Calling-Station-Id, in one of radsecproxy's forms (its option FTicksMAC). Of a MAC address the 12 hexadecimal digits
are hashed, in small letters, whatever stands between and behind them; of anything else the value as it is.

    FullyKeyHashed    HMAC-SHA-256 with the key in FILE: where no form is given
    VendorKeyHashed   the three octets of its vendor, as `02-00-00-`, and the first 54 digits of that hash; of what is no MAC
                      address the hash alone
    FullyHashed, VendorHashed   the same by SHA-256 without a key. All MAC addresses are soon tried: who has the hash has it
    Static            `undisclosed`
    Original          the value as it is

Of a station that the log has by its hash (`log_station`) it is that hash, but for Static; of a hidden one there is no CSI.

The key should have 32 octets or more, and be changed from time to time: who has it finds the stations again.

With `--cursor FILE` it has `journalctl` read the journal of the unit `roam` (`--unit`, `--namespace`, `--directory` are
journalctl's), from where FILE says that it ended last; where there is no such file from the beginning, or from `--since`. It
ends where the journal does, or waits there for more with `--follow`. FILE is written when a line has been printed, so that
after a loss of power one line may come again, and none is left out that the journal still has. Who runs it must be able to read
the journal (the group `systemd-journal`), and to write the folder of FILE.

    f-ticks.py --country SE --key /etc/roam/f-ticks.key --cursor /var/lib/f-ticks/cursor --follow | logger -t f-ticks
"""
import argparse
import hashlib
import hmac
import json
import os
import re
import signal
import subprocess
import sys

# What a user chose stands between quotation marks alone: before the first one there is none of it. So the line's own words
# are looked for there, and whatever a User-Name says is read as a value.
LINE = re.compile(r'(?:[^"]*INFO )?exchange result=(accept|reject) request=access (.*)')
PAIR = re.compile(r'(\w+)=(?:"((?:[^"\\]|\\x[0-9a-f]{2})*)"|([^\s"]+))(?:\s+|$)')
MAC = re.compile(rb'[0-9A-Fa-f]{2}(?:[-:.]?[0-9A-Fa-f]{2}){5}(?![0-9A-Fa-f])')
FORMS = ['FullyKeyHashed', 'VendorKeyHashed', 'FullyHashed', 'VendorHashed', 'Static', 'Original']
# How many digits of the hash stand behind the vendor's octets.
DIGITS = 54


def octets(text):
    """Returns the octets of a value between quotation marks."""
    return re.sub(rb'\\x([0-9a-f]{2})', lambda m: bytes([int(m[1], 16)]), text.encode())


def pairs(text):
    """Returns the keys of a line and their values: octets, or None where there is a hyphen. None where it isn't such a line. A station by
    its hash has a key of its own, and a hidden one isn't there: neither stands between quotation marks."""
    found, place = {}, 0
    while place < len(text):
        pair = PAIR.match(text, place)
        if not pair:
            return None
        key, quoted, bare = pair.groups()
        if key == 'station' and bare:
            key, bare = 'hash', bare[5:] if bare.startswith('hmac:') else '-'
        found[key] = octets(quoted) if bare is None else None if bare == '-' else bare.encode()
        place = pair.end()
    return found


def mac_of(value):
    """Returns the 12 hexadecimal digits of a MAC address, in small letters; None where the value is none."""
    found = MAC.match(value)
    return re.sub(rb'[^0-9a-f]', b'', found[0].lower()) if found else None


def station(value, form, key):
    """Returns a Calling-Station-Id in this form."""
    if form == 'Static':
        return 'undisclosed'
    if form == 'Original':
        return plain(value)
    mac = mac_of(value)
    hashed = mac or value
    has_key = form in ('FullyKeyHashed', 'VendorKeyHashed')
    digits = hmac.new(key, hashed, hashlib.sha256).hexdigest() if has_key else hashlib.sha256(hashed).hexdigest()
    if mac and form in ('VendorKeyHashed', 'VendorHashed'):
        vendor = mac[:6].decode().upper()
        return f'{vendor[:2]}-{vendor[2:4]}-{vendor[4:]}-{digits[:DIGITS]}'
    return digits


def csi(said, form, key):
    """Returns what a line says of its station, in this form; its hash as it is."""
    return plain(said['hash']) if said.get('hash') and form != 'Static' else station(said.get('station'), form, key)


def plain(value):
    """Returns text that no octet of a value can break: neither a number sign nor an equals sign stands in it."""
    return re.sub(r'[^A-Za-z0-9.:@_-]', '_', value.decode('ascii', 'replace'))


def tick(line, options, key):
    found = LINE.match(line)
    said = pairs(found[2]) if found else None
    if not said:
        return None
    user = said.get('user') or b''
    realm = user.rpartition(b'@')[2] if b'@' in user else said.get('realm') or b''
    visited = plain(said.get('peer') or b'')
    if options.institution:
        visited = plain(options.institution.encode()) + '-' + visited
    fields = ['REALM=' + plain(realm).lower(), 'VISCOUNTRY=' + plain(options.country.encode()), 'VISINST=' + visited]
    if said.get('station') or said.get('hash'):
        fields.append('CSI=' + csi(said, options.station, key))
    fields.append('RESULT=' + ('OK' if found[1] == 'accept' else 'FAIL'))
    return f'F-TICKS/{plain(options.federation.encode())}/1.0#' + '#'.join(fields) + '#'


def print_ticks(lines, options, key):
    """Prints an F-Ticks line of each line that has one. Each comes with what is to be done behind it."""
    for line, done in lines:
        one = tick(line, options, key)
        if one:
            print(one, flush=True)
        done(bool(one))


class Cursor:
    """Where the journal was read last: a file, which is there whole or as it was before."""

    def __init__(self, path):
        self.path = path
        self.place = self.kept = None
        if os.path.exists(path):
            with open(path, encoding='ascii') as file:
                self.place = self.kept = file.read().strip()
            if not self.place:
                sys.exit(f'f-ticks.py: {path}: no cursor stands in it')

    def keep(self):
        if self.place == self.kept:
            return
        with open(f'{self.path}.new', 'w', encoding='ascii') as file:
            file.write(f'{self.place}\n')
        os.replace(f'{self.path}.new', self.path)
        self.kept = self.place


def command(options, cursor):
    """Returns what reads the journal from the cursor on, its own entry first where that is still there. (Where it is gone, --after-cursor
    leaves out the next one.)"""
    words = ['journalctl', '--output=json', '--all', '--no-pager', '--quiet', f'--unit={options.unit}']
    for name, value in [('namespace', options.namespace), ('directory', options.directory)]:
        words += [f'--{name}={value}'] if value else []
    if cursor.place:
        words.append(f'--cursor={cursor.place}')
    elif options.since:
        words.append(f'--since={options.since}')
    return words + (['--follow', '--no-tail'] if options.follow else [])


def journal(stream, cursor):
    """Returns the messages of the journal behind the cursor, and what keeps where each stood: at once where it made a line, else at the
    end. An entry that isn't whole is none."""
    for entry in stream:
        if not entry.endswith(b'\n'):
            return
        said = json.loads(entry)
        if said['__CURSOR'] == cursor.place:
            continue
        message = said.get('MESSAGE') or ''
        message = bytes(message).decode('ascii', 'replace') if isinstance(message, list) else message

        def done(is_printed, place=said['__CURSOR']):
            cursor.place = place
            if is_printed:
                cursor.keep()
        yield message, done


def print_journal(options, key):
    """Prints the journal's F-Ticks lines behind the cursor. Answers a status: that of what reads it, where it ended by itself."""
    cursor = Cursor(options.cursor)
    asked = []
    with subprocess.Popen(command(options, cursor), stdout=subprocess.PIPE) as reader:
        def end(number, _frame):
            asked.append(number)
            reader.terminate()
        for number in (signal.SIGTERM, signal.SIGINT):
            signal.signal(number, end)
        try:
            print_ticks(journal(reader.stdout, cursor), options, key)
        except OSError:
            reader.terminate()
            raise
        cursor.keep()
    return 0 if asked else abs(reader.returncode)


def read_key(path):
    with open(path, 'rb') as file:
        key = file.read().strip()
    if len(key) < 16:
        sys.exit('f-ticks.py: the key has fewer than 16 octets')
    return key


def main():
    parser = argparse.ArgumentParser(description=__doc__, usage=argparse.SUPPRESS,
                                     formatter_class=argparse.RawDescriptionHelpFormatter)
    parser.add_argument('--country', required=True)
    parser.add_argument('--institution', default='')
    parser.add_argument('--station', choices=FORMS, default=FORMS[0], help='the form of CSI')
    parser.add_argument('--key', help='a file with the key of the hash')
    parser.add_argument('--cursor', help='a file that says where the journal was read last')
    parser.add_argument('--follow', action='store_true', help='wait for more of the journal')
    parser.add_argument('--since', help='where the journal is read from without such a file')
    parser.add_argument('--unit', default='roam')
    parser.add_argument('--namespace')
    parser.add_argument('--directory')
    parser.add_argument('federation', nargs='?', default='eduroam')
    options = parser.parse_args()
    if 'KeyHashed' in options.station and not options.key:
        parser.error(f'--station {options.station} wants a --key')
    key = read_key(options.key) if options.key else b''
    try:
        if options.cursor:
            return print_journal(options, key)
        print_ticks(((line, lambda _is_printed: None) for line in sys.stdin), options, key)
    except BrokenPipeError:
        # Nobody takes the lines any more: what is flushed when Python ends goes nowhere.
        os.dup2(os.open(os.devnull, os.O_WRONLY), sys.stdout.fileno())
        return 1
    return 0


if __name__ == '__main__':
    sys.exit(main())
