#!/usr/bin/env python3
"""try-diagnoses.py PROGRAM [--table]

Makes 137 mistakes in samples/visited-network.conf, one at a time, and runs `PROGRAM check` on each. The diagnosis
must name the fault, and the line, the table and the key where the mistake was made, and what is wrong with it. No
output may hold a secret of the file. --table prints a row for each.
"""

import os
import re
import sys
import tempfile

sys.dont_write_bytecode = True
from looks import be_quiet, changed, edited, end, go_on, want, words
from server import run

HERE = os.path.dirname(os.path.abspath(__file__))
SAMPLE = os.path.join(os.path.dirname(HERE), "samples", "visited-network.conf")

UNIVERSITY = 'realm "university.example"'
COLLEGE = 'realm "college.example"'
PEER = 'peer "visited-network"'


class Sample:
    """The lines of the sample. A place is a table's header, by how many of its kind came before, and a key in it."""

    def __init__(self):
        with open(SAMPLE) as file:
            self.lines = file.read().splitlines()
        for key, text in UNSAID_AT_THE_TOP.items():
            self.put(TOP, key, text)
        for nth in (0, 1):
            for key, text in UNSAID.items():
                self.put(REALM, key, text, nth)

    def header(self, header, nth=0):
        """The index of the line of the nth such header; of the document itself the first line."""
        if header is None:
            return 0
        return [i for i, line in enumerate(self.lines) if line == header][nth]

    def end(self, header, nth=0):
        """The index behind the last key of the table."""
        start = self.header(header, nth) + (header is not None)
        i = last = start
        while i < len(self.lines) and not self.lines[i].startswith("["):
            if re.match(r"\w+ = ", self.lines[i]):
                last = i + 1
            i += 1
        return last

    def key(self, header, key, nth=0):
        """The index of the line of a key."""
        start = self.header(header, nth)
        for i in range(start, self.end(header, nth)):
            if self.lines[i].startswith(key + " = "):
                return i
        raise KeyError(key)

    def put(self, header, key, value, nth=0):
        """Puts a value under a key, at its line or at the end of the table, and answers the number of the line."""
        lines = f"{key} = {value}".split("\n")
        try:
            i = self.key(header, key, nth)
            self.lines[i:i + 1] = lines
        except KeyError:
            i = self.end(header, nth)
            self.lines[i:i] = lines
        return i + 1

    def drop(self, header, key, nth=0):
        """Takes a key out, and answers the number of the table's header."""
        del self.lines[self.key(header, key, nth)]
        return self.header(header, nth) + 1 if header else 0

    def add(self, text):
        """Adds lines at the end, and answers the number of the first."""
        first = len(self.lines) + 1
        self.lines += text.splitlines()
        return first


TOP, ONE_PEER, REALM, SERVER = None, "[[peer]]", "[[realm]]", "[[realm.server]]"
# What the sample leaves to the defaults, and a mistake may be made in.
UNSAID_AT_THE_TOP = {"shards": "1", "seed": '"' + "0" * 64 + '"', "trace_limit": "50000", "trace_octets": "16777216", "spread": "true"}
UNSAID = {"tries": "3", "wait": "2000", "rest": "30000", "rest_after": "3", "hold": "10000", "max_pending": "500", "max_sessions": "2000"}
NAMES = {TOP: "", ONE_PEER: PEER + ": "}


def table(header, nth):
    """How a diagnosis names the table."""
    if header == REALM:
        return [UNIVERSITY, COLLEGE][nth] + ": "
    if header == SERVER:
        return [UNIVERSITY + ", server 1", UNIVERSITY + ", server 2", COLLEGE + ", server 1"][nth] + ": "
    return NAMES[header]


def at(number):
    """The beginning of a line about the line of that number."""
    return f"PATH:{number}: " if number else "PATH: "


def value(header, key, text, wrong, nth=0):
    """A mistake: a bad value under a key."""
    def make(sample):
        number = sample.put(header, key, text, nth)
        return "BadValue", [f"{at(number)}{table(header, nth)}{key}: {wrong}"]
    return f"{(header or 'top').strip('[]')}: {key} = {text}"[:70], make


def named(header, text, wrong, shown, nth=0):
    """A mistake: a bad name, by which the table is named too."""
    def make(sample):
        number = sample.put(header, "name", text, nth)
        return "BadValue", [f"PATH:{number}: {shown}: name: {wrong}"]
    return f"{header.strip('[]')}: name = {text}"[:70], make


def unknown(header, key, kind, nth=0):
    """A mistake: a key that the table doesn't have."""
    def make(sample):
        number = sample.put(header, key, '"x"', nth)
        return "BadValue", [f"PATH:{number}: {table(header, nth)}{key}: is no key of {kind}"]
    return f"{(header or 'top').strip('[]')}: {key}", make


def missing(header, key, nth=0):
    """A mistake: a required key that is absent."""
    def make(sample):
        number = sample.drop(header, key, nth)
        return "Missing", [f"{at(number)}{table(header, nth)}{key}: is missing"]
    return f"{(header or 'top').strip('[]')}: no {key}", make


def misspelt(header, key, other, kind, nth=0):
    """A mistake: a required key under another name."""
    def make(sample):
        i = sample.key(header, key, nth)
        sample.lines[i] = changed(sample.lines[i], key, other, 1)
        number = sample.header(header, nth) + 1 if header else 0
        return "Missing", [f'{at(number)}{table(header, nth)}{key}: is missing, and "{other}" is no key of {kind}']
    return f"{(header or 'top').strip('[]')}: {other} for {key}", make


def twice(fault, header, key, nth, first):
    """A mistake: a key has the value of another one. `first` is the header, key and count of that."""
    def make(sample):
        other_header, other_key, other_nth = first
        i = sample.key(other_header, other_key, other_nth)
        text = sample.lines[i].split(" = ", 1)[1]
        number = sample.put(header, key, text, nth)
        i = sample.key(other_header, other_key, other_nth)
        return fault, [f"PATH:{number}: {table(header, nth)}{key}: {text} is also in line {i + 1}: "
                       f"{table(other_header, other_nth)}{other_key}"]
    return f"{fault}: {(header or 'top').strip('[]')} {key} as {(first[0] or 'top').strip('[]')} {first[1]}", make


def syntax(name, header, key, text, column, nth=0, wanted=""):
    """A mistake: a line that isn't TOML; and what is wanted there."""
    def make(sample):
        i = sample.key(header, key, nth)
        sample.lines[i] = text
        return "Syntax", [(f"PATH:{i + 1}:{column}: ", wanted)]
    return f"Syntax: {name}", make


ENDPOINT = 'is no address with a port of 1..65535, as "192.0.2.1:1812" or "[2001:db8::1]:1812"'
PREFIX = 'is no address or prefix, as "192.0.2.1", "2001:db8::1" or "192.0.2.0/24", whose other bits are 0'
IPV4 = 'is no IPv4 address in decimal, as "192.0.2.1"'
IPV6 = 'is no IPv6 address, as "2001:db8::1"'
SECRET = "is not a text of 1..64 octets"
REALM_NAME = "is not 1..253 of ASCII letters, digits, . and - (patterns go to also)"
PEER_NAME = "is not 1..64 of ASCII letters, digits, . - and _"
PATTERN = "is not in an array of 0..256 texts, each a name, *. and a name, or *"

PEER_TEXT = '[[peer]]\nname = "{name}"\nip = "{ip}"\nsecret = "a secret for tests"\n'
REALM_TEXT = ('[[realm]]\nname = "r{n}.example"\nout = "203.0.113.10:{out}"\nreverse = "203.0.113.11:{out}"\ntries = 3\n'
              'wait = 2000\nhold = 1000\nmax_pending = 10\nmax_sessions = 10\n[[realm.server]]\n'
              'auth = "198.51.100.1:1812"\nacct = "198.51.100.1:1813"\nsecret = "a secret for tests"\n')
SERVER_TEXT = '[[realm.server]]\nauth = "198.51.100.3:{n}"\nacct = "198.51.100.4:{n}"\nsecret = "a secret for tests"\n'


def many_peers(sample):
    """More peers than there may be."""
    for n in range(1024):
        sample.add(PEER_TEXT.format(name=f"p{n}", ip=f"10.0.{n // 256}.{n % 256}"))
    number = sample.header(ONE_PEER) + 1
    return "BadValue", [f"PATH:{number}: peer: an array of 1025 is no array of 1..1024 tables"]


def many_realms(sample):
    """More realms than there may be."""
    number = sample.header(REALM) + 1
    for n in range(1023):
        sample.add(REALM_TEXT.format(n=n, out=21000 + n))
    return "BadValue", [f"PATH:{number}: realm: an array of 1025 is no array of 1..1024 tables"]


def one_of_many(sample):
    """A bad value in one of 256 realms."""
    for n in range(254):
        first = sample.add(REALM_TEXT.format(n=n, out=21000 + n))
        if n == 200:
            sample.lines[first + 4] = "wait = 5.0"
            number = first + 5
    return "BadValue", [f'PATH:{number}: realm "r200.example": wait: a float is not in 1..60000']


def many_servers(sample):
    """More servers than a realm may have."""
    number = sample.header(SERVER, 2) + 1
    for n in range(8):
        sample.add(SERVER_TEXT.format(n=n + 1))
    return "BadValue", [f"PATH:{number}: {COLLEGE}: server: an array of 9 is no array of 1..8 tables"]


def single_server(sample):
    """[realm.server] in place of [[realm.server]], once."""
    i = sample.header(SERVER, 2)
    sample.lines[i] = "[realm.server]"
    return "BadValue", [f"PATH:{i + 1}: {COLLEGE}: server: a table is no array of 1..8 tables: write [[realm.server]]"]


def single_server_twice(sample):
    """[realm.server] twice in a realm."""
    for i in (sample.header(SERVER, 0), sample.header(SERVER, 1)):
        sample.lines[i] = "[realm.server]"
    # The place is that of the second.
    return "Syntax", [(f"PATH:{i + 1}:", "write [[realm.server]]")]


def single_peer_twice(sample):
    """[peer] twice."""
    sample.lines[sample.header(ONE_PEER)] = "[peer]"
    number = sample.add("[peer]")
    return "Syntax", [(f"PATH:{number}:", "write [[peer]]")]


def server_beside(sample):
    """[[server]] beside the servers of the realms."""
    number = sample.add("[[server]]")
    return "BadValue", [(f"PATH:{number}: server: is no key of the top table", "write [[realm.server]]")]


CLIENT_TEXT = '[[realm.coa_client]]\nip = "198.51.100.9"\nsecret = "a secret for tests"\n'


def client_twice(sample):
    """Two coa_clients of one address in a realm."""
    first = sample.add(CLIENT_TEXT) + 1
    number = sample.add(CLIENT_TEXT) + 1
    return "DuplicateServer", [f'PATH:{number}: {COLLEGE}, coa_client 2: ip: "198.51.100.9" is also in line {first}: {COLLEGE}, coa_client 1: ip']


def client_without_secret(sample):
    """One that has no secret."""
    number = sample.add('[[realm.coa_client]]\nip = "198.51.100.9"')
    return "Missing", [f"PATH:{number}: {COLLEGE}, coa_client 1: secret: is missing"]


def no_name(sample):
    """A realm without a name."""
    del sample.lines[sample.key(REALM, "name", 1)]
    return "Missing", [f"PATH:{sample.header(REALM, 1) + 1}: realm 2: name: is missing"]


def server_above(sample):
    """[[server]] in place of [[realm.server]]."""
    for nth in (0, 0, 0):
        sample.lines[sample.header(SERVER, nth)] = "[[server]]"
    return "Missing", [f"PATH:{sample.header(REALM, 0) + 1}: {UNIVERSITY}: server: is missing",
                       f"PATH:{sample.header(REALM, 1) + 1}: {COLLEGE}: server: is missing"]


def no_server(sample):
    """A realm without servers."""
    i = sample.header(SERVER, 2)
    del sample.lines[i:]
    return "Missing", [f"PATH:{sample.header(REALM, 1) + 1}: {COLLEGE}: server: is missing"]


def no_peer(sample):
    """No peer."""
    start = sample.header(ONE_PEER)
    del sample.lines[start:sample.end(ONE_PEER)]
    return "Missing", ["PATH: peer: is missing"]


def nothing(sample):
    """An empty file."""
    sample.lines = []
    return "Missing", [f"PATH: {key}: is missing" for key in ("auth", "acct", "peer", "realm")]


def single_realm(sample):
    """[realm] in place of [[realm]]."""
    i = sample.header(REALM, 0)
    sample.lines[i] = "[realm]"
    return "Syntax", ["PATH:"]


def key_twice(sample):
    """A key twice in a table."""
    i = sample.key(REALM, "wait", 1)
    sample.lines.insert(i + 1, "wait = 3000")
    return "Syntax", [f"PATH:{i + 2}:"]


def radsecproxy(sample):
    """A file of radsecproxy."""
    sample.lines = ["ListenUDP *:1812", "client a {", "    host 192.0.2.1", "}"]
    return "Syntax", ["PATH:1:"]


def nul(sample):
    """An octet of 0."""
    i = sample.key(TOP, "shards")
    sample.lines[i] += "\0"
    return "Syntax", [f"PATH:{i + 1}:"]


def two_peers(key, text):
    """A second peer with a value of the first."""
    def make(sample):
        texts = {"name": '"second"', "ip": '"192.0.2.9"', "secret": '"a secret for tests"'}
        texts[key] = text
        first = sample.key(ONE_PEER, key) + 1
        number = sample.add("\n".join(["[[peer]]", *(f"{k} = {v}" for k, v in texts.items())]))
        number += 1 + list(texts).index(key)
        return "DuplicatePeer", [f"PATH:{number}: peer {texts['name']}: {key}: {text} is also in line {first}: "
                                 f"{PEER}: {key}"]
    return f"DuplicatePeer: {key}", make


def other_kind(sample):
    """A server of IPv6 in a realm whose socket is of IPv4."""
    number = sample.put(SERVER, "auth", '"[2001:DB8:0::1]:1812"', 1)
    return "NoWayOut", [f'{at(number)}{table(SERVER, 1)}auth: "[2001:db8::1]:1812" is IPv6, but out is IPv4']


def two_names(sample):
    """Two realms of one name, in other case."""
    first = sample.key(REALM, "name", 0) + 1
    number = sample.put(REALM, "name", '"UNIVERSITY.example"', 1)
    return "DuplicateRealm", [f'PATH:{number}: realm "UNIVERSITY.example": name: "UNIVERSITY.example" is also in '
                              f"line {first}: {UNIVERSITY}: name"]


def name_and_also(sample):
    """A realm's name among another's patterns, over several lines."""
    sample.put(REALM, "also", '["*.example", # all\n"university.EXAMPLE"]', 1)
    number = sample.key(REALM, "also", 1) + 1
    first = sample.key(REALM, "name", 0) + 1
    return "DuplicateRealm", [f'PATH:{number}: {COLLEGE}: also: "university.EXAMPLE" is also in line {first}: '
                              f"{UNIVERSITY}: name"]


def patterns(sample):
    """One pattern in two realms."""
    first = sample.put(REALM, "also", '["*.example", "*"]', 0)
    number = sample.put(REALM, "also", '["a.example", "*"]', 1)
    return "DuplicateRealm", [f'PATH:{number}: {COLLEGE}: also: "*" is also in line {first}: {UNIVERSITY}: also']


def pattern_in_itself(sample):
    """One pattern twice in a realm."""
    number = sample.put(REALM, "also", '["*.example", "*.Example"]', 0)
    return "DuplicateRealm", [f'PATH:{number}: {UNIVERSITY}: also: "*.Example" is also in line {number}: '
                              f"{UNIVERSITY}: also"]


def coa_twice(sample):
    """Two peers with one coa."""
    first = sample.key(ONE_PEER, "coa") + 1
    number = sample.add(PEER_TEXT.format(name="second", ip="192.0.2.9") + 'coa = "192.0.2.1:3799"') + 4
    return "DuplicateLink", [f'PATH:{number}: peer "second": coa: "192.0.2.1:3799" is also in line {first}: {PEER}: coa']


def coa_is_server(sample):
    """A peer's coa is a server's endpoint."""
    first = sample.put(ONE_PEER, "coa", '"198.51.100.17:1812"')
    number = sample.key(SERVER, "auth", 2) + 1
    return "DuplicateLink", [f'PATH:{number}: {COLLEGE}, server 1: auth: "198.51.100.17:1812" is also in line {first}: '
                             f"{PEER}: coa"]


def several(sample):
    """Twelve bad values: ten are said."""
    lines = []
    for header, nth, keys in ((REALM, 0, ("tries", "wait", "rest", "rest_after", "hold", "max_pending")),
                              (REALM, 1, ("tries", "wait", "rest", "rest_after", "hold", "max_pending"))):
        for key in keys:
            number = sample.put(header, key, "-1", nth)
            lines.append(f"PATH:{number}: {table(header, nth)}{key}: -1 is not in ")
    return "BadValue", lines[:10]


def escaped(sample):
    """A name with what isn't printable."""
    number = sample.put(REALM, "name", r'"a\u001b[31m\u00e9\"\\"', 1)
    shown = r'"a\u{1b}[31m\u{e9}\"\\"'
    return "BadValue", [f"PATH:{number}: realm {shown}: name: {shown} {REALM_NAME}"]


def headers_in_texts(sample):
    """Headers in a text of several lines, and in a comment, before the mistake."""
    sample.put(REALM, "wait", "0", 1)
    sample.put(REALM, "also", '[ # "]\n"b.example",\n]', 0)
    sample.put(ONE_PEER, "nas_id", '"""\n[[realm]]\nwait = 0\n"""')
    number = max(i for i, line in enumerate(sample.lines) if line == "wait = 0") + 1
    return "BadValue", [f"PATH:{number}: {COLLEGE}: wait: 0 is not in 1..60000"]


def inline_tables(sample):
    """Servers as inline tables."""
    for nth in (1, 0):
        del sample.lines[sample.header(SERVER, nth):sample.end(SERVER, nth)]
    number = sample.put(REALM, "server", '[{auth = "198.51.100.1:1812", acct = "198.51.100.1", secret = "for tests only"}]', 0)
    return "BadValue", [f'PATH:{number}: {UNIVERSITY}, server 1: acct: "198.51.100.1" {ENDPOINT}']


def marked(sample):
    """A mistake behind a byte order mark."""
    number = sample.put(TOP, "shards", "0")
    sample.lines[0] = "\ufeff" + sample.lines[0]
    return "BadValue", [f"PATH:{number}: shards: 0 is not in 1..64"]


def marked_first(sample):
    """A mistake right behind a byte order mark."""
    sample.lines = ["\ufeffshards = 0", *(line for line in sample.lines if not line.startswith("shards"))]
    return "BadValue", ["PATH:1: shards: 0 is not in 1..64"]


def carriage_returns(sample):
    """Lines that end with a carriage return and a line feed."""
    number = sample.put(REALM, "wait", "0", 1)
    sample.lines = [line + "\r" for line in sample.lines]
    return "BadValue", [f"PATH:{number}: {COLLEGE}: wait: 0 is not in 1..60000"]


def spaces(sample):
    """Headers and keys with blanks and quotation marks."""
    sample.lines = [line.replace("[[realm.server]]", ' [[ "realm" . server ]] # a server').replace("[[realm]]", "[[ realm ]]")
                    .replace("tries = ", "  'tries'\t= ") for line in sample.lines]
    number = next(i for i, line in enumerate(sample.lines) if "'tries'" in line) + 1
    sample.lines[number - 1] = "  'tries'\t= 11"
    return "BadValue", [f"PATH:{number}: {UNIVERSITY}: tries: 11 is not in 1..10"]


# Those of the review, and then others.
MISTAKES = [
    unknown(TOP, "listen", "the top table"),
    unknown(ONE_PEER, "port", "a peer"),
    misspelt(ONE_PEER, "secret", "secert", "a peer"),
    value(ONE_PEER, "secret", '""', SECRET),
    value(ONE_PEER, "secret", '"' + "s3cr3t-" * 9 + 'xx"', SECRET),
    value(TOP, "auth", '"203.0.113.10:0"', '"203.0.113.10:0" ' + ENDPOINT),
    value(TOP, "auth", '"203.0.113.10:99999"', '"203.0.113.10:99999" ' + ENDPOINT),
    value(TOP, "acct", '"203.0.113.10"', '"203.0.113.10" ' + ENDPOINT),
    ("DuplicateRealm: names in other case", two_names),
    ("NoWayOut", other_kind),
    ("realm without a server", no_server),
    ("realm without a name", no_name),
    ("no peer", no_peer),
    ("empty file", nothing),
    ("[[server]]", server_above),
    value(ONE_PEER, "ip", '"192.0.2.300"', '"192.0.2.300" ' + PREFIX),
    value(ONE_PEER, "ip", '"192.0.02.1"', '"192.0.02.1" ' + PREFIX),
    value(ONE_PEER, "ip", '"::ffff:192.0.2.1"', '"::ffff:192.0.2.1" ' + PREFIX),
    value(ONE_PEER, "ip", '"2001:db8::1/48"', '"2001:db8::1/48" ' + PREFIX + ': did you mean "2001:db8::/48"?'),
    value(ONE_PEER, "ip", '"fe80::1%eth0"', '"fe80::1%eth0" ' + PREFIX),
    value(SERVER, "auth", '"2001:db8::1:1812"', '"2001:db8::1:1812" ' + ENDPOINT, 2),
    value(SERVER, "auth", '"radius.example:1812"', '"radius.example:1812" ' + ENDPOINT + ": names aren't looked up, so write the address", 1),
    value(ONE_PEER, "ip", '"192.0.2.1/24"', '"192.0.2.1/24" ' + PREFIX + ': did you mean "192.0.2.0/24"?'),
    value(REALM, "wait", "-1", "-1 is not in 1..60000", 0),
    value(REALM, "tries", '"3"', '"3" is not in 1..10', 1),
    value(REALM, "wait", '"2s"', '"2s" is not in 1..60000', 1),
    value(REALM, "hold", "10.5", "a float is not in 0..60000", 0),
    value(REALM, "wait", "0", "0 is not in 1..60000", 1),
    value(TOP, "trace_limit", "10000000", "10000000 is not in 1..1000000"),
    value(TOP, "seed", '"' + "0" * 63 + '"', "is not a text of 64 hexadecimal digits"),
    named(REALM, '"*"', '"*" ' + REALM_NAME, 'realm "*"', 1),
    named(REALM, '"*.college.example"', '"*.college.example" ' + REALM_NAME, 'realm "*.college.example"', 1),
    named(REALM, '"my_college.example"', '"my_college.example" ' + REALM_NAME, 'realm "my_college.example"', 1),
    named(REALM, '"@college.example"', '"@college.example" ' + REALM_NAME, 'realm "@college.example"', 1),
    named(REALM, '"college.example "', '"college.example " ' + REALM_NAME, 'realm "college.example "', 1),
    ("1025 realms", many_realms),
    ("1025 peers", many_peers),
    ("nine servers", many_servers),
    two_peers("ip", '"192.0.2.1"'),
    twice("DuplicateEndpoint", REALM, "out", 1, (REALM, "out", 0)),
    twice("DuplicateEndpoint", REALM, "out", 1, (TOP, "auth", 0)),
    ("DuplicateServer: coa_client", client_twice),
    ("coa_client without a secret", client_without_secret),
    twice("DuplicateServer", SERVER, "acct", 0, (SERVER, "auth", 0)),
    ("DuplicateLink: coa is a server's", coa_is_server),
    ("[realm.server] twice", single_server_twice),
    ("[realm]", single_realm),
    syntax("unquoted address", ONE_PEER, "ip", "ip = 192.0.2.1", 6),
    ("key twice", key_twice),
    syntax("missing quote", ONE_PEER, "name", 'name = "visited-network', 24),
    syntax("yes", ONE_PEER, "require_seal", "require_seal = yes", 16),
    ("an octet of 0", nul),
    ("a radsecproxy.conf", radsecproxy),
    ("[realm.server] once", single_server),
    ("one of 256 realms", one_of_many),
    # Others.
    *(missing(TOP, key) for key in ("auth", "acct")),
    *(missing(ONE_PEER, key) for key in ("name", "ip", "secret") if key != "name"),
    missing(REALM, "out", 0),
    missing(SERVER, "secret", 2),
    unknown(TOP, "tracelimit", "the top table"),
    unknown(REALM, "max-pending", "a realm", 1),
    unknown(SERVER, "max_hops", "a server: it is one of the top table, so put it before the first table", 2),
    syntax("True", ONE_PEER, "require_seal", "require_seal = True", 16, wanted="require_seal is true or false"),
    syntax("2s", REALM, "wait", "wait = 2s", 8, 0, "wait is a whole number in 1..60000"),
    syntax("backslash", SERVER, "secret", r'secret = "a\d"', 13, 0, "a backslash is itself between"),
    ("[peer] twice", single_peer_twice),
    ("[[server]] beside others", server_beside),
    misspelt(SERVER, "secret", "password", "a server", 1),
    unknown(TOP, "max_hop", "the top table"),
    unknown(REALM, "require_seal", "a realm", 0),
    unknown(SERVER, "rest", "a server", 1),
    unknown(SERVER, "name", "a server", 2),
    value(TOP, "shards", "65", "65 is not in 1..64"),
    value(TOP, "trace_octets", "0", "0 is not in 1..1073741824"),
    value(TOP, "max_hops", "101", "101 is not in 1..100"),
    value(TOP, "max_attributes", "2001", "2001 is not in 1..2000"),
    value(TOP, "fresh", "9", "9 is not in 10..3600"),
    value(TOP, "status_server", '"yes"', '"yes" is neither true nor false'),
    value(TOP, "spread", "1", "1 is neither true nor false"),
    value(TOP, "log_station", '"md5"', '"md5" is neither "clear" nor "hmac"'),
    value(TOP, "state", '""', '"" is not a path of 1..1024 octets'),
    value(TOP, "state_every", "0", "0 is not in 1..86400"),
    value(TOP, "seed", "0", "is not a text of 64 hexadecimal digits"),
    value(TOP, "auth", "1812", "1812 " + ENDPOINT),
    value(ONE_PEER, "coa", '"192.0.2.1:03799"', '"192.0.2.1:03799" ' + ENDPOINT),
    value(ONE_PEER, "nas_ip", '""', '"" ' + IPV4),
    value(ONE_PEER, "nas_ip", '"2001:db8::1"', '"2001:db8::1" ' + IPV4),
    value(ONE_PEER, "nas_ipv6", '"192.0.2.1"', '"192.0.2.1" ' + IPV6),
    value(ONE_PEER, "nas_id", '""', '"" is not a text of 1..253 octets'),
    value(ONE_PEER, "nas_ids", '["wlc-*", ""]', '"" is not in an array of 0..1024 texts of 1..253 octets'),
    value(ONE_PEER, "nas_ids", '"wlc-*"', '"wlc-*" is not in an array of 0..1024 texts of 1..253 octets'),
    value(ONE_PEER, "require_seal", '"true"', '"true" is neither true nor false'),
    value(ONE_PEER, "secret", "1234567890", SECRET),
    value(ONE_PEER, "secret", '["an array of secrets"]', SECRET),
    named(ONE_PEER, '"visited network"', '"visited network" ' + PEER_NAME, 'peer "visited network"'),
    named(ONE_PEER, "7", "7 " + PEER_NAME, "peer 1"),
    value(REALM, "also", '"*"', '"*" ' + PATTERN, 0),
    value(REALM, "also", '["a.example", "*a"]', '"*a" ' + PATTERN, 1),
    value(REALM, "also", "[1]", "1 " + PATTERN, 1),
    value(REALM, "rest", "3600001", "3600001 is not in 0..3600000", 0),
    value(REALM, "rest_after", "0", "0 is not in 1..256", 1),
    value(REALM, "peer_share", "4097", "4097 is not in 1..4096", 0),
    value(REALM, "own_names", '"yes"', '"yes" is neither true nor false', 0),
    value(REALM, "conversations", "1", "1 is neither true nor false", 1),
    value(REALM, "own_sessions", "[]", "an array of 0 is neither true nor false", 1),
    unknown(REALM, "fresh", "a realm: it is one of the top table, so put it before the first table", 1),
    unknown(ONE_PEER, "own_sessions", "a peer"),
    value(REALM, "hold", "60001", "60001 is not in 0..60000", 1),
    value(REALM, "max_pending", "4097", "4097 is not in 1..4096", 0),
    value(REALM, "max_sessions", "65537", "65537 is not in 0..65536", 0),
    value(REALM, "reverse", "[]", "an array of 0 " + ENDPOINT, 0),
    value(REALM, "out", "2026-01-01", "a datetime " + ENDPOINT, 1),
    value(SERVER, "secret", '"' + "s3cr3t-" * 10 + '"', SECRET, 1),
    value(SERVER, "require_seal", "0", "0 is neither true nor false", 0),
    value(SERVER, "acct", '"198.51.100.1:1813 "', '"198.51.100.1:1813 " ' + ENDPOINT, 0),
    two_peers("name", '"visited-network"'),
    two_peers("nas_id", '"visited-network"'),
    twice("DuplicateEndpoint", TOP, "acct", 0, (TOP, "auth", 0)),
    twice("DuplicateEndpoint", REALM, "reverse", 1, (REALM, "reverse", 0)),
    twice("DuplicateEndpoint", REALM, "reverse", 0, (REALM, "out", 0)),
    ("DuplicateServer: coa_client", client_twice),
    ("coa_client without a secret", client_without_secret),
    twice("DuplicateServer", SERVER, "auth", 1, (SERVER, "auth", 0)),
    ("DuplicateRealm: also", name_and_also),
    ("DuplicateRealm: *", patterns),
    ("DuplicateRealm: in itself", pattern_in_itself),
    ("DuplicateLink: coa", coa_twice),
    ("twelve bad values", several),
    ("not printable", escaped),
    ("headers in texts", headers_in_texts),
    ("inline tables", inline_tables),
    ("blanks and quotation marks", spaces),
    ("byte order mark", marked),
    ("byte order mark, first key", marked_first),
    ("carriage returns", carriage_returns),
]

SECRETS = ("change me", "letters and digits", "s3cr3t", "for tests", "1234567890", "array of secrets")


def faults_of(told, path, fault, wanted):
    """What is wrong with what a check told."""
    lines = told.splitlines()
    if not lines or lines[0] != f"roam: {path}: {fault}":
        return [f"first line isn't {fault}"]
    found = [line for line in lines[1:] if re.fullmatch(r"[ -~]+", line) and line.startswith(path + ":")]
    pairs = [line if isinstance(line, tuple) else (line, "") for line in wanted]
    pairs = [(begin.replace("PATH:", path + ":", 1), held) for begin, held in pairs]
    faults = [f"no line {begin!r} with {held!r}" for begin, held in pairs
              if not any(line.startswith(begin) and held in line for line in found)]
    if len(found) != len(lines) - 1 or len(found) > 10:
        faults.append("lines of another form, or too many")
    if len(found) != len(wanted):
        faults.append(f"{len(found)} lines, and not {len(wanted)}")
    faults += [f"holds {secret!r}" for secret in SECRETS if secret in told]
    return faults


def main():
    program, *more = words(__doc__, 1, 2)
    go_on()
    be_quiet()
    with tempfile.TemporaryDirectory() as directory:
        path = os.path.join(directory, "roam.conf")
        for name, make in MISTAKES:
            sample = Sample()
            fault, wanted = make(sample)
            lines = edited(Sample().lines, sample.lines, name)
            with open(path, "w", newline="\n") as file:
                file.write("".join(line + "\n" for line in lines))
            status, printed, told = run(program, "check", path)
            faults = faults_of(told, path, fault, wanted) + ([] if (status, printed) == (1, "") else [f"status {status}, output {printed!r}"])
            if more == ["--table"]:
                print(f"| {name} | {fault} | {' / '.join(line.strip() for line in told.splitlines()[1:])} |")
            want(not faults, f"{name}: {'; '.join(faults)}\n{told}")
    return end(f"{len(MISTAKES)} mistakes have the diagnosis that is wanted")


if __name__ == "__main__":
    sys.exit(main())
