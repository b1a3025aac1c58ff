#!/usr/bin/env python3
"""try-configurations.py PROGRAM

Runs `PROGRAM check` on each document of configuration_rows.py: it must accept it, or refuse it with the fault that stands there. What
`PROGRAM check --all` prints of an accepted one must state each value of the document, as Python's own reader of TOML finds them.
`PROGRAM sim` tells which realm a name means, by requests that it forwards, which access server a NAS-Identifier, and which peer is at an
address, by whose secret a request from there is taken.
"""
import concurrent.futures
import importlib
import os
import re
import sys
import tempfile
import tomllib

sys.dont_write_bytecode = True
import configuration_rows as rows
from looks import be_quiet, changed, end, want, words
from radius import accounting, attribute, signed
from server import peer, run, table

statements = importlib.import_module("try-statements")
KEYS = statements.keys_of_page()
PEER_SECRET, HOME_SECRET = b"xyzzy5461", b"h1"
# Where the two peers of the rows take reverse requests.
TARGETS = ["192.0.2.1:3799", "192.0.2.2:3799"]


class Trial:
    """The program, and a folder for what it reads."""

    def __init__(self, program, folder):
        self.program, self.folder, self.count = program, folder, 0

    def path(self, text):
        self.count += 1
        path = os.path.join(self.folder, f"{self.count}.conf")
        with open(path, "w", encoding="utf-8") as file:
            file.write(text)
        return path

    def run(self, *words):
        return run(self.program, *words)


def of_row(text, old, new):
    """A document with one change; where both texts of a row are equal, as it stands."""
    return text if old == new else changed(text, old, new, 1)


def server(realm, number):
    at = f"10.{realm // 256}.{realm % 256}.{number}"
    return table("realm.server", auth=f"{at}:1812", acct=f"{at}:1813", secret="h")


def of_counts(peers, realms, servers):
    """A document of so many peers and realms, each realm with so many servers of its own."""
    text = rows.TOP
    for n in range(peers):
        at = f"192.0.{n // 256}.{n % 256}"
        text += peer(f"nas{n}", at, "s", coa=f"{at}:3799", nas_ip=at, nas_id=f"nas{n}")
    for n in range(realms):
        at = f"127.1.{n // 256}.{n % 256}"
        text += changed(changed(rows.REALM, "a.example", f"r{n}.example"), "127.0.0.1", at)
        text += "".join(server(n, number) for number in range(servers))
    return text


def with_patterns(first, second, top=""):
    """Two realms, `a.example` and `b.example`, with lines of patterns."""
    return "".join([top, rows.TOP, rows.PEER, rows.REALM, first, rows.SERVER, rows.SECOND_REALM, second, rows.SERVER])


def of_lists():
    """The lists of attributes to remove, in a peer and in a realm, and the fault."""
    for text, of_requests, of_replies in [*rows.REMOVED, (str(["31"] * 64), True, True), (str(["31"] * 65), False, False)]:
        for key, is_good in (("request_without", of_requests), ("reply_without", of_replies)):
            for before in ("nas_id", "tries"):
                yield changed("".join(rows.SAMPLE), before, f"{key} = {text}\n{before}", 1), None if is_good else "BadValue"


def of_pattern_lengths():
    """256 and 257 patterns, and names of 253 and 254 octets in them."""
    many = ["[" + ", ".join(f'"n{n}"' for n in range(count)) + "]" for count in (256, 257)]
    long = [f'["{front}{"x" * count}"]' for front in ("", "*.") for count in (253, 254)]
    for number, text in enumerate(many + long):
        yield changed("".join(rows.SAMPLE), "tries = 2", f"tries = 2\nalso = {text}", 1), [None, "BadValue"][number % 2]


def documents():
    """Each document, and its fault."""
    for old, new, fault in rows.CHANGES:
        yield of_row("".join(rows.SAMPLE), old, new), fault
    for parts, old, new, fault in rows.DOCUMENTS:
        yield of_row("".join(parts), old, new), fault
    for first, second, fault in rows.PATTERNS:
        yield with_patterns(first, second), fault
    for old, front, count, fault in rows.LENGTHS:
        yield changed("".join(rows.SAMPLE), old, front + "x" * count, 1), fault
    for peers, realms, servers, fault in rows.COUNTS:
        yield of_counts(peers, realms, servers), fault
    yield from of_lists()
    yield from of_pattern_lengths()
    for parts in [*rows.WHOLE, rows.LEAST, rows.LEAST_WITH_REVERSE]:
        yield "".join(parts), None


def given(text):
    """What a document states, as it is printed: a seed in small letters, no list of no tables, and no balance by order."""
    table = tomllib.loads(text)
    if "seed" in table:
        table["seed"] = table["seed"].lower()
    for realm in table["realm"]:
        if realm.get("coa_client") == []:
            del realm["coa_client"]
        if realm.get("balance") == "order":
            del realm["balance"]
    return table


def look_at(trial, path, text, fault):
    status, printed, said = trial.run("check", path)
    told = re.match(r"roam: (.*): (\w+)\n", said)
    if fault is not None:
        found = told[2] if told and told[1] == path else said
        want((status, printed, found) == (1, "", fault), f"not {fault}, but {status} {printed}{said}of:\n{text[:2000]}")
        return
    want(status == 0 and printed.startswith("ok "), f"{status} {printed}{said}of:\n{text[:2000]}")
    status, stated, said = trial.run("check", "--all", path)
    want((status, said) == (0, ""), f"check --all ends with {status}: {said}")
    statements.look_at_table(given(text), tomllib.loads(stated), "top", KEYS, path)


def look_at_numbers(trial):
    """What counts where a number isn't written."""
    for parts, sessions in ((rows.LEAST, 0), (rows.LEAST_WITH_REVERSE, 20000)):
        stated = tomllib.loads(trial.run("check", "--all", trial.path("".join(parts)))[1])
        realm = stated["realm"][0]
        want({key: stated[key] for key in rows.NUMBERS_AT_TOP} == rows.NUMBERS_AT_TOP, f"defaults at the top: {stated}")
        want({key: realm[key] for key in rows.NUMBERS_OF_REALM} == rows.NUMBERS_OF_REALM, f"defaults of a realm: {realm}")
        want(realm["max_sessions"] == sessions, f"max_sessions is {realm['max_sessions']}, not {sessions}")


def simulated(trial, text, lines):
    """The packets of a script: the realm, the place, where each goes, and its octets."""
    script = trial.path("\n".join(lines))
    status, printed, said = trial.run("sim", trial.path(text), script)
    want((status, said) == (0, ""), f"sim ends with {status}: {said}")
    return [line.split(" ") for line in printed.splitlines()]


def look_at_names(trial, text, names):
    """Each name means its realm: an Accounting-Request of it is forwarded for that, or for none."""
    lines = []
    for number, (name, _) in enumerate(names):
        lines.append(f"A {number} acct 192.0.2.1:5000 {accounting(number, b'u@' + name.encode(), b'%d' % number, PEER_SECRET).hex()}")
    found = {}
    for realm, place, _, octets in simulated(trial, text, lines):
        sent = bytes.fromhex(octets)[20:]
        want(place == f"out:{realm}" and sent[0] == 1, f"sim sends {place} {octets}")
        found[sent[2:sent[1]]] = int(realm)
    wanted = {b"u@" + name.encode(): realm for name, realm in names if realm is not None}
    want(found == wanted, f"names mean {found}, not {wanted}")


def look_at_access_servers(trial, parts, names):
    """Each NAS-Identifier means its peer: a CoA-Request is forwarded to that, or answered by a NAK."""
    for name, peer in names:
        attributes = attribute(1, b"u@a.example") + attribute(32, name.encode())
        line = f"A 0 reverse:0 198.51.100.1:40000 {signed(43, 7, attributes, HOME_SECRET).hex()}"
        packets = simulated(trial, "".join(parts), [line])
        to, code = packets[0][2], packets[0][3][:2]
        wanted = ("198.51.100.1:40000", "2d") if peer is None else (TARGETS[peer], "2b")
        want(len(packets) == 1 and (to, code) == wanted, f"{name!r}: {packets}, not {wanted}")


def look_at_addresses(trial):
    """What comes from an address is taken where it is signed by the secret of the longest prefix that has it, and by no other."""
    text = "".join([rows.TOP, rows.PEER, rows.NETWORKS, rows.REALM, rows.SERVER])
    for at, peer in rows.AT_NETWORKS:
        for number, secret in enumerate(rows.SECRETS_OF_NETWORKS):
            packets = simulated(trial, text, [f"A 0 acct {at} {accounting(7, b'u@a.example', b'1', secret).hex()}"])
            want(bool(packets) == (number == peer), f"{at} by the secret of peer {number}: {packets}")


def main():
    [program] = words(__doc__)
    be_quiet()
    with tempfile.TemporaryDirectory() as folder:
        trial = Trial(program, folder)
        tried = [(trial.path(text), text, fault) for text, fault in documents()]
        with concurrent.futures.ThreadPoolExecutor(os.cpu_count()) as pool:
            list(pool.map(lambda it: look_at(trial, *it), tried))
        look_at_numbers(trial)
        by_suffix = with_patterns('also = ["*.Test"]\n', 'also = ["*.test.test"]\n')
        by_all = 'also = ["*.a.example", "*"]\n'
        long = ("x" * 246 + ".c.d", 0)
        look_at_names(trial, with_patterns(by_all, 'also = ["x.a.example", "*.b.a.example"]\n'), rows.NAMED)
        look_at_names(trial, by_suffix, rows.NAMED_BY_SUFFIX)
        look_at_names(trial, with_patterns('also = ["*.c.d"]\n', ""), [long, ("x" * 251, None)])
        for top, nth in (("", 1), ("well_formed = true\n", 2)):
            text = with_patterns(by_all, "", 'reject = ["x.a.example", "*.gone"]\n' + top)
            look_at_names(trial, text, [(row[0], row[nth]) for row in rows.REJECTED])
        look_at_addresses(trial)
        for parts, names in ((rows.CONTROLLERS, rows.OF_CONTROLLERS), (rows.STARS, rows.OF_STARS), (rows.STARRED, rows.OF_STARRED)):
            look_at_access_servers(trial, parts, names)
    return end(f"{len(tried)} configurations are accepted or refused as they should be, and mean what they state")


if __name__ == "__main__":
    sys.exit(main())
