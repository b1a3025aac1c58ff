#!/usr/bin/env python3
"""try-statements.py PROGRAM

Runs `PROGRAM check --all` on each configuration of packaging/samples and examples. What it prints must state the same:
`check` must accept it with the same summary, `check --all` of it must print the same text, Python's own reader of TOML
must find in it each value of the file, and it must have each key of docs/FILES.md but those that have no default. And it
tries what the program says of words and files that it can't take.
"""

import ipaddress
import os
import re
import shutil
import sys
import tempfile
import tomllib

sys.dont_write_bytecode = True
from looks import be_quiet, changed, end, want, words
from server import run

ROOT = os.path.dirname(os.path.dirname(os.path.dirname(os.path.abspath(__file__))))
FOLDERS = ("packaging/samples", "examples")
# What counts where one of these is absent can't be written.
WITHOUT_DEFAULT = {"max_hops", "metrics", "control", "coa", "nas_ip", "nas_ipv6", "nas_id", "reverse", "operator_name", "operator_namespace", "peers", "share", "auth", "acct", "balance",
                   "max_attributes", "fresh", "peer_share", "coa_client", "state"}
ENDPOINTS = {"auth", "acct", "out", "reverse", "coa", "metrics"}
USAGE = "usage: roam check CONF\n"


def keys_of_page():
    """The keys of each table, in the order of the page."""
    keys = {"top": [], "peer": [], "realm": [], "server": [], "coa_client": []}
    with open(os.path.join(ROOT, "docs", "FILES.md"), encoding="utf-8") as page:
        for line in page:
            row = re.match(r"\| (top|peer|realm|server|coa_client) \| ([^|]*) \|", line)
            if row:
                keys[row[1]] += re.findall(r"`(\w+)`", row[2])
    return keys


def spelled(key, value):
    """A value as it is printed: of an address, a prefix and an endpoint there is one text (RFC 5952); one of an array stands alone."""
    if key in ENDPOINTS | {"ip"} and isinstance(value, list):
        each = [spelled(key, one) for one in value]
        return each[0] if len(each) == 1 else each
    if key in ("ip", "nas_ipv6"):
        network = ipaddress.ip_network(value)
        return str(network.network_address if network.num_addresses == 1 else network)
    if key in ENDPOINTS:
        host, port = value.rsplit(":", 1)
        return f"[{ipaddress.ip_address(host[1:-1])}]:{port}" if host.startswith("[") else value
    return value


def look_at_table(given, stated, kind, keys, where):
    """All keys stand there in their order, and those of the file with its values."""
    wanted = [key for key in keys[kind] if key not in WITHOUT_DEFAULT or key in given]
    want(list(stated) == wanted, f"{where}: has {list(stated)}, not {wanted}")
    for key, value in given.items():
        if isinstance(value, list) and value and isinstance(value[0], dict):
            want(len(stated[key]) == len(value), f"{where}: {key} has {len(stated[key])} tables, not {len(value)}")
            for count, (one, other) in enumerate(zip(value, stated[key])):
                look_at_table(one, other, key, keys, f"{where}: {key} {count}")
        elif key == "log_exchanges" and isinstance(value, bool):
            want(stated[key] == ("all" if value else "none"), f"{where}: {key} is {stated[key]}")
        else:
            want(stated[key] == spelled(key, value), f"{where}: {key} is {stated[key]!r}, not {value!r}")


def look_at_file(program, path, keys, folder):
    status, summary, _ = run(program, "check", path)
    want(status == 0, f"{path} is refused")
    status, stated, said = run(program, "check", "--all", path)
    want((status, said) == (0, ""), f"{path}: check --all ends with {status}: {said}")
    with open(path, "rb") as file:
        look_at_table(tomllib.load(file), tomllib.loads(stated), "top", keys, path)
    again = os.path.join(folder, "stated.conf")
    with open(again, "w", encoding="utf-8") as file:
        file.write(stated)
    want(run(program, "check", again)[:2] == (0, summary), f"{path}: what is printed is judged otherwise")
    want(run(program, "check", "--all", again) == (0, stated, ""), f"{path}: what is printed is printed otherwise")
    # Each realm goes on as it stands.
    status, fates, said = run(program, "check", path, again)
    want((status, said) == (0, "") and fates.startswith("can be reloaded\n"), f"{path}: what is printed may not follow")
    for line in fates.splitlines()[1:]:
        want(line.endswith(": unchanged"), f"{path}: {line}")


def look_at_faults(program, folder):
    def write(name, octets):
        path = os.path.join(folder, name)
        with open(path, "wb") as file:
            file.write(octets)
        return path

    absent = os.path.join(folder, "absent.conf")
    told = {
        absent: ": No such file or directory",
        folder: ": Is a directory",
        write("latin1.conf", b"# a\n# \xe9\n"): ":2: isn't UTF-8",
    }
    closed = write("closed.conf", b"")
    os.chmod(closed, 0)
    # Root may read it: then nobody looks, by a copy of the program that everybody may run.
    user = 65534 if os.geteuid() == 0 else None
    os.chmod(folder, 0o755)
    copied = shutil.copy(program, folder)
    denied = (1, "", f"roam: {closed}: Permission denied\n")
    want(run(copied, "check", closed, user=user) == denied, f"{closed}: {run(copied, 'check', closed, user=user)}")
    for path, why in told.items():
        for words in (("check", path), ("check", "--all", path), ("check", path, absent), ("serve", path, "1")):
            want(run(program, *words) == (1, "", f"roam: {path}{why}\n"), f"{words}: {run(program, *words)}")
    for words in (("chek", "a"), ("--all", "a"), ("",)):
        status, printed, said = run(program, *words)
        want((status, printed) == (2, ""), f"{words} end with {status}")
        want(said.startswith(f"roam: {words[0]}: no such command\n{USAGE}"), f"{words}: {said}")
    for words in ((), ("check",), ("check", "--all"), ("ctl", "a", "b"), ("help", "a")):
        status, printed, said = run(program, *words)
        want((status, printed) == (2, "") and said.startswith(USAGE), f"{words}: {status} {said}")
    samples = os.path.join(ROOT, "packaging", "samples")
    old = os.path.join(samples, "visited-network.conf")
    with open(old, "rb") as file:
        text = file.read()
    fewer = write("fewer.conf", changed(text, re.compile(rb"\n\[\[realm\]\].*?(?=\n\[\[realm\]\])", re.S), b"", 1))
    gone = run(program, "check", old, fewer)
    want((gone[0], gone[2]) == (0, "") and re.match(r"can be reloaded\nrealm \S+: gone: loses all\n", gone[1]), f"fewer realms: {gone}")
    want(tomllib.loads(text.decode()).get("shards") != 2, "the sample has another number of shards")
    shards = write("shards.conf", b"shards = 2\n" + re.sub(rb"(?m)^shards = .*\n", b"", text))
    status, printed, said = run(program, "check", old, shards)
    want((status, said) == (1, f"roam: {shards}: needs a restart\n") and printed.startswith("needs a restart: "), f"shards: {status} {printed}{said}")


def main():
    [program] = words(__doc__)
    be_quiet()
    keys, paths = keys_of_page(), [os.path.join(ROOT, part, name) for part in FOLDERS for name in sorted(os.listdir(os.path.join(ROOT, part)))]
    with tempfile.TemporaryDirectory() as folder:
        configurations = [path for path in paths if path.endswith(".conf")]
        for path in configurations:
            look_at_file(program, path, keys, folder)
        look_at_faults(program, folder)
    return end(f"{len(configurations)} configurations are stated with all their defaults, and mean the same; faults are told")


if __name__ == "__main__":
    sys.exit(main())
