#!/usr/bin/env python3
"""try-night.py PROGRAM [SECTION ..]

Plays docs/TROUBLESHOOTING.md and the lines of docs/REFUSALS.md. Of the first, symptom by symptom, it makes each mistake that
a row is about, with FreeRADIUS and radsecproxy as home servers, FreeRADIUS as an access server and radclient as RADIUS clients, types the
commands of that section, and fails where they don't print the row's first cell. There `..` stands for anything, N for a number above 0,
and `nothing` for no line. It fails where a row isn't played, too. With words it plays only the sections whose titles begin so. At last it
sends datagrams that no server of others sends, and fails where a line that REFUSALS has of a dropped packet isn't how one began by then.

All runs in a network of its own, with the page's addresses. `journalctl` prints the server's log here, `systemctl` and `roam ctl` ask that
server; /etc/roam/roam.conf is its file. It needs freeradius, radclient, radsecproxy, unshare and ip, and no root where users may have
networks of their own.
"""
import contextlib
import hashlib
import os
import re
import resource
import signal
import subprocess
import sys
import tempfile
import threading
import time

sys.dont_write_bytecode = True
from around import Around, command
from looks import changed, end, go_on, over_lines, want, words
from radius import access, access_with_password, accounting, answer, attribute, bound, signed
from server import Server

ROOT = os.path.dirname(os.path.dirname(os.path.dirname(os.path.abspath(__file__))))
PAGE = os.path.join(ROOT, "docs", "TROUBLESHOOTING.md")
PROXY, LIBRARY, HOME, RELAY, POLICY = "203.0.113.10", "192.0.2.1", "198.51.100.1", "198.51.100.2", "198.51.100.7"
# 203.0.113.11 is the proxy's as well, and no server knows it; nobody has 198.51.100.9.
ADDRESSES = (PROXY, "203.0.113.11", LIBRARY, HOME, RELAY, "198.51.100.3", POLICY)
CONF = """auth = "203.0.113.10:1812"
acct = "203.0.113.10:1813"
log_exchanges = "all"
fresh = 300

[[peer]]
name = "library"
ip = "192.0.2.1"
secret = "secret of library"
require_seal = true
coa = "192.0.2.1:3799"
nas_ids = ["wlc-1", "wlc-2"]

[[realm]]
name = "uni.example"
out = "203.0.113.10:2000"
reverse = "203.0.113.10:3799"
own_sessions = true
tries = 2
wait = 400
rest = 20000

[[realm.server]]
auth = "198.51.100.1:1812"
acct = "198.51.100.1:1813"
secret = "secret of uni"
"""
BY_RELAY = [("198.51.100.1:18", "198.51.100.2:18"), ('"secret of uni"', '"secret of relay"')]
HOMES = """
client roam { ipaddr = 203.0.113.10; secret = "secret of uni" }
client relay { ipaddr = 198.51.100.2; secret = "secret of uni" }
modules {
  eap {
    default_eap_type = md5
    md5 { }
  }
  pap { }
  exec slow { program = "/bin/sleep 1"; wait = yes }
  always ok { rcode = ok }
}
server default {
  listen { type = auth; ipaddr = 198.51.100.1; port = 1812 }
  listen { type = acct; ipaddr = 198.51.100.1; port = 1813 }
  authorize {
    if (&User-Name =~ /^slow/) {
      slow
    }
    eap { ok = return }
    update control { Cleartext-Password := "hello" }
    pap
  }
  authenticate { pap; eap }
  accounting { ok }
}
"""
NAS = """
client roam { ipaddr = 203.0.113.10; secret = "secret of library" }
modules {
  always ok { rcode = ok }
  always reject { rcode = reject }
}
server coa {
  listen { type = coa; ipaddr = 192.0.2.1; port = 3799; virtual_server = coa }
  recv-coa {
    if (&Acct-Session-Id == "8") {
      reject
    }
    ok
  }
}
"""
# One that listens at every address answers from another one than was asked, where the machine has several.
RELAY_CONF = """ListenUDP {0}
ListenUDP {1}
SourceUDP 198.51.100.2
LogLevel 2
client roam { host 203.0.113.10; type udp; secret "secret of relay" }
server radius { host 198.51.100.1; type udp; port 1812; secret "secret of uni" }
server radius-acct { host 198.51.100.1; type udp; port 1813; secret "secret of uni" }
realm * { server radius; accountingServer radius-acct }
"""
STUBS = {
    "roam": 'case "$1" in ctl) shift; exec {program} ctl {control} "$@";; *) exec {program} "$@";; esac',
    "journalctl": "sed 's/^20[0-9T:.-]*Z //' {log}",
    "systemctl": 'case "$1" in reload) exec {program} ctl {control} reload > {folder}/reload.out 2>&1;; esac',
    "pidof": "echo {pid}",
}
# A login, and a session that begins.
LOGIN = ['User-Name = "u@uni.example"', 'User-Password = "hello"', "Message-Authenticator = 0x00", 'Calling-Station-Id = "02-00-00-00-00-01"']
START = ['User-Name = "u@uni.example"', "Acct-Status-Type = Start", 'Acct-Session-Id = "7"', 'NAS-Identifier = "wlc-1"']
END = ['Acct-Session-Id = "7"', 'NAS-Identifier = "wlc-1"']


def edited_by(edits):
    """The file with these texts in place of others."""
    text = CONF
    for old, new in edits:
        text = changed(text, old, new)
    return text


def alike(line):
    """A line of a dropped packet without what differs from packet to packet: its source, and how many they were."""
    return re.sub(r" \(\d+ times\)", "", re.sub(r" from \S+", " from ..", line))


class Night(Around):
    """The servers around, and the proxy that each mistake is made with. Lines of dropped packets come a second later: `waits` is how long
    they are waited for before the proxy ends."""

    waits = 0

    def __init__(self, program, directory):
        super().__init__(directory)
        self.program, self.proxy, self.number, self.halted, self.refused = program, None, 0, [], set()
        os.mkdir(self.path("bin"))

    def serve(self, *edits, starts=True):
        """Serves the file with these edits, alone."""
        self.leave()
        self.number += 1
        self.proxy = Server(self.program, self.directory, edited_by(edits), name=f"roam-{self.number}", starts=starts)
        with open(self.proxy.log, "a", encoding="utf-8"):
            pass
        if starts:
            self.proxy.waits_for()
        return self.proxy

    def with_descriptors(self, count):
        """Starts the proxy with so many descriptors at most."""
        self.proxy.how = {"preexec_fn": lambda: resource.setrlimit(resource.RLIMIT_NOFILE, (count, count))}
        self.proxy.start()

    def leave(self):
        """Ends the proxy, and has all others go on."""
        if self.proxy:
            time.sleep(self.proxy.process is not None and self.proxy.process.poll() is None and self.waits)
            self.proxy.__exit__()
            self.refused |= {alike(it) for it in re.findall("WARN (refused .*)", self.proxy.said())}
        while self.halted:
            self.halted.pop().send_signal(signal.SIGCONT)

    def halts(self, name):
        """Has a server be silent until the next play."""
        self.halted.append(self.running[name])
        self.running[name].send_signal(signal.SIGSTOP)

    def sends(self, kind, attributes, source=LIBRARY, secret="secret of library", to=None, times=1, waits=1):
        """What a request is answered with, the packet's name, or nothing."""
        port = {"auth": 1812, "status": 1812, "acct": 1813}.get(kind, 3799)
        text = "".join("\n".join([*attributes, f"Packet-Src-IP-Address = {source}"]) + "\n\n" for _ in range(times))
        ran = subprocess.run([command("radclient"), "-x", "-p", str(times), "-r", "1", "-t", str(waits), to or f"{PROXY}:{port}", kind, secret],
                             input=text, capture_output=True, text=True, timeout=60, check=False)
        found = re.search(r"Received (\S+) Id", ran.stdout)
        return found and found[1]

    def logs_in(self, *more, times=1, **how):
        """A login of the library's, with other attributes in place of those of the same name."""
        names = {it.split(" ")[0] for it in more}
        return self.sends("auth", [it for it in LOGIN if it.split(" ")[0] not in names] + [it for it in more if not it.endswith(" =")], times=times, **how)

    def types(self, commands):
        """What the commands of a section print here."""
        values = {"program": self.program, "control": self.proxy.path, "log": self.proxy.log, "folder": self.directory,
                  "pid": self.proxy.process.pid if self.proxy.process else 0}
        for name, text in STUBS.items():
            path = self.write(f"bin/{name}", "#!/bin/sh\n" + text.format(**values) + "\n")
            os.chmod(path, 0o755)
        path = f"{self.path('bin')}:{os.environ['PATH']}:/usr/sbin:/sbin"
        text = "\n".join(commands).replace("/etc/roam/roam.conf", self.proxy.conf)
        ran = subprocess.run(["bash", "-c", text], stdout=subprocess.PIPE, stderr=subprocess.STDOUT, stdin=subprocess.DEVNULL, text=True,
                             errors="replace", timeout=60, check=False, env={**os.environ, "PATH": path, "LC_ALL": "C.UTF-8"})
        return ran.stdout.replace(self.proxy.conf, "/etc/roam/roam.conf").replace(self.proxy.path, "/run/roam/control")


EAP = f'EAP-Message = 0x{bytes([2, 1, 0, 18, 1]).hex()}{b"u@uni.example".hex()}'


# What a play does

def start(night):
    """Begins the servers of others."""
    night.freeradius("homes", HOMES)
    night.freeradius("nas", NAS)
    for name, ends in (("relay", (f"{RELAY}:1812", f"{RELAY}:1813")), ("at-all", ("*:2812", "*:2813"))):
        path = night.write(f"{name}.conf", over_lines(RELAY_CONF.replace("{0}", ends[0]).replace("{1}", ends[1]), 4))
        night.start(name, [command("radsecproxy"), "-f", "-c", path, "-i", night.path(f"{name}.pid")])
    time.sleep(3)


def three(night):
    """Three logins, which a server that is silent leaves without an answer."""
    night.logs_in(times=3, waits=2)


def floods(night, count=300):
    """More requests at a time than there are Identifiers, from two ports."""
    for port in (0, 0):
        with bound(port, LIBRARY) as opened:
            for number in range(count // 2):
                opened.sendto(access_with_password(number, b"u@uni.example", b"secret of library"), (PROXY, 1812))


def while_still(night, name, act, seconds=0.0):
    """Does something while a server is stopped."""
    process = night.proxy.process if name == "proxy" else night.running[name]
    process.send_signal(signal.SIGSTOP)
    try:
        act()
        time.sleep(seconds)
    finally:
        process.send_signal(signal.SIGCONT)


def overflows(night):
    """More than the buffer of a socket holds, while nobody reads."""
    def send():
        with bound(0, LIBRARY) as opened:
            for _ in range(6000):
                opened.sendto(bytes(1400), (PROXY, 1812))
    while_still(night, "proxy", send)


def dies(night):
    """A server that answered, and is silent then."""
    night.logs_in()
    night.halts("homes")
    three(night)


def stops(night):
    """A login whose device sends nothing behind the first Access-Challenge, until that isn't held any more."""
    want(night.logs_in("User-Password =", EAP) == "Access-Challenge", "a login gets an Access-Challenge")
    time.sleep(1)


def loses_one(night):
    """A login whose first packet is answered late."""
    login = threading.Thread(target=night.logs_in, kwargs={"waits": 3})
    while_still(night, "homes", login.start, 0.8)
    login.join()


def without_address(night):
    """A start on a machine that hasn't got the address."""
    subprocess.run([command("ip"), "address", "del", f"{PROXY}/32", "dev", "lo"], check=True)
    try:
        night.proxy.start()
        night.proxy.ends(5)
    finally:
        subprocess.run([command("ip"), "address", "add", f"{PROXY}/32", "dev", "lo"], check=True)


def beside_another(night):
    """A start where another program has the port."""
    with bound(1812, PROXY):
        night.proxy.start()
        night.proxy.ends(5)


def disconnects(night, *attributes, source=HOME, secret="secret of uni", session="7", waits=1):
    """A session that begins, and a Disconnect for it."""
    night.sends("acct", [it.replace('"7"', f'"{session}"') for it in START])
    night.sends("disconnect", attributes or END, source, secret, waits=waits)


def reloads(night, *edits):
    """Puts another text into the file's place."""
    night.proxy.write(edited_by(edits))


def with_state(night):
    """The edit by which sessions outlast a restart."""
    return [("fresh = 300", f'fresh = 300\nstate = "{night.path("sessions")}"\nstate_every = 1')]


def takes_up(night, change=(), spoil=""):
    """A stop, and a start with the sessions of before, perhaps of another file."""
    night.sends("acct", START)
    night.proxy.stop(is_told=False, balances=False)
    if spoil:
        night.write("sessions", spoil)
    night.serve(*with_state(night), *change)


def on_full_disk(night):
    """A start with `state` on a disk that has no room."""
    folder = night.path("full")
    os.makedirs(folder, exist_ok=True)
    subprocess.run(["mount", "-t", "tmpfs", "-o", "size=16k", "tmpfs", folder], check=True)
    try:
        with contextlib.suppress(OSError), open(os.path.join(folder, "much"), "wb", buffering=0) as file:
            while True:
                file.write(bytes(1024))
        night.serve(("fresh = 300", f'fresh = 300\nstate = "{folder}/sessions"\nstate_every = 1'))
        night.sends("acct", START)
        night.proxy.tells("saved in")
    finally:
        night.leave()
        subprocess.run(["umount", folder], check=True)


def sends_octets(source, octets, port=1812):
    with bound(0, source) as opened:
        opened.sendto(octets, (PROXY, port))


def is_replied(night, reply):
    """A login, with a Proxy-State, to a home server that replies so."""
    night.serve(("198.51.100.1:1812", "198.51.100.3:3812"))
    with bound(3812, "198.51.100.3", 5) as home:
        sends_octets(LIBRARY, access(1, b"u@uni.example", attribute(33, bytes(253)), b"secret of library"))
        octets, source = home.recvfrom(4096)
        home.sendto(reply(octets), source)


def at_length(request):
    """An Access-Accept of 3,845 octets, which has none of the request's Proxy-States."""
    head = bytes([2, request[1]]) + (20 + 15 * 255).to_bytes(2, "big")
    body = attribute(18, bytes(253)) * 15
    return head + hashlib.md5(head + request[4:20] + body + b"secret of uni").digest() + body


def is_acknowledged(night):
    """A Disconnect-Request that an access server answers by a CoA-ACK."""
    night.serve(("192.0.2.1:3799", "192.0.2.1:3798"))
    night.sends("acct", START)
    with bound(3798, LIBRARY, 5) as controller:
        sends_octets(HOME, signed(40, 1, attribute(44, b"7") + attribute(32, b"wlc-1"), b"secret of uni"), 3799)
        octets, source = controller.recvfrom(4096)
        controller.sendto(answer(44, octets, b"secret of library"), source)


def play_refusals(night):
    """Sends what the servers around don't send, and wants the lines of the page."""
    night.waits = 1.3
    night.serve(("fresh = 300", "fresh = 300\nmax_hops = 2"))
    for octets in (b"x", bytes([1, 1, 0, 10]) + bytes(16), bytes([1, 1, 0, 22]) + bytes(16) + bytes([1, 1])):
        sends_octets(POLICY, octets)
    large = attribute(18, bytes(253)) * 15 + attribute(18, bytes(216))
    sends_octets(LIBRARY, access(1, b"u@uni.example", large, b"secret of library"))
    sends_octets(LIBRARY, accounting(1, b"u@uni.example", b"7", b"secret of library", body=attribute(33, b"a") * 3), 1813)
    night.serve(of_realm('peers = ["museum"]'), OTHER_PEER)
    night.sends("acct", START)
    is_replied(night, lambda octets: answer(2, octets, b"another secret"))
    is_replied(night, at_length)
    is_acknowledged(night)
    night.leave()
    with open(os.path.join(os.path.dirname(PAGE), "REFUSALS.md"), encoding="utf-8") as file:
        lines = dict(re.findall(r"^\| (\d+) \| `(refused [^`]*)`", file.read(), re.M))
    for number, line in lines.items():
        if not line.endswith(" .."):
            want(any(it.startswith(alike(line)) for it in night.refused), f"REFUSALS: {line}")
    want(len(lines) == 29, "REFUSALS: 29 lines")


# The plays: of each section what stands in a row's first cell, the edits of the file, and what is done then. The file isn't served
# where the edits are None.

OTHER_SECRET = ('"secret of uni"', '"another secret"')
NO_CLIENT = ('out = "203.0.113.10:', 'out = "203.0.113.11:')
LONG = ("wait = 400", "wait = 4000")
OTHER_PEER = ("[[realm]]", '[[peer]]\nname = "museum"\nip = "192.0.2.9"\nsecret = "secret of museum"\n\n[[realm]]')


def of_realm(*lines):
    return ('name = "uni.example"', "\n".join(['name = "uni.example"', *lines]))


def at_top(line):
    return ("fresh = 300", f"fresh = 300\n{line}")


PLAYS = {
    "Nobody of one realm logs in": [
        ("answers`, `exchange", [], lambda night: night.logs_in()),
        ("never answered", [OTHER_SECRET], three),
        ("never answered", [NO_CLIENT], three),
        ("never answered", BY_RELAY[:1], three),
        ("stopped answering", [], dies),
        ("replies have no", [("auth = \"198", "require_seal = true\nauth = \"198")], lambda night: night.logs_in()),
        ("UnknownSource at out", [("198.51.100.1:1812", "198.51.100.3:2812"), BY_RELAY[1]], lambda night: night.logs_in()),
        ("NoIdentifier", [OTHER_SECRET, LONG], floods),
        ("Busy", [OTHER_SECRET, of_realm("max_pending = 2")], lambda night: night.logs_in(times=4)),
        ("unreachable", [("198.51.100.1:18", "198.51.100.9:18")], lambda night: night.logs_in()),
        ("why=unknown_realm", [], lambda night: night.logs_in('User-Name = "u@cs.uni.example"')),
        ("result=reject", [], lambda night: night.logs_in('User-Password = "wrong"')),
    ],
    "Nobody at one institution": [
        ("result=accept", [], lambda night: night.logs_in()),
        ("nothing", [], lambda night: None),
        ("UnknownSource", [('ip = "192.0.2.1"', 'ip = "192.0.2.77"')], lambda night: night.logs_in()),
        ("BadMessageAuthenticator", [], lambda night: (night.logs_in(secret="a blank "), night.sends("acct", START, secret="a blank "))),
        ("MissingMessageAuthenticator", [], lambda night: night.logs_in("Message-Authenticator =")),
        ("WrongCode", [], lambda night: (night.logs_in(to=f"{PROXY}:1813"), night.sends("status", ["Message-Authenticator = 0x00"]))),
        ("not_for_peer", [of_realm('peers = ["museum"]'), OTHER_PEER], lambda night: night.logs_in()),
        ("no_realm_part", [], lambda night: night.logs_in('User-Name = "u"')),
        ("ShareTaken", [OTHER_SECRET, of_realm("peer_share = 2")], lambda night: night.logs_in(times=5)),
        ("of all realms", [("require_seal = true\n", "")], lambda night: night.logs_in("Message-Authenticator =", secret="a blank ")),
    ],
    "Nobody at all": [
        ("no problems", [], lambda night: night.logs_in()),
        ("no such path", None, lambda night: None),
        ("no such path", [], lambda night: (night.proxy.process.kill(), night.proxy.process.wait())),
        ("Cannot assign", None, without_address),
        ("already in use", None, beside_another),
        ("BadValue", None, lambda night: (reloads(night, ("wait = 400", "wait = 0")), night.proxy.start(), night.proxy.ends(5))),
        ("UdpRcvbufErrors", [], overflows),
        ("of all realms", [NO_CLIENT], three),
    ],
    "Slow": [
        ("accept .. tries=1", [], lambda night: night.logs_in()),
        ("thousands", [LONG], lambda night: night.logs_in('User-Name = "slow@uni.example"', waits=3)),
        ("tries=2", [], loses_one),
        ("NoEntry", [("tries = 2", "tries = 1")], lambda night: night.logs_in('User-Name = "slow@uni.example"', waits=2)),
        ("stopped answering", [], dies),
    ],
    "Some devices, or EAP stops midway": [
        ("result=accept", [], lambda night: night.logs_in()),
        ("result=abandoned", [of_realm("hold = 1000")], stops),
        ("result=abandoned", [of_realm("hold = 1000"), ('"all"', '"final"')], stops),
        ("MissingMessageAuthenticator", [("require_seal = true\n", "")], lambda night: night.logs_in("User-Password =", "Message-Authenticator =", EAP)),
        ("TooManyAttributes", [at_top("max_attributes = 3")], lambda night: night.logs_in()),
        ("unknown_realm", [], lambda night: night.logs_in('User-Name = "u@wlan.mnc001.mcc001.3gppnetwork.org"')),
    ],
    "Accounting is missing": [
        ("tries=1", [], lambda night: night.sends("acct", START)),
        ("tries=0", [of_realm('accounting = "answer"')], lambda night: night.sends("acct", START)),
        ("AccountingDropped", [of_realm('accounting = "drop"')], lambda night: night.sends("acct", START)),
        ("NoRealm", [], lambda night: night.sends("acct", ["Acct-Status-Type = Accounting-On"])),
        ("NoRealm", [], lambda night: night.sends("acct", [it.replace("@uni", "@cs.uni") for it in START])),
        ("BadAuthenticator", [], lambda night: night.sends("acct", START, secret="a blank ")),
        ("given_up", [("198.51.100.1:1813", "198.51.100.1:1899")], lambda night: night.sends("acct", START, waits=2)),
        ("given_up", [OTHER_SECRET], lambda night: night.sends("acct", START, waits=2)),
        ("WrongCode", [], lambda night: night.sends("acct", START, to=f"{PROXY}:1812")),
    ],
    "A Disconnect does nothing": [
        ("result=ack", [], disconnects),
        ("nothing", [], lambda night: None),
        ("UnknownSource", [], lambda night: disconnects(night, source=POLICY)),
        ("BadAuthenticator", [], lambda night: disconnects(night, secret="a blank ")),
        ("Stale", [], lambda night: disconnects(night, *END, f"Event-Timestamp = {int(time.time()) - 3600}")),
        ("502", [], lambda night: disconnects(night, 'Acct-Session-Id = "7"', 'NAS-Identifier = "ap-1"')),
        ("503", [], lambda night: disconnects(night, 'Acct-Session-Id = "9"', 'NAS-Identifier = "wlc-1"')),
        ("given_up", [], lambda night: (night.halts("nas"), disconnects(night, waits=2))),
        ("tries=1", [], lambda night: disconnects(night, *[it.replace('"7"', '"8"') for it in END], session="8")),
    ],
    "After a reload": [
        ("is served", [], lambda night: reloads(night, ("wait = 400", "wait = 500"))),
        ("BadValue", [], lambda night: reloads(night, ("wait = 400", "wait = 0"))),
        ("would lose", [OTHER_SECRET, LONG], lambda night: (night.logs_in(), reloads(night, OTHER_SECRET, LONG, ("10:2000", "10:2005")))),
        ("needs a restart", [], lambda night: reloads(night, at_top("shards = 2"))),
        ("never answered", [], lambda night: (reloads(night, OTHER_SECRET), night.types(["systemctl reload roam"]), three(night), time.sleep(1.5))),
    ],
    "After an upgrade": [
        ("sessions restored", with_state, takes_up),
        ("belong to no realm", with_state, lambda night: takes_up(night, [('"uni.example"', '"cs.example"')])),
        ("no session restored", with_state, lambda night: takes_up(night, spoil="nonsense")),
        ("BadValue", None, lambda night: (reloads(night, ("wait = 400", "wait = 0")), night.proxy.start(), night.proxy.ends(5))),
    ],
    "The log is silent": [
        ('"all"', [], lambda night: night.logs_in()),
        ('"final"', [('"all"', '"final"')], lambda night: night.sends("acct", START)),
        ('"none"', [('"all"', '"none"')], lambda night: night.logs_in()),
        ("} 0", [], lambda night: None),
    ],
    "Disk, memory, descriptors": [
        ("nothing", [], lambda night: night.logs_in()),
        ("No space left", None, on_full_disk),
        ("too few", None, lambda night: (night.with_descriptors(20), night.proxy.ends(5))),
    ],
}


# The page

def sections():
    """Of each section of the page its commands, and the first cells of its tables."""
    with open(PAGE, encoding="utf-8") as file:
        parts = re.split(r"^## (.*)$", file.read(), flags=re.M)[1:]
    found = {}
    for title, text in zip(parts[::2], parts[1::2]):
        rows = [it.split(" | ")[0][2:] for it in text.splitlines() if it.startswith("| ") and not it.startswith("| you see")]
        found[title] = (["".join(it) for it in re.findall(r"^```sh\n(.*?)^```", text, re.M | re.S)][0].strip().split("\n"), rows)
    return found


def pattern(text):
    """What a line has to be like."""
    text = re.escape(text).replace(r"\.\.", ".*").replace("\\ ", r"\s+")
    return re.compile(re.sub(r"(?<![A-Za-z])N(?![A-Za-z])", "[1-9][0-9]*", text))


def play(night, commands, cell, edits, act):
    """Makes a mistake, and answers which texts of the cell the commands print, or whether they print nothing where that is wanted."""
    edits = edits(night) if callable(edits) else edits
    night.serve(*(edits or []), starts=edits is not None)
    act(night)
    if cell.startswith("nothing"):
        time.sleep(1.2)
        return {cell} if not night.types(commands[-1:]).strip() else set()
    texts, found, until = re.findall("`([^`]+)`", cell), set(), time.monotonic() + 4
    while len(found) < len(texts) and time.monotonic() < until:
        printed = night.types(commands).splitlines()
        found |= {text for text in texts if any(pattern(text).search(line) for line in printed)}
        time.sleep(0.2)
    return found


def play_section(night, title, commands, cells):
    """Plays each row of a section, and wants each text of a row to be found."""
    found = {}
    for key, edits, act in PLAYS.get(title, []):
        fits = [it for it in cells if key in it]
        want(len(fits) == 1, f"{title}: one row has {key!r}")
        got = play(night, commands, fits[0], edits, act) if len(fits) == 1 else set()
        want(got, f"{title}: {key}")
        if not got and fits:
            print("\n".join(night.types(commands).splitlines()[-30:]))
        found.setdefault(fits[0] if fits else "", set()).update(got)
    for cell in cells:
        lost = set(re.findall("`([^`]+)`", cell)) - found.get(cell, set()) if not cell.startswith("nothing") else {cell} - found.get(cell, set())
        want(not lost, f"{title}: each text of {cell[:60]!r} is found" + "".join(f", but not {it!r}" for it in lost))


def main():
    program, *titles = words(__doc__, 1, 20)
    if "ROAM_OWN_NETWORK" not in os.environ:
        own = "ip link set lo up; " + "".join(f"ip address add {it}/32 dev lo; " for it in ADDRESSES) + 'exec "$@"'
        net = ["unshare", *(["-nm"] if os.getuid() == 0 else ["-rnm"]), "sh", "-c", own, "sh", sys.executable, os.path.abspath(__file__), program, *titles]
        os.execvpe("unshare", net, {**os.environ, "ROAM_OWN_NETWORK": "1"})
    go_on()
    page = sections()
    want(set(page) == set(PLAYS), f"each section is played: {set(page) ^ set(PLAYS) or 'all'}")
    with tempfile.TemporaryDirectory() as directory:
        night, ended = Night(program, directory), []
        try:
            start(night)
            for title, (commands, cells) in page.items():
                if not titles or title.startswith(tuple(titles)):
                    play_section(night, title, commands, cells)
            if not titles:
                play_refusals(night)
            ended = night.close()
            want(not ended, "all servers around still serve" + "".join(f", but not {it}" for it in ended))
        finally:
            night.leave()
            night.close()
    return end()


if __name__ == "__main__":
    sys.exit(main())
