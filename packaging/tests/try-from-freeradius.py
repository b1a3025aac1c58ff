#!/usr/bin/env python3
"""try-from-freeradius.py [ROAM]

Tries from-freeradius.py on clients, home servers, pools and realms of each kind, and on those of examples/migrating. Where FreeRADIUS is
installed, it judges them (`-XC`). What is written has to keep docs/FILES.md, and to choose for each of many names the realm that
FreeRADIUS chooses. Where a program ROAM is given, `roam check` judges it too.
"""

import importlib
import os
import random
import re
import shutil
import sys
import tempfile
import tomllib

sys.dont_write_bytecode = True
from looks import be_quiet, changed, end, over_lines, want, words
from server import run

converter = importlib.import_module("try-converter")
HERE = os.path.dirname(os.path.abspath(__file__))
ROOT = os.path.dirname(os.path.dirname(HERE))
CONVERTER = os.path.join(ROOT, "packaging", "installed", "from-freeradius.py")

RADIUSD = """prefix = {root}/usr
libdir = {root}/usr/lib/freeradius
logdir = {directory}
run_dir = {directory}
db_dir = {directory}
radacctdir = {directory}
cleanup_delay = 7
log {{
  destination = files
  file = {directory}/log
  auth = {auth}
}}
security {{
  max_attributes = 150
  status_server = no
  allow_vulnerable_openssl = yes
}}
thread pool {{
  start_servers = 1
}}
modules {{
  realm suffix {{
    format = suffix
    delimiter = "@"
  }}
  always reject {{
    rcode = reject
  }}
}}
$INCLUDE clients.conf
$INCLUDE proxy.conf
server default {{
  listen {{
    type = auth
    ipaddr = 203.0.113.10
    port = 0
  }}
  listen {{
    type = acct
    ipaddr = 203.0.113.10
    port = 0
  }}
  listen {{
    type = coa
    ipaddr = 203.0.113.10
    port = 3799
  }}
  authorize {{
    suffix
    if (&User-Name =~ /^$/) {{
      reject
    }}
  }}
}}
server inner-tunnel {{
  listen {{
    type = auth
    ipaddr = 127.0.0.1
    port = 18120
  }}
  authorize {{
    suffix
  }}
}}
"""
CLIENTS = r"""# A secret with what has to be escaped, and a name of its own
client one {
  ipaddr = 192.0.2.1
  secret = "a \"secret\" # of one"
  shortname = first
  limit_proxy_state = yes
  coa_server = one-coa
}
client 192.0.2.2 { secret = of-two }
client wired { ipaddr = 192.0.2.16/30; secret = 'of wired'; coa_server = one-coa; require_message_authenticator = yes }
client dormitories { ipaddr = 10.20.0.0/16; secret = of-many }
client six { ipv6addr = 2001:db8::1; secret = of-six }
client left { ipaddr = 192.0.2.50; secret = of-both; shortname = pair }
client between { ipaddr = 192.0.2.52; secret = of-another; shortname = pair }
client right { ipaddr = 192.0.2.51; secret = of-both; shortname = pair }
client undecided { ipaddr = 192.0.2.40; secret = of-undecided; limit_proxy_state = auto }
"""
PROXY = r"""proxy server { default_fallback = yes }
home_server one-coa { type = coa; ipaddr = 192.0.2.1; port = 3799; secret = of-coa }
home_server home-1 {
  type = auth
  ipaddr = 198.51.100.1
  port = 1812
  secret = of-home
  response_window = 12
  response_timeouts = 3
  revive_interval = 60
  status_check = none
  src_ipaddr = 203.0.113.11
  require_message_authenticator = yes
}
home_server home-1-acct { type = acct; ipaddr = 198.51.100.1; port = 1813; secret = of-home }
home_server home-2 {
  type = auth+acct
  ipaddr = 198.51.100.2
  port = 11812
  secret = of-home-2
  response_window = 6
  status_check = status-server
  check_interval = 30
  coa { irt = 2; mrt = 16; mrc = 5; mrd = 30 }
}
home_server upper { type = auth; ipaddr = 198.51.100.65; port = 1812; secret = of-upper; response_window = 6 }
home_server of-six { type = auth; ipv6addr = 2001:db8::2; port = 1812; secret = of-six }
home_server_pool home { type = fail-over; home_server = home-1 }
home_server_pool home-acct { type = fail-over; home_server = home-1-acct }
home_server home-3 { type = auth+acct; ipaddr = 198.51.100.3; port = 1812; secret = of-home-3 }
home_server closing { virtual_server = inner-tunnel }
home_server_pool second { type = keyed-balance; home_server = home-2; home_server = home-3; fallback = closing }
home_server_pool upper { type = fail-over; home_server = upper }
home_server_pool six { type = fail-over; home_server = of-six }
home_server named { type = auth; ipaddr = localhost; port = 1812; secret = of-named }
home_server_pool both { type = fail-over; home_server = home-1; home_server = of-six; home_server = named }
realm a.example { auth_pool = home; acct_pool = home-acct; nostrip }
realm "~^(.*\.)*b\.example$" { pool = second }
realm "~.*\.c\.b\.example$" { pool = second }
realm x.b.example { auth_pool = home; nostrip }
realm here.example { }
realm six.example { auth_pool = six }
realm both.example { auth_pool = both }
realm "~^[a-k]+\.half\.example$" { pool = second }
realm LOCAL { }
realm NULL { }
realm DEFAULT { auth_pool = upper; nostrip }
"""
TOLD = [("Not carried over", what) for what in (
    "client six: 2001:db8::1 is of IPv6, and `auth` of IPv4", "client wired: coa_server one-coa: a prefix", "realm ~.*\\.c\\.b\\.example$: *.c.b.example is never reached",
    "realm here.example: it has no pool", "realm ~^[a-k]+\\.half\\.example$: neither", "proxy server: default_fallback yes",
    "home_server_pool second: fallback closing", "home_server home-2: coa {..}", "listen 127.0.0.1:18120 of an inner tunnel")]
TOLD += [("Changed", what) for what in (
    "client undecided: limit_proxy_state auto", "client one: a Disconnect names it by NAS-IP-Address 192.0.2.1", "its pool is of type keyed-balance",
    "FreeRADIUS strips the realm", "of IPv6: write it in place of ::1", "no Status-Server and no test user", "FreeRADIUS handles its accounting itself")]
LOST = ["client six", "realm here.example", "home_server named of realm both.example"]
# A proxy by TLS: who listens with it, clients within its own list, and home servers.
OVER_TLS = r"""listen {
  type = auth+acct
  ipaddr = *
  port = 2083
  proto = tcp
  clients = radsec
  tls { private_key_file = /etc/ssl/own.key; certificate_file = /etc/ssl/own.pem; ca_file = /etc/ssl/ca.pem; check_crl = yes }
}
clients radsec {
  client uni-a { ipaddr = 192.0.2.1; proto = tls; secret = radsec }
  client uni-b { ipaddr = 192.0.2.2; proto = tls; shortname = second }
}
home_server upper {
  type = auth+acct
  ipaddr = upper.example
  port = 2083
  proto = tcp
  secret = radsec
  tls { private_key_file = /etc/ssl/own.key; certificate_file = /etc/ssl/own.pem; ca_file = /etc/ssl/ca.pem }
}
home_server home { type = auth; ipaddr = 198.51.100.9; port = 2084; proto = tcp; tls { check_cert_cn = radius.home.example } }
home_server home-acct { type = acct; ipaddr = 198.51.100.9; port = 2084; proto = tcp; tls { check_cert_cn = radius.home.example } }
home_server_pool upper { home_server = upper }
home_server_pool home { home_server = home }
home_server_pool home-acct { home_server = home-acct }
realm home.example { auth_pool = home; acct_pool = home-acct; nostrip }
realm DEFAULT { pool = upper; nostrip }
"""


def judged_by_freeradius(directory):
    program = shutil.which("freeradius") or shutil.which("freeradius", path="/usr/sbin")
    if not program:
        return False
    root = re.sub("/usr/sbin/freeradius$", "", program)
    status, printed, _ = run(program, "-XC", "-d", directory, "-D", f"{root}/usr/share/freeradius")
    want(status == 0, f"FreeRADIUS reads it: {printed[-2000:]}")
    return True


def realm_in_freeradius(name):
    """The realm of PROXY that FreeRADIUS takes: the whole name, else the first expression that fits, else DEFAULT."""
    realms = re.findall(r'^realm (?:"([^"]*)"|(\S+)) \{', PROXY, re.M)
    names = [one or other for one, other in realms]
    whole = next((it for it in names if it.lower() == name.lower()), None)
    return whole or next((it for it in names if it.startswith("~") and re.search(it[1:], name, re.I)), "DEFAULT")


def agree(realm_of):
    """How many names mean the realm that was made of FreeRADIUS' one."""
    made = {"a.example": "a.example", "~^(.*\\.)*b\\.example$": "b.example", "x.b.example": "x.b.example", "DEFAULT": "default.invalid"}
    chance, told = random.Random(7), 0
    bases = ["a.example", "b.example", "x.b.example", "c.b.example", "y.c.b.example", "here.example", "elsewhere.org", "example"]
    for name in [one for base in bases for one in (base, "z." + base, "q" + base)]:
        there = realm_in_freeradius(name)
        here = realm_of("u@" + (name.upper() if chance.randrange(2) else name))
        if there in made:
            want(here and here["name"] == made[there], f"{name}: {there}, not {here and here['name']}")
            told += 1
        elif there == "here.example":
            want(here is None, f"{name}: none, not {here and here['name']}")
    return told


def look_over(name, texts, roam, lost, look=None):
    with tempfile.TemporaryDirectory() as directory:
        for file, text in texts.items():
            with open(os.path.join(directory, file), "w", encoding="utf-8") as opened:
                opened.write(changed(text, "{directory}", directory) if file == "radiusd.conf" else text)
        is_judged = "radiusd.conf" in texts and judged_by_freeradius(directory)
        paths = [os.path.join(directory, it) for it in (["radiusd.conf"] if "radiusd.conf" in texts else texts)]
        status, written, said = run(sys.executable, CONVERTER, *paths)
        want(status == (1 if lost else 0) and all(it in said for it in lost), f"{name}: {status}, {said}")
        # What is included is read once, also where it is named too; and the folder stands for its radiusd.conf.
        for others in ([os.path.join(directory, it) for it in reversed(texts)], [directory]) if "radiusd.conf" in texts else ():
            want(run(sys.executable, CONVERTER, *others) == (status, written, said), f"{name}: the same of {others}")
        conf = tomllib.loads(written)
        converter.keeps_the_rules(conf)
        if roam:
            made = os.path.join(directory, "roam.conf")
            with open(made, "w", encoding="utf-8") as opened:
                opened.write(written)
            judged = run(roam, "check", made)
            want(judged[0] == 0, f"{name}: roam accepts it: {judged[2]}")
        if look:
            look(directory, paths, written)
        print(f"{name}: {said.splitlines()[0]}" + ("; read by FreeRADIUS" if is_judged else ""))
    return conf, written


def look_at_stock(roam):
    """FreeRADIUS' own folder, where it is installed, becomes a configuration that roam accepts."""
    for folder in ("/etc/freeradius/3.0", "/etc/raddb"):
        if os.access(os.path.join(folder, "proxy.conf"), os.R_OK):
            _, written, said = run(sys.executable, CONVERTER, folder, os.path.join(folder, "clients.conf"), os.path.join(folder, "proxy.conf"))
            conf = tomllib.loads(written)
            want([it["name"] for it in conf["realm"]] == ["example.com"] and "18120" not in str(conf), said)
            with tempfile.NamedTemporaryFile("w", suffix=".conf") as made:
                made.write(written)
                made.flush()
                want(not roam or run(roam, "check", made.name)[0] == 0, f"roam accepts what is made of {folder}")


def over_tls(roam):
    """Clients and home servers that speak TLS."""
    texts = {}

    def look(directory, paths, written):
        texts.update(converter.look_at_front(directory, written, roam, CONVERTER, paths, True))
    conf, written = look_over("over TLS", {"proxy.conf": over_lines(OVER_TLS)}, roam, [], look)
    want([(it["name"], it["ip"], it["secret"]) for it in conf["peer"]] == [("uni-a", "127.1.0.1", "radsec"), ("second", "127.1.0.2", "radsec")])
    home, every = conf["realm"]
    want(conf["auth"] == "127.0.0.1:1812" and home["out"] == "127.0.0.1:20001")
    want(home["server"] == [{"auth": "127.2.0.1:1812", "acct": "127.2.0.1:1813", "secret": "radsec"}], f"{home['server']}")
    want(every["server"] == [{"auth": "127.2.0.2:1812", "acct": "127.2.0.2:1813", "secret": "radsec"}], f"{every['server']}")
    want("verifyhost radius.home.example " in texts["haproxy.cfg"] and "server home upper.example:2083 ssl" in texts["haproxy.cfg"], texts["haproxy.cfg"])
    want("bind :2083 ssl crt /etc/roam/tls/own.pem ca-file /etc/roam/tls/ca.pem crl-file" in texts["haproxy.cfg"], texts["haproxy.cfg"])
    want("/etc/ssl/own.pem and /etc/ssl/own.key in one file" in written and "client second" not in texts["names.map"])


def main():
    [roam] = words(__doc__, 0, 1) or [None]
    be_quiet()
    program = shutil.which("freeradius") or "/usr/sbin/freeradius"
    radiusd = RADIUSD.format(root=re.sub("/usr/sbin/freeradius$", "", program), directory="{directory}", auth="no")
    conf, text = look_over("each kind", {"radiusd.conf": over_lines(radiusd), "clients.conf": over_lines(CLIENTS), "proxy.conf": over_lines(PROXY)}, roam, LOST)
    for kind, what in TOLD:
        want(any(line.startswith(f"# {kind}: ") and what in line for line in text.splitlines()), what)
    want([(it["name"], it["ip"], it["secret"]) for it in conf["peer"]][:3] == [
        ("first", "192.0.2.1", 'a "secret" # of one'), ("192.0.2.2", "192.0.2.2", "of-two"), ("wired", "192.0.2.16/30", "of wired")])
    first = conf["peer"][0]
    want(first["coa"] == "192.0.2.1:3799" and first["nas_ip"] == "192.0.2.1" and first["limit_proxy_state"] and "require_seal" not in first)
    want([it["name"] for it in conf["peer"] if it.get("require_seal")] == ["wired"])
    want([it["ip"] for it in conf["peer"] if "coa" not in it] == [
        "192.0.2.2", "192.0.2.16/30", "10.20.0.0/16", ["192.0.2.50", "192.0.2.51"], "192.0.2.52", "192.0.2.40"])
    # Clients of one shortname and one secret are one peer.
    want([(it["name"], it["secret"]) for it in conf["peer"] if it["name"].startswith("pair")] == [("pair", "of-both"), ("pair-2", "of-another")])
    a, b, x, six, both, every = conf["realm"]
    want(six["out"].startswith("[::1]:") and [it["auth"] for it in six["server"]] == ["[2001:db8::2]:1812"])
    want([it["auth"] for it in both["server"]] == ["198.51.100.1:1812", "[2001:db8::2]:1812"])
    want([it.rpartition(":")[0] for it in both["out"]] == ["203.0.113.11", "[::1]"])
    want(a["server"] == [{"auth": "198.51.100.1:1812", "acct": "198.51.100.1:1813", "secret": "of-home", "require_seal": True}])
    want((a["wait"], a["rest"], a["out"], a["reverse"], a["hold"]) == (4000, 60000, "203.0.113.11:20001", "203.0.113.10:3799", 7000))
    want(b["also"] == ["*.b.example"] and b["server"][0]["acct"] == "198.51.100.2:11813" and "rest" not in b and b["reverse"] != a["reverse"])
    want(x["accounting"] == every["accounting"] == "answer" and every["also"] == ["*"] and every["rest_after"] == 50)
    want(conf["reject"] == ["here.example"] and conf["log_exchanges"] == "none" and "status_server" not in conf)
    want(conf["log_station"] == "hmac" and "18120" not in str(conf["auth"]))
    want([it["name"] for it in conf["realm"] if it.get("balance")] == ["b.example"] and b["balance"] == "user")
    want(b["conversations"] and "conversations" not in a and a["own_sessions"] and "own_sessions" not in x and conf["max_attributes"] == 150)
    print(f"{agree(converter.realms_in_roam(conf))} names mean the same realm")
    over_tls(roam)
    with tempfile.NamedTemporaryFile("w", suffix=".conf") as file:
        file.write('client one {\n  secret = "never shown\n}\n')
        file.flush()
        status, _, said = run(sys.executable, CONVERTER, file.name)
        want((status, said) == (1, f"from-freeradius.py: {file.name}:2: a quotation mark without its end\n"), said)
    look_at_stock(roam)
    files = {it: open(os.path.join(ROOT, "examples", "migrating", it), encoding="utf-8").read() for it in ("clients.conf", "proxy.conf")}
    conf, _ = look_over("examples/migrating", files, roam, [])
    with open(os.path.join(ROOT, "examples", "migrating", "roam.conf"), "rb") as file:
        page = tomllib.load(file)
    for key in ("auth", "acct", "max_hops", "status_server", "answer_unnamed"):
        want(conf[key] == page[key], key)
    for key in ("name", "ip", "secret", "require_seal", "coa"):
        want(conf["peer"][0][key] == page["peer"][0][key], key)
    for key in ("name", "out", "server"):
        want(conf["realm"][0][key] == page["realm"][0][key], key)
    return end("examples/migrating is as its roam.conf has it")


if __name__ == "__main__":
    sys.exit(main())
