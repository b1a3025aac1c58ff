#!/usr/bin/env python3
"""try-converter.py [ROAM]

Tries from-radsecproxy.py on a file of eduroam's kind, with 12 clients, 8 servers and 12 realms, on one that rewrites
attributes, and on one of 500 realms. Where radsecproxy is installed, it judges them (`-p`). What is written has to keep
docs/FILES.md, and to choose for each of many names the realm that radsecproxy chooses. Where a program ROAM is given,
`roam check` judges it too.
"""

import argparse
import ipaddress
import os
import random
import re
import shutil
import subprocess
import sys
import tempfile
import tomllib

sys.dont_write_bytecode = True
from looks import be_quiet, changed, end, over_lines, want, words

HERE = os.path.dirname(os.path.abspath(__file__))
ROOT = os.path.dirname(os.path.dirname(HERE))
INSTALLED = os.path.join(os.path.dirname(HERE), "installed")
sys.path.insert(0, INSTALLED)
import converted_conf  # noqa: E402
import radsecproxy_conf  # noqa: E402
import radsecproxy_names  # noqa: E402

CONVERTER = os.path.join(INSTALLED, "from-radsecproxy.py")

# Files of radsecproxy; a block on one line stands for one over several.
EDUROAM = r"""# A national proxy's server, as one meets it
ListenUDP 203.0.113.10:1812
ListenUDP 203.0.113.10:1813
SourceUDP 203.0.113.10
LogLevel 3
LogDestination x-syslog:///LOG_LOCAL0
LoopPrevention on
FTicksReporting Full
FTicksKey "a key"

rewrite no-vlan { removeAttribute 81 }

client wireless-1 { host 192.0.2.1; type udp; secret "a\bc%41 d"; duplicateInterval 10; fticksVISCOUNTRY EX }
client wireless-2 { host 192.0.2.2; host 192.0.2.3; type udp; secret 'it is "quoted"' }
client access-points { host 192.0.2.128; host 192.0.2.129; host 192.0.2.130; host 192.0.2.131; host 192.0.2.132; host 192.0.2.133; host 192.0.2.134; host 192.0.2.135; host 192.0.2.136; host 192.0.2.128; host 192.0.2.2; type udp; secret of-nine }
client wired { host 192.0.2.16/30; type udp; secret prefix-of-four; rewriteIn no-vlan }
client wired-1 { host 192.0.2.18; type udp; secret one-of-four }
client dormitories { host 10.20.0.0/16; type udp; secret prefix-of-many }
client upper-1 { host 198.51.100.1; type udp; secret "the secret of the first upper server" }
client upper-2 { host 198.51.100.2; type udp; secret "the secret of the second upper server" }
client of-six { host [2001:db8::1]; type udp; secret of-six }
client named { host localhost; ipv4only on; type udp; secret named }
client long { host 192.0.2.40; type udp; secret 123456789012345678901234567890123456789012345678901234567890123456789012345678901234567890 }
client again { host 192.0.2.1; type udp; secret again }

server upper-1 { host 198.51.100.1; type udp; secret "the secret of the first upper server"; statusServer on; retryCount 1; retryInterval 3 }
server upper-2 { host 198.51.100.2; type udp; secret "the secret of the second upper server"; statusServer on; retryCount 1; retryInterval 3 }
server home-1 { host 198.51.100.17; type udp; secret "the secret of home" }
server home-1-acct { host 198.51.100.17; port 1813; type udp; secret "the secret of home" }
server home-2 { host 198.51.100.18; port 11812; type udp; secret "the secret of the second"; loopPrevention off }
server books { host 198.51.100.19; port 1813; type udp; secret "another secret" }
server of-six { host [2001:db8::2]; type udp; secret of-six }
server spare-six { host [2001:db8::3]; type tcp; secret spare-six }
server spare { host 198.51.100.20; type udp; secret spare }

realm /^$/ { replymessage "no name" }
realm /@$/ { replymessage "no realm" }
realm /@(.+\.)?myabc\.com$/ { replymessage "a default of some device" }
realm /@.+\.3gppnetwork\.org$/ { replymessage "no telephones" }
realm suspended.example { replymessage "suspended" }
realm home.example { server home-1; server home-2; accountingServer home-1-acct }
realm /\.home\.example$/ { server home-1; accountingServer books }
realm lab.home.example { server home-2 }
realm /@(.+\.)?inst2\.example$/ { server home-2; accountingResponse on }
realm six.example { server of-six }
realm both.example { server home-2; server of-six }
realm seven.example { server spare-six }
realm /^[a-k].*@half\.example$/ { server home-2 }
realm * { server upper-1; server upper-2; accountingServer upper-1; accountingServer upper-2 }
"""

# Words that must stand in a comment, beside whether something is lost by it.
TOLD = [("Not carried over", what) for what in (
    "loglevel 3", "logdestination", "fticksreporting Full", "ftickskey:",
    "of-six: [2001:db8::1] is of IPv6, and `auth` of IPv4", "wired-1: 192.0.2.18 is in 192.0.2.16/30", "localhost is a name", "90 octets", "192.0.2.1 is a client before it",
    "lab.home.example is never reached", "accountingserver upper-1: \"198.51.100.1:1812\" is an endpoint of this realm already",
    "spare-six: no TCP",
    "realm seven.example: none of its servers could be carried over. The realm of * takes",
    "realm /^[a-k].*@half\\.example$/: neither", "server spare: no realm")]
TOLD += [("Changed", what) for what in (
    "takes Access and accounting", "loopprevention compares", "no Status-Server is sent",
    "realm /^$/: it has no server. Its names get an Access-Reject, without a Reply-Message",
    "realm suspended.example: it has no server", "realm /@.+\\.3gppnetwork\\.org$/: it has no server",
    "nothing behind its `@`", "of IPv6: write it in place of ::1", "its accounting goes to no server here")]

# What an operator decides: of each option of rewrite blocks, loops, accounting and realms without a server.
DECIDED = r"""# An operator who takes out, supplements and rejects
ListenUDP 203.0.113.10:1812
SourceUDP 203.0.113.10
LoopPrevention on
LogMAC FullyHashed

rewrite defaultClient {
    removeAttribute 126
    addAttribute 126:'1visited.example
    supplementAttribute 89:%00
    removeVendorAttribute 9:1
    removeVendorAttribute 311
    modifyAttribute 1:/^(.*)@local$/\1@a.example/
    addAttribute 6:2
    supplementAttribute 126:1visited.example
    removeAttribute 33
}
rewrite guests { removeAttribute 64; removeAttribute 65; removeAttribute 81; removeAttribute 81; supplementAttribute 27:3600 }
rewrite only-some { whitelistMode on; whitelistAttribute 1 }
rewrite towards-home { removeAttribute 30; supplementAttribute 126:'4EVERYBODY:US }
rewrite spare { removeAttribute 6 }

client one { host 192.0.2.1; type udp; secret of-one; rewriteOut guests }
client two { host 192.0.2.2; type udp; secret of-two; rewriteIn only-some }
client upper { host 198.51.100.1; type udp; secret of-upper; rewriteIn guests }
client elsewhere { host 192.0.2.4; type udp; secret of-elsewhere; rewrite towards-home }

server upper { host 198.51.100.1; type udp; secret of-upper; rewriteIn guests }
server home { host 198.51.100.17; type udp; secret of-home; rewriteOut towards-home }
server home-acct { host 198.51.100.17; port 1813; type udp; secret of-home; rewriteOut towards-home }
server home-2 { host 198.51.100.18; type udp; secret of-home; loopPrevention off }
server elsewhere { host 198.51.100.33; type udp; secret of-elsewhere }

realm shut.a.example { }
realm /@(.+\.)?a\.example$/ { server home; server home-2; accountingServer home-acct }
realm b.example { server elsewhere; accountingResponse on }
realm c.example { server elsewhere }
realm /@.+\.3gppnetwork\.org$/ { replyMessage "no telephones"; accountingResponse on }
realm * { server upper }
"""

DECIDED_TOLD = [("Not carried over", what) for what in (
    "the block rewrite defaultClient, for requests of a client: modifyattribute",
    "the block rewrite defaultClient, for requests of a client: addattribute 6:2",
    "the block rewrite defaultClient, for requests of a client: supplementattribute 126:1visited.example",
    "the block rewrite defaultClient, for requests of a client: removeattribute 33",
    "the block rewrite guests, for replies of a client: supplementattribute 27:3600",
    "the block rewrite only-some, for requests of a client: whitelistmode on",
    "the block rewrite towards-home, for requests of a server: supplementattribute 126:'4EVERYBODY:US",
    "the block rewrite spare: nothing uses it", "loopprevention of server elsewhere: the client of this name has another address",
    "accountingresponse on: accounting of a name that is rejected")]
DECIDED_TOLD += [("Changed", what) for what in (
    "asks for a Chargeable-User-Identity in accounting too", "its servers differ in what is taken out of a request",
    "realm shut.a.example: it has no server. Its names get an Access-Reject, where radsecproxy keeps silent")]
# Endpoints, clients and servers of both kinds.
BOTH_KINDS = """ListenUDP 203.0.113.10:1812
ListenUDP 203.0.113.10:1813
ListenUDP [2001:db8:1::10]:1812
ListenUDP [2001:db8:1::10]:1813
client of-four { host 192.0.2.1; type udp; secret of-four }
client of-six { host [2001:db8::]/48; type udp; secret of-six }
server four { host 198.51.100.17; type udp; secret of-home }
server four-acct { host 198.51.100.17; port 1813; type udp; secret of-home }
server six { host [2001:db8:2::17]; type udp; secret of-home }
server six-acct { host [2001:db8:2::17]; port 1813; type udp; secret of-home }
realm a.example { server four; server six; accountingServer four-acct; accountingServer six-acct }
"""
# A national proxy by TLS: clients that are told by their certificates, in each way in which that is said, and servers.
OVER_TLS = r"""ListenTLS 203.0.113.10:2083
ListenTLS [2001:db8:1::10]
SourceTLS 203.0.113.10
LoopPrevention on
tls default { CACertificateFile /etc/ssl/eduroam.pem; CertificateFile /etc/ssl/own.pem; CertificateKeyFile /etc/ssl/own.key; CRLCheck on }
client uni-a { host 192.0.2.1; type tls; tls default; certificateNameCheck off; matchCertificateAttribute SubjectAltName:DNS:/^radius\.uni-a\.example$/ }
client upper { host upper.example; type tls; tls default; secret radsec }
client upper-six { host upper.example; type tls; ipv6only on }
client anybody { host 192.0.2.3; type tls; certificateNameCheck off; tcpKeepalive on; rewriteIn no-vlan }
client wired { host 192.0.2.4; type udp; secret "the secret of wired" }
client by-dtls { host 192.0.2.5; type dtls }
rewrite no-vlan { removeAttribute 81 }
server upper { host upper.example; type tls; tls default; secret radsec; statusServer on }
server uni-a { host 192.0.2.1; port 2084; type tls; matchCertificateAttribute CN:/^radius\.uni-a\.example$/; loopPrevention off }
server uni-b { host 198.51.100.5; type udp; secret "the secret of uni-b" }
realm uni-a.example { server uni-a; accountingServer uni-a }
realm uni-b.example { server uni-b; server uni-a }
realm * { server upper; accountingServer upper }
"""
OVER_TLS_TOLD = [("Changed", what) for what in (
    "client uni-a: haproxy has its TLS", "names.map has radius.uni-a.example as the common name", "client upper-six: its certificate is peer upper's",
    "client anybody: write the common name of its certificate", "the block tls default: haproxy has /etc/roam/tls/own.pem, which is /etc/ssl/own.pem and /etc/ssl/own.key",
    "server upper: haproxy opens its TLS")] + [("Not carried over", "client by-dtls: no DTLS")]
# Options of radsecproxy 1.11, which an older one doesn't know.
NEWER = """ListenUDP 203.0.113.10:1812
client one { host 192.0.2.1; type udp; secret of-one; requireMessageAuthenticatorProxy on }
client two { host 192.0.2.2; type udp; secret of-two; requireMessageAuthenticator on; requireMessageAuthenticatorProxy on }
server home { host 198.51.100.17; type udp; secret of-home; requireMessageAuthenticator on }
realm a.example { server home }
"""


# Expressions over the User-Name, and what they take of names behind its `@`: None where that isn't names and ends.
# Where the last word is false, the converter has to say that something changed.
EXPRESSIONS = [
    (r"/@example\.com$", ["example.com"], True),
    (r"/@example\.com$/", ["example.com"], True),
    (r"/@.*\.com$/", ["*.com"], True),
    (r"/\.example$/", ["*.example"], True),
    (r"/^.+@([^@.]+\.)*a\.example$/", ["a.example", "*.a.example"], True),
    (r"/@(.+\.)?a\.example$/", ["a.example", "*.a.example"], True),
    (r"/(@|\.)a\.example$/", ["a.example", "*.a.example"], True),
    (r"/[@.]a\.example$/", ["*.a.example", "a.example"], True),
    (r"/@(a|b)\.example$/", ["a.example", "b.example"], True),
    (r"/@a\.example$|@b\.example$/", ["a.example", "b.example"], True),
    (r"/@(.*\.)?(tu|uni)-a\.example$/", ["tu-a.example", "uni-a.example", "*.tu-a.example", "*.uni-a.example"], True),
    (r"/@[Aa]\.example$/", ["a.example"], True),
    (r"/@[a-z0-9.-]+\.example$/", ["*.example"], True),
    (r"/.*/", ["*"], True),
    (r"/@/", ["*"], True),
    (r"/@(.*)$/", ["*"], True),
    (r"/@$/", [], True),
    (r"/@[^.]+\.example$/", ["*.example"], False),
    (r"/@.*a\.example$/", ["a.example", "*.a.example"], False),
    (r"/a.example$/", ["a.example", "*.a.example"], False),
    (r"/@a\.example/", ["a.example"], False),
    (r"/^[a-k].*@a\.example$/", None, True),
    (r"/^anonymous@a\.example$/", None, True),
    (r"/^anonymous$/", None, True),
    (r"/^[^@]+$/", None, True),
    (r"/^$/", None, True),
    (r"/@wlan\.mnc(.*)\.org$/", None, True),
    (r"/@{2}/", None, True),
    (r"/@(a\.)+example$/", None, True),
    (r"/@a_b\.example$/", None, True),
    (r"/ /", None, True),
    (r"/@(a/", None, True),
]


# What of it is lost as a whole.
LOST = ["the accounting of realm *", "client of-six", "client named", "client long", "realm seven.example",
        r"realm /^[a-k].*@half\.example$/"]


def five_hundred():
    text = "ListenUDP 203.0.113.10:1812\n"
    text += "".join(f"client nas{n} {{\n host 192.0.2.{n}\n type udp\n secret secret-of-nas{n}\n}}\n"
                    for n in range(1, 101))
    text += "".join(f"server s{n} {{\n host 198.51.{n // 250}.{n % 250 + 1}\n type udp\n secret secret-of-{n}\n}}\n"
                    for n in range(500))
    for n in range(499):
        name = f"org{n}.example" if n % 3 else rf"/@(.+\.)?org{n}\.example$/"
        text += f"realm {name} {{\n server s{n}\n server s{(n + 1) % 500}\n accountingServer s{n}\n}}\n"
    return text + "realm * {\n server s499\n}\n"


def run(words):
    return subprocess.run(words, capture_output=True, text=True)


def converted(path, lost):
    """What is written and counted. Where clients, realms or parts of them are lost, lines behind it name them; where whole ones, the status isn't 0."""
    done = run([sys.executable, CONVERTER, path])
    want(done.returncode == (1 if lost else 0), done.stderr)
    counted, _, named = done.stderr.partition("\n")
    want(all(it in named for it in lost), named)
    return done.stdout, counted


# The rules of docs/FILES.md, and of which realm a name means

def in_range(value, least, most):
    return type(value) is int and least <= value <= most


def is_endpoint(text):
    host, _, port = text.rpartition(":")
    if host.startswith("["):
        return ipaddress.IPv6Address(host[1:-1]) and host.endswith("]") and in_range(int(port), 1, 65535)
    return ipaddress.IPv4Address(host) and in_range(int(port), 1, 65535)


def all_of(table, key):
    """The endpoints of a key, which may have one or an array."""
    value = table.get(key, [])
    return [value] if isinstance(value, str) else value


def is_of_ipv6(endpoint):
    return endpoint.startswith("[")


def keeps_lists(table):
    """Attributes that don't pass."""
    for key, kept in (("request_without", (1, 2, 3, 24, 33, 60, 79, 80)), ("reply_without", (24, 33, 79, 80))):
        without = table.get(key, [])
        want(len(set(without)) == len(without) <= 64)
        for one in without:
            numbers = [int(it) for it in one.split(".")]
            want(one == ".".join(map(str, numbers)) and in_range(numbers[0], 1, 255) and numbers[0] not in kept)
            want(len(numbers) == 1 or numbers[0] == 26 and len(numbers) <= 3)


def keeps_the_rules(conf):
    want(set(conf) <= {"auth", "acct", "max_attributes", "max_hops", "status_server", "answer_unnamed", "reject", "control", "log_exchanges",
                         "log_station", "peer", "realm"})
    want(1 <= len(conf["peer"]) <= 1024 and 1 <= len(conf["realm"]) <= 1024)
    for peer in conf["peer"]:
        want(set(peer) <= {"name", "ip", "secret", "require_seal", "limit_proxy_state", "operator_name", "operator_namespace", "ask_cui",
                             "request_without", "reply_without", "coa", "nas_ip", "nas_ipv6"})
        keeps_lists(peer)
        want(isinstance(peer["ip"], str) or 2 <= len(peer["ip"]) <= 8)
        for prefix in all_of(peer, "ip"):
            want(str(ipaddress.ip_network(prefix)).removesuffix("/32").removesuffix("/128") == prefix)
        want(re.fullmatch(r"[A-Za-z0-9._-]{1,64}", peer["name"]) and 1 <= len(peer["secret"].encode()) <= 64)
    names, endpoints = [], [*all_of(conf, "auth"), *all_of(conf, "acct")]
    for realm in conf["realm"]:
        want(set(realm) <= {"name", "also", "out", "reverse", "tries", "wait", "rest", "rest_after", "balance", "hold", "max_pending", "accounting",
                              "loop_prevention", "request_without", "reply_without", "conversations", "own_sessions", "server"})
        want(realm.get("conversations", False) == (sum("auth" in server for server in realm["server"]) > 1))
        want(realm.get("own_sessions", False) == ("reverse" in realm and "accounting" not in realm))
        keeps_lists(realm)
        names += [realm["name"]] + realm.get("also", [])
        endpoints += [it for key in ("out", "reverse") for it in all_of(realm, key)]
        want(realm.get("accounting") in (None, "answer", "drop"))
        want(any("acct" in server for server in realm["server"]) == ("accounting" not in realm))
        want(any("auth" in server for server in realm["server"]))
        servers = [server[key] for server in realm["server"] for key in ("auth", "acct") if key in server]
        want(len(set(servers)) == len(servers) and all(map(is_endpoint, servers)))
        want(set(map(is_of_ipv6, all_of(realm, "out"))) == set(map(is_of_ipv6, servers)))
        want(1 <= len(realm["server"]) <= 8 and len(realm.get("also", [])) <= 256)
        want(in_range(realm.get("tries", 3), 1, 10) and in_range(realm.get("wait", 2000), 1, 60000))
        want(in_range(realm.get("rest", 30000), 0, 3600000) and in_range(realm.get("rest_after", 3), 1, 256) and in_range(realm.get("hold", 10000), 0, 60000))
    want(len(conf.get("reject", [])) <= 1024 and "*" not in conf.get("reject", []))
    names += conf.get("reject", [])
    for name in names:
        want(re.fullmatch(r"(\*\.)?[A-Za-z0-9.-]{1,253}|\*", name), name)
    for unique in ([name.lower() for name in names], endpoints, [it for peer in conf["peer"] for it in all_of(peer, "ip")],
                   [peer["name"] for peer in conf["peer"]]):
        want(len(set(unique)) == len(unique))
    want(all(map(is_endpoint, endpoints)))


def realms_in_roam(conf):
    """Which realm a name means: by its whole name, else by the longest suffix, else by `*`; of those that are rejected, None."""
    patterns = {pattern.lower(): realm for realm in conf["realm"] for pattern in [realm["name"]] + realm.get("also", [])}
    patterns.update((pattern.lower(), None) for pattern in conf.get("reject", []))
    suffixes = sorted((pattern for pattern in patterns if pattern.startswith("*.")), key=len, reverse=True)

    def realm_of(user):
        if "@" not in user:
            return None
        name = user.rpartition("@")[2].lower()
        if name in patterns and name != "*" and not name.startswith("*."):
            return patterns[name]
        found = [it for it in suffixes if name.endswith(it[1:]) and len(name) >= len(it)]
        return patterns[found[0]] if found else patterns.get("*") if name else None
    return realm_of


def blocks_in_radsecproxy(blocks):
    """The first block that takes the name. radsecproxy takes a name without `@` by `*` too."""
    expressions = [re.compile(block.name[1:].removesuffix("/"), re.IGNORECASE) if block.name.startswith("/") else None for block in blocks]
    read = list(zip(blocks, expressions, [block.name.lower() for block in blocks]))

    def block_of(user):
        name = user.rpartition("@")[2].lower() if "@" in user else None
        return next((block for block, expression, whole in read
                     if whole == "*" or (expression.search(user) if expression else whole == name)), None)
    return block_of


def users(blocks, conf):
    """Names of realms, of what stands under them and beside them, in either case."""
    chance = random.Random(7)
    bases = [pattern.removeprefix("*").removeprefix(".") or "elsewhere.example"
             for realm in conf["realm"] for pattern in [realm["name"]] + realm.get("also", [])]
    bases += [block.name for block in blocks if re.fullmatch(r"[a-z0-9.-]+", block.name)]
    bases += ["nowhere.example", "myabc.com", "a.b.3gppnetwork.org", "example"]
    for base in bases:
        for name in (base, "x." + base, "y.x." + base, "x" + base, base + "x", base.partition(".")[2]):
            if name and not name.endswith(".invalid"):
                yield f"u{chance.randrange(99)}@" + (name.upper() if chance.randrange(3) == 0 else name)


def agree(conf, blocks):
    """Each name means the realm that was made of the block that radsecproxy takes, where that was carried over."""
    told, block_of, realm_of = 0, blocks_in_radsecproxy(blocks), realms_in_roam(conf)
    for user in users(blocks, conf):
        there, here = block_of(user), realm_of(user)
        if there is None or there.name in NOT_CARRIED:
            continue
        told += 1
        if not there.all("server"):
            want(here is None, f"{user}: {there.name}, and not {here}")
        else:
            want(here is not None, f"{user}: {there.name}, and nothing")
            want(here["of"] == there.name, f"{user}: {there.name}, and not {here}")
    return told


def with_origin(conf, blocks):
    """Says of each realm which block it was made of: both stand in one order."""
    carried = [block for block in blocks if block.all("server") and block.name not in NOT_CARRIED]
    want(len(carried) == len(conf["realm"]), f"{len(carried)} realms, and not {len(conf['realm'])}")
    for realm, block in zip(conf["realm"], carried):
        realm["of"] = block.name


# Realms of the first file that roam can't have.
NOT_CARRIED = {"lab.home.example", "seven.example", "/^[a-k].*@half\\.example$/"}


def look_over(name, text, peers, realms, told, lost, roam, is_old=True, look=None):
    with tempfile.TemporaryDirectory() as directory:
        path = os.path.join(directory, name)
        with open(path, "w") as file:
            file.write(over_lines(text, 4))
        if is_old and shutil.which("radsecproxy"):
            judged = run(["radsecproxy", "-p", "-c", path])
            want(judged.returncode == 0, judged.stderr)
        written, counted = converted(path, lost)
        conf = tomllib.loads(written)
        keeps_the_rules(conf)
        want((len(conf["peer"]), len(conf["realm"])) == (peers, realms), counted)
        for kind, what in told:
            want(any(line.startswith(f"# {kind}: ") and what in line for line in written.splitlines()), what)
        blocks = [block for block in radsecproxy_conf.blocks_of(path)[1] if block.kind == "realm"]
        with_origin(conf, blocks)
        names = agree(conf, blocks)
        if roam:
            made = os.path.join(directory, "roam.conf")
            with open(made, "w") as file:
                file.write(written)
            judged = run([roam, "check", made])
            want(judged.stdout == f"ok realms {realms} peers {peers} shards 1\n", judged.stdout + judged.stderr)
        if look:
            look(directory, written)
        print(f"{name}: {counted.strip()}; {names} names mean the same realm")
    return conf


def look_at_front(directory, written, roam, converter, paths, take):
    """What is written for haproxy and `roam streams`, once as files and once as comments: the two are the same. Returns the
    lines of each file."""
    texts, folder = {}, os.path.join(directory, "front")
    done = run([sys.executable, converter, *paths, "--front", folder])
    want("--front" not in done.stdout and "--front" in written, done.stderr)
    for name in ("haproxy.cfg", "names.map", "streams.conf"):
        with open(os.path.join(folder, name), encoding="utf-8") as file:
            texts[name] = file.read()
        comments = written.split(f"# {name} (--front FOLDER writes it):\n")[1]
        want(comments.startswith("".join(f"#   {line}".rstrip() + "\n" for line in texts[name].splitlines())), name)
    streams, conf = tomllib.loads(texts["streams.conf"]), tomllib.loads(written)
    if take:
        want(streams["auth"] in all_of(conf, "auth") and streams["acct"] in all_of(conf, "acct"), f"{streams}")
    asked = {server[key] for realm in conf["realm"] for server in realm["server"] for key in ("auth", "acct") if key in server and server[key].startswith("127.")}
    at = [it for server in streams["server"] for it in server["at"]]
    bound = re.findall(r"^    bind (127\.\S+)$", texts["haproxy.cfg"], re.M)
    want(sorted(asked) == sorted(at) == sorted(bound), f"{asked} {at} {bound}")
    addresses = re.findall(r"^    server (\S+) \S+ source (\S+) maxconn 16 weight 0$", texts["haproxy.cfg"], re.M)
    want(addresses == [(it["name"], it["ip"]) for it in conf["peer"] if all_of(it, "ip")[0].startswith("127.")], f"{addresses}")
    want(all(f" {it} " in texts["haproxy.cfg"] for it in streams.get("take", [])), "haproxy hands on where connections are taken")
    if roam:
        judged = run([roam, "check", "--streams", os.path.join(folder, "streams.conf")])
        want(judged.stdout == f"ok servers {len(streams['server'])}\n", judged.stdout + judged.stderr)
    return texts


def over_tls(roam):
    """Clients and servers that speak TLS."""
    texts = {}

    def look(directory, written):
        texts.update(look_at_front(directory, written, roam, CONVERTER, [os.path.join(directory, "over-tls.conf")], True))
    conf = look_over("over-tls.conf", OVER_TLS, 4, 3, OVER_TLS_TOLD, ["client by-dtls"], roam, is_old=False, look=look)
    want([(it["name"], it["ip"], it["secret"]) for it in conf["peer"]] == [
        ("uni-a", "127.1.0.1", "radsec"), ("upper", "127.1.0.2", "radsec"), ("anybody", "127.1.0.3", "radsec"), ("wired", "192.0.2.4", "the secret of wired")])
    want(conf["peer"][2]["request_without"] == ["81"] and conf["auth"] == "203.0.113.10:1812")
    a, b, every = conf["realm"]
    want(a["server"] == [{"auth": "127.2.0.1:1812", "acct": "127.2.0.1:1813", "secret": "radsec"}] and a["out"] == "127.0.0.1:20001")
    want([it["auth"] for it in b["server"]] == ["198.51.100.5:1812", "127.2.0.1:1812"] and "loop_prevention" not in a)
    # Addresses are compared: so where nothing is to go back to a client, the server of its name has its address.
    want(every["loop_prevention"] and every["server"][0]["auth"] == "127.1.0.2:1812")
    want(texts["names.map"] == "radius.uni-a.example uni-a\nupper.example upper\n# The common name of its certificate: .. anybody\n", texts["names.map"])
    with tempfile.TemporaryDirectory() as directory:
        path = os.path.join(directory, "all.conf")
        with open(path, "w", encoding="utf-8") as file:
            file.write(over_lines(changed(OVER_TLS, re.compile(r"^client (wired|by-dtls) .*\n", re.M), ""), 4))
        alone = tomllib.loads(converted(path, [])[0])
        want((alone["auth"], alone["acct"]) == ("127.0.0.1:1812", "127.0.0.1:1813"), "where all clients speak TLS nobody else asks it")
    for line in ("    bind 203.0.113.10:2083 ssl crt /etc/roam/tls/own.pem ca-file /etc/roam/tls/ca.pem crl-file /etc/roam/tls/crl.pem verify required"
                 " ssl-min-ver TLSv1.2", "    bind [2001:db8:1::10]:2083 ssl crt",
                 "    server home 192.0.2.1:2084 ssl crt /etc/roam/tls/own.pem ca-file /etc/roam/tls/ca.pem crl-file /etc/roam/tls/crl.pem"
                 " verify required verifyhost radius.uni-a.example init-addr last,libc,none source 203.0.113.10\n",
                 "    server home upper.example:2083 ssl"):
        want(line in texts["haproxy.cfg"], line)


def read_expressions():
    for text, wanted, is_exact in EXPRESSIONS:
        try:
            found, notes = radsecproxy_names.items_of(text)
        except radsecproxy_names.NotASuffix:
            found, notes = None, []
        want(found == wanted and (not notes) == is_exact, f"{text}: {found} {notes}")
    print(f"{len(EXPRESSIONS)} expressions")


def read_addresses():
    """Endpoints and prefixes, and how they are written."""
    options = argparse.Namespace(resolve=False)
    for text, wanted in (("192.0.2.1", '"192.0.2.1:7"'), ("192.0.2.1:9", '"192.0.2.1:9"'), ("[2001:DB8::0:1]", '"[2001:db8::1]:7"'),
                         ("[2001:db8::1]:9", '"[2001:db8::1]:9"'), ("2001:db8::1", '"[2001:db8::1]:7"'), ("::ffff:192.0.2.1", '"192.0.2.1:7"')):
        want(converted_conf.endpoint_text(converted_conf.endpoint_of(text, 7, options)) == wanted, text)
    for text in ("*", "*:1812", "[::]", "::", "0.0.0.0:1812", "[fe80::1%eth0]", "[2001:db8::1", "[2001:db8::1]9x", "192.0.2.1:0", "a.example", "1.2.3"):
        want(converted_conf.endpoint_of(text, 7, options) is None, text)
    for text, wanted in (("192.0.2.18/30", "192.0.2.16/30"), ("192.0.2.1/32", "192.0.2.1"), ("2001:DB8::1/32", "2001:db8::/32"),
                         ("2001:db8::1", "2001:db8::1"), ("0.0.0.0/0", "0.0.0.0/0"), ("192.0.2.16/255.255.255.252", "192.0.2.16/30")):
        want(converted_conf.network_text(converted_conf.network_of(text)) == wanted, text)
    for text in ("::ffff:192.0.2.0/120", "192.0.2.0/33", "a.example/24", "", "0.0.0.0"):
        want(converted_conf.network_of(text) is None, text)


def network():
    """The network of examples/migrating: its roam.conf is what the converter writes, but for what is new there."""
    with open(os.path.join(ROOT, "examples", "migrating", "roam.conf"), "rb") as file:
        page = tomllib.load(file)
    written, counted = converted(os.path.join(ROOT, "examples", "migrating", "radsecproxy.conf"), [])
    made, usual = tomllib.loads(written), {"tries": 3, "wait": 2000, "rest": 30000, "rest_after": 3, "hold": 10000}
    for here, there in ((page, made), (page["peer"][0], made["peer"][0]), (page["realm"][0], made["realm"][0])):
        for key, value in there.items():
            want(key in ("peer", "realm", "control") or here.get(key, usual.get(key)) == value, f"{key} is {value}")
        new = {key for key in here if key not in there and usual.get(key) != here[key]}
        want(new <= {"require_seal", "coa", "nas_id", "reverse", "own_sessions"}, f"{new}")
    print(f"examples/migrating: {counted.strip()}; as its roam.conf has it")


def decided(conf):
    """What became of each option of DECIDED."""
    one, two, upper, elsewhere = conf["peer"]
    want(one["operator_name"] == "visited.example" and "operator_namespace" not in one and one["ask_cui"] and one["request_without"] == ["126", "26.9.1", "26.311"])
    want(one["reply_without"] == ["64", "65", "81"])
    want(set(two) == {"name", "ip", "secret"})
    want(upper["request_without"] == ["64", "65", "81"] and "reply_without" not in upper and "operator_name" not in upper)
    want((elsewhere["operator_namespace"], elsewhere["operator_name"]) == ("4", "EVERYBODY:US") and elsewhere["request_without"] == ["30"])
    a, b, c, every = conf["realm"]
    want(a["name"] == "a.example" and a["request_without"] == ["30"] and "accounting" not in a and "loop_prevention" not in a)
    want(b["accounting"] == "answer" and c["accounting"] == "drop" and "loop_prevention" not in b)
    want(every["loop_prevention"] and every["reply_without"] == ["64", "65", "81"] and every["accounting"] == "drop")
    want(conf["reject"] == ["shut.a.example", "*.3gppnetwork.org"] and conf["log_station"] == "hmac")


def main():
    [roam] = words(__doc__, 0, 1) or [None]
    be_quiet()
    read_expressions()
    network()
    conf = look_over("eduroam.conf", EDUROAM, 8, 6, TOLD, LOST, roam)
    want("log_exchanges" not in conf and conf["control"] == "/run/roam/control" and conf["answer_unnamed"])
    want(conf["reject"] == ["myabc.com", "*.myabc.com", "*.3gppnetwork.org", "suspended.example"])
    want([realm.get("accounting") for realm in conf["realm"]] == [None, None, "answer", "drop", "drop", "drop"])
    want([(peer["name"], peer["ip"]) for peer in conf["peer"] if peer.get("request_without") == ["81"]] == [("wired", "192.0.2.16/30")])
    want([peer["ip"] for peer in conf["peer"] if "/" in peer["ip"]] == ["192.0.2.16/30", "10.20.0.0/16"])
    # A client of several hosts is one peer; of more than eight, one for each eight.
    want([(peer["name"], peer["ip"]) for peer in conf["peer"] if peer["ip"].__class__ is list] == [
        ("wireless-2", ["192.0.2.2", "192.0.2.3"]), ("access-points", [f"192.0.2.{n}" for n in range(128, 136)])])
    want([peer["ip"] for peer in conf["peer"] if peer["name"] == "access-points-2"] == ["192.0.2.136"])
    want(conf["realm"][3]["out"].startswith("[::1]:") and conf["realm"][3]["server"][0]["auth"] == "[2001:db8::2]:1812")
    want([server["auth"] for server in conf["realm"][4]["server"]] == ["198.51.100.18:11812", "[2001:db8::2]:1812"])
    want([it.rpartition(":")[0] for it in conf["realm"][4]["out"]] == ["203.0.113.10", "[::1]"])
    want([peer["secret"] for peer in conf["peer"]][:4] == ["a\\bcA d", 'it is "quoted"', "of-nine", "of-nine"])
    last = conf["realm"][5]
    want(last["also"] == ["*"] and last["tries"] == 2 and last["wait"] == 3000 and last["loop_prevention"] and last["rest_after"] == 50)
    want(conf["realm"][0]["server"] == [
        {"auth": "198.51.100.17:1812", "acct": "198.51.100.17:1813", "secret": "the secret of home"},
        {"auth": "198.51.100.18:11812", "secret": "the secret of the second"}])
    want(conf["realm"][1]["server"] == [
        {"auth": "198.51.100.17:1812", "secret": "the secret of home"}, {"acct": "198.51.100.19:1813", "secret": "another secret"}])
    decided(look_over("decided.conf", DECIDED, 4, 4, DECIDED_TOLD, [], roam))
    both = look_over("both-kinds.conf", BOTH_KINDS, 2, 1, [], [], roam)
    want(both["auth"] == ["203.0.113.10:1812", "[2001:db8:1::10]:1812"] and both["acct"] == ["203.0.113.10:1813", "[2001:db8:1::10]:1813"])
    want(both["realm"][0]["out"] == ["203.0.113.10:20001", "[2001:db8:1::10]:20001"])
    want([it["acct"] for it in both["realm"][0]["server"]] == ["198.51.100.17:1813", "[2001:db8:2::17]:1813"])
    newer = look_over("newer.conf", NEWER, 2, 1, [], [], roam, is_old=False)
    want([(peer.get("require_seal"), peer.get("limit_proxy_state")) for peer in newer["peer"]] == [(None, True), (True, None)])
    want(newer["realm"][0]["accounting"] == "drop" and newer["realm"][0]["server"][0]["require_seal"])
    over_tls(roam)
    read_addresses()
    look_over("five-hundred.conf", five_hundred(), 100, 500, [], [], roam)
    private = look_over("private.conf", "LogFullUsername off\n" + five_hundred(), 100, 500, [], [], roam)
    want((private["log_exchanges"], private["log_station"]) == ("none", "hmac"))
    hashed = look_over("hashed.conf", "LogMAC VendorKeyHashed\nLogKey salt\n" + five_hundred(), 100, 500, [], [], roam)
    want("log_exchanges" not in hashed and hashed["log_station"] == "hmac")
    named = changed(five_hundred(), "host 192.0.2.100", "host localhost")
    look_over("named.conf", named, 99, 500, [("Not carried over", "localhost is a name")], ["client nas100"], roam)
    return end()


if __name__ == "__main__":
    sys.exit(main())
