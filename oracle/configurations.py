"""The configurations of the rows, each under the name that the rows say."""
import json
import re

TOP = '''shards = {shards}
seed = "{seed}"
auth = "127.0.0.1:1812"
acct = "127.0.0.1:1813"
trace_limit = {trace_limit}
'''
NAS1 = '''
[[peer]]
name = "nas1"
ip = "192.0.2.1"
secret = "xyzzy5461"
coa = "192.0.2.1:3799"
nas_ip = "192.0.2.1"
nas_id = "nas1"
'''
# An access server that can't be reached by Disconnect and CoA, and whose Access-Requests must be sealed.
NAS2 = '''
[[peer]]
name = "nas2"
ip = "192.0.2.2"
secret = "s"
require_seal = true
'''
# Access servers that Disconnect and CoA reach by name alone, and by address alone.
NAS3 = '''
[[peer]]
name = "nas3"
ip = "192.0.2.3"
secret = "0123456789abcdef0123456789abcdef0123456789abcdef0123456789abcdef"
coa = "192.0.2.3:3799"
nas_id = "n"
'''
NAS4 = '''
[[peer]]
name = "nas4"
ip = "192.0.2.4"
secret = "k4"
coa = "192.0.2.1:3798"
nas_ip = "192.0.2.3"
'''
# One that is known by name, and has no `coa`.
NAS5 = '''
[[peer]]
name = "nas5"
ip = "192.0.2.5"
secret = "k5"
nas_id = "nas5"
'''
# A home server that is an access server too.
HOME1 = '''
[[peer]]
name = "home1"
ip = "198.51.100.1"
secret = "h1"
'''
REALM = '''
[[realm]]
name = "{name}"
out = "127.0.0.1:{out}"
reverse = "127.0.0.1:{reverse}"
tries = {tries}
wait = {wait}
hold = {hold}
max_pending = {max_pending}
max_sessions = {max_sessions}
'''
SERVER = '''
[[realm.server]]
{endpoints}secret = "{secret}"
'''
# One that takes no accounting.
NO_ACCT = '''
[[realm.server]]
auth = "198.51.100.1:1812"
secret = "h1"
'''
# Another proxy, and one at the home server's address, with and without a way back.
N2 = '''
[[peer]]
name = "n2"
ip = "192.0.2.2"
secret = "s2"
'''
N2_COA = N2 + '''coa = "192.0.2.2:3799"
nas_id = "n2"
'''
HOME2 = '''
[[peer]]
name = "home"
ip = "198.51.100.1"
secret = "s2"
'''
HOME2_COA = HOME2 + '''coa = "198.51.100.1:3799"
nas_id = "home"
'''


LEAST = '''auth = "127.0.0.1:1812"
acct = "127.0.0.1:1813"

[[peer]]
name = "nas1"
ip = "192.0.2.1"
secret = "xyzzy5461"

[[realm]]
name = "a.example"
out = "127.0.0.1:2000"

[[realm.server]]
auth = "198.51.100.1:1812"
acct = "198.51.100.1:1813"
secret = "h1"

[[realm.server]]
auth = "198.51.100.2:1812"
acct = "198.51.100.2:1813"
secret = "h2"
'''


def stated(**keys):
    """The lines of those keys that have a value."""
    values = {name: json.dumps(value) for name, value in keys.items() if value is not None}
    return "".join(f"{name} = {value}\n" for name, value in values.items())


def client(ip, secret):
    """One that may send Disconnect and CoA for a realm beside its servers."""
    return f"""
[[realm.coa_client]]
ip = "{ip}"
secret = "{secret}"
"""


def server(ip, secret, auth=":1812", acct=":1813", require_seal=None):
    """A home server; where they aren't said its endpoints have the usual ports. One that is None isn't there."""
    ends = {key: end if end is None or end[0] != ":" else ip + end for key, end in (("auth", auth), ("acct", acct))}
    return SERVER.format(secret=secret, endpoints=stated(**ends)) + stated(require_seal=require_seal)


def of_access(n, secret=None):
    """A home server that takes Access-Requests alone."""
    return server(f"198.51.100.{n}", secret or f"h{n}", acct=None)


def of_accounting(n, secret=None, **keys):
    """One that takes Accounting-Requests alone."""
    return server(f"198.51.100.{n}", secret or f"h{n}", auth=None, **keys)


def servers(count):
    """The first so many home servers."""
    return [server(f"198.51.100.{n}", f"h{n}") for n in range(1, count + 1)]


def realm(name, servers, tries=2, wait=1000, hold=5000, max_pending=300, max_sessions=100,
          also=None, rest=0, rest_after=None, **keys):
    """A realm as a function of its index. Where it isn't said its servers don't rest, or rest after one silence.
    `peers_of` are the names of the access servers that may ask."""
    def table(index):
        text = REALM.format(name=name, out=2000 + index, reverse=3000 + index, tries=tries, wait=wait,
                            hold=hold, max_pending=max_pending, max_sessions=max_sessions)
        after = 1 if rest and rest_after is None else rest_after
        more = keys | ({"peers": keys["peers_of"].split()} if "peers_of" in keys else {})
        more.pop("peers_of", None)
        return text + stated(also=also, rest=rest, rest_after=after, **more) + "".join(servers)
    return table


def configuration(*realms, shards=1, trace_limit=1000, ip="127.0.0.1", peers=(NAS1,), seed="0" * 64, **keys):
    """A configuration of these realms, whose own sockets have this address."""
    text = TOP.format(shards=shards, seed=seed, trace_limit=trace_limit)
    text += stated(**keys) + "".join(peers)
    text += "".join(table(index) for index, table in enumerate(realms))
    return text.replace('"127.0.0.1:', f'"{ip}:')


def one(count=1, **keys):
    """One realm with so many servers."""
    return configuration(realm("a.example", servers(count), **keys))


def many(names, count=1, shards=1, **keys):
    """Realms of these letters that share so many servers."""
    return configuration(*(realm(f"{n}.example", servers(count), **keys) for n in names), shards=shards)


def resting(tries, count=2, rest=10000, **keys):
    """One realm whose servers may rest."""
    return one(count, tries=tries, rest=rest, **keys)


def small(names, count, shards=1, **keys):
    """Realms with short names, for random scripts."""
    return configuration(*(realm(n, servers(count), **keys) for n in names), shards=shards)


def in_ipv6(text):
    """The same with addresses of IPv6 in place of all others. Places for requests are written in another form of RFC 4291."""
    text = re.sub(r'nas_ip = "192\.0\.2\.(\d+)"', r'nas_ipv6 = "2001:db8::\1"', text)
    text = re.sub(r'"127\.0\.0\.1:(1\d+)"', r'"[2001:DB8:0:0::10]:\1"', text)
    text = re.sub(r'"127\.0\.0\.1:(\d+)"', r'"[2001:db8::10]:\1"', text)
    for front, net in ((r"192\.0\.2\.", "2001:db8::"), (r"198\.51\.100\.", "2001:db8:1::")):
        text = re.sub(rf'"{front}(\d+):(\d+)"', rf'"[{net}\1]:\2"', text)
        text = re.sub(rf'"{front}(\d+)"', rf'"{net}\1"', text)
    return text


# A home server whose secret has the most octets.
LONG_SECRET = server("198.51.100.2", "0123456789abcdef" * 4)

# Another world for the second realm: other endpoints, another first realm with a secret of its own at the same
# server, and realms behind.
OTHER_WORLD = configuration(
    realm("x.example", [server("198.51.100.1", "zz")], tries=1, wait=10, hold=0, max_pending=1),
    realm("b.example", servers(2)),
    realm("c.example", [server("198.51.100.2", "h2")], tries=3, wait=500, hold=10, max_pending=20),
    realm("d.example", servers(1)),
    realm("e.example", [server("203.0.113.7", "h1")], tries=1, wait=100, hold=60000, max_pending=4096),
    shards=3, trace_limit=7, ip="127.0.0.9")


def at_prefix(name, prefix):
    """An access server, or many, at the addresses of a prefix; its secret is its name."""
    return f"""
[[peer]]
name = "{name}"
ip = "{prefix}"
secret = "{name}"
"""


def at_addresses(peer, *addresses):
    """The table of an access server, with these as its addresses."""
    return re.sub(r'(?m)^ip = .*$', f"ip = {json.dumps(addresses)}", peer)


def decided(peer=None, second=None, top=None, servers_of_first=None, peers=None, **keys):
    """One realm or two, with keys of the first access server, of the second realm (None: there is none) and of the
    top table, and with other servers of the first realm or other access servers where they are said."""
    realms = [realm("a.example", servers_of_first or servers(1), **keys)]
    if second is not None:
        realms.append(realm("b.example", servers(1), **second))
    return configuration(*realms, peers=peers or (NAS1 + stated(**(peer or {})),), **(top or {}))


# An operator of the Wireless Broadband Alliance.
ACME = {"operator_name": "ACME:US", "operator_namespace": "4"}
REJECTING = {"reject": ["x.a.example", "*.gone"]}
POLICIES = {
    "names-to-reject": decided(second={"also": []}, top=REJECTING, also=["*.a.example", "*"]),
    "well-formed-names": decided(second={"also": []}, top=REJECTING | {"well_formed": True}, also=["*.a.example", "*"]),
    "well-formed-names-and-longer-patterns": decided(
        second={"also": ["*", "*.z.gone"]}, also=["b", "*.a.example", "*.-", "X..y"],
        top={"well_formed": True, "reject": ["*.a.Example.", "*.b.a.example", "z.gone", "*.GONE", "*.c"]}),
    "peers-of-a-realm": decided(second={}, peers=(NAS1, N2), peers_of="n2"),
    "peers-of-a-realm-that-drops": decided(
        second={}, peers=(NAS1, N2), peers_of="n2 n2", accounting="drop", top={"max_hops": 1}),
    "peers-with-a-way-back": decided(second={}, peers=(NAS1, N2_COA), peers_of="n2"),
    "no-loops": decided(peers=(NAS1, HOME2), loop_prevention=True),
    "loops": decided(peers=(NAS1, HOME2), loop_prevention=False),
    "no-loops-and-a-way-back": decided(peers=(NAS1, HOME2_COA), loop_prevention=True, peers_of="home nas1"),
    "no-loops-of-three": decided(
        second={"loop_prevention": False, "peers_of": "n2"}, loop_prevention=True, peers_of="nas1 n2 N2",
        servers_of_first=[server("198.51.100.1", "h1", acct="198.51.100.7:1813")],
        peers=('''
[[peer]]
name = "N2"
ip = "198.51.100.1"
secret = "xyzzy5461"
''', NAS1, N2.replace("192.0.2.2", "198.51.100.7"))),
    "unnamed-accounting-answered": decided(top={"answer_unnamed": True}),
    "accounting-answered": decided(accounting="answer", servers_of_first=[NO_ACCT]),
    "accounting-dropped": decided(accounting="drop", servers_of_first=[NO_ACCT]),
    "accounting-answered-in-one-of-two": decided(
        second={}, accounting="answer", top={"answer_unnamed": True, "max_hops": 16}),
    "requests-without": decided({"request_without": ["26.9.1", "31"]}, request_without=["26.311"]),
    "requests-without-vendors": decided(
        {"request_without": ["26.9.1", "26.9.2", "26.0", "26.16777215.255"]}, request_without=["26.311.7", "26.10.1"]),
    "requests-without-names": decided(request_without=["31", "26.9.1"]),
    "requests-without-sessions": decided(
        request_without=["40", "44", "32", "31"], servers_of_first=servers(2)),
    "replies-without": decided(reply_without=["6", "64", "65", "81"]),
    "replies-without-keys": decided({"reply_without": ["26.311.16", "25"]}, reply_without=["26.14988"]),
    "coa-without": decided({"reply_without": ["6", "26.9.1"], "request_without": ["25"]},
                           reply_without=["64"], request_without=["25"]),
    "coa-without-by-target": decided(
        second={}, peers=(NAS1 + stated(reply_without=["6"]), N2_COA + stated(reply_without=["25", "26"])),
        reply_without=["64"]),
    "coa-without-passwords": decided({"reply_without": ["6"]}, reply_without=["69"]),
    "operator": decided({"operator_name": "inst.example", "ask_cui": True}),
    "operator-replaced": decided({"operator_name": "inst.example", "ask_cui": True, "request_without": ["126"]},
                                 request_without=["89"]),
    "operator-by-id": decided(ACME),
    "operator-by-id-replaced": decided(ACME, request_without=["126"]),
    "operators-of-ten-namespaces": decided(peers=(NAS1, *(
        at_prefix(f"p{n}", f"10.0.0.{n}").replace(f'secret = "p{n}"', 'secret = "xyzzy5461"')
        + stated(operator_name="inst.example", operator_namespace=str(n), coa=f"10.0.0.{n}:3799") for n in range(10)))),
    "operator-in-two-namespaces": decided(peers=(
        NAS1 + stated(operator_name="ACME.us"), N2_COA + stated(operator_name="acme.us", operator_namespace="4"))),
    "operators-that-differ-in-case": decided(peers=(
        NAS1 + stated(**ACME), N2 + stated(coa="192.0.2.2:3799", operator_name="acme:us", operator_namespace="4"))),
    "operator-by-id-of-two-servers": decided(
        {"operator_name": "x" * 252, "operator_namespace": "0"}, tries=1, servers_of_first=servers(2)),
    "own-sessions-behind-operators": decided(
        own_sessions=True, peers_of="n2", peers=(
            NAS1 + stated(**ACME), N2 + stated(coa="192.0.2.2:3799", operator_name="acme:us", operator_namespace="4"))),
    "operator-of-a-namespace-that-is-said": decided(peers=(
        NAS1 + stated(operator_name="inst.example", operator_namespace="1"),
        N2 + stated(coa="192.0.2.2:3799", operator_name="b.example"))),
    "operator-of-two-servers": decided({"operator_name": "\u00e9" * 126, "ask_cui": True}, tries=1,
                                       servers_of_first=servers(2)),
    "proxy-states-limited": decided({"limit_proxy_state": True}),
    "share-of-two": decided(also=["*"], share=2),
    "share-of-one": decided(also=["*"], share=1),
    "share-of-one-and-two-places": decided(also=["*"], share=1, max_pending=2),
    "share-at-two-servers": decided(share=2, tries=1, servers_of_first=servers(2)),
    "share-of-all": decided(also=["*"], share=256),
    "policy": configuration(
        realm("a", [*servers(1), server("198.51.100.2", "h2", require_seal=True)], wait=10, hold=20, tries=1,
              max_pending=6, max_sessions=2, also=["*.a.b", "*"], rest=30, share=2, loop_prevention=True,
              request_without=["31", "26.9.1"], reply_without=["64", "26.311.7"]),
        realm("b.c", servers(2), wait=8, hold=10, max_pending=5, max_sessions=1, also=["*.x.a.b"], peers_of="nas1 nas3",
              request_without=["26.311"], reply_without=["6", "25", "126"]),
        peers=(NAS1 + stated(operator_name="inst.example", ask_cui=True, request_without=["30"], reply_without=["81"]),
               NAS3 + stated(limit_proxy_state=True, reply_without=["26.9", "4", "32"]), HOME1),
        seed="3c" * 32, max_hops=2, status_server=True, well_formed=True, answer_unnamed=True,
        reject=["*.y.a.b", "b.x.a.b", "*.fr"]),
    "policy-in-two-shards": configuration(
        realm("a", servers(2), wait=10, hold=10, max_pending=5, max_sessions=2, also=["*.t", "y"], rest=20, share=1,
              request_without=["26"], reply_without=["26.9.1", "26.9.2"]),
        realm("b", [NO_ACCT], wait=5, hold=20, tries=1, max_pending=4, also=["*.a.t"], accounting="answer",
              peers_of="nas1 nas2", reply_without=["25"]),
        realm("c", servers(1), wait=7, hold=0, tries=2, max_pending=3, also=["*", "z.a.t"], accounting="drop", share=3,
              loop_prevention=True, request_without=["126", "89"]),
        peers=(NAS2 + stated(operator_name="n", request_without=["6", "64", "81"]),
               NAS1 + stated(ask_cui=True, limit_proxy_state=True, reply_without=["31", "26.311"]), HOME1),
        seed="b4" * 32, shards=2, max_hops=1, reject=["a.t", "*.o.t"]),
}

# Access servers behind proxies, and who may disconnect whom.
NAS1_OF = {name: NAS1 + stated(nas_ids=ids) for name, ids in (
    ("wlc-1*", ["wlc-1*"]), ("nas1b", ["nas1b"]), ("wlc-*", ["wlc-*"]), ("two", ["wlc-1", "wlc-2"]),
    ("odd", ["w*", "*", "ap*"]))}
OPERATED = N2_COA + stated(operator_name="inst.example")
REVERSES = {
    "nas-identifiers": decided(peers=(NAS1_OF["wlc-1*"], N2_COA + stated(nas_ids=["wlc-*", "wlc-7"]))),
    "operators-of-access-servers": decided(
        peers=(NAS1_OF["wlc-1*"], OPERATED + stated(nas_ids=["wlc-*", "wlc-7"]))),
    "own-sessions": decided(peers=(NAS1_OF["nas1b"],), own_sessions=True, max_sessions=4),
    "own-sessions-of-many-access-servers": decided(peers=(NAS1_OF["wlc-*"],), own_sessions=True, max_sessions=4),
    "own-sessions-of-two-access-servers": decided(peers=(NAS1_OF["two"],), own_sessions=True, max_sessions=4),
    "sessions-of-two-access-servers": decided(peers=(NAS1_OF["two"],), own_sessions=False, max_sessions=4),
    "own-sessions-behind-an-operator": decided(
        peers=(NAS1, N2 + stated(coa="192.0.2.2:3799", operator_name="inst.example", nas_ids=["ap-*"])),
        own_sessions=True, max_sessions=4),
    "own-sessions-beside-another-realm": decided(
        second={}, peers=(NAS1, N2 + stated(coa="192.0.2.2:3799", operator_name="Inst.example")), own_sessions=True),
    "own-sessions-without-a-ledger": decided(own_sessions=True, max_sessions=0),
    "coa-client": decided(servers_of_first=[*servers(1), client("198.51.100.9", "pc")]),
    "coa-clients-and-servers": configuration(
        realm("a.example", servers(1)),
        realm("b.example", [*servers(1), client("198.51.100.1", "pc"), client("192.0.2.1", "p2")])),
    "names-of-access-servers-without-coa": decided(peers=(NAS1_OF["odd"], N2 + stated(nas_ids=["wlc*", "wap", "**"]))),
    "full-ledger": configuration(realm("a.example", servers(1), max_sessions=4), peers=(NAS1, NAS3, NAS4)),
    "fresh": decided(top={"fresh": 300, "max_hops": 1}),
}
# Servers that answer, logins that stay, and shares.
LOGINS = {
    "few-attributes": decided(top={"max_attributes": 3, "status_server": True}),
    "twenty-attributes-and-one-try": decided(
        top={"max_attributes": 20}, servers_of_first=servers(2), tries=1, rest=10000),
    "share-of-a-peer": decided(peers=(NAS1, N2), peer_share=2),
    "shares-of-names-and-peers": decided(peers=(NAS1, N2), peer_share=2, share=3, also=["*"]),
    "share-of-a-peer-of-256": decided(peers=(NAS1, N2), peer_share=256),
    "own-names": decided(second={}, own_names=True, also=["*"]),
    "own-names-and-lists": decided({"reply_without": ["25"]}, own_names=True),
    "rest-and-seals": decided(servers_of_first=[server(f"198.51.100.{n}", f"h{n}", require_seal=True) for n in (1, 2)], rest=10000),
    "logins": decided(servers_of_first=servers(2), rest=10000, conversations=True),
    "logins-held-long": decided(servers_of_first=servers(2), rest=10000, conversations=True, tries=1, hold=20000),
    "logins-held-longest": decided(servers_of_first=servers(2), rest=10000, conversations=True, tries=1, hold=60000),
    "logins-of-two-peers": decided(
        servers_of_first=servers(2), rest=10000, conversations=True, tries=1, hold=60000,
        peers=(NAS1 + stated(reply_without=["25"]), N2)),
    "logins-of-four-places": decided(servers_of_first=servers(2), rest=10000, conversations=True, tries=1, max_pending=4),
    "logins-and-one-try": decided(servers_of_first=servers(2), rest=10000, conversations=True, tries=1),
    "logins-that-wait-long": decided(
        servers_of_first=servers(2), rest=10000, conversations=True, tries=1, wait=20000, hold=60000),
    "logins-of-many-places": decided(
        servers_of_first=servers(2), rest=10000, conversations=True, tries=1, wait=20000, hold=60000, max_pending=4096),
    "logins-at-three-servers": decided(servers_of_first=servers(3), rest=10000, conversations=True, tries=1, hold=60000),
    "logins-that-move": decided(servers_of_first=servers(2), rest=10000, tries=1, hold=60000),
    "logins-and-a-share": decided(
        servers_of_first=servers(2), rest=10000, conversations=True, peer_share=2, tries=1, hold=60000),
    "logins-and-rest-after-two": decided(
        servers_of_first=servers(2), rest=10000, rest_after=2, conversations=True, tries=1),
}

# An access server of IPv6, one that takes reverse requests at the other kind of address, and a home server of IPv6.
NAS6 = in_ipv6(NAS1).replace("nas1", "nas6").replace("xyzzy5461", "k6")
NAS7 = in_ipv6(N2).replace("n2", "nas7").replace("s2", "k7").replace("::2", "::/64") + 'coa = "192.0.2.7:3799"\nnas_id = "nas7"\n'
SERVER6 = server("2001:db8:1::1", "h6", "[2001:db8:1::1]:1812", "[2001:db8:1::1]:1813")


def at_ipv6(table):
    """A realm as a function of its index, whose own sockets are of IPv6."""
    return lambda index: re.sub(r'"127\.0\.0\.1:(\d+)"', r'"[2001:db8::10]:\1"', table(index))


def with_places(table, **keys):
    """A realm as a function of its index, with these endpoints as `out` or `reverse`."""
    def changed(index):
        text = table(index)
        for key, endpoints in keys.items():
            text = re.sub(rf'^{key} = .*$', f"{key} = {json.dumps(endpoints)}", text, flags=re.M)
        return text
    return changed


def with_own(text, **keys):
    """A configuration with these endpoints as `auth` or `acct`."""
    for key, endpoints in keys.items():
        text = re.sub(rf'^{key} = .*$', f"{key} = {json.dumps(endpoints)}", text, count=1, flags=re.M)
    return text


TWO_OUTS = ["127.0.0.1:2000", "127.0.0.1:2001"]
APART = [of_access(1), of_accounting(2)]
MIXED_SERVICES = [of_accounting(1), server("198.51.100.2", "h2"), of_access(3), of_accounting(4), of_access(5)]
SERVICES = {
    "services-apart": decided(servers_of_first=APART),
    "services-apart-and-sealed": decided(servers_of_first=[of_access(1), of_accounting(2, require_seal=True)]),
    "services-mixed": decided(servers_of_first=MIXED_SERVICES, tries=1),
    "services-of-one-address": decided(servers_of_first=[
        of_access(1), of_accounting(1, "h2"), of_accounting(3), client("198.51.100.3", "x"), client("198.51.100.9", "pc")]),
    "services-that-rest": decided(servers_of_first=MIXED_SERVICES, tries=1, rest=10000),
    "services-in-logins": decided(servers_of_first=MIXED_SERVICES, tries=1, rest=10000, conversations=True, hold=60000),
    "services-apart-and-accounting-answered": decided(servers_of_first=APART, accounting="answer"),
    "services-apart-and-no-loops": decided(
        servers_of_first=APART, loop_prevention=True, peers=(NAS1, HOME2.replace("198.51.100.1", "198.51.100.2"))),
    "services-of-both-kinds": configuration(with_places(
        realm("a.example", [of_access(1), server("198.51.100.2", "h2", None, "[2001:db8:1::2]:1813")], tries=1, max_pending=600),
        out=["127.0.0.1:2000", "[::1]:2000", "127.0.0.2:2000"])),
    "balanced": one(2, balance="user"),
    "balanced-and-shared": one(2, balance="user", share=2, also=["*"]),
    "balanced-by-order": one(2, balance="order"),
    "balanced-over-eight": decided(
        servers_of_first=[server(f"198.51.100.{n}", "h1") for n in range(1, 9)], balance="user", tries=1, hold=0),
    "balanced-and-a-way-back": decided(
        servers_of_first=servers(2), balance="user", peers=(NAS1, N2_COA)),
    "balanced-in-one-of-two": configuration(
        realm("a.example", servers(3), balance="user"), realm("b.example", servers(2))),
    "balanced-over-three": one(3, balance="user", tries=1),
    "balanced-that-rest": resting(1, 3, balance="user"),
    "balanced-services": decided(servers_of_first=MIXED_SERVICES, balance="user", tries=1),
    "balanced-services-of-one-and-two": decided(
        servers_of_first=[of_access(1), of_accounting(2), of_accounting(3)], balance="user"),
    "balanced-in-logins": resting(1, 3, balance="user", conversations=True, hold=60000),
    "balanced-in-short-logins": resting(1, 3, balance="user", conversations=True),
    "balanced-by-two-outs": configuration(with_places(
        realm("a.example", servers(2), balance="user", tries=1, wait=60000, max_pending=4096), out=TWO_OUTS)),
    "balanced-by-what-does-not-pass": decided(
        {"request_without": ["31"]}, servers_of_first=servers(2), balance="user"),
}
BOTH_OUTS = ["[::1]:2000", "127.0.0.1:2000", "127.0.0.3:2000"]
MIXED = server("198.51.100.2", "h2", "[2001:db8:2::1]:1812")
N2_AT_IPV6 = N2 + '''coa = "[2001:db8::2]:3799"
nas_id = "n2"
'''

PLACES = {
    "two-outs": configuration(with_places(realm("a.example", servers(1)), out=TWO_OUTS)),
    "two-auths": with_own(one(), auth=["127.0.0.1:1812", "127.0.0.2:1812"]),
    "two-reverses": configuration(
        with_places(realm("a.example", servers(1)), reverse=["127.0.0.1:3000", "[::1]:3000"]),
        lambda index: re.sub("^reverse = .*\n", "", realm("b.example", servers(1))(index), flags=re.M)),
    "outs-of-both-kinds": configuration(
        with_places(realm("a.example", [*servers(1), MIXED]), out=BOTH_OUTS), realm("b.example", servers(1)),
        peers=(NAS1, N2_AT_IPV6)),
    "two-outs-and-a-second-server": configuration(
        with_places(realm("a.example", servers(2), tries=1, rest=10000, rest_after=3, max_pending=1000), out=TWO_OUTS)),
}

ADDRESSES = {
    "ipv6": in_ipv6(one()),
    "both-kinds": configuration(
        realm("a.example", servers(1)), at_ipv6(realm("b.example", [SERVER6, client("192.0.2.9", "pc")])),
        peers=(NAS1, NAS6, NAS7)),
    "prefixes": configuration(
        realm("a.example", servers(1)), realm("b.example", servers(1), loop_prevention=True),
        peers=(at_prefix("all", "0.0.0.0/0"), at_prefix("net", "192.0.2.0/24"), NAS1, at_prefix("half", "192.0.2.128/25"),
               at_prefix("ipv6", "2001:db8::/32"), at_prefix("site", "2001:DB8:1::/48"), at_prefix("one", "2001:db8:1::7/128"),
               at_prefix("homes", "198.51.100.0/30"))),
}

# Access servers at several addresses.
NAS1_AT_THREE = at_addresses(NAS1, "192.0.2.1", "192.0.2.8/29", "2001:DB8:0::9")
N3 = N2.replace("n2", "n3").replace("s2", "s3")
SEVERAL = {
    "several-addresses": decided(peers=(NAS1_AT_THREE,)),
    "addresses-within-others": decided(peers=(
        at_addresses(NAS1, "192.0.2.0/24", "10.1.0.0/16", "2001:db8::/32"),
        at_addresses(N2, "192.0.2.7", "10.0.0.0/8", "10.1.2.0/24", "2001:db8:1::/48"),
        at_addresses(N3, "0.0.0.0/0", "192.0.2.128/25", "2001:db8:1:1::/64", "::/0", "10.1.2.3"))),
    "share-of-several-addresses": decided(peers=(NAS1_AT_THREE,), peer_share=2),
    "logins-of-several-addresses": decided(
        peers=(at_addresses(NAS1, "192.0.2.1", "192.0.2.9", "2001:db8::9"),
               at_addresses(N2, "192.0.2.8/29").replace("s2", "xyzzy5461")),
        servers_of_first=servers(2), rest=10000, conversations=True, tries=1, hold=60000),
    "no-loops-by-any-address": decided(
        second={}, peers=(at_addresses(NAS1, "192.0.2.1", "198.51.100.0/30"),), loop_prevention=True),
    "own-sessions-of-several-addresses": decided(peers=(NAS1_AT_THREE,), own_sessions=True),
    "keys-at-several-addresses": decided(
        peers=(NAS1_AT_THREE + stated(require_seal=True, operator_name="inst.example", request_without=["30"], ask_cui=True),),
        top={"status_server": True}),
    "one-address-in-an-array": decided(peers=(at_addresses(NAS1, "192.0.2.1"), N2), peers_of="nas1"),
    "two-servers-of-several-addresses": decided(
        peers=(at_addresses(NAS1, "192.0.2.0/30", "2001:db8::9") + stated(reply_without=["25"]),), tries=1,
        servers_of_first=servers(2)),
}

RANDOM = {
    "addresses": configuration(
        realm("a", [*servers(1), server("198.51.100.2", "h2", require_seal=True)], wait=10, hold=60, tries=1, max_pending=9,
              max_sessions=4, rest=40, rest_after=1, also=["*.a", "*"], conversations=True, peer_share=4, own_sessions=True),
        realm("b", servers(2), wait=8, hold=20, max_pending=6, max_sessions=3, loop_prevention=True, peers_of="nas1 n2 home1"),
        peers=(at_addresses(NAS1, "192.0.2.0/29", "192.0.2.9", "2001:db8::/126") + stated(nas_ids=["wlc-*"]),
               at_addresses(N2_COA, "192.0.2.2", "192.0.2.8/30", "2001:db8::2", "10.0.0.0/8"),
               at_addresses(HOME1, "10.0.0.0/30", "198.51.100.1", "192.0.2.4/31")),
        seed="6d" * 32, status_server=True),
    "own": configuration(
        realm("a", [*servers(1), client("198.51.100.9", "pc"), client("198.51.100.2", "p2")], wait=10, hold=20, tries=1, rest=30,
              max_pending=6, max_sessions=4, also=["*.a.b"], own_sessions=True, reply_without=["6", "26.9"]),
        realm("b", [*servers(2), client("198.51.100.1", "zz"), client("192.0.2.1", "p3")], wait=8, hold=10, max_pending=5,
              max_sessions=3, also=["*.b"]),
        peers=(NAS1 + stated(nas_ids=["wlc-*", "wlc-7*"]),
               N2_COA + stated(operator_name="Inst.example", nas_ids=["wlc-7", "ap*", "*"], reply_without=["25"]), NAS4),
        seed="a7" * 32, fresh=10),
    "own-ends": configuration(
        realm("a", [*servers(1), client("198.51.100.9", "pc")], wait=10, hold=0, tries=1, max_pending=6, max_sessions=24,
              own_sessions=True),
        realm("b", [*servers(2), client("198.51.100.1", "zz")], wait=8, hold=0, max_pending=5, max_sessions=16),
        peers=(NAS1 + stated(nas_ids=["wlc-*", "wlc-7*"]), N2_COA + stated(nas_ids=["wlc-7", "ap*"]), NAS4),
        seed="c1" * 32),
    "own-by-several": with_own(configuration(
        with_places(realm("a", [*servers(1), MIXED, client("198.51.100.9", "pc")], wait=10, hold=20, tries=1, rest=30, rest_after=2,
                          max_pending=6, max_sessions=4, also=["*.a.b"], own_sessions=True),
                    out=["127.0.0.1:2000", "[::1]:2000", "[::1]:2001", "127.0.0.1:2002"],
                    reverse=["127.0.0.1:3000", "[::1]:3000", "127.0.0.3:3000"]),
        with_places(realm("b", [MIXED, *servers(1)], wait=8, hold=10, max_pending=5, max_sessions=3, also=["*.b"]),
                    out=["[::1]:2005", "127.0.0.1:2005"]),
        peers=(NAS1 + stated(nas_ids=["wlc-*"]), N2_AT_IPV6 + stated(nas_ids=["wlc-7", "ap*"]), HOME1),
        seed="3b" * 32, fresh=10, shards=2), auth=["127.0.0.1:1812", "127.0.0.1:1645"], acct=["[::1]:1813", "127.0.0.1:1813"]),
    "own-in-two-shards": configuration(
        realm("a", servers(2), wait=10, hold=0, tries=1, max_pending=5, max_sessions=5, own_sessions=True, peers_of="nas1 n2 nas3"),
        realm("b", [*servers(1), client("198.51.100.7", "pb")], wait=5, hold=20, tries=1, max_pending=4, max_sessions=4,
              own_sessions=True, also=["*.t"]),
        realm("c", [NO_ACCT], wait=7, hold=10, max_pending=4, max_sessions=3, accounting="answer", own_sessions=True),
        peers=(N2_COA + stated(nas_ids=["w*"]), NAS1 + stated(nas_ids=["wlc-1", "wlc-2", "wlc-1*"]), NAS5, NAS3),
        seed="5d" * 32, shards=2, max_hops=4),
    "logins-and-shares": configuration(
        realm("a", [*servers(1), server("198.51.100.2", "h2", require_seal=True), *servers(3)[2:]], wait=10, hold=60, tries=1,
              max_pending=9, max_sessions=2, rest=60, rest_after=1, also=["*.a", "*"], conversations=True, peer_share=4,
              own_names=True),
        realm("b", servers(2), wait=8, hold=30, max_pending=5, max_sessions=1, rest=25, rest_after=2, conversations=True, share=2),
        peers=(NAS1, N2, HOME1), seed="e9" * 32, max_attributes=8, status_server=True),
    "balanced-realms": configuration(
        realm("a", [of_accounting(1), server("198.51.100.2", "h2", require_seal=True), of_access(3), of_accounting(4), of_access(5)],
              wait=10, hold=60, tries=1, max_pending=12, max_sessions=2, rest=60, rest_after=1, also=["*.a", "*"],
              balance="user", conversations=True, peer_share=8),
        realm("b", servers(3), wait=8, hold=30, tries=2, max_pending=9, max_sessions=1, rest=25, rest_after=2, balance="user",
              share=4, request_without=["31"]),
        peers=(NAS1, N2, HOME1), seed="4b" * 32, max_attributes=8, status_server=True),
    "every-key": with_own(configuration(
        with_places(realm("a", [of_access(1), MIXED, of_accounting(3, "b3"), of_access(5), of_accounting(4, require_seal=True),
                                client("198.51.100.9", "pc"), client("198.51.100.3", "zz")],
                          wait=10, hold=80, tries=1, max_pending=12, max_sessions=4, rest=40, rest_after=2, also=["*.a", "*"],
                          balance="user", conversations=True, own_names=True, own_sessions=True, peer_share=7, share=5,
                          reply_without=["6", "26.9"]),
                    out=["127.0.0.1:2000", "[::1]:2000", "127.0.0.1:2001"], reverse=["127.0.0.1:3000", "127.0.0.3:3000"]),
        with_places(realm("b", [server("198.51.100.1", "h1", require_seal=True), of_accounting(3), *servers(2)[1:]], wait=8, hold=30,
                          tries=2, max_pending=9, max_sessions=3, rest=25, also=["*.b"], balance="user", own_sessions=True,
                          loop_prevention=True, request_without=["30"], peers_of="nas1 n2 home1"),
                    out=["127.0.0.1:2005", "127.0.0.2:2005"]),
        peers=(at_addresses(NAS1, "192.0.2.0/29", "192.0.2.9", "2001:db8::/126")
               + stated(nas_ids=["wlc-*"], operator_name="Inst.example", ask_cui=True),
               at_addresses(N2_COA, "192.0.2.2", "192.0.2.8/30", "2001:db8::2", "10.0.0.0/8")
               + stated(nas_ids=["wlc-7", "ap*"], operator_name="INST:ex", operator_namespace="4", limit_proxy_state=True,
                        request_without=["126"]),
               at_addresses(HOME1, "10.0.0.0/30", "198.51.100.1", "192.0.2.4/31") + stated(operator_name="inst:EX", operator_namespace="0")),
        seed="e5" * 32, shards=2, fresh=10, max_attributes=12, max_hops=6, status_server=True, answer_unnamed=True, well_formed=True,
        reject=["*.t"]), auth=["127.0.0.1:1812", "[::1]:1812"], acct=["127.0.0.1:1813", "127.0.0.1:1646"]),
    "balanced-realms-in-two-shards": configuration(
        realm("a", servers(3), wait=10, hold=100, tries=1, max_pending=9, rest=40, rest_after=1, conversations=True, own_names=True,
              balance="user", also=["*.x"]),
        realm("b", [server("198.51.100.1", "h1", require_seal=True), *servers(8)[1:]], wait=6, hold=40, tries=1, max_pending=12,
              rest=0, peer_share=6, balance="user"),
        realm("c", [of_access(1), of_access(2), of_accounting(2, "h3")], wait=7, hold=0, tries=2, max_pending=8, rest=30,
              rest_after=2, balance="user", share=3, accounting="answer"),
        peers=(NAS2, NAS1, NAS3), seed="8d" * 32, shards=2, max_attributes=12),
    "realms-of-services-apart": configuration(
        realm("a", [of_access(1), of_accounting(1, "h2"), of_access(2), of_accounting(3)], wait=10, hold=60, tries=1, max_pending=9,
              max_sessions=3, rest=30, rest_after=1, also=["*.a", "*"], conversations=True),
        realm("b", [of_accounting(1), of_access(1, "h2")], wait=8, hold=20, tries=2, max_pending=6, balance="order",
              loop_prevention=True),
        peers=(NAS1, N2, HOME1), seed="d2" * 32, max_attributes=8, status_server=True),
    "own-of-both-kinds": configuration(
        realm("a", [*servers(1), client("2001:db8::9", "pc")], wait=10, hold=20, tries=1, max_pending=6, max_sessions=4,
              also=["*.a.b"], own_sessions=True),
        at_ipv6(realm("b", [SERVER6, server("2001:db8:1::2", "h2", "[2001:db8:1::2]:1812", "[2001:db8:1:0::3]:1813")], wait=8,
                      hold=10, rest=30, tries=1, max_pending=5, max_sessions=3, also=["*.b"], loop_prevention=True)),
        peers=(NAS1 + stated(nas_ids=["wlc-*"]), NAS6.replace('nas_id = "nas6"\n', "") + stated(nas_ids=["ap*"]), NAS7, HOME1,
               in_ipv6(HOME1).replace("home1", "home6")),
        seed="b6" * 32, fresh=10),
    "logins-by-several": with_own(configuration(
        with_places(realm("a", [server("198.51.100.1", "h1"), MIXED, *servers(3)[2:]], wait=10, hold=100, tries=1, max_pending=9,
                          rest=40, rest_after=1, conversations=True, own_names=True, peer_share=5, also=["*.a", "*"]),
                    out=["127.0.0.1:2000", "[::1]:2000", "127.0.0.1:2001", "[::1]:2001"]),
        with_places(realm("b", [MIXED, *servers(1)], wait=8, hold=60, tries=2, max_pending=6, rest=25, rest_after=2,
                          conversations=True, share=2), out=["[::1]:2005", "127.0.0.1:2005"]),
        peers=(NAS1, N2, HOME1), seed="7f" * 32, max_attributes=8, status_server=True),
        auth=["127.0.0.1:1812", "[::1]:1812", "127.0.0.1:1645"]),
    "logins-in-two-shards": configuration(
        realm("a", servers(2), wait=10, hold=100, tries=2, max_pending=8, rest=40, rest_after=2, conversations=True, own_names=True,
              share=3, also=["*.x"]),
        realm("b", [server("198.51.100.1", "h1", require_seal=True), *servers(3)[1:]], wait=6, hold=40, tries=1, max_pending=6,
              rest=30, rest_after=3, peer_share=3, own_names=True),
        realm("c", servers(2), wait=7, hold=50, tries=1, max_pending=6, rest=0, conversations=True, peer_share=2, share=1),
        peers=(NAS2, NAS1, NAS3), seed="1c" * 32, shards=2, max_attributes=12),
}

CONFIGURATIONS = POLICIES | REVERSES | LOGINS | ADDRESSES | SEVERAL | PLACES | SERVICES | RANDOM | {
    "one-server": one(),
    "seal-required": configuration(realm("a.example", servers(1)), peers=(NAS1 + "require_seal = true\n",)),
    "no-session": one(max_sessions=0),
    "one-session": one(max_sessions=1),
    "access-servers": configuration(realm("a.example", servers(1)), peers=(NAS1, NAS3, NAS4, NAS5)),
    "access-servers-of-two-sessions": configuration(
        realm("a.example", servers(1), max_sessions=2), peers=(NAS1, NAS3)),
    "access-servers-of-many-places": configuration(
        realm("a.example", servers(1), max_pending=4096), peers=(NAS1, NAS3)),
    "home-servers": configuration(
        realm("a.example", [*servers(1), server("198.51.100.1", "h2", ":1912", "198.51.100.9:1913"),
                            server("198.51.100.9", "h3")]),
        realm("b.example", [server("198.51.100.1", "zz")])),
    "no-hold": one(hold=0),
    "short-hold": one(2, hold=1000),
    "four-tries": one(tries=4, wait=10),
    "one-place": one(max_pending=1),
    "two-places": one(max_pending=2),
    "256-places": one(max_pending=256),
    "two-servers": one(2),
    "two-servers-of-many-places": one(2, max_pending=4096),
    "one-try-at-two-servers": one(2, tries=1, max_pending=4096),
    "one-try-at-three-servers": one(3, tries=1, wait=1),
    "two-realms": many("ab"),
    "two-realms-of-200-places": many("ab", max_pending=200),
    "three-realms-of-one-server": many("abc"),
    "two-shards": configuration(realm("a.example", servers(1)),
                                realm("b.example", servers(1), wait=500, tries=3), shards=2),
    "two-shards-and-one-realm": configuration(realm("a.example", servers(1), max_pending=1), shards=2),
    "few-places": configuration(realm("a.example", servers(1), max_pending=1),
                                realm("b.example", servers(1), max_pending=2)),
    "a-shard-without-realms": many("ab", shards=3),
    "three-realms": many("abc", 2, tries=1),
    "three-realms-in-two-shards": many("abc", 2, tries=1, shards=2),
    "three-secrets-of-one-server": configuration(
        *(realm(f"{n}.example", [server("198.51.100.1", f"h{i}")]) for i, n in enumerate("abc", 1))),
    "three-realms-and-a-short-hold": configuration(
        realm("a.example", servers(2), hold=1000), realm("b.example", servers(2), hold=1000),
        realm("c.example", servers(1), hold=1000)),
    "one-world": configuration(realm("a.example", servers(1)), realm("b.example", servers(2))),
    "other-world": OTHER_WORLD,
    "names-and-patterns": configuration(
        realm("a.example", servers(1), also=["*.a.example", "*"]),
        realm("b.example", servers(1), also=["x.a.example", "*.b.a.example"])),
    "capitals-and-a-default": configuration(
        realm("a.example", servers(1), also=["*.A.Example"]), realm("b.example", servers(1), also=["*"])),
    "one-hop": configuration(realm("a.example", servers(1)), max_hops=1),
    "two-hops": configuration(realm("a.example", servers(1)), max_hops=2),
    "fifteen-hops": configuration(realm("a.example", servers(1)), max_hops=15),
    "sixteen-hops": configuration(realm("a.example", servers(1)), max_hops=16),
    "server-with-seals": configuration(
        realm("a.example", [server("198.51.100.1", "h1", require_seal=True)])),
    "second-server-with-seals": configuration(
        realm("a.example", [*servers(1), server("198.51.100.2", "h2", require_seal=True)])),
    "status-server": configuration(realm("a.example", servers(1)), status_server=True),
    "status-server-and-one-hop": configuration(
        realm("a.example", servers(1)), peers=(NAS1 + "require_seal = false\n",), max_hops=1, status_server=True),
    # What has to be written, and no more.
    "least": LEAST,
    "rest": resting(2),
    "rest-of-no-time": resting(2, rest=0),
    "rest-and-one-place": resting(2, max_pending=1),
    "rest-and-one-try": resting(1),
    "short-rest-and-one-try": resting(1, rest=500),
    "rest-at-three-servers": resting(1, 3, 5000),
    "short-rest-at-three-servers": resting(1, 3, 100),
    "rest-of-two-realms": many("ab", 2, rest=10000),
    "rest-after-two": resting(1, rest_after=2),
    "rest-after-two-and-two-places": resting(1, rest_after=2, max_pending=2),
    "rest-after-two-at-three-servers": resting(1, 3, rest_after=2),
    "rest-of-no-time-after-two": resting(1, rest=0, rest_after=2),
    "rest-after-three": resting(1, rest_after=3),
    "rest-after-three-and-two-tries": resting(2, rest_after=3),
    "short-rest-after-three-at-three-servers": resting(1, 3, 100, rest_after=3),
    "rest-after-two-and-after-three": configuration(
        *(realm(f"{name}.example", servers(2), tries=1, rest=10000, rest_after=count)
          for name, count in (("a", 2), ("b", 3)))),
    "rest-after-256": resting(1, rest_after=256),
    "small": small("a", 1, wait=10, hold=20, max_pending=4),
    "small-and-shared": configuration(
        realm("a", servers(1), wait=10, hold=5, max_pending=2),
        realm("b", servers(1), wait=15, hold=0, tries=1, max_pending=3)),
    "small-in-two-shards": configuration(
        realm("a", servers(2), wait=10, hold=30, tries=1, max_pending=4),
        realm("b", servers(3), wait=5, hold=20, tries=2, max_pending=3),
        realm("c", servers(2)[::-1], wait=20, hold=10, tries=3, max_pending=5), shards=2),
    "access": configuration(
        realm("a", [*servers(1), LONG_SECRET], wait=10, hold=20, max_pending=4),
        peers=(NAS1, NAS2), seed="0123456789abcdef" * 4),
    "access-and-shared": configuration(
        realm("a", servers(1), wait=10, hold=5, max_pending=3),
        realm("b", servers(1), wait=15, hold=0, tries=1, max_pending=3), peers=(NAS1, NAS2), seed="fF" * 32),
    "access-in-two-shards": configuration(
        realm("a", [LONG_SECRET, *servers(1)], wait=10, hold=30, tries=1, max_pending=4),
        realm("b", servers(2), wait=5, hold=20, tries=2, max_pending=3),
        realm("c", [server("198.51.100.1", "k")], wait=20, hold=10, tries=3, max_pending=2), shards=2),
    "all": configuration(
        realm("a", [*servers(1), LONG_SECRET], wait=10, hold=20, max_pending=5, max_sessions=2),
        peers=(NAS1, NAS3, NAS5), seed="5a" * 32),
    "all-and-shared": configuration(
        realm("a", servers(2), wait=10, hold=5, max_pending=4, max_sessions=1),
        realm("b", servers(2), wait=15, hold=0, tries=1, max_pending=4, max_sessions=0),
        peers=(NAS2, NAS1), seed="00ff" * 16),
    "all-in-two-shards": configuration(
        realm("a", [*servers(1), server("198.51.100.1", "h2", ":1912", "198.51.100.9:1913")], wait=10, hold=0,
              max_pending=5, max_sessions=3),
        realm("b", [server("198.51.100.1", "zz")], wait=8, hold=20, tries=1, max_pending=3, max_sessions=1),
        realm("c", [LONG_SECRET, *servers(1)], wait=12, hold=10, max_pending=5, max_sessions=2),
        peers=(NAS5, NAS4, NAS1, NAS3), seed="9" * 64, shards=2),
    "federation": configuration(
        realm("a", [*servers(1), server("198.51.100.2", "h2", require_seal=True)], wait=10, hold=20, tries=1,
              max_pending=5, max_sessions=2, also=["*.a", "*"], rest=30),
        realm("b", servers(2), wait=8, hold=10, max_pending=4, max_sessions=1, also=["b.a", "*.b.a", "*.C"], rest=15),
        peers=(NAS1, HOME1), seed="0f" * 32, max_hops=2, status_server=True),
    "federation-of-silent-servers": configuration(
        realm("a", servers(3), wait=5, hold=15, tries=1, max_pending=6, max_sessions=1, also=["*.Aa"], rest=25,
              rest_after=2),
        realm("b", [*servers(1), server("198.51.100.2", "h2", require_seal=True)], wait=6, hold=10, tries=1,
              max_pending=3, max_sessions=1, also=["*.b"], rest=40),
        peers=(NAS2, HOME1, NAS1), seed="e1" * 32, max_hops=3, status_server=True),
    "federation-in-two-shards": configuration(
        realm("a", [server("198.51.100.1", "h1", require_seal=True), *servers(2)[1:]], wait=10, hold=10,
              max_pending=4, max_sessions=2, also=["*.x", "y"], rest=60),
        realm("b", [LONG_SECRET, *servers(1)], wait=5, hold=20, tries=1, max_pending=4, max_sessions=2,
              also=["*.a.x", "*.y"], rest=12, rest_after=2),
        realm("c", servers(2), wait=7, hold=0, tries=1, max_pending=3, also=["*", "z.a.x"], rest=9),
        peers=(NAS3, NAS1, HOME1), seed="7" * 64, shards=2, max_hops=1),
}
