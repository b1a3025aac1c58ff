"""Configurations for try-configurations.py: the parts of documents, what is changed in them, and the fault of what comes.

What is expected is that of the format's description: its sample configuration, its table of changes, and its ranges.
"""

# As many addresses as a peer may have.
EIGHT = '["' + '", "'.join(f"10.0.0.{n}" for n in range(8)) + '"]'

# The keys of the broker.
TOP = """\
shards = 1
seed = "0000000000000000000000000000000000000000000000000000000000000000"
auth = "127.0.0.1:1812"
acct = "127.0.0.1:1813"
trace_limit = 1000
"""

SEED = """\
seed = "0000000000000000000000000000000000000000000000000000000000000000"
"""

# An access server, and where and by which names it takes reverse requests.
PEER = """\

[[peer]]
name = "nas1"
ip = "192.0.2.1"
secret = "xyzzy5461"
coa = "192.0.2.1:3799"
nas_ip = "192.0.2.1"
nas_id = "nas1"
"""

# The same access server, which takes no reverse requests.
PLAIN_PEER = """\

[[peer]]
name = "nas1"
ip = "192.0.2.1"
secret = "xyzzy5461"
"""

SECOND_PEER = """\

[[peer]]
name = "nas2"
ip = "192.0.2.2"
secret = "s"
"""

THIRD_PEER = """\

[[peer]]
name = "nas3"
ip = "192.0.2.3"
secret = "s"
"""

# Another one, whose name no other text has.
SECOND = """\

[[peer]]
name = "n2"
ip = "192.0.2.2"
secret = "s2"
"""

REALM = """\

[[realm]]
name = "a.example"
out = "127.0.0.1:2000"
reverse = "127.0.0.1:3000"
tries = 2
wait = 1000
hold = 5000
max_pending = 300
max_sessions = 100
"""

SECOND_REALM = """\

[[realm]]
name = "b.example"
out = "127.0.0.1:2001"
reverse = "127.0.0.1:3001"
tries = 2
wait = 1000
hold = 5000
max_pending = 300
max_sessions = 100
"""

SERVER = """\

[[realm.server]]
auth = "198.51.100.1:1812"
acct = "198.51.100.1:1813"
secret = "h1"
"""

SECOND_SERVER = """\

[[realm.server]]
auth = "198.51.100.2:1812"
acct = "198.51.100.2:1813"
secret = "h2"
"""

# A home server whose secret is missing, and one that takes no accounting.
NO_SECRET = """\

[[realm.server]]
auth = "198.51.100.1:1812"
acct = "198.51.100.1:1813"
"""

NO_ACCT = """\

[[realm.server]]
auth = "198.51.100.1:1812"
secret = "h1"
"""

# One that takes accounting alone, and one that takes nothing.
NO_AUTH = """\

[[realm.server]]
acct = "198.51.100.2:1813"
secret = "h2"
"""

NEITHER = """\

[[realm.server]]
secret = "h2"
"""

# Sources of reverse requests.
CLIENT = """\

[[realm.coa_client]]
ip = "198.51.100.1"
secret = "pc"
"""

OTHER_CLIENT = """\

[[realm.coa_client]]
ip = "1.2.3.4"
secret = "pc"
"""

# The keys that must be written of a configuration and of a realm.
LEAST_TOP = """\
auth = "127.0.0.1:1812"
acct = "127.0.0.1:1813"
"""

LEAST_REALM = """\

[[realm]]
name = "a.example"
out = "127.0.0.1:2000"
"""


def endpoints(count):
    """An array of so many endpoints, which no other key has."""
    return "[" + ", ".join(f'"127.0.0.1:{4000 + it}"' for it in range(count)) + "]"


# Nothing is replaced: the line ends before the first table.
AS_IT_IS = "\n"

# The sample: each of its parts once.
SAMPLE = [TOP, PEER, REALM, SERVER]

# Changes of the sample: a text of it, the fault of what comes (None: it is accepted), and what stands there in its place, each by itself.
# One that begins with + stands in a line of its own behind the text.
OF_THE_SAMPLE = [
    # The two ends of each range.
    ("shards = 1", None, "shards = 1", "shards = 64"),
    ("trace_limit = 1000", None, "trace_limit = 1", "trace_limit = 1000000"),
    ("tries = 2", None, "tries = 1", "tries = 10"),
    ("wait = 1000", None, "wait = 1", "wait = 60000"),
    ("hold = 5000", None, "hold = 0", "hold = 60000"),
    ("max_pending = 300", None, "max_pending = 1", "max_pending = 4096"),
    ("max_sessions = 100", None, "max_sessions = 0", "max_sessions = 65536"),
    (":1812", None, ":1", ":65535"),
    # One past each end, and numbers that no range has. Past 64 bits an integer is no TOML integer.
    ("shards = 1", "BadValue", "shards = 0", "shards = 65"),
    ("trace_limit = 1000", "BadValue", "trace_limit = 0", "trace_limit = 1000001"),
    ("tries = 2", "BadValue", "tries = 0", "tries = 11"),
    ("wait = 1000", "BadValue", "wait = 0", "wait = 60001"),
    ("hold = 5000", "BadValue", "hold = -1", "hold = 60001"),
    ("max_pending = 300", "BadValue", "max_pending = 0", "max_pending = 4097"),
    ("max_sessions = 100", "BadValue", "max_sessions = -1", "max_sessions = 65537", "max_sessions = 4294967396",
     "max_sessions = 9223372036854775807"),
    (":1812", "BadValue", ":0", ":65536"),
    ("tries = 2", "Syntax", "tries = 9223372036854775808"),
    # The ends of the ranges of keys that may be absent, and one past each.
    ("shards = 1", None, "+max_hops = 1", "+max_hops = 100", "+trace_octets = 1", "+trace_octets = 1073741824", "+status_server = true",
     "+spread = true", '+log_station = "hmac"', '+state = "sessions"', "+state_every = 86400", '+metrics = "127.0.0.1:9812"',
     '+control = "/run/roam/control"',
     '+control = "ccccccccccccccccccccccccccccccccccccccccccccccccccccccccccccccccccccccccccccccccccccccccccccccccccccccccccc"'),
    ("shards = 1", "BadValue", "+max_hops = 0", "+max_hops = 101", "+max_hops = 257", "+trace_octets = 0", "+trace_octets = 1073741825"),
    ("tries = 2", None, "+rest = 0", "+rest = 3600000", "+rest_after = 1", "+rest_after = 256"),
    ("tries = 2", "BadValue", "+rest = -1", "+rest = 3600001", "+rest_after = 0", "+rest_after = 257"),
    ('secret = "h1"', None, "+require_seal = true", "+require_seal = false"),
    # Keys that may be absent, with a value of a wrong type, or in a table that does not have them.
    ("shards = 1", "BadValue", '+max_hops = "1"', "+max_hops = true", "+trace_octets = 1.0", "+status_server = 1", '+spread = "true"',
     '+log_station = "md5"', "+log_station = true", '+state = ""', "+state_every = 0", "+state_every = 86401", "+rest = 0", "+also = []",
     "+metrics = 9812", '+metrics = "127.0.0.1"', '+metrics = "127.0.0.1:0"', '+control = ""', "+control = 1",
     '+control = "cccccccccccccccccccccccccccccccccccccccccccccccccccccccccccccccccccccccccccccccccccccccccccccccccccccccccccc"',
     '+control = "a\\u0000b"'),
    ("tries = 2", "BadValue", '+rest = "0"', "+rest_after = [1]", "+require_seal = true", "+max_hops = 1", '+metrics = "127.0.0.1:9812"'),
    ('secret = "h1"', "BadValue", "+require_seal = 1", "+rest = 0"),
    ('nas_id = "nas1"', "BadValue", "also = []", "spread = true", 'control = "c"'),
    # Addresses, ports, names, secrets and seeds in other spellings.
    ('"192.0.2.1"', None, '"0.0.0.0"', '"255.255.255.255"'),
    ('"nas1"', None, '"A-z_0.9"'),
    ('"a.example"', None, '"A-z.0-9"'),
    ('"xyzzy5461"', None, '"\\u0000 é"'),
    ('00000"', None, 'aBcDe"'),
    ('"192.0.2.1"', "BadValue", '"192.0.2.01"', '"192.0.2.256"', '"192.0.2"', '"192.0.2.1.1"', '"192.0..1"', '" 192.0.2.1"', '"192.0.2.+1"',
     '"192.0.2.1:1"', '""'),
    # Addresses of both kinds, and prefixes.
    ('"192.0.2.1"', None, '"192.0.2.0/24"', '"192.0.2.1/32"', '"2001:db8::/48"', '"2001:DB8:0:0:0:0:192.0.2.1"'),
    ('"192.0.2.1"', "BadValue", '"192.0.2.1/24"', '"192.0.2.0/33"', '"::ffff:192.0.2.1"', '"[2001:db8::1]"'),
    # A peer at several addresses, of which no two are equal, also in another form.
    ('ip = "192.0.2.1"', None, 'ip = ["192.0.2.1"]', f"ip = {EIGHT}", 'ip = ["10.0.0.0/8", "10.0.0.0/9", "10.0.0.0", "0.0.0.0/0", "::/0", "::"]'),
    ('ip = "192.0.2.1"', "BadValue", "ip = []", f'ip = {EIGHT[:-1]}, "10.0.0.8"]', 'ip = [["192.0.2.1"]]', 'ip = ["192.0.2.1", 1]',
     'ip = ["192.0.2.1", "10.0.0.1/8"]', 'ip = ["192.0.2.1", "::ffff:192.0.2.1"]', 'ip = ["192.0.2.1:5000"]', 'ip = "192.0.2.1, 192.0.2.2"',
     'ip = ["10.0.0.0/8", "10.0.0.0/8", ""]'),
    ('ip = "192.0.2.1"', "DuplicatePeer", 'ip = ["192.0.2.1", "192.0.2.1"]', 'ip = ["192.0.2.1/32", "10.0.0.0/8", "192.0.2.1"]',
     'ip = ["2001:db8::/32", "2001:DB8:0::/32"]'),
    ('nas_ip = "192.0.2.1"', "BadValue", 'nas_ip = ["192.0.2.1"]'),
    ('nas_ip = "192.0.2.1"', None, 'nas_ipv6 = "2001:db8::1"'),
    ('nas_ip = "192.0.2.1"', "BadValue", 'nas_ipv6 = "192.0.2.1"', 'nas_ip = "2001:db8::1"'),
    ('coa = "192.0.2.1:3799"', None, 'coa = "[2001:db8::1]:3799"'),
    ('coa = "192.0.2.1:3799"', "BadValue", 'coa = "2001:db8::1:3799"'),
    (":1812", "BadValue", ":01812", ":", ":+1812", ":18446744073709551617", "", ":1812:1"),
    ('"nas1"', "BadValue", '"nas 1"', '"näs1"'),
    ('"a.example"', "BadValue", '"a_example"', '"u@a.example"'),
    ('00000"', "BadValue", '0000"', '000000"', '0000g"'),
    # Every required key, and the tables of which one is required, left out.
    ('auth = "127.0.0.1:1812"\n', "Missing", ""),
    ('acct = "127.0.0.1:1813"\n', "Missing", ""),
    (PEER, "Missing", ""),
    ('name = "nas1"\n', "Missing", ""),
    ('ip = "192.0.2.1"\n', "Missing", ""),
    ('secret = "xyzzy5461"\n', "Missing", ""),
    ('name = "a.example"\n', "Missing", ""),
    ('out = "127.0.0.1:2000"\n', "Missing", ""),
    (SERVER, "Missing", ""),
    ('auth = "198.51.100.1:1812"\n', "Missing", ""),
    ('acct = "198.51.100.1:1813"\n', "Missing", ""),
    ('secret = "h1"\n', "Missing", ""),
    # The keys that may be absent, left out.
    ('coa = "192.0.2.1:3799"\n', None, ""),
    ('nas_ip = "192.0.2.1"\n', None, ""),
    ('nas_id = "nas1"\n', None, ""),
    ("shards = 1\n", None, ""),
    (SEED, None, ""),
    ("trace_limit = 1000\n", None, ""),
    ('reverse = "127.0.0.1:3000"\n', None, ""),
    ("tries = 2\n", None, ""),
    ("wait = 1000\n", None, ""),
    ("hold = 5000\n", None, ""),
    ("max_pending = 300\n", None, ""),
    ("max_sessions = 100\n", None, ""),
    # Every key with a value of a wrong type, and keys that no table has.
    ("shards = 1", "BadValue", 'shards = "1"', "+other = 1"),
    (SEED, "BadValue", "seed = 0\n"),
    ('auth = "127.0.0.1:1812"', "BadValue", "auth = 1812"),
    ('acct = "127.0.0.1:1813"', "BadValue", "acct = true"),
    ("trace_limit = 1000", "BadValue", "trace_limit = 1000.0"),
    ("[[peer]]", "BadValue", "[peer]"),
    ('name = "nas1"', "BadValue", "name = 1"),
    ('ip = "192.0.2.1"', "BadValue", "ip = 192", "+other = 1"),
    ('secret = "xyzzy5461"', "BadValue", "secret = 5461"),
    ('coa = "192.0.2.1:3799"', "BadValue", "coa = 3799"),
    ('nas_ip = "192.0.2.1"', "BadValue", "nas_ip = false"),
    ('nas_id = "nas1"', "BadValue", 'nas_id = ["nas1"]', "require_seal = 1", 'require_seal = "true"'),
    ('name = "a.example"', "BadValue", "name = 1979-05-27"),
    ('out = "127.0.0.1:2000"', "BadValue", "out = 2000"),
    ('reverse = "127.0.0.1:3000"', "BadValue", "reverse = {}"),
    ("tries = 2", "BadValue", 'tries = "2"', "+other = 2", "+Tries = 2"),
    ("wait = 1000", "BadValue", "wait = 1e3"),
    ("hold = 5000", "BadValue", "hold = true"),
    ("max_pending = 300", "BadValue", 'max_pending = "300"'),
    ("max_sessions = 100", "BadValue", "max_sessions = []"),
    ("[[realm.server]]", "BadValue", "[realm.server]"),
    ('auth = "198.51.100.1:1812"', "BadValue", "auth = 1812"),
    ('acct = "198.51.100.1:1813"', "BadValue", "acct = 1813"),
    ('secret = "h1"', "BadValue", "secret = 1", "+other = 1"),
    # Endpoints that are made equal.
    ("127.0.0.1:2000", "DuplicateEndpoint", "127.0.0.1:1812"),
    ("198.51.100.1:1813", "DuplicateServer", "198.51.100.1:1812"),
    ("192.0.2.1:3799", "DuplicateLink", "198.51.100.1:1812", "198.51.100.1:1813"),
    ("127.0.0.1:1813", "DuplicateEndpoint", "127.0.0.1:1812"),
    ("127.0.0.1:3000", "DuplicateEndpoint", "127.0.0.1:2000", "127.0.0.1:1813"),
    # More than one endpoint: an array of 1 to 8, of `out` 1 to 16, all of them different, whose addresses may be of both kinds.
    ('auth = "127.0.0.1:1812"', None, f"auth = {endpoints(1)}", f"auth = {endpoints(8)}",
     'auth = ["127.0.0.1:1812", "[2001:db8::10]:1812"]'),
    ('auth = "127.0.0.1:1812"', "BadValue", f"auth = {endpoints(9)}", "auth = []", 'auth = ["127.0.0.1:1812", 1812]',
     'auth = ["127.0.0.1:1812", ["127.0.0.1:1645"]]'),
    ('auth = "127.0.0.1:1812"', "DuplicateEndpoint", 'auth = ["127.0.0.1:1812", "127.0.0.1:1812"]',
     'auth = ["127.0.0.1:1645", "127.0.0.1:1813"]'),
    ('acct = "127.0.0.1:1813"', None, f"acct = {endpoints(8)}"),
    ('acct = "127.0.0.1:1813"', "BadValue", f"acct = {endpoints(9)}", "acct = []"),
    ('acct = "127.0.0.1:1813"', "DuplicateEndpoint", 'acct = ["127.0.0.1:1646", "127.0.0.1:3000"]'),
    ('out = "127.0.0.1:2000"', None, f"out = {endpoints(16)}", 'out = ["127.0.0.1:2000", "[2001:db8::10]:2000"]'),
    ('out = "127.0.0.1:2000"', "BadValue", f"out = {endpoints(17)}", "out = []", 'out = ["127.0.0.1:2000", "127.0.0.1"]'),
    ('out = "127.0.0.1:2000"', "DuplicateEndpoint", 'out = ["127.0.0.1:2000", "127.0.0.1:2001", "127.0.0.1:2000"]'),
    ('out = "127.0.0.1:2000"', "NoWayOut", 'out = ["[2001:db8::10]:2000", "[2001:db8::10]:2001"]'),
    ('reverse = "127.0.0.1:3000"', None, f"reverse = {endpoints(8)}"),
    ('reverse = "127.0.0.1:3000"', "BadValue", f"reverse = {endpoints(9)}", "reverse = []"),
    ('reverse = "127.0.0.1:3000"', "DuplicateEndpoint", 'reverse = ["127.0.0.1:3000", "127.0.0.1:2000"]'),
    ('coa = "192.0.2.1:3799"', "BadValue", 'coa = ["192.0.2.1:3799"]'),
    ('auth = "198.51.100.1:1812"', "BadValue", 'auth = ["198.51.100.1:1812"]'),
    # Names to reject.
    ("shards = 1", None, "reject = []", 'reject = ["x", "*.x"]'),
    ("shards = 1", "DuplicateRealm", 'reject = ["A.EXAMPLE"]', 'reject = ["x", "X"]', 'reject = ["*.x", "*.X"]'),
    ("shards = 1", "BadValue", 'reject = ["*"]', 'reject = ["x", "*"]', 'reject = ["a.*"]', "reject = [1]", 'reject = "x"'),
    # What an operator decides, at the ends of its ranges, past them, and with values of another type.
    ("shards = 1", None, "well_formed = true\nanswer_unnamed = false", "max_attributes = 1", "max_attributes = 2000", "fresh = 10",
     "fresh = 3600"),
    ("shards = 1", "BadValue", "well_formed = 1", 'answer_unnamed = "true"', "max_attributes = 0", "max_attributes = 2001",
     "max_attributes = -1", "fresh = 9", "fresh = 3601", "fresh = true", "conversations = true"),
    ("tries = 2", "BadValue", "well_formed = true", 'operator_name = "x"', 'loop_prevention = "yes"', 'accounting = "Answer"',
     "accounting = true", "share = 0", "share = 4097", "max_attributes = 3", "fresh = 60", 'operator_namespace = "4"', "peer_share = 0", "peer_share = 4097",
     "peer_share = true", "own_names = 1", 'own_names = "true"', "conversations = 0", "conversations = []", "own_sessions = 1",
     "coa_client = 1", "coa_client = [1]"),
    ("nas_id", None, "limit_proxy_state = true\nask_cui = true\nnas_id", 'operator_name = "x"\nnas_id',
     'operator_name = "x"\noperator_namespace = "0"\nnas_id', 'operator_namespace = "9"\noperator_name = "x"\nnas_id', "nas_ids = []\nnas_id",
     'nas_ids = ["a", "*"]\nnas_id', 'nas_ids = ["NAS1"]\nnas_id'),
    ("nas_id", "BadValue", "limit_proxy_state = 0\nnas_id", 'ask_cui = ""\nnas_id', 'operator_name = ""\nnas_id',
     "operator_name = 1\nnas_id", 'operator_namespace = "1"\nnas_id', 'operator_name = "x"\noperator_namespace = ""\nnas_id',
     'operator_name = "x"\noperator_namespace = "10"\nnas_id', 'operator_name = "x"\noperator_namespace = "a"\nnas_id',
     'operator_name = "x"\noperator_namespace = 4\nnas_id', 'operator_name = "x"\noperator_namespace = " "\nnas_id',
     "own_names = true\nnas_id", 'nas_ids = [""]\nnas_id', "nas_ids = [1]\nnas_id", 'nas_ids = "a"\nnas_id'),
    ("tries = 2", None, "loop_prevention = true", 'accounting = "forward"', "share = 1", "share = 4096", "peer_share = 1",
     "peer_share = 4096", "own_names = false", "conversations = true", "own_sessions = true", "coa_client = []", 'balance = "user"',
     'balance = "order"'),
    ("tries = 2", "BadValue", 'balance = "User"', 'balance = ""', "balance = true", 'balance = ["user"]', "balance = 1", 'balance = "station"',
     'balance = "user "'),
    ("shards = 1", "BadValue", 'balance = "user"'),
    ("nas_id", "BadValue", 'balance = "user"\nnas_id'),
    ('secret = "h1"', "BadValue", 'balance = "user"\nsecret = "h1"'),
    ("nas_id", "DuplicatePeer", 'nas_ids = ["nas1"]\nnas_id', 'nas_ids = ["a*", "a*"]\nnas_id'),
]

# Each change: the first text that is replaced, what stands there then, and the fault.
CHANGES = [(old, f"{old}\n{new[1:]}" if new.startswith("+") else new, fault) for old, fault, *news in OF_THE_SAMPLE for new in news]

# Documents: their parts, in which the first text is replaced by the second, and the fault.
DOCUMENTS = [
    # Two neighbouring faults at once, for each pair of neighbours: the earlier one is the answer.
    ([TOP, PEER, REALM], "shards = 1", "shards = ", "Syntax"),
    (["shards = 0\n", PEER, REALM, SERVER], AS_IT_IS, AS_IT_IS, "Missing"),
    ([TOP, PEER, REALM, NO_SECRET], '"nas1"', "1", "Missing"),
    ([TOP, PEER, REALM, SERVER, REALM, SERVER], "wait = 1000", "wait = 0", "BadValue"),
    ([TOP, PEER, PEER, REALM, SERVER, REALM, SERVER], AS_IT_IS, AS_IT_IS, "DuplicateRealm"),
    ([TOP, PEER, PEER, REALM, SERVER], "127.0.0.1:2000", "127.0.0.1:1813", "DuplicatePeer"),
    ([TOP, PEER, REALM, SERVER, SERVER], "127.0.0.1:2000", "127.0.0.1:1813", "DuplicateEndpoint"),
    ([TOP, PEER, REALM, SERVER, SERVER], "192.0.2.1:3799", "198.51.100.1:1813", "DuplicateServer"),
    # A second peer, realm or server that is equal to the first in something, or in nothing.
    ([TOP, PEER, REALM, SERVER], AS_IT_IS, AS_IT_IS, None),
    ([TOP, PEER], AS_IT_IS, AS_IT_IS, "Missing"),
    ([TOP, PEER, REALM, SERVER, REALM, SERVER], "a.example", "A.EXAMPLE", "DuplicateRealm"),
    ([TOP, PEER, SECOND_PEER, REALM, SERVER], "192.0.2.2", "192.0.2.1", "DuplicatePeer"),
    ([TOP, PEER, SECOND_PEER, REALM, SERVER], '"192.0.2.2"', '["10.0.0.0/8", "192.0.2.1"]', "DuplicatePeer"),
    ([TOP, PEER, SECOND_PEER, REALM, SERVER], '"192.0.2.2"', '["192.0.2.0/24", "192.0.2.0/31"]', None),
    ([TOP, PEER, SECOND_PEER, REALM, SERVER], "nas2", "nas1", "DuplicatePeer"),
    ([TOP, PEER, SECOND_PEER, THIRD_PEER, REALM, SERVER], "nas2", "NAS1", None),
    ([TOP, PEER, SECOND_PEER, REALM, SERVER], 'secret = "s"\n', 'secret = "s"\nnas_ip = "192.0.2.1"\n', "DuplicatePeer"),
    ([TOP, PEER, SECOND_PEER, REALM, SERVER], 'secret = "s"\n', 'secret = "s"\nnas_id = "nas1"\n', "DuplicatePeer"),
    ([TOP, PEER, SECOND_PEER, REALM, SERVER], 'secret = "s"\n', 'secret = "s"\ncoa = "192.0.2.1:3799"\n', "DuplicateLink"),
    ([TOP, PEER, REALM, SERVER, SECOND_REALM, SERVER], "127.0.0.1:3001", "127.0.0.1:2000", "DuplicateEndpoint"),
    ([TOP, PEER, REALM, SERVER, SECOND_REALM, SERVER], AS_IT_IS, AS_IT_IS, None),
    ([TOP, PEER, REALM, SERVER, SECOND_REALM, SECOND_SERVER], "198.51.100.2:1812", "192.0.2.1:3799", "DuplicateLink"),
    # Two prefixes that are the same, in other spellings; a socket of another kind than its server.
    ([TOP, PEER, SECOND_PEER, REALM, SERVER], '"192.0.2.2"', '"192.0.2.1/32"', "DuplicatePeer"),
    ([TOP, PEER, SECOND_PEER, REALM, SERVER], '"192.0.2.2"', '"192.0.2.0/24"', None),
    ([TOP, PEER, REALM, SERVER], "127.0.0.1:2000", "[2001:db8::10]:2000", "NoWayOut"),
    # Arrays that mix tables and other values: the keys of the tables are looked for first.
    (['peer = [{ name = "nas1" }, 1]\n', TOP, REALM, SERVER], AS_IT_IS, AS_IT_IS, "Missing"),
    (['peer = [{ name = "nas1", ip = "192.0.2.1", secret = "s" }, 1]\n', TOP, REALM, SERVER], AS_IT_IS, AS_IT_IS, "BadValue"),
    (["peer = []\n", TOP, REALM, SERVER], AS_IT_IS, AS_IT_IS, "BadValue"),
    # Where a server needs `acct`.
    ([TOP, PEER, REALM, NO_ACCT], AS_IT_IS, AS_IT_IS, "Missing"),
    ([TOP, PEER, REALM, 'accounting = "forward"\n', NO_ACCT], AS_IT_IS, AS_IT_IS, "Missing"),
    ([TOP, PEER, REALM, 'accounting = "answer"\n', NO_ACCT], AS_IT_IS, AS_IT_IS, None),
    ([TOP, PEER, REALM, 'accounting = "drop"\n', NO_ACCT], AS_IT_IS, AS_IT_IS, None),
    ([TOP, PEER, REALM, 'accounting = "answer"\n', SERVER], AS_IT_IS, AS_IT_IS, None),
    ([TOP, PEER, REALM, "accounting = 1\n", NO_ACCT], AS_IT_IS, AS_IT_IS, "BadValue"),
    # Servers of one service, and services that no server of a realm has.
    ([TOP, PEER, REALM, NO_ACCT, NO_AUTH], AS_IT_IS, AS_IT_IS, None),
    ([TOP, PEER, REALM, SERVER, NEITHER], AS_IT_IS, AS_IT_IS, "Missing"),
    ([TOP, PEER, REALM, 'accounting = "answer"\n', SERVER, NEITHER], AS_IT_IS, AS_IT_IS, "Missing"),
    ([TOP, PEER, REALM, NO_AUTH], AS_IT_IS, AS_IT_IS, "Missing"),
    ([TOP, PEER, REALM, NO_AUTH, NO_AUTH.replace("100.2", "100.3")], AS_IT_IS, AS_IT_IS, "Missing"),
    ([TOP, PEER, REALM, 'accounting = "drop"\n', NO_AUTH], AS_IT_IS, AS_IT_IS, "Missing"),
    ([TOP, PEER, REALM, NO_ACCT, NO_ACCT.replace("100.1", "100.2")], AS_IT_IS, AS_IT_IS, "Missing"),
    ([TOP, PEER, REALM, 'accounting = "answer"\n', NO_ACCT, NO_ACCT.replace("100.1", "100.2")], AS_IT_IS, AS_IT_IS, None),
    ([TOP, PEER, REALM, "accounting = 3\n", NO_AUTH], AS_IT_IS, AS_IT_IS, "Missing"),
    ([TOP, PEER, REALM, SERVER], 'auth = "198.51.100.1:1812"', "auth = 3", "BadValue"),
    ([TOP, PEER, REALM, "server = [3]\n"], AS_IT_IS, AS_IT_IS, "BadValue"),
    ([TOP, PEER, REALM, "server = []\n"], AS_IT_IS, AS_IT_IS, "BadValue"),
    ([TOP, PEER, REALM, "server = {}\n"], AS_IT_IS, AS_IT_IS, "BadValue"),
    ([TOP, PEER, REALM, 'server = [3, {acct = "198.51.100.1:1813", secret = "s"}]\n'], AS_IT_IS, AS_IT_IS, "Missing"),
    ([TOP, PEER, REALM, SERVER, SECOND_REALM, NO_AUTH], AS_IT_IS, AS_IT_IS, "Missing"),
    ([TOP, PEER, REALM, SERVER, SECOND_REALM, NO_ACCT], AS_IT_IS, AS_IT_IS, "Missing"),
    ([TOP, PEER, REALM, NO_ACCT, NO_AUTH, NO_AUTH.replace("h2", "h3")], AS_IT_IS, AS_IT_IS, "DuplicateServer"),
    ([TOP, PEER, REALM, NO_ACCT, NO_AUTH, NO_AUTH.replace("100.2:1813", "100.1:1812")], AS_IT_IS, AS_IT_IS, "DuplicateServer"),
    ([TOP, PEER, REALM, NO_ACCT, NO_AUTH, NO_AUTH.replace("100.2", "100.3"), NO_ACCT.replace("100.1", "100.3")], AS_IT_IS, AS_IT_IS, None),
    ([TOP, PEER, REALM, NO_ACCT, NO_AUTH], "198.51.100.2:1813", "[2001:db8::2]:1813", "NoWayOut"),
    ([TOP, PEER, REALM, NO_ACCT, NO_AUTH], "192.0.2.1:3799", "198.51.100.2:1813", "DuplicateLink"),
    ([TOP, PEER, REALM, NO_ACCT, NO_AUTH], "192.0.2.1:3799", "198.51.100.1:1813", None),
    ([TOP, PEER, REALM, NO_ACCT, NO_AUTH], 'secret = "h2"\n', "", "Missing"),
    # Names of peers that are not there, or are there twice; that is the last of the faults.
    ([TOP, PEER, SECOND_PEER, REALM, 'peers = ["nas2", "nas1"]\n', SERVER], AS_IT_IS, AS_IT_IS, None),
    ([TOP, PEER, SECOND_PEER, REALM, 'peers = ["nas2", "nas2"]\n', SERVER], AS_IT_IS, AS_IT_IS, None),
    ([TOP, PEER, SECOND_PEER, REALM, 'peers = ["nas2", "nas3"]\n', SERVER], AS_IT_IS, AS_IT_IS, "UnknownPeer"),
    ([TOP, PEER, SECOND_PEER, REALM, 'peers = ["NAS2"]\n', SERVER], AS_IT_IS, AS_IT_IS, "UnknownPeer"),
    ([TOP, PEER, REALM, "peers = []\n", SERVER], AS_IT_IS, AS_IT_IS, "BadValue"),
    ([TOP, PEER, REALM, 'peers = ["nas3"]\n', SERVER], "192.0.2.1:3799", "198.51.100.1:1812", "DuplicateLink"),
    # Operator-Names that differ in case alone.
    ([TOP, PEER, 'operator_name = "a.b"\n', SECOND_PEER, 'operator_name = "A.B"\n', REALM, SERVER], AS_IT_IS, AS_IT_IS, "DuplicatePeer"),
    ([TOP, PEER, 'operator_name = "a.b"\n', SECOND_PEER, 'operator_name = "a.c"\n', REALM, SERVER], AS_IT_IS, AS_IT_IS, None),
    # Names in two namespaces; and those of one that isn't of realms count with their case.
    ([TOP, PEER, 'operator_name = "a.b"\n', SECOND_PEER, 'operator_name = "a.b"\noperator_namespace = "4"\n', REALM, SERVER], AS_IT_IS, AS_IT_IS, None),
    ([TOP, PEER, 'operator_name = "a.b"\n', SECOND_PEER, 'operator_name = "A.b"\noperator_namespace = "1"\n', REALM, SERVER], AS_IT_IS, AS_IT_IS,
     "DuplicatePeer"),
    ([TOP, PEER, 'operator_name = "a"\noperator_namespace = "0"\n', SECOND_PEER, 'operator_name = "a"\noperator_namespace = "0"\n', REALM, SERVER],
     AS_IT_IS, AS_IT_IS, "DuplicatePeer"),
    ([TOP, PEER, 'operator_name = "a"\noperator_namespace = "0"\n', SECOND_PEER, 'operator_name = "A"\noperator_namespace = "0"\n', REALM, SERVER],
     AS_IT_IS, AS_IT_IS, None),
    # Texts of two peers, and sources of one realm and of two.
    ([TOP, PEER, 'nas_ids = ["c", "a*"]\n', SECOND_PEER, 'nas_ids = ["a*", "b"]\n', REALM, SERVER], AS_IT_IS, AS_IT_IS, "DuplicatePeer"),
    ([TOP, PEER, SECOND_PEER, 'nas_ids = ["nas1"]\n', REALM, SERVER], AS_IT_IS, AS_IT_IS, "DuplicatePeer"),
    ([TOP, PEER, SECOND_PEER, 'nas_ids = ["nas1*", "nas11"]\n', REALM, SERVER], AS_IT_IS, AS_IT_IS, None),
    ([TOP, PEER, REALM, SERVER, CLIENT], AS_IT_IS, AS_IT_IS, None),
    ([TOP, PEER, REALM, SERVER, OTHER_CLIENT, CLIENT, OTHER_CLIENT], AS_IT_IS, AS_IT_IS, "DuplicateServer"),
    ([TOP, PEER, REALM, SERVER, CLIENT, SECOND_REALM, SERVER, CLIENT], AS_IT_IS, AS_IT_IS, None),
    ([TOP, PEER, REALM, SERVER, CLIENT], 'secret = "pc"', "", "Missing"),
    ([TOP, PEER, REALM, SERVER, CLIENT], 'secret = "pc"', 'secret = ""', "BadValue"),
    ([TOP, PEER, REALM, SERVER, CLIENT], 'secret = "pc"', 'secret = "pc"\nport = 1', "BadValue"),
    ([TOP, PEER, REALM, SERVER, CLIENT, CLIENT], "192.0.2.1:3799", "198.51.100.1:1813", "DuplicateServer"),
    ([TOP, PEER, REALM, SERVER, CLIENT, CLIENT, CLIENT, CLIENT, CLIENT, CLIENT, CLIENT, CLIENT, CLIENT], AS_IT_IS, AS_IT_IS, "BadValue"),
]

# A line of patterns in each of two realms, `a.example` and `b.example`, and the fault.
PATTERNS = [
    ("", "", None),
    ("also = []\n", "", None),
    ('also = ["b.example"]\n', "", "DuplicateRealm"),
    ('also = ["*", "*"]\n', "", "DuplicateRealm"),
    ('also = ["*.c", "*.C"]\n', "", "DuplicateRealm"),
    ('also = ["A.example"]\n', "", "DuplicateRealm"),
    ('also = ["c", "d", "C"]\n', "", "DuplicateRealm"),
    ('also = ["c"]\n', 'also = ["d", "C"]\n', "DuplicateRealm"),
    ('also = ["*.c"]\n', 'also = ["*.c"]\n', "DuplicateRealm"),
    ('also = ["*"]\n', 'also = ["*"]\n', "DuplicateRealm"),
    ("", 'also = ["A.EXAMPLE"]\n', "DuplicateRealm"),
    ('also = ["*.a.example", "*.b.example"]\n', "", None),
    ('also = ["c", "*.c", "*"]\n', 'also = ["*.d.c"]\n', None),
    ('also = ["*."]\n', "", "BadValue"),
    ('also = ["*a"]\n', "", "BadValue"),
    ('also = ["a.*"]\n', "", "BadValue"),
    ('also = [""]\n', "", "BadValue"),
    ("also = [1]\n", "", "BadValue"),
    ('also = "*"\n', "", "BadValue"),
    ('also = ["**"]\n', "", "BadValue"),
    ('also = ["*.*"]\n', "", "BadValue"),
    ('also = ["c", "c_d"]\n', "", "BadValue"),
    ('also = ["c", ["d"]]\n', "", "BadValue"),
    ('also = ["u@c"]\n', "", "BadValue"),
    ("also = true\n", "", "BadValue"),
    ('also = { c = "d" }\n', "", "BadValue"),
]

# What may stand in a list of attributes to remove: whether in one of requests, and in one of replies.
REMOVED = [
    ('["26.9.1", "31", "26.0", "26.16777215.255", "255", "26", "31"]', True, True),
    ("[]", True, True),
    ('["0"]', False, False),
    ('["256"]', False, False),
    ('["031"]', False, False),
    ('["26.16777216"]', False, False),
    ('["26.9.0"]', False, False),
    ('["26.9.256"]', False, False),
    ('["25.9"]', False, False),
    ('["26."]', False, False),
    ('["26.9.1.1"]', False, False),
    ("[31]", False, False),
    ('"31"', False, False),
    ('[" 31"]', False, False),
    ('["24"]', False, False),
    ('["80"]', False, False),
    ('["33"]', False, False),
    ('["79"]', False, False),
    ('["-1"]', False, False),
    ('["1"]', False, True),
    ('["2"]', False, True),
    ('["3"]', False, True),
    ('["60"]', False, True),
    ('["4", ""]', False, False),
]

# A text of the sample, what stands before a text of `x` in its place, how many, and the fault: the ends of the ranges.
LENGTHS = [
    ('name = "nas1', 'name = "', 0, "BadValue"),
    ('name = "nas1', 'name = "', 1, None),
    ('name = "nas1', 'name = "', 64, None),
    ('name = "nas1', 'name = "', 65, "BadValue"),
    ('secret = "xyzzy5461', 'secret = "', 0, "BadValue"),
    ('secret = "xyzzy5461', 'secret = "', 1, None),
    ('secret = "xyzzy5461', 'secret = "', 64, None),
    ('secret = "xyzzy5461', 'secret = "', 65, "BadValue"),
    ('nas_id = "nas1', 'nas_id = "', 0, "BadValue"),
    ('nas_id = "nas1', 'nas_id = "', 1, None),
    ('nas_id = "nas1', 'nas_id = "', 253, None),
    ('nas_id = "nas1', 'nas_id = "', 254, "BadValue"),
    ('name = "a.example', 'name = "', 0, "BadValue"),
    ('name = "a.example', 'name = "', 1, None),
    ('name = "a.example', 'name = "', 253, None),
    ('name = "a.example', 'name = "', 254, "BadValue"),
    ('secret = "h1', 'secret = "', 0, "BadValue"),
    ('secret = "h1', 'secret = "', 1, None),
    ('secret = "h1', 'secret = "', 64, None),
    ('secret = "h1', 'secret = "', 65, "BadValue"),
]

# How many peers, realms, and servers of each realm, and the fault: the most of each, and one more.
COUNTS = [
    (1024, 1, 1, None),
    (1, 1024, 1, None),
    (1, 1, 8, None),
    (1025, 1, 1, "BadValue"),
    (1, 1025, 1, "BadValue"),
    (1, 1, 9, "BadValue"),
]

# Names and their realms, where `a.example` has `*.a.example` and `*`, and `b.example` `x.a.example` and `*.b.a.example`.
NAMED = [
    ("a.example", 0),
    ("y.a.example", 0),
    (".a.example", 0),
    ("example", 0),
    ("A.EXAMPLE", 0),
    ("x.a.example", 1),
    ("X.a.Example", 1),
    ("b.example", 1),
    ("c.b.a.example", 1),
    ("b.a.example", 0),
    ("", None),
    ("e.d.c.B.A.EXAMPLE", 1),
    ("y.x.a.example", 0),
    ("b.a.example.", 0),
    ("..b.a.example", 1),
    (".b.a.example", 0),
]

# The same where they have `*.Test` and `*.test.test`.
NAMED_BY_SUFFIX = [
    ("a.example", 0),
    ("y.a.example", None),
    ("b.example", 1),
    ("y.test", 0),
    ("test", None),
    (".test", None),
    ("..test", 0),
    ("test.test", 0),
    ("y.TEST.test", 1),
    ("ytest", None),
    ("", None),
]

# The same where the first has `*.a.example` and `*`, and `x.a.example` and `*.gone` are rejected: where names need not be well
# formed, and where they have to be.
REJECTED = [
    ("y.a.example", 0, 0),
    ("b.c", 0, 0),
    ("x.a.example", None, None),
    ("X.A.example", None, None),
    ("y.gone", None, None),
    (".gone", 0, None),
    ("gone", 0, None),
    ("b..c", 0, None),
    ("b.", 0, None),
    (".b", 0, None),
    ("b c.d", 0, None),
    ("-a.b", 0, None),
    ("a-.b", 0, None),
    ("b", 0, None),
    ("b-1.C", 0, 0),
    ("é.fr", 0, 0),
    ("a.example", 0, 0),
    ("b.example", 1, 1),
]

# NAS-Identifiers, and the peers that they mean, of CONTROLLERS.
OF_CONTROLLERS = [
    ("wlc-12", 0),
    ("wlc-1", 0),
    ("wlc-1*", 0),
    ("wlc-2", 1),
    ("wlc-7", 1),
    ("wlc-70", 1),
    ("wlc-", 1),
    ("wlc", None),
    ("WLC-2", None),
    ("nas1", 0),
    ("nas12", None),
    ("", None),
]

# The same of STARS.
OF_STARS = [
    ("wx", 0),
    ("wlc-1", 1),
    ("wap", 1),
    ("wapx", 0),
    ("*", 0),
    ("x", None),
    ("*x", 1),
    ("**", 1),
]

# The same of STARRED.
OF_STARRED = [
    ("ap-*", 1),
    ("ap-1", None),
    ("ap-", None),
]

# Two peers that stand before controllers, and others with texts of stars. A `nas_id` is a name, also with a star at its end.
CONTROLLERS = [TOP, PEER, 'nas_ids = ["wlc-1*"]\n', SECOND, 'coa = "192.0.2.2:3799"\nnas_id = "n2"\nnas_ids = ["wlc-*", "wlc-7"]\n', REALM, SERVER]
STARS = [TOP, PEER, 'nas_ids = ["w*", "*", "ap*"]\n', SECOND, 'coa = "192.0.2.2:3799"\nnas_ids = ["wlc*", "wap", "**"]\n', REALM, SERVER]
STARRED = [TOP, PEER, SECOND, 'coa = "192.0.2.2:3799"\nnas_id = "ap-*"\nnas_ids = []\noperator_name = "Inst.Example"\nnas_ip = "10.0.0.1"\n', REALM, SERVER]

# Documents that have each of the keys, and those that have no key that may be absent.
WHOLE = [
    ["max_hops = 7\nstatus_server = true\ntrace_octets = 4096\nspread = true\n", TOP, PEER, REALM,
     'also = ["c.example", "*.d.example", "*"]\nrest = 10000\nrest_after = 3\n', SERVER, "require_seal = true\n"],
    ["max_attributes = 195\nfresh = 300\n", TOP, PEER, 'nas_ids = ["wlc-1", "ap-*"]\n', REALM,
     'peer_share = 7\nown_names = true\nconversations = true\nbalance = "user"\nown_sessions = true\n', SERVER, NO_AUTH, CLIENT, OTHER_CLIENT],
    ['reject = ["*.gone"]\nwell_formed = true\nanswer_unnamed = true\n', TOP, PEER,
     'limit_proxy_state = true\noperator_name = "inst.example"\noperator_namespace = "3"\nask_cui = true\n',
     'request_without = ["26.9.1", "31"]\nreply_without = ["26.311"]\n', REALM,
     'peers = ["nas1"]\nloop_prevention = true\naccounting = "drop"\n',
     'request_without = ["126"]\nreply_without = ["6"]\nshare = 7\n', NO_ACCT],
    [TOP, PEER, SECOND_PEER, "require_seal = true\n", REALM, SERVER, SECOND_SERVER, SECOND_REALM, SERVER],
    [TOP, PEER.replace('"192.0.2.1"', '["192.0.2.1", "2001:DB8:0::/48", "10.1.0.0/16"]', 1), REALM, SERVER],
]
LEAST = [LEAST_TOP, PLAIN_PEER, LEAST_REALM, SERVER]
LEAST_WITH_REVERSE = [LEAST_TOP, PLAIN_PEER, LEAST_REALM, 'reverse = "127.0.0.1:3000"\n', SERVER]

# What counts where a number isn't written: at the top, and in a realm.
NUMBERS_AT_TOP = {"shards": 1, "seed": "0" * 64, "trace_limit": 100000, "trace_octets": 67108864, "status_server": False, "spread": False}
NUMBERS_OF_REALM = {"tries": 3, "wait": 2000, "hold": 10000, "max_pending": 4096, "rest": 30000, "rest_after": 3}

# Peers at prefixes, of both kinds, one within the other; addresses, and by its place the peer that each is of.
NETWORKS = """
[[peer]]
name = "all"
ip = "0.0.0.0/0"
secret = "s1"
[[peer]]
name = "network"
ip = "192.0.2.0/24"
secret = "s2"
[[peer]]
name = "site"
ip = "2001:DB8:0:0::/32"
secret = "s3"
[[peer]]
name = "host"
ip = "2001:db8::1"
secret = "s4"
"""
SECRETS_OF_NETWORKS = [b"xyzzy5461", b"s1", b"s2", b"s3", b"s4"]
AT_NETWORKS = [
    ("192.0.2.1:5000", 0),
    ("192.0.2.2:5000", 2),
    ("192.0.3.1:5000", 1),
    ("[2001:db8::1]:5000", 4),
    ("[2001:db8:ffff::1]:5000", 3),
    ("[2001:db9::1]:5000", None),
]
