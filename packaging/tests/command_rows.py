"""What `roam` prints and tells, for try-words.py: words of the command line, configurations, scripts, and answers of a server."""

# The usage.
USAGE = """\
usage: roam check CONF
       roam check OLD NEW
       roam check --all CONF (prints the secrets too)
       roam sim CONF SCRIPT
       roam serve [--seed-of-file] CONF [MS]
       roam ctl [PATH] status [--json|--watch|--problems|REALM[,REALM..]]
       roam ctl [PATH] metrics|stop|trace N
       roam ctl [PATH] reload [--lose] (without PATH: /run/roam/control)
       roam streams CONF [MS]
       roam check --streams CONF
       roam help
       roam version
"""

# Words that ask for nothing, though a command begins with the first one.
NO_COMMANDS = [
    [], ["check"], ["check", "a", "b", "c"], ["check", "--all"], ["check", "--all", "a", "b"], ["sim"], ["sim", "a"],
    ["sim", "a", "b", "c"], ["serve"], ["serve", "a", "5", "5"], ["serve", "--seed-of-file"], ["serve", "--seed-of-file", "a", "5", "5"],
    ["check", "--seed-of-file", "a", "b"], ["sim", "--seed-of-file", "a", "b"], ["ctl"], ["ctl", "a"],
    ["ctl", "a", "status", "--jsn"], ["ctl", "a", "status", "--json", "--watch"], ["ctl", "a", "metrics", "--json"],
    ["ctl", "a", "trace"], ["ctl", "a", "trace", "x"], ["ctl", "a", "trace", "65536"], ["ctl", "status", "--problem"],
    ["ctl", "a", "stop", "0"], ["ctl", "a", "reload", "0"], ["ctl", "a", "reload", "--lose", "0"],
    ["ctl", "reload", "a"], ["ctl", "trace"], ["ctl", "trace", "x"], ["ctl", "stop", "status"], ["ctl", "status", "status", "--json"],
    ["ctl", "status", "a", "b"], ["help", "a"], ["--version", "a"],
]

# Words of which the last stands where milliseconds stand, and is no number of them.
UNTIMED_WORDS = [["serve", "a", it] for it in ("", "0", "00", "01", "86400001", "18446744073709551617", "+5", "-5", "5 ", "5ms", "5s",
                                                "--seed-of-file")] + [["serve", "--seed-of-file", "a", "0"], ["serve", "--seed-of-files", "a"]]

# Words with whose first one no command begins.
UNKNOWN_WORDS = [
    [""], ["chek", "a"], ["Check", "a"], ["check ", "a"], ["Serve", "a"], ["Ctl", "a", "stop"], ["Help"], ["-H"], ["-v"],
    ["--all", "a"], ["a", "b", "c", "d", "e"],
]

# A configuration.
CONFIGURATION = """\
shards = 1
seed = "0000000000000000000000000000000000000000000000000000000000000001"
auth = "127.0.0.1:1812"
acct = "127.0.0.1:1813"
trace_limit = 1000

[[peer]]
name = "nas1"
ip = "192.0.2.1"
secret = "xyzzy5461"
coa = "192.0.2.1:3799"
nas_ip = "192.0.2.1"
nas_id = "nas1"
require_seal = true

[[realm]]
name = "a.example"
out = "127.0.0.1:2000"
reverse = "127.0.0.1:3000"
tries = 2
wait = 1000
hold = 5000
max_pending = 300
max_sessions = 100

[[realm.server]]
auth = "198.51.100.1:1812"
acct = "198.51.100.1:1813"
secret = "h1"
require_seal = true
"""

# What is printed of it with all its defaults.
STATED = """\
shards = 1
seed = "0000000000000000000000000000000000000000000000000000000000000001"
auth = "127.0.0.1:1812"
acct = "127.0.0.1:1813"
trace_limit = 1000
trace_octets = 67108864
status_server = false
spread = false
log_exchanges = "all"
log_station = "clear"
state_every = 60
reject = []
well_formed = false
answer_unnamed = false

[[peer]]
name = "nas1"
ip = "192.0.2.1"
secret = "xyzzy5461"
coa = "192.0.2.1:3799"
nas_ip = "192.0.2.1"
nas_id = "nas1"
nas_ids = []
require_seal = true
limit_proxy_state = false
ask_cui = false
request_without = []
reply_without = []

[[realm]]
name = "a.example"
also = []
loop_prevention = false
accounting = "forward"
request_without = []
reply_without = []
own_names = false
conversations = false
own_sessions = false
out = "127.0.0.1:2000"
reverse = "127.0.0.1:3000"
tries = 2
wait = 1000
rest = 30000
rest_after = 3
hold = 5000
max_pending = 300
max_sessions = 100

[[realm.server]]
auth = "198.51.100.1:1812"
acct = "198.51.100.1:1813"
secret = "h1"
require_seal = true
"""

# A configuration without defaults, as it is printed with all of them.
FULL = """\
shards = 64
seed = "00a1b2c3d4e5f60718293a4b5c6d7e8f00a1b2c3d4e5f60718293a4b5c6d7e8f"
auth = "0.0.0.0:1812"
acct = "0.0.0.0:1813"
trace_limit = 1000000
trace_octets = 1
max_hops = 100
max_attributes = 2000
status_server = true
spread = true
metrics = "127.0.0.1:9812"
control = "/run/a \\"b\\\\c"
log_exchanges = "final"
log_station = "hmac"
state = "/var/lib/roam/sessions"
state_every = 86400
reject = ["*.Invalid", "guests.b.example"]
well_formed = true
answer_unnamed = true
fresh = 3600

[[peer]]
name = "nas-1_a.b"
ip = "255.255.255.255"
secret = "\\u0000\\u0009\\u000a\\u001f\\u007f\\u0080\\u009f é€ # '\\"\\\\u"
nas_ids = []
require_seal = false
limit_proxy_state = true
operator_name = "a.example"
ask_cui = true
request_without = ["64", "26.9", "26.311.7"]
reply_without = []

[[peer]]
name = "nas2"
ip = "192.0.2.2"
secret = "'''"
coa = "192.0.2.2:65535"
nas_ip = "192.0.2.2"
nas_id = "\\u001b[31m"
nas_ids = ["\\u001b*", "a \\"b\\""]
require_seal = true
limit_proxy_state = false
ask_cui = false
request_without = []
reply_without = ["18"]

[[realm]]
name = "a.example"
also = ["*", "*.Example", "b.example"]
peers = ["nas2", "nas-1_a.b"]
loop_prevention = true
accounting = "answer"
request_without = ["126"]
reply_without = ["26.24757.1", "64"]
share = 4096
peer_share = 1
own_names = true
conversations = true
own_sessions = true
out = "127.0.0.1:2000"
tries = 10
wait = 60000
rest = 0
rest_after = 256
hold = 0
max_pending = 1
max_sessions = 0

[[realm.server]]
auth = "198.51.100.1:1"
acct = "198.51.100.1:2"
secret = "h1"
require_seal = false

[[realm.server]]
auth = "198.51.100.2:1"
secret = "h2"
require_seal = true

[[realm.coa_client]]
ip = "198.51.100.1"
secret = "p\\"c"

[[realm.coa_client]]
ip = "10.0.0.1"
secret = "p2"
"""

# Another peer, and another realm with a server: a change of the configuration that stands before its realm.
SECOND_PEER = """\
[[peer]]
name = "nas2"
ip = "192.0.2.1"
secret = "s"

[[realm]]
name = "a.example\""""

SECOND_REALM = """\
[[realm]]
name = "A.EXAMPLE"
out = "127.0.0.1:2001"
reverse = "127.0.0.1:3001"
tries = 1
wait = 1
hold = 0
max_pending = 1
max_sessions = 0

[[realm.server]]
auth = "198.51.100.2:1812"
acct = "198.51.100.2:1813"
secret = "h2"

[[realm]]
name = "a.example\""""

# An Accounting-Request and the home server's response, an exchange that was worked out by hand; and what is sent.
EXCHANGE = """\
# Start of a session
A 0 acct 192.0.2.1:5000 0405002b40d7b5a889c55fa9032ba5d6be378f2e010d7540612e6578616d706c652806000000012c043031
A 0 out:0 198.51.100.1:1813 0500001ea1e81fcd91eda44683d85e49b2655719210a0000000000000000
"""

EXCHANGED = """\
0 out:0 198.51.100.1:1813 040000358df41562121fde074fa4a8b4ea7c9990010d7540612e6578616d706c652806000000012c043031210a0000000000000000
0 acct 192.0.2.1:5000 050500144511dc97de8dbcfd887f32eb5da70447
"""

# A configuration with another first peer and another first realm, and one realm more.
LARGER = """\
shards = 5
seed = "000102030405060708090a0b0c0d0e0f101112131415161718191a1b1c1d1e1f"
auth = "127.0.0.1:1812"
acct = "127.0.0.1:1813"
trace_limit = 1

[[peer]]
name = "nas1"
ip = "192.0.2.1"
secret = "s"

[[peer]]
name = "nas2"
ip = "192.0.2.2"
secret = "s"

[[realm]]
name = "a.example"
out = "127.0.0.1:2000"
reverse = "127.0.0.1:3000"
tries = 1
wait = 1
hold = 0
max_pending = 1
max_sessions = 0
server = [{ auth = "198.51.100.1:1812", acct = "198.51.100.1:1813", secret = "h" }]

[[realm]]
name = "b.example"
out = "127.0.0.1:2001"
reverse = "127.0.0.1:3001"
tries = 1
wait = 1
hold = 0
max_pending = 1
max_sessions = 0
server = [{ auth = "198.51.100.1:1812", acct = "198.51.100.1:1813", secret = "h" }]

[[realm]]
name = "c.example"
out = "127.0.0.1:2002"
reverse = "127.0.0.1:3002"
tries = 1
wait = 1
hold = 0
max_pending = 1
max_sessions = 0
server = [{ auth = "198.51.100.1:1812", acct = "198.51.100.1:1813", secret = "h" }]
"""

FOURTH = """\

[[realm]]
name = "d.example"
out = "127.0.0.1:2003"
reverse = "127.0.0.1:3003"
tries = 1
wait = 1
hold = 0
max_pending = 1
max_sessions = 0
server = [{ auth = "198.51.100.1:1812", acct = "198.51.100.1:1813", secret = "h" }]
"""

# What is printed where the second configuration follows the first, and the status and what is printed the other way round.
ADDED = """\
can be reloaded
realm a.example: unchanged
realm b.example: unchanged
realm c.example: unchanged
realm d.example: new
"""
REMOVED = (0, """\
can be reloaded
realm a.example: unchanged
realm b.example: unchanged
realm c.example: unchanged
realm d.example: gone: loses all
""")

# What is advised of the first one: a line of the file (none where the key is absent from the top table), and what is said there.
ABSENT = (None, "advice: status_server: is absent: a peer that asks by Status-Server whether the proxy is up gets no answer")
LEAST_ADVICE = [
    ABSENT,
    (16, "advice: realm \"a.example\": own_sessions: isn't true beside reverse: a Disconnect or CoA may name a session of another realm"),
    (29, 'advice: realm "a.example", server 1: secret: has less than 8 octets, and can be guessed'),
]

# What is advised of the larger one.
ADVICE = [
    ABSENT,
    (10, 'advice: peer "nas1": secret: has less than 8 octets, and can be guessed (and in 1 more)'),
    (7, "advice: peer \"nas1\": require_seal: isn't true: an Access-Request without a Message-Authenticator, which can be forged, is taken (and in 1 more)"),
    (17, 'advice: realm "a.example": peer_share: is absent where several peers may ask: one may take all Identifiers, 256 for each out, from the others (and in 2 more)'),
    (22, 'advice: realm "a.example": wait: is in milliseconds, not in seconds: did you mean 1000? (and in 2 more)'),
    (20, 'advice: realm "a.example": reverse: is there, but no peer that may ask has coa: no Disconnect or CoA is delivered (and in 2 more)'),
    (26, 'advice: realm "a.example", server 1: secret: has less than 8 octets, and can be guessed (and in 2 more)'),
    (26, "advice: realm \"a.example\", server 1: require_seal: isn't true: an Access-Accept without a Message-Authenticator, which can be forged, is taken (and in 2 more)"),
]

# A line of the configuration, what stands in its place, the fault, and what is told behind the path of the file.
REFUSED = [
    ("shards = 1", "shards = ", "Syntax", ":1:10: invalid value, expected a string, number, boolean, date-time, array or inline table: shards is a whole number in 1..64"),
    ('auth = "127', '# "127', "Missing", ": auth: is missing"),
    ("wait = 1000", "wait = 0", "BadValue", ':21: realm "a.example": wait: 0 is not in 1..60000'),
    ('[[realm]]\nname = "a.example"', SECOND_REALM, "DuplicateRealm", ':32: realm "a.example": name: "a.example" is also in line 17: realm "A.EXAMPLE": name'),
    ('[[realm]]\nname = "a.example"', SECOND_PEER, "DuplicatePeer", ':18: peer "nas2": ip: "192.0.2.1" is also in line 9: peer "nas1": ip'),
    ("127.0.0.1:2000", "127.0.0.1:1812", "DuplicateEndpoint", ':18: realm "a.example": out: "127.0.0.1:1812" is also in line 3: auth'),
    ("198.51.100.1:1813", "198.51.100.1:1812", "DuplicateServer", ':28: realm "a.example", server 1: acct: "198.51.100.1:1812" is also in line 27: realm "a.example", server 1: auth'),
    ("192.0.2.1:3799", "198.51.100.1:1812", "DuplicateLink", ':27: realm "a.example", server 1: auth: "198.51.100.1:1812" is also in line 11: peer "nas1": coa'),
]

# What is wrong with a line of a script, and the line.
FAULTY = [
    ("a leading zero", "T 00 0"),
    ("a moment of 2 ^ 64", "T 18446744073709551616 0"),
    ("a shard of 2 ^ 16", "T 0 65536"),
    ("two spaces", "T  0 0"),
    ("a space at the end", "T 0 0 "),
    ("a line of spaces", "  "),
    ("a carriage return", "T 0 0\r"),
    ("another letter", "B 0 0"),
    ("a missing field", "A 0 acct 192.0.2.1:5000"),
    ("no place", "A 0 192.0.2.1:5000 00"),
    ("a realm of 2 ^ 16", "A 0 out:65536 192.0.2.1:5000 00"),
    ("no port", "A 0 acct 192.0.2.1 00"),
    ("an empty field of octets", "A 0 acct 192.0.2.1:5000 "),
    ("an odd number of digits", "A 0 acct 192.0.2.1:5000 000"),
    ("a digit that is none", "A 0 acct 192.0.2.1:5000 0g"),
]

# Why nobody answers at the path of a control socket.
NO_PATH = "no such path: is roam running, and is this its `control`?"
NOBODY = "nobody listens there: the server has ended, or this is no socket"

# Octets of an answer, and what is shown of them: nothing steers a terminal.
SHOWN = [
    (b"realm a.example: requests 1\n\tb", "realm a.example: requests 1\n\tb"),
    (b"\x1b]0;title\x07", "\\x1b]0;title\\x07"),
    (b"a\rb\0c\x7f", "a\\x0db\\x00c\\x7f"),
    (b"\xc3\xa9\xe2\x82\xac", "é€"),
    (b"\xc2\x9b31m", "\\x9b31m"),
    (b"\x9b31m\xc3\xa9", "\\x9b31m\\xc3\\xa9"),
]

# Answers, and whether each is whole (RFC 9110, section 8.6).
ANSWERS = [
    (b"HTTP/1.1 200 OK\r\ncontent-length: 5\r\n\r\nwhole", True),
    (b"HTTP/1.1 200 OK\r\nA: b\r\nContent-Length:5\r\nC: d\r\n\r\nwhole", True),
    (b"HTTP/1.1 200 OK\r\nContent-Length: 0\r\n\r\n", True),
    (b"HTTP/1.1 200 OK\r\ncontent-length: 6\r\n\r\nshort", False),
    (b"HTTP/1.1 200 OK\r\ncontent-length: +5\r\n\r\nwhole", False),
    (b"HTTP/1.1 200 OK\r\n\r\nwhole", False),
    (b"HTTP/1.1 200 OK\r\ncontent-length: 5\r\n", False),
    (b"", False),
]
