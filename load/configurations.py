"""Configurations of the brokers that are measured; addresses and secrets as `layout.h` has them."""

import os
import secrets

HERE = "127.0.0.1"
PEERS = ["127.0.0.1", "127.0.0.2"]


def realm_name(realm):
    return f"r{realm}.example"


def home_auth(base, realm):
    return base + 1000 + 2 * realm


def home_acct(base, realm):
    return base + 1001 + 2 * realm


def roam(directory, options, realms, shards):
    """Writes `roam.conf` and answers its path."""
    base = options.base
    lines = [
        f"shards = {shards}",
        f'seed = "{secrets.token_hex(32)}"',
        f'auth = "{HERE}:{base}"',
        f'acct = "{HERE}:{base + 1}"',
        f"trace_limit = {options.trace_limit}",
        *getattr(options, "top", []),
    ]
    if options.spread:
        lines.append("spread = true")
    if options.trace_octets:
        lines.append(f"trace_octets = {options.trace_octets}")
    for number, address in enumerate(PEERS):
        lines += [
            "\n[[peer]]",
            f'name = "peer{number}"',
            f'ip = "{address}"',
            f'secret = "peer-secret-{number}"',
            f'coa = "{address}:{base + 2}"',
            f'nas_ip = "{address}"',
            f'nas_id = "peer{number}"',
        ]
    for realm in range(realms):
        lines += [
            "\n[[realm]]",
            f'name = "{realm_name(realm)}"',
            f'out = "{HERE}:{base + 10 + 2 * realm}"',
            f'reverse = "{HERE}:{base + 11 + 2 * realm}"',
            f"tries = {options.tries}",
            f"wait = {options.wait}",
            f"hold = {options.hold}",
            f"max_pending = {options.max_pending}",
            f"max_sessions = {options.max_sessions}",
            "rest = 0",
            "\n[[realm.server]]",
            f'auth = "{HERE}:{home_auth(base, realm)}"',
            f'acct = "{HERE}:{home_acct(base, realm)}"',
            f'secret = "home-secret-{realm}"',
        ]
    return write(os.path.join(directory, "roam.conf"), lines)


def radsecproxy(directory, options, realms, shards):
    """Writes `radsecproxy.conf` and answers its path."""
    base = options.base
    lines = [
        f"ListenUDP {HERE}:{base}",
        f"ListenUDP {HERE}:{base + 1}",
        f"SourceUDP {HERE}:*",
        "LogLevel 1",
        "LoopPrevention off",
    ]
    for number, address in enumerate(PEERS):
        lines += [f"client peer{number} {{", f"  host {address}", "  type udp",
                  f"  secret peer-secret-{number}", "}"]
    for realm in range(realms):
        for kind, port in (("auth", home_auth(base, realm)), ("acct", home_acct(base, realm))):
            lines += [f"server {kind}{realm} {{", f"  host {HERE}", f"  port {port}",
                      "  type udp", f"  secret home-secret-{realm}", "}"]
        lines += [f"realm {realm_name(realm)} {{", f"  server auth{realm}",
                  f"  accountingServer acct{realm}", "}"]
    return write(os.path.join(directory, "radsecproxy.conf"), lines)


FREERADIUS = """
prefix = /usr
libdir = /usr/lib/freeradius
logdir = {directory}
run_dir = {directory}
db_dir = {directory}
radacctdir = {directory}
max_request_time = 30
cleanup_delay = 2
max_requests = 1048576
hostname_lookups = no
proxy_requests = yes
log {{
  destination = files
  file = {directory}/freeradius.log
  auth = no
}}
security {{
  max_attributes = 200
  reject_delay = 0
  status_server = no
  allow_vulnerable_openssl = yes
}}
thread pool {{
  start_servers = 4
  max_servers = 16
  min_spare_servers = 2
  max_spare_servers = 16
  max_queue_size = 65536
  max_requests_per_server = 0
}}
modules {{
  realm suffix {{
    format = suffix
    delimiter = "@"
  }}
}}
proxy server {{
  default_fallback = no
}}
server default {{
  listen {{
    type = auth
    ipaddr = 127.0.0.1
    port = {auth}
    recv_buff = 4194304
  }}
  listen {{
    type = acct
    ipaddr = 127.0.0.1
    port = {acct}
    recv_buff = 4194304
  }}
  authorize {{
    suffix
  }}
  preacct {{
    suffix
  }}
  accounting {{
  }}
}}
"""


def freeradius_realm(base, realm):
    lines = []
    for kind, port in (("auth", home_auth(base, realm)), ("acct", home_acct(base, realm))):
        lines += [f"home_server {kind}{realm} {{", f"  type = {kind}", f"  ipaddr = {HERE}",
                  f"  port = {port}", f"  secret = home-secret-{realm}",
                  "  response_window = 20", "  status_check = none", "}",
                  f"home_server_pool {kind}{realm} {{", "  type = fail-over",
                  f"  home_server = {kind}{realm}", "}"]
    return lines + [f"realm {realm_name(realm)} {{", f"  auth_pool = auth{realm}",
                    f"  acct_pool = acct{realm}", "  nostrip", "}"]


def freeradius(directory, options, realms, shards):
    """Writes `radiusd.conf` and answers the directory that it is in."""
    base = options.base
    lines = [FREERADIUS.format(directory=directory, auth=base, acct=base + 1)]
    for number, address in enumerate(PEERS):
        lines += [f"client peer{number} {{", f"  ipaddr = {address}",
                  f"  secret = peer-secret-{number}", "}"]
    for realm in range(realms):
        lines += freeradius_realm(base, realm)
    write(os.path.join(directory, "radiusd.conf"), lines)
    return directory


def write(path, lines):
    with open(path, "w", encoding="ascii") as file:
        file.write("\n".join(lines) + "\n")
    return path


# What writes the configuration, and the command, in which {conf} and {ms} are filled in.
BROKERS = {
    "roam": (roam, "{repository}/crates/roam/out/roam serve {conf} {ms}"),
    "radsecproxy": (radsecproxy, "/usr/sbin/radsecproxy -f -c {conf} -i {directory}/proxy.pid"),
    "freeradius": (freeradius, "/usr/sbin/freeradius -f -d {conf} -n radiusd"),
}
