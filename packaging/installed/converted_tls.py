"""What the converters write for haproxy and `roam streams`, where clients and servers speak TLS (docs/TLS.md)."""

import os
import re

from converted_conf import endpoint_text, endpoint_texts, is_ipv4, parts_of, peer_name

HAPROXY = """# Written by a converter, for haproxy 2.6 or later. docs/TLS.md tells how it is put in place.

global
    user haproxy
    group haproxy
    maxconn 8192
    stats socket /run/haproxy/admin.sock mode 600 level admin

defaults
    mode tcp
    log stderr format raw daemon
    option tcplog
    timeout connect 5s
    timeout client 2h
    timeout server 2h
    timeout queue 1s
"""
FRONTEND = """
frontend radsec
{binds}
    stick-table type ip size 10k expire 1m store conn_cur
    tcp-request connection track-sc0 src
    tcp-request connection reject if {{ sc0_conn_cur gt 20 }}
    tcp-request inspect-delay 10s
    tcp-request content reject unless {{ ssl_fc }}
    tcp-request content reject unless {{ ssl_c_s_dn(CN),map_str({folder}/names.map) -m found }}
    default_backend peers

# Without `weight 0` a certificate whose name in the map is no line here would go to any of them, and so be another peer.
backend peers
    use-server %[ssl_c_s_dn(CN),map_str({folder}/names.map)] if TRUE
"""
# Where docs/TLS.md has certificates and the map; where connections that come out of TLS are taken.
FOLDER, TAKE, LOOPBACK = "/etc/roam/tls", ("127.0.0.1", 12083), "127.0.0.1"


def literal(expression):
    """Returns the one text that an expression takes, as `/^a\\.example$/`; None where it takes several."""
    found = re.fullmatch(r"/?\^?((?:[A-Za-z0-9_ -]|\\?\.)+)\$?/?", expression or "")
    return found and found[1].replace("\\", "")


class FrontServer:
    """A server that speaks TLS: its address here, what is asked of the certificate, and at which ports it is reached."""

    def __init__(self, name, address, place, subject):
        self.name, self.address, self.place, self.subject, self.at, self.reverse = name, address, place, subject, [], None


class Front:
    """What stands in haproxy.cfg, names.map and streams.conf."""

    def __init__(self):
        self.names, self.peers, self.subjects, self.servers = set(), {}, {}, {}
        self.binds, self.source, self.checks_revoked = [], None, False

    def listen(self, text):
        """Takes connections at an endpoint of another server's file."""
        host, port = parts_of(text)
        host = "" if host in ("*", "0.0.0.0") else host if is_ipv4(host) else f"[{host}]"
        self.binds.append(f"{host}:{port or 2083}")

    def peer(self, name, subjects):
        """Returns the address of a client, whose certificates have these names."""
        number = len(self.peers)
        self.peers[name] = address = f"127.1.{number // 250}.{number % 250 + 1}"
        self.subjects.update((subject, name) for subject in subjects)
        return address

    def server(self, name, host, port, subject, address=None):
        """Returns the address of a server: one for each host and port. An address that is named is taken for a new one."""
        place, number = (host, port), len(self.servers)
        if place not in self.servers:
            chosen = address or f"127.2.{number // 250}.{number % 250 + 1}"
            self.servers[place] = FrontServer(peer_name(name, self.names), chosen, place, subject)
        return self.servers[place].address

    def use(self, endpoint, reverse=None):
        """Reaches a server at an endpoint, where that is one of its address; its Disconnects come to `reverse`."""
        for server in self.servers.values():
            if endpoint and server.address == endpoint[0]:
                server.at += [] if endpoint in server.at else [endpoint]
                server.reverse = server.reverse or reverse

    def has(self, address):
        """Says whether an address is a server's."""
        return any(it.address == address for it in self.servers.values())

    def is_used(self):
        return bool(self.peers or self.servers)

    def haproxy(self):
        certificates = f"crt {FOLDER}/own.pem ca-file {FOLDER}/ca.pem" + (f" crl-file {FOLDER}/crl.pem" if self.checks_revoked else "")
        text = HAPROXY
        if self.peers:
            binds = [f"    bind {it} ssl {certificates} verify required ssl-min-ver TLSv1.2" for it in self.binds or [":2083"]]
            text += FRONTEND.format(binds="\n".join(binds), folder=FOLDER)
        for name, address in self.peers.items():
            text += f"    server {name} {TAKE[0]}:{TAKE[1]} source {address} maxconn 16 weight 0\n"
        source = f" source {self.source}" if self.source else ""
        for server in self.servers.values():
            host, port = server.place
            host = host if is_ipv4(host) else f"[{host}]"
            for address, own in server.at:
                text += (f"\nlisten {server.name}-{own}\n    bind {address}:{own}\n    server home {host}:{port} ssl {certificates}"
                         f" verify required verifyhost {server.subject} init-addr last,libc,none{source}\n")
        return text

    def map(self):
        lines = [f"{subject} {name}" for subject, name in self.subjects.items()]
        return "".join(it + "\n" for it in lines + [f"# The common name of its certificate: .. {it}" for it in self.peers if it not in self.subjects.values()])

    def streams(self, auths, accts):
        """Returns what `roam streams` reads; the broker has these endpoints."""
        lines = ["# Written by a converter. `roam check --streams` judges it."]
        if self.peers:
            own = [next(it for it in ends if is_ipv4(it[0])) for ends in (auths, accts)]
            lines += [f"take = [{endpoint_text(TAKE)}]", f"auth = {endpoint_text(own[0])}", f"acct = {endpoint_text(own[1])}"]
        for server in self.servers.values():
            for first in range(0, len(server.at), 2):
                ends = server.at[first:first + 2]
                lines += ["", f"# {server.name}", "[[server]]", f"at = [{', '.join(map(endpoint_text, ends))}]"]
                lines += [f"reverse = {endpoint_texts([server.reverse])}"] if server.reverse and is_ipv4(server.reverse[0]) else []
        return "\n".join(lines) + "\n"

    def write(self, out, folder, auths, accts):
        """Writes the three files into a folder, which it makes, or else as comments behind the configuration."""
        if folder:
            os.makedirs(folder, exist_ok=True)
        for name, text in (("haproxy.cfg", self.haproxy()), ("names.map", self.map()), ("streams.conf", self.streams(auths, accts))):
            if folder:
                with open(os.path.join(folder, name), "w", encoding="utf-8") as file:
                    file.write(text)
            else:
                out.put("", f"# {name} (--front FOLDER writes it):", *(f"#   {line}".rstrip() for line in text.splitlines()))
