#!/usr/bin/env python3
"""Reads a radsecproxy.conf (radsecproxy 1.9) and writes a configuration of roam on standard output.

What can't be said there stands in it as a comment, at its place: `# Not carried over: ..`. What is said in another way
is a comment too: `# Changed: ..`. How many there are is said on standard error. Read them all, and then `roam check`.
Where a whole client or realm isn't carried over, its status is 1.
"""

import ipaddress
import re
import sys

from converted_conf import (ALSO, HOPS, NAME, PLACES, PREFIXES, REJECTS, REST_AFTER_OF_ALL, SERVERS, TABLES, Written, by_so_many, closed, endpoint_of,
                            fault_of, is_in_one, kind_of, network_of, network_text, network_texts, options_of, parts_of, peer_name, toml)
from converted_conf import endpoint_text as written, endpoint_texts as written_all
from converted_tls import FOLDER, LOOPBACK, Front, literal
from radsecproxy_conf import Block, Unreadable, blocks_of
from radsecproxy_names import NotASuffix, covers, items_of
from radsecproxy_rewrite import MOST, rewriting_of

FTICKS = "f-ticks.py makes F-Ticks lines of the log"

# Why an option has no place in roam's file. The others that aren't read have no reason of their own.
REASONS = {
    "pidfile": "it stays in the foreground", "loglevel": "notices go to standard error",
    "logdestination": "notices go to standard error", "logthreadid": "notices go to standard error",
    "logkey": "station.key beside the configuration has it",
    "fticksreporting": FTICKS, "fticksmac": f"{FTICKS}: its --station", "ftickskey": f"{FTICKS}: in the file of its --key",
    "ftickssyslogfacility": FTICKS,
    "fticksprefix": FTICKS, "fticksviscountry": FTICKS, "fticksvisinst": FTICKS,
    "ttlattribute": "max_hops counts the proxies by their Proxy-States",
    "addttl": "max_hops counts the proxies by their Proxy-States",
    "listentcp": "no TCP", "listendtls": "no DTLS", "sourcetcp": "no TCP", "sourcedtls": "no DTLS",
    "rewriteattribute": "a User-Name is carried as it stands",
    "dynamiclookupcommand": "home servers aren't discovered", "blockingstartup": "home servers aren't discovered",
    "replymessage": "an Access-Reject of the broker has no Reply-Message",
    "accountingresponse": "accounting of a name that is rejected is refused (9)",
}


class Output(Written):
    """What is written, with the options that have no key."""

    def lose_options(self, block, known):
        for option, value in block.options:
            if option not in known and (option, value.lower()) not in IDLE:
                shown = "" if option.endswith("key") else f" {value}"
                reason = REASONS.get(option, "roam has nothing like it")
                self.lose(f"{option}{shown}: {reason}")


REWRITES = ("rewrite", "rewritein", "rewriteout")
# Expressions of names without an `@`, which the broker rejects anyway.
WITHOUT_REALM = ("/^$/", "/^[^@]*$/", "/^[^@]+$/")
# Options that say what is so anyway.
IDLE = {(key, value) for key in ("ipv4only", "ipv6only") for value in ("on", "off")} | { ("tcpkeepalive", "off"), ("loopprevention", "off"),
        ("requiremessageauthenticator", "off"), ("requiremessageauthenticatorproxy", "off"),
        ("accountingresponse", "off"), ("blockingstartup", "off")}


def secret_of(block):
    """Its secret as text, or why it can't be written. Within TLS everybody has the same one (RFC 6614, section 2.3)."""
    return fault_of(block.get("secret") or ("radsec" if is_tls(block) else None))


def is_udp(block):
    return (block.get("type") or "udp").lower() == "udp"


def is_tls(block):
    return (block.get("type") or "udp").lower() == "tls"


OF_TLS = {"tls", "certificatenamecheck", "matchcertificateattribute", "tcpkeepalive"}


def subjects_of(block):
    """Returns the names of its certificate, where the block says them."""
    matched = [literal(it.rpartition(":")[2]) for it in block.all("matchcertificateattribute")]
    if matched:
        return [it for it in matched if it]
    hosts = block.all("host") or [block.name]
    checks_name = (block.get("certificatenamecheck") or "on").lower() == "on"
    return [it for it in hosts if checks_name and NAME.match(it) and re.search("[A-Za-z]", it)]


class Conversion:
    def __init__(self, top, blocks, options):
        self.top, self.blocks, self.options, self.out = top, blocks, options, Output()
        self.of_kind = lambda kind: [block for block in blocks if block.kind == kind]
        self.servers = {block.name.lower(): block for block in self.of_kind("server")}
        self.rewrites = {block.name: block for block in self.of_kind("rewrite")}
        self.used, self.addresses, self.names, self.peers = set(), {}, set(), 0
        self.lost_parts, self.lost_tables, self.rejects, self.reject_at = [], [], [], 0
        self.realms, self.taken, self.forwarding, self.front = 0, [], [], Front()

    def run(self):
        self.write_top()
        for block in self.of_kind("client"):
            self.write_client(block)
        self.tell_certificates()
        self.tell_rewrites()
        self.forwarding = self.forwarded_items()
        for block in self.of_kind("realm"):
            self.write_realm(block)
        self.write_unused_servers()
        self.write_rejects()
        if self.front.is_used():
            self.front.write(self.out, self.options.front, self.auths, self.accts)

    # The top of the file

    def write_top(self):
        out, top = self.out, self.top
        out.put("# Written by from-radsecproxy.py. `roam check` judges it; docs/FILES.md has every key, and",
                "# docs/OPERATING.md how each number is chosen. It has secrets: owner root, mode 0600.", "")
        udp, source = top.all("listenudp"), top.get("sourceudp", "*")
        listen = [endpoint_of(text, 1812, self.options) for text in udp]
        found = [endpoint for endpoint in listen if endpoint]
        homes = [it for text in top.all("sourceudp") for it in [endpoint_of(text, 1, self.options)] if it]
        tls = [it for text in top.all("listentls") + top.all("sourcetls") for it in [endpoint_of(text, 1, self.options)] if it]
        named = [self.options.address, *(it[0] for it in found + homes + tls)]
        by_tls = [is_tls(it) for it in self.of_kind("client")]
        first = LOOPBACK if by_tls and all(by_tls) and not udp else next((it for it in named if it), None)
        auth = found[0] if found else (first or out.own_address([], "IPv4"), 1812)
        others = [it for it in found[1:] if kind_of(it[0]) == kind_of(auth[0])]
        acct = others[0] if others else (auth[0], 1813 if auth[1] != 1813 else 1814)
        self.own = [*(it[0] for it in homes), auth[0], *named]
        auths, accts = [auth], [acct]
        for text in [text for text, endpoint in zip(udp, listen) if endpoint not in (auth, acct) and endpoint]:
            more = endpoint_of(text, 1812, self.options)
            places = accts if more[1] in (1646, 1813) else auths
            if more in auths + accts or len(places) == PLACES:
                out.lose(f"listenudp {text}: {PLACES} endpoints for Access, and as many for accounting")
            else:
                places.append(more)
        for text, endpoint in zip(udp, listen):
            if not endpoint and not re.match(r"\*|\[?::[\]:]|0\.0\.0\.0\b", text + ":"):
                out.lose(f"listenudp {text}: no address")
        out.change("radsecproxy takes Access and accounting at either port; roam takes Access at `auth` alone,"
                   " accounting at `acct`")
        if any(it[1] != 1 for it in homes):
            out.change(f"sourceudp {source}: each realm has a port of its own")
        if top.is_on("loopprevention"):
            out.change("loopprevention compares names; loop_prevention, in the realms that it is for, compares addresses, and an"
                       " Access-Request gets an Access-Reject")
        for text in top.all("listentls"):
            self.front.listen(text)
        self.front.source = next((it for it in top.all("sourcetls") if endpoint_of(it, 1, self.options)), None)
        if any(by_tls) and not any(kind_of(it[0]) == "IPv4" for it in auths):
            auths, accts = [*auths, (LOOPBACK, 1812)], [*accts, (LOOPBACK, 1813)]
        self.auths, self.accts = auths, accts
        out.lose_options(top, {"listenudp", "sourceudp", "listentls", "sourcetls", "loopprevention", "logfullusername", "logmac"})
        self.kinds = sorted({kind_of(it[0]) for it in auths})
        self.used |= {*auths, *accts}
        out.put(f"auth = {written_all(auths)}", f"acct = {written_all(accts)}",
                "# Status-Server is answered, and accounting without a User-Name (Accounting-On), as radsecproxy does.",
                "status_server = true", "answer_unnamed = true",
                "# How many proxies a request may have passed; in place of TTL.",
                f"max_hops = {HOPS}",
                "# `roam ctl` asks, reloads and stops it through this; `systemctl reload` and `stop` do.",
                'control = "/run/roam/control"', "# Its counts, for Prometheus:", '# metrics = "127.0.0.1:9812"')
        self.write_log()
        self.reject_at = len(out.lines)

    def write_rejects(self):
        """The names of realms without a server that another realm would take, at the top."""
        if self.rejects:
            names = ",\n".join(f"    {toml(name)}" for name in self.rejects)
            self.out.lines[self.reject_at:self.reject_at] = [
                "# Names of realms without a server: an Access-Reject, whichever realm has a wider pattern.",
                f"reject = [\n{names},\n]"]

    # What is rewritten

    def rewrite_named(self, block, option):
        """Returns the rewrite block that counts for requests or replies of a client or server, if one does."""
        name = block.get(option) or (block.get("rewrite") if option == "rewritein" else None)
        if name is not None:
            return self.rewrites.get(name)
        defaults = (f"default{block.kind.capitalize()}", "default") if option == "rewritein" else ()
        return next((self.rewrites[it] for it in defaults if it in self.rewrites), None)

    def rewriting(self, block, way):
        """Returns what is rewritten of its requests or replies: none where no block says so."""
        is_client = block.kind == "client"
        named = self.rewrite_named(block, "rewritein" if (way == "request") == is_client else "rewriteout")
        return named and rewriting_of(named, way, is_client)

    def tell_rewrites(self):
        """What of each block has no key, by what it is used for."""
        lost, used = {}, set()
        for block in self.of_kind("client") + self.of_kind("server"):
            for option in ("rewritein", "rewriteout"):
                named = self.rewrite_named(block, option)
                if named is None:
                    continue
                used.add(named.name)
                is_client = block.kind == "client"
                way = "request" if (option == "rewritein") == is_client else "reply"
                of = f"the block rewrite {named.name}, for {'requests' if way == 'request' else 'replies'} of a {block.kind}"
                lost.update({f"{of}: {why}": None for why in rewriting_of(named, way, is_client).lost})
        lost.update({f"the block rewrite {name}: nothing uses it": None for name in self.rewrites if name not in used})
        if lost:
            self.out.put("")
        for why in lost:
            self.out.lose(why)

    def write_lists(self, request, reply):
        """The two lists of what doesn't pass."""
        for key, without in (("request_without", request), ("reply_without", reply)):
            if without:
                self.out.put(f"{key} = [" + ", ".join(map(toml, without)) + "]")

    def write_log(self):
        """Whether users and stations are logged: not where they weren't."""
        out, top = self.out, self.top
        hides_users = (top.get("logfullusername") or "on").lower() == "off"
        hides_stations = (top.get("logmac") or "original").lower() != "original"
        if hides_users:
            out.put("# No line tells of an exchange, for it would have the user.", "log_exchanges = \"none\"")
            if (top.get("fticksreporting") or "none").lower() != "none":
                out.change('F-Ticks are made of the lines of exchanges, and those are off: `log_exchanges = "final"` has them')
        if hides_users or hides_stations:
            out.put("# Stations are logged by their hash alone, with the key in station.key beside this file.", 'log_station = "hmac"')
        if hides_stations and not hides_users:
            out.change('each exchange that ends is logged with its user, and with the hash of its station: its key (LogKey) belongs into'
                       ' station.key beside the configuration, 16 octets or more; without it no station is told')
        elif not hides_users:
            out.change('each exchange that ends is logged with its user and station: `log_exchanges = "none"` ends that')

    # Clients

    def write_client(self, block):
        out = self.out
        out.put("")
        hosts = block.all("host") or [block.name]
        secret, fault = secret_of(block)
        if is_tls(block) and not fault:
            self.write_tls_client(block, secret)
            return
        if not is_udp(block) and not is_tls(block):
            fault = f"no {block.get('type').upper()}; let a radsecproxy beside it speak that, with UDP to here"
        if fault:
            out.lose(f"client {block.name}: {fault}")
            self.lost_tables.append(f"client {block.name}")
            return
        networks, is_known = self.networks_of(block, hosts)
        if not any([self.write_peer_at(block, some, secret) for some in by_so_many(networks, PREFIXES)]) and not is_known:
            self.lost_tables.append(f"client {block.name}")

    def write_tls_client(self, block, secret):
        """A client that is told by its certificate: haproxy gives its connections an address of their own."""
        out, subjects = self.out, subjects_of(block)
        known = next((self.front.subjects[it] for it in subjects if it in self.front.subjects), None)
        if known:
            out.change(f"client {block.name}: its certificate is peer {known}'s, before it: one peer, from whichever address it comes")
            return
        if self.peers == TABLES:
            out.lose(f"client {block.name}: roam takes {TABLES} peers")
            self.lost_tables.append(f"client {block.name}")
            return
        address = self.front.peer(peer_name(block.name, set(self.names)), subjects)
        out.change(f"client {block.name}: haproxy has its TLS, and gives its connections this address, from wherever they come (docs/TLS.md)")
        if subjects and block.all("matchcertificateattribute"):
            out.change(f"client {block.name}: names.map has {', '.join(subjects)} as the common name of its certificate: see that it is so")
        elif not subjects:
            out.change(f"client {block.name}: write the common name of its certificate into names.map")
        self.write_peer(block, [network_of(address)], secret)

    def tell_certificates(self):
        """Where haproxy has the certificates of the blocks of TLS."""
        for block in self.of_kind("tls"):
            self.out.put("")
            files = [block.get(it) or "-" for it in ("certificatefile", "certificatekeyfile", "cacertificatefile")]
            self.out.change(f"the block tls {block.name}: haproxy has {FOLDER}/own.pem, which is {files[0]} and {files[1]} in one file,"
                            f" and {FOLDER}/ca.pem, which is {files[2]}")
            self.front.checks_revoked |= block.is_on("crlcheck")

    def networks_of(self, block, hosts):
        """Returns the prefixes of a client that no client before it has, and whether one before it has any."""
        networks, is_known = [], False
        for network in (it for host in hosts for it in [self.network(block, host)] if it):
            text, before = network_text(network), self.first_around(network)
            if before is not None:
                at = "is a client before it" if before == network else f"is in {before} of a client before it"
                self.out.lose(f"client {block.name}: {text} {at}, which radsecproxy takes first")
                is_known = True
            elif not is_in_one(network, networks):
                networks.append(network)
        return networks, is_known

    def write_peer_at(self, block, networks, secret):
        """Says whether there is a table left for a client at these prefixes, which it then has."""
        if self.peers == TABLES:
            texts = ", ".join(network_text(it) for it in networks)
            self.out.lose(f"client {block.name}: {texts}: roam takes {TABLES} peers")
            return False
        self.write_peer(block, networks, secret)
        return True

    def first_around(self, network):
        """Returns the first prefix of a client that the network lies in."""
        return next((it for it in self.addresses if it.version == network.version and network.subnet_of(it)), None)

    def client_at(self, address):
        """Returns the client of the longest prefix that the address lies in."""
        around = [it for it in self.addresses if ipaddress.ip_address(address) in it]
        return self.addresses[max(around, key=lambda it: it.prefixlen)] if around else None

    def network(self, block, host):
        """Returns the address or prefix of a client, if requests from there can come to `auth`."""
        found = None if "/" in host else endpoint_of(host, 1, self.options)
        network = network_of(found[0] if found else re.sub(r"[][]", "", host))
        if network is None:
            why = "is no prefix" if "/" in host else f"is {self.unresolved('a name: write its address (or use --resolve)')}"
            self.out.lose(f"client {block.name}: {host} {why}")
        elif f"IPv{network.version}" not in self.kinds:
            self.out.lose(f"client {block.name}: {host} is of IPv{network.version}, and `auth` of {self.kinds[0]}")
            return None
        return network

    def unresolved(self, why):
        """Why a name isn't an address, where it was looked up too."""
        return "a name that has no address now" if self.options.resolve else why

    def write_peer(self, block, networks, secret):
        out = self.out
        chosen = peer_name(block.name, self.names)
        if block.name not in self.addresses.values():
            self.tell_client(block)
        self.addresses |= dict.fromkeys(networks, block.name)
        self.peers += 1
        out.put("[[peer]]", f"name = {toml(chosen)}", f"ip = {network_texts(networks)}", f"secret = {toml(secret)}")
        if block.is_on("requiremessageauthenticator"):
            out.put("require_seal = true")
        elif block.is_on("requiremessageauthenticatorproxy"):
            out.put("limit_proxy_state = true")
        request, reply = self.rewriting(block, "request"), self.rewriting(block, "reply")
        if request and request.operator_name:
            out.put(f"operator_name = {toml(request.operator_name)}")
            if request.operator_namespace != "1":
                out.put(f'operator_namespace = "{request.operator_namespace}"')
        if request and request.asks_cui:
            out.put("ask_cui = true")
        self.write_lists(request and request.without, reply and reply.without)
        out.put("")

    def tell_missing(self, block):
        """Rewrite blocks that aren't there."""
        for option, name in block.options:
            if option in REWRITES and name not in self.rewrites:
                self.out.lose(f"{option} {name}: there is no such block")

    def tell_client(self, block):
        """What of a client's options isn't said in a table."""
        known = {"host", "type", "secret", "duplicateinterval", "requiremessageauthenticator", "requiremessageauthenticatorproxy"}
        self.out.lose_options(block, known | set(REWRITES) | (OF_TLS if is_tls(block) else set()))
        self.tell_missing(block)
        request = self.rewriting(block, "request")
        if request and request.asks_cui:
            self.out.change("radsecproxy asks for a Chargeable-User-Identity in accounting too; roam in Access-Requests alone")

    # Realms

    def items(self, block):
        """Its names and patterns, and what changed; a fault where it can't be said so."""
        if block.name == "*":
            return ["*"], []
        if block.name.startswith("/"):
            return items_of(block.name)
        if not NAME.match(block.name):
            raise NotASuffix
        return [block.name.lower()], []

    def usable(self, block):
        return [server for name in block.all("server") if (server := self.server(name))[1] is None]

    def forwarded_items(self):
        found = []
        for block in self.of_kind("realm"):
            try:
                found += self.items(block)[0] if self.usable(block) else []
            except NotASuffix:
                pass
        return found

    def write_realm(self, block):
        out = self.out
        out.put("")
        if block.name in WITHOUT_REALM and not block.all("server"):
            self.tell_reject(block, [])
            return
        try:
            items, notes = self.items(block)
        except NotASuffix:
            out.lose(f"realm {block.name}: neither a name nor a suffix{self.fallen(['*'])}")
            self.lost_tables.append(f"realm {block.name}")
            return
        reached = [item for item in items if not any(covers(before, item) for before in self.taken)]
        for item in items:
            if item not in reached:
                out.lose(f"realm {block.name}: {item} is never reached, a realm before it takes these names")
        self.taken += reached
        if not items:
            out.change(f"realm {block.name}: a name with nothing behind its `@` gets an Access-Reject")
        if not reached:
            return
        if not block.all("server"):
            self.tell_reject(block, reached)
            return
        if len(reached) > ALSO or self.realms == TABLES:
            out.lose(f"realm {block.name}: roam takes {TABLES} realms, each with {ALSO} names beside its own"
                     f"{self.fallen(reached)}")
            self.lost_tables.append(f"realm {block.name}")
            return
        for note in notes:
            out.change(f"realm {block.name}: {note}")
        pairs = self.pairs(block)
        if pairs:
            self.write_realm_table(block, reached, pairs)
        else:
            out.lose(f"realm {block.name}: none of its servers could be carried over{self.fallen(reached)}")
            self.lost_tables.append(f"realm {block.name}")

    def fallen(self, items):
        """Returns what becomes of names whose own realm isn't there."""
        after = [item for item in self.forwarding if any(covers(item, one) for one in items)]
        return f". The realm of {after[0]} takes its names" if after else ""

    def tell_reject(self, block, items):
        """A realm without a server: its names are rejected, by `reject` where another realm would take them."""
        if self.fallen(items):
            room = REJECTS - len(self.rejects)
            self.rejects += items[:room]
            for item in items[room:]:
                self.out.lose(f"realm {block.name}: {item}: `reject` has {REJECTS} names{self.fallen([item])}")
        self.out.change(f"realm {block.name}: it has no server. Its names get an Access-Reject, "
                        + ("without a Reply-Message" if block.get("replymessage") else "where radsecproxy keeps silent"))
        self.out.lose_options(block, {"replymessage"})

    def write_realm_table(self, block, items, pairs):
        out, first = self.out, pairs[0][0]
        whole = [item for item in items if not item.startswith("*")]
        name = whole[0] if whole else "default.invalid" if "*" in items else f"under.{items[0][2:]}.invalid"
        also = [item for item in items if item != name]
        is_forwarded = any(partner for _, partner in pairs)
        out.lose_options(block, {"server", "accountingserver", "accountingresponse"})
        if "*" in items:
            out.change(f"realm {block.name}: radsecproxy takes names without an `@` here; roam rejects them")
        if not whole:
            out.put("# `name` is required, and this realm has patterns alone: this name is nobody's.")
        retries, interval = (first.get("retrycount", "2"), first.get("retryinterval", "5"))
        if any((one.get("retrycount", "2"), one.get("retryinterval", "5")) != (retries, interval)
               for one, _ in pairs if one):
            out.change("its servers differ in retrycount or retryinterval: the first one's count for all")
        out.put("[[realm]]", f"name = {toml(name[:253])}")
        if also:
            out.put("also = [" + ", ".join(map(toml, also)) + "]")
        index, self.realms = self.realms, self.realms + 1
        ends = [self.endpoint(it) for pair in pairs for it in pair if it]
        sources = [LOOPBACK] if all(self.front.has(it[0]) for it in ends) else out.own_addresses(self.own, ends)
        out.put(f"out = {written_all(self.free_port(it, self.options.out + index) for it in sources)}")
        if self.options.reverse:
            self.reverse = [self.free_port(it, self.options.reverse + index) for it in sources]
            out.put(f"reverse = {written_all(self.reverse)}")
        if not is_forwarded:
            answered = block.is_on("accountingresponse")
            out.put(f'accounting = "{"answer" if answered else "drop"}"')
        self.write_loops(block, pairs)
        self.write_realm_lists(block, pairs)
        self.write_numbers(int(retries) + 1, int(interval), "*" in items)
        # EAP needs all rounds at one server, and nobody's session may be ended but the realm's own.
        out.put(*(["conversations = true"] if len([one for one, _ in pairs if one]) > 1 else []), *(["own_sessions = true"] if self.options.reverse and is_forwarded else []))
        for server, partner in pairs:
            self.write_server(server, partner)

    def write_numbers(self, tries, wait, is_of_all):
        """The numbers of a realm that aren't what counts where they are absent."""
        hold = max([int(one.get("duplicateinterval", "0")) for one in self.of_kind("client")] or [0]) or 10
        numbers = {"tries": (min(tries, 10), 3), "wait": (min(max(wait, 1), 60) * 1000, 2000), "hold": (min(hold, 60) * 1000, 10000),
                   "rest_after": (REST_AFTER_OF_ALL if is_of_all else 3, 3), "max_pending": (self.options.max_pending, None)}
        self.out.put(*(f"{key} = {number}" for key, (number, usual) in numbers.items() if number != usual))

    def write_loops(self, block, pairs):
        """Whether nothing goes back to a client that has the name of one of its servers."""
        known, named = {}, False
        for server in (it for pair in pairs for it in pair if it):
            known[self.endpoint(server)[0]] = server.name
            on = server.is_on("loopprevention") if server.get("loopprevention") else self.top.is_on("loopprevention")
            clients = [it for it in self.of_kind("client") if on and it.name == server.name]
            if clients and self.client_at(self.endpoint(server)[0]) != server.name:
                self.out.lose(f"loopprevention of server {server.name}: the client of this name has another address")
            elif clients:
                named = True
        if not named:
            return
        for address, server in known.items():
            client = self.client_at(address)
            if client not in (None, server):
                self.out.change(f"realm {block.name}: client {client} has the address of server {server}, and isn't let in there")
        self.out.put("loop_prevention = true")

    def write_realm_lists(self, block, pairs):
        """What doesn't pass of its servers: one list for all of them."""
        lists = []
        for way in ("request", "reply"):
            each = [found.without if found else [] for pair in pairs for it in pair if it for found in [self.rewriting(it, way)]]
            together = list(dict.fromkeys(one for without in each for one in without))
            if any(set(it) != set(together) for it in each):
                self.out.change(f"realm {block.name}: its servers differ in what is taken out of a {way}: all of it counts for each")
            for one in together[MOST:]:
                self.out.lose(f"realm {block.name}: {one}: a list has {MOST} attributes")
            lists.append(together[:MOST])
        self.write_lists(*lists)

    def free_port(self, source, port):
        while (source, port) in self.used:
            port += 1
        self.used.add((source, port))
        return source, port

    # Servers

    def server(self, name):
        """Returns the block, and why it can't be a server of roam, or None."""
        block = self.servers.get(name.lower())
        if block is None:
            return Block("server", name), "there is no such server"
        if block.all("dynamiclookupcommand"):
            return block, "home servers aren't discovered"
        if not is_udp(block) and not is_tls(block):
            return block, f"no {block.get('type').upper()}; let a radsecproxy beside it speak that"
        if is_udp(block) and not self.endpoint(block):
            return block, f"it is {self.unresolved('no address (names need --resolve)')}"
        return block, secret_of(block)[1]

    def endpoint(self, block):
        host = (block.all("host") or [block.name])[0]
        if is_tls(block):
            name, port = parts_of(host)
            subject = (subjects_of(block) or [block.name])[0]
            return self.front.server(block.name, name, int(port or block.get("port", "2083")), subject, self.looping(block)), 1812
        return endpoint_of(host, int(block.get("port", "1812")), self.options)

    def looping(self, block):
        """Returns the address of the client of a server's name, which the server has too where nothing is to go back to it."""
        on = block.is_on("loopprevention") if block.get("loopprevention") else self.top.is_on("loopprevention")
        return next((str(it.network_address) for it, name in self.addresses.items() if on and name == block.name and str(it).startswith("127.1.")), None)

    def pairs(self, block):
        """Returns the servers of the realm: each with the one for its accounting, if there is one, and behind them those for accounting alone."""
        accounting, taken = [], set()
        for name in block.all("accountingserver"):
            server, fault = self.server(name)
            if fault:
                self.out.lose(f"realm {block.name}: accountingserver {name}: {fault}")
            else:
                accounting.append(server)
        pairs, lost = [], []
        for name in block.all("server"):
            server, fault = self.server(name)
            if fault is None and len(pairs) == SERVERS:
                fault = f"roam takes {SERVERS}"
            elif fault is None and self.endpoint(server) in taken:
                fault = f"{written(self.endpoint(server))} is a server of this realm already"
            if fault:
                self.out.lose(f"realm {block.name}: server {name}: {fault}")
                lost.append(f"server {name} of realm {block.name}")
                continue
            taken.add(self.endpoint(server))
            pairs.append((server, None))
        places = [self.accounting_endpoint(it) for it in accounting]
        pairs = self.with_accounting(block, pairs, [it for it, place in zip(accounting, places) if self.is_free(block, it, place, taken)])
        if pairs and block.all("accountingserver") and not any(partner for _, partner in pairs):
            self.out.change(f"realm {block.name}: its accounting goes to no server here")
            lost.append(f"the accounting of realm {block.name}")
        # Of a realm that isn't there at all no part is named.
        self.lost_parts += lost if pairs else []
        return pairs

    def is_free(self, block, server, place, taken):
        """Says whether an endpoint for accounting is no other one's of the realm: it is from then on."""
        if place in taken:
            self.out.lose(f"realm {block.name}: accountingserver {server.name}: {written(place)} is an endpoint of this realm already;"
                          " roam wants another for accounting")
            return False
        taken.add(place)
        return True

    def with_accounting(self, block, pairs, accounting):
        """Returns the same servers with those for accounting: each beside its partner, or behind all of them."""
        paired = []
        for server, _ in pairs:
            partner = self.partner(server, accounting)
            if partner:
                accounting.remove(partner)
            paired.append((server, partner))
        for server in accounting[SERVERS - len(pairs):] if pairs else []:
            self.out.lose(f"realm {block.name}: accountingserver {server.name}: roam takes {SERVERS}")
        return paired + [(None, server) for server in accounting[:SERVERS - len(pairs)]] if pairs else []

    def accounting_endpoint(self, server):
        """Returns where a server takes accounting: one whose TLS haproxy opens at the usual port."""
        place = self.endpoint(server)
        return (place[0], 1813) if self.front.has(place[0]) else place

    def partner(self, server, accounting):
        """Returns the first of the same address and secret, or else of the same secret."""
        same = [one for one in accounting if secret_of(one) == secret_of(server)]
        near = [one for one in same if self.endpoint(one)[0] == self.endpoint(server)[0]]
        return (near or same or [None])[0]

    def write_server(self, server, partner):
        out, named = self.out, server or partner
        auth, acct = self.endpoint(server) if server else None, self.accounting_endpoint(partner) if partner else None
        out.put("")
        for host in named.all("host")[1:]:
            out.lose(f"server {named.name}: host {host}: a server has one address")
        known = {"host", "port", "type", "secret", "retrycount", "retryinterval", "source", "statusserver",
                 "requiremessageauthenticator", "loopprevention", *REWRITES}
        out.lose_options(named, known | (OF_TLS if is_tls(named) else set()))
        self.tell_missing(named)
        if self.front.has((auth or acct)[0]):
            out.change(f"server {named.name}: haproxy opens its TLS, for what is sent to this address (docs/TLS.md)")
        if named.get("source"):
            out.change(f"server {named.name}: source {named.get('source')}: `out` of the realm is its source")
        if named.is_on("statusserver"):
            out.change(f"server {named.name}: no Status-Server is sent; `rest` of the realm is in its place")
        ends = {key: place for key, place in (("auth", auth), ("acct", acct)) if place}
        for place in ends.values():
            self.front.use(place, self.options.reverse and self.reverse[0])
        out.put("[[realm.server]]", *(f"{key} = {written(place)}" for key, place in ends.items()), f"secret = {toml(secret_of(named)[0])}")
        if named.is_on("requiremessageauthenticator"):
            out.put("require_seal = true")

    def write_unused_servers(self):
        named = {name.lower() for block in self.of_kind("realm")
                 for name in block.all("server") + block.all("accountingserver")}
        for name in sorted(set(self.servers) - named):
            self.out.put("")
            self.out.lose(f"server {self.servers[name].name}: no realm uses it")


def main():
    options = options_of(__doc__, "the radsecproxy.conf")
    try:
        conversion = Conversion(*blocks_of(options.conf), options)
        conversion.run()
    except (Unreadable, ValueError) as error:
        sys.exit(f"from-radsecproxy.py: {error}")
    closed("from-radsecproxy.py", conversion.out, conversion.peers, conversion.realms, conversion)


if __name__ == "__main__":
    main()
