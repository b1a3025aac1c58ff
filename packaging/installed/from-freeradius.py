#!/usr/bin/env python3
"""Reads FreeRADIUS' folder, or its proxy.conf, clients.conf and what else is named (3.2), and writes a configuration of roam on standard
output. Each file is read once, also where another one includes it.

What can't be said there stands in it as a comment, at its place: `# Not carried over: ..`. What is said in another way
is a comment too: `# Changed: ..`. How many there are is said on standard error. Read them all, and then `roam check`.
Of clients, home servers, pools, realms, listen, log and security sections it is; what modules and policies do is not read.
Where a whole client or realm isn't carried over, its status is 1.
"""

import sys

from converted_conf import (ALSO, HOPS, NAME, PLACES, PREFIXES, REJECTS, REST_AFTER_OF_ALL, SERVERS, TABLES, Written, closed, endpoint_of, fault_of,
                            kind_of, network_of, network_text, network_texts, options_of, peer_name, toml)
from converted_conf import endpoint_text as written, endpoint_texts as written_all
from converted_tls import FOLDER, LOOPBACK, Front, literal
from freeradius_conf import Unreadable, read
from radsecproxy_names import NotASuffix, covers, items_of

# What has no key, of each kind of section, and why.
REASONS = {
    "client": {"proto": "UDP alone", "virtual_server": "one way for all", "response_window": "`wait` and `tries` are the realm's"},
    "home_server": {"virtual_server": "nothing is answered for a home server", "proto": "UDP alone", "max_outstanding": "256 for each endpoint",
                    "username": "no test users", "password": "no test users", "zombie_period": "a server rests at once"},
    "realm": {"virtual_server": "nothing is answered for a home server", "fallback": "none", "coa_pool": "a Disconnect goes to the peer that it names"},
    "home_server_pool": {"fallback": "no other server is asked where all of these are silent", "virtual_server": "nothing is answered for a home server"},
    "proxy": {"default_fallback": "a realm whose servers are all silent isn't answered by another realm", "dynamic": "home servers aren't discovered",
              "directory": "home servers aren't discovered"},
}
# Sections within a home server, and why they have no key.
INSIDE = {"coa": "`wait` and `tries` of the realm count for Disconnects too", "limit": "`max_pending`, `share` and `peer_share` of the realm bound what waits",
          "tls": "UDP alone"}
ADDRESSES = ("ipaddr", "ipv4addr", "ipv6addr")
# What is said of a client's Message-Authenticators.
SEALS = ("require_message_authenticator", "limit_proxy_state")


def stated_address(section):
    """Returns what a section has of the keys of an address, or an empty text."""
    return next((section.get(key) for key in ADDRESSES if section.get(key)), "")


def is_tls(section):
    """Says whether a client or home server speaks TLS."""
    return (section.get("proto") or "udp").lower() == "tls" or bool(section.own("tls"))


def secret_of(section):
    """Its secret as text, or why it can't be written. Within TLS everybody has the same one (RFC 6614, section 2.3)."""
    return fault_of(section.get("secret") or ("radsec" if is_tls(section) else None))


class Conversion:
    def __init__(self, root, missed, options):
        self.root, self.missed, self.options, self.out = root, missed, options, Written()
        self.homes = {it.name: it for it in root.own("home_server")}
        self.pools = {it.name: it for it in root.own("home_server_pool")}
        self.security = next(iter(root.own("security")), None)
        # Where FreeRADIUS speaks to itself, of the EAP that it opens.
        self.inner = [it for server in root.of("server") if "inner" in server.name for it in server.of("listen")]
        self.clients = [*root.own("client"), *(it for group in root.own("clients") for it in group.own("client") if is_tls(it))]
        self.used, self.addresses, self.names, self.front = set(), set(), set(), Front()
        self.peers, self.joined = 0, []
        self.lost_parts, self.lost_tables, self.rejects, self.reject_at, self.realms, self.taken = [], [], [], 0, 0, []

    def run(self):
        self.write_top()
        for section in self.clients:
            self.out.put("")
            self.write_client(section)
        self.tell_certificates()
        if any(it.get("coa_server") for it in self.clients) and not self.listening(("coa",)) and not self.options.reverse:
            self.out.put("")
            self.out.lose("where Disconnects come: no listen of type coa is in these files (--reverse, or name the site too)")
        realms = [(section, self.items(section)) for section in self.root.own("realm") if section.name not in ("LOCAL", "NULL")]
        self.forwarded = [item for section, (items, _) in realms for item in items or [] if self.servers_of(section)]
        for section, (items, notes) in realms:
            self.out.put("")
            self.write_realm(section, items, notes)
        named = {it for pool in self.pools.values() for key in ("home_server", "fallback") for it in pool.all(key)} | {it.get("coa_server") for it in self.clients}
        for name in sorted(set(self.homes) - named):
            self.out.put("")
            self.out.lose(f"home_server {name}: no pool uses it")
        if self.rejects:
            self.out.lines[self.reject_at:self.reject_at] = [
                "# Realms that FreeRADIUS handles itself: an Access-Reject, whichever realm has a wider pattern.",
                "reject = [" + ", ".join(map(toml, self.rejects)) + "]"]
        if self.front.is_used():
            self.front.write(self.out, self.options.front, self.auths, self.accts)

    def lose_settings(self, section, known):
        for key, value in section.settings:
            if key in REASONS[section.kind] and key not in known and (value or "").lower() not in ("no", "off"):
                self.out.lose(f"{section.kind} {section.name}: {key} {value or ''}: {REASONS[section.kind][key]}")
        for inside in section.sections if section.kind == "home_server" else []:
            if inside.kind in INSIDE:
                self.out.lose(f"home_server {section.name}: {inside.kind} {{..}}: {INSIDE[inside.kind]}")

    def tell_certificates(self):
        """Where haproxy has the certificates of those who listen with TLS."""
        for section in (it for it in self.root.of("listen") if it.own("tls")):
            tls, place = section.own("tls")[0], f"{stated_address(section) or '*'}:{section.get('port') or 2083}"
            self.front.listen(place)
            self.front.checks_revoked |= tls.says("check_crl") is True
            files = [tls.get(it) or "-" for it in ("certificate_file", "private_key_file", "ca_file")]
            self.out.change(f"listen {place}: haproxy has {FOLDER}/own.pem, which is {files[0]} and {files[1]} in one file, and {FOLDER}/ca.pem,"
                            f" which is {files[2]}")

    # The top of the file

    def all_listening(self, kinds):
        """Returns the listen sections of such a type, but for those that haproxy has."""
        return [it for it in self.root.of("listen")
                if (it.get("type") or "").lower() in kinds and it not in self.inner and not it.own("tls")]

    def listening(self, kinds):
        """Returns the first of them with its endpoint's parts."""
        return next(iter(self.all_listening(kinds)), None)

    def endpoint_at(self, section, port):
        stated = section and section.get("port")
        port = int(stated) if stated and stated.isdigit() and int(stated) else port
        found = endpoint_of(stated_address(section), port, self.options) if section else None
        return found or (self.address, port)

    def write_top(self):
        out = self.out
        out.put("# Written by from-freeradius.py. `roam check` judges it; docs/FILES.md has every key, and",
                "# docs/OPERATING.md how each number is chosen. It has secrets: owner root, mode 0600.", "")
        for name in self.missed:
            out.lose(f"$INCLUDE {name}: name that file beside the others")
        for listen in self.inner:
            out.lose(f"listen {stated_address(listen)}:{listen.get('port') or 0} of an inner tunnel: no EAP is opened here")
        for section in self.root.own("proxy"):
            self.lose_settings(section, ())
        auth, acct = self.listening(("auth", "auth+acct")), self.listening(("acct", "auth+acct"))
        stated = [it.get(key) for it in (auth, acct, *self.homes.values()) if it for key in (*ADDRESSES, "src_ipaddr") if it.kind == "listen" or key == "src_ipaddr"]
        found = [it for text in stated if text for it in [endpoint_of(text, 1, self.options)] if it]
        by_tls = [is_tls(it) for it in self.clients]
        is_alone = by_tls and all(by_tls) and not auth
        self.address = self.options.address or (LOOPBACK if is_alone else found[0][0] if found else out.own_address([], "IPv4"))
        self.own = [self.address, *(it[0] for it in found)]
        places = self.endpoint_at(auth, 1812), self.endpoint_at(acct, 1813)
        auths, accts = [places[0]], [places[1]]
        for these, others, kind, port in ((auths, accts, "auth", 1812), (accts, auths, "acct", 1813)):
            for place in (self.endpoint_at(it, port) for it in self.all_listening((kind, "auth+acct"))):
                if place not in these + others and len(these) < PLACES:
                    these.append(place)
        self.kinds = sorted({kind_of(it[0]) for it in auths})
        if any(by_tls) and "IPv4" not in self.kinds:
            auths, accts = [*auths, (LOOPBACK, 1812)], [*accts, (LOOPBACK, 1813)]
        self.auths, self.accts = auths, accts
        self.used |= {*auths, *accts}
        out.put(f"auth = {written_all(auths)}", f"acct = {written_all(accts)}")
        if self.security is None or self.security.says("status_server") is not False:
            out.put("status_server = true")
        most = self.security and self.security.get("max_attributes") or ""
        if most.isdigit() and 1 <= int(most) <= 2000:
            out.put(f"max_attributes = {most}")
        out.put("# Accounting-On is answered, as FreeRADIUS does.", "answer_unnamed = true",
                "# How many proxies a request may have passed.", f"max_hops = {HOPS}",
                "# `roam ctl` asks, reloads and stops it through this; `systemctl reload` and `stop` do.", 'control = "/run/roam/control"')
        if any(it.says("auth") for it in self.root.own("log")):
            out.change('each exchange that ends is logged with its user and station: `log_exchanges = "none"` ends that')
        else:
            out.put("# No line tells of an exchange, for it would have the user.", 'log_exchanges = "none"',
                    "# If they are to tell of them, then of stations by their hash alone, with the key in station.key beside this file.", 'log_station = "hmac"')
        self.reject_at = len(out.lines)

    # Clients

    def write_client(self, section):
        if section in self.joined:
            return
        out, before = self.out, self.peers
        secret, fault = secret_of(section)
        if (section.get("proto") or "udp").lower() not in ("udp", "*", "tls"):
            fault = f"no {section.get('proto').upper()}"
        network = None if fault else self.network_of_tls(section) if is_tls(section) else self.network(section, stated_address(section) or section.name)
        if fault:
            out.lose(f"client {section.name}: {fault}")
        elif network in self.addresses:
            out.lose(f"client {section.name}: {network_text(network)} is a client before it")
        elif network and self.peers == TABLES:
            out.lose(f"client {section.name}: roam takes {TABLES} peers")
        elif network:
            self.write_peer(section, self.with_those_beside(section, network), secret)
        if self.peers == before:
            self.lost_tables.append(f"client {section.name}")

    def group_of(self, section):
        """Returns what the clients of one peer have in common: the shortname, the secret and the seals. None for one that stands alone."""
        (secret, fault), short = secret_of(section), section.get("shortname")
        if not short or fault or is_tls(section) or section.get("coa_server") or (section.get("proto") or "udp").lower() not in ("udp", "*"):
            return None
        return short, secret, *(self.said(section, key).lower() for key in SEALS)

    def with_those_beside(self, section, network):
        """Returns the prefix of a client, and those of further clients of its group, which are this peer's too."""
        networks, group = [network], self.group_of(section)
        for other in self.clients[self.clients.index(section) + 1:] if group else []:
            if len(networks) == PREFIXES:
                break
            if other in self.joined or self.group_of(other) != group:
                continue
            self.joined.append(other)
            beside = self.network(other, stated_address(other) or other.name)
            if beside and beside not in self.addresses:
                networks += [beside] if beside not in networks else []
                self.lose_settings(other, ("proto",))
                continue
            if beside:
                self.out.lose(f"client {other.name}: {network_text(beside)} is a client before it")
            self.lost_tables.append(f"client {other.name}")
        return networks

    def network_of_tls(self, section):
        """Returns the address that haproxy gives the connections of a client's certificate."""
        name = peer_name(section.get("shortname") or section.name, set(self.names))
        self.out.change(f"client {section.name}: haproxy has its TLS, and gives its connections this address, from wherever they come (docs/TLS.md):"
                        " write the common name of its certificate into names.map")
        return network_of(self.front.peer(name, []))

    def network(self, section, text):
        """Returns the address or prefix of a client, if requests from there can come to `auth`."""
        text = f"{text}/{section.get('netmask')}" if section.get("netmask") and "/" not in text else text
        found = None if "/" in text else endpoint_of(text, 1, self.options)
        network = network_of(found[0] if found else text)
        if network is None:
            self.out.lose(f"client {section.name}: {text} is no address or prefix (names need --resolve)")
        elif f"IPv{network.version}" not in self.kinds:
            self.out.lose(f"client {section.name}: {text} is of IPv{network.version}, and `auth` of {self.kinds[0]}")
            return None
        return network

    def said(self, section, key):
        """Returns what is said of a client: by itself, or else for all."""
        return section.get(key) or self.security and self.security.get(key) or "no"

    def wants(self, section, key):
        """Says whether yes is said of a client."""
        said = self.said(section, key)
        if said.lower() == "auto":
            self.out.change(f"client {section.name}: {key} auto: there is no auto, so it isn't required")
        return said.lower() in ("yes", "on", "1")

    def coa_of(self, section, network):
        """Returns where Disconnects go for a client, with the key and the address that they name it by."""
        name, is_one = section.get("coa_server"), network.prefixlen == network.max_prefixlen
        coa = self.homes.get(name or "")
        place = coa and endpoint_of(stated_address(coa), int(coa.get("port") or 3799), self.options)
        if name and not place:
            self.out.lose(f"client {section.name}: coa_server {name}: no home_server with an address")
        elif place and not is_one:
            self.out.lose(f"client {section.name}: coa_server {name}: a prefix has no NAS-IP-Address")
        elif place:
            key, attribute = ("nas_ip", "NAS-IP-Address") if network.version == 4 else ("nas_ipv6", "NAS-IPv6-Address")
            self.lose_settings(coa, ("proto",))
            self.out.change(f"client {section.name}: a Disconnect names it by {attribute} {network_text(network)}; what stands behind it by `nas_ids`,"
                            " if you write them")
            return [f"coa = {written(place)}", f'{key} = "{network_text(network)}"']
        return []

    def write_peer(self, section, networks, secret):
        out = self.out
        self.addresses |= set(networks)
        self.peers += 1
        seal, limit = self.wants(section, "require_message_authenticator"), self.wants(section, "limit_proxy_state")
        self.lose_settings(section, ("proto",))
        coa = self.coa_of(section, networks[0])
        out.put("[[peer]]", f"name = {toml(peer_name(section.get('shortname') or section.name, self.names))}", f"ip = {network_texts(networks)}",
                f"secret = {toml(secret)}", *(["require_seal = true"] if seal else []), *(["limit_proxy_state = true"] if limit and not seal else []),
                *coa, "")

    # Realms

    def items(self, section):
        """Its names and patterns, and what changed; none where it can't be said so."""
        name = section.name
        if name == "DEFAULT":
            return ["*"], []
        if name.startswith("~"):
            body = name[1:]
            try:
                return items_of("/@" + body[1:] + "/" if body.startswith("^") else "/" + body + "/")
            except NotASuffix:
                return None, []
        return ([name.lower()], []) if NAME.match(name) else (None, [])

    def members(self, section, key):
        """Returns the home servers of a realm's pool, in order."""
        name = section.get(key) or section.get("pool")
        pool = self.pools.get(name or "")
        return [self.homes[it] for it in pool.all("home_server") if it in self.homes] if pool else []

    def servers_of(self, section):
        return [it for it in self.members(section, "auth_pool") if self.fault_of_home(it) is None]

    def fault_of_home(self, home):
        """Why a home server can't be one of roam, or nothing."""
        if (home.get("proto") or "udp").lower() != "udp" and not is_tls(home):
            return f"no {home.get('proto').upper()}"
        if (home.get("type") or "auth").lower() not in ("auth", "acct", "auth+acct"):
            return f"it is of type {home.get('type')}"
        text = stated_address(home)
        if not endpoint_of(text, 1, self.options) and not (is_tls(home) and text):
            return f"{text or 'it'} is no address (names need --resolve)"
        return secret_of(home)[1]

    def endpoint(self, home, port):
        if is_tls(home):
            host, tls = stated_address(home), home.own("tls")
            stated = [literal(it) for one in tls for it in [one.get("check_cert_cn") or one.get("hostname")] if it]
            return self.front.server(home.name, host, int(home.get("port") or 2083), (stated or [host])[0] or home.name), port
        return endpoint_of(stated_address(home), int(home.get("port") or port), self.options)

    def fallen(self, items, own=()):
        """Returns what becomes of names whose own realm isn't there."""
        after = [it for it in self.forwarded if it not in own and any(covers(it, one) for one in items)]
        return f". The realm of {after[0]} takes its names" if after else ""

    def write_realm(self, section, items, notes):
        out = self.out
        if items is None:
            out.lose(f"realm {section.name}: neither a name nor a suffix{self.fallen(['*'])}")
            self.lost_tables.append(f"realm {section.name}")
            return
        # A whole name counts before each expression, and those in their order.
        reached = [it for it in items if not it.startswith("*") or it == "*" or not any(covers(before, it) for before in self.taken)]
        self.taken += [it for it in reached if section.name.startswith("~")]
        for item in items:
            if item not in reached:
                out.lose(f"realm {section.name}: {item} is never reached, an expression before it takes these names")
        if not reached:
            return
        self.lose_settings(section, ())
        if not section.get("pool") and not section.get("auth_pool"):
            if self.fallen(reached, reached):
                self.rejects += reached[:REJECTS - len(self.rejects)]
            out.lose(f"realm {section.name}: it has no pool, and is handled there; here its names get an Access-Reject")
            self.lost_tables.append(f"realm {section.name}")
            return
        homes, lost = [], []
        for home in self.members(section, "auth_pool"):
            fault = self.fault_of_home(home) or (f"roam takes {SERVERS}" if len(homes) == SERVERS else None)
            if fault:
                out.lose(f"realm {section.name}: home_server {home.name}: {fault}")
                lost.append(f"home_server {home.name} of realm {section.name}")
            else:
                homes.append(home)
        if not homes or len(reached) > ALSO or self.realms == TABLES:
            out.lose(f"realm {section.name}: none of its servers or names could be carried over{self.fallen(reached, reached)}")
            self.lost_tables.append(f"realm {section.name}")
            return
        for note in notes:
            out.change(f"realm {section.name}: {note}")
        self.lost_parts += lost
        self.write_table(section, reached, homes)

    def write_table(self, section, items, homes):
        out = self.out
        whole = [it for it in items if not it.startswith("*")]
        name = whole[0] if whole else "default.invalid" if "*" in items else f"under.{items[0][2:]}.invalid"
        also, pool = [it for it in items if it != name], self.pools[section.get("auth_pool") or section.get("pool")]
        balances = (pool.get("type") or "fail-over").lower() != "fail-over" and len(homes) > 1
        if balances:
            out.change(f"realm {section.name}: its pool is of type {pool.get('type')}; here a hash of the station, or of the user, says with which server"
                       " a request begins (balance), and a login stays at the server that it began at (conversations)")
        self.lose_settings(pool, ())
        if not any(key == "nostrip" for key, _ in section.settings):
            out.change(f"realm {section.name}: FreeRADIUS strips the realm of its names; roam never does")
        partners = [it for it in self.members(section, "acct_pool") if self.fault_of_home(it) is None and (it.get("type") or "auth") != "auth"]
        out.put("[[realm]]", f"name = {toml(name)}", *(["also = [" + ", ".join(map(toml, also)) + "]"] if also else []))
        index, self.realms = self.realms, self.realms + 1
        first = {kind_of(self.endpoint(it, 1812)[0]): it for it in reversed(homes)}
        stated = [it[0] for home in first.values() for it in [endpoint_of(home.get("src_ipaddr") or "", 1, self.options)] if it]
        ends = [self.endpoint(it, 1812) for it in homes]
        sources = [LOOPBACK] if all(self.front.has(it[0]) for it in ends) else out.own_addresses([*stated, *self.own], ends)
        out.put(f"out = {written_all(self.free_port(it, self.options.out + index) for it in sources)}")
        coa, self.reverse = self.listening(("coa",)), None
        if coa and coa.get("clients"):
            out.change(f"realm {section.name}: clients {coa.get('clients')} may send Disconnects; those that are no home servers are [[realm.coa_client]], if you write them")
        if coa or self.options.reverse:
            port = self.options.reverse or int(coa.get("port") or 3799)
            own = dict.fromkeys(self.endpoint_at(it, port)[0] for it in self.all_listening(("coa",)) or [None])
            self.reverse = [self.free_port(it, port + index) for it in [*own][:PLACES]]
            out.put(f"reverse = {written_all(self.reverse)}")
        if not partners:
            out.change(f"realm {section.name}: FreeRADIUS handles its accounting itself; here it is answered, and kept nowhere")
            out.put('accounting = "answer"')
        self.write_numbers(homes[0], "*" in items)
        # EAP needs all rounds at one server, and nobody's session may be ended but the realm's own.
        out.put(*(['balance = "user"'] if balances else []), *(["conversations = true"] if len(homes) > 1 else []), *(["own_sessions = true"] if partners and (coa or self.options.reverse) else []))
        self.write_servers(section, homes, partners)

    def free_port(self, address, port):
        while (address, port) in self.used:
            port += 1
        self.used.add((address, port))
        return address, port

    def write_numbers(self, home, is_of_all):
        """What of a home server's numbers isn't what counts where it is absent."""
        window, probes = float(home.get("response_window") or 30), (home.get("status_check") or "none").lower() != "none"
        rest = int(home.get("check_interval") or 30) if probes else int(home.get("revive_interval") or 300)
        after = REST_AFTER_OF_ALL if is_of_all else int(home.get("response_timeouts") or 1)
        hold = next((int(value) for key, value in self.root.settings if key == "cleanup_delay"), 5)
        numbers = {"wait": (min(max(int(window * 1000 / 3), 1), 60000), 2000), "rest": (min(rest * 1000, 3600000), 30000),
                   "rest_after": (min(max(after, 1), 256), 3), "hold": (min(hold, 60) * 1000, 10000), "max_pending": (self.options.max_pending, None)}
        self.out.put("# Three sendings in response_window.", *(f"{key} = {number}" for key, (number, usual) in numbers.items() if number != usual))

    def write_servers(self, section, homes, partners):
        """The servers of both pools: each home server with its accounting, and behind them those for accounting alone."""
        taken, alone = {self.endpoint(it, 1812) for it in homes}, list(partners)
        for home in homes:
            same = [it for it in alone if secret_of(it) == secret_of(home) and self.endpoint(it, 1813)[0] == self.endpoint(home, 1812)[0]]
            partner = home if home in alone else (same or [None])[0]
            if partner:
                alone.remove(partner)
            self.write_server(section, home, partner, taken)
        for number, partner in enumerate(alone):
            if len(homes) + number < SERVERS:
                self.write_server(section, None, partner, taken)
            else:
                self.out.lose(f"realm {section.name}: home_server {partner.name}: roam takes {SERVERS}")

    def accounting_at(self, partner, taken):
        """Returns where a home server takes accounting, if no other one of the realm has that endpoint."""
        place = self.endpoint(partner, 1812) if (partner.get("type") or "").lower() == "auth+acct" else None
        place = (place[0], place[1] + 1) if place else self.endpoint(partner, 1813)
        if place in taken:
            self.out.lose(f"home_server {partner.name}: {written(place)} is an endpoint of this realm already; roam wants another for accounting")
            return None
        taken.add(place)
        return place

    def write_server(self, section, home, partner, taken):
        out, named = self.out, home or partner
        out.put("")
        auth, acct = self.endpoint(home, 1812) if home else None, self.accounting_at(partner, taken) if partner else None
        ends = {key: place for key, place in (("auth", auth), ("acct", acct)) if place}
        self.lose_settings(named, ("proto",))
        if (named.get("status_check") or "none").lower() != "none":
            out.change(f"home_server {named.name}: no Status-Server and no test user is sent; `rest` of the realm is in its place")
        if not ends:
            return
        if is_tls(named):
            out.change(f"home_server {named.name}: haproxy opens its TLS, for what is sent to this address (docs/TLS.md)")
        for it in ends.values():
            self.front.use(it, self.reverse and self.reverse[0])
        out.put("[[realm.server]]", *(f"{key} = {written(it)}" for key, it in ends.items()), f"secret = {toml(secret_of(named)[0])}",
                *(["require_seal = true"] if named.says("require_message_authenticator") else []))


def main():
    options = options_of(__doc__, "proxy.conf, clients.conf, and radiusd.conf and sites, if you will")
    try:
        conversion = Conversion(*read(options.conf), options)
        conversion.run()
    except (Unreadable, ValueError) as error:
        sys.exit(f"from-freeradius.py: {error}")
    closed("from-freeradius.py", conversion.out, conversion.peers, conversion.realms, conversion)


if __name__ == "__main__":
    main()
