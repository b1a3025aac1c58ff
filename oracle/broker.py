#!/usr/bin/env python3
"""A broker of Access, accounting, Disconnect, CoA and Status-Server, written from the rules as said in words.

broker.py NAME.conf NAME.script            prints the packets' lines
broker.py --refusals NAME.conf NAME.script prints a refusal number or `-` for each event
broker.py --events NAME.conf NAME.script   both, event by event

Nothing here is taken from the project's code.
"""
import hashlib
import ipaddress
import sys
import tomllib
from packets import *
from policy import *
from sessions import START, Sessions

LATEST = 2 ** 62
LAST_TICKET = 2 ** 63
SIGNS = 2 ** 64
UNSUPPORTED, INVALID, NOT_ROUTABLE, NO_SESSION, NO_ANSWER, SEVERAL_SESSIONS = 401, 404, 502, 503, 505, 508
MOST_GIVEN_UP = 256

# The codes that each place takes, and those that each kind of link may answer with.
REQUESTS_AT = {"auth": (ACCESS_REQUEST,), "acct": (ACCOUNTING_REQUEST,),
               "reverse": REVERSE_REQUESTS}
REPLIES_FROM = {"auth": ACCESS_REPLIES, "acct": (ACCOUNTING_RESPONSE,),
                "coa": (DISCONNECT_ACK, DISCONNECT_NAK, COA_ACK, COA_NAK)}
# What a Status-Server is answered with at each place.
STATUS_AT = {"auth": ACCESS_ACCEPT, "acct": ACCOUNTING_RESPONSE}
# The replies of each request.
REPLIES_OF = {ACCESS_REQUEST: ACCESS_REPLIES, ACCOUNTING_REQUEST: (ACCOUNTING_RESPONSE,),
              DISCONNECT_REQUEST: (DISCONNECT_ACK, DISCONNECT_NAK), COA_REQUEST: (COA_ACK, COA_NAK)}


def one_text(text):
    """The one text of an address."""
    return str(ipaddress.ip_address(text))


def endpoint(text):
    """An address, by its one text, and a port."""
    ip, _, port = text.rpartition(":")
    return (one_text(ip.strip("[]")), int(port))


def at(ip, port):
    """The text of an endpoint."""
    return f"[{ip}]:{port}" if is_ipv6(ip) else f"{ip}:{port}"


def is_ipv6(ip):
    return ":" in ip


def listed(value):
    """The texts of a key that has one or a list of them; none where it isn't written."""
    if value is None:
        return []
    return value if isinstance(value, list) else [value]


# What a realm's keys have where they aren't written.
UNSAID = {"tries": 3, "wait": 2000, "hold": 10000, "max_pending": 4096, "rest": 30000, "rest_after": 3}


def with_unsaid(realm):
    """A realm's table with all keys that have a value where they aren't written."""
    return UNSAID | {"max_sessions": 20000 if "reverse" in realm else 0} | realm


class Config:
    def __init__(self, content):
        document = tomllib.loads(content)
        self.shards = document.get("shards", 1)
        self.seed = bytes.fromhex(document.get("seed", "0" * 64))
        self.max_hops = document.get("max_hops")
        self.max_attributes = document.get("max_attributes")
        self.fresh = document.get("fresh")
        self.status_server = document.get("status_server", False)
        self.reject = [name.lower().encode() for name in document.get("reject", [])]
        self.well_formed = document.get("well_formed", False)
        self.answer_unnamed = document.get("answer_unnamed", False)
        self.auth, self.acct = listed(document["auth"]), listed(document["acct"])
        self.peers = document["peer"]
        for client in (client for realm in document["realm"] for client in realm.get("coa_client", [])):
            client["ip"] = one_text(client["ip"])
        for peer in self.peers:
            peer["prefixes"] = [ipaddress.ip_network(text) for text in listed(peer["ip"])]
        self.realms = [with_unsaid(realm) for realm in document["realm"]]
        for realm in self.realms:
            realm["outs"] = [endpoint(text) for text in listed(realm["out"])]
            for server in realm["server"]:
                server["links"] = {k: endpoint(server[k]) for k in ("auth", "acct") if k in server}

    def peer_of(self, ip):
        """The index of the access server with the longest of all prefixes that have that address."""
        having = [(prefix.prefixlen, i) for i, peer in enumerate(self.peers) for prefix in peer["prefixes"]
                  if ipaddress.ip_address(ip) in prefix]
        return max(having)[1] if having else None

    def names_of(self, realm):
        """A realm's names and patterns."""
        return [name.lower().encode() for name in [realm["name"], *realm.get("also", [])]]

    def realm_named(self, user):
        """The realm that means what stands behind the last `@`: by a whole name, by the longest `*.` and a name with
        something before it, or by `*`; none where that is a name to reject."""
        name = name_part(user)
        if name is None:
            return None
        owners = [(pattern, index) for index, realm in enumerate(self.realms) for pattern in self.names_of(realm)]
        fitting = [(how_well(pattern, name), index)
                   for pattern, index in owners + [(pattern, None) for pattern in self.reject]
                   if pattern[:1] != b"*" or not self.well_formed or is_well_formed(name)]
        best = max((fits for fits, _ in fitting), default=-1)
        return next(index for fits, index in fitting if fits == best) if best >= 0 else None

    def is_peer_of(self, realm, peer):
        """Whether an access server is one of a realm's."""
        table = self.realms[realm]
        return "peers" not in table or self.peers[peer]["name"] in table["peers"]

    def takes(self, realm, peer):
        """Whether a realm takes requests of an access server."""
        table = self.realms[realm]
        addresses = [ip for server in table["server"] for ip, _ in server["links"].values()]
        is_loop = table.get("loop_prevention", False) and any(
            ipaddress.ip_address(ip) in prefix for ip in addresses for prefix in self.peers[peer]["prefixes"])
        return self.is_peer_of(realm, peer) and not is_loop

    def link_of(self, realm, out, source):
        """(kind, index, out) of a link of the realm by that one of its own sockets, which is of the same kind."""
        outs = self.realms[realm]["outs"]
        if out >= len(outs) or is_ipv6(outs[out][0]) != is_ipv6(source[0]):
            return None
        for index, server in enumerate(self.realms[realm]["server"]):
            for kind in ("auth", "acct"):
                if server["links"].get(kind) == source:
                    return (kind, index, out)
        for index, peer in enumerate(self.peers):
            if "coa" in peer and endpoint(peer["coa"]) == source:
                return ("coa", index, out)
        return None

    def outs_to(self, realm, where):
        """The numbers of the realm's own sockets that send to an endpoint."""
        return [k for k, (ip, _) in enumerate(self.realms[realm]["outs"]) if is_ipv6(ip) == is_ipv6(where[0])]

    def home_of(self, realm, ip):
        """The table with the secret of who may send a Disconnect or CoA from that address: its first home server there, or
        else its coa_client."""
        table = self.realms[realm]
        for server in table["server"]:
            if ip in [address for address, _ in server["links"].values()]:
                return server
        return next((client for client in table.get("coa_client", []) if client["ip"] == ip), None)

    def access_server_of(self, request, realm):
        """The access server of a realm that a Disconnect or CoA names: by its Operator-Name where some access server has one, else
        by its address, its name or both."""
        operator = request.first(OPERATOR_NAME)
        if operator is not None and any("operator_name" in peer for peer in self.peers):
            fitting = [index for index, peer in enumerate(self.peers)
                       if "operator_name" in peer and means_the_same(operator, operator_of(peer))]
        else:
            fitting = self.named_by_nas(*(request.first(kind) for kind in self.names_of_nas()))
        return next((index for index in fitting if self.is_reached(realm, index) and self.is_peer_of(realm, index)), None)

    def names_of_nas(self):
        """What names an access server: its IPv6 address only where some access server's is known."""
        some_ipv6 = any("nas_ipv6" in peer for peer in self.peers)
        return (NAS_IP_ADDRESS, NAS_IDENTIFIER) + (NAS_IPV6_ADDRESS,) * some_ipv6

    def is_reached(self, realm, index):
        """Whether an access server takes Disconnects and CoAs at an address of the kind of the realm's own socket."""
        coa = self.peers[index].get("coa")
        return coa is not None and self.outs_to(realm, endpoint(coa)) != []

    def named_by_nas(self, ip, name, ipv6=None):
        """The access servers that a NAS-IP-Address, a NAS-Identifier and a NAS-IPv6-Address name, each where it is there."""
        if ip is None and name is None and ipv6 is None:
            return []
        meant = None if name is None else self.meant_by(name)
        return [index for index, peer in enumerate(self.peers)
                if (ip is None or "nas_ip" in peer and ip == address(peer["nas_ip"])) and (name is None or index == meant)
                and (ipv6 is None or "nas_ipv6" in peer and ipv6 == address(peer["nas_ipv6"]))]

    def meant_by(self, name):
        """The access server that a NAS-Identifier means: by a whole text, or by the longest beginning."""
        found = []
        for index, peer in enumerate(self.peers):
            texts = [(text.encode(), len(text.encode()) > 1 and text.endswith("*")) for text in peer.get("nas_ids", [])]
            texts += [(peer["nas_id"].encode(), False)] if "nas_id" in peer else []
            found += [(len(text) - 1, index) for text, is_pattern in texts if is_pattern and name.startswith(text[:-1])]
            found += [(1000, index) for text, is_pattern in texts if not is_pattern and text == name]
        return max(found)[1] if found else None


def address(text):
    return ipaddress.ip_address(text).packed


class Request:
    """A request that a realm was given: its packet, whence it came, and the secret shared with the
    requester; of an access server its index too."""

    def __init__(self, place, source, packet, secret, peer=None):
        self.place, self.source, self.packet = place, source, packet
        self.secret, self.peer = secret, peer
        self.key = (place, source, packet.id)


class Entry:
    def __init__(self, ticket, request):
        self.ticket, self.request = ticket, request
        self.link = self.id = self.octets = self.sends_left = self.deadline = self.reply = None
        # How many signs of life its link had given when its packet was built.
        self.signs = 0

    def waits(self):
        return self.reply is None


class Realm:
    """The state of one realm, and its rules."""

    def __init__(self, config, index):
        self.config, self.index, self.table = config, index, config.realms[index]
        self.rest = self.table["rest"]
        self.entries = []
        self.ticket = self.built = 0
        self.cursors = {}
        # Of the links of home servers: until when they rest, and how many entries were given up there.
        self.rests, self.given_up = {}, {}
        # How often one of these gave a sign of life.
        self.signs = {}
        self.sessions = Sessions(self.table["max_sessions"], self.table.get("own_sessions", False))

    # Links

    def servers_of(self, packet):
        """The home servers that take a packet's code, in configured order, or turned by its user."""
        kind = "auth" if packet.code == ACCESS_REQUEST else "acct"
        servers = [number for number, server in enumerate(self.table["server"]) if kind in server["links"]]
        if self.table.get("balance", "order") == "order" or not servers:
            return servers
        first = user_number(packet) % len(servers)
        return servers[first:] + servers[:first]

    def server_links(self, packet, servers):
        """A packet's targets at these home servers: each by each own socket that sends there."""
        kind = "auth" if packet.code == ACCESS_REQUEST else "acct"
        return [(kind, server, out) for server in servers
                for out in self.config.outs_to(self.index, self.table["server"][server]["links"][kind])]

    def coa_links(self, peer):
        """The targets at an access server."""
        return [("coa", peer, out) for out in self.config.outs_to(self.index, endpoint(self.config.peers[peer]["coa"]))]

    def endpoint_of(self, link):
        kind, index, _ = link
        if kind == "coa":
            return endpoint(self.config.peers[index]["coa"])
        return self.table["server"][index]["links"][kind]

    def secret_of(self, link):
        kind, index, _ = link
        table = self.config.peers if kind == "coa" else self.table["server"]
        return table[index]["secret"].encode()

    def free_identifier(self, link, entries):
        used = {e.id for e in entries if e.waits() and e.link == link}
        for step in range(256):
            id = (self.cursors.get(link, 0) + step) % 256
            if id not in used:
                return id
        return None

    def stands_back(self, link, now):
        return link[:2] in self.rests and self.rests[link[:2]] > now

    def target(self, now, links, entries):
        """Of the links with a free Identifier the first that doesn't stand back, or the first of all."""
        free = [(link, self.free_identifier(link, entries)) for link in links]
        free = [(link, id) for link, id in free if id is not None]
        forward = [target for target in free if not self.stands_back(target[0], now)]
        return next(iter(forward + free), None)

    def target_in_login(self, now, request, links, entries):
        """The target of a request in the middle of a login: where its State came from, or else where no link's rest is to be tried."""
        source = self.source_of_state(request)
        there = [] if source is None else [source] + [link for link in links if link[:2] == source[:2] and link != source]
        never_silent = [link for link in links if link[:2] not in self.rests]
        free = [(link, self.free_identifier(link, entries)) for link in there + never_silent]
        return next((target for target in free if target[1] is not None), None)

    def source_of_state(self, request):
        """The link from which the last Challenge with a request's State came that is held for its access server."""
        state = request.packet.first(STATE)
        challenges = [(e.ticket, e.link) for e in self.entries if not e.waits() and e.link is not None
                      and e.request.peer == request.peer and Packet(e.reply).code == ACCESS_CHALLENGE
                      and Packet(e.reply).first(STATE) == state]
        return max(challenges)[1] if challenges else None

    def give_up(self, now, entry):
        """Counts an entry that its link left without an answer, where that gave no sign of life meanwhile."""
        link = entry.link[:2]
        if link[0] == "coa" or self.rest == 0 or self.signs.get(link, 0) != entry.signs:
            return
        self.given_up[link] = min(self.given_up.get(link, 0) + 1, MOST_GIVEN_UP)
        if self.given_up[link] >= self.table["rest_after"]:
            self.rests[link] = now + self.rest

    def gives_sign(self, link):
        """A home server gives a sign of life, by whichever own socket."""
        link = link[:2]
        if link[0] != "coa":
            self.rests.pop(link, None)
            self.given_up.pop(link, None)
            self.signs[link] = (self.signs.get(link, 0) + 1) % SIGNS

    # What is sent

    def out(self, entry):
        out = entry.link[2]
        place = f"out:{self.index}" + f":{out}" * (out > 0)
        return (self.index, place, self.endpoint_of(entry.link), entry.octets)

    def answer(self, request, octets):
        return (self.index, request.place, request.source, octets)

    def words(self, code):
        if code != ACCESS_REQUEST:
            return None
        self.built += 1
        return chacha_words(self.config.seed, self.index, self.built - 1)

    def send(self, now, entry, target, is_chosen=True):
        """Sends what is built for a target; of a link that was chosen and has rested the rest begins anew."""
        entry.link, entry.id = target
        entry.signs = self.signs.get(entry.link[:2], 0)
        self.cursors[entry.link] = (entry.id + 1) % 256
        if is_chosen and entry.link[:2] in self.rests:
            self.rests[entry.link[:2]] = now + self.rest
        request, secret = entry.request, self.secret_of(entry.link)
        words = self.words(request.packet.code)
        entry.octets = forwarded(request.packet, self.list_for(request, entry.link), request.secret, entry.id,
                                 entry.ticket, secret, words)
        entry.sends_left = self.table["tries"] - 1
        entry.deadline = now + self.table["wait"]
        return [self.out(entry)]

    def list_for(self, request, link):
        """What of a request goes on to a link."""
        kind, index, _ = link
        if kind == "coa":
            return list_for_access_server(request.packet, self.table, self.config.peers[index])
        return list_to_forward(request.packet, self.table, self.config.peers[request.peer])

    def hold(self, now, entry, reply, source):
        """Holds an answer, and the link from which it came where that is one."""
        entry.reply, entry.link = reply, source
        entry.deadline = now + self.table["hold"]
        return [self.answer(entry.request, reply)]

    # A request

    def on_request(self, now, request):
        if now > LATEST:
            raise Refused(19)
        known = next((e for e in self.entries if e.request.key == request.key), None)
        if known is not None and known.request.packet.octets == request.packet.octets:
            return [] if known.waits() else [self.answer(request, known.reply)]
        if request.packet.code not in REVERSE_REQUESTS:
            links = self.server_links(request.packet, self.servers_of(request.packet))
            return self.take(now, request, known, links)
        peer = self.config.access_server_of(request.packet, self.index)
        cause = self.cause_against(request.packet, peer)
        if cause is not None:
            return [self.answer(request, nak(request.packet, request.secret, cause))]
        return self.take(now, request, known, self.coa_links(peer))

    def cause_against(self, request, peer):
        """The Error-Cause of a Disconnect or CoA that isn't forwarded."""
        if peer is None:
            return NOT_ROUTABLE
        cause = self.cause_by_sessions(request, peer) if self.sessions.is_own else self.cause_by_name(request, peer)
        return cause or (UNSUPPORTED if request.is_salted() else None)

    def is_of_another(self, request):
        """Whether it has a User-Name that doesn't name this realm."""
        name = request.first(USER_NAME)
        return name is not None and self.config.realm_named(name) != self.index

    def cause_by_name(self, request, peer):
        """A User-Name counts, and a session where there is none."""
        name, session = request.first(USER_NAME), request.first(ACCT_SESSION_ID)
        if name is None and session is None or self.is_of_another(request):
            return NOT_ROUTABLE
        return NO_SESSION if name is None and not self.sessions.of_request(peer, request) else None

    def cause_by_sessions(self, request, peer):
        """One session of the realm's own is named, whatever User-Name stands there."""
        if len(request.values(USER_NAME)) > 1 or len(request.values(ACCT_SESSION_ID)) > 1:
            return INVALID
        if self.is_of_another(request):
            return NOT_ROUTABLE
        found = self.sessions.of_request(peer, request)
        if not found:
            return NO_SESSION
        return SEVERAL_SESSIONS if len(found) > 1 else None

    def take(self, now, request, known, links):
        """A new request, which takes the place of the known one with its key."""
        others = [e for e in self.entries if e is not known]
        if self.ticket == LAST_TICKET:
            raise Refused(11)
        if self.is_share_taken(request, others):
            raise Refused(27)
        is_in_login = (self.table.get("conversations", False) and request.packet.code == ACCESS_REQUEST
                       and request.packet.values(STATE) != [])
        kept = self.target_in_login(now, request, links, others) if is_in_login else None
        target = kept or self.target(now, links, others)
        if target is None:
            raise Refused(12)
        if len(others) >= self.table["max_pending"]:
            held = [e for e in others if not e.waits()]
            if not held:
                raise Refused(13)
            others.remove(min(held, key=lambda e: e.ticket))
        entry = Entry(self.ticket, request)
        self.entries = others + [entry]
        self.ticket += 1
        return self.send(now, entry, target, kept is None)

    def is_share_taken(self, request, others):
        """Whether as many of its code wait for its name as may, or as many of its access server."""
        if request.packet.code in REVERSE_REQUESTS:
            return False
        of_peer = [e for e in others if e.waits() and e.request.peer == request.peer]
        if "peer_share" in self.table and len(of_peer) >= self.table["peer_share"]:
            return True
        if "share" not in self.table:
            return False
        names = [name_part(e.request.packet.first(USER_NAME)) for e in others
                 if e.waits() and e.request.packet.code == request.packet.code]
        return names.count(name_part(request.packet.first(USER_NAME))) >= self.table["share"]

    # A reply

    def on_reply(self, now, link, reply, keeps_session):
        if now > LATEST:
            raise Refused(19)
        waiting = [e for e in self.entries if e.waits() and e.link == link and e.id == reply.id]
        if not waiting:
            raise Refused(14)
        [entry] = waiting
        sent, secret, request = Packet(entry.octets), self.secret_of(link), entry.request
        self.expect_answer(reply, sent, secret)
        self.gives_sign(link)
        self.expect_seals(reply, sent, secret, self.must_seal(link))
        packet = returned(reply, self.list_of(reply, request), request.packet, request.secret, sent, secret)
        if len(packet) > LARGEST:
            raise Refused(18)
        if reply.code == ACCOUNTING_RESPONSE and keeps_session:
            self.sessions.apply(request.peer, request.packet)
        return self.hold(now, entry, packet, link)

    def list_of(self, reply, request):
        """What of a reply goes back."""
        attributes = reply.attributes
        if reply.code not in ACCESS_REPLIES:
            return attributes
        if reply.code == ACCESS_ACCEPT and self.table.get("own_names", False):
            own = name_part(request.packet.first(USER_NAME))
            attributes = [(kind, value) for kind, value in attributes if kind != USER_NAME or name_part(value) == own]
        return without(attributes, texts_of("reply_without", self.config.peers[request.peer], self.table))

    def must_seal(self, link):
        kind, index, _ = link
        return kind == "auth" and self.table["server"][index].get("require_seal", False)

    def expect_answer(self, reply, sent, secret):
        if reply.code not in REPLIES_OF[sent.code]:
            raise Refused(15)
        if not reply.is_signed(sent.authenticator, secret):
            raise Refused(16)

    def expect_seals(self, reply, sent, secret, must_seal):
        access = reply.code in ACCESS_REPLIES
        if not reply.is_well_sealed([sent.authenticator] + [ZEROS] * (not access), secret):
            raise Refused(17)
        if access and not reply.values(SEAL) and (must_seal or reply.values(EAP_MESSAGE)):
            raise Refused(17)

    # A tick

    def on_tick(self, now):
        packets = []
        while True:
            due = [e for e in self.entries if e.deadline <= now]
            if not due:
                return packets
            entry = min(due, key=lambda e: (e.deadline, e.ticket))
            packets += self.on_deadline(now, entry)

    def on_deadline(self, now, entry):
        if entry.waits() and entry.sends_left > 0:
            entry.sends_left -= 1
            entry.deadline = now + self.table["wait"]
            return [self.out(entry)]
        others = [e for e in self.entries if e is not entry]
        if not entry.waits():
            self.entries = others
            return []
        request, (kind, index, _) = entry.request, entry.link
        if kind == "coa":
            return self.hold(now, entry, nak(request.packet, request.secret, NO_ANSWER), None)
        self.give_up(now, entry)
        servers = self.servers_of(request.packet)
        behind = servers[servers.index(index) + 1:]
        target = self.target(now, self.server_links(request.packet, behind), others)
        if target is None:
            self.entries = others
            return []
        return self.send(now, entry, target)


def user_number(packet):
    """The number by which a packet's user has a home server: of its Calling-Station-Id, or else of its User-Name."""
    station, name = packet.first(CALLING_STATION_ID), packet.first(USER_NAME)
    user = station if station is not None else name
    return int.from_bytes(hashlib.md5(user or b"").digest()[:4], "big")


def has_bad_passwords(request):
    """Whether an Access-Request is answered by a local Access-Reject for its passwords."""
    passwords = request.values(USER_PASSWORD)
    return (
        len(passwords) > 1
        or bool(passwords and request.values(CHAP_PASSWORD))
        or not all(password_fits(value) for value in passwords)
    )


class Broker:
    def __init__(self, config):
        self.config = config
        self.realms = [Realm(config, index) for index in range(len(config.realms))]

    def arrive(self, now, place, source, datagram, seconds=None, keeps_session=True):
        packet = Packet(datagram)
        kind, *numbers = place.split(":")
        number = numbers.pop(0) if kind in ("out", "reverse") else ""
        which = int(numbers[0]) if numbers else 0
        if number and int(number) >= len(self.realms):
            raise Refused(4)
        if kind == "out":
            return self.reply(now, int(number), which, source, packet, keeps_session)
        own = listed(self.config.realms[int(number)].get("reverse")) if number else getattr(self.config, kind)
        if which >= len(own):
            raise Refused(4)
        peer, secret = self.requester(kind, number, source[0])
        if packet.code == STATUS_SERVER and self.config.status_server and kind in STATUS_AT:
            self.expect_few_attributes(packet)
            return self.status(kind, place, source, packet, secret)
        if packet.code not in REQUESTS_AT[kind]:
            raise Refused(5)
        self.expect_few_attributes(packet)
        self.check(packet, secret, self.needs_seal(packet, peer))
        realm = int(number) if number else self.config.realm_named(packet.first(USER_NAME))
        too_many_hops = self.has_too_many_hops(packet)
        is_taken = realm is not None and (peer is None or self.config.takes(realm, peer))
        if packet.code == ACCESS_REQUEST and (too_many_hops or not is_taken or has_bad_passwords(packet)):
            return self.answer(ACCESS_REJECT, place, source, packet, secret)
        if too_many_hops:
            raise Refused(24)
        if packet.code in REVERSE_REQUESTS and self.is_stale(packet, seconds):
            raise Refused(29)
        if packet.code == ACCOUNTING_REQUEST and self.is_answered_here(packet, realm, is_taken):
            return [("-", place, source, local_accounting_answer(packet, secret))]
        attributes = packet.attributes
        if peer is not None:
            attributes = list_to_forward(packet, self.config.realms[realm], self.config.peers[peer])
        if forwarded_size(packet, attributes) > LARGEST:
            raise Refused(10)
        return self.realms[realm].on_request(now, Request(place, source, packet, secret, peer))

    def is_answered_here(self, packet, realm, is_taken):
        """Whether accounting is answered by no home server; it is refused where it is dropped, and where no realm takes
        it."""
        if self.config.answer_unnamed and not packet.values(USER_NAME):
            return True
        if realm is None:
            raise Refused(9)
        if not is_taken:
            raise Refused(25)
        accounting = self.config.realms[realm].get("accounting", "forward")
        if accounting == "drop":
            raise Refused(26)
        return accounting == "answer"

    def expect_few_attributes(self, packet):
        if self.config.max_attributes is not None and len(packet.attributes) > self.config.max_attributes:
            raise Refused(28)

    def is_stale(self, packet, seconds):
        """Whether its Event-Timestamp is too far from the wall clock's seconds that came with it."""
        stamp = packet.first(EVENT_TIMESTAMP)
        if self.config.fresh is None or seconds is None or stamp is None or len(stamp) != 4:
            return False
        return abs(int.from_bytes(stamp, "big") - seconds) > self.config.fresh

    def needs_seal(self, packet, peer):
        """Whether an Access-Request of an access server must be sealed."""
        if peer is None:
            return False
        table = self.config.peers[peer]
        is_limited = table.get("limit_proxy_state", False) and bool(packet.values(PROXY_STATE))
        return table.get("require_seal", False) or is_limited

    def requester(self, kind, number, ip):
        """An access server's index, and the secret."""
        if kind == "reverse":
            server = self.config.home_of(int(number), ip)
            if server is None:
                raise Refused(4)
            return None, server["secret"].encode()
        index = self.config.peer_of(ip)
        if index is None:
            raise Refused(4)
        return index, self.config.peers[index]["secret"].encode()

    def check(self, packet, secret, must_seal):
        """The digest of a request, and its Message-Authenticator."""
        access = packet.code == ACCESS_REQUEST
        if not access and not packet.is_signed(ZEROS, secret):
            raise Refused(6)
        if not packet.is_well_sealed([packet.authenticator if access else ZEROS], secret):
            raise Refused(7)
        if access and not packet.values(SEAL) and (must_seal or packet.values(EAP_MESSAGE)):
            raise Refused(8)

    def has_too_many_hops(self, packet):
        return self.config.max_hops is not None and len(packet.values(PROXY_STATE)) > self.config.max_hops

    def status(self, kind, place, source, packet, secret):
        """A Status-Server, which is sealed whatever the access server's other requests are."""
        if not packet.is_well_sealed([packet.authenticator], secret):
            raise Refused(7)
        if not packet.values(SEAL):
            raise Refused(8)
        return self.answer(STATUS_AT[kind], place, source, packet, secret)

    def answer(self, code, place, source, packet, secret):
        """An answer that no realm gives."""
        octets = local_answer(code, packet, secret)
        if len(octets) > LARGEST:
            raise Refused(10)
        return [("-", place, source, octets)]

    def reply(self, now, realm, out, source, packet, keeps_session):
        link = self.config.link_of(realm, out, source)
        if link is None:
            raise Refused(4)
        if packet.code not in REPLIES_FROM[link[0]]:
            raise Refused(5)
        return self.realms[realm].on_reply(now, link, packet, keeps_session)

    def tick(self, now, shard):
        if shard >= self.config.shards:
            raise Refused(20)
        if now > LATEST:
            raise Refused(19)
        packets = []
        for realm in self.realms:
            if realm.index % self.config.shards == shard:
                packets += realm.on_tick(now)
        return packets

    def event(self, line):
        """The packets of an event, and its refusal or None."""
        fields = line.split(" ")
        try:
            if fields[0] == "T":
                return self.tick(int(fields[1]), int(fields[2])), None
            letter, now, place, source, digits = fields
            datagram = b"" if digits == "-" else bytes.fromhex(digits)
            now, _, seconds = now.partition("/")
            seconds = int(seconds) if seconds else None
            return self.arrive(int(now), place, endpoint(source), datagram, seconds, letter != "L"), None
        except Refused as refused:
            return [], refused.number


def events_of(script):
    return [line for line in script.split("\n") if line and not line.startswith("#")]


def spelled(packet):
    realm, place, (ip, port), octets = packet
    return f"{realm} {place} {at(ip, port)} {octets.hex()}"


def play(conf, script, ticket=0):
    """For each event its packets' lines and its refusal or None, from that first ticket on."""
    broker = Broker(Config(conf))
    for realm in broker.realms:
        realm.ticket = ticket
    played = []
    for line in events_of(script):
        packets, refusal = broker.event(line)
        played.append(([spelled(p) for p in packets], refusal))
    return played


def expected_text(played):
    return "".join(line + "\n" for lines, _ in played for line in lines)


def refusals_text(played):
    return "".join(("-" if n is None else str(n)) + "\n" for _, n in played)


def main(words):
    how = words.pop(0) if words[0].startswith("--") else ""
    with open(words[0]) as conf, open(words[1]) as script:
        script = script.read()
        played = play(conf.read(), script)
    if how == "--refusals":
        print(refusals_text(played), end="")
    elif how == "--events":
        for line, (lines, refusal) in zip(events_of(script), played):
            print(line[:100])
            number = "-" if refusal is None else refusal
            print("   ", number, *("=> " + line for line in lines), sep="  ")
    else:
        print(expected_text(played), end="")


if __name__ == "__main__":
    main(sys.argv[1:])
