#!/usr/bin/env python3
"""A broker whose configuration changes while it serves, written from the rules as said in words.

changes.py SCRIPT FIRST.conf NEXT.conf ..   prints what is sent, event by event

A line `C` of the script is a change to the next configuration. Places are numbered as the file of the time does.
Nothing here is taken from the project's code.
"""
import pathlib
import sys
from broker import Broker, Config, LATEST, events_of, listed, spelled
from packets import *
from policy import *


def by_name(tables, key=lambda name: name):
    return {key(table["name"]): index for index, table in enumerate(tables)}


class Peers:
    """Who is who among the access servers of two configurations."""

    def __init__(self, old, new):
        self.old, self.new, self.places = old.peers, new.peers, by_name(new.peers)

    def then(self, peer):
        """The index of an access server under the new configuration, if it is still there."""
        return self.places.get(self.old[peer]["name"])

    def keeps(self, peer, *keys):
        """Whether it is, with the same values of these keys."""
        then = self.then(peer)
        return then is not None and all(self.old[peer].get(key) == self.new[then].get(key) for key in keys)


class Change:
    """What becomes of a realm's state."""

    def __init__(self, old, new, peers):
        self.old, self.new, self.peers = old, new, peers

    def is_same_out(self, out):
        """Whether the realm's own socket of a number is where it was."""
        old, new = self.old.table["outs"], self.new.table["outs"]
        return out < len(old) and out < len(new) and old[out] == new[out]

    def server_then(self, server):
        def identity(table):
            return table.get("auth"), table.get("acct"), table["secret"]
        wanted = identity(self.old.table["server"][server])
        return next((at for at, table in enumerate(self.new.table["server"]) if identity(table) == wanted), None)

    def link_then(self, link):
        """The two words of a link under the new configuration, whatever its own socket is."""
        kind, index = link
        if kind == "coa":
            return ("coa", self.peers.then(index)) if self.peers.keeps(index, "coa", "secret") else None
        server = self.server_then(index)
        return None if server is None else (kind, server)

    def way_then(self, link):
        then = self.link_then(link[:2])
        return (*then, link[2]) if then is not None and self.is_same_out(link[2]) else None

    def keeps_sender(self, request):
        if request.peer is None:
            if not listed(self.new.table.get("reverse")):
                return False
            source = self.new.config.home_of(self.new.index, request.source[0])
            return source is not None and source["secret"].encode() == request.secret
        found = self.new.config.peer_of(request.source[0])
        return found is not None and found == self.peers.then(request.peer) and self.peers.keeps(request.peer, "secret")

    def is_too_large(self, request):
        """Whether it couldn't be forwarded any more, with what is added for its access server now."""
        if request.peer is None:
            return False
        peer = self.new.config.peers[self.peers.then(request.peer)]
        return forwarded_size(request.packet, list_to_forward(request.packet, self.new.table, peer)) > LARGEST

    def carry(self, entry):
        """Whether an entry stays. What it is told by is told anew."""
        request = entry.request
        if not self.keeps_sender(request) or self.is_too_large(request):
            return False
        link = None if entry.link is None else self.way_then(entry.link)
        if entry.waits() and link is None:
            return False
        entry.link = link
        if request.peer is None:
            request.place = ":".join(["reverse", str(self.new.index), *request.place.split(":")[2:]])
            request.key = (request.place, request.source, request.packet.id)
        else:
            request.peer = self.peers.then(request.peer)
        return True

    def make_way(self, entries):
        """Where fewer may be pending than before, answered ones go in order of ticket; above a limit that stays they stay."""
        if self.new.table["max_pending"] >= self.old.table["max_pending"]:
            return entries
        over = len(entries) - self.new.table["max_pending"]
        going = [e for e in entries if not e.waits()][:max(over, 0)]
        return [e for e in entries if e not in going]

    def carry_sessions(self):
        old, new = self.old.sessions, self.new.sessions
        if old.is_own != new.is_own:
            return
        stay = [(self.peers.then(peer), nas, id) for peer, nas, id in old.records if self.peers.then(peer) is not None]
        new.records = stay[max(len(stay) - new.limit, 0):]

    def carry_numbers(self, name, then):
        """What is kept of links goes with them."""
        moved = {then(link): value for link, value in getattr(self.old, name).items()}
        moved.pop(None, None)
        setattr(self.new, name, moved)

    def carry_all(self):
        self.new.ticket, self.new.built = self.old.ticket, self.old.built
        self.carry_numbers("cursors", self.way_then)
        for name in ("rests", "given_up", "signs"):
            self.carry_numbers(name, self.link_then)
        self.new.entries = self.make_way([e for e in self.old.entries if self.carry(e)])
        self.carry_sessions()


class ChangingBroker(Broker):
    """A broker, with the number that each realm has for as long as it runs, and of which the words of its packets are."""

    def __init__(self, config):
        super().__init__(config)
        self.count = len(self.realms)
        for number, realm in enumerate(self.realms):
            self.give_number(realm, number)

    @staticmethod
    def give_number(realm, number):
        realm.number = number
        realm.words = lambda code: words_of(realm, code)

    def follow(self, config):
        old = self.config, self.realms
        config.seed = old[0].seed
        places = by_name([realm.table for realm in old[1]], str.lower)
        peers = Peers(old[0], config)
        super().__init__(config)
        for realm in self.realms:
            before = places.get(realm.table["name"].lower())
            if before is None:
                self.give_number(realm, self.count)
                self.count += 1
            else:
                self.give_number(realm, old[1][before].number)
                Change(old[1][before], realm, peers).carry_all()

    def tick(self, now, shard):
        """Realms are ticked in the order of their numbers, each in the shard of its number."""
        if shard >= self.config.shards:
            raise Refused(20)
        if now > LATEST:
            raise Refused(19)
        return [packet for realm in self.in_shard(shard) for packet in realm.on_tick(now)]

    def in_shard(self, shard):
        realms = sorted(self.realms, key=lambda realm: realm.number)
        return [realm for realm in realms if realm.number % self.config.shards == shard]


def words_of(realm, code):
    if code != ACCESS_REQUEST:
        return None
    realm.built += 1
    return chacha_words(realm.config.seed, realm.number, realm.built - 1)


def play(script, configurations):
    """For each event its packets' lines and its refusal or None; for a change None."""
    broker, later, played = ChangingBroker(Config(configurations[0])), configurations[1:], []
    for line in events_of(script):
        if line == "C":
            broker.follow(Config(later.pop(0)))
            played.append(None)
        else:
            packets, refusal = broker.event(line)
            played.append(([spelled(p) for p in packets], refusal))
    return played


def main():
    if len(sys.argv) < 3:
        sys.exit(__doc__)
    script, *configurations = (pathlib.Path(path).read_text() for path in sys.argv[1:])
    for event in play(script, configurations):
        if event is None:
            print("-- a change")
        else:
            print(*event[0], "-" if event[1] is None else f"refused {event[1]}", sep="\n")


if __name__ == "__main__":
    main()
