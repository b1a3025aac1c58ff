#!/usr/bin/env python3
"""try-changes.py PROGRAM [SEED ..]

Has a program serve on loopback, and the broker that is written apart (oracle/changes.py over oracle/broker.py) beside it: random requests,
repeats, replies, Disconnects and junk, and between them random changes of the file, each followed by `roam ctl reload --lose`. What the
program sends for each datagram, from where, where to and to the octet, must be what the other one says; so must the numbers of what it
refuses. Seeds are fixed (2 to 16; 1 is a case said by hand), and the whole takes less than a minute. With the last of them requests are
sent again, go to the next server, are given up, and held replies end: nothing else happens while something falls due. With all others waits
and holds are a minute long.
"""
import collections
import copy
import random
import select
import sys
import tempfile
import time

sys.dont_write_bytecode = True
from looks import be_quiet, end, go_on, want, words
from radius import HERE, access_with_password, accounting, attribute, bound, packets, signed
from server import Server, configuration, peer, realm, total
import broker as apart
from changes import ChangingBroker

SEEDS, EVENTS, LIMIT, LEAST, TIMES = range(1, 17), 130, 50, 100, 4
# From this seed on time passes: what falls due is so many milliseconds away from all else that happens.
TIMED, MARGIN, EVENTS_IN_TIME = 15, 300, 60
AUTH, ACCT, OUT, REVERSE, COA, HOME = 39012, 39013, 39020, 39040, 39799, 39112
NASES, HOMES, WATCH = [f"127.0.12.{n}" for n in (11, 12, 13)], [f"127.0.12.{n}" for n in (21, 22, 23)], "127.0.12.9"
# What an access server may have beside its own address: prefixes around those of others.
AROUND = ["127.0.12.8/29", "127.0.12.10/31", "127.0.12.12/30", "127.0.12.16/29"]
NAMES, SECRETS = ["a.example", "b.example", "c.example"], ["a secret", "another secret", "a third one"]
LIMITS = {"max_pending": (1, 1, 2, 3, 8), "max_sessions": (1, 2, 20), "peer_share": (None, None, 2, 4), "share": (None, None, 1, 3),
          "own_sessions": (False, True), "reply_without": ([], ["6"], ["25"]), "request_without": ([], ["25"]),
          "peers": (None, None, ["nas0", "nas1"]), "also": ([], ["*.example"]), "accounting": ("forward", "forward", "answer", "drop")}
IN_TIME = {"wait": (1200, 1500), "hold": (0, 900), "tries": (1, 2), "rest": (0, 30000), "rest_after": (1, 2)}
PEER_KEYS = {"require_seal": (False, False, True), "limit_proxy_state": (False, True), "ask_cui": (False, True), "nas_ip": (None, "192.0.2.1"),
             "operator_name": (None, "nas.example"), "reply_without": ([], ["25"])}


class File:
    """The file of the time, as tables of its keys, and how it changes."""

    def __init__(self, chance, is_timed):
        self.chance, self.limits = chance, {**LIMITS, **(IN_TIME if is_timed else {})}
        self.peers = []
        for n in range(3):
            self.peers.append(self.a_peer(n))
        self.realms = [self.a_realm(n) for n in range(3)]

    def a_peer(self, number):
        keys = {key: self.chance.choice(values) for key, values in PEER_KEYS.items() if key != "nas_ip" or number == 0}
        keys["operator_name"] = keys["operator_name"] and f"nas{number}.example"
        own = NASES[number] if NASES[number] in self.free() else self.chance.choice(self.free())
        return {"name": f"nas{number}", "ip": [own], "secret": self.chance.choice(SECRETS), "coa": f"{NASES[number]}:{COA}",
                "nas_id": f"nas{number}", **keys}

    def free(self):
        """The addresses and prefixes that no access server has."""
        taken = {it for one in self.peers for it in one["ip"]}
        return [it for it in (*NASES, *AROUND) if it not in taken]

    def a_server(self, number):
        return {"auth": f"{HOMES[number]}:{HOME}", "acct": f"{HOMES[number]}:{HOME + 1}", "secret": self.chance.choice(SECRETS)}

    def a_realm(self, number):
        keys = {key: self.chance.choice(values) for key, values in self.limits.items() if key not in ("also", "peers")}
        servers = [self.a_server(it) for it in self.chance.sample(range(3), self.chance.choice((1, 2, 2)))]
        return {"name": NAMES[number], "out": f"{HERE}:{OUT + number}", "reverse": f"{HERE}:{REVERSE + number}", "tries": 3, "wait": 60000,
                "hold": 60000, "server": servers, **keys}

    def text(self):
        tables = [peer(**one | {"ip": one["ip"] if one["ip"][1:] else one["ip"][0]}) for one in self.peers] + [peer("watch", WATCH, SECRETS[0])]
        for one in copy.deepcopy(self.realms):
            tables.append(realm(one.pop("name"), *one.pop("server"), **one))
        return configuration(*tables, shards=1, seed="0" * 64, auth=f"{HERE}:{AUTH}", acct=f"{HERE}:{ACCT}", status_server=True,
                             log_exchanges="none")

    # Changes: each says in words what it is

    def turn(self):
        self.chance.shuffle(self.peers)
        self.chance.shuffle(self.realms)
        return "tables turned about"

    def limit(self):
        one, key = self.chance.choice(self.realms), self.chance.choice([*self.limits, "max_pending", "max_pending"])
        taken = any("also" in it and it["also"] for it in self.realms)
        one[key] = self.chance.choice(self.limits[key]) if key != "also" or not taken else []
        if key == "peers" and one[key]:
            one[key] = [it["name"] for it in self.peers][:2]
        return f"{one['name']}: {key} = {one[key]}"

    def servers(self):
        one = self.chance.choice(self.realms)
        there = {it["auth"] for it in one["server"]}
        free = [n for n in range(3) if f"{HOMES[n]}:{HOME}" not in there]
        how = self.chance.choice(("add", "remove", "turn", "secret"))
        if how == "add" and free:
            one["server"].insert(self.chance.randrange(len(one["server"]) + 1), self.a_server(self.chance.choice(free)))
        elif how == "remove" and len(one["server"]) > 1:
            one["server"].pop(self.chance.randrange(len(one["server"])))
        elif how == "secret":
            self.chance.choice(one["server"])["secret"] = self.chance.choice(SECRETS)
        else:
            self.chance.shuffle(one["server"])
        return f"{one['name']}: servers, {how}"

    def peer_key(self):
        one, key = self.chance.choice(self.peers), self.chance.choice([*PEER_KEYS, "secret", "secret", "coa"])
        if key == "secret":
            one[key] = self.chance.choice(SECRETS)
        elif key == "coa":
            one[key] = None if one[key] else f"{NASES[int(one['name'][3:])]}:{COA}"
        elif key not in ("nas_ip", "operator_name"):
            one[key] = self.chance.choice(PEER_KEYS[key])
        return f"{one['name']}: {key} = {one.get(key)}"

    def addresses(self):
        one, free = self.chance.choice(self.peers), self.free()
        how = self.chance.choice(("add", "add", "go", "turn"))
        if how == "add" and free:
            one["ip"].insert(self.chance.randrange(len(one["ip"]) + 1), self.chance.choice(free))
        elif how == "go" and len(one["ip"]) > 1:
            one["ip"].pop(self.chance.randrange(len(one["ip"])))
        else:
            self.chance.shuffle(one["ip"])
        return f"{one['name']}: ip = {one['ip']}"

    def peers_go(self):
        if len(self.peers) > 1 and self.chance.random() < .5:
            one = self.peers.pop(self.chance.randrange(len(self.peers)))
            for it in self.realms:
                it["peers"] = None
            return f"{one['name']} goes"
        missing = [n for n in range(3) if f"nas{n}" not in [it["name"] for it in self.peers]]
        if missing:
            self.peers.insert(0, self.a_peer(missing[0]))
        return f"nas{missing} comes"

    def realms_go(self):
        if len(self.realms) > 1 and self.chance.random() < .5:
            one = self.realms.pop(self.chance.randrange(len(self.realms)))
            return f"{one['name']} goes"
        missing = [n for n in range(3) if NAMES[n] not in [it["name"] for it in self.realms]]
        if missing:
            self.realms.insert(self.chance.randrange(len(self.realms) + 1), self.a_realm(missing[0]))
        return f"{missing} comes"

    def place(self):
        one = self.chance.choice(self.realms)
        key = self.chance.choice(("out", "reverse"))
        port = {"out": OUT, "reverse": REVERSE}[key] + NAMES.index(one["name"])
        one[key] = self.chance.choice((f"{HERE}:{port}", f"{HERE}:{port + 10}", None if key == "reverse" else [f"{HERE}:{port}", f"{HERE}:{port + 10}"]))
        if key == "reverse" and one[key] is None:
            one["own_sessions"] = False
        return f"{one['name']}: {key} = {one[key]}"

    def change(self):
        makes = self.chance.choices((self.turn, self.limit, self.servers, self.peer_key, self.addresses, self.peers_go, self.realms_go, self.place),
                                    (2, 6, 4, 4, 5, 2, 2, 2), k=self.chance.choice((1, 1, 1, 2)))
        return "; ".join(make() for make in makes)


class Ends:
    """The sockets of access servers and home servers, and one that asks whether the program has come so far."""

    def __init__(self):
        places = [(ip, port) for ip in NASES for port in (45000, 45001, COA)] + [(ip, port) for ip in HOMES for port in (HOME, HOME + 1, 40000)]
        self.at = {place: bound(place[1], place[0], 0) for place in places}
        self.poll, self.by_fd = select.epoll(), {}
        for place, one in self.at.items():
            self.poll.register(one, select.EPOLLIN)
            self.by_fd[one.fileno()] = place
        # How long it took last until the program had come so far, in milliseconds.
        self.watch, self.number, self.took = bound(0, WATCH, 3), 0, 0.

    def taken(self, count):
        """What came since, as from where, where to, and octets: at least so much is waited for, ten seconds at most."""
        self.number = (self.number + 1) % 256
        authenticator = bytes([self.number]) * 16
        seal = packets.sealed(12, self.number, authenticator, [(packets.SEAL, packets.ZEROS)], SECRETS[0].encode())
        self.watch.sendto(packets.text(12, self.number, authenticator, seal), (HERE, AUTH))
        found, begun, is_past = [], time.monotonic(), False
        until = begun + 10
        while time.monotonic() < until and not (is_past and len(found) >= count):
            if not is_past and select.select([self.watch], [], [], .005)[0] and self.watch.recv(4096)[1] == self.number:
                is_past, self.took = True, (time.monotonic() - begun) * 1000
            for fd, _ in self.poll.poll(0 if not is_past or len(found) >= count else .05):
                place = self.by_fd[fd]
                octets, source = self.at[place].recvfrom(4096)
                found.append((source, place, octets))
        return sorted(found)

    def close(self):
        for one in (*self.at.values(), self.watch):
            one.close()


class Play:
    """A program and the other broker, side by side."""

    def __init__(self, program, folder, seed):
        self.chance, self.seed, self.ends = random.Random(seed), seed, Ends()
        self.file, self.is_timed, self.began = File(self.chance, seed >= TIMED), seed >= TIMED, time.monotonic()
        self.server = Server(program, folder, self.file.text(), options=("--seed-of-file",))
        # Each change is agreed to, so each realm may lose something by it.
        self.server.may_lose = set(NAMES)
        self.server.waits_for()
        self.broker = ChangingBroker(apart.Config(self.file.text()))
        self.asked, self.sent, self.refused, self.done = [], [], collections.Counter(), []
        # Whether the machine held something up for so long that what falls due is no more apart from all else, and what differed then.
        self.is_late, self.spoilt = False, None

    def now(self):
        """The moment of the other broker's clock, in milliseconds."""
        return int((time.monotonic() - self.began) * 1000) if self.is_timed else 0

    def looks(self, holds, what):
        """Wants this, and tells whether it is so. A play in which time passes is spoilt where something was held up before."""
        if not holds and self.is_late:
            self.spoilt = what
        else:
            want(holds, what)
        return holds

    def notes(self, took):
        """Notes whether something took too long, in milliseconds."""
        self.is_late = self.is_late or self.is_timed and took > MARGIN * 2 // 3

    def pass_time(self, ahead=MARGIN):
        """Waits until nothing falls due that is near, and looks at what was sent for all that did. Each falls due at its own moment."""
        wanted, falls = [], 0
        while near := [e.deadline for it in self.broker.realms for e in it.entries if e.deadline < self.now() + ahead]:
            moment = min(near)
            time.sleep(max(0, moment + MARGIN - self.now()) / 1000)
            self.notes(self.now() - moment - MARGIN)
            sent = self.broker.tick(moment, 0)
            wanted, falls = wanted + [(self.place_of(at), to, octets) for _, at, to, octets in sent], falls + 1
        if not falls:
            return True
        got = self.ends.taken(len(wanted))
        self.notes(self.ends.took)
        self.done.append(f"-- time passes: {falls} fall due, {len(wanted)} packets")
        return self.looks(got == sorted(wanted), f"seed {self.seed}, time passes:\n" + "\n".join(
            f"    {word} {one[0]} -> {one[1]} {one[2].hex()}" for word, of in (("wanted", sorted(wanted)), ("got", got)) for one in of)
            + "\n    before it:\n      " + "\n      ".join(self.done[-6:]))

    def place_of(self, place):
        """The endpoint of a place under the file of the time."""
        kind, *numbers = place.split(":")
        if kind in ("auth", "acct"):
            return apart.endpoint(getattr(self.broker.config, kind)[0])
        texts = apart.listed(self.broker.realms[int(numbers[0])].table.get(kind))
        return apart.endpoint(texts[int(numbers[1]) if numbers[1:] else 0])

    def give(self, what, place, source, octets):
        """An event for both: whether what is sent for it is the same."""
        if self.is_timed and not self.pass_time():
            return False
        began = self.now()
        line = f"A {began}/{int(time.time())} {place} {apart.at(*source)} {octets.hex()}"
        waiting = {id(e): e.octets for _, e in self.waiting()}
        sent, refusal = self.broker.event(line)
        self.refused[refusal] += refusal is not None
        self.sent += [(it, e.link, e.octets) for it, e in self.waiting() if waiting.get(id(e)) != e.octets]
        wanted = sorted((self.place_of(at), to, octets) for _, at, to, octets in sent)
        self.ends.at[source].sendto(octets, self.place_of(place))
        self.notes(self.now() - began)
        got = self.ends.taken(len(wanted))
        self.notes(self.ends.took)
        self.done.append(f"{what}: {line[:140]}")
        return self.looks(got == wanted, f"seed {self.seed}, event {len(self.done)}, {what}:\n" + "\n".join(
            f"    {word} {one[0]} -> {one[1]} {one[2].hex()}" for word, of in (("wanted", wanted), ("got", got)) for one in of)
            + f"\n    refusal {refusal}; before it:\n      " + "\n      ".join(self.done[-6:]))

    def waiting(self):
        return [(it, e) for it in self.broker.realms for e in it.entries if e.waits()]

    # Events

    def address_of(self, one):
        """An address from which an access server asks: mostly one that is its own."""
        config = self.broker.config
        finds = {ip: config.peer_of(ip) for ip in NASES}
        own = [ip for ip, found in finds.items() if found is not None and config.peers[found]["name"] == one["name"]]
        return self.chance.choice(own if own and self.chance.random() < .9 else NASES)

    def request(self):
        one = self.chance.choice(self.file.peers)
        user = self.chance.choice((b"u@", b"v@")) + self.chance.choice(NAMES + ["x.example"]).encode()
        number, source = self.chance.randrange(4), (self.address_of(one), self.chance.choice((45000, 45001)))
        more = attribute(25, b"c") if self.chance.random() < .3 else b""
        secret, authenticator = one["secret"].encode(), bytes(self.chance.randrange(256) for _ in range(16))
        if self.chance.random() < .5:
            place, octets = "auth", access_with_password(number, user, secret, authenticator)
        else:
            session = self.chance.choice((b"1", b"2", b"3"))
            body = attribute(32, one["nas_id"].encode()) + more
            place, octets = "acct", accounting(number, user, session, secret, self.chance.choice((1, 1, 1, 2, 3)), body)
        self.asked.append((place, source, octets))
        return self.give("a request", place, source, octets)

    def repeat(self):
        if not self.asked:
            return True
        return self.give("a request again", *self.chance.choice(self.asked[-6:]))

    def answer_to(self, it, link, octets, secret):
        """A reply to what was sent to a link, from there."""
        sent = packets.Packet(octets)
        code = {1: self.chance.choice((2, 3, 11)), 4: 5, 40: self.chance.choice((41, 42)), 43: 44}[sent.code]
        attributes = [(33, value) for value in sent.values(33)]
        attributes += [(80, packets.ZEROS)] if code in packets.ACCESS_REPLIES else []
        attributes += [(25, b"of a class")] if code in (2, 5) and self.chance.random() < .5 else []
        attributes += [(6, bytes([0, 0, 0, 1]))] if code == 2 and self.chance.random() < .3 else []
        attributes = packets.sealed(code, sent.id, sent.authenticator, attributes, secret)
        made = packets.text(code, sent.id, packets.md5(packets.text(code, sent.id, sent.authenticator, attributes), secret), attributes)
        place = f"out:{it.index}" + f":{link[2]}" * (link[2] > 0)
        return self.give("a reply", place, it.endpoint_of(link), made)

    def reply(self):
        if not self.waiting():
            return True
        it, entry = self.chance.choice(self.waiting())
        secret = it.secret_of(entry.link) if self.chance.random() < .85 else b"no secret"
        return self.answer_to(it, entry.link, entry.octets, secret)

    def late(self):
        """A reply to what was sent once, perhaps before a change."""
        known = [one for one in self.sent if one[0] in self.broker.realms]
        if not known:
            return True
        it, link, octets = self.chance.choice(known[-12:])
        return self.answer_to(it, link, octets, it.secret_of(link))

    def disconnect(self):
        having = [it for it in self.broker.realms if apart.listed(it.table.get("reverse"))]
        if not having:
            return True
        it = self.chance.choice(having)
        ip = self.chance.choice(HOMES)
        sender = self.broker.config.home_of(it.index, ip)
        secret = sender["secret"].encode() if sender else b"no secret"
        body = attribute(32, self.chance.choice((b"nas0", b"nas1", b"nas2"))) + attribute(44, self.chance.choice((b"1", b"2", b"3")))
        body += attribute(1, b"u@" + self.chance.choice(NAMES).encode()) if self.chance.random() < .4 else b""
        return self.give("a Disconnect", f"reverse:{it.index}", (ip, 40000), signed(40, self.chance.randrange(4), body, secret))

    def junk(self):
        if not self.asked:
            return True
        place, source, octets = self.chance.choice(self.asked[-6:])
        at = self.chance.randrange(len(octets))
        octets = octets[:at] + bytes([octets[at] ^ 1]) + octets[at + 1:]
        return self.give("a wrong bit", place, source, octets if self.chance.random() < .8 else octets[:self.chance.randrange(1, 20)])

    def change(self):
        if self.is_timed and not self.pass_time(3 * MARGIN):
            return False
        what, began = self.file.change(), self.now()
        answer = self.server.reload(self.file.text(), ("--lose",))
        self.done.append(f"-- {what}")
        if answer.returncode:
            want(False, f"seed {self.seed}: {what} is followed, and not: {answer.stdout[:300]}")
            return False
        self.broker.follow(apart.Config(self.file.text()))
        self.notes(self.now() - began)
        return self.look_at_refusals()

    def look_at_refusals(self):
        """All refusals so far, by their numbers."""
        counts = self.server.counts()
        found = {number: total(counts, "roam_refusals_total", number=number) for number in range(1, 30)}
        wanted = {number: self.refused[number] for number in range(1, 30)}
        differs = {number: (found[number], wanted[number]) for number in wanted if found[number] != wanted[number]}
        return self.looks(not differs, f"seed {self.seed}, after {self.done[-1]}: refused are, and should be: {differs}")

    def run(self):
        makes = (self.request, self.repeat, self.reply, self.late, self.disconnect, self.junk, self.change)
        for _ in range(EVENTS_IN_TIME if self.is_timed else EVENTS):
            if not self.chance.choices(makes, (34, 12, 26, 4, 8, 4, 12))[0]():
                return
        time.sleep(.1)
        extra = self.ends.taken(0)
        self.looks(extra == [] and self.look_at_refusals(), f"seed {self.seed}: nothing more comes, but {extra}")
        self.server.balances()


def held_above(play):
    """Where `max_pending` falls below what waits, and replies come then, more are held than may be pending: these go where it falls
    again, and not by a change of anything else."""
    for one in play.file.peers:
        one.update(require_seal=False, limit_proxy_state=False)
    for one in play.file.realms:
        one.update(max_pending=8, peer_share=None, share=None, accounting="forward", peers=None)
    nas, secret = play.file.peers[0]["ip"][0], play.file.peers[0]["secret"].encode()
    requests = [accounting(number, b"u@a.example", b"1", secret) for number in range(4)]

    def follow(**keys):
        for one in play.file.realms:
            one.update(keys)
        want(play.server.reload(play.file.text(), ("--lose",)).returncode == 0, f"{keys} is followed")
        play.broker.follow(apart.Config(play.file.text()))
        play.done.append(f"-- {keys}")

    def ask(what):
        for octets in requests:
            play.give(what, "acct", (nas, 45000), octets)
    follow(max_pending=8)
    ask("a request")
    follow(max_pending=2)
    for it, entry in play.waiting():
        play.answer_to(it, entry.link, entry.octets, it.secret_of(entry.link))
    ask("one whose reply is held")
    follow(max_sessions=3)
    ask("one whose reply is held above the limit")
    follow(max_pending=1)
    ask("one of which one is held")


def played_once(program, seed):
    """A play of a seed, which has ended."""
    with tempfile.TemporaryDirectory() as folder:
        play = Play(program, folder, seed)
        try:
            held_above(play) if seed == 1 else play.run()
        finally:
            play.server.__exit__()
            play.ends.close()
    return play


def main():
    program, *seeds = words(__doc__, 1, 99)
    go_on()
    be_quiet()
    begun, played, changes = time.monotonic(), 0, 0
    for seed in [int(it) for it in seeds] or SEEDS:
        if not seeds and time.monotonic() - begun > LIMIT and changes >= LEAST:
            break
        for _ in range(TIMES):
            play = played_once(program, seed)
            if not play.spoilt:
                break
            print(f"seed {seed} is spoilt, since something was held up for more than {MARGIN * 2 // 3} ms", flush=True)
        else:
            want(False, f"{TIMES} times spoilt, {play.spoilt}")
        played, changes = played + len(play.done), changes + sum(it.startswith("-- ") and "time passes" not in it for it in play.done)
    want(bool(seeds) or changes >= LEAST, f"{changes} changes are {LEAST} or more")
    print(f"{played} events, {changes} of them changes, in {time.monotonic() - begun:.0f} s")
    return end("each packet is as the broker written apart has it")


if __name__ == "__main__":
    sys.exit(main())
