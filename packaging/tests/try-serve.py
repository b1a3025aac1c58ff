#!/usr/bin/env python3
"""try-serve.py PROGRAM

Serves on loopback, with the access server and the home server as sockets of this process, and looks at every octet and count of worked
exchanges: accounting, and Access after datagrams that are refused, on both sides of steps that are let go of, over sockets that workers
share; packets that can't be sent, and more of them at once than a ring holds; seeds that are drawn; ports that are taken, and too few
descriptors; what the log says of refusals, of NAKs and of requests that nobody answers. The packets follow the formulas of RFC 2865 and
RFC 2866, computed apart from the program, with a seed of zeros.
"""
import collections
import contextlib
import errno
import os
import re
import resource
import signal
import sys
import tempfile
import time

sys.dont_write_bytecode = True
from looks import be_quiet, end, want, words
from radius import HERE, access, accounting as accounting_request, answer, attribute, bound, drained, heard, sealed_answer, signed
from server import Server, configuration, peer, places, realm, run, total

AUTH, ACCT, HOME, COA, OUT, REVERSE, CLIENT = 38112, 38113, 38212, 38299, 38120, 38130, 38250
Exchange = collections.namedtuple("Exchange", "to request forwarded reply returned")


def exchange(to, *packets):
    return Exchange(to, *map(bytes.fromhex, packets))


# A Start of session 01 of `u@a.example`.
START = "0405002b40d7b5a889c55fa9032ba5d6be378f2e010d7540612e6578616d706c652806000000012c043031"
ACCOUNTING = exchange(
    ACCT, START, "040000358df41562121fde074fa4a8b4ea7c9990010d7540612e6578616d706c652806000000012c043031210a0000000000000000",
    "0500001ea1e81fcd91eda44683d85e49b2655719210a0000000000000000", "050500144511dc97de8dbcfd887f32eb5da70447")
# An Access-Request with the password `arctangent`, hidden as in RFC 2865, section 7.1, and an Access-Accept.
ACCESS = exchange(
    AUTH, "010000330f403f9473978057bd83d5cb98f4227a010d7540612e6578616d706c6502120dbe708d93d413ce3196e43f782a0aee",
    "0100004f76b8e0ada0f13d90405d6ae55386bd28501212f877c76f316bc2989ae8084d62ea71010d7540612e6578616d706c6502"
    "1255ad289725d543f1222c39d6fdd73965210a0000000000000000",
    "02000014587721fffdf1e67e5c4a017c8010c243", "02000026134f4ca467a2eda4402b4785511e0d7150120a7bc8350fccc4a9e8c3b8bc189a1a94")
# That Start as the second request of its realm.
LEDGER = exchange(
    ACCT, START, "040000352aeba7c298db14787dfa38b427081472010d7540612e6578616d706c652806000000012c043031210a0000000000000001",
    "0500001e05a53ee6f74c18647a9e4a0a9395870a210a0000000000000001", "050500144511dc97de8dbcfd887f32eb5da70447")
# An Access-Request without a password, as the third request of its realm and the second one that draws random words.
SECOND_ACCESS = exchange(
    AUTH, "010800210f403f9473978057bd83d5cb98f4227a010d7540612e6578616d706c65",
    "0101003dbdd219b8a08ded1aa836efcc8b770dc75012f80f86e019a8ffd0b6f8194448cbc0b0010d7540612e6578616d706c65210a0000000000000002",
    "0201001429de5ba5772cb71a556b2673a9719d82", "020800260081fb6866e6e363dfd16e7cbae370155012905a5bee1f7ff48ab87dee672e47f0f3")
# A Start of session 02, as the fourth one.
SECOND_ACCOUNTING = exchange(
    ACCT, "0406002bd4f6ff59c488553629a103e82cf9b778010d7540612e6578616d706c652806000000012c043032",
    "040100354217f58540cdf97dab923fc3cb57b820010d7540612e6578616d706c652806000000012c043032210a0000000000000003",
    "0501001e5ca57422e7069aa1a227ffacf6e31b18210a0000000000000003", "05060014ce20f4bd7e71f443f1f155490c3e75e6")
# A Disconnect-Request for session 01, which the home server asks, as the fifth one, and its ACK.
DISCONNECT = exchange(
    REVERSE, "2822001e98737cc5f650778d9e25e78d8098ea9320066e6173312c043031",
    "280000287b4d3e3698b3ba0d17420d0e4dd6376820066e6173312c043031210a0000000000000004",
    "2900001444feba630c3b2acb67f29fb09ef52b1d", "29220014ee78078a9673d6f504abd593c1f6f6c1")
# An Access-Request that was sent to a first server, as it goes to the second.
FAILED_OVER = exchange(
    AUTH, "010700210f403f9473978057bd83d5cb98f4227a010d7540612e6578616d706c65",
    "0100003dbdd219b8a08ded1aa836efcc8b770dc7501263b2b93c497b170de1612df394684216010d7540612e6578616d706c65210a0000000000000000",
    "020000148034478972818bad66fed431c539fbdd", "0207002663b4188897218caa4e019396fe99bd77501235b1261a281ed41068725b83296f5f9d")

# Datagrams of one octet again and again: where they go, the octet, their size, and the number of their refusal. Of the octet 4 a packet
# has Length 1,028, code 4, and 252 attributes of four octets; of the octet 1 its first attribute has Length 1.
HOSTILE = [(AUTH, 0, 0, 1), (ACCT, 0, 19, 1), (AUTH, 0, 20, 2), (REVERSE, 255, 65507, 2), (AUTH, 1, 257, 3), (OUT, 4, 1028, 4),
           (AUTH, 4, 1028, 5), (REVERSE, 4, 1028, 5), (ACCT, 4, 1028, 6), (ACCT, 4, 65507, 6)]


class Ends:
    """The sockets of the access server and of the home server."""

    def __init__(self):
        self.client, self.home, self.acct_home, self.coa = (bound(port, seconds=.1) for port in (CLIENT, HOME, HOME + 1, COA))

    def close(self):
        for it in (self.client, self.home, self.acct_home, self.coa):
            it.close()

    def complete(self, it):
        """Sends the request until the reply is returned."""
        # The home server has the client's address, and asks from any port of it.
        home = {AUTH: self.home, ACCT: self.acct_home, REVERSE: self.coa}[it.to]
        for _ in range(50):
            self.client.sendto(it.request, (HERE, it.to))
            packet, source = heard(home)
            if packet is not None:
                want(packet == it.forwarded, f"the home server hears {packet.hex()}, not {it.forwarded.hex()}")
                home.sendto(it.reply, source)
            packet, source = heard(self.client)
            if packet is not None:
                want((packet, source) == (it.returned, (HERE, it.to)), f"{source} returns {packet.hex()}, not {it.returned.hex()}")
                return
        want(False, f"the exchange of {it.request.hex()} isn't completed")

    def alone(self, it):
        """An exchange, and what else comes of a request that was sent more than once."""
        self.complete(it)
        while heard(self.client)[0] is not None:
            pass

    def repeat(self, it):
        """Sends a request that was answered again, until the reply that is held is returned."""
        for _ in range(50):
            self.client.sendto(it.request, (HERE, it.to))
            packet, _ = heard(self.client)
            if packet is not None:
                want(packet == it.returned, f"the client hears {packet.hex()}, not {it.returned.hex()}")
                return
        want(False, "no reply is held")


def named(identifier, letter="a"):
    """An Access-Request of a realm's user."""
    return access(identifier, f"u@{letter}.example".encode(), b"", authenticator=b"Z" * 16)


def text_of(letters="a", shards=1, limit=1000000, tries=2, wait=1000, hold=5000, servers=(HERE,), rest=0, **more):
    of_home = [{"auth": f"{it}:{HOME}", "acct": f"{it}:{HOME + 1}", "secret": "h1"} for it in servers]
    realms = [realm(f"{letter}.example", *of_home, out=f"{HERE}:{OUT + number}", reverse=f"{HERE}:{REVERSE + number}", tries=tries,
                    wait=wait, hold=hold, max_pending=300, max_sessions=100, rest=rest, rest_after=1)
              for number, letter in enumerate(letters)]
    nas = peer("nas1", secret="xyzzy5461", coa=f"{HERE}:{COA}", nas_ip="192.0.2.1", nas_id="nas1")
    return configuration(nas, *realms, shards=shards, seed="0" * 64, **places(AUTH), trace_limit=limit, **more)


def steps_of(server):
    """How many steps it recorded until it ended, and how often it let go of some: it is audited."""
    found = server.waits_for(r"ended after (\d+) steps, history cleared (\d+) times: audited")
    return int(found[1]), int(found[2])


@contextlib.contextmanager
def served(program, *words, options=("--seed-of-file",), **keys):
    """A server, its two ends, and its end, which is audited."""
    with tempfile.TemporaryDirectory() as folder, Server(program, folder, text_of(**keys), *words, options=options) as server:
        ends = Ends()
        try:
            server.waits_for()
            yield server, ends
            if server.process.poll() is None and not words:
                server.stop()
        finally:
            ends.close()


def accounting(program):
    """The worked exchange; a second server beside the first has no port; the time ends the server."""
    begin = time.monotonic()
    with served(program, "12000") as (server, ends):
        ends.complete(ACCOUNTING)
        counts = server.counts()
        for who in ("realm", "server", "peer"):
            for name, code in (("forwarded", "accounting_request"), ("returned", "accounting_response")):
                want(total(counts, f"roam_{who}_{name}_total", code=code) == 1, f"roam_{who}_{name}_total isn't 1")
        second = run(program, "serve", "--seed-of-file", server.conf)
        want(second[0] == 1 and "roam: cannot " in second[2], f"a second server is declined: {second}")
        server.balances()
        want(server.ends(60) == 0 and time.monotonic() - begin >= 12, "it ends at its time")
        steps, times = steps_of(server)
        want(steps <= 100 and times == 0, f"a server at rest stores {steps} steps")


def hostile(program):
    """An Access exchange after datagrams that are refused: they take no ticket, no Identifier and no random words."""
    with served(program) as (server, ends):
        for _ in range(3):
            for to, octet, size, _ in HOSTILE:
                ends.client.sendto(bytes([octet]) * size, (HERE, to))
                time.sleep(.02)
        wanted = {number: 3 * count for number, count in collections.Counter(row[3] for row in HOSTILE).items()}
        for _ in range(400):
            counts = server.counts()
            found = {number: total(counts, "roam_refusals_total", number=number) for number in wanted}
            if found == wanted:
                break
            time.sleep(.05)
        want(found == wanted, f"refused are {found}, not {wanted}")
        where = [total(counts, "roam_peer_refusals_total", number=6), total(counts, "roam_realm_refusals_total", number=4)]
        want(where == [6, 3], f"refusals aren't counted where they are: {where}")
        server.waits_for(r"refused 6 \w+ at acct from 127\.0\.0\.1:\d+ \(peer nas1\)")
        ends.complete(ACCESS)


def steps_let_go(program):
    """Requests on both sides of steps that are let go of: tickets, Identifiers and random words go on, a reply that is held answers its
    duplicates, and a session is known that began before."""
    with served(program, limit=20) as (server, ends):
        ends.alone(ACCESS)
        ends.alone(LEDGER)
        for _ in range(100):
            ends.repeat(ACCESS)
        while heard(ends.client)[0] is not None:
            pass
        ends.alone(SECOND_ACCESS)
        ends.alone(SECOND_ACCOUNTING)
        ends.alone(DISCONNECT)
        want(server.count("roam_history_let_go_total") >= 5, "it isn't counted how often steps are let go of")
        server.stop()
        want(steps_of(server)[1] >= 5, f"steps are let go of {steps_of(server)[1]} times")


def spread(program):
    """Sockets of its own for each worker: the system deals the clients out."""
    with served(program, letters="ab", shards=2, spread=True) as (_, ends):
        for number in range(1, 17):
            client = bound(CLIENT + number, seconds=.1)
            for _ in range(50):
                client.sendto(named(number), (HERE, AUTH))
                packet, source = heard(ends.home)
                if packet is not None:
                    ends.home.sendto(answer(2, packet, b"h1"), source)
                packet, source = heard(client)
                if packet is not None:
                    break
            client.close()
            want(packet is not None and packet[:2] == bytes([2, number]) and source == (HERE, AUTH), f"{source} returns {packet}")


def unreachable(program):
    """What can't be sent is lost, and after its wait the request goes to the next server."""
    with served(program, tries=1, servers=("255.255.255.255", HERE)) as (server, ends):
        ends.complete(FAILED_OVER)
        want(server.count("roam_lost_packets_total", cause="not_permitted") > 0, "a packet that can't be sent isn't counted")
        server.waits_for(r"packets lost since the system does not permit them")


def no_way(program):
    """A packet without a way to its server: the line names that server. It is looked at where this machine has no such way."""
    with contextlib.closing(bound()) as probe:
        try:
            probe.sendto(b"", ("198.51.100.7", HOME))
            return
        except OSError as error:
            if error.errno not in (errno.ENETUNREACH, errno.EHOSTUNREACH):
                return
    with served(program, tries=1, servers=("198.51.100.7", HERE)) as (server, ends):
        ends.complete(FAILED_OVER)
        server.waits_for(rf"packets lost since their destination is unreachable, as 198\.51\.100\.7:{HOME}\n")


def late(seconds):
    """A Disconnect-Request whose Event-Timestamp is so many seconds from now."""
    stamp = attribute(55, int(time.time() + seconds).to_bytes(4, "big"))
    return signed(40, 1, attribute(32, b"nas1") + attribute(44, b"01") + stamp, b"h1")


def hints():
    """Datagrams that are refused, one second after the other: who sends them, where they go, and what the line says."""
    nas = b"xyzzy5461"
    yield [(HERE, ACCT, bytes([4, 1, 0, 28]) + bytes(16) + bytes([1, 3, 97, 32, 7, 97, 97, 97]),
            r"3 BadAttribute at acct .* \(peer nas1\): the Length of an attribute is wrong: its type is 32"),
           ("127.0.0.2", AUTH, named(1), r"4 UnknownSource at auth from 127\.0\.0\.2:\d+: no \[\[peer\]\] has this address"),
           (HERE, AUTH, accounting_request(1, b"u@a.example", b"1", nas),
            r"5 WrongCode at auth .* \(peer nas1\): code 4 \(Accounting-Request\): accounting goes to acct"),
           (HERE, ACCT, named(1), r"5 WrongCode at acct .* code 1 \(Access-Request\): logins go to auth"),
           (HERE, ACCT, accounting_request(2, b"u@c.example", b"1", nas),
            r"9 NoRealm at acct .* \(peer nas1\): no realm has the name c\.example"),
           (HERE, REVERSE, late(-1000),
            r"29 Stale at reverse:0 \(a\.example\) .* its Event-Timestamp is 1[01]\d\d s behind the clock here")]
    yield [(HERE, AUTH, signed(12, 1, b"", nas), r"5 WrongCode at auth .* code 12 \(Status-Server\): set status_server = true"),
           (HERE, ACCT, signed(40, 1, b"", nas), r"5 WrongCode at acct .* code 40 \(Disconnect or CoA\): it goes to a realm's reverse"),
           (HERE, ACCT, signed(4, 3, attribute(40, bytes([0, 0, 0, 7])), nas),
            r"9 NoRealm at acct .*: no User-Name: for Accounting-On and -Off set answer_unnamed = true"),
           (HERE, OUT, named(1), r"4 UnknownSource at out:0 .*: no home server of this realm, and no coa of a peer, has this address and port"),
           (HERE, REVERSE, late(2000), r"29 Stale at reverse:0 .* its Event-Timestamp is (199\d|2000) s ahead of the clock here")]
    yield [(HERE, ACCT, accounting_request(4, b"u", b"1", nas), r"9 NoRealm at acct .*: its User-Name names no realm")]
    yield [(HERE, ACCT, accounting_request(5, b"u@\x1b[2J.example", b"1", nas), r"9 NoRealm at acct .*: its realm is not printable")]


def told(program):
    """What is usually wrong where something is refused, and what of the datagram shows it; the Error-Cause of a NAK, of the broker's own
    and of one that an access server gives."""
    with served(program, fresh=300) as (server, ends), contextlib.closing(bound(address="127.0.0.2")) as stranger:
        for second in hints():
            for who, to, packet, _ in second:
                (stranger if who != HERE else ends.client).sendto(packet, (HERE, to))
            for *_, line in second:
                server.waits_for(f"WARN refused {line}\\n")
        ends.home.sendto(signed(40, 7, attribute(32, b"nas1") + attribute(44, b"unknown"), b"h1"), (HERE, REVERSE))
        server.waits_for(r"result=nak request=disconnect .* tries=0 .*error_cause=503 cause=session_context_not_found\n")
        ends.home.sendto(signed(40, 8, attribute(32, b"nas1") + attribute(1, b"u@a.example") + attribute(44, b"x"), b"h1"), (HERE, REVERSE))
        ends.coa.settimeout(10)
        packet, source = heard(ends.coa)
        want(packet is not None, "an order comes to the access server")
        ends.coa.sendto(sealed_answer(42, packet, b"xyzzy5461", [(101, (506).to_bytes(4, "big"))]), source)
        server.waits_for(r"result=nak request=disconnect .* tries=1 .*error_cause=506 cause=resources_unavailable\n")


def silent(program):
    """Of a request that nobody answers it is told whether its server ever did: by its line, by the server's, in the status and by what the
    alert goes by."""
    with served(program, tries=1, wait=1500, hold=0, rest=30000) as (server, ends):
        ends.client.sendto(named(1), (HERE, AUTH))
        server.waits_for(r'result=given_up .* why=never_answered .*hint="wrong secret on either side, wrong port, or this proxy is not')
        server.waits_for(rf"home server {HERE}:{HOME} of a\.example never answered: marked dead\. Wrong secret on either side")
        for order in ((), ("--problems",)):
            printed = server.ctl("status", *order).stdout
            want(re.search(rf"auth +{HERE}:{HOME} +a\.example +never answered \(1\)", printed), f"the status {order} says so: {printed}")
        want(server.count("roam_server_given_up_total", f"{HERE}:{HOME}") == 1 and server.count("roam_server_replies_total", f"{HERE}:{HOME}") == 0,
             "given up, and no reply")
        drained(ends.home)
        ends.client.sendto(named(2), (HERE, AUTH))
        ends.home.settimeout(10)
        packet, source = heard(ends.home)
        ends.home.sendto(answer(2, packet, b"h1"), source)
        server.waits_for(r"result=accept ")
        server.waits_for(rf"home server {HERE}:{HOME} of a\.example answers again")
        ends.client.sendto(named(3), (HERE, AUTH))
        server.waits_for(r"result=given_up .* why=stopped_answering\n")
        server.waits_for(rf"home server {HERE}:{HOME} of a\.example stopped answering: marked dead")
        want(re.search(rf"auth +{HERE}:{HOME} +a\.example +dead for \d+ s more", server.ctl("status", "--problems").stdout), "and that it rests")


def forwarded(ends, clients):
    """256 requests of each realm, and what the home server hears of them."""
    found = {}
    for number, letter in enumerate(clients):
        for first in range(0, 256, 32):
            for _ in range(50):
                for identifier in range(first, first + 32):
                    clients[letter].sendto(named(identifier, letter), (HERE, AUTH))
                for packet, source in drained(ends.home):
                    found[source[1], packet[1]] = (packet, source)
                if len(found) == 256 * number + first + 32:
                    break
    want(len(found) == 256 * len(clients), f"{len(found)} requests are forwarded")
    return list(found.values())


def crowd(program):
    """More packets at once than a ring holds: 1,280 requests are due at one tick, while the server was stopped; then 1,280 replies wait at
    its sockets, while it was stopped again. None is lost."""
    with contextlib.ExitStack() as opened:
        clients = {letter: opened.enter_context(bound(CLIENT + 1 + number, seconds=.1)) for number, letter in enumerate("abcde")}
        server, ends = opened.enter_context(served(program, letters="abcde", tries=10, wait=20000, hold=60000))
        replies = [(answer(2, packet, b"h1"), source) for packet, source in forwarded(ends, clients)]
        os.kill(server.process.pid, signal.SIGSTOP)
        time.sleep(21)
        os.kill(server.process.pid, signal.SIGCONT)
        want(drained(ends.home, 10), "no tick sends anything")
        os.kill(server.process.pid, signal.SIGSTOP)
        for reply, source in replies:
            ends.home.sendto(reply, source)
        os.kill(server.process.pid, signal.SIGCONT)
        waiting = {(letter, identifier) for letter in clients for identifier in range(256)}
        for _ in range(50):
            for letter, client in clients.items():
                waiting -= {(letter, packet[1]) for packet, _ in drained(client) if packet[0] == 2}
            if not waiting:
                break
            # What a socket had no room for the kernel dropped: it is sent again, and asked for again.
            for reply, source in replies:
                ends.home.sendto(reply, source)
                time.sleep(.0002)
            for letter, identifier in waiting:
                clients[letter].sendto(named(identifier, letter), (HERE, AUTH))
        want(not waiting, f"{len(waiting)} replies are lost")
        counts = server.counts()
        want(total(counts, "roam_lost_packets_total") == 0, "packets are lost")
        want(total(counts, "roam_realm_sent_again_total") >= 1280, "what is sent again isn't counted")


def drawn(program):
    """The first Request Authenticator that a server draws is neither that of the file's seed, nor one of another server."""
    seen = {ACCESS.forwarded[4:20]}
    for _ in range(2):
        with served(program, options=()) as (_, ends):
            for _ in range(50):
                ends.client.sendto(ACCESS.request, (HERE, AUTH))
                packet, _ = heard(ends.home)
                if packet is not None:
                    break
            want(packet is not None and packet[4:20] not in seen, "two servers draw the same")
            seen.add(packet[4:20])


def refused(program):
    """A port that is taken, and too few descriptors: it says so, and ends with 1."""
    with tempfile.TemporaryDirectory() as folder:
        with contextlib.closing(bound(REVERSE)), Server(program, folder, text_of()) as server:
            want(server.ends(60) == 1, "with a port that is taken it ends with 1")
            want(f"roam: cannot bind {HERE}:{REVERSE}: Address already in use\n" in server.said(), "and says which")
        few = run(program, "serve", server.conf, preexec_fn=lambda: resource.setrlimit(resource.RLIMIT_NOFILE, (8, 8)))
        want(few[0] == 1 and re.search(r"^roam: too few file descriptors: \d+ wanted$", few[2], re.M), f"few descriptors: {few}")


def main():
    [program] = words(__doc__)
    be_quiet()
    for row in (accounting, hostile, steps_let_go, spread, unreachable, no_way, told, silent, crowd, drawn, refused):
        row(program)
        print(f"{row.__name__}: as it should be", flush=True)
    return end()


if __name__ == "__main__":
    sys.exit(main())
