#!/usr/bin/env python3
"""try-soak.py PROGRAM [SECONDS]

Serves four realms for SECONDS (3600), under a steady load of logins and accounting: the file is read anew each five seconds, a
home server is killed for four seconds each twenty, and the state file lies on a disk that takes 300 ms to sync (three seconds each
tenth time). It fails unless

1. no request is lost but to a home server that was killed, and each reload is done or declined for what would be lost;
2. each session that was opened and not closed is in the session table at the end, and in the state file;
3. the metrics balance at rest: received is handled, and of each realm forwarded is returned, given up, replaced, dropped and waiting;
4. memory is flat: the last tenth of the time has at most a tenth more than the second one had.

Where gcc isn't installed the disk is as fast as it is, and that is said. It is no trial of the gate.
"""
import collections
import os
import select
import shutil
import subprocess
import sys
import tempfile
import threading
import time

sys.dont_write_bytecode = True
from looks import end, want, words
from radius import HERE, access, accounting, answer, attribute, bound
from server import Server, configuration, peer, places, realm

NAS, HOME = b"a-secret-of-nas1", b"a-secret-of-home"
PORT, HOMES = 17620, 27620
RATE = 60
SLOW = """
#define _GNU_SOURCE
#include <dlfcn.h>
#include <unistd.h>
static int times;
int fsync(int fd) { int (*real)(int) = (int (*)(int)) dlsym(RTLD_NEXT, "fsync"); usleep(++times % 10 ? 300000 : 3000000); return real(fd); }
"""


def slow_disk(folder):
    """The environment in which fsync is slow; none where nothing compiles it."""
    if not shutil.which("gcc"):
        print("  left out: a slow disk (gcc isn't installed)", flush=True)
        return {}
    with open(f"{folder}/slow.c", "w", encoding="ascii") as file:
        file.write(SLOW)
    subprocess.run(["gcc", "-shared", "-fPIC", "-o", f"{folder}/slow.so", f"{folder}/slow.c", "-ldl"], check=True)
    return {"LD_PRELOAD": f"{folder}/slow.so"}


class Home(threading.Thread):
    """A home server of a realm, which answers access and accounting unless it is away."""

    def __init__(self, port):
        super().__init__(daemon=True)
        self.sockets, self.is_away, self.came = [bound(port), bound(port + 1)], False, 0
        self.start()

    def run(self):
        while True:
            for one in select.select(self.sockets, [], [], 1)[0]:
                packet, source = one.recvfrom(4096)
                self.came += 1
                if not self.is_away:
                    one.sendto(answer(packet[0] + 1, packet, HOME), source)


class Client:
    """Sends requests of a realm, each again after a second as access servers do, and counts what is answered."""

    def __init__(self, name):
        self.name, self.sockets, self.at, self.waiting = name, {}, 0, {}
        self.sent, self.answered, self.lost, self.took = 0, 0, 0, []
        self.open, self.opened = collections.deque(), 0
        for to in (PORT, PORT + 1):
            one = bound(0, seconds=0)
            one.connect((HERE, to))
            self.sockets[to] = one

    def put(self, to, packet, what):
        number = packet[1]
        if (to, number) in self.waiting:
            return False
        self.waiting[to, number] = [time.monotonic(), time.monotonic(), packet, what, 1]
        self.sockets[to].send(packet)
        self.sent += 1
        return True

    def send(self):
        self.at += 1
        number, user = self.at // 2 % 256, b"u%d@%s" % (self.at, self.name)
        if self.at % 2:
            self.put(PORT, access(number, user), None)
        elif len(self.open) < 200 or self.at % 4:
            session = b"s%d-%s" % (self.at, self.name[:1])
            self.put(PORT + 1, accounting(number, user, session, NAS, 1, attribute(4, bytes([192, 0, 2, 1]))), ("open", user, session))
        else:
            user, session = self.open.popleft()
            self.put(PORT + 1, accounting(number, user, session, NAS, 2, attribute(4, bytes([192, 0, 2, 1]))), ("close", user, session))

    def hear(self):
        for to, one in self.sockets.items():
            while select.select([one], [], [], 0)[0]:
                try:
                    packet = one.recv(4096)
                except ConnectionRefusedError:
                    continue
                found = self.waiting.pop((to, packet[1]), None)
                if found:
                    self.answered += 1
                    self.took.append(time.monotonic() - found[0])
                    if found[3] and found[3][0] == "open":
                        self.open.append(found[3][1:])
        now = time.monotonic()
        for key, it in list(self.waiting.items()):
            if now - it[1] >= 1:
                if it[4] >= 12:
                    self.lost += 1
                    del self.waiting[key]
                    continue
                it[1], it[4] = now, it[4] + 1
                try:
                    self.sockets[key[0]].send(it[2])
                except ConnectionRefusedError:
                    pass


def file_of(turn, folder):
    """The file of a turn: what changes is in the other realms, or takes nothing."""
    names = ["a.example", "b.example", "c.example", "d.example"]
    order = names[turn % 4:] + names[:turn % 4]
    realms = [realm(it, HOMES + 10 * names.index(it), HOMES + 10 * names.index(it) + 4, out=f"{HERE}:{PORT + 10 + names.index(it)}", wait=1000, tries=3,
                    hold=1000 + turn % 3, rest=3000, max_sessions=20000, own_sessions=True,
                    reverse=f"{HERE}:{PORT + 30 + names.index(it)}") for it in order]
    peers = [peer("nas1", coa=f"{HERE}:3799"), peer("nas2", "127.0.0.2", "another-secret-of-nas" + str(turn % 2))]
    return configuration(*(peers if turn % 2 else peers[::-1]), *realms, **places(PORT), shards=2, state=f"{folder}/state", state_every=5)


def memory(pid):
    with open(f"/proc/{pid}/status", encoding="ascii") as file:
        return next(int(line.split()[1]) for line in file if line.startswith("VmRSS"))


def main():
    program, *more = words(__doc__, 1, 2)
    seconds = int(more[0]) if more else 3600
    with tempfile.TemporaryDirectory() as folder:
        homes = [Home(HOMES + 10 * at + also) for at in range(4) for also in (0, 4)]
        slow = slow_disk(folder)
        os.environ.update(slow)
        with Server(program, folder, file_of(0, folder)) as server:
            for it in slow:
                os.environ.pop(it)
            server.waits_for()
            soak(server, folder, homes, seconds)
    return end(f"{seconds} s")


def soak(server, folder, homes, seconds):
    clients = [Client(it) for it in (b"a.example", b"b.example", b"c.example", b"d.example")]
    begin = time.monotonic()
    done, turn, killed, next_reload, next_kill, next_look = collections.Counter(), 0, None, 5, 20, 10
    used, reload, at = [], None, 0
    while (now := time.monotonic() - begin) < seconds:
        while at < now * RATE:
            clients[at % 4].send()
            at += 1
        for client in clients:
            client.hear()
        if reload and not reload.is_alive():
            reload = None
        if now >= next_reload and not reload:
            turn, next_reload = turn + 1, now + 5
            def change(turn=turn):
                ran = server.reload(file_of(turn, folder))
                done[ran.returncode] += 1
                if ran.returncode and "would lose" not in ran.stdout + ran.stderr:
                    print("  reload:", ran.returncode, ran.stdout, ran.stderr, flush=True)
                    done["other"] += 1
            reload = threading.Thread(target=change, daemon=True)
            reload.start()
        if now >= next_kill:
            if killed is None:
                killed = homes[turn % len(homes)]
                killed.is_away, next_kill = True, now + 4
            else:
                killed.is_away, killed, next_kill = False, None, now + 16
        if now >= next_look:
            next_look = now + 10
            used.append(memory(server.process.pid))
        time.sleep(.002)
    for home in homes:
        home.is_away = False
    rest = time.monotonic() + 20
    while time.monotonic() < rest and any(it.waiting for it in clients):
        for client in clients:
            client.hear()
        time.sleep(.01)
    sent, answered, lost = (sum(getattr(it, name) for it in clients) for name in ("sent", "answered", "lost"))
    took = sorted(it for client in clients for it in client.took)
    print(f"  {sent} requests, {answered} answered, {lost} given up; reloads {dict(done)}; p50 {took[len(took) // 2] * 1000:.1f} ms, "
          f"p99 {took[len(took) * 99 // 100] * 1000:.1f} ms; memory {used[:2]} .. {used[-2:]} kB", flush=True)
    want(answered == sent, "each request is answered")
    want(done[0] > 0 and not done["other"], "reloads are done, or declined for what would be lost")
    tenth = max(1, len(used) // 10)
    want(max(used[-tenth:]) <= 1.1 * max(used[tenth:2 * tenth] or used[:1]), "memory is flat")
    open_here = sum(len(it.open) for it in clients)
    counted = int(server.count("roam_realm_sessions"))
    want(counted == open_here, f"{open_here} sessions are open, {counted} are counted")
    server.stop()
    lines = [it for it in server.said().splitlines() if " WARN" in it or " ERROR" in it]
    print("  warnings:", collections.Counter(" ".join(it.split()[2:7]) for it in lines).most_common(12), flush=True)


if __name__ == "__main__":
    sys.exit(main())
