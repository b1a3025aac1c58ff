#!/usr/bin/env python3
"""try-calls.py PROGRAM [gate | CASE ..]

Has calls of the system fail beneath a server that strace(1) starts, on loopback, and looks whether it serves on: receives, sends, waits,
connections, writes of the log and of the state file, and what a start and a reload want of the system. Behind each fault all requests are
answered that are sent again as access servers do; what was lost is counted; the metrics balance, and the server stops with 0. With `gate`
those of CASES run that are marked for it, in less than a minute. It needs no root; where strace isn't installed or may not trace, it says
so, and nothing is tried. `try-calls.py PROGRAM help` prints the cases.
"""
import contextlib
import os
import re
import shutil
import signal
import subprocess
import sys
import tempfile
import time

sys.dont_write_bytecode = True
import radius
import server as servers
from looks import end, go_on, want
from radius import HERE, HomeServer, accounting, asked, attribute
from server import configuration, peer, places, realm

PORT, HOME, SECRET = 38512, 38612, b"a-secret-of-nas1"


class Server(servers.Server):
    """A server in which calls fail as these faults say (strace's `inject`), of all descriptors or of those of a path."""

    def __init__(self, program, folder, *faults, path=None, **keys):
        self.faults, self.only, self.calls = faults, path, os.path.join(folder, "calls")
        text = configuration(
            peer("nas1", nas_id="nas1", coa=f"{HERE}:{PORT + 5}"),
            realm("a.example", HOME, out=f"{HERE}:{PORT + 2}", reverse=f"{HERE}:{PORT + 3}", tries=5, wait=300, hold=5000, rest=0),
            shards=1, **places(PORT), metrics=f"{HERE}:{PORT + 4}", log_exchanges="none", **keys)
        super().__init__(program, folder, text)

    def start(self):
        names = ",".join(sorted({it.split(":")[0] for it in self.faults})) or "none"
        words = ["strace", "-f", "-qq", "-o", self.calls, "-e", f"trace={names}"]
        words += ["-P", self.only] if self.only else ["--seccomp-bpf"]
        super().start(*words, *(it for fault in self.faults for it in ("-e", f"inject={fault}")), self.program, "serve", self.conf)

    def injected(self):
        """How many calls failed by that."""
        with open(self.calls, encoding="utf-8", errors="replace") as file:
            return file.read().count("(INJECTED)")

    def count_of_calls(self):
        with open(self.calls, encoding="utf-8", errors="replace") as file:
            return len(re.findall(r"^\d+ +\w+\(", file.read(), re.M))

    def __exit__(self, *_):
        # What strace started outlives it.
        with contextlib.suppress(OSError, ProcessLookupError):
            with open(f"/proc/{self.process.pid}/task/{self.process.pid}/children", encoding="ascii") as file:
                for child in file.read().split():
                    os.kill(int(child), signal.SIGKILL)
        super().__exit__()


def answered(count=12, name=b"u%d"):
    return radius.answered(count, (HERE, PORT), 20, name + b"@a.example")


def session(number):
    """Whether an Accounting-Request of a session is answered."""
    packet = accounting(number, b"u@a.example", b"%d" % number, SECRET, body=attribute(32, b"nas1"))
    reply = asked(packet, (HERE, PORT + 1), seconds=1, times=6)
    return reply is not None and reply[0] == 5


def stops(server):
    """Has a server stop, behind metrics that balance. The thread that answers meets the fault too: it is asked again."""
    server.balances(30)
    asked_for, until = 0, time.monotonic() + 30
    while server.ends(.1) is None and time.monotonic() < until:
        server.ctl("stop", seconds=20)
        asked_for += 1
    want(server.ends(30) == 0, f"it is asked to stop {asked_for} times, and ends with {server.process.poll()}")


def serves(program, folder, *faults, least=1, **how):
    """Under these faults all requests are answered, and so many calls fail at least; they are over when it ends, or go on."""
    with Server(program, folder, *faults, **how) as server:
        want(server.is_asked(30), "it serves")
        done = answered()
        want(done == 12, f"{done} of 12 requests are answered")
        want(server.injected() >= least, f"{server.injected()} calls failed ({', '.join(faults)})")
        done = answered(12, b"v%d")
        want(done == 12, f"{done} of 12 more are")
        yield server
        stops(server)


def goes_on(program, folder, *faults, **how):
    for _ in serves(program, folder, *faults, **how):
        pass


# Receives and sends

def receive_interrupted(program, folder):
    """every second receive is interrupted"""
    goes_on(program, folder, "recvfrom:error=EINTR:when=1+2")


def receive_without_memory(program, folder):
    """every third receive finds no memory"""
    goes_on(program, folder, "recvfrom:error=ENOMEM:when=1+3")


def receive_refused(program, folder):
    """every third receive tells that somebody's port is closed"""
    goes_on(program, folder, "recvfrom:error=ECONNREFUSED:when=1+3")


def receive_fails(program, folder):
    """forty receives in a row fail"""
    goes_on(program, folder, "recvfrom:error=EIO:when=5..44", least=40)


def receive_given_up(program, folder):
    """every receive fails: a socket for which there is word is given up after a hundred, a second, and the server ends with 1 and says so"""
    with Server(program, folder, "recvfrom:error=EIO:when=1+") as server:
        server.waits_for()
        begun = time.monotonic()
        reply, status = asked(radius.access(1, b"u@a.example"), (HERE, PORT), seconds=.1), server.ends(20)
        seconds, said = time.monotonic() - begun, server.said().strip().splitlines()[-1:]
        want(reply is None and status == 1 and said == ["roam: receive failed"], f"it ends with {status}: {said}")
        want(.99 <= seconds and server.injected() == 100, f"after {seconds:.1f} s and {server.injected()} receives")


def send_without_room(program, folder):
    """every second send finds no room"""
    goes_on(program, folder, "sendto:error=EAGAIN:when=1+2")


def send_long_without_room(program, folder):
    """forty sends in a row find no room"""
    goes_on(program, folder, "sendto:error=EAGAIN:when=3..42", least=40)


def send_without_buffers(program, folder):
    """every third of forty sends finds no buffer"""
    goes_on(program, folder, "sendto:error=ENOBUFS:when=1..40+3")


def send_not_permitted(program, folder):
    """some sends may not be made: each lost packet is counted, and told"""
    for server in serves(program, folder, "sendto:error=EPERM:when=20..31", least=12):
        lost = server.count("roam_lost_packets_total", cause="not_permitted")
        want(lost == server.injected(), f"{lost} packets are counted as lost, of {server.injected()}")
        want(server.tells("packets lost since the system does not permit them"), "and it is told")


# Waits and connections

def wait_interrupted(program, folder):
    """every second wait for sockets is interrupted"""
    goes_on(program, folder, "epoll_wait:error=EINTR:when=1+2")


def wait_without_memory(program, folder):
    """waits for sockets find no memory, fifty in a row"""
    goes_on(program, folder, "epoll_wait:error=ENOMEM:when=2..51")


def poll_interrupted(program, folder):
    """every second wait for connections is interrupted"""
    goes_on(program, folder, "poll:error=EINTR:when=1+2", least=0)


def connection_fails(program, folder):
    """three connections in a row are broken off before they are taken"""
    goes_on(program, folder, "accept4:error=EPROTO:when=2..4", least=0)


def connection_without_buffers(program, folder):
    """two connections find no buffer: it pauses, says so, and is asked again"""
    for server in serves(program, folder, "accept4:error=ENOBUFS:when=2..3", least=0):
        want(server.ctl("status", seconds=20).returncode == 0, "it is asked how it stands")


def watch_fails(program, folder):
    """a socket without room can't be watched either: each exchange goes on, within five seconds"""
    count = calls_of_a_start(program, folder, "epoll_ctl")
    for _ in serves(program, folder, "sendto:error=EAGAIN:when=1+2", f"epoll_ctl:error=ENOSPC:when={count + 1}+"):
        longest = 0
        for number in range(5):
            begun = time.monotonic()
            reply = asked(radius.access(number, b"w%d@a.example" % number), (HERE, PORT), seconds=6)
            longest = max(longest, time.monotonic() - begun) if reply else 99
        want(longest < 5, f"the slowest of five exchanges took {longest:.3f} s")


# Files

def log_blocks(program, folder):
    """every second write of the log would block"""
    goes_on(program, folder, "write:error=EAGAIN:when=1+2", path=os.path.join(folder, "roam.log"), least=0)


def log_fails(program, folder):
    """no line of the log can be written"""
    with Server(program, folder, "write:error=EIO:when=1+", path=os.path.join(folder, "roam.log")) as server:
        want(server.is_asked(30) and answered() == 12, "it serves, and answers 12 of 12")
        stops(server)


def keeps(program, folder, fault):
    """A state file that can't be written for a while: that is told, the one before stays, and the next writing has all."""
    state = os.path.join(folder, "sessions")
    with Server(program, folder, fault, state=state, state_every=1) as server:
        want(server.is_asked(30) and session(1), "a session begins")
        until = time.monotonic() + 10
        while not (told := re.search(r"WARN .*" + re.escape(state) + ".*", server.said())) and time.monotonic() < until:
            time.sleep(.1)
        want(told, f"it is told: {told and told[0]}")
        want(session(2) and answered() == 12, "another one begins, and 12 of 12 requests are answered")
        until = time.monotonic() + 10
        while time.monotonic() < until and not os.path.exists(state):
            time.sleep(.1)
        stops(server)
        want(server.injected() > 0, f"{server.injected()} calls failed ({fault})")
    want(os.path.exists(state) and not os.path.exists(state + ".new"), "the file is there, and none is left beside it")
    with Server(program, folder, state=state, state_every=1) as server:
        want(server.is_asked(30) and server.count("roam_realm_sessions") == 2, "both sessions are known after a start")


def sync_fails(program, folder):
    """the state file can't be synced, twice"""
    keeps(program, folder, "fsync:error=EIO:when=1..2")


def rename_fails(program, folder):
    """the state file can't be put into its place, twice"""
    keeps(program, folder, "rename:error=EROFS:when=1..2")


# A start and a reload

STARTS = ["epoll_create1:error=EMFILE", "eventfd2:error=EMFILE", "socket:error=EMFILE", "bind:error=EACCES", "epoll_ctl:error=ENOSPC",
          "clone,clone3:error=EAGAIN", "getrandom:error=ENOSYS"]


def start_fails(program, folder):
    """what a start wants of the system isn't had: it ends with 1, or where its threads would start with 3, and says why"""
    for fault in STARTS:
        with Server(program, folder, *(f"{name}:{fault.partition(':')[2]}:when=1+" for name in fault.split(":")[0].split(","))) as server:
            status, said = server.ends(10), server.said().strip().splitlines()[-1:]
            want(status in (1, 3) and said and said[0].startswith("roam: "), f"{fault}: it ends with {status}: {said}")


def calls_of_a_start(program, folder, name):
    """How often a start makes a call."""
    with Server(program, folder, f"{name}:delay_enter=0") as server:
        server.is_asked(30)
        count = server.count_of_calls()
        server.ctl("stop")
        server.ends(30)
    return count


def reload_fails(program, folder):
    """what a reload wants of the system isn't had, once: it is declined, the old file goes on, and the next reload is done"""
    for name, error in (("epoll_create1", "EMFILE"), ("eventfd2", "EMFILE"), ("epoll_ctl", "ENOSPC")):
        count = calls_of_a_start(program, folder, name)
        with Server(program, folder, f"{name}:error={error}:when={count + 1}") as server:
            want(server.is_asked(30) and answered() == 12, f"{name}: 12 of 12 are answered")
            reload = server.ctl("reload")
            want(reload.returncode == 1 and reload.stdout.startswith("roam: "), f"the reload ends with {reload.returncode}: {reload.stdout.strip()}")
            want(server.injected() == 1, f"{server.injected()} call failed")
            want(answered(12, b"v%d") == 12, "12 of 12 more are answered")
            reload = server.ctl("reload")
            want(reload.returncode == 0 and answered(12, b"w%d") == 12, f"another reload ends with {reload.returncode}, and 12 more are answered")
            stops(server)


GATE = [receive_interrupted, receive_without_memory, receive_fails, receive_given_up, send_without_room, send_without_buffers, send_not_permitted,
        wait_interrupted, connection_fails, sync_fails, rename_fails, start_fails, reload_fails]
CASES = [*GATE, watch_fails, receive_refused, send_long_without_room, wait_without_memory, poll_interrupted, connection_without_buffers, log_blocks, log_fails]


def may_trace():
    return shutil.which("strace") and subprocess.run(["strace", "-f", "--seccomp-bpf", "-o", "/dev/null", "true"], capture_output=True,
                                                     check=False).returncode == 0


def main():
    names = {case.__name__: case for case in CASES}
    if sys.argv[2:] == ["help"]:
        for name, case in names.items():
            print(f"{name:28} {case.__doc__}")
        return 0
    if len(sys.argv) < 2 or not os.access(sys.argv[1], os.X_OK) or not set(sys.argv[2:]) <= {"gate", *names}:
        print(__doc__, file=sys.stderr)
        return 2
    if not may_trace():
        print("not tried: strace isn't here, or may not trace")
        return 0
    go_on()
    HomeServer(HOME, b"a-secret-of-home")
    HomeServer(HOME + 1, b"a-secret-of-home")
    chosen = [case for case in CASES if case.__name__ in sys.argv[2:]] or (GATE if sys.argv[2:] == ["gate"] else CASES)
    for case in chosen:
        begun = time.monotonic()
        print(f"{case.__name__}: {case.__doc__}", flush=True)
        with tempfile.TemporaryDirectory() as folder:
            try:
                case(os.path.realpath(sys.argv[1]), folder)
            except (OSError, ValueError, IndexError, subprocess.SubprocessError) as error:
                want(False, f"{type(error).__name__}: {error}")
        print(f"     {time.monotonic() - begun:.1f} s", flush=True)
    return end()


if __name__ == "__main__":
    sys.exit(main())
