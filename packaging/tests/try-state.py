#!/usr/bin/env python3
"""try-state.py PROGRAM [PART]

Serves two realms with `state` in the configuration, on loopback, and has the file of it meet what loses sessions. It fails unless

unreadable   a file that the disk doesn't give (EIO) is said in words, and stays under another name
forbidden    one that may be neither read nor renamed stays as it is for as long as the server runs, which is said once
renamed      where a realm has another name the start says how many sessions of how many it took up, and the file as it was stays
fewer        so too where `max_sessions` fell
all          where all are taken up no other file is left
special      a pipe, a device, a folder, a link and a file of more than 1 GiB end the start at once, with status 1 and their path
two          a second server with the same file ends at once so, also by a reload; not where the first was killed
end          a stop says that sessions are dropped only where no file has them
slow         while the disk takes 2 s for each sync, questions, a reload and requests are answered at once, it is said once that a
             writing is skipped, and the last one is waited for
hung         while it takes 30 s, the server ends by itself after 10 s, and says what is lost

Without strace the parts that need it are left out, by name.
"""
import importlib
import os
import re
import shutil
import subprocess
import sys
import tempfile
import time

sys.dont_write_bytecode = True
import server as servers
from looks import changed, end, want, words
from radius import HomeServer

told = importlib.import_module('try-restart')
NOBODY = 65534


class Server(told.Server):
    """A server that may be started by another program, and whose start may fail. What is edited in its file is an old and a new text."""

    def __init__(self, program, work):
        self.edits = []
        super().__init__(program, work, starts=False)
        self.state = os.path.join(work, 'kept', 'sessions')

    def text(self):
        text = super().text()
        for old, new in self.edits:
            text = changed(text, old, new)
        return text

    def write(self, text):
        super().write(text)
        os.chmod(self.conf, 0o644)

    def begin(self, *line):
        """Has a start begin, of which it may be that it fails."""
        self.write(self.text())
        servers.Server.start(self, *line)

    def start_by(self, *line):
        self.begin(*line, self.program, 'serve', self.conf)
        self.waits_for()

    def fails(self):
        """How a start ends that fails: its status and what it says; nothing where it goes on."""
        self.begin()
        status = self.ends(30)
        self.__exit__()
        return status, self.said()

    def asked(self, *order):
        """How a question ends: its status, what it prints, and after how many seconds."""
        before = time.monotonic()
        result = self.ctl(*order)
        return result.returncode, result.stdout + result.stderr, time.monotonic() - before

    def octets(self, more=''):
        with open(self.state + more, 'rb') as file:
            return file.read()


class Second(Server):
    """A second server, at other ports."""

    def text(self):
        told.PORT += 1000
        try:
            return super().text()
        finally:
            told.PORT -= 1000


def opened(server, count):
    sessions = told.Sessions()
    sessions.some(count)
    sessions.closed.clear()
    return sessions


def says_lost(said, sessions):
    """Whether it is said of each realm how many of its sessions are dropped at the end."""
    return all(f'realm {realm}: dropped: 0 waiting requests, {sum(1 for of, _, _ in sessions.open.values() if of == realm)} sessions'
               in said for realm in told.REALMS)


def kept(server, count=20):
    """Sessions that were open when a server was stopped, and the file of them."""
    server.start()
    sessions = opened(server, count)
    server.stop()
    return sessions, server.octets()


def comes_back(server, octets, sessions, what):
    """The file as it was, under its own name again, has all sessions."""
    with open(server.state, 'wb') as file:
        file.write(octets)
    server.start()
    sessions.are_disconnected(what)
    server.stop()


def try_unreadable(server):
    sessions, octets = kept(server)
    inject = ['-P', server.state, '-e', 'trace=openat,open', '-e', 'inject=openat,open:error=EIO:when=1']
    server.start_by('strace', '-f', '-qq', '-o', '/dev/null', *inject)
    server.stop()
    said = server.said()
    want(os.path.exists(server.state + '.old') and server.octets('.old') == octets, 'a file that the disk does not give stays')
    want(f'no session restored from {server.state}: Input/output error; the file is {server.state}.old now' in said, 'which is said')
    comes_back(server, octets, sessions, 'of that file')


def try_forbidden(server):
    sessions, octets = kept(server)
    folder = os.path.dirname(server.state)
    is_root = os.geteuid() == 0
    drop = ['setpriv', f'--reuid={NOBODY}', f'--regid={NOBODY}', '--clear-groups'] if is_root else []
    os.chmod(server.state, 0o600 if is_root else 0)
    os.chmod(folder, 0o755 if is_root else 0o555)
    if os.path.exists(server.state + '.lock'):
        os.remove(server.state + '.lock')
    server.start_by(*drop)
    time.sleep(2.5)
    more = opened(server, 4)
    server.stop()
    os.chmod(folder, 0o755)
    os.chmod(server.state, 0o600)
    said = server.said()
    want(server.octets() == octets, 'a file that may be neither read nor renamed stays as it is')
    want(said.count('Permission denied') == 1 and f'the file can\'t be renamed to {server.state}.old, so nothing is saved' in said,
         'which is said once')
    want(says_lost(said, more), 'and at the end it is said what is lost')
    comes_back(server, octets, sessions, 'of that file')


def try_renamed(server):
    sessions, octets = kept(server)
    of_b = sum(1 for realm, _, _ in sessions.open.values() if realm == 'b.example')
    told.REALMS[0] = 'c.example'
    server.realms = list(told.REALMS)
    server.start()
    server.stop()
    said = server.said()
    told.REALMS[0] = 'a.example'
    server.realms = list(told.REALMS)
    want(f'{of_b} of {len(sessions.open)} sessions restored from {server.state}' in said, 'it says how many it took up')
    want(f'the old file is {server.state}.old' in said and server.octets('.old') == octets, 'and keeps the file as it was')
    comes_back(server, octets, sessions, 'of that file under the old name')


def try_fewer(server):
    sessions, octets = kept(server)
    server.edits = [('tries = 2\n', 'tries = 2\nmax_sessions = 3\n')]
    server.start()
    server.stop()
    said, server.edits = server.said(), []
    want(f'6 of {len(sessions.open)} sessions restored from {server.state}' in said, 'where max_sessions fell that is said')
    want(f'the old file is {server.state}.old' in said and server.octets('.old') == octets, 'and the file as it was stays')
    comes_back(server, octets, sessions, 'of that file')


def try_all(server):
    sessions, octets = kept(server)
    server.start()
    server.stop()
    said = server.said()
    want(f'{len(sessions.open)} of {len(sessions.open)} sessions restored from {server.state}' in said, 'all are taken up')
    want(not os.path.exists(server.state + '.old') and 'the file as it was' not in said, 'and no other file is left')
    want(sorted(server.octets()) == sorted(octets), 'it holds them again')


def try_special(server):
    plain = server.state

    def large(path):
        with open(path, 'wb') as file:
            file.truncate((1 << 30) + 1)

    def link(path):
        with open(path + '.target', 'wb') as file:
            file.write(b'a target')
        os.symlink(path + '.target', path)
    for name, make, why in [('pipe', os.mkfifo, 'a pipe'), ('folder', os.mkdir, 'a folder'), ('link', link, 'a symbolic link'),
                            ('large', large, 'more than 1 GiB'), ('device', None, 'a device')]:
        server.state = os.path.join(server.folder, name) if make else '/dev/null'
        if make:
            make(server.state)
        status, said = server.fails()
        want(status == 1 and server.state in said and why in said, f'at {name} the start ends, and says so: {said.strip()[-120:]}')
    with open(os.path.join(server.folder, 'link.target'), 'rb') as file:
        want(file.read() == b'a target', 'what a link leads to stays')
    server.state = plain
    server.start()
    server.state = os.path.join(server.folder, 'pipe')
    server.write(server.text())
    status, said, _ = server.asked('reload')
    want(status == 1 and 'a pipe' in said, 'nor does a reload take one')
    server.state = plain
    server.stop()


def try_two(server):
    server.start()
    opened(server, 10)
    folder = os.path.join(server.folder, 'second')
    os.makedirs(os.path.join(folder, 'kept'))
    second = Second(server.program, folder)
    own, second.state = second.state, server.state
    status, said = second.fails()
    want(status == 1 and server.state in said and 'another server' in said, 'a second server with the file ends at once: ' + said.strip()[-120:])
    second.state = own
    second.start()
    second.state = server.state
    second.write(second.text())
    status, said, _ = second.asked('reload')
    want(status == 1 and server.state in said and 'another server' in said, 'so does a reload with it')
    server.process.kill()
    server.process.wait()
    want(second.asked('reload')[0] == 0, 'where the first was killed a reload takes it')
    second.stop()
    server.start()
    server.stop()


def try_end(server):
    server.start()
    opened(server, 10)
    server.stop()
    want('dropped' not in server.said(), 'an end says nothing of dropped sessions that the file has')
    server.edits = [(re.compile('^state.*\n', re.M), '')]
    server.start()
    sessions = opened(server, 10)
    server.stop()
    server.edits = []
    want(says_lost(server.said(), sessions), 'and says them where there is no file')
    state, server.state = server.state, os.path.join(server.folder, 'no', 'sessions')
    server.start()
    sessions = opened(server, 10)
    time.sleep(1)
    server.stop()
    said, server.state = server.said(), state
    want(f'sessions are not saved in {server.folder}/no/sessions: No such file or directory' in said, 'a fault is said in words')
    want(says_lost(said, sessions), 'and what is lost, at the end')


def strace(delay):
    # A filter has it stop the server at these calls alone: else it slows all others too.
    return ['strace', '-f', '--seccomp-bpf', '-qq', '-o', '/dev/null', '-e', 'trace=fsync', '-e', f'inject=fsync:delay_enter={delay}']


def try_slow(server):
    server.start_by(*strace(2_000_000))
    sessions = opened(server, 20)
    times = [server.asked('status')[2] for _ in range(4)]
    for _ in range(4):
        time.sleep(.5)
        times.append(server.asked('metrics')[2])
    status, _, took = server.asked('reload')
    want(status == 0, 'a reload is done')
    times.append(took)
    # One of them may be late by the machine; behind a sync they would wait two seconds and more.
    want(sorted(times)[-2] < 1.5, f'questions are answered at once: {max(times):.1f} s')
    more = opened(server, 4)
    before = time.monotonic()
    stop = subprocess.Popen([server.program, 'ctl', server.path, 'stop'], stdout=subprocess.DEVNULL)
    while 'asked to stop' not in server.said() and time.monotonic() < before + 20:
        time.sleep(.05)
    want(time.monotonic() < before + 1.5, f'so is a stop: {time.monotonic() - before:.1f} s')
    want(server.ends(60) == 0 and stop.wait(timeout=60) == 0,
         f'which waits for the last writing: {time.monotonic() - before:.1f} s')
    said = server.said()
    want(1 <= said.count('the disk is still busy with the save before') <= 2 and 'dropped' not in said,
         'a writing that is skipped is said once a minute, and again after a reload')
    server.start()
    sessions.open.update(more.open)
    sessions.are_disconnected('after that stop')
    server.stop()


def try_hung(server):
    server.start_by(*strace(30_000_000))
    sessions = opened(server, 10)
    time.sleep(.5)
    took = server.asked('stop')[2]
    time.sleep(.2)
    said = server.said()
    # strace itself waits for what it holds up.
    server.process.kill()
    want('ended after' in said and 9 < took < 16, f'a disk that hangs is waited for no longer than 10 s: {took:.1f} s')
    want('the disk took more than 10 s' in said and says_lost(said, sessions), 'and said')


STRACE = 'unreadable', 'slow', 'hung'
PARTS = 'unreadable', 'forbidden', 'renamed', 'fewer', 'all', 'special', 'two', 'end', 'slow', 'hung'


def main():
    program, *parts = words(__doc__, 1, 2)
    for at in range(2):
        HomeServer(told.HOME + at, told.SECRET)
        HomeServer(told.HOME + 100 + at, told.SECRET)
    for _, ip, secret, coa in told.PEERS:
        HomeServer(coa, secret, address=ip)
    for part in parts or PARTS:
        if part in STRACE and not shutil.which('strace'):
            print(f'left out: {part}, strace is not here')
            continue
        with tempfile.TemporaryDirectory() as work:
            os.chmod(work, 0o777)
            os.mkdir(os.path.join(work, 'kept'))
            before = time.monotonic()
            with Server(program, work) as server:
                globals()['try_' + part](server)
            print(f'{part}: {time.monotonic() - before:.1f} s', flush=True)
    return end()


if __name__ == '__main__':
    sys.exit(main())
