#!/usr/bin/env python3
"""try-faults.py PROGRAM [CASE ..]

Has what stands beside a server fail, on loopback and in folders of its own, and looks whether the server serves on: a
terminal or a pipe that nobody reads, a disk that is full, a path of the control socket that is something else or somebody
else's, a process without a descriptor or a thread left, an answer of `roam ctl` that is cut. Each case is bounded in time and prints
`ok` or `BAD` for each thing that it wants; the status is 1 where one is bad. It needs no root. `try-faults.py PROGRAM help`
prints the cases.
"""
import contextlib
import ctypes
import os
import pty
import re
import resource
import select
import signal
import socket
import stat
import subprocess
import sys
import tempfile
import threading
import time

sys.dont_write_bytecode = True
import radius
import server as servers
from looks import changed, end, go_on, want
from radius import HERE, HomeServer
from server import configuration, peer, processor_time, realm

PORT, METRICS, HOME = 37120, 37180, 37220


def answered(count, patience=8.0, name=b'u%d'):
    """How many of so many Access-Requests are answered."""
    return radius.answered(count, (HERE, PORT), patience, name + b'@a.example')


class Server(servers.Server):
    """A server of one realm, whose standard error is this, or a file that is read."""

    def __init__(self, program, work, stderr=None, port=PORT, name='one', path=True, metrics=METRICS, limit=100000, nofile=None, shards=1,
                 user=None):
        text = configuration(
            peer('nas1'), realm('a.example', HOME, out=f'{HERE}:{port + 20}', reverse=f'{HERE}:{port + 30}', tries=2, wait=2000, hold=1000,
                                max_pending=4096, max_sessions=100),
            shards=shards, seed='0' * 64, auth=f'{HERE}:{port}', acct=f'{HERE}:{port + 10}', trace_limit=limit,
            metrics=f'{HERE}:{metrics}' if metrics else None)
        how = {'stderr': stderr} if stderr is not None else {}
        how |= {'preexec_fn': lambda: resource.setrlimit(resource.RLIMIT_NOFILE, (nofile, nofile))} if nofile else {}
        how |= {'user': user, 'group': user, 'extra_groups': []} if user else {}
        super().__init__(program, work, text, name=name, control=path, **how)

    def ctl(self, *order, seconds=12, path=None):
        return super().ctl(*order, seconds=seconds, path=path)

    def last(self):
        """The last line that it told, or nothing."""
        return (self.said().strip().splitlines() or [''])[-1]

    def is_stopped(self, what='`ctl stop`', balances=True):
        """Has it stop, within a minute, behind metrics that balance."""
        if balances:
            self.balances()
        begin = time.monotonic()
        stop, status = self.ctl('stop', seconds=60), self.ends(5)
        took = time.monotonic() - begin
        want(stop.returncode == 0 and status == 0, f'{what} ends with {stop.returncode}, the server with {status}, after {took:.1f} s')
        return took


def try_log(program, work, stderr, close=()):
    """Serves 3,000 exchanges, a reload, 50 more, and a stop, while nobody reads what is told."""
    with Server(program, work, stderr) as server:
        for fd in close:
            os.close(fd)
        want(server.is_asked(), 'it serves')
        first = answered(3000)
        want(first == 3000, f'{first} of 3000 exchanges are answered')
        begin = time.monotonic()
        reload = server.ctl('reload')
        want(reload.returncode == 0, f'a reload ends with {reload.returncode} after {time.monotonic() - begin:.1f} s')
        more = answered(50, 4)
        want(more == 50, f'{more} of 50 are answered after it')
        want(server.is_stopped() < 8, 'within 8 s')


def log_terminal(program, work):
    """a terminal that nobody reads"""
    master, slave = pty.openpty()
    try:
        try_log(program, work, slave)
    finally:
        os.close(slave)
        os.close(master)


def log_pipe(program, work):
    """a pipe that nobody reads"""
    read, write = os.pipe()
    try:
        try_log(program, work, write)
    finally:
        os.close(read)
        os.close(write)


def log_full(program, work):
    """a disk that is full"""
    full = os.open('/dev/full', os.O_WRONLY)
    try:
        try_log(program, work, full)
    finally:
        os.close(full)


def log_dead(program, work):
    """a pipe without a reader: what isn't written isn't counted as told"""
    read, write = os.pipe()
    with Server(program, work, write) as server:
        os.close(write)
        os.close(read)
        want(server.is_asked(), 'it serves')
        first = answered(12000)
        want(first == 12000, f'{first} of 12000 exchanges are answered')
        time.sleep(1.5)
        dropped = server.count('roam_exchange_lines_lost_total', cause='dropped')
        want(dropped > 1000, f'{dropped} lines are counted as dropped')
        server.is_stopped()


def log_again(program, work):
    """a terminal that is read again after a while: the lines come, in order, and how many found no room"""
    master, slave = pty.openpty()
    try:
        with Server(program, work, slave) as server:
            want(server.is_asked(), 'it serves')
            first = answered(3000)
            want(first == 3000, f'{first} of 3000 exchanges are answered')
            text, end = b'', time.monotonic() + 5
            while time.monotonic() < end and b'u2999@' not in text:
                if select.select([master], [], [], .1)[0]:
                    text += os.read(master, 65536)
            users = [int(user) for user in re.findall(rb'user="?u(\d+)@', text)]
            want(len(users) == 3000 and sorted(users) == list(range(3000)), f'{len(users)} lines of 3000 come when it is read')
            server.balances()
            stop = server.ctl('stop', seconds=60)
            while select.select([master], [], [], .3)[0]:
                try:
                    text += os.read(master, 65536)
                except OSError:
                    break
            want(stop.returncode == 0 and b'audited' in text and server.ends(5) == 0, 'and the last line at the end')
    finally:
        os.close(slave)
        os.close(master)


def is_declined(program, work, path, what):
    """A server whose control socket can't be had ends with 1, and says which path."""
    with Server(program, work, path=path, name='declined', port=PORT, metrics=METRICS) as server:
        status, last = server.ends(3), server.last()
        want(status == 1 and path in last and last.startswith('roam: '), f'{what}: it ends with {status}: {last}')


def control_file(program, work):
    """`control` names a regular file, a link, a folder: each stays, and is declined"""
    file, link, folder = (os.path.join(work, name) for name in ('file', 'link', 'folder'))
    with open(file, 'w') as it:
        it.write('precious\n')
    os.symlink(file, link)
    os.mkdir(folder)
    is_declined(program, work, file, 'a regular file')
    want(os.path.exists(file) and open(file).read() == 'precious\n', 'the file stays')
    is_declined(program, work, link, 'a link to it')
    want(os.path.islink(link) and os.path.exists(file), 'the link and the file stay')
    is_declined(program, work, folder, 'a folder')
    want(os.path.isdir(folder), 'the folder stays')
    is_declined(program, work, os.path.join(work, 'nowhere', 'socket'), 'a folder that is missing')


def control_foreign(program, work):
    """a path at which another program listens, and a link to a socket"""
    path, link = os.path.join(work, 'foreign'), os.path.join(work, 'foreign-link')
    with socket.socket(socket.AF_UNIX) as foreign:
        foreign.bind(path)
        foreign.listen(8)
        is_declined(program, work, path, 'a socket of another program')
        want(stat.S_ISSOCK(os.lstat(path).st_mode), 'it stays')
    os.symlink(path, link)
    is_declined(program, work, link, 'a link to a socket that was left behind')
    want(os.path.islink(link) and os.path.exists(path), 'link and socket stay')


def control_left(program, work):
    """a socket that a killed server left behind is taken over"""
    with Server(program, work) as killed:
        want(killed.is_asked(), 'it serves')
        killed.process.send_signal(signal.SIGKILL)
        killed.process.wait()
        want(os.path.exists(killed.path), 'it leaves its socket behind')
    with Server(program, work) as server:
        want(server.is_asked(), 'the next one serves')
        server.is_stopped()
        want(not os.path.exists(server.path), 'and takes its socket away at its end')


def control_two(program, work):
    """two servers at one path"""
    with Server(program, work) as first:
        want(first.is_asked(), 'the first serves')
        with Server(program, work, port=PORT + 5, name='two', path=first.path, metrics=None) as second:
            want(second.ends(3) == 1 and first.path in second.said(), f'the second declines: {second.last()}')
        want(first.ctl('status').returncode == 0, 'and the first is still asked')
        os.unlink(first.path)
        with Server(program, work, port=PORT + 5, name='two', path=first.path, metrics=None) as second:
            want(second.is_asked(), 'where the socket of the first is gone, the second serves there')
            first.process.send_signal(signal.SIGTERM)
            first.process.wait()
            want(second.ctl('status').returncode == 0, 'it is asked')
    with Server(program, work) as first:
        want(first.is_asked(), 'again, with an end by its time')
    conf, path = os.path.join(work, 'timed.conf'), os.path.join(work, 'timed.control')
    with open(first.conf) as file, open(conf, 'w') as other:
        other.write(changed(file.read(), 'one.control', 'timed.control'))
    timed = subprocess.Popen([program, 'serve', conf, '2000'], stderr=subprocess.DEVNULL)
    time.sleep(1)
    os.unlink(path)
    with Server(program, work, port=PORT + 5, name='two', path=path, metrics=None) as second:
        want(second.is_asked(), 'a second serves where the socket of the first is gone')
        want(timed.wait(10) == 0, 'the first ends by its time')
        want(os.path.exists(path) and second.ctl('status').returncode == 0, "and leaves the second's socket")


def descriptors_none(program, work):
    """no descriptor is left: it waits, and says so"""
    # With fewer than 17 the wait for connections itself fails (poll(2), EINVAL).
    with Server(program, work, shards=4) as server:
        want(server.is_asked(), 'it serves')
        used = {int(fd) for fd in os.listdir(f'/proc/{server.process.pid}/fd')}
        held = min(set(range(len(used) + 1)) - used)
        before = resource.prlimit(server.process.pid, resource.RLIMIT_NOFILE)
        resource.prlimit(server.process.pid, resource.RLIMIT_NOFILE, (held, before[1]))
        idle = []
        for _ in range(3):
            one = socket.create_connection((HERE, METRICS))
            other = socket.socket(socket.AF_UNIX)
            other.connect(server.path)
            idle += [one, other]
        time.sleep(.5)
        begun = processor_time(server.process.pid)
        time.sleep(3)
        used = processor_time(server.process.pid) - begun
        want(used < .3, f'{used / 3 * 100:.0f} % of a processor over 3 s')
        want(answered(100) == 100, 'requests are answered')
        lines = [line for line in server.said().splitlines() if 'connection' in line and 'WARN' in line]
        want(len(lines) == 2, f'it says so, once for each of the two: {lines[:2]}')
        resource.prlimit(server.process.pid, resource.RLIMIT_NOFILE, before)
        for one in idle:
            one.close()
        server.is_stopped()


def descriptors_count(program, work):
    """with as many descriptors as it says that it wants, it starts, takes 32 connections and reloads"""
    with Server(program, work, nofile=11) as server:
        status, words = server.ends(3), server.last().split()
        want(status == 1 and 'wanted' in words, f'with 11: {server.last()}')
    wanted = int(words[words.index('wanted') - 1]) if 'wanted' in words else 20
    with Server(program, work, nofile=wanted) as server:
        want(server.is_asked(), f'with {wanted} it serves')
        idle = []
        for _ in range(16):
            one = socket.create_connection((HERE, METRICS))
            other = socket.socket(socket.AF_UNIX)
            other.connect(server.path)
            idle += [one, other]
        time.sleep(.3)
        reload = server.ctl('reload')
        want(reload.returncode == 0, f'a reload beside 32 connections ends with {reload.returncode}: {reload.stdout[-80:]} {reload.stderr[-80:]}')
        for one in idle:
            one.close()
        server.is_stopped()


def limit_threads(pid, count, user):
    """Has a process of a user find no room for a thread more than so many of that user's."""
    who = {'user': user, 'group': user, 'extra_groups': []} if user else {}
    subprocess.run(['prlimit', f'--pid={pid}', f'--nproc={count}:'], check=True, **who)


def thread_user(work):
    """Who runs a server whose threads are limited: the limit doesn't hold for root."""
    if os.geteuid():
        return None
    os.chown(work, 65534, 65534)
    return 65534


def lift_limit(pid, user):
    most = resource.getrlimit(resource.RLIMIT_NPROC)[1]
    limit_threads(pid, 'unlimited' if most == resource.RLIM_INFINITY else most, user)


def threads_none(program, work):
    """no thread can be started at a reload: it is declined, and all goes on"""
    user = thread_user(work)
    with Server(program, work, user=user) as server:
        want(server.is_asked(), 'it serves')
        want(answered(50) == 50, '50 exchanges are answered')
        limit_threads(server.process.pid, 1, user)
        reload = server.ctl('reload')
        want(reload.returncode == 1 and reload.stdout == 'roam: cannot start a thread\n', f'the reload ends with {reload.returncode}: {reload.stdout}')
        more = answered(50, name=b'v%d')
        want(more == 50, f'{more} of 50 more are answered under the limit')
        want(server.ctl('status').returncode == 0, 'it is asked how it stands')
        lift_limit(server.process.pid, user)
        reload = server.ctl('reload')
        want(reload.returncode == 0, f'a reload without the limit ends with {reload.returncode}: {reload.stdout[-60:]}')
        steps = server.count('roam_history_steps_total', outcome='stored')
        want(steps >= 200, f'what it counted goes on: {steps} steps')
        limit_threads(server.process.pid, 1, user)
        server.is_stopped('under the limit `ctl stop`')


def ptrace(request, thread):
    """ptrace(2), of a thread."""
    system = ctypes.CDLL(None, use_errno=True)
    if system.ptrace(ctypes.c_long(request), ctypes.c_long(thread), None, None) < 0:
        raise OSError(ctypes.get_errno(), f'ptrace {request:#x}')


def reload_without_threads(server, user):
    """Begins a reload that finds no room for a thread when the old ones have ended: the last one is held until then."""
    seize, interrupt, detach, every_thread = 0x4206, 0x4207, 17, 0x40000000
    before = [int(thread) for thread in os.listdir(f'/proc/{server.process.pid}/task')]
    timer = max(before)
    ptrace(seize, timer)
    ptrace(interrupt, timer)
    os.waitpid(timer, every_thread)
    reload = subprocess.Popen([server.program, 'ctl', server.path, 'reload'], stdout=subprocess.PIPE, stderr=subprocess.STDOUT, text=True)
    end = time.monotonic() + 8
    while len(os.listdir(f'/proc/{server.process.pid}/task')) >= len(before) and time.monotonic() < end:
        time.sleep(.02)
    limit_threads(server.process.pid, 1, user)
    ptrace(detach, timer)
    return reload


def threads_gone(program, work):
    """no thread can be started when the old ones have ended: it keeps what it has, says why, is asked and stopped, and serves on"""
    user = thread_user(work)
    with Server(program, work, user=user) as server:
        want(server.is_asked(), 'it serves')
        want(answered(50) == 50, '50 exchanges are answered')
        reload = reload_without_threads(server, user)
        said = reload.communicate(timeout=20)[0]
        want(reload.returncode == 1 and said.startswith('roam: cannot start a thread\n') and 'trying again' in said,
             f'the reload ends with {reload.returncode}: {said}')
        status = server.ctl('status')
        want(status.returncode == 1 and status.stdout.startswith('roam: cannot start a thread\n'), f'`status` says so: {status.stdout}')
        want('trying again' in server.said(), f'the log too: {server.last()}')
        lift_limit(server.process.pid, user)
        more = answered(50, name=b'v%d')
        want(more == 50, f'{more} of 50 more are answered once it can')
        want('reload: the file is served' in server.said(), 'it says that the file is served')
        steps = server.count('roam_history_steps_total', outcome='stored')
        want(steps >= 200, f'what it counted goes on: {steps} steps')
        server.balances()
        reload_without_threads(server, user).communicate(timeout=20)
        server.is_stopped('where none can be started `ctl stop`', balances=False)


def steps_of(text):
    return len(re.findall(r'^[AT] ', text if isinstance(text, str) else text.decode(), re.M))


def trace_slow(program, work):
    """a trace whose reader stops for 7 seconds in the middle is whole; one of `ctl` is, or it says that it isn't"""
    with Server(program, work) as server:
        want(server.is_asked(), 'it serves')
        want(answered(6000) == 6000, '6000 exchanges are answered')
        with socket.socket(socket.AF_UNIX) as one:
            one.connect(server.path)
            one.settimeout(20)
            one.send(b'GET /trace?shard=0 HTTP/1.1\r\nHost: roam\r\nConnection: close\r\n\r\n')
            text = one.recv(4096)
            time.sleep(7)
            with contextlib.suppress(OSError):
                while part := one.recv(1 << 16):
                    text += part
        head, _, body = text.partition(b'\r\n\r\n')
        lengths = [int(line.split(b':')[1]) for line in head.lower().split(b'\r\n') if line.startswith(b'content-length')]
        want(lengths == [len(body)] and steps_of(body) >= 12000, f'{steps_of(body)} of some 12000 steps, {len(body)} of {lengths} octets')
        want(answered(6000, name=b'v%d') == 6000, '6000 more are answered')
        read, write = os.pipe()
        one = subprocess.Popen([program, 'ctl', server.path, 'trace', '0'], stdout=write, stderr=subprocess.PIPE)
        os.close(write)
        time.sleep(.05)
        one.send_signal(signal.SIGSTOP)
        time.sleep(7)
        one.send_signal(signal.SIGCONT)
        text = b''
        while part := os.read(read, 1 << 16):
            text += part
        os.close(read)
        status, said = one.wait(20), one.stderr.read()[-60:]
        want(status == 0 and steps_of(text) >= 12000 or status == 1 and said, f'`ctl`: {steps_of(text)} of some 12000 steps, status {status} {said}')
        server.is_stopped()


def says_missing(server, what):
    """Whether a trace says that some 12,000 steps before it are missing, or has them."""
    answer = server.ctl('trace', '0')
    missing = re.match(r'# (\d+) steps before these are missing', answer.stdout)
    holds = answer.returncode == 0 and (steps_of(answer.stdout) >= 12000 or missing and int(missing[1]) >= 12000)
    return holds, f'{what}: {steps_of(answer.stdout)} steps, status {answer.returncode}, begins with {answer.stdout[:60]}'


def trace_killed(program, work):
    """`ctl trace` that is killed in the middle: the next one says what is missing"""
    with Server(program, work) as server:
        want(server.is_asked(), 'it serves')
        want(answered(6000) == 6000, '6000 exchanges are answered')
        one = socket.socket(socket.AF_UNIX)
        one.connect(server.path)
        one.send(b'GET /trace?shard=0 HTTP/1.1\r\nHost: roam\r\nConnection: close\r\n\r\n')
        first = one.recv(4096)
        one.close()
        time.sleep(.3)
        want(first.startswith(b'HTTP/1.1 200'), 'a trace is begun, and the one who asked goes away')
        want(*says_missing(server, 'the second'))
        third = server.ctl('trace', '0')
        want(third.returncode == 0 and not third.stdout.startswith('#'), f'a third has nothing missing: {third.stdout[:60]}')
        want(answered(6000, name=b'v%d') == 6000, '6000 more are answered')
        read, write = os.pipe()
        with subprocess.Popen([program, 'ctl', server.path, 'trace', '0'], stdout=write) as one:
            os.close(write)
            time.sleep(1)
            one.kill()
        os.close(read)
        time.sleep(.3)
        # It has read all but the last octet by then, which it takes when all is printed.
        want(*says_missing(server, 'where `roam ctl` is killed while nobody reads what it prints, the next one'))
        third = server.ctl('trace', '0')
        want(third.returncode == 0 and not third.stdout.startswith('#'), f'what it printed whole is taken: {third.stdout[:60]}')
        server.is_stopped()


@contextlib.contextmanager
def foreign_server(path, answer):
    """Somebody else's server, which gives this answer."""
    with socket.socket(socket.AF_UNIX) as listener:
        listener.bind(path)
        listener.listen(8)

        def serve():
            while True:
                try:
                    one, _ = listener.accept()
                except OSError:
                    return
                with one, contextlib.suppress(OSError):
                    asked = b''
                    while b'\r\n\r\n' not in asked and (part := one.recv(4096)):
                        asked += part
                    one.sendall(answer)
        threading.Thread(target=serve, daemon=True).start()
        yield
        listener.close()
    os.unlink(path)


def ctl(program, path, *order):
    return subprocess.run([program, 'ctl', path, *order], capture_output=True, timeout=30)


def answer_cut(program, work):
    """an answer that is cut"""
    path = os.path.join(work, 'cut')
    with foreign_server(path, b'HTTP/1.1 200 OK\r\nContent-Length: 1000\r\n\r\nhalf of it\n'):
        cut = ctl(program, path, 'trace', '0')
        want(cut.returncode == 1 and b'answer cut' in cut.stderr and cut.stdout == b'half of it\n', f'status {cut.returncode}: {cut.stderr}')
    with foreign_server(path, b'HTTP/1.1 200 OK\r\n\r\nno length\n'):
        cut = ctl(program, path, 'status')
        want(cut.returncode == 1, f'without a length: status {cut.returncode}: {cut.stderr}')
    with foreign_server(path, b'HTTP/1.1 200 OK\r\ncontent-type: text/plain\r\ncontent-length: 6\r\n\r\nwhole\n'):
        whole = ctl(program, path, 'status')
        want(whole.returncode == 0 and whole.stdout == b'whole\n', f'a whole one: status {whole.returncode}: {whole.stdout}')


def answer_foreign(program, work):
    """control characters of a foreign answer don't reach the terminal"""
    path = os.path.join(work, 'foreign')
    body = b'a\x1b]0;owned\x07b\x9b31mc\r\xc2\x9b0md\tend\n'
    for status in (b'200 OK', b'409 Conflict'):
        with foreign_server(path, b'HTTP/1.1 ' + status + b'\r\nContent-Length: %d\r\n\r\n' % len(body) + body):
            got = ctl(program, path, 'status')
            raw = [one for one in got.stdout + got.stderr if (one < 32 and one not in (9, 10)) or 126 < one < 160]
            want(not raw and b'end' in got.stdout, f'{status.decode()}: {got.stdout}')


def scrape_whole(program, work):
    """idle connections, more than may be open, don't cut a scrape"""
    with Server(program, work) as server:
        want(server.is_asked(), 'it serves')
        whole, cut, none, stop = 0, 0, 0, threading.Event()

        def crowd():
            while not stop.is_set():
                some = []
                for _ in range(20):
                    with contextlib.suppress(OSError):
                        some.append(socket.create_connection((HERE, METRICS), .2))
                time.sleep(.02)
                for one in some:
                    one.close()
        threading.Thread(target=crowd, daemon=True).start()
        end = time.monotonic() + 10
        while time.monotonic() < end:
            # A connection that isn't even taken counts as none of these.
            with contextlib.suppress(TimeoutError), socket.create_connection((HERE, METRICS), 3) as one:
                text = b''
                with contextlib.suppress(ConnectionError):
                    one.sendall(b'GET /metrics HTTP/1.1\r\nHost: roam\r\nConnection: close\r\n\r\n')
                    while part := one.recv(4096):
                        text += part
                head, _, body = text.partition(b'\r\n\r\n')
                lengths = [int(line.split(b':')[1]) for line in head.lower().split(b'\r\n') if line.startswith(b'content-length')]
                whole += lengths == [len(body)]
                none += not text
                cut += bool(text) and lengths != [len(body)]
        stop.set()
        want(whole > 5 and cut == 0 and none * 100 <= whole, f'{whole} scrapes are whole, {cut} are cut, {none} made way before a word')
        server.is_stopped()


CASES = [log_terminal, log_pipe, log_full, log_dead, log_again, control_file, control_foreign, control_left, control_two,
         descriptors_none, descriptors_count, threads_none, threads_gone, trace_slow, trace_killed, answer_cut, answer_foreign, scrape_whole]


def main():
    names = {case.__name__: case for case in CASES}
    if sys.argv[2:] == ['help']:
        for name, case in names.items():
            print(f'{name:18} {case.__doc__}')
        return 0
    if len(sys.argv) < 2 or not os.access(sys.argv[1], os.X_OK) or not set(sys.argv[2:]) <= set(names):
        print('usage: try-faults.py PROGRAM [CASE ..], where a CASE is one of', *names, file=sys.stderr)
        return 2
    go_on()
    HomeServer(HOME, b'a-secret-of-home')
    for name in sys.argv[2:] or names:
        print(f'{name}: {names[name].__doc__}', flush=True)
        with tempfile.TemporaryDirectory() as work:
            try:
                names[name](os.path.realpath(sys.argv[1]), work)
            except (OSError, ValueError, IndexError, subprocess.SubprocessError) as error:
                want(False, f'{type(error).__name__}: {error}')
    return end()


if __name__ == '__main__':
    sys.exit(main())
