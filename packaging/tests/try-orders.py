#!/usr/bin/env python3
"""try-orders.py PROGRAM [CASE ..]

Gives orders through control sockets, on loopback and in folders of its own, and looks at what comes of them: of one whose asker
has gone by then, of one to a process without a descriptor left, of a trace behind a reload that turned realms about; what is said
of a path that has a line feed; and how long a server serves that is given a time. The cases run side by side, in some 40 seconds.
Each prints `ok` or `BAD` for each thing that it wants; the status is 1 where one is bad. It needs no root, and strace for
`time_served`. `try-orders.py PROGRAM help` prints the cases.
"""
import contextlib
import ctypes
import os
import re
import resource
import select
import shutil
import signal
import socket
import subprocess
import sys
import tempfile
import threading
import time

sys.dont_write_bytecode = True
import looks
from looks import end, go_on
from radius import HERE, access, bound
from server import Server, configuration, peer, places, realm

ROAM_RUN = os.path.join(os.path.dirname(os.path.realpath(__file__)), '..', 'installed', 'roam-run')
PRINTING = threading.Lock()


def want(holds, what):
    """Looks at one thing of a case; they run side by side."""
    with PRINTING:
        looks.want(holds, f'{threading.current_thread().name}: {what}')


def text_of(port, realms='a', **top):
    """A file with these realms in this order. A realm has the same endpoints wherever it stands."""
    tables = [realm(f'{name}.example', home_of(port, name), out=f'{HERE}:{port + 10 + ord(name) - ord("a")}', tries=3, wait=200, rest=0)
              for name in realms]
    return configuration(peer('nas1', require_seal=False), *tables, **places(port), **{'shards': 1, 'seed': '0' * 64, **top})


def home_of(port, name):
    return port + 40 + 2 * (ord(name) - ord('a'))


@contextlib.contextmanager
def serving(program, work, text, *words, **how):
    with Server(program, work, text, *words, **how) as server:
        server.waits_for('serving realms')
        yield server


def side_by_side(calls):
    """What these calls give, each in a thread of its own, under the name of this one or of their own."""
    results = {}

    def run(name, call):
        results[name] = call()
    threads = [threading.Thread(target=run, name=name, args=(name, call)) for name, call in calls.items()]
    for thread in threads:
        thread.start()
    for thread in threads:
        thread.join()
    return results


def timed(server, *order):
    """What `roam ctl` says, and how long it took."""
    begin = time.monotonic()
    answer = server.ctl(*order, seconds=80)
    return answer, time.monotonic() - begin


def goes_on(server):
    want(server.ctl('status').returncode == 0 and 'reload:' not in server.said() and 'asked to stop' not in server.said(),
         'it serves on, and nothing was reloaded or stopped')


def late_orders(program, work):
    """a server that is held up for longer than `roam ctl` waits carries out nothing of which that gave up"""
    with serving(program, work, text_of(39100)) as server:
        server.process.send_signal(signal.SIGSTOP)
        orders = {'status': ('status',), 'reload': ('reload',), 'trace': ('trace', '0'), 'stop': ('stop',)}
        said = side_by_side({word: lambda order=order: timed(server, *order) for word, order in orders.items()})
        for word, (answer, took) in said.items():
            seconds, words = (10, 'no answer in time, though somebody listens there') if word == 'status' else (30, 'no answer within 30 s: it may still be carried out')
            want(answer.returncode == 1 and answer.stderr == f'roam: {server.path}: {words}\n' and abs(took - seconds) < 4,
                 f'{word}: {answer.returncode} after {took:.1f} s: {answer.stderr.strip()}')
        server.process.send_signal(signal.SIGCONT)
        for word in ('reload', 'trace', 'stop'):
            want(server.tells(f'{word} not carried out'), f'the log says that the {word} is not carried out')
        goes_on(server)
        reload = server.reload()
        want(reload.returncode == 0,
             f'a reload whose asker waits is carried out: {reload.returncode} {(reload.stdout + reload.stderr).strip()}')
        want(server.tells('the file is served'), 'and the log says so')
        want(server.ctl('stop').returncode == 0 and server.ends(30) == 0, 'and so is a stop')


def ptrace(request, thread):
    system = ctypes.CDLL(None, use_errno=True)
    if system.ptrace(ctypes.c_long(request), ctypes.c_long(thread), None, None) < 0:
        raise OSError(ctypes.get_errno(), f'ptrace {request:#x}')


@contextlib.contextmanager
def held(thread):
    """A thread of another process, which is held meanwhile."""
    seize, interrupt, detach, every_thread = 0x4206, 0x4207, 17, 0x40000000
    ptrace(seize, thread)
    ptrace(interrupt, thread)
    os.waitpid(thread, every_thread)
    yield
    ptrace(detach, thread)


def asked(server, path):
    """A connection over which somebody asked for something that changes the server."""
    one = socket.socket(socket.AF_UNIX)
    one.connect(server.path)
    one.settimeout(10)
    one.sendall(f'POST {path} HTTP/1.1\r\nHost: roam\r\nContent-Length: 0\r\nConnection: close\r\n\r\n'.encode())
    return one


def late_on_desk(program, work):
    """an order that waits for the server's own thread, and whose asker goes meanwhile, is not carried out"""
    with serving(program, work, text_of(39200)) as server:
        for word in ('reload', 'stop'):
            with held(server.process.pid):
                one = asked(server, f'/{word}')
                time.sleep(.5)
                one.close()
            want(server.tells(f'{word} not carried out'), f'the log says that the {word} is not carried out')
        goes_on(server)
        with asked(server, '/reload') as half:
            half.shutdown(socket.SHUT_WR)
            text = b''
            while part := half.recv(4096):
                text += part
        want(text.startswith(b'HTTP/1.1 200'), f'one who has only ended the question is answered: {text[:40]}')


def stopped_by_runner(program, work):
    """roam-run doesn't kill a server that doesn't answer for half a minute, and goes on then"""
    server = Server(program, work, text_of(39300), '1')
    server.ends(10)
    server.start(ROAM_RUN, server.conf, ROAM=program)
    server.waits_for('serving realms')
    runner = server.process
    with open(f'/proc/{runner.pid}/task/{runner.pid}/children') as children:
        served = int(children.read().split()[0])
    os.kill(served, signal.SIGSTOP)
    runner.send_signal(signal.SIGTERM)
    time.sleep(32)
    is_there = runner.poll() is None and os.path.exists(f'/proc/{served}')
    want(is_there, 'after 32 s the server is still there')
    if is_there:
        os.kill(served, signal.SIGCONT)
    status = server.ends(40)
    want(status == 0 and 'audited' in server.said(), f'it stops as it should: status {status}: {server.said().splitlines()[-1:]}')


def no_descriptor(program, work):
    """a process without a descriptor left is asked how it stands, to reload and to stop"""
    with serving(program, work, text_of(39400, 'abcd', shards=2)) as server:
        used = {int(fd) for fd in os.listdir(f'/proc/{server.process.pid}/fd')}
        least = min(set(range(len(used) + 1)) - used)
        resource.prlimit(server.process.pid, resource.RLIMIT_NOFILE, (least, least))
        for _ in range(3):
            status = server.ctl('status')
            want(status.returncode == 0 and 'realms 4' in status.stdout, f'status: {status.returncode} {status.stderr.strip()}')
        reload = server.reload()
        want(reload.returncode == 1 and 'Too many open files' in reload.stdout, f'reload: {reload.returncode} {(reload.stdout + reload.stderr).strip()}')
        stop = server.ctl('stop')
        want(stop.returncode == 0 and server.ends(30) == 0, f'stop: {stop.returncode} {stop.stderr.strip()}')
        want('audited' in server.said(), 'it ends audited')


def forwarded(port, name):
    """How often a request is sent to a home server that gives octets which are no reply."""
    with contextlib.closing(bound(home_of(port, name))) as home, contextlib.closing(bound()) as one:
        one.sendto(access(1, f'u@{name}.example'.encode()), (HERE, port))
        count, until = 0, time.monotonic() + 10
        while select.select([home], [], [], max(0, until - time.monotonic()))[0]:
            _, source = home.recvfrom(4096)
            home.sendto(b'\x02\x00\x00\x14' + bytes(16), source)
            count += 1
            # Behind the last that is wanted one more would come within a moment.
            until = time.monotonic() + 1 if count == 3 else until
    return count


def played(server, shard):
    """The lines of a shard's trace, and what `roam sim` prints of them over the file that is served."""
    script = os.path.join(server.folder, f'script{shard}')
    answer = server.ctl('trace', str(shard))
    with open(script, 'w', encoding='utf-8') as file:
        file.write(answer.stdout)
    sim = subprocess.run([server.program, 'sim', server.conf, script], capture_output=True, text=True, timeout=30, check=False)
    return answer.stdout.splitlines(), sim.stdout.splitlines()


def trace_turned(program, work):
    """behind a reload that takes a realm out, and one that turns two about, a trace plays by the file that is served"""
    port = 39500
    with serving(program, work, text_of(port, 'xab', shards=2)) as server:
        # The first file has x, a and b at 0, 1 and 2; so a is of shard 1, and b of shard 0, for good.
        for realms, at in (('xab', {'a': 1, 'b': 2}), ('ab', {'a': 0, 'b': 1}), ('ba', {'a': 1, 'b': 0}), ('bca', {'a': 2, 'b': 0})):
            reload = server.reload(text_of(port, realms, shards=2), ('--lose',))
            want(reload.returncode == 0, f'{realms}: {" ".join(reload.stdout.split())} {reload.stderr.strip()}')
            for name, shard in (('a', 1), ('b', 0)):
                sent = forwarded(port, name)
                want(sent == 3, f'{realms}: a request of {name} is sent {sent} times')
                lines, printed = played(server, shard)
                found = {line.split()[2] for line in lines if line.startswith('A')}
                want(found == {'auth', f'out:{at[name]}'}, f'{realms}: the trace of {name} has arrivals at {sorted(found)}')
                left = [line.split()[:3] for line in printed]
                want(left.count([str(at[name]), f'out:{at[name]}', f'{HERE}:{home_of(port, name)}']) == 3,
                     f'{realms}: played, {len(left)} packets leave, by {left[:1]}')
        said = re.findall(r'serving realms (\d+) peers', server.said())
        want(said == ['3', '3', '2', '2', '3'], f'it says how many realms it serves: {said}')


def escaped_words(program, work):
    """a path, or a word, with a line feed forges no line"""
    def said(*words):
        return subprocess.run([program, *words], capture_output=True, timeout=20, check=False).stderr

    def wants(told, *words):
        found = said(*words)
        want(found.startswith(told) if told.endswith(b'usage: ') else found == told, f'{words[0]!r}: {found[:200]}')
    path = os.path.join(work, 'no\nERROR such\x1b[31m \xe4')
    shown = b'roam: ' + work.encode() + rb'/no\x0aERROR such\x1b[31m \xc3\xa4'
    wants(shown + b': No such file or directory\n', 'check', path)
    wants(shown + b': no such path: is roam running, and is this its `control`?\n', 'ctl', path, 'status')
    wants(rb'roam: no\x0aERROR\x5c: no such command' + b'\nusage: ', 'no\nERROR\\')
    with open(path, 'w', encoding='utf-8') as file:
        file.write('a')
    want(said('check', path).startswith(shown + b': Syntax\n'), 'check of one that is refused')
    conf = os.path.join(work, 'roam.conf')
    with open(conf, 'w', encoding='utf-8') as file:
        file.write(text_of(39600, control=path))
    wants(shown.replace(b'roam: ', b'roam: cannot listen at ') + b': Address already in use\n', 'serve', conf, '500')


def time_served(program, work):
    """a server that is given a time serves for so long, however long it takes to read its sessions"""
    state = os.path.join(work, 'sessions')
    text = text_of(39700, state=state)
    server = Server(program, work, text, '1')
    server.ends(10)
    want(os.path.exists(state), 'sessions are kept')
    strace = shutil.which('strace')
    if not strace:
        want(True, 'the rest is left out: strace is not here')
        return
    server.start(strace, '-f', '-qq', '-o', '/dev/null', '-P', state, '-e', 'trace=openat', '-e', 'inject=openat:delay_enter=3000000:when=1',
                 program, 'serve', server.conf, '3000')
    server.waits_for('serving realms')
    begin = time.monotonic()
    status = server.ends(30)
    took = time.monotonic() - begin
    want(status == 0 and 1.5 < took < 15, f'it serves for {took:.1f} s, status {status}')


CASES = [late_orders, late_on_desk, stopped_by_runner, no_descriptor, trace_turned, escaped_words, time_served]


def run(case, program):
    with tempfile.TemporaryDirectory() as work:
        try:
            case(program, work)
        except (OSError, ValueError, IndexError, subprocess.SubprocessError, SystemExit) as error:
            want(False, f'{type(error).__name__}: {error}')


def main():
    names = {case.__name__: case for case in CASES}
    if sys.argv[2:] == ['help']:
        for name, case in names.items():
            print(f'{name:18} {case.__doc__}')
        return 0
    if len(sys.argv) < 2 or not os.access(sys.argv[1], os.X_OK) or not set(sys.argv[2:]) <= set(names):
        print('usage: try-orders.py PROGRAM [CASE ..], where a CASE is one of', *names, file=sys.stderr)
        return 2
    program = os.path.realpath(sys.argv[1])
    go_on()
    side_by_side({name: lambda case=names[name]: run(case, program) for name in sys.argv[2:] or names})
    return end()


if __name__ == '__main__':
    sys.exit(main())
