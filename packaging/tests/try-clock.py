#!/usr/bin/env python3
"""try-clock.py PROGRAM

Has the clock of PROGRAM fail, by a library that is loaded before the system's, on loopback. At a start that ends the server, which says so.
For a while between requests time stands still: requests are answered, none is sent again, and a duplicate gets the reply that is held
though that was to be held for less. Behind it time goes on: the request that wasn't answered is sent again. It needs gcc, and no root.
"""
import contextlib
import json
import os
import subprocess
import sys
import tempfile
import time

sys.dont_write_bytecode = True
from looks import end, want, words
from radius import HERE, HomeServer, access, accounting, asked, attribute, bound, heard
from server import Server, configuration, peer, places, realm

PORT, HOME = 38712, 38812
# No clock of CLOCK_MONOTONIC while there is a file of a path.
FAILING = """
#define _GNU_SOURCE
#include <dlfcn.h>
#include <errno.h>
#include <time.h>
#include <unistd.h>
int clock_gettime(clockid_t clock, struct timespec *time) {
    int (*read)(clockid_t, struct timespec *) = (int (*)(clockid_t, struct timespec *)) dlsym(RTLD_NEXT, "clock_gettime");
    if (clock == CLOCK_MONOTONIC && access(PATH, F_OK) == 0) { errno = EINVAL; return -1; }
    return read(clock, time);
}
"""
TEXT = configuration(
    peer("nas1", nas_id="nas1"),
    realm("a.example", HOME, out=f"{HERE}:{PORT + 2}", reverse=f"{HERE}:{PORT + 3}", tries=3, wait=2000, hold=2000, rest=0), **places(PORT))


def library(folder, path):
    """The library that has the clock fail while there is a file of this path."""
    source, made = os.path.join(folder, "clock.c"), os.path.join(folder, "clock.so")
    with open(source, "w", encoding="ascii") as file:
        file.write(f"#define PATH {json.dumps(path)}\n{FAILING}")
    subprocess.run(["gcc", "-shared", "-fPIC", "-o", made, source, "-ldl"], check=True)
    return made


@contextlib.contextmanager
def no_clock(path):
    """The clock fails meanwhile."""
    with open(path, "w", encoding="ascii"):
        pass
    try:
        yield
    finally:
        os.remove(path)


def at_a_start(server, path, made):
    with no_clock(path):
        server.start(LD_PRELOAD=made)
        want(server.ends(30) == 1 and server.said() == "roam: no clock\n", f"it ends at its start: {server.said()}")


def for_a_while(server, path, made):
    server.start(LD_PRELOAD=made)
    server.waits_for()
    home = HomeServer(HOME, b"a-secret-of-home")
    request = access(1, b"u@a.example")
    with contextlib.closing(bound(0, HERE, 10)) as client, contextlib.closing(bound(HOME + 1, HERE, .1)) as silent:
        client.sendto(request, (HERE, PORT))
        reply = heard(client)[0]
        want(reply, "a request is answered")
        client.sendto(accounting(2, b"u@a.example", b"1", b"a-secret-of-nas1", body=attribute(32, b"nas1")), (HERE, PORT + 1))
        silent.settimeout(10)
        sent = heard(silent)[0]
        want(sent, "another one is forwarded, and not answered")
        with no_clock(path):
            silent.settimeout(4)
            want(heard(silent)[0] is None, "it isn't sent again for four seconds")
            came = home.came
            client.sendto(request, (HERE, PORT))
            want(heard(client)[0] == reply and home.came == came, "a duplicate gets the reply that is held")
            want(asked(access(3, b"u@a.example"), (HERE, PORT)), "a request is answered meanwhile")
        begun = time.monotonic()
        silent.settimeout(10)
        want(heard(silent)[0] == sent, f"with the clock it is sent again, after {time.monotonic() - begun:.1f} s")
    server.stop()


def main():
    [program] = words(__doc__, 1)
    with tempfile.TemporaryDirectory() as folder:
        path = os.path.join(folder, "no-clock")
        made = library(folder, path)
        with Server(program, folder, TEXT, starts=False) as server:
            at_a_start(server, path, made)
            for_a_while(server, path, made)
    return end()


if __name__ == "__main__":
    sys.exit(main())
