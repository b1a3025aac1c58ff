#!/usr/bin/env python3
"""What a change of the configuration costs who asks meanwhile, where there are many realms and peers and one realm differs.

    load/changes.py PROGRAM [--realms N ..] [--peers N] [--changes N] [--rate N]

It serves eight realms that are asked, so many further realms and peers, and changes one of the further ones, so often. It prints
how long a request waited at most around each change, what the answer of `roam ctl` took, how much was lost of the seven realms that no
change takes anything of, and what the program held in memory before and after. No expected values: it measures.
"""
import argparse
import importlib
import os
import pathlib
import resource
import sys
import tempfile
import time

sys.dont_write_bytecode = True
HERE = pathlib.Path(__file__).resolve().parent
sys.path.insert(0, str(HERE.parent / "packaging" / "tests"))
reload = importlib.import_module("try-reload")
FURTHER = """
[[realm]]
name = "r{number}.test"
out = "127.0.2.1:{out}"
tries = 2
wait = {wait}

[[realm.server]]
auth = "127.0.0.1:{home}"
acct = "127.0.0.1:{acct}"
secret = "{secret}"
"""


def further(number: int, wait: int) -> str:
    """Returns a realm that nobody asks."""
    return FURTHER.format(number=number, out=10000 + number, wait=wait, home=reload.HOME, acct=reload.HOME + 100,
                          secret=reload.SECRET.decode())


def change(server) -> tuple[float, float]:
    """When a change was asked for, and when it was followed."""
    begin = time.monotonic()
    result = server.reload()
    if result.returncode:
        sys.exit(result.stdout)
    return begin, time.monotonic()


def measured(program: str, realms: int, words: argparse.Namespace, homes: list) -> str:
    """Returns a row of the table."""
    sent_before = sum(sum(home.told()[1].values()) for home in homes)
    with tempfile.TemporaryDirectory() as work:
        asked = [reload.Realm(realm) for realm in range(8)]
        server = reload.Server(program, work, asked + [further(it, 2000) for it in range(realms)])
        try:
            peers = [(f"p{it}", f"127.1.{it // 250}.{it % 250 + 1}", f"a-long-secret-of-{it}", {}) for it in range(words.peers)]
            server.peers += peers
            change(server)
            loads = [reload.Load(those, words.rate / 8) for those in (range(4), range(4, 8))]
            for one in loads:
                one.start()
            time.sleep(3)
            before, changes = server.size()[0], []
            for turn in range(words.changes):
                server.realms[-1] = further(realms - 1, 3000 + turn)
                changes.append(change(server))
                time.sleep(.25)
            after = server.size()[0]
            told = {realm: what for one in loads for realm, what in one.told().items()}
            again = sum(sum(home.told()[1].values()) for home in homes) - sent_before
        finally:
            server.process.kill()
    same = [told[realm] for realm in range(7)]
    answers = [(at, time_of) for realm in (1, 3, 5) for at, time_of in zip(told[realm][3], told[realm][4])]
    waits = sorted(max((time_of for at, time_of in answers if at < end and at + time_of > begin), default=0) * 1000
                   for begin, end in changes)
    took = sorted((end - begin) * 1000 for begin, end in changes)
    middle = len(waits) // 2
    lost = sum(one[0] - one[1] for one in same)
    return (f"| {realms + 8} | {words.peers + 1} | {waits[middle]:.1f} | {waits[-1]:.1f} | {took[middle]:.0f} | "
            f"{lost} of {sum(one[0] for one in same)} | {again} | {before // 1024} | {after // 1024} |")


def main() -> None:
    parser = argparse.ArgumentParser(description=__doc__, formatter_class=argparse.RawDescriptionHelpFormatter)
    parser.add_argument("program")
    parser.add_argument("--realms", type=int, nargs="+", default=[1, 192, 992])
    parser.add_argument("--peers", type=int, default=1000)
    parser.add_argument("--changes", type=int, default=40)
    parser.add_argument("--rate", type=int, default=10000)
    words = parser.parse_args()
    resource.setrlimit(resource.RLIMIT_NOFILE, (8192, 8192))
    print("| realms | peers | longest wait around a change, median ms | most ms | the order took, median ms | lost | sent again "
          "| MiB before | after |")
    print("|---|---|---|---|---|---|---|---|---|")
    homes = [reload.HomeServers([(realm, reload.SECRET) for realm in those]) for those in (range(0, 5), range(5, 9))]
    for home in homes:
        home.start()
    for realms in words.realms:
        print(measured(os.path.realpath(words.program), realms, words, homes), flush=True)


if __name__ == "__main__":
    main()
