#!/usr/bin/env python3
"""try-linear.py PROGRAM

Counts the instructions of `PROGRAM check` by valgrind, for configurations of which one has eight times as many realms, peers and
servers as the other: the larger one may cost twelve times as much (what is sorted costs a little more than in proportion). So too of
`PROGRAM check OLD NEW`, where one file stands for both. Where valgrind isn't installed nothing is counted, and that is said.
"""
import concurrent.futures
import os
import re
import shutil
import subprocess
import sys
import tempfile

sys.dont_write_bytecode = True
TOP = 'auth = "203.0.113.10:1812"\nacct = "203.0.113.10:1813"\nstatus_server = true\nwell_formed = true\n'
PEER = '[[peer]]\nname = "p{n}"\nip = "10.{a}.{b}.1"\nsecret = "a secret for tests"\nrequire_seal = true\n'
REVERSED = 'coa = "10.{a}.{b}.1:3799"\nnas_ids = ["n{n}-*"]\n'
REALM = '[[realm]]\nname = "r{n}.example"\nalso = ["*.r{n}.example"]\npeer_share = 64\nout = [{out}]\n'
SERVER = '[[realm.server]]\nauth = "172.{a}.{b}.{s}:1812"\nacct = "172.{a}.{b}.{s}:1813"\nsecret = "a secret for tests"\nrequire_seal = true\n'
ANY = ('[[realm]]\nname = "elsewhere.invalid"\nalso = ["*"]\nloop_prevention = true\nshare = 96\npeer_share = 64\nout = "203.0.113.11:1999"\n'
       '[[realm.server]]\nauth = "198.51.100.1:1812"\nacct = "198.51.100.1:1813"\nsecret = "a secret for tests"\nrequire_seal = true\n')
# What is counted: of so few realms, and of eight times as many; how many servers, `out` and `reverse` each has, and whether each has
# a peer of its own beside.
KINDS = [("4 servers and an out", 64, 4, 1, 0, False), ("8 servers, 16 out and 8 reverse, and a peer each", 32, 8, 16, 8, True)]
MOST = 12


def endpoints(n, count, network):
    """The endpoints of a realm's sockets of one kind."""
    return ", ".join(f'"{network}.{(n * count + i) // 20000}:{2000 + (n * count + i) % 20000}"' for i in range(count))


def configuration(realms, servers, outs, reverses, has_peers):
    """A configuration of so many realms, in which nothing is unwise."""
    text = TOP
    for n in range(realms if has_peers else 1):
        text += (PEER + (REVERSED if reverses else "")).format(n=n, a=n // 250, b=n % 250)
    for n in range(realms):
        text += REALM.format(n=n, out=endpoints(n, outs, "203.0.113"))
        if reverses:
            text += f'reverse = [{endpoints(n, reverses, "203.0.114")}]\nown_sessions = true\n'
        for s in range(servers):
            text += SERVER.format(a=16 + n // 250, b=n % 250, s=s + 1)
    return text + ANY


def instructions(program, *paths):
    """How many instructions a check takes, which has to accept the configuration and to advise nothing; or one of two of them, of which
    the new one has to be one that may follow."""
    ran = subprocess.run(["valgrind", "--tool=cachegrind", "--cache-sim=no", "--cachegrind-out-file=/dev/null", program, "check", *paths],
                         capture_output=True, text=True, timeout=300, check=False)
    told = [line for line in ran.stderr.splitlines() if line.startswith(f"{paths[0]}:")]
    if ran.returncode or not ran.stdout.startswith(("ok realms", "can be reloaded")[len(paths) - 1]) or told:
        sys.exit(f"try-linear: check ends with {ran.returncode}: {ran.stdout} {told or ran.stderr}")
    return int(re.search(r"I\s+refs:\s+([\d,]+)", ran.stderr).group(1).replace(",", ""))


def main():
    if len(sys.argv) != 2:
        sys.exit(__doc__)
    if not shutil.which("valgrind"):
        print("try-linear: left out: no valgrind is installed")
        return
    failed, program = [], os.path.abspath(sys.argv[1])
    with tempfile.TemporaryDirectory() as folder, concurrent.futures.ThreadPoolExecutor(len(os.sched_getaffinity(0))) as pool:
        runs = []
        for at, (name, few, *kind) in enumerate(KINDS):
            paths = [os.path.join(folder, f"{at}-{realms}.conf") for realms in (few, 8 * few)]
            for path, realms in zip(paths, (few, 8 * few)):
                with open(path, "w", encoding="ascii") as file:
                    file.write(configuration(realms, *kind))
            for files in (1, 2):
                runs.append((name, few, files, [pool.submit(instructions, program, *[path] * files) for path in paths]))
        for name, few, files, counts in runs:
            less, more = (count.result() for count in counts)
            print(f"a check of {files} of realms with {name}: {few} take {less} instructions, {8 * few} {more / less:.1f} times as many")
            failed += [name] if more / less > MOST else []
    if failed:
        sys.exit(f"try-linear: more than {MOST} times as many: {', '.join(failed)}")


if __name__ == "__main__":
    main()
