#!/usr/bin/env python3
"""try-ctl.py PROGRAM

Has `roam ctl` ask where nobody is, where it may not, and for what isn't there: each is told apart, in words. Serves realms of which one has
a dead home server, one a home server with another secret, one as many requests waiting as may, and one nothing wrong, and a peer with another
secret: `status --problems` has those rows and no others, `status REALM` those of a realm. In a namespace of its own, with empty /run and
/etc, the path of the socket is left out, and `reload` asks nothing where the unit's server would read an old copy.
"""
import contextlib
import os
import socket
import subprocess
import sys
import tempfile

sys.dont_write_bytecode = True
from looks import be_quiet, end, go_on, want, words
from radius import HERE, HomeServer, access, accounting, asked, bound
from server import Server, configuration, peer, places, realm

SECRET = b"a-secret-of-home"
ELSEWHERE = "127.0.0.2"
USUAL, COPY, EDITED = "/run/roam/control", "/run/roam-conf/roam.conf", "/etc/roam/roam.conf"
TEXT = configuration(
    peer("nas1"), peer("nas2", ELSEWHERE),
    realm("good.example", 22041, out=f"{HERE}:22051"), realm("dead.example", 22043, out=f"{HERE}:22052", tries=1, wait=300, rest_after=1),
    realm("wrong.example", 22045, out=f"{HERE}:22053", tries=1, wait=300, rest_after=200),
    realm("full.example", 22047, out=f"{HERE}:22054", tries=1, wait=60000, max_pending=1), **places(22030))


def told(program, path, *order, **how):
    """The status, and what is told behind the path."""
    ran = subprocess.run([program, "ctl", path, *order], capture_output=True, text=True, timeout=60, check=False, **how)
    return ran.returncode, ran.stderr.removeprefix(f"roam: {path}: ").split(":")[0].strip()


def look_at_faults(program, folder):
    """Why nobody answers is told apart."""
    path = os.path.join(folder, "left")
    with socket.socket(socket.AF_UNIX) as left:
        left.bind(path)
    file = os.path.join(folder, "file")
    with open(file, "w", encoding="ascii"):
        pass
    for at, why in ((os.path.join(folder, "none"), "no such path"), (path, "nobody listens there"), (file, "nobody listens there"),
                    (os.path.join(file, "below"), "Not a directory")):
        for order in (("status",), ("status", "a.example"), ("metrics",), ("stop",), ("reload",), ("trace", "0")):
            want(told(program, at, *order) == (1, why), f"{at} {order}: {told(program, at, *order)}, not {why}")
    if os.geteuid() == 0:
        with socket.socket(socket.AF_UNIX) as mine:
            mine.bind(shut := os.path.join(folder, "shut"))
            mine.listen()
            os.chmod(shut, 0o600)
            os.chmod(folder, 0o755)
            found = told(program, shut, "status", user=65534, group=65534, extra_groups=[])
            want(found == (1, "permission denied"), f"as another user: {found}")


def rows_of(text):
    """The words of each row of the tables, which are told apart by the first word of their heads."""
    tables = [table.splitlines() for table in text.split("\n\n")[1:]]
    return {table[0].split()[0]: [row.split() for row in table[1:]] for table in tables}


def look_at_rows(server):
    """What is wrong of realms, home servers and peers, and what is of one realm."""
    ctl = lambda *order: server.ctl("status", *order)
    want(ctl("--problems").stdout.split("\n\n")[1:] == ["no problems\n"], f"at first: {ctl('--problems').stdout}")
    homes = [HomeServer(22041, SECRET), HomeServer(22045, b"another secret")]
    with contextlib.closing(bound()) as one:
        for number, name in enumerate(("good", "dead", "wrong", "full", "full")):
            one.sendto(access(number, b"u%d@%s.example" % (number, name.encode())), (HERE, 22030))
        want(asked(access(9, b"u@good.example"), (HERE, 22030)), "the good realm answers")
        asked(accounting(1, b"u@good.example", b"1", b"another secret"), (HERE, 22031), ELSEWHERE, seconds=.5)
        want(server.tells("home server") and len(homes) == 2, "a server rests")
        found = rows_of(ctl("--problems").stdout)
    want([row[0] for row in found["REALM"]] == ["full.example"], f"realms: {found['REALM']}")
    stands = [(row[2], row[3]) for row in found["HOME"]]
    want(stands == [("dead.example", "never"), ("wrong.example", "replies")], f"home servers: {found['HOME']}")
    want([row[0] for row in found["PEER"]] == ["nas2"], f"peers: {found['PEER']}")
    want((asked(access(10, b"u@nobody.example"), (HERE, 22030)) or b" ")[0] == 3, "a name of no realm is rejected")
    row = next(row for row in rows_of(ctl().stdout)["PEER"] if row[0] == "nas1")
    want(row[2:6] == ["7", "5", "2", "1"], f"of its requests one was rejected here, and one refused: {row}")
    found = rows_of(ctl("dead.example,Wrong.Example").stdout)
    want([row[0] for row in found["REALM"]] == ["dead.example", "wrong.example"] and len(found["HOME"]) == 4 and "PEER" not in found, f"{found}")
    want({row[2] for row in found["HOME"]} == {"dead.example", "wrong.example"}, f"{found['HOME']}")
    none = ctl("nobody.example")
    want((none.returncode, none.stdout) == (1, "") and none.stderr.endswith(": no such realm is served\n"), f"{none}")
    trace = server.ctl("trace", "9")
    want((trace.returncode, trace.stdout) == (1, "") and "no such shard" in trace.stderr, f"{trace}")
    refused = server.reload(server_text(server).replace("tries = 1", "tries = 11", 1))
    want(refused.returncode == 1 and "declined, and nothing has changed: roam check CONF" in refused.stderr, f"{refused}")
    fewer = TEXT.replace('secret = "a-secret-of-nas1"', 'secret = "a-secret-of-nas9"')
    lost = server.reload(fewer)
    want(lost.returncode == 1 and "would lose 1 waiting requests" in lost.stdout and "reload --lose" in lost.stderr, f"{lost}")


def server_text(server):
    with open(server.conf, encoding="utf-8") as file:
        return "".join(line for line in file if not line.startswith("control"))


def inside(program):
    """In an empty /run and /etc: the unit's paths."""
    for path in (USUAL, COPY, EDITED):
        os.makedirs(os.path.dirname(path))
    with tempfile.TemporaryDirectory() as folder, Server(program, folder, TEXT, control=USUAL) as server:
        server.waits_for()
        ctl = lambda *order: subprocess.run([program, "ctl", *order], capture_output=True, text=True, timeout=60, check=False)
        for order, begin in ((("status",), "roam 1"), (("status", "--problems"), "roam 1"), (("status", "good.example"), "roam 1"),
                             (("status", "--json"), "{"), (("metrics",), "#"), (("trace", "0"), ""), (("reload",), "")):
            ran = ctl(*order)
            want(ran.returncode == 0 and ran.stdout.startswith(begin), f"{order}: {ran}")
        for path, text in ((EDITED, "edited"), (COPY, "a copy")):
            with open(path, "w", encoding="ascii") as file:
                file.write(text)
        for order in (("reload",), ("reload", "--lose"), (USUAL, "reload")):
            ran = ctl(*order)
            want((ran.returncode, ran.stdout) == (1, "") and "type systemctl reload roam" in ran.stderr, f"{order}: {ran}")
        want(ctl("status").returncode == 0, "what only looks is answered")
        with open(COPY, "w", encoding="ascii") as file:
            file.write("edited")
        want(ctl("reload").returncode == 0, "a reload of a copy that is new is served")
        want(ctl("stop").returncode == 0 and server.ends(20) == 0, "and it stops")
    return end()


def main():
    if sys.argv[1:2] == ["--inside"]:
        return inside(sys.argv[2])
    [program] = words(__doc__, 1)
    go_on()
    be_quiet()
    program = os.path.abspath(program)
    with tempfile.TemporaryDirectory() as folder:
        look_at_faults(program, folder)
        with Server(program, folder, TEXT) as server:
            server.waits_for()
            look_at_rows(server)
    line = f"mount -t tmpfs tmpfs /run && mount -t tmpfs tmpfs /etc && exec {sys.executable} {os.path.abspath(__file__)} --inside {program}"
    ran = subprocess.run(["unshare", "-rm", "sh", "-c", line], capture_output=True, text=True, timeout=120, check=False)
    if "mount" in ran.stderr or "unshare" in ran.stderr:
        print("try-ctl: the unit's paths left out: no namespace of one's own")
    else:
        want(ran.returncode == 0, f"the unit's paths: {ran.stdout} {ran.stderr}")
    return end()


if __name__ == "__main__":
    sys.exit(main())
