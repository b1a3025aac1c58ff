"""What the trials with other servers around a broker share: the broker that is written apart, in a program's place; FreeRADIUS'
and radclient's files; starting and ending.

    around.py CONF    serves a configuration by the broker that is written apart, and says on standard error what it refuses, and
                      of which home server it takes a silence for more than a silence
"""

import os
import re
import select
import shutil
import subprocess
import sys
import tempfile
import time

sys.dont_write_bytecode = True
from looks import BAD, end, over_lines, want
from radius import bound, packets
from server import Server
import broker as apart

# What each FreeRADIUS has; a block on one line stands for one over several.
FREERADIUS = """
prefix = {root}/usr
libdir = {root}/usr/lib/freeradius
logdir = {directory}
run_dir = {directory}/{name}
db_dir = {directory}
radacctdir = {directory}
cleanup_delay = 0
proxy_requests = {proxies}
log {{
  destination = stdout
  auth = yes
}}
security {{
  reject_delay = 0
  allow_vulnerable_openssl = yes
}}
thread pool {{
  start_servers = 1
}}
"""


def say(words):
    print(words, file=sys.stderr, flush=True)


def opened_at(config):
    """A socket for each place of a configuration."""
    lists = {"auth": config.auth, "acct": config.acct}
    for n, realm in enumerate(config.realms):
        lists |= {f"{key}:{n}": apart.listed(realm.get(key)) for key in ("out", "reverse")}
    places = {place + f":{nth}" * (nth > 0): text for place, texts in lists.items() for nth, text in enumerate(texts)}
    return {place: bound(*reversed(apart.endpoint(text))) for place, text in places.items()}


def stand_in(path):
    """Serves a configuration by the broker that is written apart."""
    with open(path, encoding="utf-8") as file:
        config = apart.Config(file.read())
    core, sockets, start, last, resting = apart.Broker(config), opened_at(config), time.monotonic(), 0, set()
    while True:
        ready, now, sent = select.select(list(sockets.values()), [], [], 0.01)[0], int((time.monotonic() - start) * 1000), []
        for place, opened in sockets.items():
            if opened in ready:
                datagram, source = opened.recvfrom(65535)
                source = source[:2]
                try:
                    sent += core.arrive(now, place, source, datagram, int(time.time()))
                except packets.Refused as refused:
                    say(f"refused {refused.number} at {place} from {source[0]}")
        if now >= last + 10:
            for shard in range(config.shards):
                sent += core.tick(now, shard)
            last = now
        for _, place, to, octets in sent:
            sockets[place].sendto(octets, to)
        rests = {apart.at(*realm.endpoint_of((*link, 0))) for realm in core.realms for link in realm.rests}
        for endpoint in rests - resting:
            say(f"home server {endpoint} stopped answering: marked dead")
        for endpoint in resting - rests:
            say(f"home server {endpoint} answers again")
        resting = rests


def command(name):
    found = shutil.which(name) or shutil.which(name, path="/usr/sbin")
    return found or sys.exit(f"{os.path.basename(sys.argv[0])}: {name} isn't here")


class Around:
    """The servers of a trial; their files and logs lie in one directory."""

    def __init__(self, directory):
        self.directory, self.running, self.server = directory, {}, None

    def path(self, name):
        return os.path.join(self.directory, name)

    def write(self, name, text):
        with open(self.path(name), "w", encoding="utf-8") as file:
            file.write(text)
        return self.path(name)

    def start(self, name, words):
        with open(self.path(f"{name}.log"), "ab") as log:
            self.running[name] = subprocess.Popen(words, stdout=log, stderr=log, stdin=subprocess.DEVNULL)

    def broker(self, program, conf, milliseconds):
        """A program, or the broker that is written apart."""
        if program:
            self.server = Server(program, self.directory, conf, str(milliseconds), name="broker")
            self.running["broker"] = self.server.process
        else:
            self.start("broker", [sys.executable, os.path.abspath(__file__), self.write("broker.conf", conf)])

    def freeradius(self, name, text, proxies="no", verbose=True):
        """One of its own, with this text behind what each has."""
        home = command("freeradius")
        root = re.sub("/usr/sbin/freeradius$", "", home)
        os.makedirs(self.path(name), exist_ok=True)
        self.write(f"{name}.conf", FREERADIUS.format(root=root, directory=self.directory, name=name, proxies=proxies) + over_lines(text))
        self.start(name, [home, "-fxx" if verbose else "-f", "-l", "stdout", "-d", self.directory, "-n", name,
                          "-D", f"{root}/usr/share/freeradius"])

    def kill(self, name):
        self.running.pop(name).kill()

    def log(self, name):
        with open(self.path(f"{name}.log"), encoding="utf-8", errors="replace") as log:
            return log.read()

    def close(self):
        """Ends all, behind metrics of a program that balance, and answers which had ended by themselves."""
        ended = [name for name, process in self.running.items() if process.poll() is not None]
        if self.server and self.running and not ended:
            self.server.balances()
        for process in self.running.values():
            process.terminate()
        for process in self.running.values():
            try:
                process.wait(5)
            except subprocess.TimeoutExpired:
                process.kill()
        self.running = {}
        return ended

    def tell(self, lines=15):
        for name in sorted(os.listdir(self.directory)):
            if name.endswith(".log"):
                print(f"--- {name}:\n" + "\n".join(self.log(name[:-4]).splitlines()[-lines:]))


def in_own_network(file, *words):
    """Has this trial run anew, with these words, in a network of its own, unless it already does."""
    if "ROAM_OWN_NETWORK" not in os.environ:
        own = "ip link set lo up; exec \"$@\""
        net = ["unshare", "-n" if os.getuid() == 0 else "-rn", "sh", "-c", own, "sh", sys.executable, os.path.abspath(file), *words]
        os.execvpe("unshare", net, {**os.environ, "ROAM_OWN_NETWORK": "1"})


def tried(start, look):
    """The status of a trial that begins all servers by `start`, waits until they serve, and looks at what they do; their logs are told
    where a look is bad."""
    with tempfile.TemporaryDirectory() as directory:
        around, ended = Around(directory), []
        try:
            start(around)
            if around.server:
                around.server.waits_for()
            time.sleep(3)
            look(around)
            ended = around.close()
            want(not ended, "all of them still serve" + "".join(f", but not {it}" for it in ended))
        finally:
            around.close()
            if BAD or sys.exc_info()[0]:
                around.tell()
    return end("" if around.server else "by the broker that is written apart")


if __name__ == "__main__":
    stand_in(sys.argv[1])
