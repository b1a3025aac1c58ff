"""A program that serves, for the trials: what its file says, how it is started, asked and ended, and whether its metrics balance.

    server.py PAGE    says what doesn't balance of a page of metrics, for the scripts of the shell; ends with 1 where something doesn't
"""
import atexit
import collections
import json
import os
import re
import subprocess
import sys
import time

from looks import want

HERE = "127.0.0.1"


# Files

def table(head, **keys):
    """A table of a configuration: texts, numbers, words and lists under their keys; what is None isn't written."""
    lines = [f"\n[[{head}]]"] if head else []
    lines += [f"{key} = {json.dumps(value)}" for key, value in keys.items() if value is not None]
    return "".join(line + "\n" for line in lines)


def peer(name, ip=HERE, secret="a-secret-of-nas1", **keys):
    return table("peer", name=name, ip=ip, secret=secret, **keys)


def realm(name, *servers, **keys):
    """A realm and its home servers, each the port of its `auth` on loopback (its `acct` is the next one), or its keys."""
    text = table("realm", name=name, **keys)
    for it in servers:
        of_port = {"auth": f"{HERE}:{it}", "acct": f"{HERE}:{it + 1}"} if isinstance(it, int) else {}
        text += table("realm.server", **{"secret": "a-secret-of-home", **(of_port or it)})
    return text


def configuration(*tables, **top):
    return table("", **top) + "".join(tables)


def places(port, address=HERE):
    """The keys of the places where a broker is asked: `auth` at a port, and `acct` at the next one."""
    return {"auth": f"{address}:{port}", "acct": f"{address}:{port + 1}"}


def run(program, *words, **how):
    """The status of a run, and what it printed and told."""
    ran = subprocess.run([program, *words], stdout=subprocess.PIPE, stderr=subprocess.PIPE, timeout=120, check=False, **how)
    return ran.returncode, ran.stdout.decode(), ran.stderr.decode()


def processor_time(pid):
    """The seconds of processors that a process has used."""
    with open(f"/proc/{pid}/stat", encoding="ascii") as file:
        used = file.read().rsplit(")", 1)[1].split()
    return (int(used[11]) + int(used[12])) / os.sysconf("SC_CLK_TCK")


# Metrics

def counts_of(page):
    """The counts of a page of metrics, by name and labels."""
    found = collections.Counter()
    for line in page.splitlines():
        if line and line[0] != "#":
            name, value = line.rsplit(" ", 1)
            found[name] = float(value)
    return found


def total(counts, name, *held, **labels):
    """The sum of the counts of a name, with these texts among its labels, and these labels."""
    wanted = [*held, *(f'{label}="{value}"' for label, value in labels.items())]
    return int(sum(value for key, value in counts.items() if key.startswith(name + "{") and all(it in key for it in wanted)))


# What became of the requests that a realm forwarded, each by its metric (docs/FILES.md, "Metrics"); one that isn't there counts as 0.
FORWARDED, DROPPED = "roam_realm_forwarded_total", "roam_realm_dropped_total"
ENDS = {"returned": "roam_realm_returned_total", "given up": "roam_realm_given_up_total", "replaced": "roam_realm_replaced_total",
        "dropped": DROPPED, "waiting": "roam_realm_waiting_requests"}


def imbalances(page, may_lose=()):
    """What doesn't balance of a page of metrics. Of a realm that may lose requests they are wanted to be counted as dropped
    where the program counts such."""
    counts, found = counts_of(page), []
    if "# TYPE roam_received_datagrams_total " not in page:
        found.append(f"there is no page of metrics, but {page[:100]!r}")
    received, handled = (total(counts, f"roam_{it}_datagrams_total") for it in ("received", "handled"))
    if received != handled:
        found.append(f"{received} datagrams received, {handled} handled")
    for name in sorted(set(re.findall(r'^roam_realm_\w+\{realm="([^"]*)"', page, re.M))):
        forwarded = total(counts, FORWARDED, realm=name)
        ends = {word: total(counts, metric, realm=name) for word, metric in ENDS.items()}
        is_less_right = name in may_lose and f"# TYPE {DROPPED} " not in page
        if not (sum(ends.values()) <= forwarded if is_less_right else sum(ends.values()) == forwarded):
            found.append(f"{name}: {forwarded} forwarded, " + ", ".join(f"{count} {word}" for word, count in ends.items()))
    return found


def want_balance(ask, may_lose=(), seconds=20):
    """Wants the metrics to balance at rest, which may take so many seconds: `ask` gives their page."""
    end = time.monotonic() + seconds
    while (found := imbalances(ask(), may_lose)) and time.monotonic() < end:
        time.sleep(.2)
    want(not found, "the metrics balance" + "".join(f"; {it}" for it in found))


# Servers

class Server:
    """A program that serves; its file, its log and its control socket lie in a folder, under its name."""

    def __init__(self, program, folder, text, *words, name="roam", options=(), control=True, starts=True, **how):
        """`text` is the file without `control`, `words` stand behind its path and `options` before it; `how` is for Popen. It starts at
        once, unless that is told otherwise."""
        self.program, self.folder, self.words, self.options, self.how = program, folder, words, options, how
        self.conf, self.log, self.path = (os.path.join(folder, f"{name}.{it}") for it in ("conf", "log", "control"))
        self.path = control if isinstance(control, str) else self.path
        self.control, self.may_lose, self.process = bool(control), set(), None
        self.write(text)
        if starts:
            self.start()
        atexit.register(self.__exit__)

    def write(self, text):
        """Puts another text into its place, whole."""
        with open(self.conf + ".new", "w", encoding="utf-8") as file:
            file.write((f'control = "{self.path}"\n' if self.control else "") + text)
        os.replace(self.conf + ".new", self.conf)

    def start(self, *line, **environment):
        """Starts it by its own command, or by another one."""
        with open(self.log, "w", encoding="utf-8") as log:
            how = {"stdin": subprocess.DEVNULL, "stdout": subprocess.DEVNULL, "stderr": log, **self.how}
            line = line or (self.program, "serve", *self.options, self.conf, *self.words)
            self.process = subprocess.Popen(line, env={**os.environ, **environment}, **how)

    def said(self):
        with open(self.log, encoding="utf-8", errors="replace") as log:
            return log.read()

    def waits_for(self, pattern="serving ", seconds=20):
        """What it tells by a pattern, at the latest after so long; the trial ends where that doesn't come."""
        end = time.monotonic() + seconds
        while not (found := re.search(pattern, self.said())) and time.monotonic() < end:
            # What it told before it ended is read once more.
            end = end if self.process.poll() is None else min(end, time.monotonic() + .1)
            time.sleep(.02)
        return found or sys.exit(f"it doesn't tell {pattern!r}: {self.said()}")

    def tells(self, line, seconds=20):
        """Whether this is told, at the latest after so long: which servers keep silent is looked at about each second."""
        end = time.monotonic() + seconds
        while line not in self.said() and time.monotonic() < end:
            time.sleep(.05)
        return line in self.said()

    def is_asked(self, seconds=20):
        """Whether it answers at its control socket within so many seconds."""
        end = time.monotonic() + seconds
        while time.monotonic() < end and self.process.poll() is None:
            if self.ctl("status").returncode == 0:
                return True
            time.sleep(.05)
        return False

    def ctl(self, *order, seconds=60, path=None):
        """What `roam ctl` ends with, prints and tells; 124 where it takes longer."""
        try:
            return subprocess.run([self.program, "ctl", path or self.path, *order], capture_output=True, text=True, errors="replace",
                                  timeout=seconds, check=False)
        except subprocess.TimeoutExpired:
            return subprocess.CompletedProcess(order, 124, "", "it takes too long")

    def reload(self, text=None, lose=()):
        if text is not None:
            self.write(text)
        return self.ctl("reload", *lose)

    def counts(self):
        return counts_of(self.ctl("metrics").stdout)

    def count(self, name, *held, **labels):
        return total(self.counts(), name, *held, **labels)

    def balances(self, seconds=20):
        """Wants its metrics to balance: see `want_balance`."""
        want_balance(lambda: self.ctl("metrics").stdout, self.may_lose, seconds)

    def ends(self, seconds):
        """Its status, where it ends within so many seconds."""
        try:
            return self.process.wait(seconds)
        except subprocess.TimeoutExpired:
            return None

    def stop(self, is_told=True, balances=True):
        """Has it stop, and wants that to be answered, told and audited, behind metrics that balance."""
        if balances:
            self.balances()
        asked, status = self.ctl("stop"), self.ends(60)
        want(asked.returncode == 0 and status == 0, f"it stops: `ctl` ends with {asked.returncode}, the server with {status}")
        if is_told:
            want("audited" in self.said(), "and is audited")

    def __enter__(self):
        return self

    def __exit__(self, *_):
        if self.process and self.process.poll() is None:
            self.process.kill()
        if self.process:
            self.process.wait()


if __name__ == "__main__":
    with open(sys.argv[1], encoding="utf-8") as opened:
        sys.exit("; ".join(imbalances(opened.read())) or 0)
