"""The processes of a measurement: home servers, a broker, the generator. Each ends with the block
that started it, with this script, and after a time of its own."""

import ctypes
import os
import re
import signal
import subprocess
import sys
import threading
import time

import configurations

BENCH = os.path.dirname(os.path.abspath(__file__))
DIRECTORY = os.path.join(BENCH, "run")
BOARD = os.path.join(DIRECTORY, "home.board")
LOG = os.path.join(DIRECTORY, "broker.log")
PRINTED = os.path.join(DIRECTORY, "load.log")
LIBC = ctypes.CDLL(None)


def end_with_parent():
    """Asks the system for SIGTERM when the script ends (prctl PR_SET_PDEATHSIG)."""
    LIBC.prctl(1, signal.SIGTERM)


def processors(text):
    """Returns the processors that a text with commas between them names; none where it is empty."""
    return {int(number) for number in text.split(",")} if text else set()


def on_processors(numbers):
    """Returns the same for a process that is to run on these processors alone, where any are named."""
    def begin():
        end_with_parent()
        if numbers:
            os.sched_setaffinity(0, numbers)
    return begin


def stop(process):
    """Ends a process that this script started."""
    if process.poll() is None:
        process.send_signal(signal.SIGTERM)
        try:
            process.wait(5)
        except subprocess.TimeoutExpired:
            process.kill()
            process.wait()


def bound_ports():
    with open("/proc/net/udp", encoding="ascii") as file:
        return {int(line.split()[1].split(":")[1], 16) for line in file.readlines()[1:]}


def wait_for(process, port, what):
    """Until a process has bound a port, at most 60 seconds."""
    end = time.monotonic() + 60
    while port not in bound_ports():
        if process.poll() is not None or time.monotonic() > end:
            stop(process)
            sys.exit(f"{what} isn't ready; see {LOG}")
        time.sleep(0.05)


class Homes:
    """The home servers of some realms, while the block lasts."""

    def __init__(self, options, realms, seconds, apart=0):
        self.words = [os.path.join(BENCH, "home"), f"base={options.base}", f"realms={realms}",
                      f"seconds={seconds}", f"seed={options.seed}", f"apart={apart}",
                      f"board={BOARD}"]
        self.ports = [configurations.home_acct(options.base, realm)
                      for realm in (0, realms - 1)]

    def __enter__(self):
        self.process = subprocess.Popen(self.words, stdout=subprocess.PIPE, text=True,
                                        preexec_fn=end_with_parent)
        for port in self.ports:
            wait_for(self.process, port, "the home servers' process")
        time.sleep(0.2)
        return self

    def __exit__(self, *_):
        stop(self.process)
        self.counts = self.process.stdout.read()


class Broker:
    """A broker with a configuration of its own, while the block lasts; or until its own end, where
    `--let-end` is given: `seconds` after its start."""

    def __init__(self, options, realms, shards, seconds):
        self.seconds = seconds if options.let_end else 0
        write, command = configurations.BROKERS[options.broker]
        conf = write(DIRECTORY, options, realms, shards)
        command = options.command or command
        milliseconds = 1000 * (self.seconds or seconds + 60)
        self.words = command.format(conf=conf, ms=milliseconds, directory=DIRECTORY,
                                    repository=os.path.dirname(BENCH)).split()
        self.base = options.base
        self.processors = processors(options.broker_cpus)

    def __enter__(self):
        with open(LOG, "wb") as log:
            self.process = subprocess.Popen(self.words, stdout=log, stderr=log,
                                            preexec_fn=on_processors(self.processors))
        wait_for(self.process, self.base, self.words[0])
        time.sleep(0.5)
        return self

    def __exit__(self, fault, *_):
        if self.seconds and fault is None:
            try:
                self.process.wait(self.seconds + 60)
            except subprocess.TimeoutExpired:
                pass
        self.ended = self.process.poll()
        stop(self.process)


def refused_in(line):
    """Returns the number of the refusals that a line of the broker's log tells, and how many they are; None where it tells none."""
    found = re.search(rb"refused (\d+)(?:.*\((\d+) times\))?", line)
    return found and (int(found.group(1)), int(found.group(2) or 1))


def refusals():
    """Returns how often the broker's log tells each `refused N`."""
    counts = {}
    with open(LOG, "rb") as log:
        for line in log:
            if found := refused_in(line):
                number, count = found
                counts[number] = counts.get(number, 0) + count
    return ", ".join(f"{number}: {counts[number]}" for number in sorted(counts)) or "none"


def told():
    """Returns what the broker's log says of steps, of how often they were let go of, of lost packets and of dropped notices."""
    sums = {"steps": 0, "let go of": 0, "packets lost": 0, "notices dropped": 0}
    with open(LOG, "rb") as log:
        for line in log:
            if found := re.search(rb"ended after (\d+) steps, history cleared (\d+) times: audited", line):
                sums["steps"] += int(found.group(1))
                sums["let go of"] += int(found.group(2))
            elif found := re.search(rb"(\d+) packets lost ", line):
                sums["packets lost"] += int(found.group(1))
            elif found := re.search(rb"(\d+) notices dropped", line):
                sums["notices dropped"] += int(found.group(1))
    return ", ".join(f"{name} {count}" for name, count in sums.items())


def processor_seconds(process):
    """User and system time of a process so far, by its clock (CPUCLOCK_SCHED of a process)."""
    return time.clock_gettime((~process << 3) | 2)


def resident_mebibytes(process):
    with open(f"/proc/{process}/status", encoding="ascii") as file:
        return next(int(line.split()[1]) for line in file if line.startswith("VmRSS:")) / 1024


def load_words(mode, options, realms, via, process, **more):
    words = [os.path.join(BENCH, "load"), mode, f"via={via}", f"realms={realms}",
             f"board={BOARD}", f"pid={process}"]
    same = {"base": options.base, "turns": options.turns, "batch": options.batch,
            "rate": options.rate, "seed": options.seed, "threads": options.threads,
            "kind": options.kind, "wait": options.client_wait, "tries": options.client_tries,
            **more}
    return words + [f"{name}={value}" for name, value in same.items()]


def printed_by(words, seconds):
    """Returns the lines that the generator prints; they are added to `run/load.log`."""
    with open(PRINTED, "a", encoding="ascii") as log:
        log.write(" ".join(words) + "\n")
        process = subprocess.Popen(words, stdout=subprocess.PIPE, text=True,
                                   preexec_fn=end_with_parent)
        watch = threading.Timer(seconds + 120, process.kill)
        watch.start()
        for line in process.stdout:
            log.write(line)
            yield line
        watch.cancel()
        process.wait()


def load(words, seconds, shown=False):
    """Runs the generator and answers what it printed: values by section and name."""
    sections, section = {}, {}
    for line in printed_by(words, seconds):
        if shown:
            print(line, end="", flush=True)
        if line.startswith("["):
            section = sections.setdefault(line.strip("[]\n"), {})
        elif "=" in line:
            name, value = line.split("=", 1)
            section[name] = float(value)
    if "total" not in sections:
        sys.exit(f"the generator failed: {' '.join(words)}")
    return sections
