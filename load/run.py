#!/usr/bin/env python3
"""Measures a RADIUS forwarding server on loopback: see README.md beside this file."""

import argparse
import copy
import os
import statistics
import subprocess
import sys
import time

import configurations
from prober import Prober
from processes import (BENCH, DIRECTORY, LOG, Broker, Homes, load, load_words, processor_seconds,
                       processors, refusals, resident_mebibytes, told)

RATIO_WANTED, COST_WANTED = 0.35, 4.2


def read_options():
    parser = argparse.ArgumentParser(description=__doc__)
    parser.add_argument("mode", choices=["table", "interference", "soak", "mutated", "idle",
                                         "pauses", "beside", "counts"])
    parser.add_argument("--broker", choices=configurations.BROKERS, default="roam")
    parser.add_argument("--command", help="in which {conf} and {ms} are filled in")
    parser.add_argument("--realms", default=None, help="numbers with commas between them")
    parser.add_argument("--shards", default=None, help="numbers with commas between them")
    parser.add_argument("--flood-rates", help="0 for as fast as it goes; with commas")
    parser.add_argument("--broker-cpus", default="", help="the processors of the broker, as 0,1")
    parser.add_argument("--load-cpus", default="", help="those of load and home servers")
    parser.add_argument("--old", help="the command of an older roam, for `beside`")
    parser.add_argument("--beside", default="radsecproxy", help="other brokers, for `beside`")
    parser.add_argument("--kind", choices=["access", "accounting"], default="access")
    numbers = {"seconds": 0, "rounds": 1, "rate": 4000, "outstanding": 16, "turns": 4,
               "batch": 64, "base": 20000, "trace_limit": 1000000, "tries": 2, "wait": 1000,
               "hold": 5000, "max_pending": 1024, "max_sessions": 1000, "client_wait": 1000,
               "client_tries": 5, "count": 100000, "mutated_rate": 2000, "spoilt": 100,
               "seed": 1, "threads": 0, "let_end": 0, "spread": 0, "trace_octets": 0}
    for name, default in numbers.items():
        parser.add_argument("--" + name.replace("_", "-"), type=int, default=default)
    return parser.parse_args()


def one_round(options, realms, shards):
    """Direct and through the broker, in closed loop and paced, one after the other."""
    seconds = options.seconds or 5
    bound = 8 * (seconds + 12) + 60
    found = {}
    with Homes(options, realms, bound):
        for via in ("direct", "broker"):
            broker = Broker(options, realms, shards, bound) if via == "broker" else None
            with broker or open(os.devnull):
                process = broker.process.pid if broker else 0
                for mode in ("closed", "paced"):
                    more = {"outstanding": options.outstanding} if mode == "closed" else {}
                    words = load_words(mode, options, realms, via, process, seconds=seconds,
                                       **more)
                    found[via, mode] = load(words, seconds)
                    if "broker_ended" in found[via, mode]["total"]:
                        sys.exit(f"the broker ended, status {broker.process.poll()}; see {LOG}")
    return found


def middle(rounds, via, mode, name, section=None):
    return statistics.median(round[via, mode][section or mode].get(name, 0) for round in rounds)


def lost_and_bad(rounds, mode):
    """Over all rounds, of what went through the broker: lost, resent, bad."""
    return [sum(int(round["broker", mode]["total"][name]) for round in rounds)
            for name in ("lost", "resent", "bad")]


CLOSED_HEAD = ["shards", "realms", "direct /s", "broker /s", "ratio", "home us (direct)",
               "home us", "broker us", "broker/home (direct)", "broker/home", "generator us",
               "p50 us", "p99 us", "direct p50", "direct p99", "lost", "resent", "bad",
               "memory MiB", "stolen % (direct)", "stolen %"]
PACED_HEAD = ["shards", "realms", "p50 us", "p99 us", "direct p50", "direct p99", "broker us",
              "home us", "home us (direct)", "lost", "resent", "bad", "memory MiB",
              "stolen % (direct)", "stolen %"]


def latencies(rounds, mode):
    return [f"{middle(rounds, via, mode, name):.0f}" for via in ("broker", "direct")
            for name in ("p50_us", "p99_us")]


def stolen(rounds, mode):
    return [f"{middle(rounds, via, mode, 'stolen_percent'):.0f}" for via in ("direct", "broker")]


def share(part, whole):
    return f"{part / whole:.2f}" if whole else "-"


def closed_row(rounds, realms, shards):
    direct = middle(rounds, "direct", "closed", "exchanges_a_second")
    broker = middle(rounds, "broker", "closed", "exchanges_a_second")
    home_direct = middle(rounds, "direct", "closed", "home_us")
    home, used, generator = (middle(rounds, "broker", "closed", name)
                             for name in ("home_us", "broker_us", "generator_us"))
    memory = middle(rounds, "broker", "closed", "broker_memory_kib") / 1024
    return [shards, realms, f"{direct:.0f}", f"{broker:.0f}", share(broker, direct),
            f"{home_direct:.2f}", f"{home:.2f}", f"{used:.2f}", share(used, home_direct),
            share(used, home), f"{generator:.2f}", *latencies(rounds, "closed"),
            *lost_and_bad(rounds, "closed"), f"{memory:.0f}", *stolen(rounds, "closed")]


def paced_row(rounds, realms, shards):
    memory = middle(rounds, "broker", "paced", "broker_memory_kib") / 1024
    used = [middle(rounds, via, "paced", name) for via, name in
            (("broker", "broker_us"), ("broker", "home_us"), ("direct", "home_us"))]
    return [shards, realms, *latencies(rounds, "paced"), *(f"{time:.1f}" for time in used),
            *lost_and_bad(rounds, "paced"), f"{memory:.0f}", *stolen(rounds, "paced")]


def print_row(cells):
    print("| " + " | ".join(str(cell) for cell in cells) + " |", flush=True)


def print_head(head):
    print_row(head)
    print_row(["---"] * len(head))


def numbers_of(text, default):
    return [int(number) for number in (text or default).split(",")]


def table(options):
    notes, paced = [], []
    print("Closed loop:\n")
    print_head(CLOSED_HEAD)
    for shards in numbers_of(options.shards, "1,2,3" if options.broker == "roam" else "1"):
        for realms in numbers_of(options.realms, "1,8,64,256"):
            rounds = [one_round(options, realms, shards) for _ in range(options.rounds)]
            print_row(closed_row(rounds, realms, shards))
            paced.append(paced_row(rounds, realms, shards))
            notes.append(f"{shards} shards, {realms} realms: "
                         + busiest_threads(rounds[-1]["broker", "closed"]["closed"]))
    print(f"\nWanted: a ratio of at least {RATIO_WANTED}, broker/home at most {COST_WANTED}.")
    print(f"\nPaced, {options.rate} a second:\n")
    print_head(PACED_HEAD)
    for row in paced:
        print_row(row)
    if options.threads:
        print("\nThe broker's busiest threads, us an exchange in closed loop:\n")
        print("\n".join(f"- {note}" for note in notes))
    return 0


def busiest_threads(section):
    times = {name[10:]: value for name, value in section.items() if name.startswith("thread_us_")}
    names = sorted(times, key=times.get, reverse=True)[:8]
    return ", ".join(f"{name} {times[name]:.2f}" for name in names)


def through_broker(options, mode, bound, **more):
    """Returns one run of the generator through the broker, which lasts `bound` seconds at most."""
    realms = numbers_of(options.realms, "8")[0]
    shards = numbers_of(options.shards, "2")[0]
    with Homes(options, realms, bound + 60, int(mode == "interference")) as homes:
        with Broker(options, realms, shards, bound) as broker:
            words = load_words(mode, options, realms, "broker", broker.process.pid, **more)
            ran = load(words, bound, shown=mode != "interference")
    print()
    print(homes.counts, end="")
    print(f"broker: {'still ran' if broker.ended is None else f'ended, status {broker.ended}'}")
    print(f"refused, by number: {refusals()}")
    print(f"told: {told()}\n", flush=True)
    return ran


INTERFERENCE_HEAD = ["flood /s", "way", "realm 0", "others /s", "p50 us", "p99 us", "longest us", "resent",
                     "lost", "skipped", "bad", "dropped at broker", "broker us", "realm 0 sent",
                     "answered", "stolen %"]


def interference_row(rate, way, label, section):
    names = ["exchanges_a_second", "p50_us", "p99_us", "longest_us", "resent", "lost", "skipped",
             "bad", "dropped_at_broker", "broker_us", "realm0_sent", "realm0_answered",
             "stolen_percent"]
    return ([rate or "all it can", way, label]
            + [f"{section.get(name, 0):.0f}" for name in names])


def direct(options, mode, bound, **more):
    """Returns the same run without a broker: what of it the machine itself does."""
    realms = numbers_of(options.realms, "8")[0]
    with Homes(options, realms, bound + 60, int(mode == "interference")):
        return load(load_words(mode, options, realms, "direct", 0, **more), bound, shown=False)


def interference(options):
    seconds = options.seconds or 5
    bound = 7 * (seconds + 9) + 10
    rows = []
    for rate in numbers_of(options.flood_rates, "20000,0"):
        for way, run in (("direct", direct), ("broker", through_broker)):
            ran = run(options, "interference", bound, seconds=seconds, flood_rate=rate)
            rows += [interference_row(rate, way, label, section)
                     for label, section in ran.items() if label != "total"]
    print_head(INTERFERENCE_HEAD)
    for row in rows:
        print_row(row)
    return 0


def soak(options):
    seconds = options.seconds or 3600
    ran = through_broker(options, "soak", seconds + 15, seconds=seconds,
                         outstanding=max(64, options.outstanding))
    return int(ran["total"]["lost"] + ran["total"]["bad"] > 0)


def mutated(options):
    bound = options.count // options.mutated_rate + 20
    ran = through_broker(options, "mutated", bound, count=options.count,
                         mutated_rate=options.mutated_rate, spoilt=options.spoilt)
    return int("broker_ended" in ran["total"] or ran["total"]["bad"] > 0)


def others_of(options):
    """Returns the brokers that are measured beside each other: a name, and the options of each."""
    found = [("roam", options)]
    if options.old:
        old = copy.copy(options)
        old.command, old.spread, old.trace_octets = options.old, 0, 0
        found.append(("old roam", old))
    for name in filter(None, options.beside.split(",")):
        other = copy.copy(options)
        other.broker, other.command = name, None
        found.append((name, other))
    return found


BESIDE_HEAD = ["round", "realms", "shards", "broker", "closed /s", "of direct", "broker us",
               "p50 us", "p99 us", "at the rate: p50 us", "p99 us", "of direct's p50", "lost",
               "resent", "memory MiB", "stolen %"]


def beside_row(number, realms, shards, name, ran, way, direct):
    closed, paced = ran[way, "closed"], ran[way, "paced"]
    exchanges = closed["closed"]["exchanges_a_second"]
    return [number, realms, shards, name, f"{exchanges:.0f}",
            share(exchanges, direct["closed"]["closed"]["exchanges_a_second"]),
            f"{closed['closed'].get('broker_us', 0):.2f}",
            *(f"{section[key]:.0f}" for section in (closed["closed"], paced["paced"])
              for key in ("p50_us", "p99_us")),
            share(paced["paced"]["p50_us"], direct["paced"]["paced"]["p50_us"]),
            int(closed["total"]["lost"] + paced["total"]["lost"]),
            int(closed["total"]["resent"] + paced["total"]["resent"]),
            f"{closed['closed'].get('broker_memory_kib', 0) / 1024:.0f}",
            f"{closed['closed']['stolen_percent']:.0f}"]


def beside(options):
    """Direct, this broker, an older one and others, one after the other in each round."""
    print_head(BESIDE_HEAD)
    for realms in numbers_of(options.realms, "8"):
        for shards in numbers_of(options.shards, "2"):
            for number in range(options.rounds):
                for name, one in others_of(options):
                    ran = one_round(one, realms, shards)
                    direct = {mode: ran["direct", mode] for mode in ("closed", "paced")}
                    if name == "roam":
                        print_row(beside_row(number, realms, shards, "direct", ran, "direct", direct))
                    print_row(beside_row(number, realms, shards, name, ran, "broker", direct))
    return 0


# What the ways of `counts` add to the configuration, by name.
COUNTED = {"neither": ["log_exchanges = false"],
           "counts": ["log_exchanges = false", f'control = "{DIRECTORY}/control"'],
           "counts and lines": [f'control = "{DIRECTORY}/control"']}


def counts(options):
    """Returns what counting costs, and a line for each exchange: the closed loop with neither, with counts, and with both, by
    turns."""
    seconds = options.seconds or 5
    realms = numbers_of(options.realms, "8")[0]
    shards = numbers_of(options.shards, "2")[0]
    found = {way: [] for way in COUNTED}
    print_head(["round", "way", "closed /s", "broker us", "lost", "stolen %"])
    for number in range(options.rounds):
        for way, top in COUNTED.items():
            options.top = top
            with Homes(options, realms, seconds + 60):
                with Broker(options, realms, shards, seconds + 30) as broker:
                    words = load_words("closed", options, realms, "broker", broker.process.pid,
                                       seconds=seconds, outstanding=options.outstanding)
                    ran = load(words, seconds)
            closed = ran["closed"]
            found[way].append((closed["exchanges_a_second"], closed["broker_us"]))
            print_row([number, way, f"{closed['exchanges_a_second']:.0f}", f"{closed['broker_us']:.2f}",
                       int(ran["total"]["lost"]), f"{closed['stolen_percent']:.0f}"])
    without = [statistics.median(column) for column in zip(*found["neither"])]
    for way, rounds in found.items():
        rate, cost = (statistics.median(column) for column in zip(*rounds))
        print(f"{way}: {rate:.0f} /s ({share(rate, without[0])}), {cost:.2f} us ({share(cost, without[1])})")
    return 0


def idle(options):
    """Processor time of a broker to which nobody sends anything."""
    seconds = options.seconds or 10
    print_head(["shards", "realms", "of a processor", "memory MiB"])
    for shards in numbers_of(options.shards, "1,2,3"):
        for realms in numbers_of(options.realms, "8"):
            with Broker(options, realms, shards, seconds + 5) as broker:
                time.sleep(1)
                process = broker.process.pid
                begin, used = time.monotonic(), processor_seconds(process)
                time.sleep(seconds)
                used = processor_seconds(process) - used
                share_used = used / (time.monotonic() - begin)
                memory = resident_mebibytes(process)
            print_row([shards, realms, f"{100 * share_used:.2f} %", f"{memory:.0f}"])
    return 0


def pauses(options):
    """Returns the longest times in which nobody is answered while steps are let go of, at `--rate` exchanges a second."""
    seconds = options.seconds or 20
    realms = numbers_of(options.realms, "8")[0]
    shards = numbers_of(options.shards, "2")[0]
    with Homes(options, realms, seconds + 80):
        with Broker(options, realms, shards, seconds + 20) as broker:
            prober = Prober(options.base, seconds)
            prober.start()
            words = load_words("paced", options, realms, "broker", broker.process.pid,
                               seconds=seconds)
            ran = load(words, seconds)["paced"]
            prober.join()
    middle = statistics.median(wait for wait, _ in prober.waits)
    print(f"probes answered {len(prober.waits)}, not {len(prober.sent)}, half of them within "
          f"{1e6 * middle:.0f} us; the longest waits:")
    for wait, asked in prober.longest(10):
        print(f"- at {asked:.1f} s: {1e3 * wait:.1f} ms")
    print(f"told: {told()}")
    print(", ".join(f"{name} {value:g}" for name, value in ran.items()))
    return 0


def main():
    options = read_options()
    os.makedirs(DIRECTORY, exist_ok=True)
    subprocess.run(["make", "-s", "-C", BENCH, "all", "test"], check=True)
    if options.load_cpus:
        os.sched_setaffinity(0, processors(options.load_cpus))
    return {"table": table, "beside": beside, "interference": interference, "soak": soak,
            "mutated": mutated, "idle": idle, "pauses": pauses, "counts": counts}[options.mode](options)


if __name__ == "__main__":
    sys.exit(main())
