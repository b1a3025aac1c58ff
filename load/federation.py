#!/usr/bin/env python3
"""What a broker does in a federation, on loopback: a home server that is dead for a while, a loop, and Status-Server.

federation.py dead      requests at each of --rates while the first of two home servers is dead, and comes back
federation.py loop      one request for a realm whose home server is the broker itself
federation.py status    Status-Server of radclient, radsecproxy and FreeRADIUS
"""

import argparse
import os
import shutil
import subprocess
import sys
import time

import configurations
import processes
from loopback import HERE, Access, Home, Loop, Relay, Served, table, top, waited
from packets import ACCESS_ACCEPT, ACCESS_REJECT, ACCESS_REQUEST, ACCOUNTING_RESPONSE, STATUS_SERVER

PEER, HOMES = "peer-secret", ("home-secret-1", "home-secret-2")


def read_options():
    parser = argparse.ArgumentParser(description=__doc__, formatter_class=argparse.RawDescriptionHelpFormatter)
    parser.add_argument("mode", choices=["dead", "loop", "status"])
    parser.add_argument("--command", help="in which {conf} and {ms} are filled in")
    parser.add_argument("--rates", default="20,500", help="requests a second, with commas between them")
    numbers = {"base": 21000, "before": 5, "dead": 60, "after": 25, "tries": 2, "wait": 1000, "rest": 10000,
               "rest_after": 3, "max_hops": 10, "shards": 2, "seconds": 60}
    for name, default in numbers.items():
        parser.add_argument("--" + name.replace("_", "-"), type=int, default=default)
    return parser.parse_args()


def peer(**keys):
    return table("peer", name="peer", ip=HERE, secret=PEER, **keys)


def realm(options, name, number=0, **keys):
    return table("realm", name=name, out=f"{HERE}:{options.base + 10 + 2 * number}",
                 reverse=f"{HERE}:{options.base + 11 + 2 * number}", tries=options.tries, wait=options.wait, hold=5000,
                 max_pending=4096, max_sessions=100, **keys)


def server(port, secret, acct=None):
    return table("realm.server", auth=f"{HERE}:{port}", acct=f"{HERE}:{acct or port + 1}", secret=secret)


# A home server that is dead for a while

def dead_configuration(options):
    rest = {"rest": options.rest, "rest_after": options.rest_after} if options.rest else {}
    return (top(options.base, options.shards, trace_limit=100000) + peer() + realm(options, "a.example", **rest)
            + server(options.base + 1000, HOMES[0]) + server(options.base + 1002, HOMES[1]))


def share_over_a_second(requests):
    over = sum(waited(request) > 1 for request in requests)
    return f"{over} of {len(requests)} ({100 * over / max(1, len(requests)):.2f} %)"


def dead(options):
    print("| requests/s | asked | unanswered | bad | over a second before | in the first tries x wait | after that | "
          "first server: asked while dead | answered again after s |")
    print("|" + "---|" * 9)
    for rate in (int(number) for number in options.rates.split(",")):
        dead_at_one_rate(options, rate)
    return 0


def dead_at_one_rate(options, rate):
    falls, back = options.before, options.before + options.dead
    end = back + options.after
    with Served(options, dead_configuration(options), end + 20), Loop() as loop:
        first, _second = (Home(loop, options.base + 1000 + 2 * n, HOMES[n]) for n in (0, 1))
        access = Access(loop, (HERE, options.base), (HERE, options.base + 1), PEER)
        counts = {}
        begin = loop.now() + 0.5

        def falls_silent():
            first.is_silent, counts["before"] = True, first.asked

        def comes_back():
            first.is_silent, counts["while dead"] = False, first.asked - counts["before"]
            counts["answers"], counts["returned"] = first.answered, loop.now()

        def look():
            if first.answered > counts.get("answers", 1 << 60):
                counts.setdefault("again", loop.now() - counts["returned"])

        def ask(number):
            access.ask("u@a.example")
            look()
            if number + 1 < rate * end:
                loop.at(begin + (number + 1) / rate, lambda: ask(number + 1))

        loop.at(begin, lambda: ask(0))
        loop.at(begin + falls, falls_silent)
        loop.at(begin + back, comes_back)
        loop.run_until(begin + end + 2 * options.tries * options.wait / 1000 + 2)
    settled = falls + options.tries * options.wait / 1000
    spans = [(0, falls), (falls, settled), (settled, end)]
    shares = [share_over_a_second([one for one in access.asked if low <= one["asked"] - begin < high])
              for low, high in spans]
    unanswered = sum(one["answer"] is None for one in access.asked)
    again = f"{counts['again']:.1f}" if "again" in counts else "never"
    print(f"| {rate} | {len(access.asked)} | {unanswered} | {access.bad} | {shares[0]} | {shares[1]} | {shares[2]} | "
          f"{counts['while dead']} | {again} |", flush=True)


# A loop

def loop_of_one(options):
    relay_port = options.base + 1000
    hops = options.max_hops or None
    text = (top(options.base, options.shards, trace_limit=100000, max_hops=hops) + peer()
            + realm(options, "loop.example") + server(relay_port, PEER))
    with Served(options, text, 30), Loop() as loop:
        relay = Relay(loop, relay_port, (HERE, options.base))
        access = Access(loop, (HERE, options.base), (HERE, options.base + 1), PEER)
        begin = loop.now()
        request = access.ask("u@loop.example")
        loop.run_until(begin + 2 * options.tries * options.wait / 1000 + 2)
    answer = request["answer"]
    said = {ACCESS_ACCEPT: "accepted", ACCESS_REJECT: "rejected"}.get(answer[0]) if answer else "unanswered"
    print(f"max_hops {hops}: the broker sent {relay.asked.get(ACCESS_REQUEST, 0)} datagrams to itself for one request; "
          f"it was {said} after {1000 * waited(request):.0f} ms; answers that came back: {relay.answered}")
    return 0


# Status-Server

def radclient(port):
    words = ["radclient", "-q", "-c", "1", "-r", "1", "-t", "2", f"{HERE}:{port}", "status", PEER]
    done = subprocess.run(words, input="Message-Authenticator = 0x00\n", text=True, capture_output=True, timeout=20,
                          check=False)
    return "answered" if done.returncode == 0 else f"not answered: {done.stdout}{done.stderr}"


RADSECPROXY = """ListenUDP {here}:{listen}
SourceUDP {here}:*
LogLevel 1
client nas {{
  host {here}
  type udp
  secret nas
}}
server upward {{
  host {here}
  port {port}
  type udp
  secret {secret}
  statusserver on
}}
realm * {{
  server upward
}}
"""

FREERADIUS_PROXY = """
home_server upward {{
  type = auth
  ipaddr = {here}
  port = {port}
  secret = {secret}
  response_window = 1
  zombie_period = 20
  status_check = status-server
  check_interval = 6
  num_answers_to_alive = 3
}}
home_server_pool upward {{
  type = fail-over
  home_server = upward
}}
realm a.example {{
  auth_pool = upward
  nostrip
}}
client nas {{
  ipaddr = {here}
  secret = nas
}}
"""


def started(words, name):
    log = open(os.path.join(processes.DIRECTORY, name + ".log"), "wb")
    return subprocess.Popen(words, stdout=log, stderr=log, preexec_fn=processes.end_with_parent)


def status(options):
    base, relays = options.base, (options.base + 1010, options.base + 1011)
    text = (top(base, options.shards, trace_limit=100000, status_server=True) + peer() + realm(options, "a.example")
            + server(base + 1000, HOMES[0]))
    os.makedirs(processes.DIRECTORY, exist_ok=True)
    proxy = os.path.join(processes.DIRECTORY, "status-radsecproxy.conf")
    with open(proxy, "w", encoding="ascii") as file:
        file.write(RADSECPROXY.format(here=HERE, listen=base + 1020, port=relays[0], secret=PEER))
    free = os.path.join(processes.DIRECTORY, "status-freeradius")
    shutil.rmtree(free, ignore_errors=True)
    os.makedirs(free)
    with open(os.path.join(free, "radiusd.conf"), "w", encoding="ascii") as file:
        file.write(configurations.FREERADIUS.format(directory=free, auth=base + 1030, acct=base + 1031)
                   + FREERADIUS_PROXY.format(here=HERE, port=relays[1], secret=PEER))
    with Served(options, text, options.seconds + 30), Loop() as loop:
        for place, port in (("auth", base), ("acct", base + 1)):
            print(f"radclient's status at {place}: {radclient(port)}")
        front = [Relay(loop, port, (HERE, base)) for port in relays]
        running = [started(["radsecproxy", "-f", "-c", proxy, "-i", proxy + ".pid"], "status-radsecproxy"),
                   started(["freeradius", "-f", "-X", "-d", free, "-n", "radiusd"], "status-freeradius")]
        try:
            loop.run_until(loop.now() + 3)
            # The realm's home server is silent, so that FreeRADIUS takes the broker for a zombie and looks.
            nas = Access(loop, (HERE, base + 1030), (HERE, base + 1031), "nas")
            nas.ask("u@a.example")
            loop.run_until(loop.now() + options.seconds)
        finally:
            for process in running:
                processes.stop(process)
    for name, relay in zip(("radsecproxy", "FreeRADIUS"), front):
        print(f"{name}: {relay.asked.get(STATUS_SERVER, 0)} Status-Servers, "
              f"{relay.answered.get(ACCESS_ACCEPT, 0)} Access-Accepts")
    with open(os.path.join(processes.DIRECTORY, "status-freeradius.log"), "rb") as log:
        marks = [line for line in log.read().decode(errors="replace").split("\n") if "arking home server" in line]
    print("FreeRADIUS:", "; ".join(marks) or "marked nothing")
    return 0


def main():
    options = read_options()
    return {"dead": dead, "loop": loop_of_one, "status": status}[options.mode](options)


if __name__ == "__main__":
    sys.exit(main())
