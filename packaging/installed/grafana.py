#!/usr/bin/env python3
"""Makes the dashboard of Grafana for roam's metrics, checks it, and draws it.

    grafana.py write              writes grafana.json from the panels below
    grafana.py check [FILE]       says what a dashboard lacks that Grafana wants, and which metric roam doesn't have; and
                                  whether grafana.json and its picture are what is below. Ends with 1 where something is
    grafana.py record PROGRAM     has PROGRAM serve some minutes of made-up traffic on loopback and a real Prometheus ask
                                  it, and writes what that has of each panel to docs/pictures/dashboard.data
    grafana.py draw               draws docs/pictures/dashboard.svg from that

`record` needs prometheus (Debian has it). Grafana itself isn't needed by any of them.
"""
import collections
import hashlib
import html
import json
import math
import os
import pathlib
import re
import select
import socket
import struct
import subprocess
import sys
import tempfile
import threading
import time
import urllib.parse
import urllib.request

HERE = pathlib.Path(__file__).resolve().parent
ROOT = HERE.parent.parent
FILE = HERE / "grafana.json"
DATA = ROOT / "docs" / "pictures" / "dashboard.data"
PICTURE = ROOT / "docs" / "pictures" / "dashboard.svg"
SOURCE = {"type": "prometheus", "uid": "${source}"}
HERE_AND_REALM = 'instance=~"$instance",realm=~"$realm"'
HERE_ALONE = 'instance=~"$instance"'

# Each panel: its title, its kind, its unit, how many of 24 columns it is wide and how high, and its series as an
# expression with the legend. IR stands for the labels of the instance and the realm that are chosen, I for the instance.
PANELS = [
    ("Up for", "stat", "s", 5, 3, [("time() - process_start_time_seconds{I}", "{{instance}}")]),
    ("Version", "stat", "none", 5, 3, [("roam_build_info{I}", "{{version}}")]),
    ("Last reload, ago", "stat", "s", 7, 3, [("time() - roam_last_reload_timestamp_seconds{I}", "{{outcome}}")]),
    ("Packets lost in the last hour", "stat", "short", 7, 3, [("sum(increase(roam_lost_packets_total{I}[1h]))", "lost")]),
    ("Requests by realm", "timeseries", "reqps", 8, 8,
     [("sum by (realm) (rate(roam_realm_requests_total{IR}[$__rate_interval]))", "{{realm}}")]),
    ("Replies returned", "timeseries", "reqps", 8, 8,
     [("sum by (code) (rate(roam_realm_returned_total{IR}[$__rate_interval]))", "{{code}}")]),
    ("Given up, failed over", "timeseries", "reqps", 8, 8,
     [("sum by (realm) (rate(roam_realm_given_up_total{IR}[$__rate_interval]))", "{{realm}}: given up"),
      ("sum by (realm) (rate(roam_realm_failed_over_total{IR}[$__rate_interval]))", "{{realm}}: failed over")]),
    ("Answer time of home servers, 95 %", "timeseries", "s", 8, 8,
     [("histogram_quantile(0.95, sum by (le, realm, server) (rate(roam_server_answer_seconds_bucket{IR}[$__rate_interval])))",
       "{{server}}")]),
    ("Home servers marked dead", "state-timeline", "none", 8, 8,
     [("max by (realm, server, service) (roam_server_rests{IR})", "{{server}} {{service}}")]),
    ("Identifiers in use, of 256 for each out", "timeseries", "none", 8, 8,
     [("max by (server, service) (roam_server_identifiers_in_use{IR})", "{{server}} {{service}}")]),
    ("Waiting requests, of max_pending", "timeseries", "percentunit", 8, 8,
     [("max by (realm) (roam_realm_waiting_requests{IR} / roam_realm_max_pending{IR})", "{{realm}}")]),
    ("Open sessions", "timeseries", "none", 8, 8, [("max by (realm) (roam_realm_sessions{IR})", "{{realm}}")]),
    ("Reloads", "timeseries", "none", 8, 8, [("sum by (outcome) (roam_reloads_total{I})", "{{outcome}}")]),
    ("Dropped from clients, by number (page REFUSALS)", "timeseries", "reqps", 12, 8,
     [("sum by (peer, number) (rate(roam_peer_refusals_total{I}[$__rate_interval]))", "{{peer}}: {{number}}")]),
    ("Dropped from home servers, by number (page REFUSALS)", "timeseries", "reqps", 12, 8,
     [("sum by (server, number) (rate(roam_server_refusals_total{IR}[$__rate_interval]))", "{{server}}: {{number}}")]),
]


def labelled(expression: str) -> str:
    return expression.replace("{IR}", "{%s}" % HERE_AND_REALM).replace("{I}", "{%s}" % HERE_ALONE)


def places() -> list[tuple[int, int, int, int]]:
    """Returns where each panel stands: from the left to the right, row under row."""
    found, x, y, high = [], 0, 0, 0
    for _, _, _, wide, height, _ in PANELS:
        if x + wide > 24:
            x, y = 0, y + high
        found.append((x, y, wide, height))
        x, high = x + wide, height
    return found


def panel(number: int) -> dict:
    title, kind, unit, _, _, series = PANELS[number]
    x, y, wide, high = places()[number]
    options: dict = {"legend": {"displayMode": "list", "placement": "bottom", "showLegend": True},
                     "tooltip": {"mode": "multi", "sort": "desc"}}
    defaults: dict = {"unit": unit, "min": 0, "custom": {}}
    if kind == "stat":
        name = title == "Version"
        options = {"reduceOptions": {"calcs": ["lastNotNull"], "fields": "", "values": False}, "colorMode": "none",
                   "textMode": "name" if name else "auto", "graphMode": "none", "orientation": "auto"}
    elif kind == "state-timeline":
        options = {"showValue": "never", "mergeValues": True, "rowHeight": 0.8, "tooltip": {"mode": "single"},
                   "legend": {"displayMode": "list", "placement": "bottom", "showLegend": True}}
        defaults["mappings"] = [{"type": "value", "options": {"0": {"text": "asked", "color": "green", "index": 0},
                                                              "1": {"text": "dead", "color": "orange", "index": 1}}}]
        defaults["custom"] = {"fillOpacity": 80, "lineWidth": 0}
    else:
        defaults["custom"] = {"drawStyle": "line", "lineWidth": 2, "fillOpacity": 8, "showPoints": "never",
                              "spanNulls": False}
    if "of 256" in title:
        defaults["custom"]["axisSoftMax"] = 256
    return {
        "id": number + 1, "type": kind, "title": title, "datasource": SOURCE,
        "gridPos": {"x": x, "y": y, "w": wide, "h": high},
        "fieldConfig": {"defaults": defaults, "overrides": []}, "options": options,
        "targets": [{"refId": chr(65 + at), "datasource": SOURCE, "editorMode": "code", "range": True,
                     "expr": labelled(expression), "legendFormat": legend} for at, (expression, legend) in enumerate(series)],
    }


def variable(name: str, label: str, query: str) -> dict:
    return {"type": "query", "name": name, "label": label, "datasource": SOURCE, "definition": query,
            "query": {"query": query, "refId": name}, "refresh": 2, "sort": 1, "includeAll": True, "multi": True,
            "allValue": ".*", "current": {"selected": True, "text": ["All"], "value": ["$__all"]}}


def dashboard() -> dict:
    return {
        "uid": "roam", "title": "roam", "tags": ["radius"], "schemaVersion": 38, "version": 1, "editable": True,
        "timezone": "browser", "refresh": "30s", "time": {"from": "now-6h", "to": "now"}, "graphTooltip": 1,
        "annotations": {"list": [{
            "name": "Reloads", "datasource": SOURCE, "enable": True, "iconColor": "blue",
            "expr": labelled("changes(roam_reloads_total{I}[1m]) > 0"), "titleFormat": "reload: {{outcome}}"}]},
        "templating": {"list": [
            {"type": "datasource", "name": "source", "label": "Prometheus", "query": "prometheus", "current": {}},
            variable("instance", "Server", "label_values(roam_build_info, instance)"),
            variable("realm", "Realm", "label_values(roam_realm_max_pending{instance=~\"$instance\"}, realm)")]},
        "panels": [panel(number) for number in range(len(PANELS))],
    }


def written() -> str:
    return json.dumps(dashboard(), indent=2, ensure_ascii=False) + "\n"


# What a dashboard of schema 38 (Grafana 10) and a panel must have, and of which type: as its pages describe it, since no
# Grafana was at hand.
TOP = {"title": str, "schemaVersion": int, "panels": list, "templating": dict, "time": dict, "editable": bool,
       "annotations": dict, "uid": str}
OF_PANEL = {"id": int, "type": str, "title": str, "gridPos": dict, "targets": list, "fieldConfig": dict,
            "options": dict, "datasource": dict}
KINDS = {"stat", "timeseries", "state-timeline", "gauge", "bargauge", "table", "text", "row"}
UNITS = {"s", "none", "short", "reqps", "percentunit"}


def lacking(what: dict, wanted: dict, where: str) -> list[str]:
    return [f"{where}: {key}: is missing, or no {kind.__name__}" for key, kind in wanted.items()
            if not isinstance(what.get(key), kind)]


def metrics_known() -> set[str]:
    """Returns the names of all metrics that the sources have."""
    sources = (ROOT / "crates" / "roam_metrics" / "src").glob("*.rt")
    text = "\n".join(source.read_text(encoding="utf-8") for source in sources)
    names = set(re.findall(r'"((?:roam|process)_[a-z_]+)"', text))
    return names | {name + end for name in names for end in ("_bucket", "_sum", "_count")}


def faults_of_panel(one: dict, known: set[str], variables: set[str]) -> list[str]:
    where = f"panel {one.get('title')}"
    faults = lacking(one, OF_PANEL, where)
    if faults:
        return faults
    if one["type"] not in KINDS:
        faults.append(f"{where}: no kind of panel: {one['type']}")
    if one["fieldConfig"].get("defaults", {}).get("unit", "none") not in UNITS:
        faults.append(f"{where}: no unit")
    place = one["gridPos"]
    if not all(isinstance(place.get(key), int) and place[key] >= 0 for key in "xywh") or place["x"] + place["w"] > 24:
        faults.append(f"{where}: it stands outside of 24 columns")
    if len({target.get("refId") for target in one["targets"]}) != len(one["targets"]):
        faults.append(f"{where}: two series of one refId")
    for target in one["targets"]:
        text = target.get("expr", "")
        faults += [f"{where}: roam has no {name}" for name in re.findall(r"\b(?:roam|process)_[a-z_]+", text) if name not in known]
        faults += [f"{where}: no variable ${name}" for name in re.findall(r"\$(\w+)", text)
                   if name not in variables | {"__rate_interval", "__interval", "__range"}]
        if text.count("(") != text.count(")") or not text:
            faults.append(f"{where}: no expression: {text}")
    return faults


def overlap(panels: list[dict]) -> list[str]:
    taken: dict = {}
    faults = []
    for one in panels:
        place = one.get("gridPos", {})
        for x in range(place.get("x", 0), place.get("x", 0) + place.get("w", 0)):
            for y in range(place.get("y", 0), place.get("y", 0) + place.get("h", 0)):
                other = taken.setdefault((x, y), one.get("title"))
                if other != one.get("title"):
                    return [f"{one.get('title')} lies over {other}"]
    return faults


def faults_of(text: str) -> list[str]:
    try:
        what = json.loads(text)
    except ValueError as error:
        return [f"no JSON: {error}"]
    faults = lacking(what, TOP, "the dashboard")
    if faults:
        return faults
    variables = {one.get("name") for one in what["templating"].get("list", [])}
    ids = [one.get("id") for one in what["panels"]]
    if len(set(ids)) != len(ids):
        faults.append("two panels of one id")
    known = metrics_known()
    for one in what["panels"]:
        faults += faults_of_panel(one, known, variables)
    return faults + overlap(what["panels"])


def check(words: list[str]) -> int:
    file = pathlib.Path(words[0]) if words else FILE
    faults = faults_of(file.read_text(encoding="utf-8"))
    if file.resolve() == FILE:
        if file.read_text(encoding="utf-8") != written():
            faults.append("grafana.json isn't what grafana.py has: run grafana.py write")
        if PICTURE.read_text(encoding="utf-8") != drawing(json.loads(DATA.read_text(encoding="utf-8"))):
            faults.append("dashboard.svg isn't what dashboard.data gives: run grafana.py draw")
    for fault in faults:
        print(f"{file.name}: {fault}", file=sys.stderr)
    return int(bool(faults))


# Traffic that is made up. Three realms: of the first the first home server keeps silent for a while; the second one's
# server is slow; of the third nobody is asked. One peer signs with another secret for a while.
PORT, HOME, METRICS, PROMETHEUS = 18520, 28520, 19814, 19092
SECONDS = 150
NAMES = ["uni.example", "college.example", "elsewhere.invalid"]
CONF = """shards = 2
seed = "{zeros}"
auth = "127.0.0.1:{port}"
acct = "127.0.0.1:{acct}"
trace_limit = 10000
metrics = "127.0.0.1:{metrics}"
control = "{control}"
log_exchanges = false

[[peer]]
name = "campus-wlc"
ip = "127.0.0.1"
secret = "a-secret-of-peers"

[[peer]]
name = "city-wlc"
ip = "127.0.0.2"
secret = "a-secret-of-peers"
"""
REALM = """
[[realm]]
name = "{name}"
out = "127.0.0.1:{out}"
reverse = "127.0.0.1:{reverse}"
tries = 2
wait = 1000
rest = 15000
rest_after = 3
hold = 2000
max_pending = 1024
max_sessions = 5000
"""
SERVER = """
[[realm.server]]
auth = "127.0.0.1:{auth}"
acct = "127.0.0.1:{acct}"
secret = "a-secret-of-home"
"""
SILENT, WRONG, RELOAD = range(50, 85), range(90, 115), 120


def attribute(kind: int, value: bytes) -> bytes:
    return bytes([kind, len(value) + 2]) + value


class Home(threading.Thread):
    """A home server of these ports: accepts four of five, and takes accounting; so long after they came."""

    def __init__(self, port: int, delay: float, begin: float, silent: range):
        super().__init__(daemon=True)
        self.delay, self.begin, self.silent = delay, begin, silent
        self.waiting: collections.deque = collections.deque()
        self.socket = socket.socket(socket.AF_INET, socket.SOCK_DGRAM)
        self.socket.bind(("127.0.0.1", port))

    def answer(self, packet: bytes, source) -> None:
        states, at = b"", 20
        while at + 2 <= len(packet):
            if packet[at] == 33:
                states += packet[at:at + packet[at + 1]]
            at += packet[at + 1]
        code = 5 if packet[0] == 4 else (3 if packet[6] % 5 == 0 else 2)
        head = struct.pack("!BBH", code, packet[1], 20 + len(states))
        sealed = hashlib.md5(head + packet[4:20] + states + b"a-secret-of-home").digest()
        self.waiting.append((time.monotonic() + self.delay, head + sealed + states, source))

    def run(self) -> None:
        while True:
            pause = max(0, self.waiting[0][0] - time.monotonic()) if self.waiting else 1
            if select.select([self.socket], [], [], pause)[0]:
                packet, source = self.socket.recvfrom(4096)
                if int(time.monotonic() - self.begin) not in self.silent:
                    self.answer(packet, source)
            while self.waiting and self.waiting[0][0] <= time.monotonic():
                self.socket.sendto(*self.waiting.popleft()[1:])


class Peer(threading.Thread):
    """Sends an Access-Request, and with it the accounting of a session, so many times a second."""

    def __init__(self, address: str, realm: str, rate: float, begin: float, wrong: range):
        super().__init__(daemon=True)
        self.address, self.realm, self.rate, self.begin, self.wrong = address, realm.encode(), rate, begin, wrong

    def run(self) -> None:
        sent = 0
        while True:
            now = time.monotonic() - self.begin
            swell = 1 + .5 * math.sin(now / 15)
            box = socket.socket(socket.AF_INET, socket.SOCK_DGRAM)
            box.bind((self.address, 0))
            body = attribute(1, b"user%d@" % (sent % 1000) + self.realm) + attribute(4, bytes([192, 0, 2, 1]))
            box.sendto(struct.pack("!BBH", 1, sent % 256, 20 + len(body)) + os.urandom(16) + body, ("127.0.0.1", PORT))
            body += attribute(40, b"\0\0\0\1") + attribute(44, b"%08x" % sent)
            secret = b"another secret" if int(now) in self.wrong else b"a-secret-of-peers"
            head = struct.pack("!BBH", 4, sent % 256, 20 + len(body))
            sealed = hashlib.md5(head + bytes(16) + body + secret).digest()
            box.sendto(head + sealed + body, ("127.0.0.1", PORT + 1))
            box.close()
            sent += 1
            time.sleep(1 / (self.rate * swell))


def configure(work: pathlib.Path) -> pathlib.Path:
    text = CONF.format(zeros="0" * 64, port=PORT, acct=PORT + 1, metrics=METRICS, control=work / "control")
    for at, name in enumerate(NAMES):
        text += REALM.format(name=name, out=PORT + 10 + at, reverse=PORT + 20 + at)
        for server in range(2 if at == 0 else 1):
            auth = HOME + 4 * at + 2 * server
            text += SERVER.format(auth=auth, acct=auth + 1)
    (work / "roam.conf").write_text(text, encoding="utf-8")
    (work / "prometheus.yml").write_text(
        f"global: {{scrape_interval: 1s}}\nscrape_configs:\n  - job_name: roam\n    static_configs: [{{targets: ['127.0.0.1:{METRICS}']}}]\n",
        encoding="utf-8")
    return work / "roam.conf"


def series_of(expression: str, legend: str, start: float, end: float) -> list[dict]:
    query = expression.replace("{IR}", "").replace("{I}", "").replace("$__rate_interval", "10s").replace("[1h]", "[2m]")
    words = urllib.parse.urlencode({"query": query, "start": start, "end": end, "step": 2})
    with urllib.request.urlopen(f"http://127.0.0.1:{PROMETHEUS}/api/v1/query_range?{words}", timeout=20) as answer:
        result = json.load(answer)["data"]["result"]
    found = []
    for one in result:
        name = re.sub(r"\{\{(\w+)\}\}", lambda label: one["metric"].get(label[1], ""), legend)
        points = [[round(moment - start), float(f"{float(value):.4g}")] for moment, value in one["values"] if value != "NaN"]
        found.append({"name": name, "points": points})
    return sorted(found, key=lambda one: one["name"])


def record(words: list[str]) -> int:
    program = os.path.realpath(words[0])
    with tempfile.TemporaryDirectory() as folder:
        work = pathlib.Path(folder)
        conf = configure(work)
        started = [subprocess.Popen([program, "serve", str(conf)], stderr=subprocess.DEVNULL),
                   subprocess.Popen(["prometheus", f"--config.file={work}/prometheus.yml", f"--storage.tsdb.path={work}/data",
                                     f"--web.listen-address=127.0.0.1:{PROMETHEUS}"], stderr=subprocess.DEVNULL)]
        try:
            time.sleep(3)
            start, begin = time.time(), time.monotonic()
            for at, delay in ((0, .02), (2, .04), (4, .25), (8, .05)):
                for port in (HOME + at, HOME + at + 1):
                    Home(port, delay, begin, SILENT if at == 0 else range(0)).start()
            for address, name, rate, wrong in (("127.0.0.1", NAMES[0], 8, range(0)), ("127.0.0.1", NAMES[1], 4, range(0)),
                                               ("127.0.0.2", NAMES[0], 3, WRONG)):
                Peer(address, name, rate, begin, wrong).start()
            time.sleep(RELOAD)
            subprocess.run([program, "ctl", str(work / "control"), "reload"], stdout=subprocess.DEVNULL, check=True)
            time.sleep(SECONDS - RELOAD)
            data = [[series_of(*one, start, start + SECONDS) for one in panel[5]] for panel in PANELS]
        finally:
            for one in started:
                one.kill()
                one.wait()
    DATA.write_text("[\n" + ",\n".join(json.dumps(one) for one in data) + "\n]\n", encoding="utf-8")
    return draw([])


COLOURS = ["#3366cc", "#2e9e5b", "#e08a1e", "#c0392b", "#8e5bbf", "#12979e", "#7a6a53", "#b8488f"]
FONT = 'font-family="DejaVu Sans, Verdana, sans-serif"'
COLUMN, ROW = 44, 26


def words(x: float, y: float, text: str, size: int = 11, anchor: str = "start", colour: str = "#1a1a1a", weight: str = "normal") -> str:
    return (f'<text x="{x:g}" y="{y:g}" {FONT} font-size="{size}" text-anchor="{anchor}" font-weight="{weight}" '
            f'fill="{colour}">{html.escape(text)}</text>')


def span(seconds: float) -> str:
    return f"{seconds:.0f} s" if seconds < 60 else f"{seconds // 60:.0f} min {seconds % 60:.0f} s"


def shown(value: float, unit: str) -> str:
    if unit == "s":
        return f"{value * 1000:.0f} ms" if value < 1 else span(value)
    if unit == "percentunit":
        return f"{value * 100:.3g} %"
    return (f"{value:.0f}" if value >= 1000 else f"{value:.3g}") + ("/s" if unit == "reqps" else "")


def draw_stat(x: float, y: float, wide: float, high: float, unit: str, title: str, series: list[dict]) -> list[str]:
    texts = [one["name"] if title == "Version" else (f"{one['name']}: " if one["name"] in ("served", "declined") else "")
             + (shown(one["points"][-1][1], unit) if one["points"] else "-") for one in series]
    return [words(x + wide / 2, y + high / 2 + 14, "  ".join(texts) or "-", 18, "middle", "#1d4f91", "bold")]


def legend(x: float, bottom: float, wide: float, series: list[dict]) -> tuple[list[str], float]:
    """Draws the names of the series, the last row at the bottom, and returns the height of all rows too. Many names are small."""
    size, letter = (9, 6.1) if len(series) < 5 else (8, 4.9)
    places, at, row = [], x, 0
    for one in series:
        room = 18 + letter * len(one["name"])
        if at + room > x + wide and at > x:
            at, row = x, row + 1
        places.append((at, row))
        at += room
    drawn = []
    for number, (one, (at, row_of)) in enumerate(zip(series, places)):
        level = bottom - 13 * (row - row_of)
        drawn += [f'<rect x="{at:g}" y="{level - 7:g}" width="10" height="4" fill="{COLOURS[number % 8]}"/>',
                  words(at + 13, level, one["name"], size, colour="#444")]
    return drawn, 13 * (row + 1)


def scale(most: float) -> tuple[float, int]:
    """Returns a round step between two lines of a scale, and how many steps reach the greatest value: three to six."""
    power = 10 ** math.floor(math.log10(most / 4))
    step = next(it * power for it in (1, 2, 2.5, 5, 10) if it * power >= most / 5)
    return step, math.ceil(most / step - 1e-9)


def draw_lines(x: float, y: float, wide: float, high: float, unit: str, series: list[dict]) -> list[str]:
    left, top, right = x + 52, y + 30, x + wide - 20
    drawn, rows = legend(left, y + high - 6, right - left, series)
    bottom = y + high - 24 - rows
    step, parts = scale(max([point[1] for one in series for point in one["points"]] or [0]) or 1)
    most = step * parts
    for part in range(parts + 1):
        level = bottom - (bottom - top) * part / parts
        drawn += [f'<line x1="{left:g}" y1="{level:g}" x2="{right:g}" y2="{level:g}" stroke="#e3e6ea"/>',
                  words(left - 5, level + 3, shown(step * part, unit), 9, "end", "#666")]
    for moment in range(0, SECONDS + 1, 30):
        drawn.append(words(left + (right - left) * moment / SECONDS, bottom + 13, f"{moment} s", 9, "middle", "#666"))
    for number, one in enumerate(series):
        points = " ".join(f"{left + (right - left) * moment / SECONDS:.1f},{bottom - (bottom - top) * value / most:.1f}"
                          for moment, value in one["points"])
        drawn.append(f'<polyline points="{points}" fill="none" stroke="{COLOURS[number % 8]}" stroke-width="1.6"/>')
    return drawn


def draw_states(x: float, y: float, wide: float, high: float, series: list[dict]) -> list[str]:
    left, top, right, bottom = x + 130, y + 30, x + wide - 12, y + high - 22
    each, drawn = (bottom - top) / max(1, len(series)), []
    for number, one in enumerate(series):
        level = top + each * number
        drawn.append(words(left - 5, level + each / 2 + 3, one["name"], 9, "end", "#444"))
        for (moment, value), (after, _) in zip(one["points"], one["points"][1:] + [[one["points"][-1][0] + 2, 0]]):
            a, b = (left + (right - left) * min(at, SECONDS) / SECONDS for at in (moment, after))
            drawn.append(f'<rect x="{a:.1f}" y="{level + 2:.1f}" width="{b - a:.1f}" height="{each - 4:.1f}" '
                         f'fill="{"#e08a1e" if value else "#2e9e5b"}"/>')
    return drawn + [words(left, bottom + 14, "green: in use, orange: marked dead", 9, colour="#666")]


def drawing(data: list) -> str:
    height = max(y + high for _, y, _, high in places()) * ROW + 20
    drawn = []
    for (title, kind, unit, _, _, _), (x, y, wide, high), lists in zip(PANELS, places(), data):
        x, y, wide, high = x * COLUMN + 10, y * ROW + 10, wide * COLUMN - 8, high * ROW - 8
        series = [one for many in lists for one in many]
        drawn += [f'<rect x="{x}" y="{y}" width="{wide}" height="{high}" rx="4" fill="#ffffff" stroke="#ccd2da"/>',
                  words(x + 10, y + 18, title, 12, weight="bold")]
        if kind == "stat":
            drawn += draw_stat(x, y, wide, high, unit, title, series)
        elif kind == "state-timeline":
            drawn += draw_states(x, y, wide, high, series)
        else:
            drawn += draw_lines(x, y, wide, high, unit, series)
    return "\n".join([f'<svg xmlns="http://www.w3.org/2000/svg" viewBox="0 0 {24 * COLUMN + 12} {height}" width="{24 * COLUMN + 12}" '
                      f'height="{height}" role="img">', "<!-- made of dashboard.data by packaging/installed/grafana.py -->",
                      '<rect width="100%" height="100%" fill="#f4f6f8"/>', *drawn, "</svg>", ""])


def draw(_: list[str]) -> int:
    PICTURE.write_text(drawing(json.loads(DATA.read_text(encoding="utf-8"))), encoding="utf-8")
    return 0


def write(_: list[str]) -> int:
    FILE.write_text(written(), encoding="utf-8")
    return 0


def main() -> int:
    orders = {"write": (write, 0, 0), "check": (check, 0, 1), "record": (record, 1, 1), "draw": (draw, 0, 0)}
    order, least, most = orders.get(sys.argv[1] if len(sys.argv) > 1 else "", (None, 0, 0))
    if order is None or not least <= len(sys.argv) - 2 <= most:
        print("usage: grafana.py write|check [FILE]|record PROGRAM|draw", file=sys.stderr)
        return 2
    return order(sys.argv[2:])


if __name__ == "__main__":
    sys.exit(main())
