"""Writes the metrics into docs/FILES.md, between two marks, from what roam_metrics gives to Prometheus: names, labels, their values, and what
each means (its HELP).

Wrong is a name in the sources of which nothing is told.
"""
import pathlib
import re

ROOT = pathlib.Path(__file__).resolve().parents[2]
SOURCES = ROOT / "crates" / "roam_metrics" / "src"
PAGE = ROOT / "docs" / "FILES.md"
BEGIN, END = "<!-- metrics: made by tools/pages.py -->\n", "<!-- metrics: end -->\n"
TEXT = r'"([^"]*)"'
ABOUT_WHO = """
Only those above 0 are there, each with the label `realm`, or `realm` and `server` (the home server's `auth`,
or `acct` if it has no `auth`), or `peer`.
"""


def source(name: str) -> str:
    return (SOURCES / f"{name}.rt").read_text(encoding="utf-8")


def row(name: str, label: str, values: list[str], told: str) -> str:
    """Returns a row of a table. Of a few values each stands there, of codes and numbers none."""
    said = f"`{label}`" + (": " + ", ".join(f"`{it}`" for it in values) if 0 < len(values) < 6 else "") if label else ""
    return f"| `{name}` | {said} | {told} |".replace("|  |", "| |")


def of_server() -> list[str]:
    found = re.findall(rf"OfServer \{{\s*name: {TEXT},\s*help: {TEXT},\s*label: {TEXT},\s*samples: &\[(.*?)\],\n    \}}", source("of_server"), re.S)
    rows = [row(name, label, re.findall(rf"\(\s*{TEXT}", samples), told) for name, told, label, samples in found]
    rows += [row(name, "number", [], told) for name, told in re.findall(rf'let name = {TEXT};\s*push_header\(\s*page,\s*name,\s*{TEXT},\s*MetricKind::Counter', source("pages"))]
    rows += [row(name, "", [], told) for name, told in re.findall(rf'let name = {TEXT};\s*push_header\(\s*page,\s*name,\s*{TEXT},\s*MetricKind::Gauge', source("pages"))]
    for part in re.split(r"\nfn ", source("about_page")):
        for name, told in re.findall(rf"let name = {TEXT};\s*let help = {TEXT};", part):
            label = "version`, `toolchain" if "about.toolchain" in part else "outcome" if "served" in part else ""
            rows.append(row(name, label, ["served", "declined"] if label == "outcome" else [], told))
    return rows


def families() -> list[str]:
    rows = []
    for file in ("request_families", "reply_families"):
        for block in re.findall(r": Family = Family \{(.*?)\n\};", source(file), re.S):
            names, told = re.findall(rf"(?:realm|server|peer): {TEXT},", block), re.search(rf"help: {TEXT}", block).group(1)
            label = re.search(rf"label: Some\({TEXT}\)", block)
            values = re.findall(rf"\(\s*{TEXT}", block.split("samples:")[1])
            every = {re.sub("^roam_(realm|server|peer)_", "roam_WHO_", it) for it in names}
            rows += [row(it, label.group(1) if label else "", values if label else [], told) for it in sorted(every)]
    return rows


def standing() -> list[str]:
    rows = []
    for file, kind in (("about_page", "Limit"), ("gauges", "OfGauges")):
        text = source(file)
        names = dict(re.findall(rf"{kind}::(\w+) => {TEXT}", text.split("fn name(self)")[1].split("fn help(self)")[0]))
        told = dict(re.findall(rf"{kind}::(\w+) =>\s*\{{?\s*{TEXT}", text.split("fn help(self)")[1].split("fn of")[0]))
        rows += [row(name, "realm" if name.startswith("roam_realm_") else "realm`, `server`, `service", [], told[it]) for it, name in names.items()]
    rows += [row(name, "realm`, `server`, `le", [], told) for name, told in re.findall(rf"push_header\(\s*page,\s*{TEXT},\s*{TEXT}", source("times"))]
    return rows


def written() -> str:
    """Returns what stands between the marks."""
    page = []
    for head, rows in (("Of the whole server", of_server()),
                       ("WHO is `realm`, `server` or `peer`", families()),
                       ("Gauges, read when the page is asked for", standing())):
        about = ABOUT_WHO if head.startswith("WHO") else ""
        page += [f"\n### {head}\n{about}\n| metric | labels | |\n|---|---|---|", *rows]
    return "\n".join(page).replace("\n\n\n", "\n\n").lstrip("\n") + "\n"


def faults() -> list[str]:
    """Returns what is wrong."""
    page = written()
    told = {it.replace("_WHO_", who) for it in re.findall(r"`(\w+)`", page) for who in ("_realm_", "_server_", "_peer_")}
    names = {it for path in SOURCES.glob("*.rt") for it in re.findall(r'"((?:roam|process)_\w+)"', path.read_text(encoding="utf-8"))}
    said = [f"nothing is told of {it}" for it in sorted(names) if re.sub("_(sum|count|bucket)$", "", it) not in told]
    return said


def made() -> dict[pathlib.Path, str]:
    text = PAGE.read_text(encoding="utf-8")
    above, below = text.split(BEGIN)[0], text.split(END)[1]
    return {PAGE: above + BEGIN + written() + END + below}
