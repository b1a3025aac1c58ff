"""Draws the pictures of the pages: docs/pictures/NAME.txt becomes docs/pictures/NAME.svg.

A text has a line for each thing, in which `#` begins a comment:

    size WIDTH HEIGHT
    box X Y WIDTH HEIGHT KIND | line of text | another line ..     KIND is plain, own or soft
    arrow X1 Y1 X2 Y2 | text above it | text below it
    line X1 Y1 X2 Y2
    bar X1 X2 Y KIND | text                                        a stretch of a time line
    text X Y | words                                               begins at X; KIND `small` before X: smaller
    > a line of a terminal, its blanks kept; they stand one below another, in one frame
"""
import html
import pathlib

PICTURES = pathlib.Path(__file__).resolve().parents[2] / "docs" / "pictures"
FILL = {"plain": "#ffffff", "own": "#dbe9f6", "soft": "#f3f3f3", "warn": "#fbe3d6"}
FONT = 'font-family="DejaVu Sans, Verdana, sans-serif"'


def words(x: float, y: float, text: str, size: int = 13, anchor: str = "middle", weight: str = "normal") -> str:
    return (f'<text x="{x:g}" y="{y:g}" {FONT} font-size="{size}" text-anchor="{anchor}" '
            f'font-weight="{weight}" fill="#1a1a1a">{html.escape(text)}</text>')


def box(fields: list[str], texts: list[str]) -> list[str]:
    x, y, width, height = map(float, fields[:4])
    drawn = [f'<rect x="{x:g}" y="{y:g}" width="{width:g}" height="{height:g}" rx="6" fill="{FILL[fields[4]]}" '
             'stroke="#44546a" stroke-width="1.4"/>']
    first = y + height / 2 - 8.5 * (len(texts) - 1) + 4.5
    for place, text in enumerate(texts):
        drawn.append(words(x + width / 2, first + 17 * place, text, 14 if place == 0 else 12, "middle",
                           "bold" if place == 0 else "normal"))
    return drawn


def arrow(fields: list[str], texts: list[str]) -> list[str]:
    x1, y1, x2, y2 = map(float, fields[:4])
    drawn = [f'<line x1="{x1:g}" y1="{y1:g}" x2="{x2:g}" y2="{y2:g}" stroke="#44546a" stroke-width="1.6" '
             'marker-end="url(#head)"/>']
    for text, y in zip(texts, (-7, 16)):
        if text:
            drawn.append(words((x1 + x2) / 2, (y1 + y2) / 2 + y, text, 12))
    return drawn


def bar(fields: list[str], texts: list[str]) -> list[str]:
    x1, x2, y = map(float, fields[:3])
    return [f'<rect x="{x1:g}" y="{y:g}" width="{x2 - x1:g}" height="22" fill="{FILL[fields[3]]}" stroke="#44546a"/>'
            ] + [words((x1 + x2) / 2, y + 15.5, text, 12) for text in texts]


def line(fields: list[str], _: list[str]) -> list[str]:
    x1, y1, x2, y2 = map(float, fields)
    return [f'<line x1="{x1:g}" y1="{y1:g}" x2="{x2:g}" y2="{y2:g}" stroke="#44546a" stroke-width="1" '
            'stroke-dasharray="4 3"/>']


def text(fields: list[str], texts: list[str]) -> list[str]:
    is_small = fields[0] == "small"
    x, y = map(float, fields[-2:])
    return [words(x, y + 16 * place, it, 11 if is_small else 13, "start") for place, it in enumerate(texts)]


def terminal(lines: list[str], width: float) -> list[str]:
    """Returns the lines of a terminal, at the top of the picture."""
    height = 17 * len(lines) + 20
    return [f'<rect x="8" y="8" width="{width - 16:g}" height="{height}" rx="6" fill="#1f2630"/>'] + [
        f'<text x="20" y="{30 + 17 * place}" font-family="DejaVu Sans Mono, monospace" font-size="12" fill="#e8e8e8" '
        f'xml:space="preserve">{html.escape(it)}</text>' for place, it in enumerate(lines)]


def picture(source: str, name: str) -> str:
    """Returns the picture of a text."""
    drawn, width, height, typed = [], 0.0, 0.0, []
    for number, row in enumerate(source.split("\n"), 1):
        if row.startswith(">"):
            typed.append(row[2:])
            continue
        row = row.split("#")[0].rstrip() if not row.startswith("text") else row
        if not row:
            continue
        first, *texts = [it.strip() for it in row.split("|")]
        kind, *fields = first.split()
        if kind == "size":
            width, height = map(float, fields)
        elif kind in ("box", "arrow", "bar", "line", "text"):
            drawn += {"box": box, "arrow": arrow, "bar": bar, "line": line, "text": text}[kind](fields, texts)
        else:
            raise SystemExit(f"docs/pictures/{name}.txt:{number}: no such thing: {kind}")
    head = ('<defs><marker id="head" markerWidth="9" markerHeight="8" refX="8" refY="4" orient="auto">'
            '<path d="M0,0 L9,4 L0,8 z" fill="#44546a"/></marker></defs>')
    drawn += terminal(typed, width) if typed else []
    return "\n".join([f'<svg xmlns="http://www.w3.org/2000/svg" viewBox="0 0 {width:g} {height:g}" width="{width:g}" '
                      f'height="{height:g}" role="img">', f"<!-- made of {name}.txt by tools/pages.py -->", head,
                      f'<rect width="{width:g}" height="{height:g}" fill="#ffffff"/>', *drawn, "</svg>"]) + "\n"


def made() -> dict[pathlib.Path, str]:
    return {source.with_suffix(".svg"): picture(source.read_text(encoding="utf-8"), source.stem) for source in sorted(PICTURES.glob("*.txt"))}


def faults() -> list[str]:
    return []
