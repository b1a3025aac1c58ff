#!/usr/bin/env python3
"""Measures the house: functions, files, clauses, proofs, pages and commits, as a table.

    tools/measure.py [ROOT]     the measures of a tree (this one, where none is named)
"""
import pathlib
import re
import statistics
import subprocess
import sys

from looking import sizes


def product(root: pathlib.Path) -> list[pathlib.Path]:
    return [it for it in sorted((root / "crates").iterdir()) if (it / "src").is_dir() and not it.name.startswith(("test_", "bench_"))]


def made(path: pathlib.Path) -> bool:
    """Says whether a tool makes the page, as its first line says."""
    return path.read_text(encoding="utf-8").startswith("<!-- Made by")


def by_hand_in(path: pathlib.Path) -> int:
    """Counts the words of a page that are written by hand: none of a page that a tool makes, nor between its two marks on one."""
    text = re.sub(r"<!-- (\w+): made by .*?<!-- \1: end -->", "", path.read_text(encoding="utf-8"), flags=re.S)
    return 0 if made(path) else len(text.split())


def measures(root: pathlib.Path) -> list[tuple[str, str]]:
    rows = []
    bodies, files, clauses, body_lines, arguments = [], [], 0, 0, 0
    wide, wider, ghosts, contract = 0, 0, 0, 0
    for crate in product(root):
        for path in crate.glob("src/**/*.rt"):
            if path.stem == "tests":
                continue
            text = path.read_text(encoding="utf-8")
            files.append(text.count("\n"))
            found = [size for _, size in sizes.bodies_of(text)]
            bodies += found
            body_lines += sum(found)
            clauses += len(re.findall(r"^\s+(?:requires|ensures)\b", text, re.M))
            lines = text.split("\n")
            wide += sum(len(it) > 100 for it in lines)
            wider += sum(len(it) > 120 for it in lines)
            ghosts += text.count("ghost use ")
            contract = max([contract, *(it.count("\n") for it in re.findall(r"(?:^    +(?:requires|ensures|ghost)\b.*\n(?:^     .*\n)*)+", text, re.M))])
            arguments += sum(head.count(":") - head.count("::") * 2 >= 6 for head in re.findall(r"\bfn \w+(?:<[^(]*>)?\(([^)]*)\)", text))
    rows += [("product: crates, files, lines", f"{len(product(root))}, {len(files)}, {sum(files)}"),
             ("functions; body median, 90th, longest", f"{len(bodies)}; {statistics.median(bodies):g}, {sorted(bodies)[len(bodies) * 9 // 10]}, {max(bodies)}"),
             ("files over 300 lines, bodies over 40", f"{sum(it > 300 for it in files)}, {sum(it > 40 for it in bodies)}"),
             ("file: median, longest", f"{statistics.median(files):g}, {max(files)}"),
             ("lines over 100 and 120 columns, imports of specs: of 1,000",
              f"{wide * 1000 / sum(files):.1f}, {wider * 1000 / sum(files):.1f}, {ghosts * 1000 / sum(files):.0f}"),
             ("longest contract", f"{contract} lines"),
             ("clauses a body line; functions of six arguments", f"{clauses / body_lines:.2f}; {arguments}")]
    for kind in ("specs", "proofs"):
        texts = [path.read_text(encoding="utf-8") for crate in (root / "crates").iterdir() for path in crate.glob(f"{kind}/**/*.antt")]
        lines = [line for text in texts for line in text.split("\n") if line.strip()]
        imports = sum(bool(re.match(r"\s*(?:pub )?use ", it)) for it in lines)
        rows.append((f"{kind}: files, longest, lines, over 120 columns (no imports)",
                     f"{len(texts)}, {max(it.count(chr(10)) for it in texts)}, {len(lines)}, {sum(len(it) > 120 and not re.match(r'.*use ', it) for it in lines)}; imports {imports}"))
    pages = sorted((root / "docs").glob("*.md"))
    by_hand = sum(by_hand_in(it) for it in [root / "README.md", *pages])
    made_of = sum(len(it.read_text(encoding="utf-8").split()) for it in (root / "docs").glob("*.txt") if it.name != "minutes.txt")
    rows.append(("README and docs: words by hand (and in the lists that pages are made of), generated",
                 f"{by_hand} ({made_of}), {sum(len(it.read_text(encoding='utf-8').split()) for it in pages if made(it))}"))
    rows.append(("README: words, lines", f"{len((root / 'README.md').read_text(encoding='utf-8').split())}, "
                 f"{(root / 'README.md').read_text(encoding='utf-8').count(chr(10))}"))
    log = subprocess.run(["git", "-C", str(root), "log", "--no-merges", "--format=%b%x00", "-n", "60"], capture_output=True, text=True, check=False).stdout
    bodies_said = [it.strip() for it in log.split("\0")][:60]
    rows.append(("last 60 commits: with a body", str(sum(bool(it) for it in bodies_said))))
    return rows


def main() -> int:
    words = sys.argv[1:]
    if len(words) > 1 or words and not pathlib.Path(words[0], "crates").is_dir():
        print(__doc__, file=sys.stderr)
        return 2
    rows = measures(pathlib.Path(words[0]).resolve() if words else sizes.ROOT)
    print("\n".join(f"| {name} | {value} |" for name, value in rows))
    return 0


if __name__ == "__main__":
    sys.exit(main())
