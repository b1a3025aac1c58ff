"""Writes mistakes/README.md: the mistakes that are kept, crate by crate in the order of crates.txt, each by its function and its words.

The mistakes are the edits of mistakes/NAME; in bold type on the page are those that the gate may choose, which have a line
`only: FUNCTION`. Wrong is an edit of another form, one whose function isn't there, one whose text isn't in its file once, and a crate up
to the server of which the gate can choose none.
"""
import pathlib
import re
import textwrap

ROOT = pathlib.Path(__file__).resolve().parents[2]
PAGE = ROOT / "mistakes" / "README.md"
HEAD = """<!-- Made by tools/pages.py from the edits of mistakes/NAME: change those. -->

# Mistakes that the prover refuses

These {count} edits show that the contracts catch mistakes: each changes one function of the code, and no contract, definition or proof, and the
prover has to refuse it. A file of `mistakes/NAME` has one edit for the crate `NAME`; its name is the function and the mistake.

`mistakes/try.py NAME` tries all of a crate. The gate tries a third of the {chosen} in bold type in each run, in functions that call little (they
have a line `only: FUNCTION`); `mistakes/try.py --gate --all` tries all of these. `rt plant` makes more mistakes, by rule.
"""
# Up to this crate each has a mistake that the gate can choose.
LAST = "roam_server"


def crates() -> list[str]:
    """Returns the crates in their order."""
    return re.findall(r"^(\w+):", (ROOT / "crates.txt").read_text(encoding="utf-8"), re.M)


def kept() -> dict[str, list[tuple[str, str, bool, pathlib.Path]]]:
    """Of each crate its mistakes: function, words, whether the gate may choose it, and its file."""
    found: dict[str, list[tuple[str, str, bool, pathlib.Path]]] = {}
    for path in sorted(ROOT.glob("mistakes/*/*.edit")):
        function, words = path.stem.split("-", 1)
        is_chosen = bool(re.search(r"^only: ", path.read_text(encoding="utf-8"), re.M))
        found.setdefault(path.parts[-2], []).append((function, words.replace("_", " "), is_chosen, path))
    return found


def is_edit(crate: str, path: pathlib.Path) -> bool:
    """Says whether each text that an edit changes is in its file, once."""
    text = path.read_text(encoding="utf-8")
    file = re.search(r"^file: (.*)$", text, re.M)
    olds = re.findall(r"(?:^old:.*\n)+", text, re.M)
    source = ROOT / "crates" / crate / (file[1] if file else "")
    if not olds or not source.is_file():
        return False
    code = source.read_text(encoding="utf-8")
    return all(code.count(re.sub(r"^old: ?", "", old, flags=re.M).rstrip("\n")) == 1 for old in olds)


def has_function(crate: str, function: str) -> bool:
    """Says whether a crate has a function of this name."""
    return any(re.search(rf"\bfn {function}\b", path.read_text(encoding="utf-8")) for path in (ROOT / "crates" / crate / "src").rglob("*.rt"))


def made() -> dict[pathlib.Path, str]:
    """Returns the page."""
    mistakes = kept()
    every = [it for of in mistakes.values() for it in of]
    lines = [HEAD.format(count=len(every), chosen=sum(it[2] for it in every))]
    for crate in crates():
        if of := mistakes.get(crate):
            mark = {True: "**", False: ""}
            said = "; ".join(f"{mark[chosen]}`{function}`: {words}{mark[chosen]}" for function, words, chosen, _ in of)
            lines += textwrap.wrap(f"- `{crate}`. {said}", 139, subsequent_indent="  ", break_long_words=False, break_on_hyphens=False)
    return {PAGE: "\n".join(lines) + "\n"}


def faults() -> list[str]:
    """Returns what is wrong."""
    mistakes, names, said = kept(), crates(), []
    for crate, of in mistakes.items():
        said += [f"mistakes/{crate}: there is no such crate"] if crate not in names else []
        said += [f"{path.relative_to(ROOT)}: {crate} has no function {function}" for function, _, _, path in of if not has_function(crate, function)]
        said += [f"{path.relative_to(ROOT)}: what it changes isn't there once" for _, _, _, path in of if not is_edit(crate, path)]
    own = names[:names.index(LAST) + 1]
    return said + [f"the gate can choose no mistake of {it}" for it in own if not any(chosen for _, _, chosen, _ in mistakes.get(it, []))]
