"""Says which names on the pages aren't there: files, sections, functions written as `Type::function`, names that link to a file, and laws.

It looks at README.md and docs/*.md: at paths in backticks and in links; at sections, in links and as `docs/PAGE.md`, "Section", or
"Section", above or below; at `Type::function` and `crate::function` in backticks, which one crate has to have, and that one where
it is named; at names whose link leads to a file of code, which has to have them; at names behind "the law" or "the laws"; at other
names in backticks on the pages about the code, which some source has to have; and at blocks of Rust, which stand in
crates/test_callers, so that the gate proves them. A page that tools/pages.py makes and that isn't kept is looked at as it is made; of the page of definitions and of
docs/THEOREM.md, whose blocks are made of the sources, the blocks aren't.
"""
import pathlib
import re

from making import definitions

ROOT = pathlib.Path(__file__).resolve().parents[2]
# Names of the toolchain and of the language, and forms that stand for a name.
KNOWN_TYPES = {"Option", "Result", "Vec", "String", "Hash", "UdpSocket", "Scope", "Process", "Refusal", "Self", "Rattle", "std", "self"}
# Names of others on pages about the code.
KNOWN_NAMES = {"LoadCredential"}
CODE_PAGES = ("CONTRIBUTING", "DECISIONS", "PROOFS", "TOUR")
MADE_PAGES = ("THEOREM", "DEFINITIONS")
SOURCES = ("crates/*/src/**/*.rt", "crates/*/specs/**/*.antt", "crates/*/proofs/**/*.antt", "oracle/*.py", "packaging/**/*.*", "tools/**/*.py")
OWN_FOLDERS = ("crates", "docs", "oracle", "load", "packaging", "mistakes", "tools", "examples")


def names_of_code() -> dict[str, tuple[set[str], set[str]]]:
    """Of each crate the functions, and the types, traits, enum's cases and modules, itself among them."""
    found: dict[str, tuple[set[str], set[str]]] = {}
    for path in ROOT.glob("crates/*/src/**/*.rt"):
        crate = path.relative_to(ROOT / "crates").parts[0]
        functions, others = found.setdefault(crate, (set(), {crate}))
        text = path.read_text(encoding="utf-8")
        functions |= set(re.findall(r"\b(?:fn|ghost) ([a-z_0-9]+)", text))
        functions |= set(re.findall(r"\bconst ([A-Z_0-9]+)", text)) | set(re.findall(r"^\s+(?:pub )?([a-z_0-9]+):", text, re.M))
        others |= set(re.findall(r"\b(?:struct|enum|trait|type) ([A-Za-z0-9]+)", text))
        others |= set(re.findall(r"^\s+([A-Z][A-Za-z0-9]*)\b", text, re.M)) | {path.stem}
    return found


def is_there(code: dict[str, tuple[set[str], set[str]]], crate: str, first: str, second: str) -> bool:
    """Says whether a crate, the named one where one is, has the first name, and the second one as a function, a type or a module."""
    return any(first in others and (second in functions or second in others)
               for name, (functions, others) in code.items() if crate in ("", name))


def spec_names() -> set[str]:
    """Returns the definitions in specs."""
    found = set()
    for path in ROOT.glob("crates/*/specs/**/*.antt"):
        found |= set(re.findall(r"^(?:abbrev |unfoldable )?pub (?:record |data )?([A-Za-z_][A-Za-z0-9_'-]*)",
                                path.read_text(encoding="utf-8"), re.M))
    return found


def missing_file(name: str, page: pathlib.Path) -> bool:
    """Says whether a path is one of the repository, and isn't there."""
    name = name.split("#")[0].rstrip("/")
    if not name or any(it in name for it in "*<>{} ") or name.isupper() or "NAME" in name or "/out/" in name:
        return False
    if name.split("/")[0] in OWN_FOLDERS:
        return ROOT / name != definitions.PAGE and not (ROOT / name).exists() and not (page.parent / name).exists()
    return False


def sections_of(page: pathlib.Path) -> tuple[set[str], list[str]]:
    """Returns the anchors of a page's headings, and what its headings and bold texts say."""
    text = page.read_text(encoding="utf-8") if page.exists() else ""
    heads = re.findall(r"^#+ (.*)$", text, re.M)
    anchors = {re.sub(r"[^\w -]", "", it.lower()).replace(" ", "-") for it in heads}
    return anchors, [re.sub(r"^\d+\. |`", "", it) for it in heads + re.findall(r"\*\*([^*]+)\*\*", text)]


def missing_sections(page: pathlib.Path, text: str) -> list[str]:
    """Returns the sections that a page names, of itself or of another page, and that aren't there."""
    found = [f"{link}#{anchor}" for link, anchor in re.findall(r"\]\(([^)#:]*)#([^)]+)\)", text)
             if anchor not in sections_of(page.parent / link if link else page)[0]]
    named = [(ROOT / link, title) for link, title in re.findall(r"`(docs/[A-Z]+\.md)`,\s+\"([^\"`]+)\"", text)]
    named += [(page, title) for title in re.findall(r"\"([A-Z][^\"`]+)\",\s+(?:above|below)", text)]
    for other, title in named:
        title = re.sub(r"\s+", " ", title)
        if not any(it.startswith(title) for it in sections_of(other)[1]):
            found.append(f'"{title}" of {other.name}')
    return found


def words_of_code() -> set[str]:
    """Returns all words of the sources, and the crates."""
    texts = (it.read_text(encoding="utf-8", errors="ignore") for pattern in SOURCES for it in ROOT.glob(pattern) if it.is_file())
    return {word for text in texts for word in re.findall(r"\w+", text)} | {it.name for it in (ROOT / "crates").iterdir()}


def missing_words(text: str, words: set[str]) -> list[str]:
    """Returns the names in backticks, with an underscore or a capital within, that no source has; not what a tool made of a day's run."""
    quoted = re.findall(r"`(\w+)`", re.sub(r"^```.*?^```|<!-- minutes: made .*?<!-- minutes: end -->", "", text, flags=re.M | re.S))
    return [it for it in quoted if re.search(r"._|.[A-Z]", it) and not it.isupper() and it not in words]


def missing_rust(text: str) -> list[str]:
    """Returns the first lines of the blocks of Rust on a page that no caller has, whatever the blanks."""
    callers = "".join(it.read_text(encoding="utf-8") for it in sorted(ROOT.glob("crates/test_callers/src/*.rt")))
    blocks = re.findall(r"^```rust\n(.*?)^```", text, re.M | re.S)
    return [it.split("\n")[0] for it in blocks if "".join(it.split()) not in "".join(callers.split())]


def faults_of(page: pathlib.Path, text: str, code, specs: set[str]) -> list[str]:
    """Returns what a page names that isn't there."""
    functions = set().union(*(it for it, _ in code.values()))
    faults, is_code = [], False
    for number, line in enumerate(text.split("\n"), 1):
        if line.startswith("```"):
            is_code = not is_code
        if is_code:
            continue
        said = []
        for link in re.findall(r"\]\(([^)#:]+)[^)]*\)", line):
            if not ((page.parent / link).exists() or (ROOT / link).exists()):
                said.append(link)
        for text, link in re.findall(r"\[([^\]]*`[^\]]*)\]\(([^)#:]+\.rt)\)", line):
            file = page.parent / link
            has = set(re.findall(r"\b(?:fn|struct|enum|trait|const|type) (\w+)", file.read_text(encoding="utf-8"))) if file.exists() else set()
            said += [f"`{name}` in {link}" for name in re.findall(r"`(?:\w+::)*(\w+)(?:\(\))?`", text) if name not in has | {file.stem}]
        for quoted in re.findall(r"`([^`]+)`", line):
            if "/" in quoted and missing_file(quoted.split(" ")[0], page):
                said.append(quoted)
            found = re.fullmatch(r"(?:(roam_[a-z_]+)::)?([A-Za-z_]+)::([A-Za-z_]+)(?:\(\))?", quoted)
            if found and found.group(2) not in KNOWN_TYPES and not is_there(code, found.group(1) or "", *found.groups()[1:]):
                said.append(quoted)
        for law in re.findall(r"\blaws? `(?:roam_[a-z_]+::)?([a-z_]+)`", line):
            if law not in functions and law not in specs:
                said.append("law " + law)
        faults += [f"{page.relative_to(ROOT)}:{number}: {it} isn't there" for it in said]
    return faults


GOOD = "each name on the pages is there"


def faults() -> list[str]:
    """Returns what isn't there, with its page and line."""
    code, specs = names_of_code(), spec_names()
    pages = [ROOT / "README.md", *sorted((ROOT / "docs").glob("*.md"))]
    texts = {page: page.read_text(encoding="utf-8") for page in pages} | definitions.made()
    said = [it for page, text in texts.items() for it in faults_of(page, text, code, specs)]
    texts = {page: text for page, text in texts.items() if page.stem not in MADE_PAGES}
    said += [f"{page.relative_to(ROOT)}: {it} isn't there" for page, text in texts.items()
             for it in missing_sections(page, text) + missing_rust(text)]
    words = words_of_code() | KNOWN_NAMES
    return said + [f"{page.relative_to(ROOT)}: {it} isn't there" for page, text in texts.items() if page.stem in CODE_PAGES
                   for it in missing_words(text, words)]
