"""Reads configuration files of FreeRADIUS (3.2): sections in sections, with their settings."""

import glob
import os
import re


class Unreadable(Exception):
    """A file can't be read, or isn't one of FreeRADIUS."""


class Section:
    def __init__(self, kind, name):
        self.kind, self.name, self.settings, self.sections = kind, name, [], []

    def all(self, key):
        return [value for name, value in self.settings if name == key]

    def get(self, key, default=None):
        return (self.all(key) or [default])[-1]

    def says(self, key):
        """Says whether it says yes; none where it says neither that nor no."""
        return {"yes": True, "on": True, "1": True, "no": False, "off": False, "0": False}.get((self.get(key) or "").lower())

    def own(self, kind):
        """Its own sections of a kind."""
        return [it for it in self.sections if it.kind == kind]

    def of(self, kind):
        """Returns all sections of a kind in it, at any depth."""
        return [it for one in self.sections for it in ([one] if one.kind == kind else one.of(kind))]


WORD = re.compile(r'"((?:[^"\\]|\\.)*)"|\'((?:[^\'\\]|\\.)*)\'|([{}])|(:=|\+=|==|=)|([^\s{}="\']+)')


def words_of(line):
    """Returns the words of a line, each with whether it was quoted; nothing of a comment."""
    found, at = [], 0
    while True:
        at += len(line[at:]) - len(line[at:].lstrip())
        if at == len(line) or line[at] == "#":
            return found
        word = WORD.match(line, at)
        if not word:
            raise Unreadable("a quotation mark without its end")
        double, single, *bare = word.groups()
        quoted = double if double is not None else single
        if quoted is not None:
            escapes = {"n": "\n", "r": "\r", "t": "\t", '"': '"'} if double is not None else {"'": "'"}
            # Before any other letter a backslash stands for itself, as in an expression.
            found.append((re.sub(r"\\(.)", lambda it: escapes.get(it[1], "\\" if it[1] == "\\" else it[0]), quoted), True))
        else:
            found.append((next(it for it in bare if it), False))
        at = word.end()


def read_into(section, path, missed, named=()):
    """Reads a file into a section. What it includes by a variable is noted as missed, and what is named beside it is not read here."""
    try:
        with open(path, encoding="utf-8", errors="surrogateescape") as file:
            text = re.sub(r"\\\n", " ", file.read())
    except OSError as error:
        raise Unreadable(f"{path}: {error.strerror}") from error
    opened = [section]
    for number, line in enumerate(text.split("\n"), 1):
        try:
            words = words_of(line)
        except Unreadable as error:
            raise Unreadable(f"{path}:{number}: {error}") from error
        if words and words[0] == ("$INCLUDE", False) or words and words[0] == ("$-INCLUDE", False):
            include(opened[-1], path, words[1][0], missed, named)
            continue
        while words:
            words = take(opened, words, path)
    if len(opened) != 1:
        raise Unreadable(f"{path}: the section {opened[-1].kind} {opened[-1].name} has no end")


def take(opened, words, path):
    """Takes the first statement of a line."""
    signs = [place for place, word in enumerate(words) if word in (("{", False), ("}", False))]
    first = signs[0] if signs else len(words)
    if first == 0 and words[0][0] == "}":
        if len(opened) == 1:
            raise Unreadable(f"{path}: a section ends that has no beginning")
        opened.pop()
        return words[1:]
    if first < len(words) and words[first][0] == "{":
        inside = Section(words[0][0] if first else "", words[1][0] if first > 1 else "")
        opened[-1].sections.append(inside)
        opened.append(inside)
        return words[first + 1:]
    said = words[:first]
    is_setting = len(said) >= 2 and said[1] in ((":=", False), ("=", False), ("+=", False))
    opened[-1].settings.append((said[0][0], " ".join(word for word, _ in said[2:]) if is_setting else None))
    return words[first:]


def include(section, path, name, missed, named):
    inside = os.path.join(os.path.dirname(path), name)
    if "${" in name:
        missed.append(name)
    for one in sorted(glob.glob(os.path.join(inside, "*")) if name.endswith("/") else glob.glob(inside)):
        if os.path.realpath(one) not in named:
            read_into(section, one, missed, named)


def read(paths):
    """Returns all that the files say, as one section, and what they include that wasn't found. Of a folder its radiusd.conf is read."""
    root, missed = Section("", ""), []
    files = [os.path.join(path, "radiusd.conf") if os.path.isdir(path) else path for path in paths]
    named = {os.path.realpath(path): path for path in reversed(files)}
    for path in files:
        if named[os.path.realpath(path)] == path:
            read_into(root, path, missed, named)
    return root, missed
