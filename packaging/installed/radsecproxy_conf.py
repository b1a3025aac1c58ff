"""Reads a radsecproxy.conf (radsecproxy 1.9): its options, and its blocks of options."""

import glob
import os
import re


class Unreadable(Exception):
    """The file can't be read, or isn't a radsecproxy.conf."""


class Block:
    def __init__(self, kind, name):
        self.kind, self.name, self.options = kind, name, []

    def all(self, option):
        return [value for key, value in self.options if key == option]

    def get(self, option, default=None):
        return (self.all(option) or [default])[-1]

    def is_on(self, option):
        return (self.get(option) or "off").lower() in ("on", "minimal", "auto")


def lines_of(path):
    """Returns each line's words, with the place of it; included files stand where they are named."""
    try:
        with open(path, encoding="utf-8", errors="surrogateescape") as file:
            lines = file.read().splitlines()
    except OSError as error:
        raise Unreadable(f"{path}: {error.strerror}") from error
    for number, line in enumerate(lines, 1):
        words = re.findall(r""""[^"]*"|'[^']*'|[^\s"']\S*""", line)
        words = [word[1:-1] if word[0] in "\"'" else word for word in words]
        if not words or line.lstrip().startswith("#"):
            continue
        if words[0].lower() == "include":
            for pattern in words[1:]:
                inside = os.path.join(os.path.dirname(path), pattern)
                for included in sorted(glob.glob(pattern) or glob.glob(inside)):
                    yield from lines_of(included)
        else:
            yield f"{path}:{number}", words


def blocks_of(path):
    """Returns the options outside of all blocks as one block, and the blocks in their order."""
    top, blocks, inside = Block("top", ""), [], None
    for place, words in lines_of(path):
        if words == ["}"] and inside:
            inside = None
        elif len(words) == 3 and words[2] == "{" and not inside:
            inside = Block(words[0].lower(), decoded(words[1]))
            blocks.append(inside)
        else:
            value = [word for index, word in enumerate(words[1:]) if (index, word) != (0, "=")]
            if len(value) != 1:
                raise Unreadable(f"{place}: neither an option with a value nor a block")
            (inside or top).options.append((words[0].lower(), decoded(value[0])))
    if inside:
        raise Unreadable(f"{path}: the block {inside.kind} {inside.name} has no end")
    return top, blocks


def decoded(value):
    """%41 is an A, also in secrets. What isn't followed by two digits stands as it is."""
    octets = re.sub(rb"%([0-9A-Fa-f]{2})", lambda found: bytes([int(found[1], 16)]),
                    value.encode(errors="surrogateescape"))
    return octets.decode(errors="surrogateescape")
