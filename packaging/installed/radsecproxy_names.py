"""What the regular expression of a radsecproxy realm takes, as names and patterns of roam.

radsecproxy matches it with the whole User-Name, anywhere in it and without case. A pattern of roam is a name, `*.` and
a name (for what ends in that, behind a dot), or `*`.
"""

import re


class NotASuffix(Exception):
    """An expression that says more than which names end in what."""


# Something, and something without a dot; one letter of any kind, one without a dot, one of a set; the two ends.
ANY, LABEL, DOT, LETTER, ONE, BEGIN, END = "any", "label", "dot", "letter", "one", "begin", "end"


class Expression:
    """An expression as a list of alternatives, each a list of letters and of the signs above."""

    def __init__(self, text):
        self.text, self.at, self.notes = text, 0, []
        self.ways = self.alternatives()
        if self.at < len(text):
            raise NotASuffix

    def next(self):
        if self.at == len(self.text):
            raise NotASuffix
        self.at += 1
        return self.text[self.at - 1]

    def sees(self, letters):
        return self.at < len(self.text) and self.text[self.at] in letters

    def alternatives(self):
        ways = self.sequence()
        while self.sees("|"):
            self.next()
            ways += self.sequence()
        return ways

    def sequence(self):
        ways = [[]]
        while self.at < len(self.text) and not self.sees("|)"):
            more = self.repeated(self.atom())
            ways = [way + end for way in ways for end in more]
            if len(ways) > 64:
                raise NotASuffix
        return ways

    def repeated(self, ways):
        """Returns what stands there with the sign behind it, if there is one."""
        sign = self.next() if self.sees("?*+{") else None
        if ways in ([[DOT]], [[LETTER]], [[ONE]]):
            return self.repeated_letter(ways[0][0], sign)
        if sign is None:
            return ways
        labels = ([ANY], [LABEL], [ANY, "."], [LABEL, "."], [LABEL, ANY, "."])
        if sign == "{" or sign != "?" and not all(way in labels for way in ways):
            raise NotASuffix
        if sign != "?":
            ways = [[ANY, "."]] if "." in ways[0] else [[ANY]]
        return ways if sign == "+" else [[]] + ways

    def repeated_letter(self, letter, sign):
        if sign in ("*", "+"):
            return [[LABEL]] if letter == LETTER else [[ANY]]
        if letter != DOT or sign is not None:
            raise NotASuffix
        self.notes.append("a dot that isn't escaped was read as a dot")
        return [["."]]

    def atom(self):
        letter = self.next()
        if letter == "(":
            ways = self.alternatives()
            if self.next() != ")":
                raise NotASuffix
            return ways
        if letter == "[":
            return self.set_of_letters()
        if letter == "\\":
            letter = self.next()
            return [[LETTER]] if letter == "w" else [[self.literal(letter)]]
        return [[{".": DOT, "^": BEGIN, "$": END}.get(letter) or self.literal(letter)]]

    def set_of_letters(self):
        inside = self.next()
        while not self.sees("]"):
            inside += self.next()
        self.next()
        if inside.startswith("^"):
            if set(inside[1:]) - set("@.\\ "):
                raise NotASuffix
            return [[LETTER]] if "." in inside else [[ONE]]
        if "a-z" in inside and "0-9" in inside:
            return [[ONE]] if "." in inside else [[LETTER]]
        letters = sorted(set(inside.replace("\\", "").lower()))
        if len(letters) > 4:
            raise NotASuffix
        return [[self.literal(letter)] for letter in letters]

    def literal(self, letter):
        if not re.match(r"[A-Za-z0-9.@-]", letter):
            raise NotASuffix
        return letter.lower()


def items_of(text):
    """Returns what a realm's expression matches, as names and patterns of roam, and what was changed by that."""
    body = text[1:-1] if len(text) > 1 and text.endswith("/") else text[1:]
    expression = Expression(body)
    items = []
    for way in expression.ways:
        # `^[^@]*` looks for names without a realm, which are rejected here.
        if "@" not in way and "[^@" in body:
            raise NotASuffix
        for item in items_of_way(way, expression.notes):
            if item not in items:
                items.append(item)
    return items, sorted(set(expression.notes))


def items_of_way(way, notes):
    wild = (ANY, LABEL)
    at = len(way) - 1 - way[::-1].index("@") if "@" in way else None
    user, rest = (way[:at], way[at + 1:]) if at is not None else ([], way)
    if at is None and rest[:1] == [BEGIN]:
        if rest[1:2] not in ([ANY], [LABEL]):
            raise NotASuffix
        rest = rest[1:]
    if any(token not in wild + (BEGIN,) for token in user) or user == [BEGIN] or BEGIN in rest:
        raise NotASuffix
    ends = rest[-1:] == [END]
    rest = rest[:-1] if ends else rest
    first, letters = (rest[0], rest[1:]) if rest and rest[0] in wild else (None, rest)
    while letters and not ends and letters[-1] in wild:
        letters, ends = letters[:-1], True
        notes.append("names that only begin so were taken too")
    if any(token in wild + (END, "@") for token in letters):
        raise NotASuffix
    name = "".join(letters)
    if not name:
        return ["*"] if first or at is None or not ends else []
    if not name.strip("."):
        raise NotASuffix
    if not ends:
        if at is None or first:
            raise NotASuffix
        notes.append("without a `$` names that only begin so were taken too")
        return [name]
    if first == LABEL:
        notes.append("more labels than one are taken now")
    if name[0] == "." and name[1:] and (first or at is None):
        return ["*" + name]
    if first or at is None:
        notes.append("names that end so within a label were taken too")
        return [name, "*." + name]
    return [name]


def covers(pattern, item):
    """Says whether each name that the item takes is one that the pattern takes."""
    if pattern.startswith("*."):
        return item == pattern or item.removeprefix("*").endswith(pattern[1:])
    return pattern in ("*", item)
