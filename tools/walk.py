#!/usr/bin/env python3
"""Walks from functions to all that they may call, by the calls that the compiler resolved, and counts what is met.

    tools/walk.py [--tree FOLDER] [--without FUNCTION,..] [--list] FUNCTION ..

A function is named as roam_workers::context::WorkerContext::arrive. The crates below it have to be built (`rt lib`), in this tree or
in FOLDER: what is read is `mir.json` of their libraries. Each function's body is counted once, with all of its branches, so the numbers
are those of every way that an event may take, and more than one event takes; --without leaves functions out, with what only they reach.
A call of a trait's method goes to the implementation that the caller was given; where that isn't known (a runtime, a socket) it ends.
Counted are calls, functions, crates of the product, calls from one crate into another, the longest way without a repetition, calls that
copy octets, packets that are looked at anew, and iterations over attributes that begin. --list prints the functions, by crate.
"""
import argparse
import collections
import json
import pathlib

ROOT = pathlib.Path(__file__).resolve().parent.parent
COPIES = ("copy_of", "extend_from_slice", "copy_from_slice", "from_slice", "to_vec", "append_octets")
VIEWS = ("roam_wire::view::View::read", "roam_wire::view::View::of_packet")
PASSES = ("roam_wire::view::View::attributes",)


def calls_in(body, found: list) -> list:
    """Returns all calls of a body."""
    if isinstance(body, dict):
        for key, value in body.items():
            if key == "Call":
                found.append(value[0])
            calls_in(value, found)
    elif isinstance(body, list):
        for it in body:
            calls_in(it, found)
    return found


def library(tree: pathlib.Path) -> dict[str, list]:
    """Returns the calls of each function of the built libraries."""
    calls: dict[str, list] = {}
    for path in tree.glob("crates/*/out/rlib/*.rlib/toolchain/mir.json"):
        for name, function in json.loads(path.read_text(encoding="utf-8")):
            calls[name] = calls_in(function["body"], [])
    return calls


class Walk:
    """What is reached from some functions."""

    def __init__(self, calls: dict[str, list], without: set[str]):
        self.calls, self.without = calls, without
        self.targets: dict[str, list[str]] = {}
        self.open_calls = 0

    def reach(self, name: str) -> None:
        """Notes a function and all below it."""
        waiting = [name]
        while waiting:
            name = waiting.pop()
            if name in self.targets:
                continue
            targets = []
            for call in self.calls.get(name, []):
                if "Fn" in call:
                    targets.append(call["Fn"][0])
                    # Closures and implementations that are handed on may be called there.
                    targets += [it for it in names_in(call["Fn"][1]) if it in self.calls]
                else:
                    self.open_calls += 1
            self.targets[name] = [it for it in targets if it not in self.without]
            waiting += [it for it in self.targets[name] if it in self.calls]

    def depth(self, name: str) -> int:
        """Returns the longest way down, each function once."""
        known: dict[str, int] = {}

        def of(it: str, above: frozenset) -> int:
            if it not in known:
                known[it] = 0
                known[it] = 1 + max((of(to, above | {it}) for to in self.targets.get(it, []) if to in self.calls and to not in above), default=0)
            return known[it]

        return of(name, frozenset())


def names_in(values) -> list[str]:
    """Returns the names that stand in types and dictionaries."""
    found = []
    if isinstance(values, str) and "::" in values:
        found.append(values)
    elif isinstance(values, dict):
        for it in values.values():
            found += names_in(it)
    elif isinstance(values, list):
        for it in values:
            found += names_in(it)
    return found


def main() -> int:
    parser = argparse.ArgumentParser(description=__doc__, formatter_class=argparse.RawDescriptionHelpFormatter)
    parser.add_argument("--tree", type=pathlib.Path, default=ROOT)
    parser.add_argument("--without", default="")
    parser.add_argument("--list", action="store_true")
    parser.add_argument("functions", nargs="+")
    words = parser.parse_args()
    calls = library(words.tree)
    for name in words.functions:
        if name not in calls:
            print(f"{name} isn't in a library that is built")
            return 1
        walk = Walk(calls, set(words.without.split(",")))
        walk.reach(name)
        own = {it: to for it, to in walk.targets.items() if it in calls}
        crate = lambda it: it.split("::")[0]  # noqa: E731
        made = [(it, to) for it, targets in own.items() for to in targets]
        counts = {
            "calls": len(made),
            "functions": len(own),
            "crates": len({crate(it) for it in own}),
            "into another crate": sum(crate(it) != crate(to) and to in calls for it, to in made),
            "deepest way": walk.depth(name),
            "copies": sum(to.rsplit("::", 1)[-1] in COPIES for _, to in made),
            "views": sum(to in VIEWS for _, to in made),
            "passes over attributes": sum(to in PASSES for _, to in made),
            "calls of what was handed in": walk.open_calls,
        }
        print(f"{name}: " + ", ".join(f"{what} {count}" for what, count in counts.items()))
        if words.list:
            by_crate = collections.defaultdict(list)
            for it in sorted(own):
                by_crate[crate(it)].append(it.split("::", 1)[1])
            for one, names in sorted(by_crate.items()):
                print(f"  {one} ({len(names)}): " + ", ".join(names))
    return 0


if __name__ == "__main__":
    raise SystemExit(main())
