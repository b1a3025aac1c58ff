#!/usr/bin/env python3
"""Runs `rt`, with each crate's sum and the list of the crates below it reckoned once a run.

    tools/rt.py ci                      (at the root)
    ../../tools/rt.py run -- WORD ..    (in a crate's folder; also check, test, lib, plant ..)

The `rt` of rattle-kit-13b reckons a crate's sum anew for each way that leads down to it, before and after it builds the crate: here
these are some eleven million sums, more hours than all proofs take. So this loads the `rt` that stands in the path, has the two calls
keep what they gave, and hands its own words on. Nothing else of it is changed: what is proved, and by what, is `rt`'s.
"""
import importlib.machinery
import os
import runpy
import shutil
import sys

RT = os.path.realpath(shutil.which("rt") or sys.exit("rt isn't in the path"))
PLAIN = importlib.machinery.SourceFileLoader.exec_module


def kept(call):
    """Returns a call of a crate that answers for each folder what it answered first."""
    answers: dict = {}

    def answer(crate):
        if crate.folder not in answers:
            answers[crate.folder] = call(crate)
        return answers[crate.folder]
    return answer


def exec_module(loader, module) -> None:
    """Loads a module; of `rt`'s own one both calls keep what they give."""
    PLAIN(loader, module)
    if module.__name__ == "rtlib":
        below = kept(module.Crate.below)
        module.Crate.stamp = kept(module.Crate.stamp)
        module.Crate.below = lambda crate: list(below(crate))


importlib.machinery.SourceFileLoader.exec_module = exec_module
sys.argv[0] = RT
runpy.run_path(RT, run_name="__main__")
