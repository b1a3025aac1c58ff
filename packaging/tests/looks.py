"""What a trial looks at: each look is counted, and told where it isn't as it should be. A trial that looked at nothing fails, too."""
import linecache
import os
import re
import sys

COUNT, BAD = {"looks": 0}, []
ON = {"goes on": False, "tells": True}
NAME = os.path.basename(sys.argv[0])


def go_on():
    """Has a bad look fail the trial at its end, and not at once."""
    ON["goes on"] = True


def be_quiet():
    """Has good looks untold: of trials that have thousands."""
    ON["tells"] = False


def want(holds, what=None):
    """Looks at one thing, and says what it is: where it isn't named, by the line that wants it."""
    COUNT["looks"] += 1
    if holds and not ON["tells"]:
        return
    if what is None:
        asked = sys._getframe(1)
        what = f"line {asked.f_lineno}: {linecache.getline(asked.f_code.co_filename, asked.f_lineno).strip()}"
    print("  ok " if holds else "  BAD", what, flush=True)
    if not holds:
        BAD.append(what)
        if not ON["goes on"]:
            sys.exit(1)


def edited(before, after, what="an edit"):
    """Returns what an edit made of something, and wants it to be something else: an edit that changes nothing tests nothing."""
    if after == before:
        want(False, f"{what} changes something")
    COUNT["looks"] += 1
    return after


def changed(text, old, new, times=-1):
    """Returns the text with `old`, a text, octets or a compiled expression, replaced so often (always), and wants that to change it."""
    is_expression = isinstance(old, re.Pattern)
    return edited(text, old.sub(new, text, max(0, times)) if is_expression else text.replace(old, new, times), f"{old!r} in place of {new!r}")


def over_lines(text, step=2):
    """Returns the text of another server's file, in which a block on one line, as `listen { type = auth; port = 1812 }`, stands for one over
    several."""
    def spread(found):
        indent, head, inner = found.groups()
        lines = [" " * step + it for it in inner.strip().split("; ")] if inner.strip() else []
        return "\n".join([f"{indent}{head} {{", *(indent + it for it in lines), indent + "}"])
    return re.sub(r"^( *)(\S.*?) \{ (.*?)\}$", spread, text, flags=re.M)


def words(usage, least=1, most=None):
    """Returns the words of the command line, the first as the path of a program, where they are so many; else tells the usage."""
    given = sys.argv[1:]
    if not least <= len(given) <= (least if most is None else most) or given and given[0] in ("-h", "--help"):
        print(usage, file=sys.stderr)
        sys.exit(2)
    return [os.path.realpath(given[0]), *given[1:]] if given else []


def end(what=None):
    """Returns the status of a trial, and says what it tried: 1 where a look was bad, or there was none."""
    is_good = not BAD and COUNT["looks"] > 0
    print(f"{NAME}: {what + ': ' if what and is_good else ''}{COUNT['looks']} looks, {len(BAD) or 'none'} bad", flush=True)
    return 0 if is_good else 1
