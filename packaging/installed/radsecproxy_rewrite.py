"""What a rewrite block of radsecproxy does, as keys of roam: attributes that don't pass, and what is added for a peer.

radsecproxy takes out first, then modifies, supplements where an attribute isn't there, and adds.
"""

import re

# What the lists of requests and of replies can't name, and how long a list is at most.
KEPT = {"request": {1, 2, 3, 24, 33, 60, 79, 80}, "reply": {24, 33, 79, 80}}
MOST = 64
OPERATOR_NAME, CHARGEABLE_USER_IDENTITY = 126, 89
# Of which option a value is an attribute to be added.
ADDING = ("supplementattribute", "addattribute")


class Rewriting:
    """What doesn't pass, what is added, and what of a block has no key, with the reason."""

    def __init__(self):
        self.without, self.operator_name, self.operator_namespace, self.asks_cui, self.lost = [], None, None, False, []

    def add(self, number, value, why):
        """An attribute that is added where none stands there."""
        text = value[1:] if value.startswith("'") else "" if re.match(r"\d", value) else value
        if number == OPERATOR_NAME and "0" <= text[:1] <= "9" and 2 <= len(text.encode(errors="surrogateescape")) <= 253:
            self.operator_namespace, self.operator_name = text[0], text[1:]
        elif number == CHARGEABLE_USER_IDENTITY and text == "\0":
            self.asks_cui = True
        else:
            self.lost.append(why)


def taken_out(option, value):
    """Returns an attribute as the lists of roam write it, and its type; None where radsecproxy doesn't take it either."""
    found = re.fullmatch(r"(\d+)(?::(\d+))?", value)
    if not found:
        return None, 0
    first, second = (int(it) if it else None for it in found.groups())
    if option == "removeattribute":
        return (str(first), first) if second is None and 1 <= first <= 255 else (None, 0)
    if first > 0xFFFFFF or second is not None and not 1 <= second <= 255:
        return None, 0
    return f"26.{first}" + (f".{second}" if second else ""), 26


def rewriting_of(block, way, is_client):
    """Returns what a block does with requests or replies, of a client or of a server."""
    done = Rewriting()
    if block.is_on("whitelistmode"):
        done.lost.append("whitelistmode on: roam's lists have what doesn't pass, not what does")
        return done
    removed = set()
    for option, value in block.options:
        if option in ("removeattribute", "removevendorattribute"):
            written, kind = taken_out(option, value)
            if written is None or kind in KEPT[way]:
                done.lost.append(f"{option} {value}: it can't be taken out of a {way}")
            elif len(done.without) == MOST:
                done.lost.append(f"{option} {value}: a list has {MOST} attributes")
            elif written not in done.without:
                done.without.append(written)
                removed.add(written)
    for option, value in block.options:
        number, _, text = value.partition(":")
        if option in ADDING and is_client and way == "request":
            only_where_absent = option == "supplementattribute" or number in removed
            why = f"{option} {value}: what is added is an Operator-Name ('1 and a realm, or another digit and its name) and an empty Chargeable-User-Identity (%00)"
            if not only_where_absent:
                done.lost.append(f"{option} {value}: roam adds one only where none stands there (supplementAttribute)")
            else:
                done.add(int(number) if number.isdigit() else 0, text, why)
        elif option in ADDING:
            done.lost.append(f"{option} {value}: to requests of a client alone something is added")
        elif not option.startswith(("remove", "whitelist")):
            done.lost.append(f"{option} {value}: no attribute is modified, nor one of a vendor added")
    return done
