"""What an operator decides of names and attributes, written from the rules as said in words.

Nothing here is taken from the project's code.
"""
from packets import *

OPERATOR_NAME, CHARGEABLE_USER_IDENTITY, NAS_IPV6_ADDRESS = 126, 89, 95
# What names a session stays in a CoA-Request, whatever the lists say.
NAMES_OF_SESSIONS = (USER_NAME, NAS_IP_ADDRESS, NAS_IDENTIFIER, ACCT_SESSION_ID, NAS_IPV6_ADDRESS, OPERATOR_NAME)


def is_label(label):
    """RFC 7542 section 2.2: letters, digits, hyphens within, and octets of letters beyond ASCII."""
    fits = all(chr(octet).isalnum() if octet < 128 else True for octet in label.replace(b"-", b""))
    return bool(label) and fits and not label.startswith(b"-") and not label.endswith(b"-")


def is_well_formed(name):
    labels = name.split(b".")
    return len(labels) > 1 and all(is_label(label) for label in labels)


def how_well(pattern, name):
    """How well a pattern fits a name: -1 where it doesn't, and more for a longer pattern; a whole name fits best."""
    if pattern == b"*":
        return 0 if name else -1
    if pattern.startswith(b"*."):
        end = pattern[1:]
        return len(end) if name.endswith(end) and name != end else -1
    return 1000 if name == pattern else -1


def name_part(user):
    """What stands behind the last `@` of a User-Name, without case; None where there is none."""
    return None if user is None or b"@" not in user else user[user.rindex(b"@") + 1:].lower()


def without(attributes, texts):
    """The attributes but those that the texts name: "T", "26.V" or "26.V.T"."""
    named = [tuple(int(number) for number in text.split(".")) for text in texts]
    return [(kind, left) for kind, value in attributes if (left := what_is_left(kind, value, named)) is not None]


def what_is_left(kind, value, named):
    """What is left of an attribute's value, or None where it goes."""
    if (kind,) in named:
        return None
    if kind != VENDOR_SPECIFIC or len(value) < 4:
        return value
    vendor = int.from_bytes(value[:4], "big")
    if (kind, vendor) in named:
        return None
    kinds = [words[2] for words in named if len(words) == 3 and words[1] == vendor]
    if not kinds:
        return value
    stays = [(k, v) for k, v in pairs(value[4:]) or [] if k not in kinds]
    return value[:4] + b"".join(bytes([k, len(v) + 2]) + v for k, v in stays) if stays else None


def operator_of(peer):
    """The Operator-Name of an access server: the octet of its namespace and a name; None where it has none."""
    return None if "operator_name" not in peer else (peer.get("operator_namespace", "1") + peer["operator_name"]).encode()


def means_the_same(one, other):
    """Whether two Operator-Names mean the same: names of realms without case."""
    return one == other or one[:1] == other[:1] == b"1" and one.lower() == other.lower()


def added(request, peer, attributes):
    """What is added behind the attributes of a request of that access server."""
    more = []
    if "operator_name" in peer and all(kind != OPERATOR_NAME for kind, _ in attributes):
        more.append((OPERATOR_NAME, operator_of(peer)))
    if (request.code == ACCESS_REQUEST and peer.get("ask_cui", False)
            and all(kind != CHARGEABLE_USER_IDENTITY for kind, _ in attributes)):
        more.append((CHARGEABLE_USER_IDENTITY, b"\0"))
    return more


def texts_of(key, *tables):
    """The texts of a key that tables may have."""
    return [text for table in tables for text in table.get(key, [])]


def list_to_forward(request, realm, peer):
    """What of an Access- or Accounting-Request of that access server goes on, and what is added to it, before anything
    is hidden, sealed or signed anew."""
    attributes = without(request.attributes, texts_of("request_without", peer, realm))
    more = added(request, peer, attributes)
    return with_seal_and_challenge(request, attributes) + more


def list_for_access_server(request, realm, peer):
    """What of a Disconnect- or CoA-Request goes on to that access server."""
    if request.code != COA_REQUEST:
        return request.attributes
    texts = [text for text in texts_of("reply_without", peer, realm)
             if "." in text or int(text) not in NAMES_OF_SESSIONS]
    return without(request.attributes, texts)
