"""What the converters write a configuration of roam by."""

import argparse
import ipaddress
import re
import socket
import sys

NAME = re.compile(r"[A-Za-z0-9.-]{1,253}\Z")
TABLES, SERVERS, PLACES, ALSO, REJECTS = 1024, 8, 8, 256, 1024
# The most addresses of a peer.
PREFIXES = 8
# Behind `*` a server is silent where one home server behind it is.
REST_AFTER_OF_ALL, HOPS = 50, 10


def toml(text):
    plain = all(32 <= ord(letter) and ord(letter) != 127 for letter in text)
    if plain and "'" not in text and ("\\" in text or '"' in text):
        return f"'{text}'"
    escaped = "".join(f"\\u{ord(letter):04X}" if ord(letter) < 32 or ord(letter) == 127 else letter
                      for letter in text.replace("\\", "\\\\").replace('"', '\\"'))
    return f'"{escaped}"'


class Written:
    """The lines, and how much isn't carried over and how much is changed."""

    def __init__(self):
        self.lines, self.lost, self.changed, self.unnamed = [], 0, 0, set()

    def put(self, *lines):
        self.lines += lines

    def lose(self, what):
        self.lost += 1
        self.put(f"# Not carried over: {printable(what)}")

    def change(self, what):
        self.changed += 1
        self.put(f"# Changed: {printable(what)}")

    def own_address(self, candidates, kind):
        """Returns the first of this machine's addresses that is of the kind. Where there is none, a word of one that has to be written."""
        found = next((it for it in candidates if it and kind_of(it) == kind), None)
        if found:
            return found
        placeholder = {"IPv4": "127.0.0.1", "IPv6": "::1"}[kind]
        if kind not in self.unnamed:
            self.unnamed.add(kind)
            self.change(f"no address of this machine is named that is of {kind}: write it in place of {placeholder}, everywhere")
        return placeholder

    def own_addresses(self, candidates, endpoints):
        """Returns one of this machine's addresses of each kind that one of the endpoints has, in their order."""
        return [self.own_address(candidates, kind) for kind in dict.fromkeys(kind_of(it[0]) for it in endpoints)]


def printable(text):
    return "".join(letter if letter.isprintable() else "?" for letter in text)


def address_of(text):
    """Returns an address of IPv4 or IPv6, with one spelling for each. None for a zone, for 0.0.0.0 and ::, and for what is none."""
    try:
        address = ipaddress.ip_address(text)
    except ValueError:
        return None
    if "%" in text or address.is_unspecified:
        return None
    return str(address.ipv4_mapped or address) if address.version == 6 else str(address)


def network_of(text):
    """Returns a prefix, or an address as one of all its bits; None for what is neither. Bits that don't count become 0."""
    try:
        network = ipaddress.ip_network(text if "/" in text else address_of(text) or "", strict=False)
    except ValueError:
        return None
    return None if network.version == 6 and network.network_address.ipv4_mapped else network


def network_text(network):
    """Returns a prefix as roam's `ip` has it."""
    return str(network.network_address if network.prefixlen == network.max_prefixlen else network)


def network_texts(networks):
    """Returns one prefix, or a list of them, as a value."""
    texts = [f'"{network_text(it)}"' for it in networks]
    return texts[0] if len(texts) == 1 else "[" + ", ".join(texts) + "]"


def by_so_many(these, count):
    """Returns the parts of a list, each of so many or, the last, of fewer."""
    return [these[at:at + count] for at in range(0, len(these), count)]


def is_in_one(network, networks):
    """Says whether a prefix lies in one of these."""
    return any(network.version == it.version and network.subnet_of(it) for it in networks)


def parts_of(text):
    """Returns the host and the port that stands behind it, or an empty text. An address of IPv6 with a port is in brackets."""
    if text.startswith("["):
        host, closed_by, rest = text[1:].partition("]")
        return host, rest.removeprefix(":") if closed_by and rest[:1] in ("", ":") else "none"
    host, _, port = text.partition(":") if text.count(":") < 2 else (text, "", "")
    return host, port


def looked_up(name):
    """Returns the address of a name now: of IPv4 where it has one."""
    try:
        found = [it[4][0] for it in socket.getaddrinfo(name, None, type=socket.SOCK_DGRAM)]
    except (OSError, UnicodeError):
        return None
    return next((it for it in found if is_ipv4(it)), found[0] if found else None)


def endpoint_of(text, port, options):
    """Returns an address and a port of `address`, `*`, `name` and these with a port; None for what is no address."""
    host, stated = parts_of(text)
    stated = stated or str(port)
    if not stated.isdigit() or not 1 <= int(stated) <= 65535:
        return None
    address = address_of(host)
    if not address and options.resolve and re.search("[A-Za-z]", host) and ":" not in host:
        address = address_of(looked_up(host) or "")
    return (address, int(stated)) if address else None


def is_ipv4(address):
    return ":" not in address


def kind_of(address):
    return "IPv4" if is_ipv4(address) else "IPv6"


def endpoint_text(endpoint):
    address, port = endpoint
    return f'"{address}:{port}"' if is_ipv4(address) else f'"[{address}]:{port}"'


def endpoint_texts(endpoints):
    """Returns one endpoint, or a list of them, as a value."""
    texts = [endpoint_text(it) for it in endpoints]
    return texts[0] if len(texts) == 1 else "[" + ", ".join(texts) + "]"


def fault_of(secret):
    """Returns a secret as text, or why it can't be written."""
    if secret is None:
        return None, "it has no secret"
    octets = secret.encode(errors="surrogateescape")
    if not 1 <= len(octets) <= 64:
        return None, f"its secret has {len(octets)} octets, and roam takes 1 to 64"
    try:
        return octets.decode(), None
    except UnicodeDecodeError:
        return None, "its secret isn't text in UTF-8"


def peer_name(text, taken):
    """Returns a name for a peer that no other has."""
    name = re.sub(r"[^A-Za-z0-9._-]", "-", text)[:58] or "client"
    chosen, number = name, 2
    while chosen in taken:
        chosen, number = f"{name}-{number}", number + 1
    taken.add(chosen)
    return chosen


def tidy(lines):
    """Returns one empty line between two parts, and none at the end."""
    return re.sub(r"\n{3,}", "\n\n", "\n".join(lines)).strip("\n") + "\n"


def options_of(about, conf):
    """Returns the words of a converter's command line."""
    parser = argparse.ArgumentParser(description=about, formatter_class=argparse.RawDescriptionHelpFormatter)
    parser.add_argument("conf", help=conf, **({} if conf.startswith("the ") else {"nargs": "+"}))
    parser.add_argument("--address", help="this machine's address, where the file names none")
    parser.add_argument("--resolve", action="store_true", help="look names of clients and servers up, now")
    parser.add_argument("--out", type=int, default=20001, help="port of the first realm's `out`")
    parser.add_argument("--reverse", type=int, help="port of the first realm's `reverse`, where there are to be any")
    parser.add_argument("--front", metavar="FOLDER", help="where haproxy.cfg, names.map and streams.conf are written, where TLS is spoken")
    parser.add_argument("--max-pending", type=int, help="of each realm")
    return parser.parse_args()


def closed(program, out, peers, realms, conversion):
    """Prints what was written, and says how much isn't carried over."""
    sys.stdout.write(tidy(out.lines))
    print(f"peers {peers}, realms {realms}, not carried over {out.lost}, changed {out.changed}", file=sys.stderr)
    if not peers or not realms:
        sys.exit(f"{program}: roam needs at least one peer and one realm")
    if conversion.lost_parts:
        print(f"{program}: not carried over: " + printable(", ".join(conversion.lost_parts)), file=sys.stderr)
    if conversion.lost_tables:
        sys.exit(f"{program}: not carried over as a whole: " + printable(", ".join(conversion.lost_tables)))
