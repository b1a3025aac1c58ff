#!/usr/bin/env python3
"""Prints test vectors: what RFCs publish, which is looked at here, and what is computed by their formulas alone.

vectors.txt has what this prints; write_rows.py writes it.
"""
from formulas import H1, K, P, Q, header, hide, key, md5, microsoft, of_vendor, seal, tunnel
from packets import chacha_block

ZERO, ONE, COUNTING = bytes(32), bytes(31) + b"\1", bytes(range(32))
FF = b"\0\xff" + bytes(30)
# Key, stream, block, and the first octets of that block as they are published: RFC 8439, appendix A.1, the first to the
# fifth; and the draft from which RFC 7539 came, draft-agl-tls-chacha20poly1305-04, section 7. In the former a nonce has
# 96 bits: where its first 32 are 0, it is a stream of 64.
PUBLISHED_BLOCKS = [
    ("RFC 8439 A.1", ZERO, 0, 0, "76b8e0ada0f13d90405d6ae55386bd28bdd219b8a08ded1aa836efcc8b770dc7"
                                 "da41597c5157488d7724e03fb8d84a376a43b8f41518a11cc387b669b2ee6586"),
    ("RFC 8439 A.1", ZERO, 0, 1, "9f07e7be5551387a98ba977c732d080dcb0f29a048e3656912c6533e32ee7aed"
                                 "29b721769ce64e43d57133b074d839d531ed1f28510afb45ace10a1f4b794d6f"),
    ("RFC 8439 A.1", ONE, 0, 1, "3aeb5224ecf849929b9d828db1ced4dd832025e8018b8160b82284f3c949aa5a"),
    ("RFC 8439 A.1", FF, 0, 2, "72d54dfbf12ec44b362692df94137f328fea8da73990265ec1bbbea1ae9af0ca"),
    ("RFC 8439 A.1", ZERO, 2 << 56, 0, "c2c64d378cd536374ae204b9ef933fcd1a8b2288b3dfa49672ab765b54ee27c7"),
    ("draft-agl", ONE, 0, 0, "4540f05a9f1fb296d7736e7b208e3c96eb4fe1834688d2604f450952ed432d41"),
    ("draft-agl", ZERO, 1 << 56, 0, "de9cba7bf3d69ef5e786dc63973f653a0b49e015adbff7134fcb7df137821031"),
    ("draft-agl", ZERO, 1, 0, "ef3fdfd6c61578fbf5cf35bd3dd33b8009631634d21e42ac33960bd138e50d32"),
    ("draft-agl", COUNTING, 0x0706050403020100, 0,
     "f798a189f195e66982105ffb640bb7757f579da31602fc93ec01ac56f85ac3c1"
     "34a4547b733b46413042c9440049176905d3be59ea1c53f15916155c2be8241a"),
]
# Key, stream, position in words: four words from there on, which may lie in two blocks.
COMPUTED_WORDS = [
    (ZERO, 0, 62), (ZERO, 2, 0), (ZERO, 255, 0), (COUNTING, 0, 0), (COUNTING, 1, 0), (COUNTING, 255, 1000),
    (bytes.fromhex("0123456789abcdef" * 4), 1, 32), (ZERO, 0, 2 ** 36 - 4), (ZERO, 0, 2 ** 36),
    (ZERO, 0, 2 ** 68 - 2), (COUNTING, 7, 2 ** 68 - 4),
]
# Source, Request Authenticator, reply, all with the secret `xyzzy5461`.
SIGNED = [
    ("RFC 2865 7.1", "0f403f9473978057bd83d5cb98f4227a",
     "0200002686fe220e7624ba2a1005f6bf9b55e0b20606000000010f06000000000e06c0a80103"),
    ("RFC 2865 7.2", "2aee86f08d0d55969ca5978e0d3367a2",
     "0201003815efbc7dab26cfa3dc34d9c03c8601a4060600000002070600000001"
     "0806fffffffe0a06000000020d06000000010c06000005dc"),
    ("RFC 2865 7.3", "f3a47a1f6a6d76710b947ab93041a039",
     "0b02004e36f3c8764ae8c71157403c0c71ff9c4512304368616c6c656e67652033323736393433302e2020456e74657220726573706f6e73"
     "652061742070726f6d70742e180a3332373639343330"),
    ("RFC 2865 7.3", "b122556d428a13d0d6253807c457ecf0", "03030014a42f4fca45916c4e09c8340f9e746aa0"),
    ("RFC 5997 6.1", "8a54f4686fb394c52866e302185d0623", "02da0014ef0d552a4bf2d693ec2b6fe8b5411d66"),
    ("RFC 5997 6.2", "925f6b66dd5fed571fcb1db7ad388260", "05b300140f6f92145f107e2f504e860a4860669c"),
]
# Source and packet: the Message-Authenticator of RFC 3579 over the packet's own Authenticator, with the same secret.
SEALED = [
    ("RFC 5997 6.1", "0cda00268a54f4686fb394c52866e302185d062350125a665e2e1e8411f3e243822097c84fa3"),
    ("RFC 5997 6.2", "0cb30026925f6b66dd5fed571fcb1db7ad3882605012e8d6eabda910875cd91fdade26367858"),
    ("RFC 5997 6.3", "0c47002cbf58de56ae408ad3b70c8513f9b03fbe0406c00002105012852d6fec61e7ed74b8e32dac2f2a5fb2"),
]
# Source, Request Authenticator, hidden password, plain one, with the same secret.
PASSWORDS = [
    ("RFC 2865 7.1", "0f403f9473978057bd83d5cb98f4227a", "0dbe708d93d413ce3196e43f782a0aee", b"arctangent"),
    ("RFC 2865 7.3", "f3a47a1f6a6d76710b947ab93041a039", "33657573778289b570885e15084825c5", b"challenge"),
    ("RFC 2865 7.3", "b122556d428a13d0d6253807c457ecf0", "692c1f205fc081b919b95195f561a581", b"99101462"),
]
# Plain strings of salted values, whole blocks with the length in front, and their salts.
STRINGS = [(b"\x80\x01", b"\x0atunnelpass" + bytes(5)), (b"\xff\xff", b"\x28" + bytes(range(40)) + bytes(7)),
           (b"\x80\x00", b"\xef" + bytes(range(239)))]


def words(key, stream, position):
    """Four words, each little-endian."""
    blocks = [chacha_block(key, stream, (position // 16 + n) % 2 ** 64) for n in range(2)]
    at = position % 16 * 4
    return b"".join(blocks)[at:at + 16]


def random_words():
    yield "ChaCha20 with blocks and streams of 64 bits: key, stream, position in words, the four words from there"
    for source, seed, stream, block, octets in PUBLISHED_BLOCKS:
        assert chacha_block(seed, stream, block).hex().startswith(octets)
        for place in range(0, len(octets), 32):
            yield f"{source}: {seed.hex()} {stream} {16 * block + place // 8} {octets[place:place + 32]}"
    for seed, stream, position in COMPUTED_WORDS:
        yield f"computed: {seed.hex()} {stream} {position} {words(seed, stream, position).hex()}"


def signatures():
    yield "Response Authenticators, secret xyzzy5461: Request Authenticator, reply"
    for source, over, reply in SIGNED:
        octets = bytes.fromhex(reply)
        assert md5(octets[:4], bytes.fromhex(over), octets[20:], P) == octets[4:20]
        yield f"{source}: {over} {reply}"


def seals():
    yield "Message-Authenticators over the packet's own Authenticator, secret xyzzy5461: packet"
    for source, packet in SEALED:
        octets = bytes.fromhex(packet)
        at = octets.index(b"\x50\x12", 20)
        before, behind = octets[20:at], octets[at + 18:]
        assert octets[20:] == seal(octets[0], octets[1], octets[4:20], before, behind, P)
        yield f"{source}: {packet}"


def passwords():
    yield "User-Passwords, secret xyzzy5461: Request Authenticator, hidden, plain, hidden by h1 and K0"
    for source, over, octets, plain in PASSWORDS:
        plain = plain.ljust(16, b"\0")
        assert hide(plain, P, bytes.fromhex(over)).hex() == octets
        yield f"{source}: {over} {octets} {plain.hex()} {hide(plain, H1, K(0)).hex()}"


def tunnel_passwords():
    yield "Tunnel-Passwords of tag 1: plain, from the server (h1, K0), to the access server (xyzzy5461, Q)"
    for salt, plain in STRINGS:
        both = [tunnel(b"\1", salt, plain, *side)[2:].hex() for side in ((H1, K(0)), (P, Q))]
        yield "computed: " + " ".join([plain.hex()] + both)


def keys():
    yield "Vendor-Specific of MS-MPPE-Send-Key, MS-MPPE-Recv-Key: plain, plain, from the server, to the access server"
    for (salt, plain), (other_salt, other) in ((STRINGS[0], STRINGS[1]), (STRINGS[1], STRINGS[0])):
        both = [microsoft(key(16, salt, plain, *side), key(17, other_salt, other, *side))[2:].hex()
                for side in ((H1, K(0)), (P, Q))]
        yield "computed: " + " ".join([plain.hex(), other.hex()] + both)


def vendors():
    yield "Vendor-Specific of 6527 (types 122, 142: salt), of 2356 (19, 20: tag 1, salt): as the keys"
    (_, plain), (_, other) = STRINGS[:2]
    for number, tag, kinds in ((6527, b"", (122, 142)), (2356, b"\1", (19, 20))):
        both = [of_vendor(number, *(tunnel(tag, *string, *side, kind) for string, kind in zip(STRINGS, kinds)))
                for side in ((H1, K(0)), (P, Q))]
        yield "computed: " + " ".join([plain.hex(), other.hex()] + [one[2:].hex() for one in both])


def text():
    lines = [f"# K0 is {K(0).hex()}, Q is {Q.hex()}"]
    for part in (random_words, signatures, seals, passwords, tunnel_passwords, keys, vendors):
        heading, *rest = part()
        lines += ["", "# " + heading] + rest
    return "".join(line + "\n" for line in lines)


if __name__ == "__main__":
    print(text(), end="")
