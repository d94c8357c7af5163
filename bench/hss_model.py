#!/usr/bin/env python3
"""Seals by another program: HSS signatures of any number of levels, written from RFC 8554 alone.

    bench/hss_model.py            prints what crates/tests_of_keys has of them, and fails where a signature of one level is not BouncyCastle's
    bench/hss_model.py seal FILE  prints the public key and a seal of the file, in digits, for `bec unseal`

Each key is made from the digests of two texts. A message is digested behind H(I, q, 0xfffd, 0xff, SEED), as BouncyCastle does it.
"""
import hashlib
import sys
from typing import NamedTuple

MESSAGE = b"a bundle"
# section 4.1: digits of w bits, how many chains, and the checksum's shift
ONE_TIME = {1: (1, 265, 7), 2: (2, 133, 6), 3: (4, 67, 4), 4: (8, 34, 0)}
HEIGHTS = {5: 5, 6: 10, 7: 15}
# what BouncyCastle 1.72 signed "abc" with, at height 5: type of one-time key, leaf, SHA-256 of the signature
BOUNCY_CASTLE = ((1, 0, "2061901bb3e26cf9c418d4997fd8f69d772e8eed0bc7aade8d44e80df9a2b131"),
                 (2, 31, "cffca7f5aebc13e4a8a3c63ad85781eccbd12acb1c3c5eda8ba0ddeac09c63d7"),
                 (3, 5, "0425daf22e9ac1196c070027351a4e2b278f22d4ac7fe9ff21164fba208569a0"),
                 (4, 18, "9d961186028a5072ac43d5bed050e7fef5e7cb8ec24990d29a65d6d3e43a04cc"))


class Level(NamedTuple):
    """A key of one level: its types and the name that its secrets are digests of, and the leaf that signs."""
    lms: int
    ots: int
    name: str
    leaf: int


def digest(*parts):
    return hashlib.sha256(b"".join(parts)).digest()


def number(value, size=4):
    return value.to_bytes(size, "big")


def secrets(level):
    """I and SEED."""
    return digest(f"{level.name} I {level.lms} {level.ots}".encode())[:16], digest(f"{level.name} SEED {level.lms} {level.ots}".encode())


def digits(message_digest, ots):
    """The digits of a digest and of its checksum (section 4.4)."""
    bits, chains, shift = ONE_TIME[ots]

    def of(data):
        return [int(text, 2) for whole in [f"{int.from_bytes(data, 'big'):0{8 * len(data)}b}"] for text in (whole[at:at + bits] for at in range(0, len(whole), bits))]

    first = of(message_digest)
    lack = sum((1 << bits) - 1 - digit for digit in first) << shift
    return (first + of(number(lack & 0xFFFF, 2)))[:chains]


def chain(ident, leaf, index, value, start, end):
    for step in range(start, end):
        value = digest(ident, number(leaf), number(index, 2), number(step, 1), value)
    return value


def start_of(ident, seed, leaf, index):
    """Appendix A."""
    return digest(ident, number(leaf), number(index, 2), b"\xff", seed)


def one_time_public(ident, seed, ots, leaf):
    """Section 4.3."""
    bits, chains, _ = ONE_TIME[ots]
    ends = [chain(ident, leaf, index, start_of(ident, seed, leaf, index), 0, (1 << bits) - 1) for index in range(chains)]
    return digest(ident, number(leaf), b"\x80\x80", *ends)


def nodes_of(level):
    """All values of the tree, by their numbers (section 5.3)."""
    ident, seed = secrets(level)
    leaves = 1 << HEIGHTS[level.lms]
    nodes = {leaves + leaf: digest(ident, number(leaves + leaf), b"\x82\x82", one_time_public(ident, seed, level.ots, leaf)) for leaf in range(leaves)}
    for place in range(leaves - 1, 0, -1):
        nodes[place] = digest(ident, number(place), b"\x83\x83", nodes[2 * place], nodes[2 * place + 1])
    return nodes


def public(level):
    return number(level.lms) + number(level.ots) + secrets(level)[0] + nodes_of(level)[1]


def signature(level, message):
    """Sections 4.5 and 5.4.1."""
    ident, seed = secrets(level)
    random = digest(ident, number(level.leaf), b"\xff\xfd\xff", seed)
    hashed = digest(ident, number(level.leaf), b"\x81\x81", random, message)
    values = [chain(ident, level.leaf, index, start_of(ident, seed, level.leaf, index), 0, digit) for index, digit in enumerate(digits(hashed, level.ots))]
    nodes, place, path = nodes_of(level), (1 << HEIGHTS[level.lms]) + level.leaf, []
    while place > 1:
        path.append(nodes[place ^ 1])
        place //= 2
    return number(level.leaf) + number(level.ots) + random + b"".join(values) + number(level.lms) + b"".join(path)


def key_and_seal(levels, message):
    """Section 6.2: the top level first, each of which signs the key of the next one."""
    seal = number(len(levels) - 1)
    for level, below in zip(levels, levels[1:]):
        seal += signature(level, public(below)) + public(below)
    return number(len(levels)) + public(levels[0]), seal + signature(levels[-1], message)


def rows():
    """The types of both levels, the leaves, and the digests of the key and of the seal."""
    for top, low in ((4, 4), (3, 4), (2, 1), (1, 2)):
        levels = [Level(5, top, "hss top", 3 + top), Level(5, low, "hss low", 20 + low)]
        yield top, low, levels, key_and_seal(levels, MESSAGE)


def main():
    if sys.argv[1:2] == ["seal"]:
        with open(sys.argv[2], "rb") as file:
            key, seal = key_and_seal([Level(5, 4, "hss top", 3), Level(5, 4, "hss low", 20)], file.read())
        print(key.hex(), seal.hex(), sep="\n")
        return
    for ots, leaf, wanted in BOUNCY_CASTLE:
        got = hashlib.sha256(signature(Level(5, ots, "lms vector", leaf), b"abc")).hexdigest()
        assert got == wanted, (ots, got)
    for top, low, levels, (key, seal) in rows():
        print(top, levels[0].leaf, low, levels[1].leaf, len(seal), hashlib.sha256(key).hexdigest(), hashlib.sha256(seal).hexdigest())
    for levels in ([Level(5, 1, "hss top", 1)], [Level(5, 1, "hss top", 1), Level(5, 1, "hss mid", 2), Level(5, 1, "hss low", 3)]):
        key, seal = key_and_seal(levels, MESSAGE)
        print(len(levels), len(seal), hashlib.sha256(key).hexdigest(), hashlib.sha256(seal).hexdigest())


if __name__ == "__main__":
    main()
