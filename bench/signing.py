#!/usr/bin/env python3
"""Keys, signatures and the spelling of updates, for the scripts that make streams and bundles.

An author signs with LMS (RFC 8554) of 4 bits a digit, or of 8, by the next leaf of a tree that is made whole when the key
is made, from fixed seeds: the same author of the same height and digits is the same key again. The keys are for examples and
measurements alone. docs/FORMATS.md says how updates are spelled.
"""
import hashlib
import os
import struct
from typing import NamedTuple

AUTHORS = 4
LMS_TYPES = {5: 5, 10: 6, 15: 7}  # the LMS type of each height


class Digits(NamedTuple):
    """The parameters of LM-OTS: its type, how many bits a digit has, how many chains there are, and the greatest digit."""
    type: int
    bits: int
    chains: int
    last: int


W4, W8 = Digits(3, 4, 67, 15), Digits(4, 8, 34, 255)
STEPS = [bytes([step]) for step in range(255)]


class Row(NamedTuple):
    """The name of a row, and the reference to it: the id of the update that inserted it, and the operation there."""
    id: bytes
    index: int


class Own(NamedTuple):
    """A reference to the row that an earlier operation of the same update inserts."""
    index: int


def sha256(data):
    return hashlib.sha256(data).digest()


def stepped(prefix, value, start, end):
    """The value of a chain, taken from one step to another."""
    for step in STEPS[start:end]:
        value = sha256(prefix + step + value)
    return value


def digits(digest, of):
    """The digits of a digest and of its checksum."""
    if of == W8:
        checksum = sum(of.last - byte for byte in digest)
        return [*digest, checksum >> 8, checksum & 255]
    groups = [half for byte in digest for half in (byte >> 4, byte & 15)]
    checksum = sum(of.last - group for group in groups) << 4
    return groups + [checksum >> 12 & 15, checksum >> 8 & 15, checksum >> 4 & 15]


def leaf(job):
    """The value of leaf q in the tree of an author."""
    ident, seed, height, of, q = job
    ends = b""
    for chain in range(of.chains):
        prefix = ident + struct.pack(">IH", q, chain)
        ends += stepped(prefix, sha256(prefix + b"\xff" + seed), 0, of.last)
    value = sha256(ident + struct.pack(">I", q) + b"\x80\x80" + ends)
    return sha256(ident + struct.pack(">I", (1 << height) + q) + b"\x82\x82" + value)


def height_for(count, authors=AUTHORS):
    """The smallest height of which so many authors together can sign this often."""
    return next(height for height in LMS_TYPES if authors << height >= count)


class Author:
    """A key whose tree is made whole, and whose leaves sign in turn."""

    def __init__(self, number, height, pool, of=W4):
        self.height, self.of, self.next_leaf = height, of, 0
        self.ident = sha256(b"bec example author %d" % number)[:16]
        self.seed = sha256(b"bec example seed %d" % number)
        leaves = 1 << height
        jobs = [(self.ident, self.seed, height, of, q) for q in range(leaves)]
        self.nodes = [b""] * leaves + pool.map(leaf, jobs, chunksize=32)
        for r in range(leaves - 1, 0, -1):
            children = self.nodes[2 * r] + self.nodes[2 * r + 1]
            self.nodes[r] = sha256(self.ident + struct.pack(">I", r) + b"\x83\x83" + children)
        self.key = struct.pack(">II", LMS_TYPES[height], of.type) + self.ident + self.nodes[1]

    def is_spent(self):
        return self.next_leaf == 1 << self.height

    def sign(self, message):
        q = self.next_leaf
        self.next_leaf += 1
        random = sha256(self.seed + struct.pack(">I", q))
        place = self.ident + struct.pack(">I", q)
        values = b""
        for chain, digit in enumerate(digits(sha256(place + b"\x81\x81" + random + message), self.of)):
            prefix = place + struct.pack(">H", chain)
            values += stepped(prefix, sha256(prefix + b"\xff" + self.seed), 0, digit)
        r, path = (1 << self.height) + q, b""
        while r > 1:
            path += self.nodes[r ^ 1]
            r //= 2
        one_time = struct.pack(">I", self.of.type) + random + values
        return struct.pack(">I", q) + one_time + struct.pack(">I", LMS_TYPES[self.height]) + path


def value(content):
    """The spelling of a value: none, a flag, an integer, the bytes of a text, or a reference."""
    match content:
        case None:
            return b"\x00"
        case bool():
            return b"\x03" + bytes([content])
        case int():
            return b"\x01" + struct.pack(">q", content)
        case bytes():
            return b"\x02" + struct.pack(">H", len(content)) + content
        case Row():
            return b"\x04" + content.id + struct.pack(">H", content.index)
        case Own():
            return b"\x05" + struct.pack(">H", content.index)


def insert(table, values):
    """The spelling of an insert of these values into the table with this number."""
    return b"\x01" + bytes([table, len(values)]) + b"".join(map(value, values))


def delete(row):
    """The spelling of a delete of the row with this name."""
    return b"\x02" + row.id + struct.pack(">H", row.index)


def update(database, author, preds, operations, note=None):
    """Database, author, predecessors in rising order, spelled operations, the note of version 2, and the author's signature."""
    message = bytes([1 if note is None else 2]) + database + author.key + struct.pack(">H", len(preds)) + b"".join(sorted(preds))
    message += struct.pack(">H", len(operations)) + b"".join(operations)
    message += b"" if note is None else struct.pack(">H", len(note)) + note
    signature = author.sign(message)
    return message + struct.pack(">I", len(signature)) + signature


def record(spelling):
    """The record of a stream that holds an update, or the part of a bundle that holds the schema."""
    return struct.pack(">I", len(spelling)) + spelling


def records_of(stream):
    """The spellings of the updates of a stream."""
    found, at = [], 0
    while at < len(stream):
        (size,) = struct.unpack(">I", stream[at:at + 4])
        found.append(stream[at + 4:at + 4 + size])
        at += 4 + size
    return found


def lay_out(store, schema, records, node=0):
    """The parts of a new store of a schema with these records, whose node has 32 times this byte."""
    os.makedirs(store)
    payload = bytes([node]) * 32 + schema
    with open(os.path.join(store, "schema"), "wb") as file:
        file.write(b"\1" + struct.pack(">I", len(payload)) + payload)
    with open(os.path.join(store, "updates"), "wb") as file:
        file.writelines(records)
