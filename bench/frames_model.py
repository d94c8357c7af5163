#!/usr/bin/env python3
"""An outside model of the frames of a session, written from the format alone.

bench/frames_model.py read < STREAM    prints a line for each frame, and then what is left: `rest N` or `fault PLACE`
bench/frames_model.py make SEED COUNT  writes a stream of COUNT frames, of which about one in four streams has a bad one
"""
import random
import struct
import sys

PAYLOAD, ITEM, HEADS, FEW, FILTER = 8388608, 262144, 131072, 4096, 163840


class Bad(Exception):
    pass


class Fields:
    def __init__(self, data):
        self.data, self.at = data, 0

    def take(self, count):
        if self.at + count > len(self.data):
            raise Bad
        self.at += count
        return self.data[self.at - count : self.at]

    def number(self, form, most):
        (value,) = struct.unpack(">" + form, self.take(struct.calcsize(form)))
        if value > most:
            raise Bad
        return value

    def ids(self, form, most):
        ids = [self.take(32) for _ in range(self.number(form, most))]
        if any(a >= b for a, b in zip(ids, ids[1:])):
            raise Bad
        return ids

    def end(self):
        if self.at != len(self.data):
            raise Bad


def says(kind, payload):
    """What a whole payload says, in words; Bad where it says nothing."""
    fields = Fields(payload)
    if kind == 2:
        return f"item {len(payload)}"
    if kind == 3:
        have = fields.number("B", 1)
        needs = fields.ids("H", FEW)
        fields.end()
        if have and needs:
            raise Bad
        return f"turn {have} {len(needs)}"
    version = fields.take(1)[0]
    if version != 2:
        return f"version {version}"
    database, node = fields.take(32), fields.take(32)
    heads, old = fields.ids("I", HEADS), fields.ids("H", FEW)
    size = fields.number("I", FILTER)
    fields.take(size)
    fields.end()
    return f"hello {database.hex()} {node.hex()} {len(heads)} {len(old)} {size}"


def read(stream):
    """The lines of a stream: one for each frame, and one for what is left."""
    lines, at = [], 0
    while len(stream) - at >= 5:
        kind, length = struct.unpack(">BI", stream[at : at + 5])
        try:
            if kind not in (1, 2, 3) or length > (ITEM if kind == 2 else PAYLOAD):
                raise Bad
            if len(stream) - at < 5 + length:
                break
            lines.append(says(kind, stream[at + 5 : at + 5 + length]))
        except Bad:
            return lines + [f"fault {at}"]
        at += 5 + length
    return lines + [f"rest {len(stream) - at}"]


def frame(kind, payload):
    return struct.pack(">BI", kind, len(payload)) + payload


def counted(form, ids):
    return struct.pack(">" + form, len(ids)) + b"".join(ids)


def some_ids(rng, most):
    return sorted({rng.randbytes(32) for _ in range(rng.randrange(most))})


def good(rng):
    choice = rng.randrange(4)
    if choice == 0:
        filter_bytes = rng.randbytes(rng.randrange(64))
        body = b"\x01" + rng.randbytes(64) + counted("I", some_ids(rng, 5)) + counted("H", some_ids(rng, 5))
        return frame(1, body + struct.pack(">I", len(filter_bytes)) + filter_bytes)
    if choice == 1:
        return frame(1, bytes([rng.choice([0, 2, 255])]) + rng.randbytes(rng.randrange(9)))
    if choice == 2:
        return frame(2, rng.randbytes(rng.randrange(300)))
    return frame(3, b"\x01\x00\x00" if rng.random() < 0.5 else b"\x00" + counted("H", some_ids(rng, 6)))


def bad(rng):
    ids = [rng.randbytes(32) for _ in range(2)]
    return rng.choice([
        frame(rng.choice([0, 4, 255]), b""),
        struct.pack(">BI", rng.choice([1, 3]), PAYLOAD + 1),
        struct.pack(">BI", 2, ITEM + 1),
        frame(1, b""),
        frame(1, b"\x01" + rng.randbytes(rng.randrange(74))),
        frame(3, b"\x02\x00\x00"),
        frame(3, b"\x01" + counted("H", ids[:1])),
        frame(3, b"\x00" + counted("H", sorted(ids, reverse=True))),
        frame(3, b"\x00" + counted("H", ids[:1] * 2)),
        frame(3, b"\x00\x00\x00\x00"),
    ])


def make(seed, count):
    rng = random.Random(seed)
    frames = [good(rng) for _ in range(count)]
    if count and rng.random() < 0.25:
        frames[rng.randrange(count)] = bad(rng)
    return b"".join(frames)


if __name__ == "__main__":
    if sys.argv[1:2] == ["make"] and len(sys.argv) == 4:
        sys.stdout.buffer.write(make(int(sys.argv[2]), int(sys.argv[3])))
    elif sys.argv[1:] == ["read"]:
        print("\n".join(read(sys.stdin.buffer.read())))
    else:
        sys.exit(__doc__)
