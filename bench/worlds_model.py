#!/usr/bin/env python3
"""An outside model of `bec world`, from the formats and the definitions alone: bench/worlds_model.py < SCRIPT > REPORT

It makes the same keys, updates, frames and disks as a script says, and prints the report. Replicas judge by bench/tables_model.py, and the ends of
sessions are those of bench/session_model.py. It takes the script to be in form, and knows the choices 0 and 1 of a RESTART alone.
"""
import re
import struct
import sys

import session_model
import signing
import tables_model
from session_model import End, Ended, Store, id_of, next_frame

MASK = (1 << 64) - 1
FAULTS = ["bad frame", "wrong database", "bad update", "unanswered", "asked unknown", "asked again", "stalled", "taken back", "out of turn", "version"]
OPERATION_WORDS = re.compile(r'"(?:[^"\\]|\\.)*"|[^\s"]+')
OPERATIONS = re.compile(r'(?:"(?:[^"\\]|\\.)*"|[^;"])+')


class Words:
    """The words of a number."""

    def __init__(self, number):
        self.state = number

    def word(self):
        self.state = (self.state + 0x9E3779B97F4A7C15) & MASK
        z = self.state
        z = (z ^ z >> 30) * 0xBF58476D1CE4E5B9 & MASK
        z = (z ^ z >> 27) * 0x94D049BB133111EB & MASK
        return z ^ z >> 31

    def bytes(self, count):
        return struct.pack(f">{count}Q", *(self.word() for _ in range(count)))


class Key(signing.Author):
    """A key whose name and seed are words, and which signs by the index and behind the random bytes that it is told."""

    def __init__(self, words, height, of):
        # pylint: disable=super-init-not-called
        self.height, self.of = height, of
        self.ident, self.seed = words.bytes(2), words.bytes(4)
        leaves = 1 << height
        self.nodes = [b""] * leaves + [signing.leaf((self.ident, self.seed, height, of, q)) for q in range(leaves)]
        for r in range(leaves - 1, 0, -1):
            children = self.nodes[2 * r] + self.nodes[2 * r + 1]
            self.nodes[r] = signing.sha256(self.ident + struct.pack(">I", r) + b"\x83\x83" + children)
        self.key = struct.pack(">II", signing.LMS_TYPES[height], of.type) + self.ident + self.nodes[1]
        self.index, self.random = 0, b""

    def sign(self, message):
        place = self.ident + struct.pack(">I", self.index)
        values = b""
        for chain, digit in enumerate(signing.digits(signing.sha256(place + b"\x81\x81" + self.random + message), self.of)):
            prefix = place + struct.pack(">H", chain)
            values += signing.stepped(prefix, signing.sha256(prefix + b"\xff" + self.seed), 0, digit)
        r, path = (1 << self.height) + self.index, b""
        while r > 1:
            path += self.nodes[r ^ 1]
            r //= 2
        one_time = struct.pack(">I", self.of.type) + self.random + values
        return struct.pack(">I", self.index) + one_time + struct.pack(">I", signing.LMS_TYPES[self.height]) + path


class Disk:
    """What a disk reads as, and what of it is synced; and how many calls still pass, or none where all do."""

    def __init__(self, content):
        self.seen, self.synced, self.left = content, content, None

    def passes(self):
        if self.left is None:
            return True
        if self.left == 0:
            return False
        self.left -= 1
        return True

    def writes(self, content):
        """Writes and syncs, and answers whether both passed."""
        if not self.passes():
            return False
        self.seen = content
        if not self.passes():
            return False
        self.synced = content
        return True

    def restarted(self, choice):
        return Disk(self.synced if choice == 0 else self.seen)


class Replica(Store):
    """A correct replica: its list, its key with the count of used indices, and the disks of both."""

    def __init__(self, world, number, key):
        super().__init__(world.database, bytes(31) + bytes([number]), [], world.made.__contains__)
        self.world, self.key, self.down, self.remembered = world, key, False, {}
        self.log, self.used = Disk(()), Disk(0)
        self.state = tables_model.State(world.tables)

    def judge(self):
        for spelling in list(self.updates.values())[len(self.state.ids):]:
            self.state.add(tables_model.update_of(spelling))

    def add(self, spellings):
        before = dict(self.updates)
        added, waiting = super().add(spellings)
        # (where nothing is added, nothing is written, by a call, and the disk is synced)
        if not self.log.writes(tuple(self.updates.values())):
            self.updates = before
            raise Ended("store")
        return added, waiting

    def make(self, operations):
        """Makes an update, and answers the number of its refusal, or 0."""
        self.key.random = self.world.words.bytes(4)
        heads, draft = self.heads(), tables_model.Update(b"", self.key.key, [], operations)
        self.judge()
        if self.state.verdict(draft, self.state.visible_in(self.state.past_of(range(len(self.state.ids))))) is not None:
            return 1
        if self.used.seen == 1 << self.key.height:
            return 3
        self.key.index = self.used.seen
        if not self.used.writes(self.key.index + 1):
            return 5
        spelled = [signing.delete(each.row) if isinstance(each, tables_model.Delete) else signing.insert(*each) for each in operations]
        spelling = signing.update(self.database, self.key, heads, spelled)
        self.world.made.add(spelling)
        try:
            self.add([spelling])
        except Ended:
            return 5
        return 0

    def restart(self, choice):
        self.log, self.used = self.log.restarted(choice), self.used.restarted(choice)
        self.updates = {id_of(spelling): spelling for spelling in self.log.seen}
        self.state = tables_model.State(self.world.tables)
        self.down, self.remembered = False, {}

    def line(self, number):
        if self.down:
            return f"replica {number} down"
        self.judge()
        is_visible = self.state.visible_in(self.state.past_of(range(len(self.state.ids))))
        rows = [sum(row.table == table and is_visible(name) for name, row in self.state.rows.items()) for table in range(len(self.world.tables))]
        voids = sum(verdict is not None for verdict in self.state.verdicts)
        return f"replica {number} updates {len(self.updates)} heads {len(self.heads())} rows {' '.join(map(str, rows))} void {voids}"


class Side(End):
    """The end of a session that a correct replica has: how it ended, and whether it was cut."""

    def __init__(self, number, store, begins, old):
        super().__init__(store, begins, old)
        self.number, self.ended, self.cut = number, None, False

    def take_hello(self, hello):
        if not self.begins and self.reading == "opening":
            self.start = dict(self.store.updates)
        return super().take_hello(hello)

    def is_over(self):
        return self.ended is not None or self.cut

    def end_cut(self):
        self.cut = self.cut or self.ended is None

    def hears(self, kind, payload):
        """Takes a frame, and answers what is said."""
        try:
            return self.take(kind, payload)
        except Ended as over:
            self.ended = over.words
            return over.said

    def to_remember(self):
        named = {pred for spelling in self.start.values() for pred in session_model.preds_of(spelling)}
        return sorted({*(set(self.start) - named), *self.heads})[:session_model.FEW]

    def word(self):
        if self.ended is None:
            return "cut" if self.cut else "open"
        return f"peer {FAULTS.index(self.ended[5:]) + 1}" if self.ended.startswith("peer ") else self.ended


class Session:
    """The ends of a session, of which a liar has the second where there is one; the frames on the way to each; and the bytes of a liar."""

    def __init__(self, first, second):
        self.ends, self.ways, self.heard = [first, second] if second else [first], [[], []], b""

    def say(self, way, said):
        at = 0
        while at < len(said):
            found = next_frame(said, at)
            self.ways[way].append(found)
            at += 5 + len(found[1])


class World:
    """A world, and what may happen to it. Each event answers the number of a refusal, 0 where it happened, or none where it found nothing."""

    def __init__(self, schema, count, height, of, number):
        self.database, self.tables = signing.sha256(schema), tables_model.tables_of(schema.decode())
        self.words, self.made = Words(number), set()
        keys = [Key(self.words, height, of) for _ in range(count)]
        self.replicas = [Replica(self, number, key) for number, key in enumerate(keys)]
        self.sessions = {}

    def sink(self, number):
        self.replicas[number].down = True
        self.cut_with(number)

    def cut_with(self, number):
        for session in self.sessions.values():
            if number in (end.number for end in session.ends):
                for end in session.ends:
                    end.end_cut()

    def make(self, number, operations):
        replica = self.replicas[number]
        if replica.down:
            return None
        refused = replica.make(operations)
        if refused == 5:
            self.sink(number)
        return refused

    def open(self, number, first, second):
        if self.replicas[first].down or second is not None and self.replicas[second].down:
            return None
        one = self.replicas[first]
        if second is None:
            self.sessions[number] = Session(Side(first, one, True, ()), None)
            self.sessions[number].ends[0].opening()
            return 0
        other = self.replicas[second]
        session = Session(Side(first, one, True, one.remembered.get(second, ())), Side(second, other, False, other.remembered.get(first, ())))
        session.say(1, session.ends[0].opening())
        self.sessions[number] = session
        return 0

    def carry(self, number, forward):
        session = self.sessions.get(number)
        if session is None or len(session.ends) == 1 or session.ends[forward].is_over() or not session.ways[forward]:
            return None
        end, other = session.ends[forward], session.ends[not forward]
        session.say(not forward, end.hears(*session.ways[forward].pop(0)))
        if end.ended == session_model.DONE:
            self.replicas[end.number].remembered[other.number] = end.to_remember()
        elif end.ended is not None:
            other.end_cut()
        if end.ended == "store":
            self.sink(end.number)
        return 0

    def run(self, number):
        while (self.carry(number, True) is not None) | (self.carry(number, False) is not None):
            pass

    def cut(self, number):
        session = self.sessions.get(number)
        if session is None or all(end.is_over() for end in session.ends):
            return None
        for end in session.ends:
            end.end_cut()
        return 0

    def feed(self, number, data):
        session = self.sessions.get(number)
        if session is None or len(session.ends) == 2 or session.ends[0].is_over():
            return None
        end = session.ends[0]
        session.heard += data
        try:
            while not end.is_over() and (found := next_frame(session.heard, 0)):
                session.heard = session.heard[5 + len(found[1]):]
                end.hears(*found)
        except Ended as over:
            end.ended = over.words
        if end.ended == "store":
            self.sink(end.number)
        return 0

    def stop(self, number, calls):
        if self.replicas[number].down:
            return None
        self.replicas[number].log.left = self.replicas[number].used.left = calls
        return 0

    def restart(self, number, choice):
        self.replicas[number].restart(choice)
        self.cut_with(number)
        return 0

    def report(self):
        lines = [replica.line(number) for number, replica in enumerate(self.replicas)]
        return lines + [f"session {number} {' '.join(end.word() for end in session.ends)}" for number, session in sorted(self.sessions.items())]


# Scripts.

def value_of(word):
    """The value that a word of an operation is."""
    if word == "NULL":
        return None
    if word.startswith("$"):
        return tables_model.Own(int(word[1:]) - 1)
    if re.fullmatch("[0-9a-f]{64}:[0-9]+", word):
        return row_of(word)
    return tables_model.literal(word)


def row_of(word):
    name, index = word.split(":")
    return tables_model.Row(bytes.fromhex(name), int(index))


def operation_of(tables, text):
    words = OPERATION_WORDS.findall(text)
    if words[0] == "DELETE":
        return tables_model.Delete(row_of(words[1]))
    number = next(number for number, table in enumerate(tables) if table.name == words[1])
    return tables_model.Insert(number, [value_of(word) for word in words[2:]])


def played(world, line):
    """Does what a line of a script says, and answers what the event does."""
    word, *rest = line.split(maxsplit=2)
    match word:
        case "MAKE":
            return world.make(int(rest[0]), [operation_of(world.tables, text) for text in OPERATIONS.findall(rest[1])])
        case "OPEN":
            first, second = rest[1].split()
            return world.open(int(rest[0]), int(first), None if second == "*" else int(second))
        case "CARRY":
            return world.carry(int(rest[0]), rest[1].strip() == ">")
        case "RUN":
            world.run(int(rest[0]))
            return 0
        case "CUT":
            return world.cut(int(rest[0]))
        case "FEED":
            return world.feed(int(rest[0]), bytes.fromhex(rest[1]))
        case "STOP":
            return world.stop(int(rest[0]), int(rest[1]))
        case "RESTART":
            return world.restart(int(rest[0]), int(rest[1]))


def world_of(schema, line):
    """The world of a schema that a line WORLD begins."""
    _, count, height, width, number = line.split()
    return World(schema, int(count), int(height), {4: signing.W4, 8: signing.W8}[int(width)], int(number))


def report_of(script):
    """The report of a script."""
    lines = script.decode().splitlines(keepends=True)
    place = next(place for place, line in enumerate(lines) if line.split()[:1] == ["WORLD"])
    world = world_of("".join(lines[:place]).encode(), lines[place])
    report = []
    for number, line in enumerate(lines[place + 1:], place + 2):
        refused = played(world, line)
        if refused is None:
            report.append(f"line {number} none")
        elif refused:
            report.append(f"line {number} refused {refused}")
    return "".join(line + "\n" for line in report + world.report())


if __name__ == "__main__":
    sys.stdout.write(report_of(sys.stdin.buffer.read()))
