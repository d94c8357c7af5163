#!/usr/bin/env python3
"""An outside model of one end of a session, written from docs/FORMATS.md alone, and the connection over which a script speaks it.

A `Store` holds updates as bytes. An `End` takes the peer's frames one by one and answers what is to be said; it ends by `Ended` with the words
that `bec` has for it. It verifies no signature: an update is good where the `Store` says so.
"""
import hashlib
import socket
import struct

from frames_model import FEW, FILTER, HEADS, ITEM, PAYLOAD, Bad, Fields, counted, frame

HELLO, UPDATE, TURN = 1, 2, 3
# How many updates one turn may have.
MOST_ITEMS = 131072
DONE = "done"


class Ended(Exception):
    """A session has ended: how, in the words of `bec`, and what was still to be said."""

    def __init__(self, words, said=b""):
        super().__init__(words)
        self.words, self.said = words, said


def id_of(spelling):
    return hashlib.sha256(spelling).digest()


def preds_of(spelling):
    """The predecessors that an update names."""
    (count,) = struct.unpack(">H", spelling[89:91])
    return [spelling[91 + 32 * k:123 + 32 * k] for k in range(count)]


def filter_of(ids):
    """The filter of these ids."""
    bits = bytearray((10 * len(ids) + 7) // 8)
    for known in ids:
        for word in struct.unpack(">7I", known[:28]):
            place = word % (8 * len(bits))
            bits[place // 8] |= 128 >> place % 8
    return bytes(bits)


def in_filter(bits, known):
    """Whether an id is in a filter."""
    places = [word % (8 * len(bits)) for word in struct.unpack(">7I", known[:28])] if bits else []
    return bool(bits) and all(bits[place // 8] & 128 >> place % 8 for place in places)


class Store:
    """The updates of a node, in the order in which they came."""

    def __init__(self, database, node, spellings, is_good=None):
        self.database, self.node, self.updates = database, node, {}
        self.is_good = is_good or (lambda spelling: spelling[:1] in (b"\1", b"\2") and spelling[1:33] == database)
        for spelling in spellings:
            self.updates[id_of(spelling)] = spelling

    def heads(self):
        named = {pred for spelling in self.updates.values() for pred in preds_of(spelling)}
        return sorted(set(self.updates) - named)

    def add(self, spellings):
        """Adds what can be added, and answers how many that were and what is left."""
        added, waiting, goes_on = 0, list(spellings), True
        while goes_on:
            goes_on, left = False, []
            for spelling in waiting:
                if id_of(spelling) in self.updates:
                    continue
                if all(pred in self.updates for pred in preds_of(spelling)):
                    self.updates[id_of(spelling)] = spelling
                    added, goes_on = added + 1, True
                else:
                    left.append(spelling)
            waiting = left
        return added, waiting


def since(updates, old):
    """The ids of those updates that are neither among these ids nor before one of them."""
    behind, left = set(), [known for known in old if known in updates]
    while left:
        known = left.pop()
        if known not in behind:
            behind.add(known)
            left += preds_of(updates[known])
    return [known for known in updates if known not in behind]


def burst(updates, old, bits):
    """The updates that a peer seems to lack, by its remembered heads and its filter."""
    found = {}
    for known in since(updates, old):
        if not in_filter(bits, known) or any(pred in found for pred in preds_of(updates[known])):
            found[known] = updates[known]
    return list(found.values())


def hello_frame(database, node, heads, old, bits):
    return frame(HELLO, b"\2" + database + node + counted("I", heads) + counted("H", old) + struct.pack(">I", len(bits)) + bits)


def turn_frame(have, needs=()):
    return frame(TURN, bytes([have]) + counted("H", sorted(needs)))


def hello_of(payload):
    """What a Hello says: database, heads, remembered ids and filter, or none where it is of another version."""
    fields = Fields(payload)
    if fields.take(1) != b"\2":
        return None
    database, _ = fields.take(32), fields.take(32)
    heads, old = fields.ids("I", HEADS), fields.ids("H", FEW)
    bits = fields.take(fields.number("I", FILTER))
    fields.end()
    return database, heads, old, bits


def turn_of(payload):
    """What a Turn says: whether all is held, and what is asked for."""
    fields = Fields(payload)
    have, needs = fields.number("B", 1), fields.ids("H", FEW)
    fields.end()
    if have and needs:
        raise Bad
    return have, needs


class End:
    """One end of a session."""

    def __init__(self, store, begins, old=()):
        self.store, self.begins, self.old = store, begins, list(old)
        self.start = dict(store.updates)
        # Which updates may come next: none before a Hello, any in a burst, else those that are due.
        self.reading, self.due = "opening", []
        self.heads, self.peer_old, self.bits = [], [], b""
        self.gathered, self.waiting = {}, []
        self.asked, self.peer_asked = set(), set()
        self.sent_have = self.got_have = self.began = False
        self.items = self.gained = self.turns = 0

    def opening(self):
        """What is said before anything is heard."""
        if not self.begins:
            return b""
        self.turns = 1
        return self.hello()

    def hello(self):
        return hello_frame(self.store.database, self.store.node, self.store.heads(), self.old, filter_of(since(self.start, self.old)))

    def take(self, kind, payload):
        """Takes a frame, and answers what is to be said."""
        try:
            if kind == HELLO:
                return self.take_hello(hello_of(payload))
            return self.take_item(payload) if kind == UPDATE else self.take_turn(*turn_of(payload))
        except Bad:
            raise Ended("peer bad frame")

    def begin_turn(self):
        self.turns += not self.began
        self.began = True

    def take_hello(self, hello):
        if hello is None:
            raise Ended("peer version")
        database, self.heads, self.peer_old, self.bits = hello
        if database != self.store.database:
            raise Ended("peer wrong database")
        if self.reading != "opening":
            raise Ended("peer out of turn")
        self.reading = "burst"
        self.begin_turn()
        if self.begins:
            return b""
        self.sent_have, self.began = self.holds_all(), False
        self.turns += 1
        sent = burst(self.start, self.peer_old, self.bits)
        return self.hello() + b"".join(frame(UPDATE, each) for each in sent) + turn_frame(self.sent_have)

    def holds_all(self):
        return all(head in self.store.updates for head in self.heads)

    def take_item(self, spelling):
        if self.reading == "opening" or self.items == MOST_ITEMS or self.reading == "answers" and not self.due:
            raise Ended("peer out of turn")
        if not self.store.is_good(spelling):
            raise Ended("peer bad update")
        if self.reading == "answers" and self.due.pop(0) != id_of(spelling):
            raise Ended("peer unanswered")
        self.begin_turn()
        self.items += 1
        if spelling not in self.waiting:
            self.gathered[spelling] = True
        return b""

    def take_turn(self, have, needs):
        first = self.begins and self.reading == "burst"
        if self.reading == "opening" or first and needs:
            raise Ended("peer out of turn")
        if self.due:
            raise Ended("peer unanswered")
        if self.got_have and not have:
            raise Ended("peer taken back")
        self.begin_turn()
        self.got_have = have
        added, self.waiting = self.store.add([*self.waiting, *self.gathered])
        self.gained, self.gathered = self.gained + added, {}
        own_have, own_needs = self.own_turn()
        if not (first or have or needs) or not (own_have or own_needs):
            raise Ended("peer stalled")
        if any(need not in self.start for need in needs):
            raise Ended("peer asked unknown")
        if any(need in self.peer_asked for need in needs):
            raise Ended("peer asked again")
        if self.sent_have and have:
            raise Ended(DONE)
        return self.reply(first, have, needs, own_have, own_needs)

    def own_turn(self):
        """Whether all that the peer's Hello named is held, and what else to ask for."""
        if self.holds_all():
            return True, []
        waiting = {id_of(each) for each in self.waiting}
        wanted = set(self.heads).union(*(preds_of(each) for each in self.waiting))
        return False, sorted(wanted - set(self.store.updates) - waiting - self.asked)[:FEW]

    def reply(self, first, have, needs, own_have, own_needs):
        sent = burst(self.start, self.peer_old, self.bits) if first else [self.start[need] for need in needs]
        said = b"".join(frame(UPDATE, each) for each in sent) + turn_frame(own_have, own_needs)
        self.asked.update(own_needs)
        self.peer_asked.update(needs)
        self.reading, self.due, self.began, self.items = "answers", list(own_needs), False, 0
        self.turns += 1
        self.sent_have = own_have
        if own_have and have:
            raise Ended(DONE, said)
        return said


def next_frame(buffer, at):
    """The kind and the payload of the frame that begins there, or none where it is not whole yet."""
    if len(buffer) - at < 5:
        return None
    kind, size = struct.unpack_from(">BI", buffer, at)
    if kind not in (HELLO, UPDATE, TURN) or size > (ITEM if kind == UPDATE else PAYLOAD):
        raise Ended("peer bad frame")
    return (kind, bytes(buffer[at + 5:at + 5 + size])) if len(buffer) - at >= 5 + size else None


def replay(end, heard):
    """What an end says to a peer that says these bytes and then closes its side, and how that ends."""
    said, at = bytearray(end.opening()), 0
    try:
        while True:
            found = next_frame(heard, at)
            if found is None:
                return bytes(said), "cut"
            at += 5 + len(found[1])
            said += end.take(*found)
    except Ended as over:
        return bytes(said) + over.said, over.words


class Line:
    """A connection, over which frames are said and heard. It keeps all bytes of both directions."""

    def __init__(self, connection):
        self.socket, self.said, self.heard, self.at = connection, bytearray(), bytearray(), 0
        connection.setsockopt(socket.IPPROTO_TCP, socket.TCP_NODELAY, 1)
        connection.settimeout(90)

    def say(self, piece):
        self.said += piece
        try:
            self.socket.sendall(piece)
        except OSError:
            pass

    def hear(self):
        """The next frame, and none where the other end has gone."""
        while True:
            found = next_frame(self.heard, self.at)
            if found is not None:
                self.at += 5 + len(found[1])
                return found
            if not self.more():
                return None

    def more(self):
        """Reads a piece. It answers whether there was one."""
        try:
            piece = self.socket.recv(65536)
        except OSError:
            piece = b""
        self.heard += piece
        return bool(piece)

    def finish(self):
        """Closes the own side, hears what is still said, and closes."""
        try:
            self.socket.shutdown(socket.SHUT_WR)
        except OSError:
            pass
        while self.more():
            pass
        self.socket.close()


def meet(end, line):
    """Holds a session by the rules, and answers how it ended."""
    try:
        line.say(end.opening())
        while True:
            found = line.hear()
            if found is None:
                return "cut"
            line.say(end.take(*found))
    except Ended as over:
        line.say(over.said)
        return over.words
