#!/usr/bin/env python3
"""An outside model of `bec dump`, by the definitions alone: bench/tables_model.py < BUNDLE > DUMP

It reads a bundle and prints each table with its visible rows, and the void updates. It is slow and plain: each update is
judged on the set of its ancestors and on nothing else, and whether a row is visible is asked by recursion, for each set
anew. Sets of updates are the bits of integers, bit k for the k-th update to arrive.

- A row is a candidate in a set when a valid update there inserted it, none there deletes it, and each row that it names by
  CASCADE is visible there. A candidate is visible unless its table has a KEEP LEAST, and another candidate of the table has
  its value in that column and a lesser name.
- An update is valid when none of the reasons 1 to 8 applies to any of its operations, on the set of its ancestors, and no
  row that it inserts has a value in a KEEP LEAST column that an earlier one of the update has, or a visible one that the
  update does not delete.

It takes the bundle to be in form and signed, and the schema to be one that `bec check` calls confluent: it looks for no
fault in them, and knows no ATMOST lines, and no UNIQUE without KEEP LEAST.
"""
import hashlib
import json
import operator
import re
import struct
import sys
from typing import Callable, NamedTuple

from signing import Own, Row

sys.setrecursionlimit(1_000_000)  # a chain of references is followed by recursion
NO_TABLE, SHAPE, CHECK, REFERENCE, MATCH, NOT_THERE, OWNER, CHILD, TAKEN = range(1, 10)  # why an update is void

COMPARISONS = {"=": operator.eq, "!=": operator.ne, "<": operator.lt, "<=": operator.le, ">": operator.gt,
               ">=": operator.ge}
WORDS = re.compile(r'"(?:[^"\\]|\\.)*"|[^\s"]+')
EXPRESSION_WORDS = re.compile(r'"(?:[^"\\]|\\.)*"|[(),]|[^\s"(),]+')
ESCAPED = re.compile(rb'\\(x..|.)', re.DOTALL)
SHORT_ESCAPES = {b"n": b"\n", b"t": b"\t", b'"': b'"', b"\\": b"\\"}


# The schema.

class Column(NamedTuple):
    """A column, and which values fit it; a reference has a target and what becomes of the row without its target."""
    name: str
    kind: str
    low: int = 0
    high: int = 0
    target: int = 0
    action: str = ""
    null: bool = False


class Match(NamedTuple):
    """The value of a column has to compare so with a column of the row that a reference names."""
    column: int
    comparison: str
    reference: int
    target_column: int


class Table(NamedTuple):
    name: str
    deletable: bool
    owned: bool
    columns: list[Column]
    checks: list[Callable]
    matches: list[Match]
    kept: list[int]  # the column of which the least row of each value is shown, if any

    def column_named(self, name):
        return next(number for number, column in enumerate(self.columns) if column.name == name)

    def references(self, *actions):
        """The numbers of the columns that are references with one of these actions."""
        return [number for number, column in enumerate(self.columns) if column.action in actions]


def literal(word):
    """The value that a word spells."""
    if word.startswith('"'):
        raw = word[1:-1].encode()
        return ESCAPED.sub(lambda found: SHORT_ESCAPES.get(found[1]) or bytes([int(found[1][1:], 16)]), raw)
    return word == "TRUE" if word in ("TRUE", "FALSE") else int(word)


def compares(left, comparison, right):
    """A comparison, which is false where a side is null."""
    return left is not None and right is not None and COMPARISONS[comparison](left, right)


def is_luhn(arguments):
    """One text of digits of which the sum is a multiple of 10, every second digit from the right being doubled."""
    if len(arguments) != 1 or not isinstance(arguments[0], bytes) or not re.fullmatch(rb"[0-9]+", arguments[0]):
        return False
    numbers = [int(chr(digit)) for digit in reversed(arguments[0])]
    doubled = [2 * number - 9 if number > 4 else 2 * number for number in numbers[1::2]]
    return (sum(numbers[::2]) + sum(doubled)) % 10 == 0


class Expression:
    """Reads the words of a CHECK by the grammar, as functions from the values of a row to a truth value."""

    def __init__(self, table, text):
        self.table, self.words = table, EXPRESSION_WORDS.findall(text)

    def next_is(self, word):
        """Whether the next word is this one, which is taken then."""
        if self.words[:1] != [word]:
            return False
        del self.words[0]
        return True

    def any_of(self):
        parts = [self.all_of()]
        while self.next_is("OR"):
            parts.append(self.all_of())
        return lambda row: any(part(row) for part in parts)

    def all_of(self):
        parts = [self.one()]
        while self.next_is("AND"):
            parts.append(self.one())
        return lambda row: all(part(row) for part in parts)

    def one(self):
        if self.next_is("NOT"):
            inner = self.one()
            return lambda row: not inner(row)
        if self.next_is("("):
            inner = self.any_of()
            self.words.pop(0)
            return inner
        if self.next_is("NATIVE"):
            return self.native()
        if self.words[1:3] == ["IS", "NULL"]:
            column = self.column()
            del self.words[:2]
            return lambda row: row[column] is None
        left, comparison, right = self.term(), self.words.pop(0), self.term()
        return lambda row: compares(left(row), comparison, right(row))

    def native(self):
        number, several = int(self.words.pop(0)), self.next_is("(")
        columns = [self.column()]
        while several and not self.next_is(")"):
            self.words.pop(0)
            columns.append(self.column())
        return lambda row: number == 1 and is_luhn([row[column] for column in columns])

    def term(self):
        if self.next_is("LEN"):
            column = self.column()
            return lambda row: None if row[column] is None else len(row[column])
        if re.match('["0-9-]|TRUE$|FALSE$', self.words[0]):
            content = literal(self.words.pop(0))
            return lambda row: content
        column = self.column()
        return lambda row: row[column]

    def column(self):
        return self.table.column_named(self.words.pop(0))


def column_of(words, tables):
    """The column that a COLUMN or REF line declares."""
    null = words[-1] == "NULL"
    if words[0] == "REF":
        target = next(number for number, table in enumerate(tables) if table.name == words[2])
        return Column(words[1], "REF", target=target, action=words[3], null=null)
    low, high = (0, 0) if words[2] == "FLAG" else map(int, words[3:5])
    return Column(words[1], words[2], low, high, null=null)


def tables_of(text):
    """The tables that the text of a schema declares."""
    tables = []
    for line in text.split("\n"):
        words = WORDS.findall(line)
        match words[:1]:
            case ["TABLE"]:
                tables.append(Table(words[1], "DELETABLE" in words[2:], "OWNED" in words[2:], [], [], [], []))
            case ["COLUMN" | "REF"]:
                tables[-1].columns.append(column_of(words, tables))
            case ["MATCH"]:
                name, other = words[3].split(".")
                table, reference = tables[-1], tables[-1].column_named(name)
                target = tables[table.columns[reference].target]
                table.matches.append(Match(table.column_named(words[1]), words[2], reference, target.column_named(other)))
            case ["UNIQUE"] if words[2:] == ["KEEP", "LEAST"]:
                tables[-1].kept.append(tables[-1].column_named(words[1]))
            case ["UNIQUE" | "ATMOST"]:
                sys.exit(f"this model knows no {words[0]} lines")
            case [word] if re.match(r"CHECK(\(|$)", word):
                tables[-1].checks.append(Expression(tables[-1], line.strip().removeprefix("CHECK")).any_of())
    return tables


# Updates.

class Insert(NamedTuple):
    table: int
    values: list


class Delete(NamedTuple):
    row: Row


class Update(NamedTuple):
    id: bytes
    author: bytes
    preds: list[bytes]
    operations: list
    note: bytes = b""


class Reader:
    """Takes fields from bytes, one after the other."""

    def __init__(self, data):
        self.data, self.place = data, 0

    def bytes(self, count):
        self.place += count
        return self.data[self.place - count:self.place]

    def number(self, form):
        return struct.unpack(">" + form, self.bytes(struct.calcsize(form)))[0]

    def row(self):
        return Row(self.bytes(32), self.number("H"))

    def value(self):
        match self.number("B"):
            case 0:
                return None
            case 1:
                return self.number("q")
            case 2:
                return self.bytes(self.number("H"))
            case 3:
                return self.number("B") == 1
            case 4:
                return self.row()
            case 5:
                return Own(self.number("H"))

    def operation(self):
        if self.number("B") == 2:
            return Delete(self.row())
        return Insert(self.number("B"), [self.value() for _ in range(self.number("B"))])


def update_of(spelling):
    """The update that these bytes spell: behind version and database the author, the predecessors, the operations, and in version 2 the note."""
    reader = Reader(spelling)
    reader.bytes(33)
    author = reader.bytes(56)
    preds = [reader.bytes(32) for _ in range(reader.number("H"))]
    operations = [reader.operation() for _ in range(reader.number("H"))]
    note = reader.bytes(reader.number("H")) if spelling[0] == 2 else b""
    return Update(hashlib.sha256(spelling).digest(), author, preds, operations, note)


def parts_of(bundle):
    """The schema's text in a bundle, and the spellings in its records."""
    reader, parts = Reader(bundle), []
    while reader.place < len(bundle):
        parts.append(reader.bytes(reader.number("I")))
    return parts[0].decode(), parts[1:]


# Rows and verdicts.

class Entry(NamedTuple):
    """A row that a valid update inserted: the update's place and author, and the values, own references as names."""
    place: int
    author: bytes
    table: int
    values: list


def fits(column, value):
    """Whether a value has the kind of a column and lies within its bounds."""
    if value is None:
        return column.null
    match column.kind:
        case "INT":
            return type(value) is int and column.low <= value <= column.high
        case "TEXT":
            return isinstance(value, bytes) and column.low <= len(value) <= column.high
        case "FLAG":
            return isinstance(value, bool)
        case "REF":
            return isinstance(value, (Row, Own))


class State:
    """The updates of a graph by arrival, each with its ancestors and verdict, and what the valid ones did."""

    def __init__(self, tables):
        self.tables = tables
        self.places = {}  # the place of each id in the order of arrival
        self.ids = []
        self.pasts = []  # the ancestors of each update
        self.verdicts = []  # None, or the reason and the operation for which an update is void
        self.rows = {}  # the rows that valid updates inserted
        self.deleters = {}  # the valid updates that delete each row
        self.children = {}  # the rows that name each row by RESTRICT
        self.groups = {}  # the rows of each value of a column of which the least row is kept, by table and value

    def past_of(self, preds):
        """The set of these updates and all their ancestors."""
        past = 0
        for place in preds:
            past |= self.pasts[place] | 1 << place
        return past

    def add(self, update):
        """Judges an update on its ancestors alone and keeps what it does; one that is there already is passed over."""
        if update.id in self.places:
            return
        past = self.past_of([self.places[name] for name in update.preds])
        verdict = self.verdict(update, self.visible_in(past))
        place = self.places[update.id] = len(self.ids)
        self.ids.append(update.id)
        self.pasts.append(past)
        self.verdicts.append(verdict)
        if verdict is not None:
            return
        for index, operation in enumerate(update.operations):
            if isinstance(operation, Delete):
                self.deleters.setdefault(operation.row, []).append(place)
            else:
                self.keep(Row(update.id, index), operation, place, update.author)

    def keep(self, name, operation, place, author):
        """Keeps the row that an operation of a valid update inserts."""
        values = [Row(name.id, value.index) if isinstance(value, Own) else value for value in operation.values]
        self.rows[name] = Entry(place, author, operation.table, values)
        for column in self.tables[operation.table].references("RESTRICT"):
            self.children.setdefault(values[column], []).append(name)
        for column in self.tables[operation.table].kept:
            self.groups.setdefault((operation.table, values[column]), []).append(name)

    def visible_in(self, members):
        """Which rows are visible in a set of updates, as a function of their names."""
        known = {}

        def is_candidate(name):
            if not self.stands_in(members, name):
                return False
            for parent in self.parents(name):
                if not is_visible(parent):
                    return False
            return True

        def is_visible(name):
            if name not in known:
                known[name] = is_candidate(name)
                for other in self.lesser(name) if known[name] else []:
                    if is_candidate(other):
                        known[name] = False
                        break
            return known[name]
        return is_visible

    def stands_in(self, members, name):
        """Whether a valid update of a set inserted the row with this name, and none there deletes it."""
        row = self.rows.get(name)
        is_deleted = any(members >> place & 1 for place in self.deleters.get(name, []))
        return row is not None and members >> row.place & 1 == 1 and not is_deleted

    def parents(self, name):
        """The rows that a row names by CASCADE."""
        row = self.rows[name]
        values = [row.values[column] for column in self.tables[row.table].references("CASCADE")]
        return [value for value in values if value is not None]

    def lesser(self, name):
        """The rows of lesser names with a row's value in the column of which its table keeps the least row, if any."""
        row = self.rows[name]
        return [other for column in self.tables[row.table].kept for other in self.groups[row.table, row.values[column]] if other < name]

    def verdict(self, update, is_visible):
        """The first reason that applies to an operation of an update, or at the end, with its number, and None where there is none."""
        for number in range(len(update.operations)):
            reason = self.reason(update, number, is_visible)
            if reason:
                return reason, number
        return (TAKEN, len(update.operations)) if self.is_taken(update.operations, is_visible) else None

    def is_taken(self, operations, is_visible):
        """Whether one of these inserts gives a value that an earlier one has, or a visible row that none of these deletes."""
        deleted = {operation.row for operation in operations if isinstance(operation, Delete)}
        given = set()
        for operation in operations:
            for column in self.tables[operation.table].kept if isinstance(operation, Insert) else []:
                group = operation.table, operation.values[column]
                if group in given or any(is_visible(name) and name not in deleted for name in self.groups.get(group, [])):
                    return True
                given.add(group)
        return False

    def reason(self, update, number, is_visible):
        """The first reason that applies to one operation, and None where there is none."""
        if isinstance(update.operations[number], Delete):
            return self.delete_reason(update, number, is_visible)
        return self.insert_reason(update, number, is_visible)

    def insert_reason(self, update, number, is_visible):
        table_number, values = update.operations[number]
        if table_number >= len(self.tables):
            return NO_TABLE
        table = self.tables[table_number]
        if len(values) != len(table.columns) or not all(map(fits, table.columns, values)):
            return SHAPE
        if not all(check(values) for check in table.checks):
            return CHECK
        named = {}  # what each reference that is not null names
        for column in table.references("RESTRICT", "CASCADE", "SETNULL"):
            if values[column] is not None:
                named[column] = self.named(update, values[column], is_visible)
                if named[column] is None or named[column].table != table.columns[column].target:
                    return REFERENCE
        for match in table.matches:
            target = named.get(match.reference)
            if target and not compares(values[match.column], match.comparison, target.values[match.target_column]):
                return MATCH
        return None

    def named(self, update, reference, is_visible):
        """What a reference names: a visible row, or the insert of an earlier operation; else None."""
        if isinstance(reference, Own):
            operation = update.operations[reference.index]
            return operation if isinstance(operation, Insert) else None
        return self.rows[reference] if is_visible(reference) else None

    def delete_reason(self, update, number, is_visible):
        operation = update.operations[number]
        row = self.rows[operation.row] if is_visible(operation.row) else None
        if row is None or not self.tables[row.table].deletable or operation in update.operations[:number]:
            return NOT_THERE
        if self.tables[row.table].owned and row.author != update.author:
            return OWNER
        if any(map(is_visible, self.children.get(operation.row, []))):
            return CHILD
        return None

    def shown(self, row, is_visible):
        """The values of a row, a SETNULL reference to a row that is not visible being null."""
        hidden = [column for column in self.tables[row.table].references("SETNULL") if not is_visible(row.values[column])]
        return [None if column in hidden else value for column, value in enumerate(row.values)]


# The printed text.

def printed_byte(byte):
    escape = {ord('"'): b'\\"', ord("\\"): b"\\\\", ord("\n"): b"\\n", ord("\t"): b"\\t"}.get(byte)
    if escape is None and (byte < 0x20 or byte == 0x7F):
        escape = b"\\x%02x" % byte
    return escape or bytes([byte])


def printed_name(row):
    return b"%s:%d" % (row.id.hex().encode(), row.index)


def printed(value):
    """A value as a dump has it."""
    match value:
        case None:
            return b"NULL"
        case bool():
            return b"TRUE" if value else b"FALSE"
        case int():
            return b"%d" % value
        case bytes():
            return b'"' + b"".join(map(printed_byte, value)) + b'"'
        case Row():
            return printed_name(value)


def state_of(bundle):
    """What the updates of a bundle come to."""
    text, spellings = parts_of(bundle)
    state = State(tables_of(text))
    for spelling in spellings:
        state.add(update_of(spelling))
    return state


def shown_tables(bundle):
    """The name of each table with its visible rows, each a name and its values, and the id, reason and operation of each void update."""
    state = state_of(bundle)
    is_visible = state.visible_in(state.past_of(range(len(state.ids))))
    tables = []
    for number, table in enumerate(state.tables):
        names = sorted(name for name, row in state.rows.items() if row.table == number and is_visible(name))
        tables.append((table.name, [(name, *state.shown(state.rows[name], is_visible)) for name in names]))
    places = sorted(range(len(state.ids)), key=lambda place: state.ids[place])
    return tables, [(state.ids[place].hex(), *state.verdicts[place]) for place in places if state.verdicts[place] is not None]


def dump(bundle):
    """The text that `bec dump` prints for a bundle."""
    tables, voids = shown_tables(bundle)
    lines = []
    for name, rows in tables:
        lines.append(b"TABLE " + name.encode())
        lines += [b" ".join(map(printed, row)) for row in rows]
    lines += [b"VOID %s %d %d" % (name.encode(), reason, operation) for name, reason, operation in voids]
    return b"".join(line + b"\n" for line in lines)


def dump_json(bundle):
    """The text that `bec dump --json` prints for a bundle."""
    tables, voids = shown_tables(bundle)

    def plain(value):
        return value.decode() if isinstance(value, bytes) else printed_name(value).decode() if isinstance(value, Row) else value
    whole = {"tables": [{"name": name, "rows": [list(map(plain, row)) for row in rows]} for name, rows in tables], "voids": voids}
    return json.dumps(whole, separators=(",", ":"), ensure_ascii=False).encode() + b"\n"


def main():
    sys.stdout.buffer.write(dump(sys.stdin.buffer.read()))


if __name__ == "__main__":
    main()
