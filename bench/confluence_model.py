#!/usr/bin/env python3
"""An outside model of `bec check` for schemas that are read, but for what KEEP LEAST rules out: whether each invariant survives
merging, and where one does not, the history that shows it; or the first line that KEEP LEAST rules out. It is written from the rules
in docs/CONFLUENCE.md and docs/SCHEMAS.md alone: bench/confluence_model.py < SCHEMA
"""
import re
import sys


class Table:
    def __init__(self, name, deletable):
        self.name, self.deletable = name, deletable
        self.columns, self.uniques, self.at_most, self.keeps, self.sample = [], [], None, 0, []


def split(line):
    return re.findall(r'"(?:\\.|[^"\\])*"|[^\s]+', line)


def parse(text):
    tables = []
    for number, line in enumerate(text.split("\n"), 1):
        words = split(line)
        if not words or words[0].startswith("#"):
            continue
        kind = words[0]
        if kind == "TABLE":
            tables.append(Table(words[1], "DELETABLE" in words))
        elif kind == "COLUMN":
            tables[-1].columns.append((words[1], None, None, words[-1] == "NULL", number))
        elif kind == "REF":
            target = next(i for i, t in enumerate(tables) if t.name == words[2])
            tables[-1].columns.append((words[1], target, words[3], words[-1] == "NULL", number))
        elif kind == "UNIQUE" and words[2:] == ["KEEP", "LEAST"]:
            tables[-1].keeps += 1
        elif kind == "UNIQUE":
            tables[-1].uniques.append(number)
        elif kind == "ATMOST":
            tables[-1].at_most = (int(words[1]), number)
        elif kind == "SAMPLE":
            tables[-1].sample = words[1:]
    return tables


def permanent(tables, number):
    """Neither DELETABLE nor with KEEP LEAST, and each other table that it refers to by CASCADE is permanent."""
    table = tables[number]
    return not table.deletable and not table.keeps and all(
        permanent(tables, target) for (_, target, action, _, _) in table.columns if action == "CASCADE" and target != number
    )


class History:
    """Rows that are inserted one after the other: the table, and the row that each column names, if it is a reference."""

    def __init__(self, tables):
        self.tables, self.rows, self.shared = tables, [], {}

    def needed(self, number, skip=None):
        """First the rows that a row of the table needs: one shared row for each table, in column order."""
        for place, (_, target, _, null, _) in enumerate(self.tables[number].columns):
            if target is not None and not null and place != skip and target not in self.shared:
                self.needed(target)
                self.shared[target] = self.add(target)

    def add(self, number, special=None):
        """A row: its sample, shared rows for the references that it needs, null for the others, and one that is set."""
        table, plain, values = self.tables[number], iter(self.tables[number].sample), []
        for place, (_, target, _, null, _) in enumerate(table.columns):
            if target is None:
                values.append(next(plain))
            elif special is not None and place == special[0]:
                values.append(f"{special[1]}:0")
            else:
                values.append("NULL" if null else f"{self.shared[target]}:0")
        self.rows.append(f"INSERT {table.name} " + " ".join(values))
        return len(self.rows)


def example(tables, number, kind, place=None, count=None):
    history = History(tables)
    if kind in ("unique", "atmost"):
        history.needed(number)
        for _ in range(count - 1 if kind == "atmost" else 0):
            history.add(number)
        base = len(history.rows)
        history.add(number)
        history.add(number)
        return history.rows, base
    target = tables[number].columns[place][1]
    path = [(target, None)]
    while not tables[path[-1][0]].deletable:
        here = path[-1][0]
        column, onward = next(
            (i, t) for i, (_, t, action, _, _) in enumerate(tables[here].columns)
            if action == "CASCADE" and t != here and not permanent(tables, t)
        )
        path[-1] = (here, column)
        path.append((onward, None))
    for here, column in reversed(path):
        history.needed(here, column)
    history.needed(number, place)
    last = None
    for here, column in reversed(path):
        last = history.add(here, None if column is None else (column, last))
        if column is None:
            end = last
    base = len(history.rows)
    history.add(number, (place, last))
    history.rows.append(f"DELETE {end}:0")
    return history.rows, base


def fault_of(tables, table, words):
    """What KEEP LEAST rules out at the line with these words, the table having these lines so far, that one included."""
    kind, keeps = words[0], words[2:] == ["KEEP", "LEAST"]
    if kind == "UNIQUE" and (len(table.uniques) + table.keeps > 1 if keeps else table.keeps):
        return "limit"
    if kind == "ATMOST" and table.keeps or kind == "UNIQUE" and keeps and table.at_most:
        return "limit"
    if kind not in ("REF", "UNIQUE"):
        return None
    own = len(tables) - 1

    def is_steady(number):
        one = tables[number]
        return not one.keeps and all(is_steady(target) for (_, target, action, _, _) in one.columns if action == "CASCADE" and target != number)
    references = [(target, action) for (_, target, action, _, _) in table.columns if target is not None]
    if any(action == "RESTRICT" and not is_steady(target) for target, action in references):
        return "target"
    return "target" if table.keeps and (own, "CASCADE") in references else None


def ruled_out(text):
    """The first line that KEEP LEAST rules out, with the kind of fault."""
    lines = text.split("\n")
    for number, line in enumerate(lines, 1):
        words = split(line)
        if words and words[0] in ("REF", "UNIQUE", "ATMOST"):
            tables = parse("\n".join(lines[:number]))
            fault = fault_of(tables, tables[-1], words)
            if fault:
                return f"! schema line {number}: {fault}\n"
    return None


def verdict(text):
    fault = ruled_out(text)
    if fault:
        return fault
    tables = parse(text)
    for number, table in enumerate(tables):
        found = None
        if table.uniques:
            found = (table.uniques[0], example(tables, number, "unique"))
        elif table.at_most:
            found = (table.at_most[1], example(tables, number, "atmost", count=table.at_most[0]))
        else:
            for place, (_, target, action, _, line) in enumerate(table.columns):
                if action == "RESTRICT" and not permanent(tables, target):
                    found = (line, example(tables, number, "restrict", place))
                    break
        if found:
            line, (rows, base) = found
            lines = [f"! not confluent line {line}"]
            for k, row in enumerate(rows, 1):
                side = "BASE" if k <= base else "A" if k == base + 1 else "B"
                lines.append(f"{side} {k} {row}")
            return "\n".join(lines) + "\n"
    return "confluent\n"


if __name__ == "__main__":
    sys.stdout.write(verdict(sys.stdin.read()))
