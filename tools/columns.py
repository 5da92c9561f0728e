#!/usr/bin/env python3
"""Writes tests/columns.sql, tests/columns.out and tests/load_files/parts.tbl: columns added between loads, inserts, deletes, updates and moveouts of a table
with three projections, and queries of the newest and of every earlier epoch, with the lines that sqlite3 gives for them.

Two columns there hold the epochs in which a row came and went, so that an earlier epoch is a condition on them, and an added column has its
default in each row, whenever it came and went. Run it in the repository's folder; the files are kept, so that the check needs no sqlite3.
"""
import datetime
import random
import sqlite3

from statements import line

SEED = 20241128
KINDS = {"n": "INTEGER", "t": "VARCHAR(6)", "b": "BOOLEAN", "d": "DATE"}
# the columns that are added: name, kind, default, and whether NULL is refused
ADDED = [
    ("grade", "t", "plain", True), ("price", "n", 0, False), ("checked", "b", 0, True), ("since", "d", "2020-02-29", False), ("note", "t", None, False),
    ("weight", "n", -7, True), ("sold", "b", None, False), ("until", "d", "9999-12-31", True), ("rest", "n", 9223372036854775807, False), ("mark", "t", "", True),
]
TEXTS = ["", "plain", "oak", "fir", "x|y", "'q'"]


def literal(value, kind):
    if value is None:
        return "NULL"
    if kind == "b":
        return "TRUE" if value else "FALSE"
    if kind == "n":
        return str(value)
    return ("DATE " if kind == "d" else "") + "'" + value.replace("'", "''") + "'"


def sqlite(text):
    return text.replace("DATE '", "'")


class Table:
    """The table here and in sqlite3, and the two lists of lines."""

    def __init__(self, chance):
        self.chance = chance
        self.db = sqlite3.connect(":memory:")
        self.db.execute("CREATE TABLE parts (k INTEGER, s TEXT, ins INTEGER, del INTEGER)")
        self.columns = [("k", "n", True), ("s", "t", False)]
        self.epoch, self.sql, self.out = 0, ["-- Columns that are added, and the past with them, with what sqlite3 answers (tools/columns.py)."], []

    def say(self, text, *lines):
        self.sql.append(text + ";")
        self.out.extend(lines)

    def value(self, kind, never_null):
        if not never_null and self.chance.random() < 0.2:
            return None
        if kind == "n":
            return self.chance.choice([0, -7, 5, self.chance.randint(-50, 50)])
        if kind == "b":
            return self.chance.randint(0, 1)
        if kind == "t":
            return self.chance.choice(TEXTS)
        return self.chance.choice(["2020-02-29", "9999-12-31", str(datetime.date(2019, 12, 1) + datetime.timedelta(days=self.chance.randint(0, 120)))])

    def closes(self, lines):
        """The lines of a commit."""
        self.epoch += 1
        self.say("COMMIT", f"COMMIT EPOCH {self.epoch}") if lines is None else self.say(*lines)

    def put(self, rows):
        marks = ", ".join("?" for _ in range(len(self.columns) + 1))
        names = ", ".join(n for n, _, _ in self.columns)
        self.db.executemany(f"INSERT INTO parts ({names}, ins) VALUES ({marks})", [tuple(row) + (self.epoch + 1,) for row in rows])

    def load(self, count, name="parts"):
        rows = [(k, self.value("t", False)) for k in range(count)]
        with open(f"tests/load_files/{name}.tbl", "w", encoding="utf-8") as it:
            for row in rows:
                it.write(line((row[0], row[1] or None), "nt") + "\n")
        self.put([(k, s or None) for k, s in rows])
        self.closes((f"COPY parts FROM 'load_files/{name}.tbl'", f"COPY {count} EPOCH {self.epoch + 1}"))

    def insert(self):
        rows = [[self.value(kind, strict) for _, kind, strict in self.columns] for _ in range(self.chance.randint(1, 4))]
        said = ", ".join("(" + ", ".join(literal(v, kind) for v, (_, kind, _) in zip(row, self.columns)) + ")" for row in rows)
        self.say(f"INSERT INTO parts VALUES {said}", f"INSERT {len(rows)}")
        self.put(rows)
        self.closes(None)

    def condition(self):
        name, kind, _ = self.chance.choice(self.columns)
        value = literal(self.chance.randint(0, 2600) if name == "k" else self.value(kind, True), kind)
        if kind == "b":
            return self.chance.choice([name, f"NOT {name}", f"{name} IS NULL", f"{name} = {value}"])
        return self.chance.choice([f"{name} = {value}", f"{name} <> {value}", f"{name} < {value}", f"{name} >= {value}", f"{name} IS NULL", f"{name} IN ({value}, NULL)", f"{name} > {value}"])

    def alive(self, epoch):
        return f"ins <= {epoch} AND (del IS NULL OR del > {epoch})"

    def change(self):
        """A DELETE or an UPDATE of a few rows, committed."""
        first = self.chance.randint(0, 2400)
        which = f"({self.condition()}) AND k >= {first} AND k < {first + self.chance.randint(20, 400)}"
        seen = f"{sqlite(which)} AND {self.alive(self.epoch)}"
        names = [n for n, _, _ in self.columns]
        old = self.db.execute(f"SELECT {', '.join(names)} FROM parts WHERE {seen}").fetchall()
        word = "DELETE"
        if self.chance.random() < 0.5:
            word = "UPDATE"
            name, kind, strict = self.chance.choice(self.columns[1:])
            value = self.value(kind, strict)
            self.say(f"UPDATE parts SET {name} = {literal(value, kind)} WHERE {which}", f"UPDATE {len(old)}")
            new = [tuple(value if n == name else v for n, v in zip(names, row)) for row in old]
        else:
            self.say(f"DELETE FROM parts WHERE {which}", f"DELETE {len(old)}")
            new = []
        if not old:
            self.say("COMMIT", "COMMIT")
            return
        self.db.execute(f"UPDATE parts SET del = {self.epoch + 1} WHERE {seen}")
        self.put(new)
        self.closes(None)

    def add(self, column):
        name, kind, default, strict = column
        self.say(f"ALTER TABLE parts ADD COLUMN {name} {KINDS[kind]}{' NOT NULL' if strict else ''} DEFAULT {literal(default, kind)}", "ALTER TABLE")
        self.db.execute(f"ALTER TABLE parts ADD COLUMN {name}{' INTEGER' if kind in 'nb' else ' TEXT'} DEFAULT {sqlite(literal(default, kind))}")
        self.columns.append((name, kind, strict))

    def ask(self, epoch=None):
        at, seen = ("", self.epoch) if epoch is None else (f"AT EPOCH {epoch} ", epoch)
        some = self.chance.sample(self.columns, min(len(self.columns), self.chance.randint(1, 4)))
        names, kinds = ", ".join(n for n, _, _ in some), "".join(k for _, k, _ in some)
        where = self.condition()
        if self.chance.random() < 0.5:
            limit = self.chance.choice([3, 7, 12])
            order = ", ".join(str(i + 1) for i in range(len(some)))
            rows = self.db.execute(sqlite(f"SELECT {names} FROM parts WHERE ({where}) AND {self.alive(seen)} ORDER BY {order} LIMIT {limit}")).fetchall()
            self.say(f"{at}SELECT {names} FROM parts WHERE {where} LIMIT {limit}", *[line(r, kinds) for r in rows], f"({len(rows)} rows)")
        else:
            name, kind, _ = some[-1]
            items = f"{name}, COUNT(*), MIN(k), COUNT({some[0][0]})"
            rows = self.db.execute(sqlite(f"SELECT {items} FROM parts WHERE ({where}) AND {self.alive(seen)} GROUP BY {name} ORDER BY 1, 2, 3, 4 LIMIT 8")).fetchall()
            self.say(f"{at}SELECT {items} FROM parts WHERE {where} GROUP BY {name} LIMIT 8", *[line(r, kind + "nnn") for r in rows], f"({len(rows)} rows)")


def main():
    chance = random.Random(SEED)
    t = Table(chance)
    t.say("CREATE TABLE parts (k INTEGER NOT NULL, s VARCHAR(6))", "CREATE TABLE")
    t.say("CREATE PROJECTION parts_by_s (s ENCODING RLE, k ENCODING DELTAVAL) AS SELECT s, k FROM parts ORDER BY s, k", "CREATE PROJECTION")
    t.say("CREATE PROJECTION parts_k (k) AS SELECT k FROM parts ORDER BY k", "CREATE PROJECTION")
    t.load(2600)
    for place, column in enumerate(ADDED):
        for _ in range(chance.randint(1, 3)):
            chance.choice([t.insert, t.change, t.change])()
        if place % 3 != 1:
            t.say("SELECT DO_TM_TASK('moveout')", "MOVEOUT")
        t.add(column)
        for _ in range(3):
            t.ask()
        t.ask(chance.randint(1, t.epoch))
        if place % 4 == 2:
            t.insert()
            t.say("\\session 2")
            t.say("INSERT INTO parts VALUES (" + ", ".join(literal(t.value(k, s), k) for _, k, s in t.columns) + ")", "INSERT 1")
            t.say("\\session 1")
            t.say("ALTER TABLE parts ADD COLUMN more INTEGER DEFAULT 1", "ERROR 16 Locked 2")
            t.say("\\session 2")
            t.say("ROLLBACK", "ROLLBACK")
            t.say("\\session 1")
    t.say("EXPLAIN SELECT s, k FROM parts", "SCAN parts parts_by_s")
    t.say("EXPLAIN SELECT k, mark FROM parts", "SCAN parts parts_by_s")
    for epoch in range(1, t.epoch + 1):
        for _ in range(3):
            t.ask(epoch)
    t.say("SELECT DO_TM_TASK('moveout')", "MOVEOUT")
    t.change()
    t.insert()
    for _ in range(40):
        t.ask()
    for name, lines in (("sql", t.sql), ("out", t.out)):
        with open(f"tests/columns.{name}", "w", encoding="utf-8") as it:
            it.write("\n".join(lines) + "\n")
    print(len(t.sql) - 1, "statements")


if __name__ == "__main__":
    main()
