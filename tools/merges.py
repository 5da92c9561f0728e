#!/usr/bin/env python3
"""Writes tests/merges.sql and tests/merges.out: joins and groups over projections that are sorted by what is equated and grouped by, with several containers, pending rows,
NULLs, the least and the greatest numbers and many equal ones, with the lines that sqlite3 gives for them.

Run it in the repository's folder; the files are kept, so that the check needs no sqlite3.
"""
import random
import sqlite3

from statements import line

SEED = 5051
ENDS = [-9223372036854775807, 9223372036854775807, 0, -1, 1]
QUERIES = [
    ("SELECT a.k FROM l AS a JOIN r AS b ON a.k = b.k", "n"),
    ("SELECT a.k, b.n FROM l AS a JOIN r AS b ON b.k = a.k", "nn"),
    ("SELECT a.n, b.k FROM r AS a, l AS b WHERE a.k = b.k AND a.n > 4", "nn"),
    ("SELECT a.k, a.n, b.n FROM r AS a JOIN r AS b ON a.k = b.k AND a.n < b.n", "nnn"),
    ("SELECT a.k, COUNT(*), SUM(b.n) FROM l AS a JOIN r AS b ON a.k = b.k GROUP BY a.k", "nnn"),
    ("SELECT a.k, c.n, COUNT(*) FROM l AS a JOIN r AS b ON a.k = b.k JOIN r AS c ON b.n = c.n GROUP BY a.k, c.n", "nnn"),
    ("SELECT b.n FROM l AS a JOIN r AS b ON a.k = b.n", "n"),
    ("SELECT b.w FROM l AS a JOIN r AS b ON a.k = b.k WHERE b.w IS NOT NULL", "t"),
    ("SELECT r.k, COUNT(*), COUNT(n), SUM(n), MIN(n), MAX(n) FROM r GROUP BY k", "nnnnnn"),
    ("SELECT r.k, n, COUNT(*) FROM r GROUP BY k, n", "nnn"),
    ("SELECT n, COUNT(*) FROM r GROUP BY n", "nn"),
    ("SELECT w, COUNT(*), SUM(n) FROM r GROUP BY w", "tnn"),
    ("SELECT r.k, COUNT(*) FROM r WHERE n > 2 GROUP BY k HAVING COUNT(*) > 1", "nn"),
]
TABLES = {"l": "k INTEGER", "r": "k INTEGER, n INTEGER, w VARCHAR(4)"}


def main():
    chance = random.Random(SEED)
    db = sqlite3.connect(":memory:")
    sql, out = ["-- Merge joins and groups in one pass, with what sqlite3 answers. Made by tools/merges.py."], []

    def say(text, *lines):
        sql.append(text + ";")
        out.extend(lines)

    def ask():
        for query, kinds in QUERIES:
            rows = db.execute(query + " ORDER BY " + ", ".join(str(i + 1) for i in range(len(kinds)))).fetchall()
            say(query, *[line(row, kinds) for row in rows], f"({len(rows)} rows)")

    def fill(name, rows):
        text = ", ".join("(" + ", ".join("NULL" if v is None else repr(v) for v in row) + ")" for row in rows)
        db.execute(f"INSERT INTO {name} VALUES {text}")
        say(f"INSERT INTO {name} VALUES {text}", f"INSERT {len(rows)}")

    def number(most, ends):
        return None if chance.random() < 0.1 else chance.choice(ENDS) if ends and chance.random() < 0.15 else chance.randrange(most)

    for name, columns in TABLES.items():
        db.execute(f"CREATE TABLE {name} ({columns})")
        say(f"CREATE TABLE {name} ({columns})", "CREATE TABLE")
    say("CREATE PROJECTION r_by_n (n, k) AS SELECT n, k FROM r ORDER BY n", "CREATE PROJECTION")
    say("CREATE PROJECTION r_by_w (w ENCODING RLE, n) AS SELECT w, n FROM r ORDER BY w", "CREATE PROJECTION")
    fill("l", [(5,), (5,), (None,)])
    fill("r", [(5, 1, "a"), (5, 2, "b"), (5, None, None), (None, 3, "a")])
    say("COMMIT", "COMMIT EPOCH 1")
    ask()
    for step in range(4):
        fill("l", [(number(16, True),) for _ in range(6)])
        fill("r", [(number(16, True), number(7, False), chance.choice([None, "a", "b", "cc"])) for _ in range(9)])
        if step < 3:
            say("COMMIT", f"COMMIT EPOCH {step + 2}")
            say("SELECT DO_TM_TASK('moveout')", "MOVEOUT")
        if step in (0, 3):
            ask()
    db.execute("DELETE FROM r WHERE k = 5")
    count = db.execute("SELECT changes()").fetchone()[0]
    say("DELETE FROM r WHERE k = 5", f"DELETE {count}")
    ask()
    for name, lines in (("sql", sql), ("out", out)):
        with open(f"tests/merges.{name}", "w", encoding="utf-8") as it:
            it.write("\n".join(lines) + "\n")
    print(len(sql) - 1, "statements")


if __name__ == "__main__":
    main()
