#!/usr/bin/env python3
"""Writes tests/windows.sql, tests/windows.out and tests/load_files/turns.tbl: window functions over one table and over joins, with partitions, keys, peers and NULLs,
in every projection, before and behind deletes and at an epoch, with the lines that sqlite3 gives for them.

ROW_NUMBER tells peers apart by the columns that the query uses, in their order in FROM: they are the last keys there. Run it in the
repository's folder; the files are kept, so that the check needs no sqlite3.
"""
import random
import sqlite3

from statements import line

SEED = 20240318
COLUMNS = [("p", "n"), ("k", "n"), ("n", "n"), ("w", "t"), ("day", "d")]
PROJECTIONS = [
    "CREATE PROJECTION turns_by_p (p ENCODING RLE, k, n) AS SELECT p, k, n FROM turns ORDER BY p, k",
    "CREATE PROJECTION turns_by_day (day ENCODING DELTAVAL, w, n, p) AS SELECT day, w, n, p FROM turns ORDER BY day, w",
]
CONDITIONS = ["{}n > 40", "{}p = 2", "{}w IS NULL", "{}day < DATE '2024-02-01'", "{}k BETWEEN 3 AND 9", "NOT {}w = 'b'"]


def sqlite(text):
    return text.replace("DATE '", "'")


def main():
    chance = random.Random(SEED)
    db = sqlite3.connect(":memory:")
    sql, out = ["-- Window functions, with what sqlite3 answers."], []

    def say(text, *lines):
        sql.append(text + ";")
        out.extend(lines)

    rows = [(chance.choice([1, 1, 2, 3, 4, None]), None if chance.random() < 0.05 else chance.randint(0, 12), None if chance.random() < 0.1 else chance.randint(-20, 99),
             chance.choice(["a", "b", "c", None]), chance.choice([None, "2024-01-05", "2024-01-06", "2024-02-01", "2023-12-31"])) for _ in range(700)]
    db.execute("CREATE TABLE turns (p INTEGER, k INTEGER, n INTEGER, w TEXT, day TEXT)")
    db.executemany("INSERT INTO turns VALUES (?, ?, ?, ?, ?)", rows)
    db.execute("CREATE TABLE names (p INTEGER, name TEXT)")
    db.executemany("INSERT INTO names VALUES (?, ?)", [(1, "one"), (2, "two"), (2, "zwei"), (4, "four")])
    with open("tests/load_files/turns.tbl", "w", encoding="utf-8") as it:
        for row in rows:
            it.write(line(row, "nnntd") + "\n")
    say("CREATE TABLE turns (p INTEGER, k INTEGER, n INTEGER, w VARCHAR(8), day DATE)", "CREATE TABLE")
    say("CREATE TABLE names (p INTEGER NOT NULL, name VARCHAR(8))", "CREATE TABLE")
    for text in PROJECTIONS:
        say(text, "CREATE PROJECTION")
    say("COPY turns FROM 'load_files/turns.tbl'", f"COPY {len(rows)} EPOCH 1")
    say("INSERT INTO names VALUES (1, 'one'), (2, 'two'), (2, 'zwei'), (4, 'four')", "INSERT 4")
    say("COMMIT", "COMMIT EPOCH 2")

    def window(columns):
        """A function, the columns of its partition, its keys, and whether each stands behind DESC."""
        partition = [c for c, _ in chance.sample(columns, chance.choice([0, 1, 1, 2]))]
        order = [(c, chance.choice(["", "", " ASC", " DESC"])) for c, _ in chance.sample(columns, chance.choice([0, 1, 1, 2]))]
        head = chance.choice(["ROW_NUMBER()", "RANK()", "COUNT(*)", "COUNT({})", "SUM({})", "SUM({} + 1)", "SUM(-{} * 2)"])
        numbers = [c for c, kind in columns if kind == "n"]
        if "COUNT" in head or not numbers:
            head = head.replace("SUM({} + 1)", "COUNT({})").replace("SUM(-{} * 2)", "COUNT({})").replace("SUM", "COUNT").format(chance.choice(columns)[0])
        elif "{}" in head:
            head = head.format(chance.choice(numbers))
        return head, partition, [c for c, _ in order], [d for _, d in order]

    def written(head, partition, keys, directions):
        parts = ["PARTITION BY " + ", ".join(partition)] if partition else []
        order = ["ORDER BY " + ", ".join(c + d for c, d in zip(keys, directions))] if keys else []
        return f"{head} OVER ({' '.join(parts + order)})"

    def told_apart(draft, used):
        """The same for sqlite3: the used columns stand behind the keys of ROW_NUMBER."""
        head, partition, keys, directions = draft
        behind = [c for c in used if c not in keys] if head == "ROW_NUMBER()" else []
        return head, partition, keys + behind, directions + [""] * len(behind)

    def ask(at=""):
        joined = chance.random() < 0.25
        before = "t." if joined else ""
        columns = [(before + n, k) for n, k in COLUMNS]
        names = [("s.p", "n"), ("s.name", "t")] if joined else []
        source = "turns AS t JOIN names AS s ON t.p = s.p" if joined else "turns"
        condition = chance.choice(CONDITIONS).format(before) if chance.random() < 0.4 else None
        looked = chance.sample(columns, chance.choice([2, 3, 4])) + ([names[1]] if joined and chance.random() < 0.5 else [])
        items = chance.sample(looked, chance.choice([1, 2]))
        # tuples that are alike in all used columns are numbered in any order: so at most one ROW_NUMBER
        while True:
            drafts = [window(looked) for _ in range(chance.choice([1, 1, 2, 3]))]
            if sum(head == "ROW_NUMBER()" for head, _, _, _ in drafts) < 2:
                break
        text = " ".join([n for n, _ in items] + [written(*draft) for draft in drafts] + [condition or "", "t.p s.p" if joined else ""])
        words = "".join(c if c.isalnum() or c in "._" else " " for c in text).split()
        used = [n for n, _ in columns + names if n in words]
        made = [(written(*draft), written(*told_apart(draft, used))) for draft in drafts]
        mine = ", ".join([n for n, _ in items] + [text for text, _ in made])
        other = ", ".join([n for n, _ in items] + [text for _, text in made])
        where = f" WHERE {condition}" if condition else ""
        limit = chance.choice([4, 9, 30])
        by = ", ".join(str(i + 1) for i in range(len(items) + len(made)))
        keyed, direction = "", chance.choice(["", " DESC"])
        if chance.random() < 0.4:
            place = chance.randint(1, len(items) + len(made))
            keyed = f" ORDER BY {place}{direction}"
            by = f"{place}{direction}, {by}"
        found = db.execute(sqlite(f"SELECT {other} FROM {source}{where} ORDER BY {by} LIMIT {limit}")).fetchall()
        say(f"{at}SELECT {mine} FROM {source}{where}{keyed} LIMIT {limit}", *[line(r, "".join(k for _, k in items) + "n" * len(made)) for r in found], f"({len(found)} rows)")

    for _ in range(170):
        ask()
    gone = db.execute("SELECT COUNT(*) FROM turns WHERE n < 10").fetchone()[0]
    say("DELETE FROM turns WHERE n < 10", f"DELETE {gone}")
    say("COMMIT", "COMMIT EPOCH 3")
    for _ in range(20):
        ask("AT EPOCH 2 ")
    db.execute("DELETE FROM turns WHERE n < 10")
    for _ in range(110):
        ask()
    with open("tests/windows.sql", "w", encoding="utf-8") as it:
        it.write("\n".join(sql) + "\n")
    with open("tests/windows.out", "w", encoding="utf-8") as it:
        it.write("\n".join(out) + "\n")


if __name__ == "__main__":
    main()
