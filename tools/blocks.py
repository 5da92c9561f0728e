#!/usr/bin/env python3
"""Writes tests/blocks.sql, tests/blocks.out and tests/load_files/blocks.tbl: queries, deletes and updates over a table of several blocks of
1,024 rows, in two projections of different order, with the lines that sqlite3 gives for them.

Conditions are such that whole blocks lie out of them: on the columns that the projections are sorted by and on others, at the ends of blocks,
with NULL at the front, before and behind all values. Run it in the repository's folder; the files are kept, so that the check needs no sqlite3.
"""
import sqlite3

from statements import line

ROWS = 5000
WORDS = ["ash", "birch", "elm", "fir", "lime", "oak", "pine", "yew"]
CONDITIONS = [
    "k = 1", "k = 1024", "k = 1025", "k = 5000", "k = 0", "k = 5001", "k < 3", "k <= 2", "k > 4998", "k >= 4999", "2048 = k", "3 > k", "4998 < k",
    "k BETWEEN 1023 AND 1026", "k BETWEEN 3000 AND 2999", "k > 1022 AND k < 1027", "k = 7 AND k = 8", "k > 4990 AND w = 'oak'",
    "n = 10", "n = -3", "n IS NULL AND k < 60", "n < 2 AND k > 4000", "n > 97", "n >= 99 AND k > 2500", "n = NULL", "NOT n > 1",
    "w = 'yew' AND n = 50", "w > 'pine' AND n < 3", "w < 'b' AND k < 40", "w = ''", "w = 'zzz'", "w BETWEEN 'a' AND 'b' AND n = 0", "f = TRUE AND k > 4980", "NOT f AND k < 20",
    "f AND n = 13", "k = 9223372036854775807", "k > - 5 AND k < 4", "k < 9223372036854775807 * 9223372036854775807 AND k > 4997", "k = 3 OR k = 4000", "k IN (5, 1030, 4999)", "k <> 1 AND k < 4",
    "k + 1 = 3000", "k = n", "n = k AND k < 100",
    "k < 3 OR k = 6 OR k BETWEEN 1023 AND 1026", "k <= 2 OR k > 4998", "k = 1030 OR n = -3", "k = 3 OR w = 'zzz' OR k + 0 = 4000", "(k > 10 AND k < 13) OR (k > 4000 AND k < 4003)",
    "(k = 5 AND n > 3) OR (n > 97 AND k < 9)", "n IN (98, 99, NULL) AND k < 600", "n = 98 OR n IS NULL AND k < 50", "w IN ('yew', 'ash') AND k IN (9, 17, 4990)", "w = 'yew' AND k < 30 OR w > 'pine' AND k > 4980",
    "k < 4 OR 4998 < k", "NOT (k > 3 OR n > 5)", "k = NULL OR k = 77",
]


def main():
    db = sqlite3.connect(":memory:")
    db.execute("CREATE TABLE t (k INTEGER NOT NULL, n INTEGER, w VARCHAR(8), f BOOLEAN)")
    rows, x = [], 7
    for k in range(1, ROWS + 1):
        x = (6364136223846793005 * x + 1442695040888963407) % 2**64
        y = x >> 33
        rows.append((k, None if y % 50 == 0 else y // 50 % 100, WORDS[y // 7 % 8], None if y % 11 == 0 else y // 3 % 2))
    db.executemany("INSERT INTO t VALUES (?, ?, ?, ?)", rows)
    with open("tests/load_files/blocks.tbl", "w", encoding="utf-8") as it:
        for row in sorted(rows, key=lambda r: r[0] * 7919 % ROWS):
            it.write(line(row, "nntb") + "\n")
    sql, out = [], []

    def say(text, *lines):
        sql.append(text + ";")
        out.extend(lines)

    def ask(condition, at=""):
        for items, kinds in (("k, n, w, f", "nntb"), ("w, k", "tn")):
            if len(items) > 5 or condition.startswith(("n", "w")):
                order = items.replace(" ", "").split(",")
                found = db.execute(f"SELECT {items} FROM t WHERE {condition} ORDER BY {', '.join(order)}").fetchall()
                say(f"{at}SELECT {items} FROM t WHERE {condition} LIMIT 20", *[line(r, kinds) for r in found[:20]], f"({min(20, len(found))} rows)")
        count, total = db.execute(f"SELECT COUNT(*), SUM(n) FROM t WHERE {condition}").fetchone()
        say(f"{at}SELECT COUNT(*), SUM(n) FROM t WHERE {condition}", line((count, total), "nn"), "(1 rows)")

    sql.append("-- Conditions that pass over blocks, in tables of several, and what sqlite3 answers to them.")
    say("CREATE TABLE t (k INTEGER NOT NULL, n INTEGER, w VARCHAR(8), f BOOLEAN)", "CREATE TABLE")
    say("CREATE PROJECTION by_n (n, w, k, f) AS SELECT n, w, k, f FROM t ORDER BY n, w, k", "CREATE PROJECTION")
    say("CREATE PROJECTION by_w (w ENCODING RLE, k ENCODING DELTAVAL) AS SELECT w, k FROM t ORDER BY w, k", "CREATE PROJECTION")
    say("COPY t FROM 'load_files/blocks.tbl'", f"COPY {ROWS} EPOCH 1")
    for condition in CONDITIONS[:6]:
        ask(condition)
    say("SELECT DO_TM_TASK('moveout')", "MOVEOUT")
    for condition in CONDITIONS:
        ask(condition)
    epoch = 1
    for what, change in [
        ("DELETE", "DELETE FROM t WHERE k BETWEEN 1020 AND 2050"), ("DELETE", "DELETE FROM t WHERE w = 'elm' AND n < 40"), ("DELETE", "DELETE FROM t WHERE k = 5000"),
        ("UPDATE", "UPDATE t SET n = n + 1, w = 'elm' WHERE n = 13"), ("UPDATE", "UPDATE t SET k = k + 5000 WHERE k < 4"), ("DELETE", "DELETE FROM t WHERE n IS NULL AND k > 2500"),
        ("DELETE", "DELETE FROM t WHERE k > 20000"),
    ]:
        count = db.execute(change).rowcount
        say(change, f"{what} {count}")
        for condition in ("k > 1018 AND k < 2052", "n = 14", "k < 6", "k > 4990", "w = 'elm' AND n < 41 AND n > 38"):
            ask(condition)
        if count:
            epoch += 1
        say("COMMIT", f"COMMIT EPOCH {epoch}" if count else "COMMIT")
        ask("k > 1018 AND k < 2052")
        if what == "UPDATE":
            say("SELECT DO_TM_TASK('moveout')", "MOVEOUT")
    for condition in CONDITIONS:
        ask(condition)
    with open("tests/blocks.sql", "w", encoding="utf-8") as it:
        it.write("\n".join(sql) + "\n")
    with open("tests/blocks.out", "w", encoding="utf-8") as it:
        it.write("\n".join(out) + "\n")


if __name__ == "__main__":
    main()
