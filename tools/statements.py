#!/usr/bin/env python3
"""Writes tests/queries.sql and tests/queries.out: queries over one table, with the lines that sqlite3 gives for them.

sqlite3 has the same meaning of NULL, of three-valued logic and of the order of texts by their bytes, and it puts NULL first. What
differs is told here: the kinds of the output columns, for truth values are printed as t and f; and the printed order, which has all
output columns behind the keys. Run it in the repository's folder; both files are kept, so that the check needs no sqlite3.
"""
import sqlite3

COLUMNS = [("a", "INTEGER", "n"), ("b", "INTEGER", "n"), ("s", "VARCHAR(8)", "t"), ("f", "BOOLEAN", "b"), ("k", "INTEGER NOT NULL", "n")]
ROWS = [
    "1, 10, 'x', TRUE, 1", "2, 10, 'X', FALSE, 2", "3, NULL, 'xy', NULL, 3", "NULL, -5, '', TRUE, 4", "-7, 0, NULL, FALSE, 5",
    "0, 0, 'a|b', TRUE, 6", "2, 10, 'X', FALSE, 7", "9223372036854775807, 1, 'é', NULL, 8", "-9223372036854775807, NULL, 'e', TRUE, 9",
    "5, 5, 'x y', FALSE, 10", "NULL, NULL, NULL, NULL, 11", "12, -12, '\"', TRUE, 12",
]
# conditions
CONDITIONS = [
    "a = 2", "a <> 2", "a != 2", "a < 2", "a <= 2", "a > 2", "a >= 2", "2 > a", "a = b", "a < b", "b >= a", "a = NULL", "NOT a = NULL", "a IS NULL",
    "a IS NOT NULL", "NOT a IS NULL", "b IS NULL AND a IS NULL", "b IS NULL OR a IS NULL", "f", "NOT f", "f IS NULL", "f = TRUE", "f <> TRUE", "f = FALSE",
    "f OR a > 2", "f AND a > 2", "NOT (f OR a > 2)", "NOT (f AND a > 2)", "f AND NULL", "f OR NULL", "NULL", "TRUE", "FALSE", "NOT FALSE",
    "s = 'x'", "s <> 'x'", "s < 'x'", "s <= 'x'", "s > 'X'", "s >= 'e'", "s = ''", "s IS NULL", "'x' < s", "s = NULL OR s = 'x'",
    "a BETWEEN 1 AND 3", "NOT a BETWEEN 1 AND 3", "a BETWEEN b AND 10", "a BETWEEN 3 AND 1", "s BETWEEN 'X' AND 'x'", "a BETWEEN NULL AND 3",
    "a IN (1, 3, 5)", "NOT a IN (1, 3, 5)", "a IN (1, NULL)", "NOT a IN (1, NULL)", "s IN ('x', 'X')", "a IN (b)", "a + 1 IN (b, 3)", "f IN (TRUE)",
    "a + b = 20", "a - b > 0", "a * 2 = b", "- a > 0", "a + 1 > a", "a * a < 50", "a - - b = 12", "(a + b) * 2 = 24", "1 + 2 * 3 = 7", "(1 + 2) * 3 = 9",
    "k = 1 OR k = 2 AND a = 1", "(k = 1 OR k = 2) AND a = 1", "NOT k = 1 AND NOT k = 2", "NOT (k = 1 AND k = 2)", "NOT (NOT f)", "(a = 1) = f", "(a = 1) = (b = 10)",
    "(a IS NULL) = (b IS NULL)", "(f OR a = 3) IS NULL", "a = 1 OR a = 2 OR a = 3", "a > 0 AND b > 0 AND f", "k > 3 AND k <= 6", "k BETWEEN 4 AND 6 AND NOT f",
]
# output columns, each list with its kinds
ITEMS = [
    ("a", "n"), ("a, b", "nn"), ("b, a", "nn"), ("s", "t"), ("f", "b"), ("a + b", "n"), ("a - b - 1", "n"), ("- a", "n"), ("a * b", "n"), ("a * 2 - k", "n"),
    ("a = b", "b"), ("a < b, NOT f", "bb"), ("f AND a > 1", "b"), ("f OR a > 1", "b"), ("a IS NULL, s IS NOT NULL", "bb"), ("a IN (1, 2)", "b"),
    ("a BETWEEN 0 AND 5", "b"), ("NULL", "n"), ("1, 'one', TRUE", "ntb"), ("k, k", "nn"), ("s, f, k", "tbn"), ("a * a * 1", "n"), ("a + a + a", "n"),
    ("a AS x, b AS y", "nn"), ("m.a, m.s", "nt"), ("9223372036854775807 + k", "n"), ("- (- a)", "n"), ("0 - a * k", "n"), ("'quote ''''', k", "tn"),
]
# orders: the clause, and sqlite's
ORDERS = [
    "a", "a DESC", "a ASC", "b, a", "b DESC, a", "b, a DESC", "b DESC, a DESC", "s", "s DESC", "f, k", "f DESC, k DESC", "1", "2 DESC", "2, 1 DESC", "k DESC",
    "3", "4 DESC, 3", "f, s, b DESC",
]
LIMITS = [None, 0, 1, 3, 12, 100]


def field(value, kind):
    if value is None:
        return ""
    if kind == "b":
        return "t" if value else "f"
    text = str(value)
    if any(c in text for c in '|"\r\n'):
        text = '"' + text.replace('"', '""') + '"'
    return text


def line(row, kinds):
    fields = [field(v, k) for v, k in zip(row, kinds)]
    return '""' if fields == [""] else "|".join(fields)


def main():
    db = sqlite3.connect(":memory:")
    db.execute("CREATE TABLE m (a INTEGER, b INTEGER, s TEXT, f INTEGER, k INTEGER)")
    script = ["-- Queries over one table, with what sqlite3 answers. Made by tools/statements.py."]
    script.append("CREATE TABLE m (" + ", ".join(f"{n} {t}" for n, t, _ in COLUMNS) + ");")
    out = ["CREATE TABLE"]
    for place, row in enumerate(ROWS):
        db.execute(f"INSERT INTO m VALUES ({row})")
        script.append(f"INSERT INTO m VALUES ({row});")
        out.append("INSERT 1")
        if place == 5:
            script.append("COMMIT;")
            out.append("COMMIT EPOCH 1")

    def query(items, kinds, rest, order, limit, sqlite_items=None):
        text = f"SELECT {items} FROM m{rest}"
        peer = f"SELECT {sqlite_items or items} FROM m{rest}"
        text += f" ORDER BY {order}" if order else ""
        keys = [order] if order else []
        keys += [str(i + 1) for i in range(len(kinds))]
        peer += " ORDER BY " + ", ".join(keys)
        if limit is not None:
            text += f" LIMIT {limit}"
            peer += f" LIMIT {limit}"
        script.append(text + ";")
        rows = db.execute(peer).fetchall()
        out.extend(line(row, kinds) for row in rows)
        out.append(f"({len(rows)} rows)")

    for condition in CONDITIONS:
        query("k", "n", f" WHERE {condition}", None, None)
    for items, kinds in ITEMS:
        # sqlite answers a sum above 2^63 - 1 as a real: such rows are left out
        great = " WHERE a < 1000000 AND a > -1000000" if any(c in items for c in "*-+") else ""
        if "9223372036854775807" in items:
            continue
        query(items, kinds, great, None, None)
    everything = ", ".join(n for n, _, _ in COLUMNS)
    for place, order in enumerate(ORDERS):
        query("*", "nntbn", "", order, LIMITS[place % len(LIMITS)], everything)
    query("k AS a, a AS k", "nn", "", "a DESC", 4)
    query("k AS c", "n", " WHERE a = 2", "c DESC", None)
    open("tests/queries.sql", "w").write("\n".join(script) + "\n")
    open("tests/queries.out", "w").write("\n".join(out) + "\n")
    print(len(script) - 2, "statements")


if __name__ == "__main__":
    main()
