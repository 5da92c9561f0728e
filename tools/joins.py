#!/usr/bin/env python3
"""Writes tests/joins.sql, tests/joins.out and tests/load_files/{shops,goods,sold}.tbl: joins of two to four FROM items with conditions on one item, on two and on
all, over tables with days, of several blocks, before and behind deletes and updates, with the lines that sqlite3 gives for them.

A day is a text of ten characters there: the order and the equality are the same, and the year has four digits. Run it in the repository's
folder; the files are kept, so that the check needs no sqlite3.
"""
import datetime
import random
import sqlite3

from statements import line

SEED = 20240229
TABLES = {
    "shops": ("k INTEGER NOT NULL, town VARCHAR(8), opened DATE, closed DATE", "k town opened closed".split(), "ntdd", 40),
    "goods": ("g INTEGER NOT NULL, name VARCHAR(8), since DATE NOT NULL, frail BOOLEAN", "g name since frail".split(), "ntdb", 60),
    "sold": ("k INTEGER, g INTEGER, day DATE, n INTEGER", "k g day n".split(), "nndn", 2600),
}
PROJECTIONS = [
    "CREATE PROJECTION sold_by_day (day ENCODING DELTAVAL, k ENCODING RLE, g, n) AS SELECT day, k, g, n FROM sold ORDER BY day, k",
    "CREATE PROJECTION sold_by_shop (k, day ENCODING BLOCK_DICT, n) AS SELECT k, day, n FROM sold ORDER BY k, day",
    "CREATE PROJECTION goods_by_day (since ENCODING RLE, g) AS SELECT since, g FROM goods ORDER BY since",
]
TOWNS = ["Bergen", "Graz", "Lugo", "Ulm", "Vaasa", "Ypern"]
NAMES = ["axe", "bolt", "cable", "dish", "easel", "file", "glue"]
# conditions on one item, by its alias
ALONE = {
    "shops": ["{}.town = 'Graz'", "{}.opened < DATE '2019-06-01'", "{}.closed IS NULL", "{}.opened = {}.closed", "{}.closed >= DATE '2020-02-29'", "NOT {}.town IN ('Ulm', 'Lugo')",
              "{}.k BETWEEN 5 AND 20", "{}.opened BETWEEN DATE '2018-01-01' AND DATE '2019-12-31'", "{}.town IS NULL"],
    "goods": ["{}.frail", "NOT {}.frail", "{}.name > 'cable'", "{}.since >= DATE '2020-01-01'", "{}.since IN (DATE '2019-03-01', DATE '2020-02-29', NULL)", "{}.g * 2 < 50", "{}.name <> 'dish' OR {}.frail"],
    "sold": ["{}.day = DATE '2020-02-29'", "{}.day < DATE '2018-02-01'", "{}.day > DATE '2020-12-15'", "{}.n > 90", "{}.n IS NULL", "{}.day IS NULL AND {}.n < 20", "{}.n + {}.g > 140",
             "{}.day BETWEEN DATE '2019-12-25' AND DATE '2020-01-06'", "{}.day <> DATE '2019-01-01' AND {}.n = 7", "NOT {}.day > DATE '2018-01-20'"],
}
# conditions on two items
PAIRS = {
    ("shops", "sold"): ["{0}.k = {1}.k", "{0}.k = {1}.k", "{0}.opened = {1}.day", "{0}.k = {1}.k AND {1}.day > {0}.opened", "{0}.closed = {1}.day AND {0}.k < {1}.g"],
    ("goods", "sold"): ["{0}.g = {1}.g", "{0}.g = {1}.g", "{0}.g = {1}.g AND {0}.since <= {1}.day", "{0}.since = {1}.day"],
    ("goods", "shops"): ["{0}.since = {1}.opened", "{0}.g = {1}.k", "{0}.since BETWEEN {1}.opened AND {1}.closed"],
    ("shops", "shops"): ["{0}.town = {1}.town AND {0}.k < {1}.k", "{0}.opened = {1}.closed", "{0}.k + 1 = {1}.k"],
    ("goods", "goods"): ["{0}.name = {1}.name AND {0}.since < {1}.since", "{0}.since = {1}.since AND {0}.g <> {1}.g"],
    ("sold", "sold"): ["{0}.day = {1}.day AND {0}.k = {1}.g", "{0}.k = {1}.k AND {0}.g = {1}.g AND {0}.day < {1}.day", "{0}.n = {1}.n AND {0}.day = {1}.day AND {0}.k < {1}.k"],
}


def sqlite(text):
    return text.replace("DATE '", "'")


def main():
    chance = random.Random(SEED)
    db = sqlite3.connect(":memory:")
    sql, out = ["-- Joins, conditions on one item and on several, and days, with what sqlite3 answers."], []

    def say(text, *lines):
        sql.append(text + ";")
        out.extend(lines)

    def a_day(nulls):
        return None if chance.random() < nulls else str(datetime.date(2018, 1, 1) + datetime.timedelta(days=int(1096 * chance.random() ** 1.5)))

    made = {
        "shops": [(k, chance.choice(TOWNS + [None]), a_day(0.1), a_day(0.4)) for k in range(1, 41)],
        "goods": [(g, chance.choice(NAMES), a_day(0), chance.choice([0, 1, 1, None])) for g in range(1, 61)],
        "sold": [(None if chance.random() < 0.03 else chance.randint(1, 45), chance.randint(0, 62), a_day(0.05), None if chance.random() < 0.05 else chance.randint(0, 100)) for _ in range(2600)],
    }
    for table, (columns, names, kinds, _) in TABLES.items():
        db.execute(f"CREATE TABLE {table} ({', '.join(n + (' TEXT' if k in 'td' else ' INTEGER') for n, k in zip(names, kinds))})")
        db.executemany(f"INSERT INTO {table} VALUES (?, ?, ?, ?)", made[table])
        with open(f"tests/load_files/{table}.tbl", "w", encoding="utf-8") as it:
            for row in made[table]:
                it.write(line(row, kinds) + "\n")
        say(f"CREATE TABLE {table} ({columns})", "CREATE TABLE")
    for text in PROJECTIONS:
        say(text, "CREATE PROJECTION")
    for place, (table, rows) in enumerate(made.items()):
        say(f"COPY {table} FROM 'load_files/{table}.tbl'", f"COPY {len(rows)} EPOCH {place + 1}")

    def related(tables):
        """Conditions that tie each table behind the first to one before it."""
        conditions = []
        for place in range(1, len(tables)):
            before = chance.randrange(place)
            first, second = tables[before], tables[place]
            if (first[0], second[0]) not in PAIRS:
                first, second = second, first
            conditions.append(chance.choice(PAIRS[(first[0], second[0])]).format(first[1], second[1]))
        return conditions

    def ask(at=""):
        while True:
            some = chance.choice([2, 2, 2, 3, 3, 4])
            tables = [(chance.choice(["shops", "goods", "sold"]), alias) for alias in "abcd"[:some]]
            if sum(t == "sold" for t, _ in tables) <= 2:
                break
        ties = related(tables)
        alone = [chance.choice(ALONE[t]).replace("{}", alias) for t, alias in tables if chance.random() < 0.45]
        chance.shuffle(alone)
        text = " ".join(f"{t} AS {alias}" if place == 0 else (f"JOIN {t} AS {alias} ON {ties[place - 1]}" if commas else f", {t} AS {alias}")
                        for commas in [chance.random() < 0.5] for place, (t, alias) in enumerate(tables)).replace(" ,", ",")
        where = alone if "JOIN" in text else ties + alone
        chance.shuffle(where)
        if len(where) > 1 and chance.random() < 0.2:
            where = ["(" + " OR ".join(f"({w})" for w in where[:2]) + ")"] + where[2:] if set(where[:2]) <= set(alone) else where
        text += " WHERE " + " AND ".join(f"({w})" if " OR " in w or " AND " in w else w for w in where) if where else ""
        columns = [(f"{alias}.{n}", kind) for t, alias in tables for n, kind in zip(TABLES[t][1], TABLES[t][2])]
        if chance.random() < 0.55:
            items = chance.sample(columns, 3)
            names = ", ".join(n for n, _ in items)
            limit = chance.choice([3, 8, 25])
            rows = db.execute(sqlite(f"SELECT {names} FROM {text} ORDER BY 1, 2, 3 LIMIT {limit}")).fetchall()
            say(f"{at}SELECT {names} FROM {text} LIMIT {limit}", *[line(r, "".join(k for _, k in items)) for r in rows], f"({len(rows)} rows)")
        else:
            group = chance.choice([c for c in columns if c[1] in "tdb"])
            day = chance.choice([c for c in columns if c[1] == "d"])
            total = chance.choice([c for c in columns if c[1] == "n"])
            items = f"{group[0]}, COUNT(*), MIN({day[0]}), MAX({day[0]}), COUNT({day[0]}), SUM({total[0]})"
            rows = db.execute(sqlite(f"SELECT {items} FROM {text} GROUP BY {group[0]} ORDER BY 1, 2, 3, 4, 5, 6 LIMIT 9")).fetchall()
            say(f"{at}SELECT {items} FROM {text} GROUP BY {group[0]} LIMIT 9", *[line(r, group[1] + "nddnn") for r in rows], f"({len(rows)} rows)")

    for _ in range(40):
        ask()
    say("SELECT DO_TM_TASK('moveout')", "MOVEOUT")
    for _ in range(120):
        ask()
    epoch = 3
    for what, change in [
        ("DELETE", "DELETE FROM sold WHERE day >= DATE '2019-06-01' AND day < DATE '2019-08-01'"), ("UPDATE", "UPDATE shops SET closed = DATE '2020-02-29' WHERE closed IS NULL AND k < 12"),
        ("DELETE", "DELETE FROM goods WHERE since < DATE '2018-03-01'"), ("UPDATE", "UPDATE sold SET day = DATE '2018-01-31', n = n + 1 WHERE day IS NULL"),
    ]:
        count = db.execute(sqlite(change)).rowcount
        say(change, f"{what} {count}")
        for _ in range(10):
            ask()
        epoch += 1
        say("COMMIT", f"COMMIT EPOCH {epoch}")
        for _ in range(10):
            ask("AT EPOCH LATEST " if what == "DELETE" else "")
        if what == "UPDATE":
            say("SELECT DO_TM_TASK('moveout')", "MOVEOUT")
    for _ in range(60):
        ask()
    for name, lines in (("sql", sql), ("out", out)):
        with open(f"tests/joins.{name}", "w", encoding="utf-8") as it:
            it.write("\n".join(lines) + "\n")
    print(len(sql) - 1, "statements")


if __name__ == "__main__":
    main()
