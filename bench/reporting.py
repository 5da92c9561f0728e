#!/usr/bin/env python3
"""Two tables as a reporting user has them, filled and asked by vert and by sqlite3 in one run.

    bench/reporting.py [ROWS ..]      default: 100000 1000000
    VERT=PROGRAM bench/reporting.py   with a program that is built already

The orders are the generated ones (a number sequence that any program can make again); the sales are wider, with texts, NULL and truth
values. For each it prints what filling the table costs (the script's INSERTs, COMMIT and the end of the run), what opening the folder
costs, how large the folder is beside a load file of the same rows, and for each query the seconds of one answer, those of sqlite3 over
a file of its own, and their ratio. A query is run several times inside one process, and the same process without queries is taken off.
Peak memory is that of the process that runs it. sqlite3 is left out where it isn't installed.
"""
import glob
import json
import os
import shutil
import subprocess
import sys
import tempfile
import time

TOP = os.path.dirname(os.path.dirname(os.path.abspath(__file__)))
VERT = os.environ.get("VERT") or os.path.join(TOP, "crates/vert/out/vert")


def numbers(rows):
    x = 0
    for _ in range(rows):
        x = (6364136223846793005 * x + 1442695040888963407) % 2**64
        yield x >> 33


def orders(rows):
    regions = ["north", "south", "east", "west"]
    for i, y in enumerate(numbers(rows), 1):
        yield (i, regions[y % 4], y // 4 % 10, y // 40 % 10000)


def sales(rows):
    shops = ["mill", "harbour", "station", "market", "old town"]
    articles = ["lamp", "cable", "switch", "socket", "fuse", "bulb, 40 W", "bulb, 60 W", "plug"]
    day = 20250101
    for i, y in enumerate(numbers(rows)):
        if i % (rows // 300 + 1) == 0:
            day += 1
        cents = None if y % 50 == 0 else 100 + y // 50 % 9000
        returned = None if y // 7 % 20 == 0 else y // 7 % 9 == 0
        yield (day, shops[y % 5], articles[y // 5 % 8], 1 + y // 40 % 30, cents, returned)


SETS = [
    (
        "orders",
        "id INTEGER NOT NULL, region VARCHAR(8), qty INTEGER, price INTEGER",
        orders,
        [
            ("filter", "SELECT id, price FROM orders WHERE region = 'west' AND qty > 7 AND price < 100", ""),
            ("sum in a filter", "SELECT id FROM orders WHERE qty * price > 89000 OR price IS NULL", ""),
            ("one of 4,000 prices", "SELECT COUNT(*), SUM(qty) FROM orders WHERE price IN (" + ", ".join(str(5 * n // 2) for n in range(4000)) + ")", ""),
            ("all in order", "SELECT region, qty, price, id FROM orders ORDER BY price DESC, qty", ", region, id"),
            ("first 10 in order", "SELECT region, qty, price, id FROM orders ORDER BY price DESC, qty LIMIT 10", ", region, id"),
        ],
    ),
    (
        "sales",
        "day INTEGER NOT NULL, shop VARCHAR(12) NOT NULL, article VARCHAR(20), pieces INTEGER, cents INTEGER, returned BOOLEAN",
        sales,
        [
            ("a month of a shop", "SELECT day, article, pieces * cents AS total FROM sales WHERE shop = 'harbour' AND day BETWEEN 20250110 AND 20250112 AND NOT returned", ""),
            ("unknown", "SELECT day, shop FROM sales WHERE cents IS NULL AND returned IS NULL", ""),
            ("greatest 20", "SELECT shop, article, pieces * cents AS total, day FROM sales WHERE returned = FALSE ORDER BY total DESC LIMIT 20", ", shop, article, day"),
        ],
    ),
]


def literal(value):
    if value is None:
        return "NULL"
    if isinstance(value, bool):
        return "TRUE" if value else "FALSE"
    return str(value) if isinstance(value, int) else "'" + value + "'"


def run_here(words, source):
    """Seconds and peak megabytes of a process of its own."""
    pid = os.fork()
    if pid == 0:
        with open(source) as text, open(os.devnull, "w") as none:
            os.dup2(text.fileno(), 0)
            os.dup2(none.fileno(), 1)
            os.execvp(words[0], words)
    start = time.time()
    _, _, used = os.wait4(pid, 0)
    return time.time() - start, used.ru_maxrss / 1024


def serve():
    """Runs what is asked for on standard input. A small process does this, since the peak of a process begins with that of its parent."""
    for line in sys.stdin:
        print(json.dumps(run_here(*json.loads(line))), flush=True)


def run(words, source):
    SERVER.stdin.write(json.dumps([words, source]) + "\n")
    SERVER.stdin.flush()
    return tuple(json.loads(SERVER.stdout.readline()))


def best(words, source):
    runs = [run(words, source) for _ in range(3)]
    return min(r[0] for r in runs), max(r[1] for r in runs)


def keyed(query, more):
    """The same query for sqlite3, with the ties of the printed order behind its keys."""
    if " ORDER BY " not in query:
        return query
    head, limit = query.split(" LIMIT ") if " LIMIT " in query else (query, None)
    return head + more + (" LIMIT " + limit if limit else "")


def peer_program():
    if not shutil.which("sqlite3") and shutil.which("apt-get"):
        subprocess.run(["apt-get", "install", "-y", "sqlite3"], stdout=subprocess.DEVNULL, stderr=subprocess.DEVNULL)
    return shutil.which("sqlite3")


def measure(rows, work, peer, times):
    for name, columns, make, queries in SETS:
        lines = list(make(rows))
        create = f"CREATE TABLE {name} ({columns});\n"
        fill = ""
        for k in range(0, rows, 100000):
            fill += f"INSERT INTO {name} VALUES " + ", ".join("(" + ", ".join(map(literal, l)) + ")" for l in lines[k : k + 100000]) + ";\n"
        load = sum(len("|".join("" if v is None else literal(v).strip("'") for v in l)) + 1 for l in lines)
        path = lambda end: os.path.join(work, name + end)
        open(path(".sql"), "w").write(create + fill + "COMMIT;\n")
        open(path(".lite"), "w").write("BEGIN;\n" + create + fill + "COMMIT;\n")
        open(path("-none.sql"), "w").write("SELECT GET_CURRENT_EPOCH();\n")
        open(path("-none.lite"), "w").write("SELECT 1;\n")
        ours = run([VERT, path(""), path(".sql")], os.devnull)
        size = sum(os.path.getsize(f) for f in glob.glob(path("/*")))
        line = f"{rows} rows of {name}: filled in {ours[0]:.2f} s with {ours[1]:.0f} MB"
        if peer:
            theirs = run([peer, path(".db")], path(".lite"))
            line += f" (sqlite3 {theirs[0]:.2f} s, {theirs[1]:.0f} MB)"
        print(line)
        times.setdefault((name, "filled"), []).append(ours[0])
        opened = best([VERT, path(""), path("-none.sql")], os.devnull)
        print(f"  opened in {opened[0]:.2f} s with {opened[1]:.0f} MB; folder {size} bytes, load file {load} bytes, ratio {size / load:.3f}")
        times.setdefault((name, "opened"), []).append(opened[0])
        bare = best([peer, path(".db")], path("-none.lite"))[0] if peer else 0
        again = 20 if rows <= 100000 else 5
        for title, query, more in queries:
            open(path("-q.sql"), "w").write("SELECT GET_CURRENT_EPOCH();\n" + (query + ";\n") * again)
            open(path("-q.lite"), "w").write("SELECT 1;\n" + (keyed(query, more) + ";\n") * again)
            seconds, peak = best([VERT, path(""), path("-q.sql")], os.devnull)
            ours = (seconds - opened[0]) / again
            times.setdefault((name, title), []).append(ours)
            line = f"  {title:<20} vert {ours:.3f} s, {peak:.0f} MB"
            if peer:
                theirs = (best([peer, path(".db")], path("-q.lite"))[0] - bare) / again
                line += f"; sqlite3 {theirs:.3f} s; ratio {ours / theirs if theirs > 0 else 0:.2f}"
            print(line)


def changes(rows, work, peer):
    """A load file into a table with a second order, a tenth deleted and another changed, and a filter before and after, now and in the past."""
    lines = list(orders(rows))
    path = lambda end: os.path.join(work, "changes" + end)
    columns = SETS[0][1]
    with open(path(".tbl"), "w") as out:
        out.writelines("%d|%s|%d|%d\n" % line for line in lines)
    question = "SELECT id, price FROM orders WHERE region = 'west' AND qty > 7 AND price < 100"
    steps = [
        ("loaded", f"CREATE TABLE orders ({columns}); CREATE PROJECTION by_region (region ENCODING RLE, qty, price) AS SELECT region, qty, price FROM orders ORDER BY region, qty; COPY orders FROM '{path('.tbl')}';",
         f"CREATE TABLE orders ({columns}); CREATE INDEX by_region ON orders (region, qty, price);\n.separator |\n.import {path('.tbl')} orders"),
        ("a filter", question + ";", question + ";"),
        ("a tenth deleted", "DELETE FROM orders WHERE qty = 0; COMMIT;", "DELETE FROM orders WHERE qty = 0;"),
        ("a filter then", question + ";", question + ";"),
        ("in the past", "AT EPOCH 1 " + question + ";", None),
        ("a tenth changed", "UPDATE orders SET price = price + 1 WHERE qty = 1; COMMIT;", "UPDATE orders SET price = price + 1 WHERE qty = 1;"),
    ]
    print(f"{rows} orders from a load file, each step a run of its own with its moveout:")
    for title, ours, theirs in steps:
        open(path(".sql"), "w").write(ours + "\n")
        seconds, peak = run([VERT, path(""), path(".sql")], os.devnull)
        line = f"  {title:<20} vert {seconds:.3f} s, {peak:.0f} MB"
        if peer and theirs:
            open(path(".lite"), "w").write(theirs + "\n")
            other, most = run([peer, path(".db")], path(".lite"))
            line += f"; sqlite3 {other:.3f} s, {most:.0f} MB; ratio {seconds / other if other > 0 else 0:.2f}"
        print(line)


def main():
    if not os.environ.get("VERT"):
        subprocess.run([os.path.join(TOP, "bin/vert")], stdout=subprocess.DEVNULL, stderr=subprocess.DEVNULL)  # builds it
    peer, times = peer_program(), {}
    sizes = list(map(int, sys.argv[1:] or ["100000", "1000000"]))
    for rows in sizes:
        with tempfile.TemporaryDirectory() as work:
            measure(rows, work, peer, times)
            changes(rows, work, peer)
    if len(sizes) > 1:
        print(f"from {sizes[0]} to {sizes[-1]} rows, {sizes[-1] / sizes[0]:.0f} times as many, vert takes so many times as long:")
        for (name, title), spent in times.items():
            print(f"  {name}, {title}: {spent[-1] / max(spent[0], 1e-4):.1f}")


if sys.argv[1:] == ["--serve"]:
    serve()
else:
    SERVER = subprocess.Popen([sys.executable, os.path.abspath(__file__), "--serve"], stdin=subprocess.PIPE, stdout=subprocess.PIPE, text=True)
    main()
