#!/usr/bin/env python3
"""Window functions over 1,000,000 rows in 1, 1,000 and 200,000 partitions, by vert and by sqlite3 in one run.

    bench/windows.py [ROWS]             default: 1000000
    VERT=PROGRAM bench/windows.py       with a program that is built already

The rows stand by a number of their own, so that neither partitions nor keys are in order; `sorted` asks the same of a projection that stands
by partition and key. For each function and number of partitions it prints the processor seconds of one answer (the same process without the
query is taken off, for sqlite3 the query's own) and the peak memory of the whole process. sqlite3 has the table in memory.
"""
import os
import shutil
import subprocess
import sys
import tempfile

TOP = os.path.dirname(os.path.dirname(os.path.abspath(__file__)))
VERT = os.environ.get("VERT") or os.path.join(TOP, "crates/vert/out/vert")
PARTS = [("one", 1), ("thousand", 1000), ("many", 200000)]
FUNCTIONS = ["ROW_NUMBER()", "RANK()", "SUM(v)"]


def numbers(rows):
    x = 0
    for _ in range(rows):
        x = (6364136223846793005 * x + 1442695040888963407) % 2**64
        yield x >> 33


def write_rows(path, rows, parts):
    with open(path, "w", encoding="ascii") as it:
        for i, y in enumerate(numbers(rows)):
            it.write(f"{i}|{y % parts}|{y // parts % 1000000}|{y % 97}\n")


def vert(folder, text):
    """Processor seconds and peak megabytes of a run of this script."""
    script = os.path.join(folder, "script.sql")
    with open(script, "w", encoding="ascii") as it:
        it.write(text)
    pid = os.fork()
    if pid == 0:
        os.chdir(folder)
        with open(os.devnull, "w") as none:
            os.dup2(none.fileno(), 1)
            os.execv(VERT, [VERT, os.path.join(folder, "db"), script])
    _, status, used = os.wait4(pid, 0)
    if status:
        sys.exit(f"bench/windows.py: the program ended with {status} at {text[:60]}")
    return used.ru_utime + used.ru_stime, used.ru_maxrss / 1024


def best(folder, text):
    runs = [vert(folder, text) for _ in range(3)]
    return min(r[0] for r in runs), max(r[1] for r in runs)


def sqlite(path, table, query):
    """Processor seconds of the query and peak megabytes of the process that has the table in memory."""
    text = f".mode list\nCREATE TABLE {table} (i INTEGER, p INTEGER, o INTEGER, v INTEGER);\n.import {path} {table}\n.timer on\n{query}\n"
    child = subprocess.Popen(["/usr/bin/env", "sqlite3", ":memory:"], stdin=subprocess.PIPE, stdout=subprocess.PIPE, text=True)
    child.stdin.write(text)
    child.stdin.close()
    said = child.stdout.read()
    _, status, used = os.wait4(child.pid, 0)
    if status:
        sys.exit(f"bench/windows.py: sqlite3 ended with {status}")
    words = [line for line in said.split("\n") if line.startswith("Run Time")][-1].split()
    return float(words[words.index("user") + 1]) + float(words[words.index("sys") + 1]), used.ru_maxrss / 1024


def main(rows):
    folder = tempfile.mkdtemp()
    try:
        print(f"{'partitions':>10} {'function':>13} {'seconds':>8} {'sorted':>7} {'sqlite3':>8} {'ratio':>6} {'MB':>5} {'sqlite3 MB':>10}")
        for table, parts in PARTS:
            write_rows(os.path.join(folder, table), rows, parts)
            vert(folder, f"CREATE TABLE {table} (i INTEGER, p INTEGER, o INTEGER, v INTEGER); COPY {table} FROM '{table}';")
            vert(folder, f"CREATE TABLE {table}_s (p INTEGER, o INTEGER, i INTEGER, v INTEGER);")
            with open(os.path.join(folder, table), encoding="ascii") as it, open(os.path.join(folder, table + "_s"), "w", encoding="ascii") as out:
                for line in it:
                    i, p, o, v = line.rstrip("\n").split("|")
                    out.write(f"{p}|{o}|{i}|{v}\n")
            vert(folder, f"COPY {table}_s FROM '{table}_s';")
            floor, _ = best(folder, f"SELECT i FROM {table} WHERE i < 0;")
            for function in FUNCTIONS:
                query = f"SELECT p, o, {function} OVER (PARTITION BY p ORDER BY o) FROM "
                seconds, peak = best(folder, f"{query}{table} LIMIT 3;")
                in_order, _ = best(folder, f"{query}{table}_s LIMIT 3;")
                other, other_peak = "-", "-"
                if shutil.which("sqlite3"):
                    other, other_peak = sqlite(os.path.join(folder, table), table, f"{query}{table} ORDER BY 1, 2, 3 LIMIT 3;")
                    ratio = f"{(seconds - floor) / other:6.2f}"
                    other, other_peak = f"{other:8.2f}", f"{other_peak:10.0f}"
                else:
                    ratio = "-"
                print(f"{parts:>10} {function:>13} {seconds - floor:8.2f} {in_order - floor:7.2f} {other:>8} {ratio:>6} {peak:5.0f} {other_peak:>10}", flush=True)
    finally:
        shutil.rmtree(folder)


if __name__ == "__main__":
    main(int(sys.argv[1]) if len(sys.argv) > 1 else 1000000)
