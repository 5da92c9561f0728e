#!/usr/bin/env python3
"""What the store costs beside what a statement touches: many tables, commits beside rows in memory, small durable transactions, and years in small.

    bench/store.py [PART ..]                  parts: tables settled commits durable years catchup; default: all
    VERT=PROGRAM BUDDY=PROGRAM bench/store.py with programs that are built already

tables: N tables created, filled with one row each and ended; seconds of processor time and how they grow with a doubling.
settled: over a folder of 400 tables, one INSERT with its COMMIT and the end: how often a file is synced and the folder listed.
commits: a COMMIT of one row beside rows in memory, of the same table and of another one.
durable: 200 transactions of one row, each on disk before the next, beside sqlite3's over a file with the same promise.
years: 2,000 commits of 50 rows, a tenth of them deleted, with two steps of the mover behind each statement: containers, and one row by its key.
catchup: a copy of 1,000,000 rows brought forward by 1,000 epochs of 100 rows, beside the run that made them.
sqlite3 is left out where it isn't installed.
"""
import os
import re
import shutil
import sqlite3
import subprocess
import sys
import tempfile

TOP = os.path.dirname(os.path.dirname(os.path.abspath(__file__)))
VERT = os.environ.get("VERT") or os.path.join(TOP, "crates/vert/out/vert")
BUDDY = os.environ.get("BUDDY") or os.path.join(TOP, "crates/buddy/out/buddy")


def script(folder, name, text):
    with open(os.path.join(folder, name), "w") as file:
        file.write(text)
    return name


def measured(folder, *words, program=None):
    """Processor seconds and peak megabytes of a program (vert) with these words, run in the folder."""
    program = program or VERT
    pid = os.fork()
    if pid == 0:
        os.chdir(folder)
        with open("printed", "w") as out:
            os.dup2(out.fileno(), 1)
            os.execv(program, [program, *words])
    _, status, used = os.wait4(pid, 0)
    if status:
        sys.exit(f"bench/store.py: the program ended with {status} at {words}")
    return used.ru_utime + used.ru_stime, used.ru_maxrss / 1024


def smallest(times, folder, *words):
    return min(measured(folder, *words)[0] for _ in range(times))


def smallest_afresh(times, folder, name, *words):
    """The same, each time over a folder that isn't there."""
    all_seconds = []
    for _ in range(times):
        shutil.rmtree(os.path.join(folder, name), ignore_errors=True)
        all_seconds.append(measured(folder, name, *words)[0])
    return min(all_seconds)


def in_sqlite(folder, work):
    """Processor seconds of some work over a database file whose commits are on disk when they return."""
    pid = os.fork()
    if pid == 0:
        base = sqlite3.connect(os.path.join(folder, "base"), isolation_level=None)
        base.execute("PRAGMA journal_mode = DELETE")
        base.execute("PRAGMA synchronous = FULL")
        work(base)
        base.close()
        os._exit(0)
    _, status, used = os.wait4(pid, 0)
    return used.ru_utime + used.ru_stime


def filled(tables):
    return "".join(f"CREATE TABLE t{i} (a INTEGER, b VARCHAR(10)); INSERT INTO t{i} VALUES ({i}, 'x'); COMMIT;\n" for i in range(tables))


def tables(folder):
    print("tables created, filled and ended")
    before = None
    for count in (100, 200, 400, 800):
        name = script(folder, f"tables{count}.sql", filled(count))
        shutil.rmtree(os.path.join(folder, f"tables{count}"), ignore_errors=True)
        seconds, memory = measured(folder, f"tables{count}", name)

        def work(base, count=count):
            for i in range(count):
                base.execute(f"CREATE TABLE t{i} (a INTEGER, b TEXT)")
                base.execute(f"INSERT INTO t{i} VALUES ({i}, 'x')")

        beside = os.path.join(folder, f"sqlite{count}")
        os.makedirs(beside, exist_ok=True)
        other = in_sqlite(beside, work)
        growth = "" if before is None else f"   {seconds / before:.2f} times those of half as many"
        print(f"  {count:5} tables   {seconds:7.2f} s   {memory:5.0f} MB   sqlite3 {other:6.2f} s{growth}")
        before = seconds


def settled(folder):
    print("one INSERT, COMMIT and the end over 400 tables")
    if not shutil.which("strace"):
        print("  strace isn't installed")
        return
    name = script(folder, "tables400.sql", filled(400))
    if not os.path.isdir(os.path.join(folder, "tables400")):
        measured(folder, "tables400", name)
    files = len(os.listdir(os.path.join(folder, "tables400")))
    script(folder, "one.sql", "INSERT INTO t7 VALUES (1, 'y'); COMMIT;")
    words = ["strace", "-f", "-o", "calls", "-e", "trace=fsync,fdatasync,getdents64,unlink", VERT, "tables400", "one.sql"]
    subprocess.run(words, cwd=folder, stdout=subprocess.DEVNULL, check=True)
    calls = open(os.path.join(folder, "calls")).read()
    syncs = len(re.findall(r"\b(?:fsync|fdatasync)\(", calls))
    # a listing ends with the call that tells no more names
    listings = len(re.findall(r"\bgetdents64\(.* = 0$", calls, re.M))
    written = len(os.listdir(os.path.join(folder, "tables400"))) - files
    print(f"  {files} files before, {written} more behind   {syncs} syncs   {listings} listings   {calls.count('unlink(')} removals")


def commits(folder):
    print("a COMMIT of one row beside rows in memory")
    columns = "(a INTEGER NOT NULL, b INTEGER)"
    rows = 1_000_000
    with open(os.path.join(folder, "rows.tbl"), "w") as file:
        for i in range(rows):
            file.write(f"{i}|{i * 7 % 1000}\n")
    with open(os.path.join(folder, "part.tbl"), "w") as file:
        for i in range(100_000):
            file.write(f"{i}|{i * 7 % 1000}\n")
    for load, said in ((None, 0), ("part.tbl", 100_000), ("rows.tbl", rows)):
        copied = f"COPY t FROM '{load}';" if load else ""
        start = f"CREATE TABLE t {columns}; CREATE TABLE u {columns}; {copied}\n"
        seconds = {}
        for table in ("t", "u"):
            each = {}
            for many in (0, 1000):
                name = script(folder, "commits.sql", start + f"INSERT INTO {table} VALUES (1, 2); COMMIT;\n" * many)
                each[many] = smallest_afresh(3, folder, "commits", "--halt", name)
            seconds[table] = (each[1000] - each[0]) / 1000
        print(f"  {said:9} rows   the same table {seconds['t'] * 1e6:8.1f} us   another table {seconds['u'] * 1e6:8.1f} us")


def durable(folder):
    print("200 durable transactions of one row")
    text = "CREATE TABLE t (a INTEGER NOT NULL, b VARCHAR(10));\n"
    text += "".join(f"INSERT INTO t VALUES ({i}, 'x'); COMMIT; SELECT DO_TM_TASK('moveout');\n" for i in range(200))
    name = script(folder, "durable.sql", text)
    shutil.rmtree(os.path.join(folder, "durable"), ignore_errors=True)
    seconds, _ = measured(folder, "durable", name)
    shutil.rmtree(os.path.join(folder, "durable"), ignore_errors=True)
    merged, _ = measured(folder, "durable", "--mover", "2", name)

    def work(base):
        base.execute("CREATE TABLE t (a INTEGER NOT NULL, b TEXT)")
        for i in range(200):
            base.execute("BEGIN")
            base.execute(f"INSERT INTO t VALUES ({i}, 'x')")
            base.execute("COMMIT")

    beside = os.path.join(folder, "durable-sqlite")
    os.makedirs(beside, exist_ok=True)
    other = in_sqlite(beside, work)
    print(f"  {seconds:.3f} s   with --mover 2 {merged:.3f} s   sqlite3 {other:.3f} s   {seconds / other:.1f} times")


def containers_of(folder, name):
    shown = subprocess.run([os.path.join(TOP, "bin/vert-show"), name], cwd=folder, capture_output=True, text=True)
    return len(re.findall(r"^\s*container\b", shown.stdout, re.M))


def years(folder):
    print("years in small: 2,000 commits of 50 rows, a tenth deleted, --mover 2")
    shutil.rmtree(os.path.join(folder, "years"), ignore_errors=True)
    key = 0
    for part in range(4):
        text = "CREATE TABLE t (a INTEGER NOT NULL, b INTEGER);\n" if part == 0 else ""
        for _ in range(500):
            text += "INSERT INTO t VALUES " + ", ".join(f"({key + i}, {(key + i) % 97})" for i in range(50)) + "; COMMIT;\n"
            key += 50
            text += f"DELETE FROM t WHERE a >= {key - 50} AND a < {key - 45}; COMMIT;\n"
        name = script(folder, "years.sql", text)
        seconds, memory = measured(folder, "years", "--mover", "2", name)
        asked = script(folder, "point.sql", "SELECT b FROM t WHERE a = 77777;\n" * 1000)
        none = script(folder, "none.sql", "SELECT GET_CURRENT_EPOCH();\n")
        point = (smallest(3, folder, "years", asked) - smallest(3, folder, "years", none)) / 1000
        print(f"  {(part + 1) * 500:5} commits   {seconds:6.2f} s   {memory:4.0f} MB   {containers_of(folder, 'years'):4} containers   one row by its key {point * 1e6:7.1f} us")


def catchup(folder):
    print("1,000,000 rows brought forward by 1,000 epochs of 100 rows")
    with open(os.path.join(folder, "rows.tbl"), "w") as file:
        for i in range(1_000_000):
            file.write(f"{i}|{i * 7 % 1000}\n")
    name = script(folder, "make.sql", "CREATE TABLE t (a INTEGER NOT NULL, b INTEGER); COPY t FROM 'rows.tbl';")
    measured(folder, "ahead", name)
    shutil.copytree(os.path.join(folder, "ahead"), os.path.join(folder, "behind"))
    rows = [", ".join(f"({1_000_000 + 100 * e + i}, {i})" for i in range(100)) for e in range(1000)]
    name = script(folder, "more.sql", "\n".join(f"INSERT INTO t VALUES {each}; COMMIT;" for each in rows))
    seconds, memory = measured(folder, "ahead", name)
    other, most = measured(folder, "behind", "ahead", program=BUDDY)
    print(f"  the statements {seconds:.2f} s, {memory:.0f} MB   the catch-up {other:.2f} s, {most:.0f} MB   {other / seconds:.1f} times")


PARTS = {"tables": tables, "settled": settled, "commits": commits, "durable": durable, "years": years, "catchup": catchup}


def main(words):
    wrong = [word for word in words if word not in PARTS]
    if wrong:
        sys.exit(__doc__)
    with tempfile.TemporaryDirectory() as folder:
        for part in words or PARTS:
            PARTS[part](folder)


main(sys.argv[1:])
