#!/usr/bin/env python3
"""Filters on a column of days beside the same filters on a column of numbers, in instructions.

    bench/dates.py [ROWS]             default: 300000
    VERT=PROGRAM bench/dates.py       with a program that is built already

The rows have a day and its number, so that both columns pass the same rows over. Instructions are counted by valgrind (callgrind), since these
repeat to a few in a thousand on a machine that others load, too; those of a run over the same folder that reads no column are taken off.
"""
import os
import re
import shutil
import subprocess
import sys
import tempfile
from datetime import date

TOP = os.path.dirname(os.path.dirname(os.path.abspath(__file__)))
VERT = os.environ.get("VERT") or os.path.join(TOP, "crates/vert/out/vert")
FIRST, DAYS = date(2000, 1, 1).toordinal(), 10000


def day(n):
    return f"DATE '{date.fromordinal(FIRST + n)}'"


def conditions():
    """A condition on the numbers, and the same on the days."""
    for form, places in ("{} = {}", [5000]), ("{} < {}", [380]), ("{} > {}", [8880]), ("{} BETWEEN {} AND {}", [4888, 4898]), ("{} <> {}", [5000]), ("{} IS NULL", []):
        yield form.format("n", *[FIRST + place for place in places]), form.format("day", *[day(place) for place in places])


def numbers(rows):
    x = 0
    for _ in range(rows):
        x = (6364136223846793005 * x + 1442695040888963407) % 2**64
        yield x >> 33


def run(folder, text, counted=False):
    """The lines of a script, and its instructions."""
    with open(os.path.join(folder, "script.sql"), "w", encoding="ascii") as it:
        it.write(text)
    words = [VERT, "db", "script.sql"]
    if counted:
        words = ["valgrind", "--tool=callgrind", "--callgrind-out-file=/dev/null", *words]
    done = subprocess.run(words, cwd=folder, capture_output=True, text=True, check=True)
    found = re.search(r"Collected : (\d+)", done.stderr)
    return done.stdout, int(found.group(1)) if found else 0


def main(rows):
    folder = tempfile.mkdtemp()
    try:
        with open(os.path.join(folder, "days.tbl"), "w", encoding="ascii") as it:
            for i, y in enumerate(numbers(rows)):
                it.write(f"{i}|{FIRST + y % DAYS}|{date.fromordinal(FIRST + y % DAYS)}\n")
        run(folder, "CREATE TABLE days (k INTEGER NOT NULL, n INTEGER, day DATE); COPY days FROM 'days.tbl';")
        _, floor = run(folder, "SELECT GET_CURRENT_EPOCH();", True)
        print(f"{'condition':>55} {'numbers':>12} {'days':>12} {'ratio':>6}   instructions over {rows} rows")
        for on_numbers, on_days in conditions():
            (told, by_number), (same, by_day) = [run(folder, f"SELECT COUNT(*) FROM days WHERE {each};", True) for each in (on_numbers, on_days)]
            if told != same:
                sys.exit(f"bench/dates.py: {on_days} finds other rows than {on_numbers}")
            print(f"{on_days:>55} {by_number - floor:12} {by_day - floor:12} {(by_day - floor) / (by_number - floor):6.2f}", flush=True)
    finally:
        shutil.rmtree(folder)


if __name__ == "__main__":
    main(int(sys.argv[1]) if len(sys.argv) > 1 else 300000)
