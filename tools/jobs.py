#!/usr/bin/env python3
"""Writes tests/jobs.sql, tests/jobs.out and tests/load_files/jobs.tbl: mergeouts, purges and refreshes between inserts, deletes, updates, moveouts, marks and added columns, over a table with
projections made before and behind its rows, and queries of the newest and of every earlier epoch that the mark leaves, with the lines that sqlite3 gives.

Two columns there hold the epochs in which a row came and went: no job changes what a query at an epoch from the ancient history mark on prints. Run it
in the repository's folder; the files are kept, so that the check needs no sqlite3.
"""
import random

from columns import ADDED, Table

SEED = 20241129


def main():
    chance = random.Random(SEED)
    t = Table(chance)
    t.sql[0] = "-- Mergeouts, purges and refreshes, and the past behind them, with what sqlite3 answers (tools/jobs.py)."
    mark, added, stale = 0, list(ADDED[:4]), 0
    t.say("CREATE TABLE parts (k INTEGER NOT NULL, s VARCHAR(6))", "CREATE TABLE")
    t.say("CREATE PROJECTION parts_by_s (s ENCODING RLE, k ENCODING DELTAVAL) AS SELECT s, k FROM parts ORDER BY s, k", "CREATE PROJECTION")
    t.load(2600, "jobs")

    def moveout():
        t.say("SELECT DO_TM_TASK('moveout')", "MOVEOUT")
        t.say("SELECT GET_LAST_GOOD_EPOCH()", f"LGE {t.epoch}")

    def rounds(count):
        """So many small containers, each of a commit of its own."""
        for _ in range(count):
            chance.choice([t.insert, t.insert, t.change])()
            moveout()

    def ask(count):
        for _ in range(count):
            t.ask(chance.choice([None, chance.randint(mark, t.epoch) if t.epoch > 0 else None]))

    for turn in range(12):
        rounds(chance.randint(2, 5))
        if turn % 3 == 1:
            t.say("SELECT DO_TM_TASK('mergeout')", "MERGEOUT")
        if turn % 4 == 2:
            name = f"parts_{stale}"
            stale += 1
            t.say(f"CREATE PROJECTION {name} (k) AS SELECT k FROM parts ORDER BY k", "CREATE PROJECTION")
            t.say("EXPLAIN SELECT k FROM parts", "SCAN parts parts_by_s" if stale == 1 else f"SCAN parts parts_0")
            t.change()
            t.say("SELECT REFRESH('parts')", "REFRESH")
            t.say("EXPLAIN SELECT k FROM parts", "SCAN parts parts_0")
        ask(4)
        if turn % 3 == 2:
            t.insert()
            t.change()
            t.say("SELECT DO_TM_TASK('moveout')", "MOVEOUT")
            mark = chance.randint(mark, t.epoch)
            t.say(f"SELECT SET_AHM_EPOCH({mark})", f"AHM {mark}")
            if mark:
                t.say(f"AT EPOCH {mark - 1} SELECT k FROM parts", f"ERROR 13 EpochTooOld {mark - 1} {mark}")
            t.insert()
            t.say("SELECT PURGE_TABLE('parts')", "PURGE")
            ask(4)
            t.say("SELECT PURGE_TABLE('parts')", "PURGE")
        if turn % 4 == 3 and added:
            t.add(added.pop(0))
            ask(3)
        if turn % 5 == 4:
            t.change()
            t.say("SELECT DO_TM_TASK('mergeout')", "MERGEOUT")
            t.say("SELECT DO_TM_TASK('mergeout')", "MERGEOUT")
            ask(3)
    t.say("SELECT PURGE_TABLE('nowhere')", "ERROR 2 UnknownTable nowhere")
    t.say("SELECT REFRESH('parts_by_s')", "ERROR 2 UnknownTable parts_by_s")
    t.say("SELECT REFRESH('parts')", "REFRESH")
    for epoch in range(mark, t.epoch + 1):
        t.ask(epoch)
        t.ask(epoch)
    t.say("DELETE FROM parts", f"DELETE {t.db.execute('SELECT COUNT(*) FROM parts WHERE ' + t.alive(t.epoch)).fetchone()[0]}")
    t.db.execute(f"UPDATE parts SET del = {t.epoch + 1} WHERE {t.alive(t.epoch)}")
    t.closes(None)
    t.say("SELECT DO_TM_TASK('moveout')", "MOVEOUT")
    t.say("SELECT MAKE_AHM_NOW()", f"AHM {t.epoch}")
    t.say("SELECT PURGE_TABLE('parts')", "PURGE")
    t.say("SELECT k FROM parts", "(0 rows)")
    t.insert()
    t.ask()
    for name, lines in (("sql", t.sql), ("out", t.out)):
        with open(f"tests/jobs.{name}", "w", encoding="utf-8") as it:
            it.write("\n".join(lines) + "\n")
    print(len(t.sql) - 1, "statements")


if __name__ == "__main__":
    main()
