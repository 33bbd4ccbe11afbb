"""Times the program of store.sh and sqlite3 over the same posting rows, and prints a table: rows.py FOLDER PROGRAM.

sqlite3 is the library of Python's module. It has a table of the store's own form, which the program made, and does its rows by the
store's statements, each prepared once, with a log that is synced at each commit, as the store has it. Times are those of a clock on
the wall, around the calls alone; each is the median of three runs.
"""
import os
import sqlite3
import statistics
import subprocess
import sys
import time

ROWS = 100_000
CHANGES = 625  # of 160 rows each
INSERT = "INSERT INTO posting (tab, term, docid, list) VALUES (?1, ?2, ?3, ?4)"
DELETE = "DELETE FROM posting WHERE tab = ?1 AND term = ?2 AND docid = ?3"
TERM = "SELECT term, docid, list FROM posting WHERE tab = 1 AND term = 'a' ORDER BY tab, term, docid"
PREFIX = "SELECT term, docid, list FROM posting WHERE tab = 1 AND term >= 'b1' AND term < 'b2' ORDER BY tab, term, docid"


def row(number):
    """A row by its number in key order, as the program has it."""
    term, docid = ("a", number) if number < 10_000 else (f"b{number // 10}", number % 10)
    return 1, term, docid, bytes([0, 5, 30, 5])


def seconds(call):
    begun = time.perf_counter()
    found = call()
    return time.perf_counter() - begun, found


def told(program, path, changes):
    """What the program tells of a run: seconds and rows of each step."""
    ran = subprocess.run([program], input=f"{path}\n{changes}\n", capture_output=True, text=True, check=True)
    lines = [line.split() for line in ran.stdout.splitlines()]
    return [(int(nanos) / 1e9, int(rows)) for nanos, rows in lines]


def opened(path):
    db = sqlite3.connect(path, isolation_level=None)
    db.execute("PRAGMA journal_mode=WAL")
    db.execute("PRAGMA synchronous=FULL")
    db.execute("SELECT version FROM meta").fetchall()
    return db


def filled(path, changes):
    """How long sqlite3 takes to replace no rows by these in so many transactions."""
    db, took = opened(path), 0.0
    for first in range(changes):
        rows = [row(number) for number in range(first, ROWS, changes)]

        def change():
            db.execute("BEGIN")
            db.executemany(DELETE, [found[:3] for found in rows])
            db.executemany(INSERT, rows)
            db.execute("COMMIT")

        took += seconds(change)[0]
    db.close()
    return took


def empty(path):
    for end in ("", "-wal", "-shm"):
        if os.path.exists(path + end):
            os.remove(path + end)


def ours(program, path):
    """Seconds of each step by the program."""
    empty(path)
    one = told(program, path, 1)[1][0]
    empty(path)
    many = told(program, path, CHANGES)[1][0]
    opening, term, prefix = told(program, path, 0)
    assert term[1] == prefix[1] == 10_000
    return [one, many, term[0], prefix[0], opening[0]]


def theirs(program, path):
    """The same by sqlite3, in a store that the program made."""
    took = []
    for changes in (1, CHANGES):
        empty(path)
        told(program, path, 0)
        took.append(filled(path, changes))
    opening, db = seconds(lambda: opened(path))
    for query in (TERM, PREFIX):
        read, found = seconds(lambda: db.execute(query).fetchall())
        assert len(found) == 10_000
        took.append(read)
    db.close()
    return [*took, opening]


def main(folder, program):
    steps = ["10^5 rows in one change, s", "10^5 rows in changes of 160, s", "10^4 rows of one term, s", "10^4 rows of a prefix, s", "open, s"]
    found = [(ours(program, f"{folder}/ours"), theirs(program, f"{folder}/theirs")) for _ in range(3)]
    print("| | ft_store | sqlite3 | ratio |\n|---|---|---|---|")
    for at, step in enumerate(steps):
        mine, other = (statistics.median(run[side][at] for run in found) for side in (0, 1))
        print(f"| {step} | {mine:.3g} | {other:.3g} | {mine / other:.2g} |")


if __name__ == "__main__":
    main(sys.argv[1], sys.argv[2])
