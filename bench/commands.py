"""Times single commands by the program of commands.sh and by sqlite3, and prints two tables: commands.py FOLDER PROGRAM.

sqlite3 is the library of Python's module, with its default settings; each statement is a transaction of its own, and all rows of an
answer are fetched. Times are those of a clock on the wall: around `FullText::execute` and `FullText::new`, and around `execute` and
`fetchall`. The program is given commands that are read already, while sqlite3's time has the reading of its statement in it.
"""
import os
import sqlite3
import statistics
import subprocess
import sys
import time

from corpus import documents
from measure import QUERIES

CREATE = "CREATE VIRTUAL TABLE mail USING fts4(subject, body);"
REPEATS = 5
LOAD = 500  # documents in one INSERT


def insert(rows):
    return "INSERT INTO mail VALUES" + ", ".join(f"('{subject}', '{body}')" for subject, body in rows) + ";"


def statements(count):
    """Pairs of a name and the statements that it is the median of, in the order in which they are run. A name None is not told."""
    rows = list(documents(count + LOAD + REPEATS))
    yield None, [CREATE] + [insert(rows[at : min(at + LOAD, count)]) for at in range(0, count, LOAD)]
    for name, query, _ in QUERIES:
        yield name, [query] * REPEATS
    yield "INSERT of one document", [insert([row]) for row in rows[count : count + REPEATS]]
    yield "UPDATE of one document", [f"UPDATE mail SET subject = 'other words {at}' WHERE docid = {20 + at};" for at in range(REPEATS)]
    yield "DELETE of one document", [f"DELETE FROM mail WHERE docid = {40 + at};" for at in range(REPEATS)]
    yield "INSERT of 500 documents", [insert(rows[count + REPEATS :])]


def ours(program, path, texts):
    """Seconds and numbers of rows by the program, first those of taking the store."""
    given = "\n".join([path, *texts]) + "\n"
    ran = subprocess.run([program], input=given, capture_output=True, text=True, check=True)
    lines = [line.split() for line in ran.stdout.splitlines()]
    return [(int(nanos) / 1e9, int(rows)) for nanos, rows in lines]


def theirs(path, texts):
    begun = time.perf_counter()
    db = sqlite3.connect(path or ":memory:", isolation_level=None)
    db.execute("SELECT name FROM sqlite_schema").fetchall()
    took = [(time.perf_counter() - begun, 0)]
    for text in texts:
        begun = time.perf_counter()
        rows = db.execute(text).fetchall()
        took.append((time.perf_counter() - begun, len(rows)))
    db.close()
    return took


def table(program, ours_at, theirs_at, count):
    steps = list(statements(count))
    texts = [text for _, some in steps for text in some]
    mine, other = ours(program, ours_at, texts), theirs(theirs_at, texts)
    assert [rows for _, rows in mine] == [rows for _, rows in other]
    print("| | ft_index, ms | sqlite3, ms | ratio |\n|---|---|---|---|")
    at = 1
    for name, some in steps:
        pair = [1000 * statistics.median(took for took, _ in side[at : at + len(some)]) for side in (mine, other)]
        at += len(some)
        if name:
            print(f"| {name} | {pair[0]:.3g} | {pair[1]:.3g} | {pair[0] / pair[1]:.2g} |")
    if ours_at:
        pair = [1000 * side[0][0] for side in (ours(program, ours_at, []), theirs(theirs_at, []))]
        print(f"| taking the store, opened already; opening the file | {pair[0]:.3g} | {pair[1]:.3g} | {pair[0] / pair[1]:.2g} |")


def main(folder, program):
    files = [f"{folder}/ours", f"{folder}/theirs"]
    for path in files:
        for end in ("", "-wal", "-shm", "-journal"):
            if os.path.exists(path + end):
                os.remove(path + end)
    print("300 documents in memory:\n")
    table(program, "", "", 300)
    print("\n3,000 documents in a file:\n")
    table(program, *files, 3000)


if __name__ == "__main__":
    main(sys.argv[1], sys.argv[2])
