"""Measures ft4sh against its own SQL engine over the same rows, and prints a table: engine.py FOLDER PROGRAM DOCUMENTS WORDS.

The table is loaded into a file by .import. A copy of that file's full-text store is then opened by the same program as a plain file, so
that the engine's part stands by itself: its reading of the rows of a term, and its opening of the file, to which the opening of the
table's file is compared, and the statements that look at the whole table after it. Times are processor time, as in measure.py.
"""
import os
import shutil
import sys

from corpus import CREATE, documents, word, write_csv
from measure import ONE, REPEATS, Shell, launcher, median, run

TERM = word(0)
ENGINE = f"SELECT count(list) FROM posting WHERE tab = 1 AND term = '{TERM}';"
QUERIES = [
    ("counted", f"SELECT count(*) FROM mail WHERE mail MATCH '{TERM}';"),
    ("docids", f"SELECT docid FROM mail WHERE mail MATCH '{TERM}';"),
    ("offsets", f"SELECT docid, offsets(mail) FROM mail WHERE mail MATCH '{TERM}';"),
    ("ten rows", f"SELECT docid FROM mail WHERE mail MATCH '{TERM}' LIMIT 10;"),
]


def loaded(program, folder, count, words):
    """Loads the documents, and gives the file, and a copy of its full-text store."""
    path, rows = f"{folder}/engine.db", f"{folder}/rows.db"
    write_csv(f"{folder}/engine.csv", documents(count, words=words))
    shell = Shell(program, path, os.devnull)
    shell.seconds(CREATE + f".import --csv '{folder}/engine.csv' mail")
    shell.end()
    shutil.copy(f"{path}-fts4", rows)
    return path, rows


def answered(program, path, queries):
    """Seconds of each query, the median of some."""
    shell = Shell(program, path, os.devnull)
    shell.seconds("SELECT 1;")
    told = [median([shell.seconds(query) for _ in range(REPEATS)]) for query in queries]
    shell.end()
    return told


def in_turns(program, *runs):
    """Seconds and MiB of runs with one statement, one after the other, three times: the median of each."""
    told = [[run(program, path, query) for path, query in runs] for _ in range(3)]
    return [tuple(median(figures) for figures in zip(*one)) for one in zip(*told)]


def checked(program, path):
    """Seconds of the two statements that look at a whole table, after the opening."""
    shell = Shell(program, path, os.devnull)
    shell.seconds(ONE)
    told = [(name, shell.seconds(f"INSERT INTO mail(mail) VALUES('{name}');")) for name in ("integrity-check", "rebuild")]
    shell.end()
    return told


def main(folder, program, count, words):
    launcher(folder)
    path, rows = loaded(program, folder, int(count), int(words))
    (engine,) = answered(program, rows, [ENGINE])
    ours = answered(program, path, [query for _, query in QUERIES])
    print(f"| {count} documents of {words} words | ft4sh | engine | ratio |\n|---|---|---|---|")
    for (name, _), seconds in zip(QUERIES, ours):
        print(f"| a frequent word, {name}, ms | {1000 * seconds:.3g} | {1000 * engine:.3g} | {seconds / engine:.2g} |")
    ours, engine = in_turns(program, (path, ONE), (rows, "SELECT 1;"))
    for name, one, other in zip(("opening, s", "opening, most memory, MiB"), ours, engine):
        print(f"| {name} | {one:.3g} | {other:.3g} | {one / other:.3g} |")
    for name, seconds in checked(program, path):
        print(f"| {name}, s | {seconds:.3g} | {engine[0]:.3g} | {seconds / engine[0]:.2g} |")


if __name__ == "__main__":
    main(*sys.argv[1:])
