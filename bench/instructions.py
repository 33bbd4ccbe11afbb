"""Counts the instructions of queries and of single changes, which no other work on the machine makes more: instructions.py PROGRAM [DOCUMENTS].

For each query of measure.py, over a table of the corpus in a file: what the program takes for it, the engine's part, and the ratio. The engine's
part is what the program takes to count the posting rows of the query's words, and to read the documents that it tells, in a copy of the full-text
store opened as a plain file. The same for 64 words that OR joins, of which the first alone is frequent, flat and in 31 parentheses. For a single
UPDATE, DELETE and INSERT what each takes, on the mean of WRITES of them. The status is 1 where the parentheses take over MOST times the flat
words. It needs valgrind.
"""
import concurrent.futures
import os
import re
import shutil
import subprocess
import sys
import tempfile

import corpus
from measure import QUERIES, of, reads

TIMES = 20  # runs of one query
WRITES = 50
MOST = 1.2
WORDS = [corpus.word(0), *(f"none{it}" for it in range(1, 64))]
FLAT, NESTED = "64 words, flat", "64 words, nested"


def instructions(program, room, path, lines):
    """The instructions of a run over a copy of the files of a path."""
    with tempfile.TemporaryDirectory(dir=room) as own:
        for file in (path, f"{path}-fts4"):
            if os.path.exists(file):
                shutil.copy(file, f"{own}/{os.path.basename(file)}")
        words = ["valgrind", "--tool=callgrind", "--callgrind-out-file=/dev/null", program, f"{own}/{os.path.basename(path)}"]
        ran = subprocess.run(words, input="".join(f"{it}\n" for it in lines), capture_output=True, text=True)
    if re.search(r"Error: ", ran.stderr):
        sys.exit(ran.stderr)
    return int(re.search(r"Collected : (\d+)", ran.stderr)[1])


def joined():
    """The same words joined by OR, flat and with each pair in a parenthesis of the pair before it."""
    pairs = [" OR ".join(WORDS[it : it + 2]) for it in range(0, len(WORDS), 2)]
    match = lambda text: f"SELECT docid FROM mail WHERE mail MATCH '{text}';"
    texts = {FLAT: " OR ".join(pairs), NESTED: " OR (".join(pairs) + ")" * (len(pairs) - 1)}
    return [(name, match(text), [of(it) for it in WORDS]) for name, text in texts.items()]


def changes(rows):
    """Single statements of each kind."""
    return {
        "UPDATE": [f"UPDATE mail SET body = '{body}' WHERE docid = {2 * at + 1};" for at, (_, body) in enumerate(rows[:WRITES])],
        "DELETE": [f"DELETE FROM mail WHERE docid = {2 * at + 1};" for at in range(WRITES)],
        "INSERT": [f"INSERT INTO mail VALUES('{subject}', '{body}');" for subject, body in rows[:WRITES]],
    }


def main(program, count=300):
    rows = list(corpus.documents(count))
    with tempfile.TemporaryDirectory() as room, concurrent.futures.ThreadPoolExecutor(2) as pool:
        path, plain = f"{room}/mail.db", f"{room}/rows.db"
        text = corpus.CREATE + "INSERT INTO mail VALUES" + ",".join(f"('{subject}','{body}')" for subject, body in rows) + ";\n"
        subprocess.run([program, path], input=text, text=True, check=True)
        shutil.copy(f"{path}-fts4", plain)
        queries = QUERIES + joined()
        needed = {name: reads(program, plain, name, tests) for name, _, tests in queries}
        counted = lambda path, lines: pool.submit(instructions, program, room, path, lines)
        nothing = {it: counted(it, []) for it in (path, plain)}
        told = {}
        for name, query, _ in queries:
            counts = needed[name]
            told[name] = counted(path, [query] * TIMES), counted(plain, counts * TIMES) if counts else None
        made = {name: counted(path, lines) for name, lines in changes(rows).items()}
        less = lambda it, path, times: (it.result() - nothing[path].result()) // times
        print(f"| {count} documents, thousands of instructions | ft4sh | engine's part | ratio |\n|---|---|---|---|")
        for name, (own, engine) in told.items():
            mine, rest = less(own, path, TIMES), less(engine, plain, TIMES) if engine else None
            print(f"| {name} | {mine / 1000:.3g} | {rest / 1000:.3g} | {mine / rest:.2g} |" if rest else f"| {name} | {mine / 1000:.3g} |  |  |")
        for name, it in made.items():
            print(f"| {name} | {less(it, path, WRITES) / 1000:.3g} |  |  |")
        times = less(told[NESTED][0], path, TIMES) / less(told[FLAT][0], path, TIMES)
    print(f"nested words take {times:.3g} times the flat ones")
    return 1 if times > MOST else 0


if __name__ == "__main__":
    sys.exit(main(os.path.abspath(sys.argv[1]), *map(int, sys.argv[2:])))
