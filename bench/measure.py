"""Measures both shells over the inputs that corpus.py wrote, by turns, and prints tables: measure.py PROGRAM SQLITE3 NAME=FOLDER ..

A shell reads its statements from a pipe. To know when it is done with some of them, an unknown dot-command is sent after them: both
shells answer it by a line on standard error. A table has for each corpus what ft4sh takes, and how many times sqlite3's that is. Times are
processor time of the shell, user's and system's. Memory is the most that a shell has: launch.c makes the shell and tells it, since a process
counts in that figure what its parent had.
"""
import csv
import glob
import os
import re
import shutil
import subprocess
import sys
import time

import pages
from corpus import SINGLES, documents, row, word

REPEATS = 5
WRITES = 100
ONE = "SELECT docid FROM mail WHERE docid = 1;"


def of(term):
    return f"term = '{term}'"


def beginning(text):
    return f"term >= '{text}' AND term < '{text[:-1]}{chr(ord(text[-1]) + 1)}'"


def queries(words, frequent, middle, letters):
    """A line's name, its query, and which posting rows it needs from the engine: by words of each rank, two pairs and two letters."""
    of_rank = lambda rank: words[min(rank, len(words) - 1)]
    match = lambda query, items="docid", limit="": f"SELECT {items} FROM mail WHERE mail MATCH '{query}'{limit};"
    quoted = lambda pair: f'"{pair[0]} {pair[1]}"'
    return [
        ("rare word", match(of_rank(20_000)), [of(of_rank(20_000))]),
        ("middle word", match(of_rank(1_000)), [of(of_rank(1_000))]),
        ("frequent word", match(of_rank(0)), [of(of_rank(0))]),
        ("frequent word, counted", match(of_rank(0), "count(*)"), [of(of_rank(0))]),
        ("frequent word, ten rows", match(of_rank(0), limit=" LIMIT 10"), [of(of_rank(0))]),
        ("frequent word, offsets", match(of_rank(20), "docid, offsets(mail)"), [of(of_rank(20))]),
        ("middle word, texts", match(of_rank(1_000), "*"), [of(of_rank(1_000))]),
        ("phrase of frequent words", match(quoted(frequent)), [of(it) for it in frequent]),
        ("phrase of middle words", match(quoted(middle)), [of(it) for it in middle]),
        ("NEAR", match(f"{of_rank(10)} NEAR/5 {of_rank(20)}"), [of(of_rank(10)), of(of_rank(20))]),
        ("prefix of two letters", match(f"{letters}*"), [beginning(letters)]),
        ("prefix, a rare word", match(f"{of_rank(20_000)}*"), [beginning(of_rank(20_000))]),
        ("AND", match(f"{of_rank(5)} {of_rank(50)}"), [of(of_rank(5)), of(of_rank(50))]),
        ("OR", match(f"{of_rank(50)} OR {of_rank(2_000)}"), [of(of_rank(50)), of(of_rank(2_000))]),
        ("NOT", match(f"{of_rank(50)} NOT {of_rank(0)}"), [of(of_rank(50)), of(of_rank(0))]),
        ("column filter", match(f"subject:{of_rank(3)}"), [of(of_rank(3))]),
        ("one document by its docid", "SELECT subject FROM mail WHERE docid = 77;", []),
        ("all documents, counted", "SELECT count(*) FROM mail;", []),
        ("all documents, ten docids", "SELECT docid FROM mail LIMIT 10;", []),
        ("all documents, ten texts after a thousand", "SELECT * FROM mail LIMIT 10 OFFSET 1000;", []),
    ]


# Those of the drawn corpus.
QUERIES = queries([word(rank) for rank in range(20_001)], (word(0), word(1)), (word(100), word(200)), "za")


class Shell:
    """A shell on a file, with its standard output in a file."""

    launch = None  # the built launch.c

    def __init__(self, program, path, output):
        self.output = open(output, "ab")
        read, write = os.pipe()
        how = {"stdin": subprocess.PIPE, "stdout": self.output, "stderr": subprocess.PIPE, "pass_fds": (write,)}
        self.process = subprocess.Popen([self.launch, str(write), program, path], **how)
        os.close(write)
        self.told = os.fdopen(read)
        self.clock = ~int(self.told.readline()) << 3 | 2  # the clock of a process

    def spent(self):
        """Seconds of processor time until now."""
        return time.clock_gettime(self.clock)

    def seconds(self, text):
        """Processor time over these statements."""
        begun = self.spent()
        self.process.stdin.write(text.encode() + b"\n.nosuch\n")
        self.process.stdin.flush()
        line = self.process.stderr.readline()
        if b"unknown" not in line:
            sys.exit(f"{self.process.args[2]}: {line.decode(errors='replace')}")
        return self.spent() - begun

    def end(self):
        """Ends it, and gives the most memory that it had, in MiB."""
        self.process.stdin.close()
        memory = int(self.told.readline()) / 1024
        self.process.wait()
        self.process.stderr.close()
        self.told.close()
        self.output.close()
        return memory


def median(times):
    return sorted(times)[len(times) // 2]


def files(path):
    return glob.glob(f"{path}*")


def launcher(folder):
    """Builds launch.c."""
    Shell.launch = f"{folder}/launch"
    source = os.path.join(os.path.dirname(os.path.abspath(__file__)), "launch.c")
    subprocess.run([os.environ.get("CC", "cc"), "-O1", "-o", Shell.launch, source], check=True)


def run(program, path, text):
    """Processor seconds of a whole run with these statements, but for its end, and the most memory."""
    shell = Shell(program, path, os.devnull)
    shell.seconds(text)
    seconds = shell.spent()
    return seconds, shell.end()


def reads(program, copy, name, tests):
    """Statements that read what a query needs from the engine: the posting rows of its words, and the cells of documents that it tells."""
    told = [f"SELECT count(list) FROM posting WHERE tab = 1 AND {test};" for test in tests]
    if name.endswith("texts"):
        asked = f"SELECT docid FROM posting WHERE tab = 1 AND {tests[0]};\n"
        docids = subprocess.run([program, copy], input=asked, capture_output=True, text=True, check=True).stdout.split()
        told += [f"SELECT count(txt) FROM cell WHERE tab = 1 AND docid = {docid};" for docid in docids]
    return told


class Pair:
    """Both shells over files of one corpus: each thing is done by both, one after the other."""

    def __init__(self, folder, programs):
        self.folder = folder
        self.programs = programs
        self.lines = {}

    def path(self, at, name="mail"):
        return f"{self.folder}/{name}{at}.db"

    def both(self, work):
        return [work(program, at) for at, program in enumerate(self.programs)]

    def tell(self, name, figures):
        """Keeps a line of both, and shows it on standard error."""
        self.lines[name] = figures
        print(name, *(f"{it:.3g}" for it in figures), file=sys.stderr, flush=True)

    def load(self, way, told):
        """Loads the corpus, which makes the files anew."""
        with open(f"{self.folder}/{way}.sql", encoding="utf-8") as given:
            text = given.read()
        for at in range(2):
            for file in files(self.path(at)):
                os.remove(file)
        ran = self.both(lambda program, at: run(program, self.path(at), text))
        self.tell(f"{told}, s", [seconds for seconds, _ in ran])
        self.tell(f"{told}, memory, MiB", [memory for _, memory in ran])

    def open(self):
        """A run with one SELECT of one document, three times."""
        ran = [self.both(lambda program, at: run(program, self.path(at), ONE)) for _ in range(3)]
        self.tell("opening, s", [median([turn[at][0] for turn in ran]) for at in range(2)])
        self.tell("files, MiB", [sum(os.path.getsize(it) for it in files(self.path(at))) / 2**20 for at in range(2)])
        self.tell("opening, memory, MiB", [median([turn[at][1] for turn in ran]) for at in range(2)])

    def ask(self, asked):
        """Each query some times, in two runs that are open together; gives the names of those that were answered differently."""
        outputs = [f"{self.folder}/{at}.out" for at in range(2)]
        shells = self.both(lambda program, at: Shell(program, self.path(at), outputs[at]))
        for shell in shells:
            shell.seconds(ONE)
        for name, query, _ in asked:
            for shell in shells:
                shell.seconds(f".print == {name}")
            turns = [[shell.seconds(query) for shell in shells] for _ in range(REPEATS)]
            self.tell(f"{name}, ms", [1000 * median([turn[at] for turn in turns]) for at in range(2)])
        self.tell("all queries, memory, MiB", [shell.end() for shell in shells])
        told = [answers(output) for output in outputs]
        return [name for name, _, _ in asked if told[0].get(name) != told[1].get(name)]

    def change(self, rows):
        """Single updates, deletes and inserts, and then what takes a whole table, in two runs that are open together."""
        shells = self.both(lambda program, at: Shell(program, self.path(at), os.devnull))
        for shell in shells:
            shell.seconds(ONE)
        for name, text in changes(rows):
            self.tell(f"{name}, s", [shell.seconds(text) for shell in shells])
        self.tell("all changes, memory, MiB", [shell.end() for shell in shells])

    def empty(self, name, text):
        """A statement that takes all documents away, on a copy of the files."""
        for at in range(2):
            for file in files(self.path(at, "copy")):
                os.remove(file)
            for file in files(self.path(at)):
                shutil.copy(file, file.replace("/mail", "/copy"))
        shells = self.both(lambda program, at: Shell(program, self.path(at, "copy"), os.devnull))
        for shell in shells:
            shell.seconds(ONE)
        self.tell(f"{name}, s", [shell.seconds(text) for shell in shells])
        for shell in shells:
            shell.end()


def changes(rows):
    """Names and statements: each kind of change WRITES times, each its own statement, and the special commands."""
    updates = [f"UPDATE mail SET body = {row(it)[1:].split(', ', 1)[1][:-1]} WHERE docid = {7 * at + 1};" for at, it in enumerate(rows[:WRITES])]
    yield f"{WRITES} UPDATEs", "\n".join(updates)
    yield f"{WRITES} DELETEs", "\n".join(f"DELETE FROM mail WHERE docid = {7 * at + 3};" for at in range(WRITES))
    yield f"{WRITES} INSERTs", "\n".join(f"INSERT INTO mail VALUES{row(it)};" for it in rows[WRITES:])
    with_docid = lambda at, it: f"INSERT INTO mail(docid, subject, body) VALUES({1_000_000 + at}, {row(it)[1:]};"
    yield f"{WRITES} INSERTs with a docid", "\n".join(with_docid(at, it) for at, it in enumerate(rows[:WRITES]))
    yield "integrity-check", "INSERT INTO mail(mail) VALUES('integrity-check');"
    yield "rebuild", "INSERT INTO mail(mail) VALUES('rebuild');"


def answers(path):
    """What was answered to each query, by its name."""
    with open(path, encoding="utf-8") as given:
        parts = re.split(r"^== ([\w ,]+)\n", given.read(), flags=re.M)[1:]
    return dict(zip(parts[::2], parts[1::2]))


def asked_of(name, rows):
    """The queries of a corpus."""
    if name == "drawn":
        return QUERIES
    words, pairs = pages.ranks(rows)
    return queries(words, pairs[0], pairs[200], "re")


def measured(name, folder, programs):
    """The lines of one corpus, by their names, and which queries were answered differently."""
    with open(f"{folder}/corpus.csv", newline="", encoding="utf-8") as given:
        rows = list(csv.reader(given))
    pair = Pair(folder, programs)
    pair.load("singles", f"{SINGLES} single INSERTs")
    pair.load("rows", "INSERTs of 500 rows")
    pair.load("import", ".import")
    pair.open()
    differing = pair.ask(asked_of(name, rows))
    pair.change(list(documents(2 * WRITES, seed=2)) if name == "drawn" else rows[-2 * WRITES :])
    pair.empty("DELETE of all documents", "DELETE FROM mail;")
    pair.empty("DROP TABLE", "DROP TABLE mail;")
    words = sum(len(text.split()) for it in rows for text in it)
    print(f"{name}: {len(rows)} documents, {words} words. " + (f"Answers differ: {', '.join(differing)}" if differing else "Answers are the same."))
    return pair.lines, differing


def rounded(number, digits):
    """A number with so many digits."""
    return f"{float(f'{number:.{digits}g}'):,g}"


def main(program, sqlite3, *corpora):
    launcher(corpora[0].split("=", 1)[1])
    told = [measured(*corpus.split("=", 1), (program, sqlite3)) for corpus in corpora]
    for unit in ("s", "ms", "MiB"):
        print(f"\n| {unit} |" + "".join(f" {it.split('=', 1)[0]} | times |" for it in corpora) + "\n|---" + "|---|---" * len(corpora) + "|")
        for name in told[0][0]:
            if name.endswith(f", {unit}"):
                figures = (lines[name] for lines, _ in told)
                print(f"| {name[: -len(unit) - 2]} |" + "".join(f" {rounded(ours, 3)} | {rounded(ours / other, 2)} |" for ours, other in figures), flush=True)
    return 1 if any(differing for _, differing in told) else 0


if __name__ == "__main__":
    sys.exit(main(*sys.argv[1:]))
