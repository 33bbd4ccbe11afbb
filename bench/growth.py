"""Tells which commands take more than in proportion to their size: growth.py PROGRAM.

Each command is run at three sizes, each twice the one before, and the instructions are counted (`valgrind --tool=callgrind`), less those of a
run that only makes what the command needs. A line has the size, the millions of instructions at the three sizes, and both factors. The
status is 1 where a factor is over 2.3. It needs valgrind.
"""
import concurrent.futures
import os
import re
import subprocess
import sys
import tempfile

MOST = 2.3
CREATE = "CREATE VIRTUAL TABLE d USING fts4(x, y);"
WORDS = [f"w{(it * it) % 97}" for it in range(200)]


def text(size, first=0):
    """So many words, out of some hundred."""
    return " ".join(WORDS[(first + it) % len(WORDS)] for it in range(size))


def row(number):
    return f"('a {text(20, number)}', 'b a {number}')"


def rows(size):
    """A statement that inserts so many documents."""
    return f"INSERT INTO d VALUES{','.join(map(row, range(size)))};"


def names(size):
    return [f"c{it}" for it in range(size)]


def match(query, items="docid"):
    return f"SELECT {items} FROM d WHERE d MATCH '{query}';"


def joined(operator):
    """A query of so many phrases without terms over 20 documents."""
    return lambda size: ([CREATE, rows(20)], [match("a" + f'{operator}""' * size)])


def nested(depth):
    """A query of so many parentheses in one another, each with as many phrases without terms, over 20 documents."""
    return [CREATE, rows(20)], [match(("a" + '""' * 140 + " (") * depth + "a" + ")" * depth)]


def over(command):
    """A command over so many documents."""
    return lambda size: ([CREATE, rows(size)], [command])


def of_words(query):
    """A query with its offsets in a document of so many words, of which each other one is `a`."""
    return lambda size: ([CREATE, f"INSERT INTO d VALUES('{'a b ' * (size // 2)}', NULL);"], [match(query, "docid, offsets(d)")])


# For each command its least size, and what is run before it and what it is.
COMMANDS = {
    "MATCH of pairs of quotes": (600, joined("")),
    "MATCH of OR and pairs of quotes": (400, joined(" OR ")),
    "MATCH of NOT and pairs of quotes": (350, joined(" NOT ")),
    "MATCH of NEAR and pairs of quotes": (300, joined(" NEAR ")),
    "MATCH of pairs of quotes in 32 parentheses": (600, lambda size: ([CREATE, rows(20)], [match("a (" * 32 + 'a""' + '""' * size + ")" * 32)])),
    "MATCH of 140 pairs of quotes in each parenthesis, by its depth": (8, nested),
    "NEAR in one document, by its words": (2000, of_words("a NEAR/3 b NEAR/3 a NEAR/2 b")),
    "a phrase in one document, by its words": (2000, of_words('"a b a"')),
    "MATCH of a word, docids": (200, over(match("a"))),
    "MATCH of a word, offsets": (200, over(match("a", "docid, offsets(d)"))),
    "MATCH of a word, texts": (200, over(match("a", "*"))),
    "SELECT of all documents": (200, over("SELECT * FROM d;")),
    "INSERT, by its rows": (100, lambda size: ([CREATE], [rows(size)])),
    "INSERT, by the words of one row": (2000, lambda size: ([CREATE], [f"INSERT INTO d VALUES('{text(size)}', NULL);"])),
    "UPDATE, by its documents": (100, over("UPDATE d SET y = 'c';")),
    "DELETE, by its documents": (100, over("DELETE FROM d;")),
    "integrity-check": (100, over("INSERT INTO d(d) VALUES('integrity-check');")),
    "rebuild": (100, over("INSERT INTO d(d) VALUES('rebuild');")),
    "CREATE, by its columns": (2000, lambda size: ([], [f"CREATE VIRTUAL TABLE d USING fts4({','.join(names(size))});"])),
    "INSERT, by its columns": (2000, lambda size: ([CREATE], [f"INSERT INTO d({','.join(names(size))}) VALUES(1);"])),
    "UPDATE, by its columns": (2000, lambda size: ([CREATE], [f"UPDATE d SET {','.join(it + ' = 1' for it in names(size))};"])),
}


def instructions(program, lines, words=()):
    """The instructions of a run, which may refuse a command."""
    ran = ["valgrind", "--tool=callgrind", "--callgrind-out-file=/dev/null", program, *words]
    told = subprocess.run(ran, input="".join(f"{it}\n" for it in lines), capture_output=True, text=True).stderr
    return int(re.search(r"Collected : (\d+)", told)[1])


def command_of(program, size, made):
    before, command = made(size)
    return instructions(program, before + command) - instructions(program, before)


def opening(program, size):
    """The opening of a FILE of so many documents."""
    with tempfile.TemporaryDirectory() as room:
        path = f"{room}/d.db"
        subprocess.run([program, path], input=f"{CREATE}\n{rows(size)}\n", text=True, check=True)
        return instructions(program, [], [path]) - instructions(program, [])


def importing(program, size):
    """An import of so many lines."""
    with tempfile.TemporaryDirectory() as room:
        with open(f"{room}/d.csv", "w") as file:
            file.writelines(f"a {text(20, it)},b a {it}\n" for it in range(size))
        return instructions(program, [CREATE, ".mode csv", f".import {room}/d.csv d"]) - instructions(program, [CREATE, ".mode csv"])


def main(program):
    runs = {name: (size, lambda size, made=made: command_of(program, size, made)) for name, (size, made) in COMMANDS.items()}
    runs["opening of a FILE, by its documents"] = 100, lambda size: opening(program, size)
    runs[".import, by its lines"] = 100, lambda size: importing(program, size)
    with concurrent.futures.ThreadPoolExecutor(os.cpu_count()) as pool:
        counted = {name: (size, [pool.submit(run, size << it) for it in range(3)]) for name, (size, run) in runs.items()}
        print("| command | size | millions of instructions | twice | four times | factors |\n|---|---|---|---|---|---|")
        worse = []
        for name, (size, those) in counted.items():
            one, two, four = (it.result() for it in those)
            factors = two / one, four / two
            if max(factors) > MOST:
                worse.append(name)
            print(f"| {name} | {size} | {one / 1e6:.3g} | {two / 1e6:.3g} | {four / 1e6:.3g} | {factors[0]:.2f}, {factors[1]:.2f} |", flush=True)
    print(f"{len(worse)} of {len(runs)} grow by more than {MOST} where their size is twice{': ' if worse else ''}{', '.join(worse)}")
    return 1 if worse else 0


if __name__ == "__main__":
    sys.exit(main(os.path.abspath(sys.argv[1])))
