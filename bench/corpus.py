"""Writes a corpus as inputs of a shell: corpus.py FOLDER drawn|pages DOCUMENTS.

`drawn` is made: the words are those of a vocabulary of 50,000 made words; the word of rank k comes as often as 1 / (k + 1) says. A document
has a subject of 3 to 8 words and a body of 60 to 140. The same numbers give the same corpus at each run. `pages` is what the manual pages of
this machine say: see pages.py.
"""
import bisect
import csv
import itertools
import random
import sys

VOCABULARY = 50_000
ROWS = 500  # in one INSERT of many rows
BYTES = 900_000  # of one such INSERT at most, since a statement may have 1,000,000
SINGLES = 2_000  # documents that are loaded by an INSERT each
CREATE = "CREATE VIRTUAL TABLE mail USING fts4(subject, body);\n"
SYLLABLES = [a + b for a in "bdfghklmnprstvz" for b in ("a", "e", "i", "o", "u", "an", "er", "il", "or", "us")]


def word(rank):
    """The word of a rank: frequent ones are short."""
    text = SYLLABLES[rank % len(SYLLABLES)]
    rank //= len(SYLLABLES)
    while rank:
        text += SYLLABLES[rank % len(SYLLABLES)]
        rank //= len(SYLLABLES)
    return text


def documents(count, seed=1, words=100):
    """Pairs of a subject and a body, which has about so many words."""
    drawn = random.Random(seed)
    vocabulary = [word(rank) for rank in range(VOCABULARY)]
    sums = list(itertools.accumulate(1 / (rank + 1) for rank in range(VOCABULARY)))

    def text(least, most):
        length = least + int(drawn.random() * (most - least + 1))
        return " ".join(vocabulary[bisect.bisect(sums, drawn.random() * sums[-1])] for _ in range(length))

    for _ in range(count):
        yield text(3, 8), text(words * 6 // 10, words * 14 // 10)


def literal(text):
    return "'" + text.replace("'", "''") + "'"


def row(document):
    """The values of a document as they stand in an INSERT."""
    return f"({literal(document[0])}, {literal(document[1])})"


def groups(values):
    """The rows of each INSERT of many."""
    group, size = [], 0
    for value in values:
        bytes_of = len(value.encode()) + 2
        if len(group) == ROWS or size + bytes_of > BYTES:
            yield group
            group, size = [], 0
        group.append(value)
        size += bytes_of
    yield group


def write_csv(path, rows):
    with open(path, "w", newline="", encoding="utf-8") as out:
        csv.writer(out, lineterminator="\n").writerows(rows)


def main(folder, kind, count):
    from pages import documents as pages

    rows = list({"drawn": documents, "pages": pages}[kind](int(count)))
    write_csv(f"{folder}/corpus.csv", rows)
    values = [row(it) for it in rows]
    with open(f"{folder}/singles.sql", "w", encoding="utf-8") as out:
        out.write(CREATE)
        out.writelines(f"INSERT INTO mail VALUES{value};\n" for value in values[:SINGLES])
    with open(f"{folder}/rows.sql", "w", encoding="utf-8") as out:
        out.write(CREATE)
        for group in groups(values):
            out.write("INSERT INTO mail VALUES" + ",\n".join(group) + ";\n")
    with open(f"{folder}/import.sql", "w", encoding="utf-8") as out:
        out.write(CREATE + f".import --csv '{folder}/corpus.csv' mail\n")


if __name__ == "__main__":
    main(*sys.argv[1:])
