"""Puts the figures of a run into README.md and bench/README.md: bench/run PROGRAM SQLITE3 | python3 bench/fill.py.

Standard input is what bench/run prints. The tables of bench/README.md with the same first cell are replaced, and the lines that tell of the
corpora; in README.md the table of some lines, of which the worst comes first.
"""
import os
import re
import sys

TOP = os.path.dirname(os.path.dirname(os.path.abspath(__file__)))
# The lines of README.md, each with what it is called there.
LINES = {
    "opening": "opening",
    "frequent word, ten rows": "ten rows of a frequent word",
    "DROP TABLE": "DROP",
    "opening, memory": "opening, memory",
    "DELETE of all documents": "DELETE of all documents",
    ".import, memory": "import, memory",
    ".import": "import",
    "all changes, memory": "all changes, memory",
    "AND": "AND",
    "files": "files",
    "rare word": "rare word",
    "all documents, counted": "all documents, counted",
}


def tables(text):
    """Each table by its first cell."""
    found = re.findall(r"^\|.*\n(?:\|.*\n)+", text, re.M)
    return {table[1:].split("|")[0].strip(): table for table in found}


def short(printed):
    """The table of README.md: each line with its ratios."""
    rows = [[cell.strip() for cell in row.split("|")[1:-1]] for table in printed.values() for row in table.split("\n")[2:-1]]
    ratios = {name: cells[1::2] for name, *cells in rows}
    told = [(LINES[name], ratios[name]) for name in LINES]
    told.sort(key=lambda it: -max(float(cell.replace(",", "")) for cell in it[1]))
    return "| times sqlite3's | random | pages |\n|---|---|---|\n" + "".join(f"| {name} | {' | '.join(cells)} |\n" for name, cells in told)


def put(path, wanted, lines=()):
    """Replaces the tables of a page by their first cells, and lines by their first words."""
    with open(path, encoding="utf-8") as given:
        text = given.read()
    for cell, table in tables(text).items():
        text = text.replace(table, wanted.get(cell, table))
    for line in lines:
        text = re.sub(rf"^{line.split(':')[0]}: .*$", line, text, flags=re.M)
    with open(path, "w", encoding="utf-8") as out:
        out.write(text)


def main():
    printed = sys.stdin.read()
    found = tables(printed)
    put(f"{TOP}/bench/README.md", found, re.findall(r"^\w+: \d+ documents.*$", printed, re.M))
    put(f"{TOP}/README.md", {"times sqlite3's": short(found)})


if __name__ == "__main__":
    main()
