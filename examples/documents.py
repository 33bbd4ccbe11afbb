"""Moves documents in and out of full-text tables of ft4sh, with every byte of them: what from_sqlite3, to_sqlite3 and recover stand on.

Documents are loaded by one run of the program, by rising docid. They go by INSERTs of hundreds of rows, and where a document has a text with a
carriage return and a line feed, which an input would end a line by, or is longer than a statement may be, by a CSV file, in which NULL and
numbers are put right afterwards. At the end what the table holds is compared with what was to be loaded.
"""
import collections
import contextlib
import itertools
import os
import shutil
import sqlite3
import subprocess
import sys
import tempfile

# Most bytes of a text, of a statement that is written here, and of a file that is imported; and most rows of a statement.
TEXT, STATEMENT, FILE, ROWS = 1_000_000, 900_000, 60_000_000, 500
LEAST = -(2**63)

# A table with its columns, those of them that are not indexed, and a call that gives its documents by rising docid: (docid, values).
Table = collections.namedtuple("Table", "name columns unindexed documents")


class Refused(Exception):
    """What can't be done, in a line."""


def name_in_sql(name):
    return '"' + name.replace('"', '""') + '"'


def word(text):
    """A word of a dot-command."""
    return '"' + text.replace("\\", "\\\\").replace('"', '\\"') + '"'


def literal(value):
    return "NULL" if value is None else str(value) if isinstance(value, int) else "'" + value.replace("'", "''") + "'"


def field(value):
    return '"' + ("" if value is None else str(value)).replace('"', '""') + '"'


def tested(table, docid, values):
    """The values, of which each can stand in a full-text table."""
    for column, value in zip(table.columns, values):
        if not (value is None or isinstance(value, (int, str))):
            raise Refused(f"{table.name}, docid {docid}, column {column}: {type(value).__name__} values can't be kept")
        if isinstance(value, str) and ("\0" in value or len(value.encode()) > TEXT):
            raise Refused(f"{table.name}, docid {docid}, column {column}: the text has U+0000 or over {TEXT:,} bytes")
    return values


class Script:
    """The lines that load a table, and the files that they import, in a folder."""

    def __init__(self, folder, table):
        self.folder, self.table, self.name, self.last, self.files = folder, table, name_in_sql(table.name), None, 0
        self.rows, self.size, self.run = [], 0, []

    def lines(self):
        unindexed = [f"notindexed={name_in_sql(it)}" for it in self.table.unindexed]
        yield f"CREATE VIRTUAL TABLE {self.name} USING fts4({', '.join([*map(name_in_sql, self.table.columns), *unindexed])});"
        for docid, values in self.table.documents():
            tested(self.table, docid, values)
            row = f"({', '.join(map(literal, (docid, *values)))})"
            size = len(row.encode())
            is_long = size > STATEMENT or any("\r\n" in it for it in values if isinstance(it, str))
            if self.rows and (is_long or len(self.rows) == ROWS or self.size + size > STATEMENT):
                yield from self.inserted()
            if self.run and not (is_long and docid == self.run[-1][0] + 1 and self.size + size < FILE):
                yield from self.imported()
            if is_long:
                self.run.append((docid, values))
            else:
                self.rows.append((docid, row))
            self.size += size
        yield from self.inserted() if self.rows else self.imported()

    def inserted(self):
        """An INSERT of the rows that wait."""
        columns = ", ".join(["docid", *map(name_in_sql, self.table.columns)])
        yield f"INSERT INTO {self.name}({columns}) VALUES{','.join(row for _, row in self.rows)};"
        self.last, self.rows, self.size = self.rows[-1][0], [], 0

    def imported(self):
        """An import of the documents that wait, whose docids follow one another, after a document that is there only to have the docid before."""
        if not self.run:
            return
        if self.size > 2**26:
            raise Refused(f"{self.table.name}, docid {self.run[0][0]}: the document has over 64 MiB")
        path, first = f"{self.files}.csv", self.run[0][0]
        with open(os.path.join(self.folder, path), "w", encoding="utf-8", newline="") as file:
            file.writelines(",".join(map(field, values)) + "\n" for _, values in self.run)
        before = first - 1 if first - 1 != (0 if self.last is None else self.last) and first > LEAST else None
        if before is not None:
            yield f"INSERT INTO {self.name}(docid) VALUES({before});"
        yield f".import --csv {path} {word(self.table.name)}"
        if first == LEAST:
            yield f"UPDATE {self.name} SET docid = {LEAST} WHERE docid = 1;"
        for docid, values in self.run:
            sets = ", ".join(f"{name_in_sql(name)} = {literal(it)}" for name, it in zip(self.table.columns, values) if not isinstance(it, str))
            if sets:
                yield f"UPDATE {self.name} SET {sets} WHERE docid = {docid};"
        if before is not None:
            yield f"DELETE FROM {self.name} WHERE docid = {before};"
        self.last, self.run, self.size, self.files = self.run[-1][0], [], 0, self.files + 1


@contextlib.contextmanager
def copied(path):
    """A connection to a copy of a database with its log, so that the files themselves stay as they are."""
    if not os.path.isfile(path):
        raise Refused(f"there is no file {path}")
    with tempfile.TemporaryDirectory() as folder:
        for end in ("", "-wal"):
            if os.path.isfile(path + end):
                shutil.copyfile(path + end, f"{folder}/copy{end}")
        with contextlib.closing(sqlite3.connect(f"{folder}/copy")) as conn:
            yield conn


def stored(conn, names=()):
    """The full-text tables of a store, or those of these names."""
    for number, name in conn.execute("SELECT id, name FROM tab ORDER BY id").fetchall():
        columns = [it for it, in conn.execute("SELECT name FROM col WHERE tab = ? ORDER BY col", (number,))]
        unindexed = [it for it, in conn.execute("SELECT name FROM col JOIN skip USING (tab, col) WHERE tab = ? ORDER BY col", (number,))]
        if not names or name in names:
            yield Table(name, columns, unindexed, lambda number=number, columns=columns: documents_of(conn, number, len(columns)))


def documents_of(conn, number, columns):
    """The documents of a table by its rows of cells. Where a row is lost its value is NULL."""
    cells = conn.execute("SELECT docid, col, coalesce(num, txt) FROM cell WHERE tab = ? ORDER BY docid, col", (number,))
    for docid, those in itertools.groupby(cells, lambda cell: cell[0]):
        values = {column: value for _, column, value in those}
        yield docid, [values.get(column) for column in range(columns)]


def named(tables, names):
    """The tables, among which each of these names has to be."""
    tables = list(tables)
    missing = set(names) - {it.name for it in tables}
    if missing or not tables:
        raise Refused(f"there is no full-text table {', '.join(sorted(missing))}".rstrip())
    return tables


def load(table, file):
    """Loads a table into a FILE of ft4sh, and returns how many documents it has."""
    program = os.environ.get("FT4SH", "ft4sh")
    with tempfile.TemporaryDirectory() as folder:
        with open(f"{folder}/load.sql", "w", encoding="utf-8", newline="") as script:
            script.writelines(f"{line}\n" for line in Script(folder, table).lines())
        with open(f"{folder}/load.sql", "rb") as script:
            ran = subprocess.run([program, "--bail", os.path.abspath(file)], cwd=folder, stdin=script, stderr=subprocess.PIPE, text=True)
    if ran.returncode or ran.stderr:
        raise Refused(f"{table.name} isn't loaded whole: {ran.stderr.strip()}")
    count = 0
    with copied(f"{file}-fts4") as conn:
        there = next(iter(stored(conn, [table.name])))
        for due, found in itertools.zip_longest(table.documents(), there.documents()):
            if due is None or found is None or (due[0], list(due[1])) != found:
                raise Refused(f"{table.name} isn't loaded whole: {(due or found)[0]} differs")
            count += 1
    return count


def run(main, usage):
    """Runs a script: what it says, or how it is used, or why it can't be done."""
    if len(sys.argv) < 3 or sys.argv[1].startswith("-h") or sys.argv[1] == "--help":
        sys.exit(usage)
    try:
        main(*sys.argv[1:])
    except (Refused, OSError, sqlite3.Error, UnicodeError) as fault:
        sys.exit(f"{os.path.basename(sys.argv[0])}: {fault}")
