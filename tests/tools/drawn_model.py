"""A model of full-text tables for tests/tools/drawn: a second body of the commands, written from docs/FORMATS.md.

A table is a list of documents without an index, and a MATCH looks at the words of each of them. A command is an object that knows its SQL
text and what it does to the tables, so that nothing here reads SQL. Left out are the limits that scripts of this folder try (a text of
1,000,000 bytes, 1,000 tables), U+0000, which no input may have, and tables that are not there, of which the plain SQL tells.
"""
import collections
import functools
import itertools
import re
import zlib

LAST = 2**63 - 1
DOCIDS = ("docid", "rowid")


class Fault(Exception):
    """A command is refused, with this text."""


MALFORMED, TOO_LARGE = "malformed MATCH expression", "MATCH expression too large"


def need(is_fine, text):
    if not is_fine:
        raise Fault(text)


def small(text):
    """ASCII capitals become small, and nothing else is folded."""
    return re.sub("[A-Z]+", lambda it: it[0].lower(), text)


# ---- what a MATCH text is

# A word is a maximal run of ASCII letters, ASCII digits and characters from U+0080 on.
RUN = re.compile("[0-9A-Za-z\u0080-\U0010ffff]+")
# A text falls into parentheses, quoted parts, and chunks of other characters than white space.
PART = re.compile('(?P<paren>[()])|"(?P<quoted>[^"]*)"|(?P<chunk>[^\t-\r ()"]+)')
Term = collections.namedtuple("Term", "text is_prefix is_first")
Phrase = collections.namedtuple("Phrase", "terms column", defaults=(None,))
Filter = collections.namedtuple("Filter", "column")
Near = collections.namedtuple("Near", "most")
# Phrases, with the numbers of NEAR between them. One phrase alone is a chain, too.
Chain = collections.namedtuple("Chain", "phrases mosts")
Both = collections.namedtuple("Both", "left right")
Either = collections.namedtuple("Either", "left right")
Without = collections.namedtuple("Without", "left right")


def terms_of(part):
    """A term for each word: a prefix where `*` follows it directly, a first term where `^` stands directly before it."""
    return [Term(small(it[0]), part[it.end() : it.end() + 1] == "*", part[: it.start()].endswith("^")) for it in RUN.finditer(part)]


def lexemes_of_chunk(chunk, columns):
    """An operator is a whole chunk. Else the chunk is a filter, where a column's name stands before its first colon, and words."""
    near = re.fullmatch("NEAR(/[0-9]+)?", chunk)
    if chunk in ("AND", "OR", "NOT"):
        return [chunk]
    if near:
        return [Near(int((near[1] or "/10")[1:]))]
    name, colon, rest = chunk.partition(":")
    filters = [Filter(number) for number, it in enumerate(columns) if colon and small(it) == small(name)]
    return filters + [Phrase([it]) for it in terms_of(rest if filters else chunk)]


def lexemes_of(text, columns):
    for part in PART.finditer(text):
        if part["chunk"]:
            yield from lexemes_of_chunk(part["chunk"], columns)
        else:
            yield part["paren"] or Phrase(terms_of(part["quoted"]))


class Reader:
    """Reads lexemes as a query. From the tightest: NEAR, NOT, AND and two operands side by side, OR; all group to the left."""

    def __init__(self, lexemes, default):
        self.left, self.default = collections.deque(lexemes), default

    def is_next(self, *kinds):
        return bool(self.left) and (self.left[0] in kinds or type(self.left[0]) in kinds)

    def next(self, *kinds):
        return self.left.popleft() if self.is_next(*kinds) else None

    def needed(self, *kinds):
        need(self.is_next(*kinds), MALFORMED)
        return self.left.popleft()

    def whole(self):
        query = self.either()
        need(not self.left, MALFORMED)
        return query

    def either(self):
        query = self.both()
        while self.next("OR"):
            query = Either(query, self.both())
        return query

    def both(self):
        query = self.without()
        while self.next("AND") or self.is_next("(", Filter, Phrase):
            query = Both(query, self.without())
        return query

    def without(self):
        query = self.operand()
        while self.next("NOT"):
            query = Without(query, self.operand())
        return query

    def operand(self):
        """A query in parentheses, or a chain of NEAR, which joins phrases alone."""
        if self.next("("):
            query = self.either()
            self.needed(")")
            return query
        phrases, mosts = [self.phrase()], []
        while self.is_next(Near):
            mosts.append(self.next(Near).most)
            phrases.append(self.phrase())
        return Chain(phrases, mosts)

    def phrase(self):
        """A filter restricts the phrase after it; a phrase without one is restricted by the column before MATCH."""
        on = self.next(Filter)
        return self.needed(Phrase)._replace(column=on.column if on else self.default)


def query_of(text, columns, default):
    """The query of a text, None where it has no lexeme. The tests stand in this order."""
    need(len(text.encode()) <= 10000, TOO_LARGE)
    need(text.count('"') % 2 == 0, MALFORMED)
    lexemes = list(lexemes_of(text, columns))
    need(sum(len(it.terms) for it in lexemes if isinstance(it, Phrase)) <= 64, TOO_LARGE)
    need(all(it.most <= 1000000 for it in lexemes if isinstance(it, Near)), TOO_LARGE)
    depths = itertools.accumulate((it == "(") - (it == ")") for it in lexemes)
    need(max(depths, default=0) <= 32, TOO_LARGE)
    return Reader(lexemes, default).whole() if lexemes else None


# ---- what a query finds in a document, which is a list of words for each column

Word = collections.namedtuple("Word", "text place size")


@functools.lru_cache(maxsize=500)
def words_of(text):
    """The words of a text, with places and sizes in bytes."""
    return [Word(small(it[0]), len(text[: it.start()].encode()), len(it[0].encode())) for it in RUN.finditer(text)]


def fits(term, word, number):
    is_text = word.text.startswith(term.text) if term.is_prefix else word.text == term.text
    return is_text and (number == 0 or not term.is_first)


def occurrences(phrase, document):
    """Where a phrase stands, by column and number of its first word: its words are next to each other. Without terms it stands nowhere."""
    count = len(phrase.terms)
    for column, words in enumerate(document):
        for at in range(len(words) - count + 1 if count and phrase.column in (None, column) else 0):
            if all(fits(term, words[at + by], at + by) for by, term in enumerate(phrase.terms)):
                yield column, at


def are_near(one, one_size, other, other_size, most):
    """They stand in one column, don't end at the same word, and at most so many words stand between them: none where they overlap."""
    one_end, other_end = one[1] + one_size, other[1] + other_size
    between = max(other[1] - one_end, one[1] - other_end, 0)
    return one[0] == other[0] and one_end != other_end and between <= most


def choices(chain, document):
    """Each choice of an occurrence for every phrase, in which each is near the next by the number between the two."""
    found = [(it,) for it in occurrences(chain.phrases[0], document)]
    for before, most, phrase in zip(chain.phrases, chain.mosts, chain.phrases[1:]):
        places, one, other = list(occurrences(phrase, document)), len(before.terms), len(phrase.terms)
        found = [(*it, at) for it in found for at in places if are_near(it[-1], one, at, other, most)]
    return found


def looked_at(query, document):
    """Whether a query finds a document, and the words that each of its terms takes: all terms but those right of a NOT."""
    if isinstance(query, Chain):
        found, taken = choices(query, document), []
        for number, phrase in enumerate(query.phrases):
            taken += [{(it[number][0], it[number][1] + by) for it in found} for by in range(len(phrase.terms))]
        return bool(found), taken
    (is_left, left), (is_right, right) = looked_at(query.left, document), looked_at(query.right, document)
    if isinstance(query, Without):
        return is_left and not is_right, left
    return is_left and is_right if isinstance(query, Both) else is_left or is_right, left + right


def offsets_of(taken, document):
    """Four numbers for each word that a term takes, by column, then place, then term."""
    found = sorted((column, at, term) for term, places in enumerate(taken) for column, at in places)
    return " ".join(f"{column} {term} {document[column][at].place} {document[column][at].size}" for column, at, term in found)


# ---- tables

Offsets = collections.namedtuple("Offsets", "table")
# Which documents: those with a number as docid, or those that a text finds.
Where = collections.namedtuple("Where", "name value")


def is_match(where):
    return where is not None and isinstance(where.value, str)


class Table:
    """The documents by docid, each a list of cells: None, a number or a text."""

    def __init__(self, name, columns, unindexed):
        self.name, self.columns, self.unindexed, self.documents = name, columns, [small(it) for it in unindexed], {}

    def number(self, name):
        """The number of a column, None where there is none of the name."""
        return next((number for number, it in enumerate(self.columns) if small(it) == small(name)), None)

    def has(self, names):
        return all(small(it) in DOCIDS or self.number(it) is not None for it in names)

    def can_match(self, where):
        return not is_match(where) or self.number(where.name) is not None or small(where.name) == small(self.name)

    def words(self, cells):
        """The words of each cell: of no text for NULL, of the decimal text of a number; none where the column is not indexed."""
        texts = ["" if it is None or small(name) in self.unindexed else str(it) for name, it in zip(self.columns, cells)]
        return [words_of(it) for it in texts]

    def chosen(self, where):
        """The docids of the documents that are chosen, rising, each with its offsets."""
        if not is_match(where):
            return {it: "" for it in sorted(self.documents) if where is None or it == where.value}
        query, found = query_of(where.value, self.columns, self.number(where.name)), {}
        for docid in sorted(self.documents) if query else ():
            document = self.words(self.documents[docid])
            is_found, taken = looked_at(query, document)
            if is_found:
                found[docid] = offsets_of(taken, document)
        return found

    def with_row(self, documents, docid, values):
        """The documents and one more, which has the docid that is given, or one more than the largest."""
        largest = max(documents, default=0)
        need(docid is None or docid not in documents, f"docid already exists: {docid}")
        need(docid is not None or largest < LAST, "no docid left")
        return {**documents, (largest + 1 if docid is None else docid): self.changed([None] * len(self.columns), values)}

    def changed(self, cells, values):
        """The cells with these values under the names of their columns."""
        under = {small(name): value for name, value in values}
        return [under.get(small(name), cell) for name, cell in zip(self.columns, cells)]

    def shown(self, item, docid, offsets):
        """The values of an item of a SELECT."""
        if isinstance(item, Offsets):
            return [offsets]
        cells = self.documents[docid]
        return cells if item == "*" else [docid if small(item) in DOCIDS else cells[self.number(item)]]


def has_no_repeats(names):
    return len({small(it) for it in names}) == len(names)


def docids_in(values):
    return [value for name, value in values if small(name) in DOCIDS]


def one_docid(values):
    """The docid that values give, None where they give none."""
    given = [it for it in docids_in(values) if it is not None]
    need(len(given) < 2, "docid given twice")
    return given[0] if given else None


# ---- commands: what each is in SQL, and what it does to the tables. It gives the rows that it answers, or is refused by its first fault.


def sql_value(value):
    """NULL, a number, or a text in quotation marks, which are doubled inside."""
    return "NULL" if value is None else str(value) if isinstance(value, int) else "'" + value.replace("'", "''") + "'"


def sql_where(where):
    return f" WHERE {where.name} {'MATCH' if is_match(where) else '='} {sql_value(where.value)}" if where else ""


class Create(collections.namedtuple("Create", "table columns unindexed options module if_new", defaults=((), (), "fts4", False))):
    def sql(self):
        words = [*self.columns, *(f"notindexed={it}" for it in self.unindexed), *(f"{name}={value}" for name, value in self.options)]
        return f"CREATE VIRTUAL TABLE {'IF NOT EXISTS ' if self.if_new else ''}{self.table} USING {self.module}({', '.join(words)});"

    def step(self, tables):
        name, columns = self.table.strip('"'), self.columns or ["content"]
        is_there, made = small(name) in tables, Table(name, columns, self.unindexed)
        need(small(self.module) == "fts4", "no such module")
        need(all(small(value) == "simple" for option, value in self.options if option == "tokenize"), "unknown tokenizer")
        need(all(option == "tokenize" for option, _ in self.options), "unrecognized parameter")
        need(all(0 < len(it.encode()) <= 100 for it in (name, *columns)), "bad name")
        need(has_no_repeats(columns) and not {*map(small, columns)} & {*DOCIDS, small(name)}, "duplicate column name")
        need(len(columns) <= 100, "too many columns")
        need(self.if_new or not is_there, "table already exists")
        need(is_there or all(made.number(it) is not None for it in self.unindexed), "no such column")
        tables.setdefault(small(name), made)


class Drop(collections.namedtuple("Drop", "table")):
    def sql(self):
        return f"DROP TABLE {self.table};"

    def step(self, tables):
        del tables[small(self.table)]


class Special(collections.namedtuple("Special", "table text")):
    """A rebuild, an integrity-check or an optimize, which find nothing to do where there is no index."""

    def sql(self):
        return f"INSERT INTO {self.table}({self.table}) VALUES({sql_value(self.text)});"

    def step(self, tables):
        # with another text it is an INSERT under a column's name, and no column has the name of its table
        need(small(self.text) in ("rebuild", "integrity-check", "optimize"), "no such column")


class Insert(collections.namedtuple("Insert", "table columns rows")):
    """Rows of values for these columns, or for all where the columns are None."""

    def sql(self):
        names = "" if self.columns is None else f"({', '.join(self.columns)})"
        return f"INSERT INTO {self.table}{names} VALUES({'),('.join(', '.join(map(sql_value, it)) for it in self.rows)});"

    def step(self, tables):
        table = tables[small(self.table)]
        names = table.columns if self.columns is None else self.columns
        need(has_no_repeats(names), "duplicate column name")
        need(table.has(names), "no such column")
        need(all(len(it) == len(names) for it in self.rows), "values do not fit columns")
        rows, documents = [list(zip(names, it)) for it in self.rows], table.documents
        need(not any(isinstance(it, str) for row in rows for it in docids_in(row)), "datatype mismatch")
        for docid, row in [(one_docid(it), it) for it in rows]:
            documents = table.with_row(documents, docid, row)
        table.documents = documents


class Import(collections.namedtuple("Import", "table rows")):
    """Records of a file, whose fields are all texts. The file's name is made of its content."""

    def content(self):
        return "".join(",".join('"' + it.replace('"', '""') + '"' for it in row) + "\n" for row in self.rows)

    def name(self):
        return f"{zlib.crc32(self.content().encode())}.csv"

    def sql(self):
        return f".import --csv {self.name()} {self.table}"

    def step(self, tables):
        Insert(self.table, None, self.rows).step(tables)


class Print(collections.namedtuple("Print", "text")):
    """A dot-command of words with one space between."""

    def sql(self):
        return f".print {self.text}"

    def step(self, tables):
        return [[self.text]]


class Update(collections.namedtuple("Update", "table sets where", defaults=(None,))):
    def sql(self):
        return f"UPDATE {self.table} SET {', '.join(f'{name} = {sql_value(value)}' for name, value in self.sets)}{sql_where(self.where)};"

    def step(self, tables):
        table, names = tables[small(self.table)], [name for name, _ in self.sets]
        need(has_no_repeats(names), "duplicate column name")
        need(table.has(names) and table.can_match(self.where), "no such column")
        need(all(isinstance(it, int) for it in docids_in(self.sets)), "datatype mismatch")
        docid, chosen, documents = one_docid(self.sets), table.chosen(self.where), table.documents
        is_free = docid is None or not chosen or len(chosen) == 1 and (docid in chosen or docid not in documents)
        need(is_free, f"docid already exists: {docid}")
        kept = {it: cells for it, cells in documents.items() if it not in chosen}
        moved = {it if docid is None else docid: table.changed(documents[it], self.sets) for it in chosen}
        table.documents = {**kept, **moved}


class Delete(collections.namedtuple("Delete", "table where", defaults=(None,))):
    def sql(self):
        return f"DELETE FROM {self.table}{sql_where(self.where)};"

    def step(self, tables):
        table = tables[small(self.table)]
        need(table.can_match(self.where), "no such column")
        chosen = table.chosen(self.where)
        table.documents = {it: cells for it, cells in table.documents.items() if it not in chosen}


class Select(collections.namedtuple("Select", "table items where order limit offset", defaults=(None, "", None, None))):
    """Items are names, `*` or offsets; where they are None it counts."""

    def sql(self):
        items = ["count(*)"] if self.items is None else [f"offsets({it.table})" if isinstance(it, Offsets) else it for it in self.items]
        cut = "" if self.limit is None else f" LIMIT {self.limit}" + ("" if self.offset is None else f" OFFSET {self.offset}")
        return f"SELECT {', '.join(items)} FROM {self.table}{sql_where(self.where)}{self.order}{cut};"

    def step(self, tables):
        table, items = tables[small(self.table)], self.items or []
        of_tables = [it.table for it in items if isinstance(it, Offsets)]
        names = [it for it in items if not isinstance(it, Offsets) and it != "*"]
        is_known = table.has(names) and all(small(it) == small(table.name) for it in of_tables)
        need(is_known and table.can_match(self.where), "no such column")
        need(not of_tables or is_match(self.where), "unable to use function offsets in the requested context")
        chosen, first = table.chosen(self.where), self.offset or 0
        rows = [[it for item in items for it in table.shown(item, *one)] for one in chosen.items()]
        counted = [[len(chosen)]] if self.items is None else rows
        return counted[first:] if self.limit is None else counted[first : first + self.limit]
