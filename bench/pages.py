"""Documents of real text: the sections of the manual pages that this machine has below /usr/share/man, in English.

A document is a section of a page: its subject is the page's name with the section's heading, its body the text without the marks of roff.
Pages are taken by their names' digests, so that no kind of page comes first, at most 50 whose names begin with the same six characters, and
of each its sections in order, until there are enough.
"""
import collections
import glob
import gzip
import hashlib
import os
import re

HEADING = re.compile(r"^\.\s*S[Hh]\s*(.*)$")
DROPPED = re.compile(r'^[.\']\s*(\\"|(TH|Dd|Dt|Os|ds|de|if|ie|el|nr|tr|so|ad|hy|nh|ns|in|ti|ne|ft|rm)\b)')
MACRO = re.compile(r"^[.']\s*\w*\s?")
ESCAPE = re.compile(r"\\(f\[\w*\]|f\(..|f.|s[-+]?\d|\*\(..|\(..|\[\w*\]|[&|^!%/,:]|.)")
LETTERS = {"\\-": "-", "\\(aq": "'", "\\(dq": '"', "\\e": "\\", "\\ ": " "}
LEAST = 20  # words of a body
ALIKE = 50  # pages whose names begin alike


def pages():
    """The paths of the pages."""
    found = [it for it in glob.glob("/usr/share/man/man*/*.gz") if not os.path.islink(it)]
    alike = collections.Counter()
    for path in sorted(found, key=lambda it: hashlib.sha256(os.path.basename(it).encode()).digest()):
        alike[os.path.basename(path)[:6]] += 1
        if alike[os.path.basename(path)[:6]] <= ALIKE:
            yield path


def plain(line):
    """A line without its marks."""
    return ESCAPE.sub(lambda it: LETTERS.get(it[0], ""), MACRO.sub("", line)).replace('"', " ")


def sections(path):
    """Pairs of a heading and a text."""
    with gzip.open(path, "rt", encoding="utf-8", errors="replace") as page:
        heading, lines = None, []
        for line in page.read().replace("\0", "").split("\n"):
            found = HEADING.match(line)
            if found:
                if heading is not None:
                    yield heading, " ".join(" ".join(lines).split())
                heading, lines = plain(found[1]), []
            elif not DROPPED.match(line):
                lines.append(plain(line))
        if heading is not None:
            yield heading, " ".join(" ".join(lines).split())


def documents(count):
    told = 0
    for path in pages():
        for heading, text in sections(path):
            if told < count and len(text.split()) >= LEAST and len(text) < 100_000:
                told += 1
                yield f"{os.path.basename(path)[:-3]} {heading.strip()}", text
        if told == count:
            break


def ranks(rows):
    """The words of ASCII letters from the most frequent on, and the pairs of such words beside each other."""
    words, pairs = collections.Counter(), collections.Counter()
    for _, body in rows:
        texts = [it for it in re.findall(r"[0-9a-z\x80-\U0010ffff]+", body.lower()) if re.fullmatch("[a-z]+", it)]
        words.update(texts)
        pairs.update(zip(texts, texts[1:]))
    ordered = lambda counter: [it for it, _ in sorted(counter.items(), key=lambda it: (-it[1], it[0]))]
    return ordered(words), ordered(pairs)
