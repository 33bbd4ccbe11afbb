"""What a reader of a contract has to believe: the definitions that it names, those that these name, and so on.

Where a law says that what is computed is the one reading of a relation, the reader takes the law's clauses in place of the computation.
"""
import functools
import os
import re

ROOT = os.path.dirname(os.path.dirname(os.path.dirname(os.path.abspath(__file__))))
# The laws, each with its file and what it computes; its clauses have to name it.
LAWS = [
    ("tokens_once", "crates/ft_match/src/laws.rt", "tokens_of"),
    ("parts_by_forms", "crates/ft_match/src/laws.rt", "parts_of"),
    ("query_of_text", "crates/ft_match/src/laws.rt", "query_of"),
    ("choices_of_chain", "crates/ft_match/src/laws.rt", "choices"),
    ("words_by_forms", "crates/shell_text/src/words.rt", "pieces_of"),
    ("dot_words_by_forms", "crates/shell_text/src/dot.rt", "dot_word_chars"),
    ("statements_by_grammar", "crates/ft_statements/src/laws.rt", "spelled_command"),
    ("statements_by_grammar", "crates/ft_statements/src/laws.rt", "class_of"),
    ("dot_lines_by_grammar", "crates/ft_statements/src/laws.rt", "dot_command_of"),
    ("literals_by_marks", "crates/ft_statements/src/laws.rt", "halved"),
    ("plain_by_grammar", "crates/ft_statements/src/laws.rt", "asks"),
    ("plain_by_grammar", "crates/ft_statements/src/laws.rt", "made_name"),
]
IMPORT = re.compile(r"^\s*(?:ghost |pub )*use Rattle\.(\w+)\.specs\.(\w+)(?:\.\{([^}]*)\}| as (\w+))?;?$")
HEAD = re.compile(r"^( *)(?:pub )?(?:module \S|mutual$)")
NAMED = re.compile(r"^(?:(?:abbrev|unfoldable|pub|private)\s+)*(?:(?:record|data)\s+(\S+)|(\S+)\s*:\s)")
CONSTRUCTOR = re.compile(r"^\s+(?:pub\s+)?(\S+)\s*:\s")
WORD = re.compile(r"[^\s(){}\[\],;λ]+")


def lines_of(path, errors="strict"):
    with open(os.path.join(ROOT, path), encoding="utf-8", errors=errors) as file:
        return file.read().split("\n")


def module_path(crate, module):
    path = f"crates/{crate}/specs/{module}.antt"
    return path if os.path.isfile(os.path.join(ROOT, path)) else None


def names_in(text):
    """The names in a text, whole, by the parts between full stops, and as operators between two arguments."""
    whole = set(WORD.findall(text))
    return whole | {part for word in whole for part in word.split(".")} | {f"◌{word}◌" for word in whole}


def imported(lines):
    """What a file's names stand for: each with the module, the name there (None where it is the module's own), and the line."""
    found = {}
    for number, line in enumerate(lines):
        match = IMPORT.match(line)
        path = match and module_path(match[1], match[2])
        if match and match[3]:
            for name in match[3].split(","):
                there, _, here = name.strip().partition(" as ")
                found[here or there] = (path, there, number)
        elif match:
            found[match[4] or match[2]] = (path, None, number)
    return found


class Module:
    """A module of definitions: for each name the lines that define it, comments included."""

    def __init__(self, path):
        self.lines, self.blocks = lines_of(path), {}
        self.imports = imported(self.lines)
        heads, block, is_head = [], [], False
        for number, line in enumerate([*self.lines, ""]):
            # a head may go over several lines, up to the one that ends in `where`
            begins = HEAD.match(line)
            if line.strip() and not is_head and not begins and not IMPORT.match(line):
                block.append(number)
                continue
            self.add(block, [it for it, _ in heads])
            block = []
            if begins:
                heads = [it for it in heads if it[1] < len(begins[1])] + [([], len(begins[1]))]
            if begins or is_head:
                heads[-1][0].append(number)
                is_head = not line.endswith(("where", "mutual"))

    def add(self, block, heads):
        """Adds the definitions of neighbouring lines, which stand in blocks with these heads."""
        code = [self.lines[it] for it in block if not self.lines[it].lstrip().startswith("--")]
        indent = min((len(it) - len(it.lstrip()) for it in code), default=0)
        code = [it[indent:] for it in code]
        # a field is a record's own, and a constructor has the lines of its type
        forms = [NAMED, CONSTRUCTOR] if any(re.match(r"(?:pub )?data ", it) for it in code) else [NAMED]
        for name in {name for it in code for form in forms for match in [form.match(it)] if match for name in match.groups() if name}:
            self.blocks.setdefault(name, set()).update(block, *(heads if indent else []))

    def said(self, numbers):
        return "\n".join(self.lines[it] for it in numbers if not self.lines[it].lstrip().startswith("--"))


module_of = functools.lru_cache(maxsize=None)(Module)


def clauses(path, function):
    """The text of the clauses of a function: what stands between its head and its body."""
    text = "\n".join(lines_of(path))
    begin = re.search(rf"\bfn {function}\b", text)
    if not begin:
        raise SystemExit(f"{path} has no function {function}")
    body = re.search(r"^ *\{", text[begin.start() :], re.MULTILINE)
    return text[begin.start() : begin.start() + body.start()]


def named(text, imports, path=None):
    """The definitions that a text names: each with its module."""
    for word in names_in(text):
        if word in imports and imports[word][0] and imports[word][1]:
            yield imports[word][:2]
        elif path and word in module_of(path).blocks:
            yield path, word
    for word in WORD.findall(text):
        first, _, name = word.partition(".")
        if name and first in imports and imports[first][0] and not imports[first][1]:
            yield imports[first][0], name.split(".")[0]


def law_of(name):
    """The law of what is computed under this name, if there is one: its file and its name."""
    return next(((path, law) for law, path, computed in LAWS if computed == name), None)


def believed(path, functions):
    """For each module the lines that a reader of these functions' clauses has to believe, imports included."""
    waiting = list(named(" ".join(clauses(path, it) for it in functions), imported(lines_of(path))))
    seen, lines = set(), {}
    while waiting:
        path, name = at = waiting.pop()
        module, law = module_of(path), law_of(name)
        if at in seen:
            continue
        seen.add(at)
        if law:
            waiting += [it for it in named(clauses(*law), imported(lines_of(law[0]))) if not law_of(it[1])]
        elif name in module.blocks:
            text = module.said(sorted(module.blocks[name]))
            imports = {module.imports[it][2] for it in names_in(text) if it in module.imports}
            lines.setdefault(path, set()).update(module.blocks[name], imports)
            waiting += named(text, module.imports, path)
        elif name in module.imports:
            waiting += named(name, module.imports)
    return lines
