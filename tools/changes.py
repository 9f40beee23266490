"""The small changes that tools/mutate makes: in functions of src/ and in definitions of specs/. A change is a stretch of one page and the
text that stands there instead; nothing here checks anything."""
import collections
import functools
import re

from proving import CRATES
from rests import functions, pages, text_of

Change = collections.namedtuple("Change", "crate page owner start end new")

CODE = re.compile(
    r"//.*|\"[^\"]*\"|0x[0-9A-Fa-f_]+(?:[ui](?:8|16|32|64|size))?|\d[\d_]*(?:[ui](?:8|16|32|64|size))?"
    r"|[A-Za-z_][A-Za-z0-9_]*|::|->|=>|==|!=|<=|>=|&&|\|\||[-+*/%&|^]=|\.\.=?|\S"
)
CODE_SWAPS = {
    "<": "<=", "<=": "<", ">": ">=", ">=": ">", "==": "!=", "!=": "==", "&&": "||", "||": "&&",
    "+": "-", "-": "+", "*": "+", "/": "*", "%": "/", "+=": "-=", "-=": "+=", "/=": "*=", "true": "false", "false": "true",
}
# Arguments that are lent; these change places with one another alone.
STORES = {"nodes", "entries", "slots", "records"}
BYTES = {"s", "input", "out", "bytes", "data", "table"}

# A word of a definition; brackets and commas are words of their own.
WORDS = re.compile(r"--.*|[(){}\[\],;]|[^\s(){}\[\],;]+")
SWAPS = {
    "<": "≤", "≤": "<", "&&": "||", "||": "&&", "+": "-", "-": "+", "*": "+", "/": "*", "%": "/", "true": "false", "false": "true",
    "ltb": "leb", "leb": "ltb", "eqb": "leb", "min": "max", "max": "min", "nat_lt": "nat_le", "nat_le": "nat_lt",
}
# Where the words that a change may bring in come from.
PRELUDE = "Rattle.std.specs.Prelude"
BROUGHT = {"ltb", "leb", "eqb", "true", "false", "min", "max", "nat_lt", "nat_le", "&&", "||", "<", "≤", "+", "-", "*", "/", "%"}
# Pages whose names are all numbers, so that each may stand where another does.
NUMBER_PAGES = ("Numbers", "Limits", "LetterNames")


def changes(crate):
    """(changes of functions, changes of constants and definitions) that could be made."""
    code = [change for page in pages(crate, "src", ".rt") for change in code_changes(crate, page)]
    constants = [change for page in pages(crate, "src", ".rt") for change in constant_changes(crate, page)]
    definitions = [change for page in pages(crate, "specs", ".antt") for change in definition_changes(crate, page)]
    return code, constants + definitions


# Code.

def number(word):
    """The same literal one more, and one less where that is one."""
    digits, suffix = re.fullmatch(r"(0x[0-9A-Fa-f_]+|[\d_]+)([ui](?:8|16|32|64|size))?", word).groups()
    value = int(digits, 16 if digits.startswith("0x") else 10)
    show = hex if digits.startswith("0x") else str
    return [show(n) + (suffix or "") for n in (value + 1, value - 1) if n >= 0]


def instead(tokens, i, text):
    """What may stand in place of a token of code."""
    word, before = tokens[i].group(), tokens[i - 1].group() if i else ""
    after = tokens[i + 1].group() if i + 1 < len(tokens) else ""
    if word in CODE_SWAPS:
        unary = word in "-*" and (before in "(,=<>+-*/%&|{" or before in ("return", "==", "<=", "!=", "=>"))
        return [] if unary else [CODE_SWAPS[word]]
    if word == "!" and after != "=":
        return [""]
    if word[0].isdigit():
        return number(word)
    if before == "." and after not in ("(", ":"):
        return siblings(word, text)
    if before == "::" and i > 1 and tokens[i - 2].group() == "refusals" and word in refusal_names():
        return [refusal_names()[(refusal_names().index(word) + 1) % len(refusal_names())]]
    return []


@functools.cache
def refusal_names():
    return re.findall(r"pub const (\w+): u32", text_of("refusals", "src/lib.rt"))


def code_changes(crate, page):
    text, found = text_of(crate, page), []
    for owner, _, start, end in functions(text):
        tokens = [token for token in CODE.finditer(text, start, end) if not token.group().startswith("//")]
        for i, token in enumerate(tokens):
            found += [Change(crate, page, owner, token.start(), token.end(), new) for new in instead(tokens, i, text)]
        pairs = r"(?<=[(,] )\b([a-z_.]+), ([a-z_.]+)\b(?=[,)])|(?<=\()([a-z_.]+), ([a-z_.]+)\b(?=[,)])"
        for match in re.compile(pairs).finditer(text, start, end):
            a, b = [word for word in match.groups() if word]
            if a != b and (a in STORES) == (b in STORES) and (a in BYTES) == (b in BYTES):
                found.append(Change(crate, page, owner, match.start(), match.end(), f"{b}, {a}"))
    return found


def constant_changes(crate, page):
    """A constant's numbers; those of a table are many, and each is its own."""
    text, found = text_of(crate, page), []
    for said in re.finditer(r"(?m)^(?:pub )?const (\w+): [^=]*= ([^;]*);", text):
        for token in CODE.finditer(text, said.start(2), said.end(2)):
            if token.group()[0].isdigit():
                found += [Change(crate, page, said.group(1), token.start(), token.end(), new) for new in number(token.group())]
    return found


# Fields of one kind.

@functools.cache
def kinds():
    """For each field's name, the other fields of one type beside it, in a record of specs/ or a struct of src/."""
    found = collections.defaultdict(list)
    for page in sorted(CRATES.glob("*/specs/*.antt")):
        for body in re.findall(r"(?m)^pub record [^\n]* where\n((?:(?:  .*)?\n)*)", page.read_text(encoding="utf8")):
            group(found, re.findall(r"(?m)^  pub (\S+) : (ℕ|Bool|List ℕ)$", body))
    for page in sorted(CRATES.glob("*/src/*.rt")):
        for body in re.findall(r"struct \w+ \{([^}]*)\}", page.read_text(encoding="utf8")):
            group(found, re.findall(r"(?m)^\s*pub (\w+): ([\w\[\]]+),", body))
    return found


def group(found, fields):
    for i, (name, kind) in enumerate(fields):
        others = [other.strip("«»") for other, its in fields[i + 1:] + fields[:i] if its == kind]
        found[name.strip("«»")] += [other for other in others[:1] if other not in found[name.strip("«»")]]


def siblings(word, text):
    """The fields that may stand for one, of those that the page names."""
    return [name for name in kinds().get(word, []) if re.search(rf"\.«?{name}\b", text)]


# Definitions.

def declarations(text):
    """(start, end) of each declaration, those inside a `mutual` each for itself."""
    found, base, at = [], 0, 0
    for line in text.split("\n"):
        indent, bare = len(line) - len(line.lstrip()), line.strip()
        if bare and indent == 0:
            base = 2 if re.search(r"\bmutual$", bare) else 0
        if bare and indent <= base and not bare.startswith("--"):
            found.append([at, at])
        if found and bare:
            found[-1][1] = at + len(line)
        at += len(line) + 1
    return [(start, end) for start, end in found]


def region(text, start, end):
    """(owner, where what it says begins, whether it is a clause), or None where a declaration says nothing that is changed."""
    words = [word for word in WORDS.finditer(text, start, end) if not word.group().startswith("--")]
    while words and words[0].group() in ("abbrev", "unfoldable", "pub"):
        words.pop(0)
    if not words or words[0].group() in ("use", "mod", "unfolding", "mutual"):
        return None
    if words[0].group() in ("data", "record"):
        begins = [word.end() for word in words if word.group() == "where"]
        return (words[1].group(), begins[0], False) if begins else None
    depth = 0
    for word in words:
        depth += (word.group() in ("(", "{", "[")) - (word.group() in (")", "}", "]"))
        if depth == 0 and word.group() in (":", "="):
            return (words[0].group(), word.end(), True) if word.group() == "=" else None
    return None


def imports(text):
    """The names that a page takes from each page."""
    return {home: [name.strip() for name in names.split(",")] for home, names in re.findall(r"(?m)^use (\S+)\.\{(.*)\}$", text)}


def alike(text):
    """For each name of a number or of a variant without fields in a page's scope, another of its kind in scope."""
    rows = [names for home, names in imports(text).items() if home.split(".")[-1] in NUMBER_PAGES]
    known = {name for names in imports(text).values() for name in names} | set(re.findall(r"(?m)^abbrev pub (\w+) :", text))
    for row in variants():
        rows.append([name for name in row if name in known or re.search(rf"(?m)^  .*\b{re.escape(name)}\b.* : ", text)])
    return {name: row[(i + 1) % len(row)] for row in rows if len(row) > 1 for i, name in enumerate(row)}


@functools.cache
def variants():
    """The variants of each data type that have no fields."""
    found = []
    for page in sorted(CRATES.glob("*/specs/*.antt")):
        for name, body in re.findall(r"(?m)^pub data (\w+) : Type 0 where\n((?:(?:  .*)?\n)*)", page.read_text(encoding="utf8")):
            found.append([word for row in re.findall(rf"(?m)^  ([^:\n-]*) : {name}$", body) for word in row.split()])
    return [row for row in found if len(row) > 1]


def definition_changes(crate, page):
    text, found = text_of(crate, page), []
    named = alike(text)
    for start, end in declarations(text):
        said = region(text, start, end)
        if said:
            owner, begins, clause = said
            words = [word for word in WORDS.finditer(text, begins, end) if not word.group().startswith("--")]
            news = [(word.start(), word.end(), new) for i, word in enumerate(words) for new in otherwise(words, i, named if clause else {}, text)]
            news += exchanged(text, words) if clause else []
            found += [Change(crate, page, owner, *new) for new in news]
    return found


def otherwise(words, i, named, text):
    """What may stand in place of a word of a definition."""
    word, before = words[i].group(), words[i - 1].group() if i else ""
    if re.fullmatch(r"0x[0-9A-Fa-f]+|\d+", word) and before != "Type":
        return number(word)
    if word in SWAPS:
        return [SWAPS[word]]
    of, _, field = word.rpartition(".")
    if "." in word and field in kinds():
        return [f"{of}.{name}" for name in siblings(field, text)]
    return [named[word]] if word in named else []


def argument(words, i):
    """The number of the word behind the argument that begins at word i: a bracket is whole, and a field belongs to what it is of."""
    if i >= len(words) or words[i].group() in (")", "}", "]", ",", ";"):
        return None
    if words[i].group() not in ("(", "{", "["):
        return i + 1
    depth = 0
    for j in range(i, len(words)):
        depth += (words[j].group() in ("(", "{", "[")) - (words[j].group() in (")", "}", "]"))
        if depth == 0:
            return j + 1
    return None


def exchanged(text, words):
    """`cond` with its arms exchanged, `ltb`, `leb` and the like with their arguments, and a difference the other way round."""
    found = []
    for i, word in enumerate(words):
        if word.group() in ("cond", "ltb", "leb", "nat_lt", "nat_le"):
            at = i + 1
            if at < len(words) and words[at].group() == "{":
                at = argument(words, at)
            if word.group() == "cond":
                at = argument(words, at) if at else None
            middle = argument(words, at) if at else None
            last = argument(words, middle) if middle else None
            if last:
                one, other = text[words[at].start():words[middle - 1].end()], text[words[middle].start():words[last - 1].end()]
                found.append((words[at].start(), words[last - 1].end(), f"{other} {one}"))
    return [change for change in found if " ".join(text[change[0]:change[1]].split()) != " ".join(change[2].split())]


# A change, made and told.

def made(change):
    """The page's text as changed; a word that the page does not have in scope is brought in."""
    text = text_of(change.crate, change.page)
    new = text[:change.start] + change.new + text[change.end:]
    home = PRELUDE if change.new in BROUGHT and change.page.startswith("specs/") else None
    word = change.new if re.fullmatch(r"\w+", change.new) else f"◌{change.new}◌"
    if home and word not in imports(text).get(home, []):
        if home in imports(text):
            return new.replace(f"use {home}.{{", f"use {home}.{{{word}, ", 1)
        return re.sub(r"(?m)^use ", f"use {home}.{{{word}}}\nuse ", new, count=1)
    return new


def stretch(change):
    """The lines that a change stands in."""
    text = text_of(change.crate, change.page)
    first, last = text.rfind("\n", 0, change.start) + 1, text.find("\n", change.end)
    return first, last if last >= 0 else len(text)


def before(change):
    first, last = stretch(change)
    return " ".join(text_of(change.crate, change.page)[first:last].split())


def after(change):
    text, (first, last) = text_of(change.crate, change.page), stretch(change)
    return " ".join((text[first:change.start] + change.new + text[change.end:last]).split())


def key(change):
    return f"{change.crate}::{change.owner}: {before(change)} => {after(change)}"


COMPARISONS = {"<", "<=", ">", ">=", "==", "!=", "≤", "ltb", "leb", "eqb"}


def effect(change):
    """What a change does, in a few words."""
    text = text_of(change.crate, change.page)
    old, line = text[change.start:change.end], before(change)
    if old in COMPARISONS:
        return "another test where both sides are equal, or everywhere else"
    if old[:1].isdigit():
        return "another bound" if COMPARISONS & set(line.split()) else "another number"
    if " " in change.new or "," in change.new:
        return "the two exchanged"
    if change.new in ("true", "false") or old in ("&&", "||", "!"):
        return "another truth value"
    return "another number" if not old[:1].isalpha() and not old.startswith(".") else "another name"
