"""What rests on what in a crate, read from the names in its text, and so whose fault it is what the prover says where several things were
changed at once. tools/mutate goes by it.

A part is a declaration of a page of specs/ or proofs/ (a `mutual` block is one), a constant, or of a function its contract, its body and
its proof. A part rests on the parts that it names, and on what these rest on: the prover searches no instances, so that nothing reaches a
declaration but by a name, and a caller sees of a function its contract alone. Names are found too often rather than too seldom: a
variable that is spelled like a declaration in scope counts as that one. An error is a change's own where the part that it stands in
rests on nothing else that was changed: without the others it would be there all the same."""
import collections
import functools
import re

from proving import CRATES

Part = collections.namedtuple("Part", "kind page name")
Block = collections.namedtuple("Block", "first last names words")
Refusal = collections.namedtuple("Refusal", "kind place words")

WORD = re.compile(r"--.*|[(){}\[\],;⌜⌝⟦⟧]|[^\s(){}\[\],;⌜⌝⟦⟧]+")
USE = re.compile(r"(?m)^(?:pub )?(?:ghost )?use ([^\s{;]+?)(?:\.\{(.*)\})?(?: as (\S+?))?;?$")
ERROR = re.compile(r"(?m)^(\S*?\.(?:antt|rt)):(\d+):\d+: error(?:\[[\w-]+\])?: (.*)$")
NOTE = re.compile(r"(?m)^note: (\S+?):(\d+):\d+: (it is not proved that.*)$")
FUNCTION = re.compile(r"(?m)^fn (\S+): (.*)$")
LATER = "was not admitted"


@functools.cache
def text_of(crate, page):
    """A page as it stood when this run began."""
    return (CRATES / crate / page).read_text(encoding="utf8")


def pages(crate, part, ending):
    """The pages of a folder, those of the folders below it too."""
    place = CRATES / crate
    return sorted(str(page.relative_to(place)) for page in (place / part).rglob(f"*{ending}"))


def line_at(text, place):
    return text.count("\n", 0, place) + 1


# The text of src/.

def functions(text):
    """(name, start of its head, start and end of its body) of each function."""
    found, name, head, start, at = [], None, None, None, 0
    for line in text.split("\n"):
        begin = re.match(r"(?:#\[.*\] )?(?:pub )?(?:extern \"C\" )?fn (\w+)", line)
        if begin and start is None:
            name, head = begin.group(1), at
        if name and start is None and line.endswith("{") and not line.strip().startswith(("requires", "ensures")):
            start = at + len(line) + 1
        if name and start is not None and line == "}":
            found.append((name, head, start, at))
            name = start = None
        at += len(line) + 1
    return found


def constants(text):
    """(name, start and end) of each constant."""
    return [(said.group(1), said.start(), said.end()) for said in re.finditer(r"(?m)^(?:pub )?const (\w+): [^=]*= [^;]*;", text)]


# The text of specs/ and proofs/.

def words_of(text):
    return {word for word in WORD.findall(text) if not word.startswith("--")}


def indent_of(line):
    return len(line) - len(line.lstrip())


def bare_words(line):
    words = WORD.findall(line)
    while words and words[0] in ("pub", "abbrev", "unfoldable"):
        words.pop(0)
    return words


class Page:
    """A page of antt in blocks; what the head of a `module` says holds for each block in it."""

    def __init__(self, text):
        self.blocks, self.heads, self.head_open = [], [], False
        self.whole = self.made = None
        for number, line in enumerate(text.split("\n"), 1):
            if line.strip() and not line.strip().startswith("--"):
                self.take(number, line)

    def take(self, number, line):
        indent = indent_of(line)
        while self.heads and not self.head_open and indent < self.heads[-1][0]:
            self.heads.pop()
        words = bare_words(line)
        if self.head_open or (words[0] == "module" and indent == self.base()):
            self.head(indent, words)
        elif indent > self.base() or words[0] in (")", "unfolding", "where"):
            self.go_on(number, indent, line, words)
        elif words[0] not in ("use", "mod", "infix", "infixl", "infixr"):
            self.begin(number, indent, line, words)

    def base(self):
        return self.heads[-1][0] if self.heads else 0

    def head(self, indent, words):
        if not self.head_open:
            self.heads.append((indent + 2, set(self.heads[-1][1]) if self.heads else set()))
        self.heads[-1][1].update(words)
        self.head_open = words[-1] != "where"

    def begin(self, number, indent, line, words):
        """A line that begins a block, or goes on with that of the same name."""
        name = words[1] if words[0] in ("data", "record") else words[0]
        self.whole = indent + 2 if name == "mutual" else None
        self.made = indent + 2 if words[0] == "data" else None
        said = words_of(line) | (self.heads[-1][1] if self.heads else set())
        if self.blocks and name in self.blocks[-1].names and name != "mutual":
            self.grow(number, said)
        else:
            self.blocks.append(Block(number, number, [name], said))

    def go_on(self, number, indent, line, words):
        """A line within a block; constructors and the members of a `mutual` are names of it. A field is not: who uses it names the record, or
        what has its type."""
        if not self.blocks:
            return
        if indent in (self.whole, self.made):
            named = words[1:2] if words[0] in ("data", "record") else words[:words.index(":")] if ":" in words else words[:1]
            self.blocks[-1].names.extend(name for name in named if name not in self.blocks[-1].names)
        if indent == self.whole:
            self.made = indent + 2 if words[0] == "data" else None
        self.grow(number, words_of(line))

    def grow(self, number, said):
        self.blocks[-1].words.update(said)
        self.blocks[-1] = self.blocks[-1]._replace(last=number)


# The parts of a crate.

class Crate:
    """A crate's parts and what each names."""

    def __init__(self, name):
        self.name, self.lines, self.by_name, self.names = name, collections.defaultdict(list), collections.defaultdict(dict), {}
        self.spans, self.code, self.known, self.folders = {}, collections.defaultdict(set), {}, collections.defaultdict(set)
        self.antt = [page for part in ("specs", "proofs") for page in pages(name, part, ".antt")]
        self.src = pages(name, "src", ".rt")
        for page in self.src:
            self.read_code(page)
        for page in self.antt:
            self.read_antt(page)
        self.link_code()
        for page in self.antt:
            self.link_antt(page)

    def read_code(self, page):
        text = text_of(self.name, page)
        self.spans[page] = []
        for name, head, start, end in functions(text):
            self.spans[page] += [(head, start, Part("contract", page, name)), (start, end, Part("body", page, name))]
            self.lines[page].append((line_at(text, head), line_at(text, end), Part("proof", page, name)))
            self.code[name].add(Part("contract", page, name))
        for name, start, end in constants(text):
            self.spans[page].append((start, end, Part("text", page, name)))
            self.code[name].add(Part("text", page, name))

    def read_antt(self, page):
        for block in Page(text_of(self.name, page)).blocks:
            part = Part("text", page, block.names[0])
            self.lines[page].append((block.first, block.last, part))
            for name in block.names:
                self.by_name[page].setdefault(name, set()).add(part)

    # What a name is.

    def scope(self, page):
        """(parts by the names that are in scope, paths by the words that stand for pages)."""
        named, aliases = collections.defaultdict(set), {}
        for name, parts in self.by_name[page].items():
            for word in spelled(name):
                named[word] |= parts
        for home, names, alias in USE.findall(text_of(self.name, page)):
            path = self.own_path(home)
            if path and names:
                for one in names.split(","):
                    old, _, new = one.strip().partition(" as ")
                    for word in spelled(new or old):
                        named[word] |= self.found(page, path + [old])
            elif path:
                aliases[alias or path[-1]] = path
        return named, aliases

    def own_path(self, home):
        """A page's path in this crate, beginning with specs or proofs; None of another's."""
        for part in ("specs", "proofs"):
            lead = f"Rattle.{self.name}.{part}"
            if home == lead or home.startswith(lead + "."):
                return [part] + home[len(lead) + 1:].split(".") if home != lead else [part]
        return None

    def found(self, page, path):
        """The parts that a path leads to: a page's declaration, all of a page whose name it is not, or a function's contract."""
        for size in range(len(path), 1, -1):
            other = "/".join(path[:size]) + ".antt"
            if other in self.lines and other != page:
                name = path[size] if size < len(path) else None
                return self.by_name[other].get(name) or self.all_of(other)
        words = {word.strip("«»") for step in path[1:] for word in step.split("+")}
        return {part for word in words for part in self.code.get(word, ()) if part.kind == "contract"}

    def all_of(self, page):
        return {part for parts in self.by_name[page].values() for part in parts}

    def resolved(self, page, words, scope):
        named, aliases = scope
        parts = set()
        for word in words:
            head, _, rest = word.partition(".")
            if head in aliases and rest:
                parts |= self.found(page, aliases[head] + rest.split("."))
            for step in word.split(".") if head else ():
                parts |= named.get(step.strip("«»"), set())
        return parts

    # What rests on what.

    def link_code(self):
        for page in self.src:
            text, scope = text_of(self.name, page), self.scope(page)
            for start, end, part in self.spans[page]:
                said = text[start:end]
                named = {near for word in re.findall(r"\w+", said) for near in self.code.get(word, ())}
                self.names[part] = named | self.resolved(page, words_of(said), scope)
        bodies = [part for part in self.names if part.kind == "body"]
        for body in bodies:
            ring = [other for other in bodies if other == body or (self.calls(body, other) and self.calls(other, body))]
            proof = body._replace(kind="proof")
            self.names[proof] = {one for other in ring for one in (other, other._replace(kind="contract"))}
            for page in self.antt:
                if any(body.name in step.split("+") for step in page.split("/")[1:-1]):
                    self.folders[page].add(proof)

    def calls(self, body, other):
        """Whether a function's body calls another, or one that does."""
        return other.name in self.called_from(body.name)

    @functools.cached_property
    def called(self):
        found = collections.defaultdict(set)
        for part, named in self.names.items():
            if part.kind == "body":
                found[part.name] |= {near.name for near in named if near.kind == "contract"}
        return found

    def called_from(self, name):
        found, left = set(), [name]
        while left:
            for near in self.called[left.pop()] - found:
                found.add(near)
                left.append(near)
        return found

    def link_antt(self, page):
        scope = self.scope(page)
        for block in Page(text_of(self.name, page)).blocks:
            part = Part("text", page, block.names[0])
            self.names.setdefault(part, set()).update(self.resolved(page, block.words, scope) | self.folders[page])

    def rests_on(self, part):
        """The part and all that it rests on."""
        if part not in self.known:
            found, left = {part}, [part]
            while left:
                for near in self.names.get(left.pop(), set()) - found:
                    found.add(near)
                    left.append(near)
            self.known[part] = frozenset(found)
        return self.known[part]

    def at_line(self, path, line):
        """The part that a line of a page belongs to, or None; the page by its path in the crate, or the end of a longer one."""
        for page, blocks in self.lines.items():
            if path.removeprefix("./") == page or path.endswith(f"/{self.name}/{page}"):
                return next((part for first, last, part in blocks if first <= int(line) <= last), None)
        return None

    def touched(self, page, number):
        """The parts that a change of a line changes (lines from 0); none where it stands in no part, so that any could rest on it. Of a
        `use` line it is every declaration of the page."""
        text = text_of(self.name, page)
        line = text.split("\n")[number]
        if page in self.spans:
            start = sum(len(before) + 1 for before in text.split("\n")[:number])
            return {part for first, last, part in self.spans[page] if first <= start and start + len(line) <= last}
        if line.startswith(("use ", "pub use ")):
            return self.all_of(page)
        return {part for first, last, part in self.lines[page] if first <= number + 1 <= last}

    # Several changes at once.

    def told_apart(self, changes):
        """Whether changes, each given as the parts that it changes, can be told from one another: none rests on another, and each has a
        proof that sees it and rests on no other."""
        for changed in changes:
            others = [other for other in changes if other is not changed]
            if any(self.rests_on(part) & other for part in changed for other in others):
                return False
            if not self.seen_by(changed) - {part for other in others for part in self.over(other)}:
                return False
        return True

    @functools.cache
    def over(self, changed):
        """The parts that rest on one of these."""
        return {part for part in self.names if self.rests_on(part) & changed}

    @functools.cache
    def seen_by(self, changed):
        """The proofs where a change can first be missed: those that rest on it not by another proof alone."""
        return {part for part in self.names if is_proof(part) and self.sees(part) & changed}

    @functools.cache
    def sees(self, part):
        found, left = {part}, [part]
        while left:
            for near in self.names.get(left.pop(), set()) - found:
                found.add(near)
                left += [] if is_proof(near) else [near]
        return found

    def own(self, said, changes):
        """Of what the prover refused, each change's own: `changes` has the parts that each changed."""
        found = {change: [] for change in changes}
        for part, refusal in self.refusals(said):
            under = [change for change, parts in changes.items() if self.rests_on(part) & parts]
            if len(under) == 1:
                found[under[0]].append(refusal)
        return found

    def refusals(self, said):
        """(part, refusal) for what the prover refuses, what only waits for another part left out."""
        for kind, pattern in (("error", ERROR), ("note", NOTE)):
            for path, line, words in pattern.findall(said):
                part = self.at_line(path, line)
                if part and LATER not in words:
                    yield part, Refusal(kind, f"{part.page}:{line}", words)
        for name, words in FUNCTION.findall(said):
            part = self.function(name)
            if part and words == "not proved":
                yield part, Refusal("function", name, words)

    def function(self, name):
        """The proof of the function that the prover names so."""
        steps = name.split("::")
        page = "src/" + ("/".join(steps[1:-1]) or "lib") + ".rt"
        part = Part("proof", page, steps[-1])
        return part if steps[0] == self.name and part in self.names else None


def is_proof(part):
    return part.kind == "proof" or part.page.startswith("proofs/")


def spelled(name):
    """The words that a name is used by: of an operator its marks."""
    bare = name.strip("«»")
    return [bare, *(word for word in name.split("◌") if word)] if "◌" in name else [bare]
