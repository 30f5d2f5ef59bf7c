"""The definitions of crates/*/specs, and which names each one reads.

A name of a definition is bound (a parameter, a pattern's variable, a field of a record that stands
above), or is looked up: in its file, by the file's `use` lines, and through `pub use` in the file
where it is declared. A name that is none of these is an error, so nothing is passed over.
"""
import re

WORD = re.compile(r'"(?:[^"\\]|\\.)*"|\[\]|[()\[\]{};,]|[^\s()\[\]{};,"]+')
COMMENT = re.compile(r"(?:^|(?<=\s))--(?=[\s-]|$).*$", re.M)
USE = re.compile(r"(?:(?:pub|unfoldable) )*use ([^\s{]+?)(?:\.\{([^}]*)\})?(?: as (\S+))?\s*\Z")
HEAD = re.compile(r"((?:abbrev |pub |unfoldable )*)(record |data )?(\S+)(.*)\Z", re.S)
# a line of a `do`, and what it stands for: what is done, and its result's name for what follows
DO = (re.compile(r"^( +)(\S+) ← (.*(?:\n\1 +.*)*)$", re.M), r"\1>>= (\3) λ \2.")
BUILT_IN = set("→ × = : . λ _ Type Unit tt absurd ⊥ let in record where do refl".split())
CLOSES = {"(": ")", "[": "]", "{": "}"}


class NotUnderstood(Exception):
    """What in the sources this program cannot read."""


class Library(str):
    """A word that is not of these crates: its name, without the module where it stands."""


class Definition:
    """A definition, or a type of src: its file, its constructors, and its code in pieces."""

    def __init__(self, home, name, kind):
        self.home, self.file, self.name, self.kind = home, home.file, name, kind
        self.constructors, self.pieces = [], []
        self.lines = 0

    def __repr__(self):
        return f"{self.name} ({self.file})"

    def reads(self):
        """What it names: definitions, and words of the library."""
        try:
            return self.home.reads_of(self)
        except (IndexError, KeyError, ValueError) as error:
            raise NotUnderstood(f"{self}: {error}") from error


# Reading.


def words_of(text):
    return WORD.findall(COMMENT.sub("", text))


def tree_of(words):
    """The words with each bracket and what it holds as a list, whose first item is the bracket."""
    stack = [["("]]
    for word in words:
        if word in CLOSES:
            stack.append([word])
        elif word in CLOSES.values():
            group = stack.pop()
            if not stack or CLOSES[group[0]] != word:
                raise NotUnderstood(f"the bracket {word}")
            stack[-1].append(group)
        else:
            stack[-1].append(word)
    if len(stack) != 1:
        raise NotUnderstood(f"the bracket {stack[-1][0]}")
    return stack[0][1:]


def split(items, marks):
    """The parts between the words that are marks."""
    parts = [[]]
    for item in items:
        if isinstance(item, str) and item in marks:
            parts.append([])
        else:
            parts[-1].append(item)
    return parts


def is_name(word):
    return isinstance(word, str) and bool(re.match(r"[^\W\d]", word)) and "." not in word


class Names:
    """The free names of a term, a pattern or a telescope."""

    def __init__(self, is_constructor):
        self.is_constructor = is_constructor
        self.found = []

    def term(self, items, bound):
        for part in split(items, {",", ";", "|"}):
            self.part(part, set(bound))

    def part(self, items, bound):
        """A part of a term. What it binds is bound up to its end."""
        at = 0
        while at < len(items):
            item = items[at]
            if item == "λ":
                at = self.binders(items, at + 1, bound)
            elif item == "let":
                at = self.binding(items, at + 1, bound)
            elif isinstance(item, list):
                bound |= self.group(item, bound)
                at += 1
            else:
                self.word(item, bound)
                at += 1

    def word(self, word, bound):
        if word[0] != "." and word.split(".")[0] not in bound:
            self.found.append(word)

    def binders(self, items, at, bound):
        """The names between λ and the dot."""
        while at < len(items) and items[at] != ".":
            item = items[at]
            at += 1
            if isinstance(item, list):
                bound |= self.group(item, bound)
            elif item.endswith("."):
                bound.add(item[:-1])
                return at
            else:
                bound.add(item)
        return at + 1

    def binding(self, items, at, bound):
        """`let` with a name, what it is, and `in`."""
        end, depth = at, 1
        while depth:
            end += 1
            depth += {"let": 1, "in": -1}.get(items[end] if isinstance(items[end], str) else "", 0)
        self.part([item for item in items[at + 1:end] if item != "="], set(bound))
        bound.add(items[at])
        return end + 1

    def group(self, group, bound):
        """What stands in brackets. The names that it binds for what follows are the answer."""
        inside = group[1:]
        if ":" in inside:
            colon = inside.index(":")
            if all(is_name(item) or item == "_" for item in inside[:colon]):
                self.term(inside[colon + 1:], bound)
                return set(inside[:colon])
        if group[0] == "{" and "=" in inside:
            for field in split(inside, {";", ","}):
                self.term(field[2:] if field[1:2] == ["="] else field, bound)
        else:
            self.term(inside, bound)
        return set()

    def pattern(self, items):
        """The names that a pattern binds. Its constructors are found."""
        bound = set()
        for item in items:
            if isinstance(item, list):
                for part in split(item[1:], {",", ";"}):
                    bound |= self.part_of_pattern(part)
            elif self.is_constructor(item):
                self.found.append(item)
            elif is_name(item):
                bound.add(item)
            else:
                self.found.append(item)
        return bound

    def part_of_pattern(self, items):
        """The same for what stands in brackets. What is applied there is a constructor."""
        if items[1:2] == ["="]:
            return self.pattern(items[2:])
        if len(items) > 1 and all(isinstance(item, list) or is_name(item) for item in items):
            self.found.append(items[0])
            items = items[1:]
        return self.pattern(items)


class Module:
    """A file of specs/: its definitions, and what its `use` lines bring."""

    def __init__(self, world, file, text):
        self.world, self.file = world, file
        self.definitions, self.constructors = {}, {}
        self.imports, self.aliases, self.operators = {}, {}, {}
        for chunk in re.split(r"\n(?=[^\s})\]\-])", "\n" + COMMENT.sub("", text)):
            if chunk.strip():
                self.add(chunk.strip("\n"))

    def add(self, chunk):
        if re.match(r"(?:(?:pub|unfoldable) )*use ", chunk):
            self.bring(chunk)
        elif re.match(r"(pub )?mod |infix", chunk):
            pass
        elif re.match(r"(?:abbrev|pub|unfoldable) ", chunk):
            self.declare(chunk)
        else:
            self.clause(chunk)

    def bring(self, chunk):
        use = USE.match(chunk)
        if not use:
            raise NotUnderstood(f"{self.file}: {chunk}")
        module, names = use[1], use[2]
        if names is None:
            self.aliases[use[3] or module.split(".")[-1]] = module
        for name in (names or "").split(","):
            if name.strip():
                given, _, other = name.strip().partition(" as ")
                self.imports[other or given] = (module, given)
                self.part_of_operator(other or given)

    def part_of_operator(self, name):
        for part in name.split("◌") if "◌" in name else []:
            if part:
                self.operators[part] = name

    def declare(self, chunk):
        head = HEAD.match(chunk)
        kind = (head[2] or "function").strip()
        one = self.definitions[head[3]] = Definition(self, head[3], kind)
        one.lines = count_lines(chunk)
        self.part_of_operator(head[3])
        if kind == "function":
            one.pieces.append(("type", head[4]))
            return
        parameters, *parts = re.split(r"\n  (?=\S)", head[4])
        one.pieces.append(("parameters", parameters))
        for part in parts:
            if part.strip() == "where":
                continue
            field = re.match(r"(?:pub )?(\S+) :\s(.*)", part, re.S)
            if not field:
                raise NotUnderstood(f"{self.file}: {part}")
            one.pieces.append((kind, (field[1], field[2])))
            if kind == "data":
                one.constructors.append(field[1])
                self.constructors[field[1]] = one

    def clause(self, chunk):
        words = words_of(chunk)
        name = words[0]
        if name not in self.definitions:
            left = words[:words.index("=")] if "=" in words else words
            operators = [self.operators.get(word) for word in left]
            name = next((it for it in operators if it in self.definitions), None)
        if name is None:
            raise NotUnderstood(f"{self.file}: {chunk.splitlines()[0]}")
        self.definitions[name].lines += count_lines(chunk)
        self.definitions[name].pieces.append(("clause", chunk))

    def find(self, word):
        """What a word means: a definition, a word of the library, or nothing."""
        first, _, rest = word.partition(".")
        name = self.operators.get(word, first)
        if name in self.constructors or name in self.definitions:
            return self.constructors.get(name) or self.definitions[name]
        if name in self.imports:
            return self.world.find(*self.imports[name])
        if first in self.aliases and rest:
            return self.world.find(self.aliases[first], rest.split(".")[0])
        return None

    def is_constructor(self, word):
        """Whether a word of a pattern is a constructor; else it is a variable."""
        found = self.find(word)
        if isinstance(found, Library):
            return not is_name(found) or found[0].isupper() or found in self.world.lower
        name = self.imports.get(word, (None, word))[1].split(".")[-1]
        return found is not None and name in found.constructors

    def reads_of(self, one):
        """The names that a definition reads, each as it is found."""
        names, bound = Names(self.is_constructor), set()
        for kind, text in one.pieces:
            if kind == "clause":
                self.read_clause(names, one.name, text)
            elif kind in ("type", "parameters"):
                names.part(tree_of(words_of(text)), bound)
            else:
                names.term(tree_of(words_of(text[1])), bound)
                if kind == "record":
                    bound.add(text[0])
        return [self.meant(word) for word in names.found if not is_plain(word)]

    def read_clause(self, names, name, text, bound=frozenset()):
        """A clause of a function of this name, where these names are bound."""
        text, _, local = re.sub(*DO, text).partition("\n  where\n")
        items = tree_of(words_of(text))
        equals = items.index("=")
        parts = {part for part in name.split("◌") if part}
        left = [item for item in items[:equals] if isinstance(item, list) or item not in parts]
        bound = bound | names.pattern(left)
        chunks = re.split(r"\n    (?=\S)", "\n" + local)
        bound |= {chunk.split()[0] for chunk in chunks if chunk.strip()}
        names.term(items[equals + 1:], bound)
        for chunk in chunks:
            word, *rest = words_of(chunk) or [""]
            if rest[:1] == [":"]:
                names.part(tree_of(rest[1:]), set(bound))
            elif rest:
                self.read_clause(names, word, chunk, bound)

    def meant(self, word):
        found = self.find(word)
        if found is None:
            raise NotUnderstood(f"{self.file}: {word}")
        return found


def is_plain(word):
    return word in BUILT_IN or re.fullmatch(r'-?\d+|0x[0-9A-Fa-f_]+|".*"', word, re.S)


def count_lines(text):
    return sum(1 for line in text.splitlines() if line.strip())
