"""The types, traits and contracts of crates/*/src, and where a name of a module stands."""
import re
from pathlib import Path

from definitions import (
    Definition, Library, Module, Names, NotUnderstood, count_lines, is_plain, tree_of, words_of)

TYPE = re.compile(
    r"^(?:pub(?:\(\w+\))? )?(struct|enum|trait) (\w+)(?:[^\n]*;$|.*?^\})", re.M | re.S)
FUNCTION = r"^pub fn {}\b.*?(?=^\{{)"
GHOST_USE = re.compile(r"^ *ghost (use [^;]*);\n", re.M)
FILES_USE = re.compile(r"^ghost (use [^;]*);\n", re.M)
RUST_USE = re.compile(r"^(?:pub )?use ([^;]*);", re.M)
CLAUSE = re.compile(r"\b(?:(?:requires|ensures)(?:\s+\w+)?|ghost \w+:|by)\s+(?=\{)")
OF_RUST = set("Vec Option Result String Box Self Sync Send Drop Copy Clone".split())


def close_of(text, at):
    """The place behind the bracket that closes the one at a place."""
    depth = 0
    for place in range(at, len(text)):
        depth += {"{": 1, "}": -1}.get(text[place], 0)
        if depth == 0:
            return place + 1
    raise NotUnderstood("a bracket that is not closed")


def ghost_terms(text):
    """The terms in the clauses and ghost members of a text, and the text without them."""
    terms, found = [], CLAUSE.search(text)
    while found:
        end = close_of(text, found.end())
        terms.append(text[found.end() + 1:end - 1])
        text = text[:found.start()] + text[end:]
        found = CLAUSE.search(text)
    return terms, text


def by_depth(text):
    """The text outside of all brackets, and the text inside of them."""
    outer, inner, depth = "", "", 0
    for letter in text:
        depth += letter in "({[<"
        outer, inner = (outer, inner + letter) if depth else (outer + letter, inner)
        depth -= letter in ")}]>"
    return outer, inner


def types_named(text):
    """The types that a text in Rust names, but not the lengths of arrays."""
    text = re.sub(r"\[([^\[\];]*);[^\[\]]*\]", r"[\1]", text)
    return re.findall(r"(?<![\w'])(?:\w+::)*([A-Z]\w*)", text)


def parameters_of(text):
    """The type parameters that a text begins with, and the types that a trait leaves open."""
    within = by_depth(text)[1].split(">")[0] if text.startswith("<") else ""
    return {*re.findall(r"(?:^<|, )(?:const )?(\w+)", within), *re.findall(r"\btype (\w+)", text)}


def paths_of(text, before=()):
    """The names that a `use` brings, each with its path."""
    text = text.strip()
    group = re.match(r"((?:\w+::)*)\{(.*)\}\Z", text, re.S)
    if not group:
        path, _, other = text.partition(" as ")
        path = (*before, *path.split("::"))
        return {other or path[-1]: path}
    found, part, depth = {}, "", 0
    for letter in group[2] + ",":
        depth += {"{": 1, "}": -1}.get(letter, 0)
        if letter == "," and not depth:
            found |= paths_of(part, (*before, *group[1].split("::")[:-1])) if part.strip() else {}
            part = ""
        else:
            part += letter
    return found


class Source:
    """A file of src/: its types and traits, and what its `use` lines bring."""

    def __init__(self, world, file, text):
        self.world, self.file = world, file
        self.text = re.sub(r"^\s*#!?\[.*\]\n", "", re.sub(r" *//.*", "", text), flags=re.M)
        self.types, self.uses = {}, {}
        for use in RUST_USE.finditer(self.text):
            self.uses |= paths_of(use[1])
        for found in TYPE.finditer(self.text):
            self.types[found[2]] = self.declare(found)

    def declare(self, found):
        one = Definition(self, found[2], found[1])
        one.lines = count_lines(found[0])
        body = found[0][found.end(2) - found.start():]
        one.parameters = parameters_of(body)
        value = self.value_of(found[2])
        if found[1] == "enum":
            outer, body = by_depth(body[body.index("{") + 1:-1])
            one.constructors = re.findall(r"\w+", outer)
        one.pieces = [value or body]
        return one

    def value_of(self, name):
        """The block with what contracts see in place of a struct's fields, where there is one."""
        block = re.search(rf"^impl(?:<[^\n]*>)? Model for {name}\b.*?^\}}", self.text, re.M | re.S)
        value = block and re.search(r"ghost Value = (?=\{)", block[0])
        if not value:
            return None
        uses = "".join(use[0] for use in GHOST_USE.finditer(block[0]))
        return uses + "ghost value: " + block[0][value.end():close_of(block[0], value.end())]

    def contract(self, name):
        """A function's signature and its clauses."""
        found = re.search(FUNCTION.format(name), self.text, re.M | re.S)
        if not found:
            return None
        one = Definition(self, name, "fn")
        one.parameters = parameters_of(found[0].partition(name)[2])
        one.pieces = [found[0]]
        return one

    def reads_of(self, one):
        text = one.pieces[0]
        uses = FILES_USE.findall(self.text) + GHOST_USE.findall(text)
        ghosts = Module(self.world, self.file, "\n".join(uses))
        terms, rest = ghost_terms(GHOST_USE.sub("", text))
        bound = {"self", "result", "Self", *re.findall(r"(\w+):(?!:)", text)} | one.parameters
        names = Names(ghosts.is_constructor)
        for term in terms:
            names.term(tree_of(words_of(term)), bound)
        found = [ghosts.meant(word) for word in names.found if not is_plain(word)]
        types = [self.type_of(name) for name in types_named(rest)
                 if name not in one.parameters | OF_RUST | {one.name}]
        return found + [it for it in types if it]

    def type_of(self, name):
        """A type of these crates by its name in this file, or nothing where it is the library's."""
        if name in self.types:
            return self.types[name]
        path = self.uses.get(name)
        if path is None:
            raise NotUnderstood(f"{self.file}: {name}")
        crate = self.file.split("/")[1] if path[0] in ("crate", "self", "super") else path[0]
        return self.world.type_named(crate, path) if self.world.has(crate) else None


class World:
    """All crates of a repository."""

    # the library's constructors without an argument that begin with a small letter
    lower = {"true", "false", "zero", "no_items", "no_members"}

    def __init__(self, top):
        self.top, self.files = Path(top), {}

    def has(self, crate):
        return (self.top / "crates" / crate).is_dir()

    def read(self, kind, file):
        if file not in self.files:
            self.files[file] = kind(self, file, (self.top / file).read_text(encoding="utf8"))
        return self.files[file]

    def sources(self, crate):
        folder = self.top / "crates" / crate / "src"
        for path in sorted(folder.rglob("*.rt")):
            yield self.read(Source, path.relative_to(self.top).as_posix())

    def contract(self, crate, name):
        """The contract of a public function of a crate."""
        found = [it for it in (source.contract(name) for source in self.sources(crate)) if it]
        if len(found) != 1:
            raise NotUnderstood(f"the function {name} of {crate}")
        return found[0]

    def type_named(self, crate, path):
        found = [it for it in self.sources(crate) if path[-1] in it.types]
        if len(found) > 1:
            found = [it for it in found if "/".join(path[1:-1]) in it.file]
        if len(found) != 1:
            raise NotUnderstood("the type " + "::".join(path))
        return found[0].types[path[-1]]

    def declared(self, crate, parts):
        """A type of src, by its module in the specs that are made of it."""
        if parts[-1] == "TheVariants":
            parts = parts[:-1]
        for end in (".rt", "/mod.rt"):
            file = f"crates/{crate}/src/{'/'.join(parts[:-1])}{end}"
            if (self.top / file).is_file():
                return self.read(Source, file).types[parts[-1]]
        raise NotUnderstood(f"{crate}: {'.'.join(parts)}")

    def find(self, module, name):
        """What a module has under a name, or hands on."""
        root, _, inside = module.partition(".")
        crate, *rest = inside.split(".")
        if root != "Rattle" or not self.has(crate):
            return Library(name)
        if rest[1:2] == ["declared"]:
            return self.declared(crate, rest[2:])
        file = f"crates/{crate}/{'/'.join(rest)}.antt"
        if (self.top / file).is_file():
            return self.read(Module, file).find(name)
        handed = self.read(Module, f"crates/{crate}/specs/Lib.antt").aliases
        if handed.get(rest[-1], module) == module:
            raise NotUnderstood(f"the module {module}")
        return self.find(handed[rest[-1]], name)
