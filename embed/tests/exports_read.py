"""What nitpicker.h, the sources of the exports and the Rust crate declare, as exports.py compares
it."""
import re

# What C has for a type of the sources, and its size.
NUMBERS = {"u8": ("uint8_t", 1), "u16": ("uint16_t", 2), "u32": ("uint32_t", 4),
           "u64": ("uint64_t", 8), "i8": ("int8_t", 1), "i16": ("int16_t", 2),
           "i32": ("int32_t", 4), "i64": ("int64_t", 8), "usize": ("size_t", 8),
           "bool": ("bool", 1)}
SLICES = {"&[u8]": "const char *", "&mut [u8]": "char *", "&[u32]": "const uint32_t *",
          "&mut [u32]": "uint32_t *"}


def snake(name):
    """The name that a struct of the sources has in C: NitServer is nit_server."""
    return re.sub(r"(?<=[a-z])(?=[A-Z])", "_", name).lower()


# The header.


class Header:
    """Functions as (answer, [(type, name)]), structs as [(type, name, count)], numbers, the numbers
    of the answers among these, and those with a text. A name that a `typedef` gives stands for its
    type.
    """

    def __init__(self, text):
        text = re.sub(r"/\*.*?\*/", " ", text, flags=re.S)
        self.defined = {k: int(value) for k, value in re.findall(r"#define (\w+) (\d+)\n", text)}
        text = re.sub(r"^\s*#.*$", "", text, flags=re.M)
        for kind, name in re.findall(r"typedef (\w+) (\w+);", text):
            text = re.sub(rf"\b{name}\b", kind, text)
        self.texts = re.findall(r"\bNIT_TEXT\((\w+)\);", text)
        text = re.sub(r"static inline .*?\n}", "", text, flags=re.S)
        answers = re.search(r"enum nit_answer \{(.*?)\};", text, re.S)
        self.answers = re.findall(r"(\w+)\s*=", answers[1]) if answers else []
        self.structs = {name: self.fields(body) for name, body in
                        re.findall(r"struct (\w+) \{(.*?)\};", text, re.S)}
        self.constants = {name: int(value, 0) for body in
                          re.findall(r"enum \w+ \{(.*?)\};", text, re.S)
                          for name, value in re.findall(r"(\w+)\s*=\s*(\w+)", body)}
        text = re.sub(r"(struct|enum) \w+ \{.*?\};", "", text, flags=re.S)
        self.functions = {
            name: (answer.strip(), self.arguments(words)) for answer, name, words in
            re.findall(r"((?:struct )?\w+)\s+(\w+)\(([^)]*)\);", text)}

    @staticmethod
    def arguments(text):
        pairs = []
        for part in text.split(","):
            match = re.fullmatch(r"(.*?[ *])(\w+)", " ".join(part.split()))
            pairs.append((match[1].strip(), match[2]))
        return pairs

    @staticmethod
    def fields(body):
        fields = []
        for line in body.split(";")[:-1]:
            match = re.fullmatch(r"((?:const )?(?:struct )?\w+)\s+(.*)", line.strip(), re.S)
            kind, names = match.groups()
            for name in names.split(","):
                pointer, word, count = re.fullmatch(r"\s*(\**)(\w+)(?:\[(\d+)\])?", name).groups()
                fields.append((f"{kind} {pointer}".strip(), word, int(count or 0)))
        return fields


# The sources.


def lengths_in(text):
    """The constants that lengths of arrays are."""
    return {name: int(value) for name, value in re.findall(r"const (\w+): usize = (\d+);", text)}


class Sources:
    """The exports and the `#[repr(C)]` structs of a crate, each as the header is to have it; and
    lengths that other crates name."""

    def __init__(self, text, lengths=None):
        text = re.sub(r"//.*$", "", text, flags=re.M)
        self.lengths = {**(lengths or {}), **lengths_in(text)}
        self.structs = {self.struct_of(name): self.fields(body) for name, body in
                        re.findall(r"#\[repr\(C\)\][^{]*?struct (\w+) \{(.*?)\n\}", text, re.S)}
        self.functions = {
            name: ("void" if answer is None else self.type_of(answer), self.arguments(words))
            for name, words, answer in self.exports(text)}
        self.constants = {name: int(value.replace("_", ""), 0) for name, value in
                          re.findall(r"const (\w+): u32 = (\w+);", text)}

    @staticmethod
    def struct_of(name):
        return snake(name)

    @staticmethod
    def exports(text):
        pattern = (r"#\[unsafe\(no_mangle\)\]\s*pub extern \"C\" fn (\w+)\s*\(([^)]*)\)"
                   r"(?:\s*->\s*(\w+))?")
        return [(name, words, answer or None) for name, words, answer in re.findall(pattern, text)]

    def length_of(self, word):
        """The number that an array's length is; 0 where no constant has the name."""
        return int(word) if word.isdigit() else self.lengths.get(word, 0)

    def type_of(self, word):
        if word in NUMBERS:
            return NUMBERS[word][0]
        if word.startswith("*mut "):
            return "void *"
        if word.startswith("&mut "):
            return f"struct {self.struct_of(word[5:])} *"
        if word.startswith("&"):
            return f"const struct {self.struct_of(word[1:])} *"
        return "struct " + self.struct_of(word)

    def arguments(self, text):
        pairs = []
        for part in filter(None, (" ".join(part.split()) for part in text.split(","))):
            name, kind = (word.strip() for word in part.split(":"))
            if kind in SLICES:
                pairs += [(SLICES[kind], name), ("size_t", None)]
            elif kind != "Global":
                pairs.append((self.type_of(kind), name))
        return pairs

    def fields(self, body):
        fields = []
        for line in re.sub(r"\{.*?\}", "", body).split(",\n"):
            match = re.fullmatch(r"\s*(?:pub )?(ghost )?(\w+): (.*?),?\s*", line, re.S)
            if match and not match[1] and match[3] != "Global":
                array = re.fullmatch(r"\[(\w+); (\w+)\]", match[3])
                kind, count = (array[1], self.length_of(array[2])) if array else (match[3], 0)
                fields.append((self.type_of(kind), match[2], count))
        return fields


class Binding(Sources):
    """What the Rust crate declares of the library."""

    POINTERS = {"*mut Server": "struct nit_server *",
                "*const Server": "const struct nit_server *", "*const u32": "const uint32_t *",
                "*mut u32": "uint32_t *", "*const c_char": "const char *", "*mut c_char": "char *",
                "*mut c_void": "void *"}

    @staticmethod
    def struct_of(name):
        return "nit_" + snake(name)

    @staticmethod
    def exports(text):
        return re.findall(r"pub fn (\w+)\(([^)]*)\) -> (\w+);", text)

    def type_of(self, word):
        return self.POINTERS.get(word) or super().type_of(word)


# Sizes by the rules of `#[repr(C)]`.


def shape_of(structs, kind):
    """The size and the alignment of a type."""
    if kind.endswith("*"):
        return 8, 8
    for word, size in NUMBERS.values():
        if word == kind:
            return size, size
    _, size, most = layout(structs, kind.removeprefix("struct "))
    return size, most


def layout(structs, name):
    """The place of each field, the size, and the alignment."""
    places, at, most = [], 0, 1
    for kind, field, count in structs[name]:
        size, align = shape_of(structs, kind)
        at = -(-at // align) * align
        places.append((field, at))
        at, most = at + size * (count or 1), max(most, align)
    return places, -(-at // most) * most, most


def asserts(structs, names):
    """C that does not compile where a struct of the header has another shape."""
    lines = ['#include "nitpicker.h"']
    for name in sorted(names):
        places, size, align = layout(structs, name)
        lines.append(f'_Static_assert(sizeof(struct {name}) == {size}, "size of {name}");')
        lines.append(f'_Static_assert(_Alignof(struct {name}) == {align}, "alignment of {name}");')
        lines += [f'_Static_assert(offsetof(struct {name}, {field}) == {at}, '
                  f'"place of {name}.{field}");' for field, at in places]
    return "\n".join(lines) + "\n"


def named_bytes(header):
    """C that does not compile where a struct of the header has bytes that no field names."""
    lines = []
    for name, fields in sorted(header.structs.items()):
        total = " + ".join(f"sizeof(((struct {name} *)0)->{field})" for _, field, _ in fields)
        lines.append(f'_Static_assert(sizeof(struct {name}) == {total}, '
                     f'"{name} has bytes that no field names");')
    return "\n".join(lines) + "\n"
