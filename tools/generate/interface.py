"""The files that are made of crates/krb_c/interface.toml."""
import re
import sys
import tomllib
from dataclasses import dataclass, field

import jinja2

from . import ROOT, causes, layout, manual, sizes

TABLE = "crates/krb_c/interface.toml"
# The files, and the templates that they are made by.
TEMPLATES = {
    "include/fevstunik.h": "fevstunik.h",
    "crates/krb_c/src/code.rt": "code.rt",
    "crates/krb_c/src/cause.rt": "cause.rt",
    "crates/krb_c/src/handles.rt": "handles.rt",
    "crates/krb_c/src/sizes.rt": "sizes.rt",
    "crates/krb_c/src/structs.rt": "structs.rt",
    "crates/krb_c/src/version.rt": "version.rt",
    "crates/krb_c/specs/Codes.antt": "Codes.antt",
    "crates/krb_c/specs/Sizes.antt": "Sizes.antt",
    "python/fevstunik/_codes.py": "_codes.py",
    "python/fevstunik/_interface.py": "_interface.py",
    "tests/c/structs.h": "structs.h",
    "debian/libfevstunik0.symbols": "libfevstunik0.symbols",
    "packaging/fevstunik.map": "fevstunik.map",
    "packaging/wiping/calls.c": "calls.c",
    "docs/man/fevstunik.3": "fevstunik.3",
}
# What is made of each handle: the proofs that nothing is lost between it and its place.
HANDLE_PROOFS = "crates/krb_c/proofs/handles"
# Numbers: their types in Rattle, and in C.
NUMBERS = {
    "u8": "uint8_t",
    "u16": "uint16_t",
    "u32": "uint32_t",
    "u64": "uint64_t",
    "i16": "int16_t",
    "i32": "int32_t",
    "i64": "int64_t",
    "usize": "size_t",
    "bool": "bool",
}
# The names of codes in a text, also abbreviated ones.
NAMED = re.compile(r"\b(?:FEVSTUNIK)?_([A-Z][A-Z0-9_]*)\b")
RANGE = re.compile(r"from FEVSTUNIK_(\w+) to FEVSTUNIK_(\w+)")


@dataclass(frozen=True)
class Code:
    """A code: its number, its text for people, the code of RFC 4120 that belongs to it, and a note for programmers."""

    name: str
    number: int
    text: str
    kerberos: int | None = None
    note: str = ""
    hidden: bool = False
    placed: bool = False

    @property
    def rattle(self):
        """What krb_ap calls the cause."""
        return camel(self.name)

    @property
    def said(self):
        """What the header says of it."""
        return (f"{self.kerberos}: " if self.kerberos is not None else "") + self.text + (f"; {self.note}" if self.note else "")


@dataclass(frozen=True)
class Group:
    """Codes, with what is said above them. The causes and the breaches have a table of their own."""

    codes: list = field(default_factory=list)
    doc: str = ""
    causes: bool = False
    breaches: bool = False

    @property
    def shown(self):
        return [it for it in self.codes if not it.hidden]


@dataclass(frozen=True)
class Field:
    """A field of a struct, with its type in Rattle: a number, a struct, or an array of numbers. If a struct that ends before it is valid too,
    `shorter` says what that stands for."""

    name: str
    type: str
    text: str = ""
    shorter: str = ""

    @property
    def element(self):
        """The type, or that of an array's elements, and how many these are, or None."""
        array = re.fullmatch(r"\[(\w+); (\d+)\]", self.type)
        return (array[1], int(array[2])) if array else (self.type, None)

    @property
    def is_span(self):
        return self.type == "span"

    def declared(self):
        """Its type and its name in C."""
        of, count = self.element
        return c_type(of), self.name + (f"[{count}]" if count else "")

    def rattle(self):
        return self.type if self.type.startswith("[") or self.type in NUMBERS else camel(self.type)

    def zero_in_rattle(self):
        of, count = self.element
        zero = "false" if of == "bool" else "0"
        return f"[{zero}; {count}]" if count else zero

    def zero_in_definitions(self):
        of, count = self.element
        zero = "false" if of == "bool" else "0"
        return f"replicate {count} {zero}" if count else zero

    def python(self):
        of, count = self.element
        return (ctypes_name(of) if of in NUMBERS else camel(of)) + (f" * {count}" if count else "")


@dataclass(frozen=True)
class Type:
    """A struct with its fields, or an enum with its numbers. A struct that is sized begins with its size, and may be shorter."""

    kind: str
    name: str
    doc: str
    fields: list = field(default_factory=list)
    numbers: list = field(default_factory=list)
    compared: str = ""
    sized: bool = False

    @property
    def rattle(self):
        """Its name in Rattle, and in Python."""
        return camel(self.name)


@dataclass(frozen=True)
class Handle:
    """A handle: its names in C and in Rattle, what it holds, and what that is in contracts; and the handle that is its first member, if any."""

    name: str
    doc: str
    of: str
    rattle: str
    holds: str
    model: str
    uses: str
    row: str
    contains: str = ""

    @property
    def members(self):
        """Its members in C."""
        return [*([f"fevstunik_{self.contains} {self.contains};"] if self.contains else []), "void *opaque;"]

    @property
    def init(self):
        """The value that initializes it as empty."""
        return "{{NULL}, NULL}" if self.contains else "{NULL}"

    @property
    def python(self):
        """Its type in the package."""
        return camel(self.name) + "Handle" if self.contains else "Opaque"

    @property
    def held(self):
        """The name of the type that it holds."""
        return self.holds.split("::")[-1]


@dataclass(frozen=True)
class Function:
    """A function of the library: its arguments, what it returns, and what is said of it."""

    name: str
    arguments: list
    doc: str
    example: str
    result: str = "answer"
    returns: str = ""
    codes: list = field(default_factory=list)
    python: str = ""
    since: str = "0.2.0"
    sized: tuple = ()
    nested: tuple = ()

    @property
    def parts(self):
        """The names and kinds of the arguments."""
        return [it.split(": ") for it in self.arguments]

    @property
    def c_result(self):
        return "void" if self.result == "nothing" else c_type(self.result)

    def parameters(self):
        return [parameter for name, kind in self.parts for parameter in c_parameters(name, kind)]

    def said(self):
        """The header's comment."""
        return "\n\n".join(it for it in (self.doc.strip("\n"), self.returns.strip("\n"), indented(self.example)) if it)

    def prototype(self):
        return self.prototype_as(f"fevstunik_{self.name}")

    def prototype_as(self, name):
        return layout.prototype(self.c_result, name, self.parameters())

    def calls_proved(self):
        """A line of C that calls the proved function with the same parameters, and keeps what it returns."""
        kept = "" if self.result == "nothing" else f"{self.c_result} {self.kept} = "
        whole = {f"{name}": f"&whole_{name}" for name, _ in self.copied}
        names = [re.search(r"\w+$", it)[0] for it in self.parameters()]
        return layout.listed(f"    {kept}proved_{self.name}(", [whole.get(it, it) for it in names])

    @property
    def copied(self):
        """The arguments that the proved function gets as whole structs, whatever their size, and these structs."""
        return [(name, kind.removeprefix("in ")) for name, kind in self.parts if kind.removeprefix("in ") in self.sized]

    @property
    def kept(self):
        """The variable for what it returns."""
        return "number" if self.result in NUMBERS else self.result

    def python_types(self):
        return [f"POINTER({camel(kind.split()[-1])}Handle)" if kind.split()[-1] in self.nested else python_argument(kind) for _, kind in self.parts]

    def python_result(self):
        return "None" if self.result == "nothing" else ctypes_name(self.result) if self.result in NUMBERS else camel(self.result)


def codes_of(group):
    """The codes of a group's table, or those of the causes or the breaches."""
    rows = causes.causes() if group.get("causes") else causes.breaches() if group.get("breaches") else None
    if rows is None:
        return [Code(**code) for code in group["codes"]]
    kerberos = causes.kerberos_codes()
    return [Code(it.c_name, it.number, it.text, kerberos[it.code], it.note, placed=it.has_fault) for it in rows]


def indented(code):
    return "\n".join("    " + line for line in code.strip("\n").split("\n"))


def c_type(name):
    return NUMBERS.get(name) or f"fevstunik_{name}"


def ctypes_name(of):
    """The type of ctypes for a number's."""
    return "c_" + (NUMBERS[of] if of == "usize" else NUMBERS[of].removesuffix("_t"))


def camel(name):
    return "".join(word.capitalize() for word in name.split("_"))


def c_parameters(name, kind):
    """The parameters of C for one argument."""
    how, _, of = kind.rpartition(" ")
    if kind in ("bytes", "buffer"):
        return [f"{'const ' if kind == 'bytes' else ''}uint8_t *{name}", f"size_t {name}_size"]
    if not how:
        return [f"{c_type(of)} {name}"]
    return [f"{'const ' if how == 'in' else ''}{c_type(of)} *{name}"]


def python_argument(kind):
    how, _, of = kind.rpartition(" ")
    if kind in ("bytes", "buffer"):
        return "*DATA" if kind == "bytes" else "*INTO"
    if how == "handle":
        return "HANDLE"
    named = ctypes_name(of) if of in NUMBERS else camel(of)
    return f"POINTER({named})" if how else named


class Interface:
    """The table."""

    def __init__(self, table):
        self.version = table["version"]
        self.head = table["head"]
        self.codes_doc, self.types_doc = table["codes"]["doc"], table["types"]["doc"]
        self.groups = [Group(**(it | {"codes": codes_of(it)})) for it in table["codes"]["group"]]
        self.types = [Type(**(it | {"fields": [Field(**one) for one in it.get("fields", [])]})) for it in table["types"]["type"]]
        self.handles = [Handle(**it) for it in table["handle"]]
        self.codes = [it for group in self.groups for it in group.codes]
        self.structs = [it for it in self.types if it.kind == "struct"]
        [self.options] = [it for it in self.structs if it.sized]
        self.options_size = self.size_of(self.options.fields)
        cuts = [at for at, it in enumerate(self.options.fields) if it.shorter]
        self.shorter = [(self.size_of(self.options.fields[:at]), self.options.fields[:at], self.options.fields[at:]) for at in cuts]
        self.causes = [it for group in self.groups if group.causes for it in group.codes]
        self.breaches = [it for group in self.groups if group.breaches for it in group.codes]
        self.sections = [(it["title"], [self.function(one) for one in it["function"]]) for it in table["section"]]
        self.functions = [it for _, functions in self.sections for it in functions]

    def size_of(self, fields):
        return sizes.size_of(fields, {it.name: it.fields for it in self.structs})

    def function(self, row):
        """A function's row, whose text may name the first and the last cause and breach."""
        returns = row.get("returns", "")
        for kind, codes in (("cause", self.causes), ("breach", self.breaches)):
            for name, code in zip(("first", "last"), codes[:1] + codes[-1:]):
                returns = returns.replace(f"{{{name}_{kind}}}", f"FEVSTUNIK_{code.name}")
        sized, nested = tuple(it.name for it in self.structs if it.sized), tuple(it.name for it in self.handles if it.contains)
        return Function(**(row | {"returns": returns}), codes=named_codes(self, returns), sized=sized, nested=nested)

    def number(self):
        major, minor, patch = self.version
        return 10_000 * major + 100 * minor + patch


def named_codes(interface, text):
    """The codes that a text names, in their order; a range stands for all of it."""
    numbers = {it.name: it.number for it in interface.codes if not it.hidden}
    within = lambda found: ", ".join(f"FEVSTUNIK_{name}" for name, at in numbers.items() if numbers[found[1]] <= at <= numbers[found[2]])
    return list(dict.fromkeys(NAMED.findall(RANGE.sub(within, " ".join(text.split())))))


def faults(interface):
    """What is wrong with the table."""
    shown = [it for it in interface.codes if not it.hidden]
    names = {it.name for it in interface.types}
    fields = {one.name for it in interface.structs for one in it.fields}
    if [it.number for it in shown] != sorted({it.number for it in shown}):
        yield "the codes aren't in order"
    for it in shown:
        if fields & set(re.findall(r"`(\w+)`", it.text)):
            yield f"the text of {it.name} names a field of a struct"
    lengths = [size for size, _, _ in interface.shorter] + [interface.options_size]
    if lengths != sorted(set(lengths)):
        yield f"options of two versions have one size: {lengths}"
    for it in interface.functions:
        for name, kind in it.parts:
            of = kind.split(" ")[-1]
            if of not in NUMBERS and of not in ("bytes", "buffer") and of not in names and of not in {one.name for one in interface.handles}:
                yield f"{it.name} has an argument of a type that isn't known: {name}: {kind}"
        if f"fevstunik_{it.name}(" not in it.example:
            yield f"the example of {it.name} doesn't call it"
    for it in interface.sections[0][1]:
        if {it.result, *(kind.split(" ")[-1] for _, kind in it.parts)} - set(NUMBERS):
            yield f"{it.name} is declared before the types, and takes or returns more than numbers"
    returned = {code for it in interface.functions for code in it.codes}
    if returned != {it.name for it in shown}:
        yield f"no function's text says that it returns {sorted({it.name for it in shown} - returned)}, and no code is {sorted(returned - {it.name for it in shown})}"


def environment():
    made = jinja2.Environment(
        loader=jinja2.FileSystemLoader(ROOT / "tools/generate/templates"), undefined=jinja2.StrictUndefined, trim_blocks=True, lstrip_blocks=True,
        keep_trailing_newline=True, autoescape=False)
    made.filters |= {"comment": layout.comment, "inner_comment": layout.inner_comment, "members": layout.members, "doc": layout.doc,
                     "definition_comment": layout.definition_comment, "sentence": layout.sentence}
    return made


def files():
    """The text of each file, by its path."""
    interface = Interface(tomllib.loads((ROOT / TABLE).read_text()))
    for fault in faults(interface):
        sys.exit(f"{TABLE}: {fault}")
    made = environment()
    page = manual.Page(interface)
    made.filters |= {"told": page.told, "body": page.body, "code": manual.code, "argument": manual.argument}
    words = {"interface": interface, "manual": manual}
    proofs = {
        f"{HANDLE_PROOFS}/{it.rattle}Handle/{call}/Proof.antt": made.get_template(f"{call}.antt.j2").render(it=it)
        for it in interface.handles for call in ("of_place", "into_place")}
    texts = {path: made.get_template(f"{name}.j2").render(words) for path, name in TEMPLATES.items()} | proofs
    return texts | layout.laid_out({path: text for path, text in texts.items() if path.endswith(".rt")})
