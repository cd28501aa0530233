"""The messages of tokens in crates/krb_gss: their sources and definitions, which are made of the table messages.toml.

The table says what its entries mean. `rattle fmt` lays the files out, as `rt fmt` does.
"""
import textwrap
import tomllib
from dataclasses import dataclass

from . import ROOT, layout
from .messages import MADE, comment

PLACE = "crates/krb_gss"
CRATE = ROOT / PLACE
# The kinds of elements, by their universal tags (X.690, section 8).
KINDS = {"BIT STRING": 0x03, "OCTET STRING": 0x04, "OBJECT IDENTIFIER": 0x06, "ENUMERATED": 0x0A}
HEAD = {
    "Module": "The messages of tokens as parts that are found in place (RFC 2743, section 3.1; RFC 4178, section 4): "
    "each field with its number, and whether it may be absent; and the places of the fields by their names.",
    "Found": "The places in messages that are read: those of their fields, in the order of their numbers.",
}


def tag(number):
    return f"{number:#04x}"


@dataclass(frozen=True)
class Field:
    """One row of a message."""

    name: str
    rust: str = ""
    doc: str = ""
    number: int | None = None
    kind: str = ""
    each: str = ""
    optional: bool = False


@dataclass(frozen=True)
class Message:
    """An entry of the table, or one of its readings. `parts` are the messages that a field can be, by their names."""

    name: str
    source: str
    kind: str
    view: str
    fields: list
    parts: dict
    around: tuple = ()
    more: bool = False
    choice: bool = False
    said: str = ""

    @property
    def named(self):
        """The fields that its struct has."""
        return [it for it in self.fields if it.rust]

    @property
    def doc(self):
        return f"{self.name} ({self.source}){', as ' + self.said if self.said else ''}."

    def inside(self, field):
        """What is in a field, in definitions and in sources."""
        if field.kind in self.parts:
            return self.parts[field.kind].kind, f"{self.parts[field.kind].view}<'a>"
        return f"(last {tag(KINDS[field.kind])} anything)", f"Last<{tag(KINDS[field.kind])}, Cursor<'a>>"

    # ---- definitions

    def part(self, field, rest):
        """The parts from a field on, before others."""
        if field.number is None and field.each:
            return f"(each_of {tag(KINDS[field.each])})"
        if field.number is None and not field.kind:
            return "anything"
        inside = self.inside(field)[0] if field.number is not None else "anything"
        outer = tag(0xA0 + field.number) if field.number is not None else tag(KINDS[field.kind])
        return f"({'may' if field.optional else 'must'} {outer} {inside}\n    {rest})"

    def definition(self):
        """Its parts."""
        numbers = [it.number for it in self.fields if it.number is not None]
        body = f"(unknown {tag(0xA0)} {tag(0xA0 + self.last)})" if self.more else "ended" if numbers else ""
        for it in reversed(self.fields):
            body = self.part(it, body)
        tags = [*(["choice"] if self.choice else []), *map(tag, self.around)]
        for it in reversed(tags):
            body = f"(last {it} {body})"
        body = body[1:-1] if body.startswith("(") else body
        choice, argument = ("ℕ → ", " choice") if self.choice else ("", "")
        return f"-- {self.doc}\nabbrev pub {self.kind} : {choice}Parts\n{self.kind}{argument} =\n    {body}\n"

    @property
    def last(self):
        return max(it.number for it in self.all_fields)

    @property
    def all_fields(self):
        return self.fields

    def places(self):
        """The values of its fields, by their names: the paths into nested pairs."""
        alone = len(self.fields) == 1 and not self.more
        of = f"PlacesOf {self.kind}" if not self.choice else ""
        for at, it in enumerate(self.fields):
            if it.rust and not alone and of:
                last = at + 1 == len(self.fields) and not self.more
                path = ".1" * at if last else ".1" * at + ".0"
                inside = f"PlacesOf {self.parts[it.kind].kind}" if it.kind in self.parts else "Place"
                value = f"Option {inside}" if it.optional else inside
                yield f"abbrev pub {self.kind}_{it.rust} : {of} → {value}\n{self.kind}_{it.rust} v = v{path}\n"

    def found(self):
        """The places of its struct."""
        values = []
        for it in self.fields:
            if not it.rust:
                values.append("tt")
            elif it.kind in self.parts:
                values.append(f"{self.parts[it.kind].kind}_of m.{it.rust}")
            else:
                values.append(f"option_map (λ l. l.0) m.{it.rust}" if it.optional else f"m.{it.rust}")
        if self.more:
            values.append("tt")
        value = values[-1]
        for it in reversed(values[:-1]):
            value = f"({it}, {value})"
        return f"abbrev pub {self.kind}_of : {self.view} → PlacesOf {self.kind}\n{self.kind}_of m = {value}\n"

    # ---- sources

    def struct_type(self, field):
        if field.kind in self.parts:
            return f"{self.parts[field.kind].view}<'a>"
        return f"Option<{self.inside(field)[1]}>" if field.optional else "Cursor<'a>"

    def struct(self):
        fields = "".join(f"/// {it.doc}\npub {it.rust}: {self.struct_type(it)},\n" for it in self.named)
        return f"\n/// {self.doc}\n#[derive(Debug, Drop)]\npub struct {self.view}<'a> {{\n{fields}}}\n"

    def row_lines(self):
        """The lines that take a row apart."""
        yield from (f"let Last::<{tag(it)}, _>(row) = row;" for it in self.around)
        for at, it in enumerate(self.fields):
            ends = at + 1 == len(self.fields)
            rest = f"Unknown::<{tag(0xA0)}, {tag(0xA0 + self.last)}>" if self.more and ends else "row"
            if it.number is None and it.each:
                yield f"let Each::<{tag(KINDS[it.each])}> = row;"
            elif it.number is None and not it.kind:
                yield f"let {it.rust}: Cursor = row;"
            elif it.number is None:
                yield f"let (Field::<{tag(KINDS[it.kind])}, Cursor>({it.rust}), {rest}) = row;"
            else:
                word, inside = "Maybe" if it.optional else "Field", self.inside(it)[1].replace("<'a>", "")
                yield f"let ({word}::<{tag(0xA0 + it.number)}, {inside}>({it.rust}), {rest}) = row;"

    def value_of(self, field):
        plain = field.optional or field.kind in self.parts or field.number is None
        return field.rust if plain else f"{field.rust}: {field.rust}.0"

    def source_text(self):
        """Its struct, and how it is read."""
        lines = "\n".join(self.row_lines())
        values = ", ".join(self.value_of(it) for it in self.named)
        return self.struct() + textwrap.dedent(f"""
            impl<'a> Placed<'a> for {self.view}<'a> {{
                ghost parts = {{ {self.kind} }};

                ghost view = {{ {self.kind}_of }};

                fn find(content: Cursor<'a>) -> Result<{self.view}<'a>, Fault> {{
                    match content.parts() {{
                        Ok(row) => {{
                            {lines}
                            Ok({self.view} {{ {values} }})
                        }}
                        Err(fault) => Err(fault),
                    }}
                }}
            }}
        """)


@dataclass(frozen=True)
class Reading(Message):
    """A message that is read as one of several kinds. `numbered` are all its fields."""

    numbered: tuple = ()

    @property
    def all_fields(self):
        return self.numbered


def read_as(field, must):
    """A field that must be there if its name is one of these."""
    return Field(**{**field.__dict__, "optional": field.optional and field.name not in must})


def messages(table):
    """The messages of the table: one for each of its readings."""
    parts, found = {}, []
    for entry in table["message"]:
        fields = [Field(**it) for it in entry.pop("fields")]
        entry["around"] = tuple(entry.get("around", ()))
        readings = entry.pop("readings", None)
        for it in readings or [{}]:
            it = dict(it)
            must, none = it.pop("must", ()), it.pop("none", ())
            rows = [read_as(field, must) for field in fields if field.name not in none]
            found.append(Reading(**entry | it, fields=rows, parts=dict(parts), numbered=tuple(fields)))
        parts[found[-1].name] = found[-1]
    return found


def texts():
    """The text of each file before it is laid out, by its path in the crate."""
    found = messages(tomllib.loads((CRATE / "messages.toml").read_text()))
    read = [it for it in found if not it.choice]
    module = "\n".join(part for it in found for part in (it.definition(), *it.places()))
    structs = "\n".join(f"use Rattle.krb_gss.specs.declared.messages.{it.view}.{{{it.view}}}" for it in read)
    kinds = ", ".join(it.kind for it in read)
    places = "\n".join(it.found() for it in read)
    source = "".join(it.source_text() for it in read)
    views = ", ".join(f"{it.kind}_of" for it in read)
    return {
        "specs/Module.antt": f"""-- {MADE}
{comment('-- ', HEAD['Module'], 130)}
use Rattle.std.specs.Prelude.{{ℕ, Option}}
use Rattle.krb_der.specs.Place.{{Place}}
use Rattle.krb_der.specs.Parts.{{Parts, PlacesOf, anything, each_of, unknown, last, must, may}}

{module}""",
        "specs/Found.antt": f"""-- {MADE}
{comment('-- ', HEAD['Found'], 130)}
use Rattle.std.specs.Option.{{option_map}}
use Rattle.krb_der.specs.Parts.{{PlacesOf}}
use Rattle.krb_gss.specs.Module.{{{kinds}}}
{structs}

{places}""",
        "src/messages.rt": f"""// {MADE}
//! The messages of tokens: where their fields stand.

ghost use Rattle.krb_gss.specs.Module.{{{kinds}}};
ghost use Rattle.krb_gss.specs.Found.{{{views}}};

use krb_der::{{Cursor, Each, Fault, Field, Last, Maybe, Placed, Unknown}};
{source}""",
    }


def files():
    """The text of each file, by its path."""
    return {f"{PLACE}/{path}": text for path, text in layout.laid_out(texts()).items()}
