"""The messages' sources, definitions and some of their proofs in crates/krb_msg, which are made of their table, messages.toml.

The table says what its entries mean. `rattle fmt` lays the files out, as `rt fmt` does.
"""
import re
import textwrap
import tomllib
from collections import Counter
from dataclasses import dataclass

from . import ROOT, layout

PLACE = "crates/krb_msg"
CRATE = ROOT / PLACE

MADE = "Made from messages.toml by tools/generate/messages.py. Don't edit this file."
# The checker finds by itself that a row of so many fields is read and written right.
LONGEST_FOUND = 5
# The calls by which fields are written, or taken from what was read. `Vec::as_slice` has two clauses.
CALLS = re.compile(r"(Octets\([\w.]+)?\b(as_slice|[a-z_]+_(?:in|of|bytes))\(")


@dataclass(frozen=True)
class Kind:
    """A kind of field: what it is in definitions, its types in a view and in an owned value, and how it gets from one to the next.

    In each form, {} is the field, or what was read. Where the form for an optional field is missing, it is the same.
    """

    definition: str
    values: str
    view: str
    owned: str
    # The values of a view's and of an owned field, in definitions.
    view_value: str = "{}"
    owned_value: str = "{}"
    # What a row is read as, and how the view gets its field from that.
    read: str = ""
    taken: str = "{}"
    taken_optional: str = "{}"
    copied: str = "{}"
    copied_optional: str = "{}"
    # How it is written: `Maybe` and `MaybeRef` are for optional fields.
    written: str = "{}"
    written_optional: tuple[str, str] = ("MaybeRef", "&{}")
    # Whether it holds texts, or a key.
    has_texts: bool = False
    has_key: bool = False

    @property
    def borrows(self):
        return "'a" in self.view


def number(definition, values, rust, value="{}", written="{}"):
    """A kind whose values are copied as they are."""
    return Kind(definition, values, rust, rust, value, value, written=written)


def part(definition, view, owned, value, **more):
    """A kind with a view and an owned value of its own. `owned_VALUE` copies one that is optional."""
    return Kind(
        definition,
        f"ValueOf {definition}",
        f"{view}<'a>",
        owned,
        f"{value}_of {{}}",
        f"owned_{value}_of {{}}",
        copied="{}.to_owned(alloc)?",
        copied_optional=f"owned_{value}(alloc, &{{}})?",
        written="&{}",
        **more,
    )


def string(definition, owned, owned_value, element, word, copied, **more):
    """A kind of bytes."""
    return Kind(
        definition,
        "List ℕ",
        "&'a [u8]",
        owned,
        "{}.now",
        owned_value,
        element,
        "{}.0",
        f"{word}_bytes({{}})",
        copied,
        f"owned_{word}(alloc, &{{}})?",
        f"{element}({{}}.as_slice())",
        ("Maybe", f"{word}_in(&{{}})"),
        **more,
    )


def typed_list(definition):
    """A kind of lists of numbered bytes."""
    return Kind(
        definition,
        "List (ValueOf (typed (leaf octets)))",
        "TypedListRef<'a>",
        "Vec<Typed>",
        owned_value="owned_list_of {}.items",
        copied="{}.to_owned(alloc)?",
        copied_optional="owned_list(alloc, &{})?",
        written="&{}",
    )


SEQ_NUMBER = Kind(
    "leaf seq_number",
    "ℕ",
    "u32",
    "u32",
    read="SeqNumber",
    taken="{}.0",
    taken_optional="seq_number_of({})",
    written="SeqNumber({})",
    written_optional=("Maybe", "seq_number_in({})"),
)

KINDS = {
    "Int32": number("leaf int32", "ℤ", "i32", written="&{}"),
    "UInt32": number("leaf uint32", "ℕ", "u32", written="&{}"),
    "SeqNumber": SEQ_NUMBER,
    "Microseconds": number("leaf microseconds", "ℕ", "Microseconds"),
    "KerberosTime": number("leaf time", "ℤ", "Seconds"),
    "Flags": number("leaf flags", "ℕ", "Flags", "{}.0"),
    "OCTET STRING": string("leaf octets", "Vec<u8>", "{}.items", "Octets", "octets", "{}.to_vec(alloc)?"),
    "KerberosString": string("leaf string", "Bytes", "{}", "Text", "text", "Bytes::from_slice(alloc, {})?", has_texts=True),
    "PrincipalName": part("principal_name", "NameRef", "Name", "name", has_texts=True),
    "EncryptionKey": part("encryption_key", "KeyRef", "RawKey", "key", has_key=True),
    "Checksum": part("checksum", "TypedRef", "Typed", "typed"),
    "TransitedEncoding": part("transited_encoding", "TypedRef", "Typed", "typed"),
    "EncryptedData": part("encrypted_data", "EncryptedRef", "Encrypted", "encrypted"),
    "Ticket": part("ticket", "TicketRef", "Ticket", "ticket", has_texts=True),
    "HostAddresses": typed_list("sequence_of host_address"),
    "AuthorizationData": typed_list("authorization_data"),
}
LIFETIME = "<'a>"
# The realm of a principal, and its name, as they are written.
REALM, NAME = "Text({}.realm.as_slice())", "NameIn(&{})"


def atom(term):
    """A term as an argument, in definitions."""
    return f"({term})" if " " in term else term


@dataclass(frozen=True)
class Principal:
    """A field of an owned value that joins the realm and the name of a view."""

    field: str
    realm: str
    name: str
    doc: str
    definition: str = ""


@dataclass(frozen=True)
class Field:
    """One row of a message."""

    number: int
    name: str
    rust: str = ""
    kind: str = ""
    optional: bool = False
    doc: str = ""
    constant: int | None = None
    named: str = ""
    group: str = ""

    @property
    def of(self):
        return KINDS[self.kind]

    @property
    def key(self):
        """Its name in structs."""
        return self.rust or self.name.replace("-", "_")

    @property
    def constant_name(self):
        """Its constant, in sources."""
        return f"{{ {self.named} }}" if self.named else str(self.constant)

    @property
    def tag(self):
        return f"{0xA0 + self.number:#x}"

    @property
    def definition(self):
        inner = f"leaf (constant {self.constant})" if self.constant is not None else self.of.definition
        return f"{'may' if self.optional else 'must'} (field {self.number} {atom(inner)})"

    @property
    def values(self):
        return f"Option {atom(self.of.values)}" if self.optional else self.of.values

    def in_struct(self, rust):
        return f"Option<{rust}>" if self.optional else rust

    def value(self, form, at):
        """The value of this field of `at`, in definitions."""
        place = f"{at}.{self.key}"
        if not self.optional or form == "{}":
            return form.format(place)
        word, _, rest = form.partition(" ")
        function = word if rest == "{}" else f"(λ x. {form.format('x')})"
        return f"option_map {function} {place}"

    @property
    def is_plain(self):
        """Whether it is an optional number that is read, kept and written as it is."""
        return self.optional and self.of.owned_value == "{}" and self.of.written_optional[0] == "MaybeRef"

    @property
    def read(self):
        """The pattern of what is read."""
        if self.constant is not None:
            return f"Field::<{self.tag}, Constant<{self.constant_name}>>(_)"
        return f"{'Maybe' if self.optional else 'Field'}::<{self.tag}, {self.of.read or self.of.view.removesuffix(LIFETIME)}>({self.key})"

    @property
    def taken(self):
        return (self.of.taken_optional if self.optional else self.of.taken).format(self.key)

    @property
    def copied(self):
        return (self.of.copied_optional if self.optional else self.of.copied).format(f"self.{self.key}")


def row_of(values):
    """A row of values in definitions. A line ends only behind one of them."""
    return " ".join([unbroken(f"{it} ▸") for it in values] + ["tt"])


def unbroken(term):
    """A term that stays on one line where a text is filled."""
    return term.replace(" ", "\xa0")


def filled(text, width):
    """A text on lines that aren't too long."""
    return textwrap.fill(text, width, subsequent_indent="    ", break_long_words=False, break_on_hyphens=False).replace("\xa0", " ")


def record_text(name, kept):
    """A record of these fields."""
    return f"pub record {name} : Type 0 where\n" + "".join(f"  pub {key} : {values}\n" for key, values, _ in kept)


class Message:
    """A message, with the text that each of its files has of it."""

    def __init__(self, name, section, kind, view, owned, fields, **more):
        self.name, self.section, self.kind = name, section, kind
        self.view_file, self.view = view.split("::")
        self.owned_file, self.owned = owned.split("::")
        self.rows = [Field(**it) for it in fields]
        self.fields = [it for it in self.rows if it.constant is None]
        self.principals = [Principal(**it) for it in more.get("principals", [])]
        self.application, self.record, self.accessor = more.get("application"), more.get("record"), more.get("accessor")
        self.is_read = more.get("is_read", True)
        self.groups = more.get("groups", {})
        self.parses = more.get("parses", "a message of this type")
        self.view_derive = more.get("view_derive", self.derive)
        self.doc = more.get("doc", f"{'An' if name[0] in 'AEIOU' else 'A'} `{name}` (RFC 4120, section {section}).")
        self.view_doc = more.get("view_doc", f"{self.doc} Its {self.slices} are slices of the input.")
        self.base = self.view.removesuffix("Ref")
        self.tag = f"tag::{kind.upper()}"
        self.short = more.get("short", kind)
        self.view_value = f"{self.short}_of"
        self.owned_value = f"owned_{self.view_value}"

    # ---- what follows from the fields

    @property
    def derive(self):
        return "Drop" if any(it.of.has_key for it in self.fields) else "Debug, Drop"

    @property
    def slices(self):
        return "texts and octets" if any(it.of.has_texts for it in self.fields) else "octets"

    @property
    def always_borrows(self):
        return any(it.of.borrows and not it.optional for it in self.fields)

    def joined(self, field):
        """The principal that a field is a part of, if it is one."""
        return next((it for it in self.principals if field.key in (it.realm, it.name)), None)

    # ---- definitions

    def kind_text(self):
        """The kind, for Module."""
        names = [it.name for it in self.rows]
        said = f"{', '.join(names[:-1])} and {names[-1]} (section {self.section})"
        rows = "\n    (".join(it.definition for it in self.rows)
        body = f"sequence\n    ({rows} ends{')' * len(self.rows)}"
        whole = f"application {self.application} ({body})" if self.application else body
        return f"{comment('-- ', said)}\nabbrev pub {self.kind} : Kind\n{self.kind} = {whole}\n"

    @property
    def fields_word(self):
        """What the definition is called that gives the record of a value's fields."""
        return re.sub(r"(?<!^)(?=[A-Z])", "_", self.record).lower()

    def fields_text(self):
        """The record of its fields, the value that they make and the fields of a value, for Fields."""
        return "\n".join([f"-- ---- {self.name} (section {self.section})", *(self.of_record() if self.record else self.of_one())])

    def of_record(self):
        """The record has the fields of the owned value: a principal in place of its realm and name. Groups are records of their own, at its end."""
        yield from (text for name in self.groups for text in self.group_texts(name))
        kept = [self.joined_row(it) or self.given(it) for it in self.fields if not it.group and not self.is_in_principal(it)]
        kept += [(name, it["record"], f"{it['definition']} v") for name, it in self.groups.items()]
        yield record_text(self.record, kept)
        yield self.made_text(self.record, "f", lambda it: self.of_made(it, "f"))
        if self.is_read:
            yield self.given_text(self.fields_word, self.record, kept)
        yield from (self.principal_text(it) for it in self.principals if it.definition)

    def is_in_principal(self, field):
        """Whether a field is the name of a principal, whose realm comes before."""
        return any(field.key == it.name for it in self.principals)

    def joined_row(self, field):
        """The row of the principal whose realm a field is, if it is one."""
        of = self.joined(field)
        return of and (of.field, "Principal", f"principal_in {self.place_of(of.realm)} {self.place_of(of.name)}")

    def group_texts(self, name):
        group, kept = self.groups[name], [self.given(it) for it in self.fields if it.group == name]
        return record_text(group["record"], kept), self.given_text(group["definition"], group["record"], kept)

    def given(self, field):
        """A field of a record: its name, its type, and where a value has it."""
        return field.key, field.values, self.place_of(field.name)

    def place_of(self, name):
        return f"v{'.1' * [it.name for it in self.rows].index(name)}.0"

    def given_text(self, name, record, kept):
        """The definition that gives a record of a value."""
        given = "; ".join(unbroken(f"{key} = {at}") for key, _, at in kept)
        return f"abbrev pub {name} : ValueOf {self.kind} → {record}\n{filled(f'{name} v = record {{ {given} }}', 140)}\n"

    def of_made(self, field, record):
        """A field of the value that a record makes."""
        of = self.joined(field)
        if not of:
            return f"{record}.{field.group}.{field.key}" if field.group else f"{record}.{field.key}"
        return f"{record}.{of.field}.realm" if field.key == of.realm else f"principal_name_of {record}.{of.field}"

    def of_one(self):
        (place, it), = ((place, it) for place, it in enumerate(self.rows) if it.constant is None)
        yield self.made_text(it.values, it.key, lambda it: it.key)
        yield f"abbrev pub {self.accessor} : ValueOf {self.kind} → {it.values}\n{self.accessor} v = v{'.1' * place}.0\n"

    def made_text(self, of, argument, field):
        row = self.row(field)
        return f"abbrev pub {self.short}_value : {of} → ValueOf {self.kind}\n{filled(f'{self.short}_value {argument} = {row}', 140)}\n"

    def principal_text(self, principal):
        of = f"({self.fields_word} v).{principal.field}"
        return f"abbrev pub {principal.definition} : ValueOf {self.kind} → Principal\n{principal.definition} v = {of}\n"

    def row(self, value_of):
        """The row of its values, in definitions."""
        return row_of(["tt" if it.constant is not None else value_of(it) for it in self.rows])

    def value_text(self, name, struct, value_of):
        """The value of one of its structs, for Borrowed and Owned."""
        return f"abbrev pub {name} : {struct} → ValueOf {self.kind}\n{filled(f'{name} m = {self.row(value_of)}', 140)}\n"

    def borrowed_text(self):
        return self.value_text(self.view_value, self.view, lambda it: it.value(it.of.view_value, "m"))

    def owned_text(self):
        """An owned value has the fields of the record; a message of a single field has no record."""
        given = f"record {{ {'; '.join(unbroken(it) for it in self.owned_rows())} }}" if self.record else self.owned_field(self.fields[0])
        head = f"abbrev pub {self.owned_value} : {self.owned} → ValueOf {self.kind}"
        return f"{head}\n{filled(f'{self.owned_value} m = {self.short}_value ({given})', 140)}\n"

    def owned_rows(self):
        """The fields of the record, for Owned."""
        for it in self.fields:
            of = self.joined(it)
            if not it.group and not self.is_in_principal(it):
                yield f"{of.field} = m.{of.field}" if of else f"{it.key} = {self.owned_field(it)}"
        for name, group in self.groups.items():
            given = "; ".join(f"{it.key} = {self.owned_field(it)}" for it in self.fields if it.group == name)
            yield f"{name} = record {{ {given} }}"

    def owned_field(self, field):
        """The value of a field of the owned struct, in definitions."""
        return field.value(field.of.owned_value, "m")

    # ---- the view

    def view_text(self):
        """The view, how it is read, parsed and copied."""
        return self.view_struct() + self.reader() + self.view_calls() + "\n"

    def view_struct(self):
        fields = "".join(f"/// {it.doc}\npub {it.key}: {it.in_struct(it.of.view)},\n" for it in self.fields)
        if not self.always_borrows:
            fields += "// Without this field the borrow checker refuses `?` on what `parse` answers.\ninput: PhantomData<&'a [u8]>,\n"
        return f"{comment('/// ', self.view_doc)}\n#[derive({self.view_derive})]\npub struct {self.view}<'a> {{\n{fields}}}\n"

    def reader(self):
        """How it is read: a row, of which each line takes one field."""
        reads = f"cursor.application({self.tag})" if self.application else "cursor.sequence()"
        named = [it for it in self.rows if it.named]
        rows = self.rows[2:] if named else self.rows
        taken = "".join(f"let Header::<{it.constant_name}, _>(row) = row;\n" for it in named)
        taken += "".join(f"let ({it.read}, {'()' if it is rows[-1] else 'row'}) = row;\n" for it in rows)
        made = "".join(f"{it.key}: {it.taken},\n" if it.taken != it.key else f"{it.key},\n" for it in self.fields)
        if self.always_borrows and len(self.rows) <= LONGEST_FOUND:
            body = f"let row = {reads}?;\n{taken}Ok({self.view} {{ {made} }})"
        else:
            # The borrow checker refuses `?` if the view may hold no reference, and it takes too long for a long row.
            made += "" if self.always_borrows else "input: PhantomData,\n"
            body = f"match {reads} {{ Ok(row) => {{ {taken} Ok({self.view} {{ {made} }}) }} Err(fault) => Err(fault), }}"
        return f"""
            impl<'a> Element<'a> for {self.view}<'a> {{
                ghost kind = {{ {self.kind} }};

                ghost view = {{ {self.view_value} }};

                ghost clear = {{ refl }};

                fn read(cursor: &mut Cursor<'a>) -> Result<{self.view}<'a>, Fault> {{
                    {body}
                }}
            }}
        """

    def view_calls(self):
        said = f"Reads {self.parses} that takes up all of the bytes. Allocates no memory. Errors as of [`krb_der::parse`]."
        parse = f"""
                {comment("/// ", said, 96)}
                pub fn parse(bytes: &'a [u8]) -> Result<{self.view}<'a>, Fault>
                    ensures {{ Parses {self.kind} {self.view_value} result bytes.entry.now }}
                {{
                    krb_der::parse(bytes)
                }}
        """
        is_message = f"impl<'a> Message<'a> for {self.view}<'a> {{}}\n"
        copied = self.owned_fields(
            lambda it: f"{it.key}: {it.copied}", lambda it: f"{it.field}: self.{it.name}.to_principal(alloc, self.{it.realm})?"
        )
        fields, what = ", ".join(copied), "message" if self.application else "value"
        return f"""
            {is_message if self.application else ""}
            impl<'a> {self.view}<'a> {{
                {parse if self.application else ""}
                /// Copies the {what}.
                ///
                /// # Errors
                /// There is no memory.
                pub fn to_owned(&self, alloc: Global) -> Result<{self.owned}, AllocError>
                    ensures {{ IfOk result (λ made. {self.owned_value} made ≡ {self.view_value} self.now) }}
                {{
                    Ok({self.owned} {{ {fields} }})
                }}
            }}
        """

    def owned_fields(self, of_field, of_principal):
        """What is said of each field of the owned struct. A principal stands where its name would."""
        for it in self.fields:
            principal = self.joined(it)
            if principal is None:
                yield of_field(it)
            elif it.key == principal.name:
                yield of_principal(principal)

    # ---- the owned value

    def owned_source(self):
        """The owned struct, and how it is written."""
        return self.owned_struct() + self.writer() + self.encode_call() + "\n"

    def owned_struct(self):
        fields = self.owned_fields(
            lambda it: f"/// {it.doc}\npub {it.key}: {it.in_struct(it.of.owned)},\n", lambda it: f"/// {it.doc}\npub {it.field}: Principal,\n"
        )
        return f"\n{comment('/// ', self.doc)}\n#[derive({self.derive})]\npub struct {self.owned} {{\n{''.join(fields)}}}\n"

    def written(self, field):
        """A field as it is written."""
        principal = self.joined(field)
        if field.constant is not None:
            return f"Field::<{field.tag}, Constant<{field.constant_name}>>(Constant)"
        if principal is not None:
            value = (REALM if field.key == principal.realm else NAME).format(f"self.{principal.field}")
            return f"Field::<{field.tag}, _>({value})"
        word, value = field.of.written_optional if field.optional else ("Field", field.of.written)
        return f"{word}::<{field.tag}, _>({value.format(f'self.{field.key}')})"

    def written_rows(self):
        """The lines that make the row which is written."""
        values = [self.written(it) for it in reversed(self.rows)]
        names = ["rest"] * (len(values) - 1) + ["row"]
        return "\n".join(f"let {name} = ({it}, {'rest' if place else '()'});" for place, (name, it) in enumerate(zip(names, values)))

    def answers(self):
        """The answer files of the calls that read and write it, by their paths, if it has many fields."""
        if len(self.rows) <= LONGEST_FOUND:
            return
        how = "application" if self.application else "sequence"
        numbers = ["option_map_id"] if any(it.is_plain for it in self.rows) else []
        found = f"search ({', '.join(['rules', *numbers, 'read'])})"
        known = ", ".join(calls((it.taken for it in self.fields), "-in-Ok"))
        found = f"rw ({known}) ({found})" if known else found
        term = f"let read = simp (c.in-Ok.is) at c.{how}.ensures.computed in {found}"
        yield answer_file(f"{self.view_file}/{self.view}Element/read", "returns-in-Ok", term)
        known = ", ".join([*calls(self.written(it) for it in reversed(self.rows)), *numbers])
        yield answer_file(f"{self.owned_file}/{self.owned}Encode/write", "returns", f"simp ({known}) at c.write_{how}.ensures")

    def writer(self):
        lines = self.written_rows()
        writes = f"write_application(&row, {self.tag}, out)" if self.application else "write_sequence(&row, out)"
        return f"""
            impl Encode for {self.owned} {{
                ghost kind = {{ {self.kind} }};

                ghost view = {{ {self.owned_value} }};

                fn write(&self, out: &mut Writer) -> Result<(), EncodeFault> {{
                    {lines}
                    {writes}
                }}
            }}
        """

    def encode_call(self):
        if not self.application:
            return ""
        return f"""
            impl {self.owned} {{
                /// Returns the bytes of the message. Errors as of [`krb_der::encoded`].
                pub fn encode(&self, alloc: Global) -> Result<Vec<u8>, EncodeFault>
                    ensures {{ IsEncoded {self.kind} ({self.owned_value} self.now) result }}
                {{
                    krb_der::encoded(alloc, self)
                }}
            }}
        """


def comment(mark, text, width=100):
    """A comment, on lines that aren't too long."""
    return textwrap.fill(text, width, initial_indent=mark, subsequent_indent=mark, break_on_hyphens=False)


# ---- what a file uses

# Names of the definitions, and of the sources, by their modules.
GHOSTS = {
    "Rattle.std.specs.Prelude": ["refl", "◌≡◌", "IfOk"],
    "Rattle.std.specs.Option": ["option_map"],
    "Rattle.krb_der.specs.Kind": "leaf must may ends field int32 uint32 seq_number microseconds octets string flags time".split(),
    "Rattle.krb_der.specs.Reading": ["Parses"],
    "Rattle.krb_der.specs.Writing": ["IsEncoded"],
}
PARTS = {
    "Borrowed": ["name_of", "typed_of", "key_of"],
    "Fields": "◌▸◌ name_value name_type_of components_of principal_in principal_name_of typed_value type_of bytes_of".split(),
    "Module": "sequence_of typed principal_name encryption_key checksum host_address authorization_data transited_encoding".split(),
    "Owned": ["principal_name_of", "owned_name_of", "owned_typed_of", "owned_list_of", "owned_key_of"],
}
KIND_WORDS = ["Kind", "sequence", "application", "constant", *GHOSTS["Rattle.krb_der.specs.Kind"]]
# What the files of specs/ say at their heads.
SAID = {
    "Module": [
        "-- The messages of Kerberos 5 as kinds of elements (RFC 4120, sections 5.2 to 5.9 and appendix A):",
        "-- each field with its number, and whether it may be absent.",
    ],
    "Fields": [
        "-- The values of messages by the names of their fields (RFC 4120, sections 5.2 to 5.9): a record of the",
        "-- fields that vary, with a principal for a realm and a name; what it is for a value; and the value that it",
        "-- makes, which nests the fields in pairs, in the order of their numbers, with a tt for each constant.",
    ],
    "Borrowed": [
        "-- The values of messages that are read in place: their fields in the order of their numbers, with",
        "-- a tt for each constant.",
    ],
    "Owned": ["-- The values of owned messages, by their fields."],
}
RUST = {
    "crate::header": ["Header"],
    "crate::key": ["KeyRef", "RawKey", "owned_key"],
    "crate::name": ["Name", "NameIn", "NameRef", "owned_name"],
    "crate::optional": "octets_bytes octets_in owned_octets owned_text seq_number_in seq_number_of text_bytes text_in".split(),
    "crate::typed": ["Typed", "TypedListRef", "TypedRef", "owned_list", "owned_typed"],
    "crate": ["message_type", "tag"],
    "krb_der": """Constant Cursor Element Encode EncodeFault EncodeRow Fault Field Flags Maybe MaybeRef Message Microseconds Octets Row Seconds
        SeqNumber Text Writer write_application write_sequence""".split(),
    "krb_name": ["Bytes", "Principal"],
    "std::alloc": ["AllocError", "Global"],
    "std::marker": ["PhantomData"],
}


# What an impl or a contract says in the terms of the definitions.
GHOST = re.compile(r"(?:ghost \w+ = |ensures )\{.*?\}(?:;|$)", re.S | re.M)


def words(text):
    """The words of a text that are no fields, and its relation."""
    return set(re.findall(r"(?<![.\w])[A-Za-zℕℤ_]\w*", text)) | {f"◌{it}◌" for it in "≡▸" if it in text}


def used(names_by_module, text):
    """Which of these names a text has, by their modules."""
    there = words(text)
    found = {module: [it for it in names if it in there] for module, names in names_by_module.items()}
    return {module: names for module, names in found.items() if names}


def source_uses(name, text, messages):
    """The lines of `use` of a file of src/."""
    ghosts, rust = GHOST.findall(text), GHOST.sub("", re.sub(r"^\s*//.*", "", text, flags=re.M))
    specs = {
        "Parts": ["◌▸◌"],
        "Borrowed": [it.view_value for it in messages] + PARTS["Borrowed"],
        "Module": [it.kind for it in messages] + PARTS["Module"],
        "Owned": [it.owned_value for it in messages] + PARTS["Owned"],
    }
    ghosts = used(GHOSTS | {f"Rattle.krb_msg.specs.{it}": names for it, names in specs.items()}, "\n".join(ghosts))
    modules = {module: list(names) for module, names in RUST.items()}
    for it in messages:
        modules.setdefault(f"crate::{it.view_file}", []).append(it.view)
        modules.setdefault(f"crate::{it.owned_file}", []).append(it.owned)
    modules.pop(f"crate::{name}", None)
    lines = [f"ghost use {module}.{{{', '.join(names)}}};" for module, names in ghosts.items()] + [""]
    for module, names in used(modules, rust).items():
        lines.append(f"use {module}::{{{', '.join(sorted(names))}}};" if len(names) > 1 else f"use {module}::{names[0]};")
    return "\n".join(lines)


# ---- the files


def source(name, doc, messages):
    """A file of src/."""
    text = "".join(
        textwrap.dedent((it.view_text() if it.view_file == name else "") + (it.owned_source() if it.owned_file == name else ""))
        for it in messages
    )
    return f"// {MADE}\n//! {doc}\n\n{source_uses(name, text, messages)}\n\n{text}"


def definition_file(said, uses, again, body):
    """A file of specs/, which also exports what a file that is written by hand defines."""
    lines = [f"-- {MADE}", *said]
    parts = {f"Rattle.krb_msg.specs.{module}": names for module, names in again.items()}
    lines += [f"use {module}.{{{', '.join(names)}}}" for module, names in used(uses | parts, body).items()]
    lines += [f"pub use {module}.{{{', '.join(names)}}}" for module, names in parts.items()]
    return "\n".join(lines) + f"\n\n{body}"


def calls(terms, arm=""):
    """What calls in terms of the sources ensure, by the names that answers have for it. The second of a name is called after its arm, if there is one."""
    seen = Counter()
    for of_vec, name in CALLS.findall(" ".join(terms)):
        before = seen[name]
        seen[name] += 1
        places = ["", arm or "-2"]
        place = places[before] if before < 2 else f"{arm}-{before}" if arm else f"-{before + 1}"
        yield f"c.{name}{place}.ensures{'.value' if of_vec else ''}"


def answer_file(place, goal, term):
    """The path of an answer file, and its text."""
    uses = {"Rattle.std.proofs.Common": ["rules"], "Rattle.std.proofs.lemmas.Iterator.Adapters": ["option_map_id"]}
    lines = [f"use {module}.{{{', '.join(names)}}}" for module, names in used(uses, term).items()]
    lines += [f"use Rattle.krb_msg.proofs.{place.replace('/', '.')}.Goals as goal", ""]
    return f"proofs/{place}/Answers.antt", "\n".join([f"-- {MADE}", *lines, f"pub {goal} : goal.{goal}\n{goal} c = {term}\n"])


def structs(places):
    """The structs that definitions are about, by their modules."""
    return {f"Rattle.krb_msg.specs.declared.{file}.{struct}": [struct] for file, struct in places}


def definitions(messages):
    """The files of specs/, by their names."""
    kinds = [it.kind for it in messages]
    types = "\n".join(f"  is_{it.kind} : IsMessageKind {it.kind}" for it in messages if it.application)
    alone = f"\n-- the messages, each of which comes alone\npub data IsMessageKind : Kind → Type 0 where\n{types}\n"
    of_kind = {"Rattle.krb_der.specs.Kind": ["leaf", "octets", "ValueOf"]}
    of_fields = {
        "Rattle.std.specs.Prelude": ["ℕ", "ℤ", "List", "Option"],
        "Rattle.krb_name.specs.declared.principal.Principal": ["Principal"],
        **of_kind,
        "Rattle.krb_msg.specs.Module": kinds + PARTS["Module"],
    }
    of_values = {
        "Rattle.std.specs.Option": ["option_map"],
        **of_kind,
        "Rattle.krb_msg.specs.Parts": ["◌▸◌"],
        "Rattle.krb_msg.specs.Module": kinds,
    }
    made = {"Rattle.krb_msg.specs.Fields": [f"{it.short}_value" for it in messages]}
    views, owned = structs((it.view_file, it.view) for it in messages), structs((it.owned_file, it.owned) for it in messages)
    return {
        "Module": definition_file(
            SAID["Module"], {"Rattle.krb_der.specs.Kind": KIND_WORDS}, {"Parts": PARTS["Module"]}, "\n".join(it.kind_text() for it in messages) + alone
        ),
        "Fields": definition_file(SAID["Fields"], of_fields, {"Parts": PARTS["Fields"]}, "\n".join(it.fields_text() for it in messages)),
        "Borrowed": definition_file(
            SAID["Borrowed"], of_values | views, {"PartsBorrowed": PARTS["Borrowed"]}, "\n".join(it.borrowed_text() for it in messages)
        ),
        "Owned": definition_file(SAID["Owned"], of_values | made | owned, {"PartsOwned": PARTS["Owned"]}, "\n".join(it.owned_text() for it in messages)),
    }


def texts():
    """The text of each file before it is laid out, by its path in the crate."""
    table = tomllib.loads((CRATE / "messages.toml").read_text())
    messages = [Message(**it) for it in table["message"]]
    sources = {f"src/{name}.rt": source(name, doc, messages) for name, doc in table["files"].items()}
    answers = dict(answer for it in messages for answer in it.answers())
    return sources | answers | {f"specs/{name}.antt": text for name, text in definitions(messages).items()}


def files():
    """The text of each file, by its path."""
    return {f"{PLACE}/{path}": text for path, text in layout.laid_out(texts()).items()}


def left_over(texts):
    """The answer files that were made of the table as it was, and aren't any more."""
    found = [str(it.relative_to(ROOT)) for it in CRATE.glob("proofs/**/Answers.antt") if MADE in it.read_text()]
    return [it for it in found if it not in texts]
