"""The files that are made of crates/krb_command_line/commands.toml."""
import re
import sys
import textwrap
import tomllib
from dataclasses import dataclass, field

from . import ROOT, interface, layout, manual

TABLE = "crates/krb_command_line/commands.toml"
# The files, and the templates that they are made by.
TEMPLATES = {
    "crates/krb_command_line/src/command_line.rt": "command_line.rt",
    "crates/krb_command_line/src/reading.rt": "reading.rt",
    "crates/krb_command_line/src/table.rt": "table.rt",
    "crates/krb_command_line/specs/Commands.antt": "Commands.antt",
    "docs/man/krbtool.1": "krbtool.1",
    "packaging/completion/krbtool.bash": "krbtool.bash",
    "packaging/completion/_krbtool": "_krbtool",
}
# The groups of commands, in their order.
GROUPS = ("file", "message")
# Words of antt that are no names there.
RESERVED = {"data", "in", "let", "mutual", "open", "package", "record", "use", "where"}
# A document of which parts are made, and how a part stands in it.
DOCUMENT = "docs/KRBTOOL.md"
PART = re.compile(r"^(<!-- made of commands.toml: (\w+)(?: ([\w-]+))? -->\n).*?^(<!-- end -->)$", re.S | re.M)
# How wide a line of it is, and one of a definition.
WIDTH, ANTT_WIDTH = 100, 180


@dataclass(frozen=True)
class Argument:
    """An operand, an option or a flag."""

    key: str
    kind: str
    help: str
    name: str = ""
    value: str = ""
    file: bool = False
    optional: bool = False
    required: bool = False
    greatest: int | None = None
    default: str | None = None
    needs: str = ""
    excludes: str = ""
    more: str = ""

    @property
    def id(self):
        return self.name or self.key

    @property
    def field(self):
        """What the field of a command is called that has its value."""
        return self.id.lower()

    @property
    def constant(self):
        return self.key.upper()

    @property
    def is_word(self):
        """Whether it always has a value."""
        return (self.kind == "operand" and not self.optional) or self.required or self.default is not None

    @property
    def has_to_be_there(self):
        return self.required or (self.kind == "operand" and not self.optional)

    @property
    def range(self):
        return "" if self.greatest is None else f"0 to {self.greatest}"

    @property
    def text(self):
        """What help says."""
        return self.help.replace("{range}", self.range)

    @property
    def told(self):
        """What the documents say."""
        default = f", {self.default} by default" if self.default is not None else ""
        return f"{self.text}{default}." + (f" {self.more}" if self.more else "")

    @property
    def shown(self):
        """How it stands in a command line, if it is there."""
        return self.id if self.kind == "operand" else f"--{self.id}" + (f" {self.value}" if self.value else "")

    # ---- in Rattle

    @property
    def type(self):
        return "bool" if self.kind == "flag" else "&'a str" if self.is_word else "Option<&'a str>"

    @property
    def doc(self):
        number = f" In decimal: {self.range}." if self.greatest is not None and "{range}" not in self.help else ""
        return f"`{self.shown}`: {self.text}.{number}"

    @property
    def rattle_kind(self):
        if self.needs:
            return f'With("{self.needs}")'
        if self.excludes:
            return f'Without("{self.excludes}")'
        if self.optional:
            return "Optional"
        if self.default is not None:
            return f'Defaulted("{self.default}")'
        return {"operand": "Operand", "flag": "Flag"}.get(self.kind, "Needed" if self.required else "Free")

    @property
    def rattle_greatest(self):
        return "None" if self.greatest is None else f"Some({self.greatest:_})"

    @property
    def reading(self):
        how = "has_flag" if self.kind == "flag" else "word_of" if self.is_word else "option_of"
        return f'{how}(matches, "{self.id}")' + ("?" if self.is_word else "")

    @property
    def known_as(self):
        """What the definition calls it."""
        return f"«{self.id}»" if self.id in RESERVED else self.id

    @property
    def rule(self):
        """What clap knows of it, in the definition's words."""
        rule = f'{"optional_" if self.optional else ""}{self.kind} (codes "{self.id}")'
        if self.greatest is not None:
            rule = f"number {self.greatest:_} ({rule})"
        if self.required:
            rule = f"needed ({rule})"
        if self.default is not None:
            rule = f'with_default (codes "{self.default}") ({rule})'
        if self.excludes:
            rule = f"excluding_another ({rule})"
        return f"needing_another ({rule})" if self.needs else rule

    def part(self, value):
        """What a command has of it, in the definition."""
        return f"{'given' if self.kind == 'flag' else 'word' if self.is_word else 'optional'} {value}"


@dataclass(frozen=True)
class Command:
    """A command, with its operands and options."""

    name: str
    about: str
    arguments: list
    refused: str
    details: str
    words: str = ""
    group: str = "file"
    form: dict = field(default_factory=dict)

    @property
    def variant(self):
        return "".join(it.capitalize() for it in self.name.split("-"))

    @property
    def entry(self):
        """What the definition calls it."""
        return self.name.replace("-", "_")

    @property
    def operands(self):
        return [it for it in self.arguments if it.kind == "operand"]

    @property
    def options(self):
        return [it for it in self.arguments if it.kind != "operand"]

    def needing(self, flag):
        return [it for it in self.arguments if it.needs == flag]

    @property
    def dependents(self):
        """The options of the form."""
        return self.needing(self.form["flag"]) if self.form else []

    def is_in_form(self, argument):
        return bool(self.form) and self.form["flag"] in (argument.id, argument.needs)

    @property
    def fields(self):
        """The names of its fields, with what each has: an argument, or None for the form."""
        found = {}
        for it in self.arguments:
            found |= {"form": None} if self.is_in_form(it) else {it.field: it}
        return found

    @property
    def forms(self):
        """The cases of its form: its name, whether the flag is given, and the options that it has."""
        return [(self.form["without"], False), (self.form["with"], True)] if self.form else [(None, False)]

    def synopsis(self):
        """Its operands and options, as they are written."""
        def shown(it):
            inner = "".join(f" {shown(one)}" for one in self.needing(it.id))
            return it.shown if it.has_to_be_there else f"[{it.shown}{inner}]"
        return " ".join([self.name, *(shown(it) for it in self.arguments if not it.needs)])

    # ---- in Rattle

    def made(self, form):
        """The command, of variables that have the names of its fields."""
        name = self.words or f"Command::{self.variant}"
        options = f" {{ {', '.join(it.field for it in self.dependents)} }}" if form and form[1] else ""
        fields = [f"form: {self.form['type']}::{form[0][0]}{options}" if it == "form" else it for it in self.fields]
        short = ", ".join(fields)
        body = f" {short} " if len(short) <= 18 else "".join(f"\n        {it}," for it in fields) + "\n    "
        return f"Command::{self.variant}({name} {{{body}}})" if self.words else f"{name} {{{body}}}"

    def pattern(self, form):
        """The same in the definition."""
        if self.words:
            return f"({self.variant} words)"
        options = "".join(f" {it.field}" for it in self.dependents) if form and form[1] else ""
        inner = f"({form[0][0]}{options})" if options else form[0][0] if form else ""
        return f"({' '.join([self.variant, *(inner if it == 'form' else it for it in self.fields)])})"

    def asked(self, form):
        """Its entry in the definition, and what it has of each argument."""
        def value(it):
            if self.is_in_form(it):
                return str(form[1]).lower() if it.kind == "flag" else it.field if form[1] else "None"
            return f"words.{it.field}" if self.words else it.field
        parts = [*(it.part(value(it)) for it in self.arguments), "[]"]
        line = f"asked {self.pattern(form)} = ({self.entry}, {' ∷ '.join(parts)})"
        rows = "\n      ∷ ".join(parts)
        long = f"asked {self.pattern(form)} = (\n  {self.entry},\n  {rows},\n)"
        return line if len(line) <= ANTT_WIDTH else long


class Table:
    """The table."""

    def __init__(self, table):
        self.about = table["about"]
        self.statuses = table["status"]
        kinds = ("operand", "option", "flag")
        numbered = lambda it: it | {"greatest": table["number"].get(it.get("greatest"), it.get("greatest"))}
        self.arguments = {key: Argument(key, kind, **numbered(it)) for kind in kinds for key, it in table[kind].items()}
        of = lambda it: {"arguments": [self.arguments[key] for key in it["arguments"]]}
        self.commands = [Command(**it | of(it)) for it in table["command"]]
        self.groups = {name: [it for it in self.commands if it.group == name] for name in GROUPS}
        self.examples = table["example"]
        self.version = ".".join(map(str, tomllib.loads((ROOT / interface.TABLE).read_text())["version"]))
        self.hyphened = [it.name for it in self.commands if "-" in it.name]

    def used(self):
        """The operands and options of all commands."""
        keys = {it.key for command in self.commands for it in command.arguments}
        return [it for it in self.arguments.values() if it.key in keys]

    def rules(self):
        """What clap knows of them, by the names that the definition gives them."""
        return {it.known_as: it.rule for it in self.used()}

    def end(self, command):
        """What a command's help says at its end."""
        parts = ["\n".join(f"  {it}" for it in part) if kind == "code" else plain(part)
                 for kind, part in layout.blocks(command.details)]
        meanings = self.statuses | {"1": command.refused}
        status = "; ".join(f"{number} {plain(it)}" for number, it in meanings.items())
        return "\n".join(parts) + f"\n\nExit status: {status}"


def plain(text):
    """A text as help has it."""
    return re.sub(r"`([^`]*)`", r"'\1'", text)


def quoted(text):
    """A literal of Rattle."""
    return '"' + text.replace("\\", "\\\\").replace('"', '\\"').replace("\n", "\\n") + '"'


def use(path, names):
    """An import, in lines that aren't too long."""
    names = ", ".join(sorted(names))
    line = f"use {path}::{{{names}}};"
    wrapped = textwrap.fill(f"{names},", WIDTH, initial_indent="    ", subsequent_indent="    ")
    return line if len(line) <= WIDTH else f"use {path}::{{\n{wrapped}\n}};"


def row_of(items):
    """A list of names, as an array."""
    line = ", ".join(items)
    return f"[{line}]" if len(line) <= 60 else "[\n" + "".join(f"            {it},\n" for it in items) + "        ]"


def faults(table):
    """What is wrong with the table."""
    for it in table.arguments.values():
        if it.key not in {one.key for one in table.used()}:
            yield f"no command has {it.key}"
        if bool(it.value) != (it.kind == "option"):
            yield f"{it.key}: an option has a value, and nothing else has"
        if it.help.endswith(".") or (it.more and not it.more.endswith(".")):
            yield f"{it.key}: `help` has no full stop at its end, and `more` has one"
        if it.default is not None and not (it.greatest is None or 0 <= int(it.default) <= it.greatest):
            yield f"the default of {it.key} isn't in its range"
    for it in table.used():
        if table.rules()[it.known_as] != it.rule:
            yield f"the name of {it.key} is that of another operand, option or flag, which has other rules"
    if [it for group in table.groups.values() for it in group] != table.commands:
        yield f"the groups of commands aren't {' and '.join(GROUPS)}, in this order"
    for command in table.commands:
        ids = [it.id for it in command.arguments]
        if len(ids) != len(set(ids)):
            yield f"{command.name} has two arguments of one name"
        for it in command.arguments:
            if it.excludes and it.excludes not in ids:
                yield f"{it.id} of {command.name} excludes an operand that the command doesn't have"
            free = [one.id for one in command.options if one.kind == "option" and not (one.is_word or one.needs)]
            if it.needs and it.needs not in (command.form.get("flag"), *free):
                yield f"{it.id} of {command.name} needs what isn't its form's flag or an option that may be left out"


# ---------------------------------------------------------------- the manual page


def tagged(argument):
    """An operand or an option, in mdoc."""
    value = f" Ar {argument.value.lower()}" if argument.value else ""
    return f"Ar {argument.id.lower()}" if argument.kind == "operand" else f"Fl -{argument.id}{value}"


class Page(manual.Page):
    """krbtool(1)."""

    def __init__(self, table):
        self.table, self.operands = table, set()
        self.names = {it.name for it in table.commands}

    def of(self, command):
        """The same page, where it speaks of a command."""
        page = Page(self.table)
        page.operands = {it.id for it in command.operands}
        return page

    def marked(self, text):
        """The macro of what is marked."""
        if text in self.names:
            return f"Cm {text}"
        if re.fullmatch(r"--[a-z]+", text):
            return f"Fl {text[1:]}"
        if text in self.operands:
            return f"Ar {text.lower()}"
        # (a mark at the end would be taken for one after the quotes)
        return f"Ql {manual.escaped(text)}" + ("\\&" if text[-1] in ";.,:" else "")

    def macro(self, word):
        marks = "|".join([r"`[^`]+`", r"--[a-z]+", *(rf"\b{it}\b" for it in (*self.table.hyphened, *self.operands))])
        found = re.fullmatch(rf"(\(?)({marks})(\S*?)([.,:;)]*)", word)
        if not found:
            return None
        before, text, rest, after = found.groups()
        name, _, marked = self.marked(text.strip("`")).partition(" ")
        return " ".join([f".{name}", *before, marked, *(["Ns", rest] if rest else []), *after])

    def synopsis(self, command):
        """The lines of a command's synopsis."""
        def one(it):
            inner = "".join(f" {one(inner)}" for inner in command.needing(it.id))
            return ("" if it.has_to_be_there else "Op ") + tagged(it) + inner
        return "\n".join([".Nm", f".Cm {command.name}", *(f".{one(it)}" for it in command.arguments if not it.needs)])

    def heading(self, command):
        operands = (f"{'Op ' if it.optional else ''}Ar {it.id.lower()}" for it in command.operands)
        return " ".join([f".It Cm {command.name}", *operands])

    def described(self, command):
        """What is said of a command, and of its operands and options."""
        page = self.of(command)
        lines = [page.body(f"{command.about}.\n\n{command.details}"), ".Bl -tag -width Ds"]
        for it in (*command.operands, *command.options):
            lines += [f".It {tagged(it)}", page.told(it.told)]
        return "\n".join([*lines, ".El"])

    def example(self, it):
        lines = [manual.escaped(line) for line in it["code"].rstrip("\n").split("\n")]
        return f".Pp\n.Dl {lines[0]}" if len(lines) == 1 else "\n".join([".Bd -literal -offset indent", *lines, ".Ed"])


# ---------------------------------------------------------------- the document


def marked_text(table, text):
    """A text of Markdown: options and names of commands are literal."""
    marks = "|".join([r"--[a-z]+", *(rf"\b{it}\b" for it in table.hyphened)])
    parts = re.split(r"(`[^`]*`)", text)
    return "".join(it if it.startswith("`") else re.sub(f"({marks})", r"`\1`", it) for it in parts)


def item(text):
    return textwrap.fill(f"- {text}", WIDTH, subsequent_indent="  ", break_long_words=False, break_on_hyphens=False)


def sentence(text):
    return text[0].lower() + text[1:]


def document_part(table, kind, name):
    """A part of the document: what stands between its marks."""
    command = {it.name: it for it in table.commands}.get(name)
    if kind == "commands":
        rows = [f"| `{it.name}` | {marked_text(table, sentence(it.about))} |" for it in table.commands]
        return ["| command | what it does |", "|---|---|", *rows]
    if kind == "statuses":
        return ["| status | meaning |", "|---|---|", *(f"| {number} | {it} |" for number, it in table.statuses.items())]
    if kind == "synopsis":
        return ["```text", command.synopsis(), "```"]
    if kind == "options":
        return [item(f"`{it.shown}`: {marked_text(table, sentence(it.told))}") for it in command.options]
    if kind == "example":
        code = next(it["code"] for it in table.examples if it["command"] == name)
        return ["```sh", re.sub(r"^( *)krbtool ", r"\1./krbtool ", code.rstrip("\n"), flags=re.M), "```"]
    sys.exit(f"{DOCUMENT}: no part is called {kind}")


def document(table):
    part = lambda it: it[1] + "\n".join(["", *document_part(table, it[2], it[3]), "", it[4]])
    return PART.sub(part, (ROOT / DOCUMENT).read_text())


# ---------------------------------------------------------------- completions


def zsh_text(text, read):
    """A text as it stands between single quotes, with a backslash before what zsh's function would read."""
    return re.sub(rf"([{read}])", r"\\\1", text).replace("'", "'\\''")


def zsh_words(command):
    """What zsh knows of a command's options and operands."""
    for it in command.options:
        default = f" [default: {it.default}]" if it.default is not None else ""
        value = f":{it.id}:{'_files' if it.file else ' '}" if it.value else ""
        yield f"'--{it.id}[{zsh_text(plain(it.text) + default, OPTION_READ)}]{value}'"
    yield "'--help[Print help]'"
    for it in command.operands:
        colon = "::" if it.optional else ":"
        yield f"'{colon}{zsh_text(plain(it.text), TEXT_READ)}:{'_files' if it.file else ' '}'"


# What ends a text of an option, and other texts.
OPTION_READ, TEXT_READ = r"\[\]:\\", r":\\"


def files():
    """The text of each file, by its path."""
    table = Table(tomllib.loads((ROOT / TABLE).read_text()))
    for fault in faults(table):
        sys.exit(f"{TABLE}: {fault}")
    made = interface.environment()
    page = Page(table)
    made.filters |= {"quoted": quoted, "plain": plain, "row": row_of, "told": page.told, "zsh_words": zsh_words,
                     "zsh": lambda it: zsh_text(it, TEXT_READ)}
    words = {"table": table, "page": page, "use": use, "date": manual.date()}
    made = {path: made.get_template(f"{name}.j2").render(words) for path, name in TEMPLATES.items()}
    return made | {DOCUMENT: document(table)}
