"""The files that are made of crates/krb_ap/causes.toml."""
import re
import sys
import tomllib
from dataclasses import dataclass

from . import ROOT, layout

TABLE = "crates/krb_ap/causes.toml"
# Where the codes of RFC 4120 have their names.
CODES = "crates/krb_msg/src/error_code.rt"
# The files in Rattle, and the templates that they are made by.
TEMPLATES = {
    "crates/krb_ap/src/refusal.rt": "refusal.rt",
    "crates/krb_login/src/breach.rt": "breach.rt",
    "crates/krb_calls_exchange/src/cause_list.rt": "cause_list.rt",
    "crates/krb_explain_keys/src/look_at.rt": "look_at.rt",
}
# A definition and a proof, which aren't laid out: the sentences on what to look at, and the order of the causes.
OTHERS = {"crates/krb_explain_keys/specs/LookAt.antt": "LookAt.antt", "crates/krb_ap/proofs/Table.antt": "Table.antt"}
DOCUMENT = "docs/ACCEPTANCE.md"


@dataclass(frozen=True)
class Cause:
    """A cause for refusing a request, or a breach: its place in the order, its code, and what is said of it."""

    name: str
    place: int
    code: str
    text: str
    when: str
    look_at: str
    note: str = ""
    has_fault: bool = False
    remembered: bool = False

    @property
    def doc(self):
        """The comment of the documentation."""
        return layout.sentence(self.when) + (" The request is remembered." if self.remembered else "")

    @property
    def plain_look(self):
        """What to look at, as plain text: of a link in Markdown its words."""
        return re.sub(r"\[([^]]*)\]\([^)]*\)", r"\1", self.look_at).replace('"', '\\"')

    @property
    def c_name(self):
        """Its name in C and in Python."""
        return re.sub(r"(?<=[a-z])(?=[A-Z])", "_", self.name).upper()

    @property
    def number(self):
        """Its code in C."""
        return self.place // 10 + 90


def causes():
    """The causes for refusing a request, in their order."""
    return rows("cause")


def breaches():
    """The breaches, in their order."""
    return rows("breach")


def rows(kind):
    return [Cause(**it) for it in tomllib.loads((ROOT / TABLE).read_text())[kind]]


def kerberos_codes():
    """The codes of RFC 4120, by name."""
    found = re.findall(r"pub const (\w+): i32 = (\d+);", (ROOT / CODES).read_text())
    return {name: int(number) for name, number in found}


def after_malformed(rows):
    """The cause that comes right after malformed requests."""
    return next(then.name for it, then in zip(rows, rows[1:]) if it.has_fault)


def faults(rows, codes):
    """What is wrong with the table."""
    if [it.place for it in rows] != sorted({it.place for it in rows}):
        yield "the places aren't in order"
    for it in rows:
        if it.place % 10:
            yield f"the place of {it.name} isn't a multiple of 10, so it has no code in C"
        if it.code not in codes:
            yield f"{CODES} has no code {it.code}"


def table(rows, codes):
    """The table of the document."""
    yield "| cause | code | when | what to look at |"
    yield "|---|---|---|---|"
    for it in rows:
        yield f"| `{it.name}` | {codes[it.code]} | {it.when} | {it.look_at} |"


def document(codes):
    """The document, with its tables made again, and the sentence on what is remembered."""
    remembered = [f"`{it.name}`" for it in causes() if it.remembered]
    names = f"{', '.join(remembered[:-1])} or {remembered[-1]}"
    sentence = f"A request is remembered if it is accepted, or if it is refused as {names}."
    made = {
        "causes": "\n".join(table(causes(), codes)),
        "breaches": "\n".join(table(breaches(), codes)),
        "remembered": "\n".join(layout.filled(sentence, "", "")),
    }
    return layout.with_parts((ROOT / DOCUMENT).read_text(), made, DOCUMENT)


def files(environment):
    """The text of each file, by its path."""
    words, codes = {"causes": causes(), "breaches": breaches()}, kerberos_codes()
    for fault in faults(words["causes"] + words["breaches"], codes):
        sys.exit(f"{TABLE}: {fault}")
    words["after_malformed"] = after_malformed(words["causes"])
    made = {path: environment.get_template(f"{name}.j2").render(words) for path, name in (TEMPLATES | OTHERS).items()}
    return made | layout.laid_out({path: made[path] for path in TEMPLATES}) | {DOCUMENT: document(codes)}
