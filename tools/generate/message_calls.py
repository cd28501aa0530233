"""The calls of messages in crates/krb_calls_wire, made of crates/krb_msg/messages.toml: how the fields of a message are
shown, and how a message of each type is parsed, copied and written."""
import re
import tomllib
from dataclasses import dataclass

from . import ROOT, layout
from .messages import Message

TABLE = "crates/krb_msg/messages.toml"
PLACE = "crates/krb_calls_wire/src"
MADE = f"// Made from {TABLE} by tools/generate. Don't edit this file.\n"


@dataclass(frozen=True)
class Kind:
    """How a field of a kind is shown, and how one that may be left out."""

    shown: str
    optional: str = ""


def number(get="", kind=""):
    """A kind of numbers: how a call gives the number, and by which type's call."""
    return Kind(f"out.shown({{}}{get})", f"out.shown_or_none({{}}.map({kind}))" if kind else "out.shown_or_none({})")


def part(name, lent="&"):
    """A kind of several words, with functions of its own."""
    return Kind(*(f"show_{name}{more}({lent}{{}}, out)" for more in ("", "_or_none")))


KINDS = {
    **dict.fromkeys(("Int32", "UInt32", "SeqNumber"), number()),
    "Microseconds": number(".get()", "Microseconds::get"),
    "KerberosTime": number(".get()", "Seconds::get"),
    "Flags": number(".bits()"),
    **dict.fromkeys(("OCTET STRING", "KerberosString"), Kind("out.bytes({})", "show_octets_or_none({}, out)")),
    "PrincipalName": part("name"),
    "EncryptionKey": part("key", ""),
    **dict.fromkeys(("Checksum", "TransitedEncoding"), part("typed", "")),
    "EncryptedData": part("encrypted"),
    "Ticket": part("ticket"),
    **dict.fromkeys(("HostAddresses", "AuthorizationData"), Kind("", "show_list_or_none(&{}, out)")),
}


class Calls:
    """The functions of one message."""

    def __init__(self, message):
        self.of = message
        self.name = re.sub(r"(?<!^)(?=[A-Z])", "_", message.base).lower()
        self.word = self.name.replace("_", "-")

    def shows(self):
        rows = ";".join(self.shown(it) for it in self.of.fields)
        head = f"pub(crate) fn show_{self.name}(view: &{self.of.view}, out: &mut Answer) -> Option<()>"
        return f"{head} {{\n{rows}\n}}\n"

    def shown(self, field):
        kind = KINDS[field.kind]
        return (kind.optional if field.optional else kind.shown).format(f"view.{field.key}")

    def parses(self):
        copied = "show(view.to_owned(alloc).ok()?.encode(alloc), out)"
        arms = f"Ok(view) => {{ show_{self.name}(&view, out); {copied} }} Err(fault) => out.shown(fault),"
        head = f"fn {self.name}(bytes: &[u8], alloc: Global, out: &mut Answer) -> Option<()>"
        return f"{head} {{\nmatch {self.of.view}::parse(bytes) {{ {arms} }}\n}}\n"


VIEWS = """{made}//! Messages as they are read: each field, in the order of the standard's table.

use crate::field_words::{{{helpers}}};
use krb_msg::{{{structs}}};
use krb_words::Answer;

{shows}"""
TYPES = """{made}//! Each type of message: read, shown, copied and written.

use crate::sealing::show;
use crate::views::{{{views}}};
use krb_msg::{{{structs}}};
use krb_words::Answer;
use std::alloc::Global;

/// Shows the fields of a message of this type and the bytes of a copy, or the fault.
pub(crate) fn parse(of: &str, bytes: &[u8], alloc: Global, out: &mut Answer) -> Option<()> {{
match of {{ {arms} _ => None, }}
}}

{parses}"""
# What of field_words a file uses, and what of krb_msg.
HELPERS = re.compile(r"\b(show_(?:octets|name|key|typed|list)(?:_or_none)?)\(")
STRUCTS = re.compile(r"\b(?:\w+Ref|Microseconds|Seconds)\b")


def listed(names):
    return ", ".join(sorted(set(names)))


def files():
    """The text of each file, by its path."""
    rows = tomllib.loads((ROOT / TABLE).read_text())["message"]
    every = [Calls(Message(**it)) for it in rows]
    whole = [it for it in every if it.of.application]
    shows = "\n".join(it.shows() for it in every)
    views = VIEWS.format(made=MADE, helpers=listed(HELPERS.findall(shows)), structs=listed(STRUCTS.findall(shows)),
                         shows=shows)
    types = TYPES.format(
        made=MADE, views=listed(f"show_{it.name}" for it in whole), structs=listed(it.of.view for it in whole),
        arms=" ".join(f'"{it.word}" => {it.name}(bytes, alloc, out),' for it in whole),
        parses="\n".join(it.parses() for it in whole))
    return {f"{PLACE}/{path}": text for path, text in layout.laid_out({"views.rt": views, "types.rt": types}).items()}
