"""Makes the files that follow from tables, or checks them.

    python3 -m tools.generate           writes them (`make generate`)
    python3 -m tools.generate --check   writes none, and ends with 1 after the first line that differs

crates/krb_c/interface.toml is the table of the library for C, crates/krb_ap/causes.toml that of causes for refusing a request,
crates/krb_msg/messages.toml that of the messages, crates/krb_gss/messages.toml that of the messages of tokens, and
crates/krb_command_line/commands.toml that of krbtool's commands. What docs/PROOFS.md says a reader must believe is
counted, and docs/STATEMENTS.md quotes the sources. Debian's python3-jinja2 must be installed.
"""
import itertools
import sys

from . import ROOT, believed, causes, commands, interface, message_calls, messages, statements, tokens


def difference(path, wanted):
    """What is wrong with a file, or None."""
    found = (ROOT / path).read_text() if (ROOT / path).exists() else ""
    if found == wanted:
        return None
    pairs = itertools.zip_longest(found.splitlines(), wanted.splitlines())
    at, (has, should) = next(((at, it) for at, it in enumerate(pairs, 1) if it[0] != it[1]), (0, ("", "another end of the file")))
    return f"{path}, line {at}: {has!r} isn't {should!r}, as `make generate` makes it"


def main(words):
    if words not in ([], ["--check"]):
        sys.exit(__doc__)
    made = interface.environment()
    texts = interface.files() | causes.files(made) | messages.files() | message_calls.files() | tokens.files()
    texts |= commands.files() | believed.files() | statements.files()
    for path in messages.left_over(texts):
        if words:
            sys.exit(f"{path} isn't made of messages.toml any more")
        (ROOT / path).unlink()
    for path, text in texts.items():
        if not words:
            (ROOT / path).parent.mkdir(parents=True, exist_ok=True)
            (ROOT / path).write_text(text)
        elif wrong := difference(path, text):
            sys.exit(wrong)


if __name__ == "__main__":
    main(sys.argv[1:])
