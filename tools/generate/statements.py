"""The page of the statements in full, docs/STATEMENTS.md.

It has the contracts that state each promise as a whole, and the files of the definitions that they rest on, each with
its first sentence. What they rest on is found as for the table in docs/PROOFS.md.
"""
import itertools
import re
import textwrap

from . import ROOT, believed

DOCUMENT = "docs/STATEMENTS.md"
# What each promise says, in a sentence. (docs/PROOFS.md says it at length.)
SAID = {
    "Each layer meets its definition: sealing":
        "What `seal` returns is the sealed text of RFC 8009. Unless memory runs out, `open` returns a plain text "
        "exactly if sealing it, with some confounder, gives the bytes that it was given.",
    "Acceptance is sound":
        "After any calls, a service accepts a request exactly if it meets every rule; otherwise it reports the first "
        "cause in the table of ACCEPTANCE.md that applies, or that memory ran out. That is about all calls of an "
        "acceptor: a new one stands for the empty history (`new` and `started`: `stands`), and each call goes on from "
        "there (`goes_on`), so that its answers are a run. `one_answer` says that the rules decide each call, and that "
        "no two answers are right, but for which fault of the bytes `Malformed` names. No two accepted calls of a run "
        "have the same service, client and time: `no_stamp_twice` says so of each run, `serve` in one clause (`once`), "
        "and `no_stamp_twice_in_a_life` of a keytab that is replaced on the way. Across a restart, `both_agree` says "
        "it (`once`), below.",
    "A good request gets in":
        "A request that `make_request` builds is accepted, if the key of the keytab opens its ticket to the client and "
        "the session key of the credential, and nothing else stands against it: the clocks, the ticket's times and "
        "flags, its realms and authorization data, a repeat, or a start. [Each "
        "condition](PROOFS.md#the-promises-as-a-whole).",
    "Both sides agree":
        "In a world in which the network loses, repeats and reorders what was sent, but forges no reply, a client "
        "that takes a reply knows the same client, keys and numbers as the service. The world's events are calls: "
        "`sends` is `make_request`, `accepts` and `refuses` are `accept`, `replies` is `reply`, `errs` is "
        "`error_reply`, "
        "`ends` is `finish`, and `restarts` is `started`; the world begins with `new` or `started`.",
    "A shared store lets in once":
        "Services that ask one store of stamps let nobody in twice by one request, on the rules for stores.",
    "A login in one call":
        "Who is let in by the one call has a request that the service accepts, and meets the service's terms; what "
        "goes back is the reply, the error or the token that belongs to it.",
}
HEAD = """# The promises in full

This page is for those who want to judge what is proved. It has the contracts that state each
promise as a whole, word for word from the sources, and the files that define their words. All of it
is made from the sources by `make generate`. [PROOFS.md](PROOFS.md#the-promises-as-a-whole) says the
same in plain English, for a store and the one call in the parts on `krb_ap` and `krb_login`, and
[what you have to trust](PROOFS.md#what-is-trusted).

How to read a contract: `ensures NAME { .. }` is a clause that holds whenever the function returns.
`result` is what it returns; `x.old` and `x.new` are a value before and after the call, `x.now` one
that stays the same. `→` is "if .. then" or "for all", `×` is "and" or "there is", `⊎` is "or", `≡`
is equality, `≢` inequality, `¬` is "not", `↔` "exactly if", `⊥` is what never holds, and `x ∷ xs`
is a list with `x` in front. `IfOk result (λ x. ..)` says something of what is returned if the call
succeeds, `IfErr` of its error, `MatchResult` of either, and `IsErrOf result e` that the call fails
with `e`; `OnOk` and `OnErr` say something that holds after a call that succeeds or fails. Such a
word is true where there is nothing to say it of, as `IfSome` of no value. `IsTrue` is of a `bool`.
`abbrev` and `unfoldable` only say how a definition is used in proofs. A word after a type, as
`M.has`, is one that the type's trait declares (for a memory, `krb_replay/src/memory.rt`). A
function without a result is a law: its clauses are theorems.

A contract sees a value of a type with private fields as its `impl Model` says, by `ghost view`: an
`Acceptor` as what it was set up with and its memory, a `Key` as a type and bytes. So
`self.now.bytes` isn't a field. A view decides what a clause says of a value, and is to be read
beside the type, with what it uses of `specs/Inner`. What calls say of the values that they make and
show holds it fast: for a key `Key::new` (`made`) and `bytes`, for a keytab `Keytab::parse`, for a
cache `CCache::parse`.

To check a promise, read its contracts, then the files below it, as far as they are used. Not listed
are types that the sources declare (`Accepted`, `Refusal`) and words of the toolchain: of its
standard library (`List`, `IfOk`, `zip2` of `Simd.Lanes`), and of its crates, SHA-256 and SHA-384
(`sha2`) and the days of the calendar (`jiff_core`). `make` proves that the code meets the
contracts; the proofs needn't be read.
"""


def shown(function):
    """The contract of a function as it stands in the source, comments too."""
    path, name = believed.place_of(function)
    text = (ROOT / path).read_text()
    begin = re.search(rf"^ *pub fn {name}\(", text, re.M).start()
    end = re.compile(r"\n *\{\}?$", re.M).search(text, begin).start()
    line, code = text[:begin].count("\n") + 1, textwrap.dedent(text[begin:end].rstrip())
    return f"`{path}`, line {line}:\n\n```text\n{code}\n```\n"


def about(path):
    """The first sentence of a file of definitions, which says what it defines."""
    lines = itertools.takewhile(lambda it: it.startswith("--"), (ROOT / path).read_text().splitlines())
    text = " ".join(it.removeprefix("--").strip() for it in lines if not it.startswith("-- Made from "))
    return re.match(r".*?(?:(?<!section)(?<!sections)\.(?= [A-Z]|$)|$)", text)[0]


def files_of(functions):
    """The files of definitions below these functions, each with its lines, those that are found first at the top."""
    found, left = {}, [believed.contract(it) for it in functions]
    seen = set(left)
    while left:
        it = left.pop(0)
        if it.path.endswith(".antt"):
            found[it.path] = found.get(it.path, 0) + it.size
        for word in sorted(it.words):
            other = believed.known(it.path, word)
            if other and other not in seen:
                seen.add(other)
                left.append(other)
    return found


def contracts(functions, before):
    """The contracts of functions, those that were shown before by their names alone."""
    names = [f"`{believed.place_of(it)[1]}`" for it in functions if it in before]
    head = [f"The contract of {' and '.join(names)} above, and:\n"] if names else []
    return [*head, *(shown(it) for it in functions if it not in before)]


def words_of(functions):
    """The words of these contracts, each with the place where it is defined."""
    found = {}
    for it in functions:
        for word in sorted(believed.contract(it).words):
            other = believed.known(believed.contract(it).path, word)
            if other and other.path.endswith(".antt"):
                found[word] = f"`{word}` ({other.path.removeprefix('crates/')}:{other.first})"
    text = f"Where their words are defined, below `crates/`: {', '.join(found[it] for it in sorted(found))}."
    return textwrap.fill(text, 100, break_on_hyphens=False, break_long_words=False) + "\n"


def table(lines, before):
    """The files of definitions, those that weren't listed before."""
    rows = [f"| `{path}` | {count:,} | {about(path)} |" for path, count in lines.items() if path not in before]
    again = sum(path in before for path in lines)
    head = f"It rests on {sum(lines.values()):,} lines of definitions in {len(lines)} files"
    if again:
        head += f"; {again} of them are listed above" + (", and these:" if rows else ".")
    else:
        head += ":"
    listed = ["", "| file | lines | what it defines |", "|---|---|---|", *rows] if rows else []
    return "\n".join([head, *listed]) + "\n"


def parts():
    functions_before, files_before = set(), set()
    for promise, functions in believed.PROMISES:
        lines = files_of(functions)
        said = textwrap.fill(SAID[promise], 100, break_on_hyphens=False, break_long_words=False)
        new = [it for it in functions if it not in functions_before]
        shown_here = [*contracts(functions, functions_before), words_of(new)]
        yield "\n".join([f"## {promise}\n\n{said}\n", *shown_here, table(lines, files_before)])
        functions_before |= set(functions)
        files_before |= set(lines)


def files():
    return {DOCUMENT: "\n".join([HEAD, *parts()])}
