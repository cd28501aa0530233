"""Writes what bench/run.py found into bench/README.md, and a sentence of it into README.md."""
import re
import sys
from datetime import date
from pathlib import Path

from builds import TOP
from support import reflow

# The rows of README's sentence, by group and what stands in them: of several, the one that is worst for us.
SENTENCE = {
    ("sealing", "1 MiB"): "sealing or opening 1 MiB",
    ("clients", "1,000 tickets"): "making a request",
    ("services", "a new ticket"): "accepting a new ticket",
    ("services", "a kept ticket"): "accepting a kept one",
    ("logins", "a new ticket"): "a login in one call",
    ("python", "a new ticket"): "a login from Python",
    ("processes", "for each login"): "a new process for each login",
    ("processes", "1,000 clients"): "`krbtool accept` with new tickets",
    ("refused", "not a request"): "refusing what isn't a request",
}


def of(found, group, words):
    """The rows of these words, of those without a replay cache."""
    return [it for it in found if it["group"] == group and words in it["what"] and "replay cache" not in it["beside"]]


def sentence(found):
    """By how much the other side takes more in the worst row of each kind: time, if all rows could tell, or else
    instructions."""
    rows = {said: of(found, *place) for place, said in SENTENCE.items()}
    by_time = all(it["times"] and "too busy" not in it["shown"] for kind in rows.values() for it in kind)
    ratios = sorted((min(it["ratio"] if by_time else it["instructions"][1] / it["instructions"][0] for it in kind),
                     said)
                    for said, kind in rows.items() if kind)
    what = "processor time" if by_time else "instructions"
    listed = ", ".join(f"{ratio:.1f} for {said}" for ratio, said in ratios)
    return f"MIT krb5's {what} over ours, without its replay cache, the worst first: {listed}."


def replaced(path, name, text):
    """Puts a text between the lines `<!-- NAME: .. -->` and `<!-- end -->` of a document."""
    before = path.read_text()
    place = rf"(<!-- {name}: [^\n]*-->\n).*?(<!-- end -->)"
    after, count = re.subn(place, lambda it: f"{it[1]}{text}\n{it[2]}", before, flags=re.S)
    if count != 1:
        sys.exit(f"{path}: no place for {name}")
    path.write_text(after)


def setting(has_times):
    """On what machine the rows were measured."""
    model = re.search(r"model name\s*: (.*)", Path("/proc/cpuinfo").read_text())[1]
    times = "" if has_times else " No times were measured, since the machine had other work."
    return reflow.laid_out(f"These are of a machine with {model}, of {date.today().isoformat()}.{times}")


def write(found, tables):
    """`tables` has the text of each group's table. What is said of all groups is written only if all were measured."""
    document = TOP / "bench/README.md"
    for group, table in tables.items():
        replaced(document, f"rows {group}", table)
    if {group for group, _ in SENTENCE} <= set(tables):
        replaced(document, "setting", setting(found[0]["times"]))
        replaced(TOP / "README.md", "speed", reflow.laid_out(sentence(found)))
