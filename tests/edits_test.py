#!/usr/bin/env python3
"""Tests tests/edits.py on a small crate: it has to tell an edit that is refused from each kind that isn't, and to try again what a change
may have turned. The last line is 'N passed, M failed'."""
import os
import re
import subprocess
import sys
import tempfile
import time
from concurrent.futures import ThreadPoolExecutor
from unittest import mock

import edits
import edits_items
import edits_lock
import edits_stated
from edits import crates_of

SOURCE = """// Functions whose edits show what the runner of edits tells apart.
// Where an edit may stand.
#![tactic(auto)]

ghost use Rattle.std.specs.Prelude.{◌≡◌, ◌≤◌, ◌+◌, ◌*◌};

const MOST: u32 = 1000;

pub fn twice(n: u32) -> u32
    requires small { n ≤ 1000 }
    ensures { result ≡ n * 2 }
{
    n + n
}

MULTIPLES

const MORE: u32 = 2;

pub fn twice_and_more(n: u32) -> u32
    requires small { n ≤ 500 }
    ensures { result ≡ n * 2 + 2 }
{
    let two = twice(n);
    two + MORE
}

pub fn part(n: u32) -> u32
    ensures { result ≤ n }
{
    n / 2
}

pub fn at_most(n: u32) -> u32
    ensures { result ≤ 1000 }
{
    n.min(MOST)
}

pub fn next(n: u32) -> u32
    requires small { n ≤ 1000 }
    ensures { result ≡ n + 1 }
{
    n + 1
}

pub trait Bit {
    fn bit(&self) -> u32
        ensures { result ≤ 1 };
}

impl Bit for bool {
    fn bit(&self) -> u32 {
        if *self {
            1
        } else {
            0
        }
    }
}

impl Bit for u8 {
    fn bit(&self) -> u32 {
        u32::from(*self / 128)
    }
}
"""


def multiple(name, factor, part, whole):
    """A function that makes a multiple of a number of a first part, its double."""
    return f"""pub fn {name}(n: u32) -> u32
    requires small {{ n ≤ 500 }}
    ensures {{ result ≡ n * {factor} }}
{{
    let {part} = twice(n);
    {whole}
}}
"""


MULTIPLES = [("four_times", 4, "half", "half + half"), ("six_times", 6, "third", "third + third + third"), ("three_times", 3, "two", "two + n")]
SOURCE = SOURCE.replace("MULTIPLES\n", "\n".join(multiple(*it) for it in MULTIPLES))
# the answer names the call of twice
ANSWERS = """use Rattle.std.proofs.Common.{rules}
use Rattle.sample.proofs.six_times.Goals as goal

pub returns : goal.returns
returns c = let is = c.twice-third.ensures in search rules
"""

# the answer is a term that fits no other order of the sum
TERM = """use Rattle.std.proofs.Common.{◌≡◌, ◌+◌, ℕ, ap, ◌∙◌, arith}
use Rattle.sample.proofs.three_times.Goals as goal

pub returns : goal.returns
returns c = ap (λ (k : ℕ). k + c.args.n) c.twice-two.ensures ∙ omega arith
"""

# the answer is a term that fits no other constant
SUM = """use Rattle.std.proofs.Common.{◌≡◌, ◌+◌, ℕ, ap}
use Rattle.sample.proofs.twice_and_more.Goals as goal

pub returns : goal.returns
returns c = ap (λ (k : ℕ). k + 2) c.twice-two.ensures
"""

# an edit's name, what it replaces by what, and what the runner has to say of it (in a run of all of them)
EDITS = [
    ("twice_and_one", "    n + n", "    n + n + 1", None),
    ("twice_is_none", "    n + n", "    0", None),
    # whose group-mate in twice breaks it, and which is right
    ("four_times_by_twice_of_each", "    half + half\n".strip("\n"), "    half + twice(n)", "isn't refused"),
    # whose group-mate in twice breaks it too, and which is wrong
    ("four_times_is_twice", "    half + half\n".strip("\n"), "    half", None),
    ("part_is_a_third", "    n / 2", "    n / 3", "isn't refused"),
    ("next_is_unknown", "    n + 1", "    n + one()", "doesn't compile"),
    ("next_is_the_same", "    n + 1", "    n", None),
    ("most_is_more", "const MOST: u32 = 1000;", "const MOST: u32 = 1001;", None),
    ("six_times_without_the_call", "    let third = twice(n);", "    let third = n + n;", "is refused only because a proof file names"),
    ("six_times_is_four_times", "    third + third + third", "    third + third", None),
    # of both the answer no longer fits, and one is right
    ("three_times_the_other_way_round", "    two + n", "    n + two", "isn't refused: without the answers"),
    ("three_times_is_four_times", "    two + n", "    two + two", None),
    # an answer no longer fits, for a constant
    ("more_is_three", "const MORE: u32 = 2;", "const MORE: u32 = 3;", None),
    ("of_a_text_that_is_gone", "    n + n + n", "    0", "doesn't apply"),
    # methods of one trait, each for a type of the language
    ("bool_is_two", "            1\n".strip("\n"), "            2", None),
    ("u8_is_three", "*self / 128", "*self / 64", None),
    ("next_asks_for_more", "    ensures { result ≡ n + 1 }", "    ensures { result ≡ n + 1 + }", "can't be read"),
]


def made(room, edits):
    """Makes a repository of the crate and these edits."""
    crate = f"{room}/crates/sample"
    files = {f"{room}/crates.txt": "sample:\n", f"{room}/HANDLES": "Handles allowed: none.\n"}
    files |= {f"{crate}/src/lib.rt": SOURCE, f"{crate}/proofs/six_times/Answers.antt": ANSWERS, f"{crate}/proofs/three_times/Answers.antt": TERM}
    files |= {f"{crate}/proofs/twice_and_more/Answers.antt": SUM}
    files |= {f"{crate}/edits/{name}.edit": f"file: src/lib.rt\nold: {old}\nnew: {new}\n" for name, old, new, _ in edits}
    for path, text in files.items():
        os.makedirs(os.path.dirname(path), exist_ok=True)
        with open(path, "w", encoding="utf-8") as it:
            it.write(text)


def run_of(room, edits, *more):
    for it in edits:
        made(room, [it])
    words = [sys.executable, f"{os.path.dirname(os.path.abspath(__file__))}/edits.py", "--at", room, *more]
    ran = subprocess.run(words, stdout=subprocess.PIPE, stderr=subprocess.STDOUT, text=True, stdin=subprocess.DEVNULL)
    return ran.returncode, ran.stdout


# A crate below, which is there to be changed: the other uses nothing of it. The name of one of its functions stands in the other, too.
LOW = """//! A crate below.
#![tactic(auto)]

ghost use Rattle.std.specs.Prelude.{◌≡◌, ◌≤◌};

// A number.
pub fn one() -> u32
    ensures { result ≡ 1 }
{
    1
}

pub fn third() -> u32
    ensures { result ≡ 3 }
{
    3
}
"""

# An edit that names a comment, too.
NAMES_A_COMMENT = ("names_a_comment", "    n + n", "    n + n + 1\nold: // Where an edit may stand.\nnew: // Here.", None)
# The edits of the lock's test: of a function, of one that calls it, and one that changes a comment outside of functions, too.
LOCKED = [EDITS[1], EDITS[9], NAMES_A_COMMENT]

# A definition whose name stands in the functions of the edits.
NAMED = "abbrev pub n : ℕ\nn = 1\n"

# What is changed (file, old text, new text), and how many of the three are tried again for it.
CHANGES = [
    ("a comment of the crate below", "low/src/lib.rt", "// A number.", "// One.", 0),
    ("a body of the crate below", "low/src/lib.rt", "    1\n", "    2 - 1\n", 0),
    ("a comment", "sample/src/lib.rt", "// Functions whose edits show", "// These show", 0),
    ("a comment of a proof", "sample/proofs/six_times/Answers.antt", "pub returns :", "-- What is returned.\npub returns :", 0),
    ("a contract of the crate below that nothing names", "low/src/lib.rt", "result ≡ 1", "result ≤ 1", 0),
    ("a private function of the crate below", "low/src/lib.rt", "// A number.", "fn other() -> u32 {\n    2\n}\n", 0),
    ("the body of another function", "sample/src/lib.rt", "    n / 2", "    n / 4", 1),
    ("the contract of another function", "sample/src/lib.rt", "ensures { result ≤ n }", "ensures { n ≤ n }", 1),
    ("a new function", "sample/src/lib.rt", "pub fn part", "fn other() -> u32 {\n    2\n}\n\npub fn part", 1),
    ("a comment that an edit names", "sample/src/lib.rt", "// Where an edit may stand.", "// Elsewhere.", 1),
    ("an edit", "sample/edits/twice_is_none.edit", "    0", "    1", 1),
    ("a proof", "sample/proofs/six_times/Answers.antt", "search rules", "search (rules)", 2),
    ("the body that an edit changes", "sample/src/lib.rt", "    n + n\n", "    n + n + 0\n", 2),
    ("the function's own proof", "sample/proofs/twice/Answers.antt", "", "pub returns : goal.returns\n", 2),
    ("a contract of the crate below that an edit's function names", "low/src/lib.rt", "result ≡ 3", "result ≤ 3", 2),
    ("the contract of the function that it calls", "sample/src/lib.rt", "ensures { result ≡ n * 2 }", "ensures { result ≤ n * 2 }", 3),
    ("the attribute of a function that it calls", "sample/src/lib.rt", "pub fn twice", "#[inline]\npub fn twice", 3),
    ("the contract of another trait", "sample/src/lib.rt", "ensures { result ≤ 1 };", "ensures { result ≤ 2 };", 1),
    ("another function's constant", "sample/src/lib.rt", "MOST: u32 = 1000", "MOST: u32 = 1001", 1),
    ("an import of a sign", "sample/src/lib.rt", "◌+◌, ◌*◌}", "◌+◌}", 3),
    ("an import of a sign that only a trait has", "sample/src/lib.rt", "◌≡◌, ◌≤◌", "◌≡◌", 3),
    ("an import of a sign that nothing has", "sample/src/lib.rt", "◌+◌, ◌*◌}", "◌+◌, ◌*◌, ◌<◌}", 1),
    ("a definition of a crate below that nothing names", "low/specs/Other.antt", "", NAMED, 0),
    ("a definition that nothing names", "sample/specs/Other.antt", "", NAMED, 0),
    ("a definition of a module that nothing names", "sample/specs/twice.antt", "", NAMED, 0),
    ("a lemma that nothing names", "sample/proofs/Other.antt", "", "pub n : ℕ\n", 1),
    ("a definition that a function's proof names", "sample/proofs/six_times.antt", "", "abbrev pub third : ℕ\nthird = 1\n", 2),
    ("a lemma that a function's proof names", "sample/proofs/six_times.antt", "", "pub third : ℕ\n", 2),
]
TURN = "edits: sample: 1 edits are tried: it is their turn"


def write(path, text):
    os.makedirs(os.path.dirname(path), exist_ok=True)
    with open(path, "w", encoding="utf-8") as it:
        it.write(text)


def read(path):
    if not os.path.isfile(path):
        return ""
    with open(path, encoding="utf-8") as it:
        return it.read()


def git(room, *words):
    subprocess.run(["git", "-c", "user.name=A", "-c", "user.email=a@example", "-C", room, *words], check=True, capture_output=True)


def commit(room):
    git(room, "commit", "--allow-empty", "-q", "-m", "more")


def check_lock(hold):
    """What makes the runner try an edit again, and that a line that lies is found when its turn comes."""
    with tempfile.TemporaryDirectory(prefix="edits-test-") as room:
        made(room, LOCKED)
        write(f"{room}/crates.txt", "low:\nsample: low\n")
        write(f"{room}/crates/low/src/lib.rt", LOW)
        git(room, "init", "-q")
        commit(room)
        plan = lambda: run_of(room, [], "--plan")[1]
        tried = lambda: int((re.search(r"edits: sample: (\d+) edits are tried: changed since", plan()) or [0, 0])[1])
        hold("without a lock all is tried", tried() == 3)
        status, said = run_of(room, [])
        hold("a line is written if an edit is refused", status == 0 and said.endswith("\n3 passed, 0 failed\n") and tried() == 0)
        for what, file, old, new, again in CHANGES:
            path = f"{room}/crates/{file}"
            text = read(path)
            write(path, text.replace(old, new, 1) if old else new)
            hold(f"{what} is changed", tried() == again)
            if text:
                write(path, text)
            else:
                os.remove(path)
        hold("all is as it was", tried() == 0)
        status, said = run_of(room, [], "--edit", EDITS[1][0])
        hold("one edit by its name, and the lines of others stay", status == 0 and said.endswith("\n1 passed, 0 failed\n") and tried() == 0)
        for it in LOCKED[1:]:
            os.remove(f"{room}/crates/sample/edits/{it[0]}.edit")
        check_toolchains(hold, room)
        check_turns(hold, room, plan)


def check_imports(hold):
    """What a source imports, and that a function is found under another name."""
    found = dict(edits_stated.leaves("a::{b, c::{d as e, *}, f::self}"))
    hold("the names of imports", found == {"b": "a::b", "e": "a::c::d as e", "*": "a::c::*", "self": "a::f::self"})
    it = edits_stated.Source("use a::{b, c::d as e};\npub use f::g as h;\nmod i;\n\npub fn j(k: b) -> u8 {\n    e(k)\n}\n")
    hold("functions under other names", it.renamed == [("e", "d"), ("h", "g")])
    hold("what is handed on", it.public == ["pub use f::g as h;"] and it.rest == "")
    handed = list(edits_items.items_handed_on("lib.rt", it.public, edits_stated.leaves))
    hold("and how a check comes to it", [(one.text[1], one.names) for one in handed] == [("f::g as h", (frozenset({"h"}),))])
    hold("what a function's head imports", it.imported(it.heads[0][2]) == ("a::b",))
    it = edits_stated.Source("type A = B<C>;\nimpl<T: X> B<T> {\n    pub fn new() -> B<T> {\n    }\n\n    fn of(&self) {\n    }\n}\n")
    hold("the type of a function", [(name, of_type) for name, *_, of_type in it.heads] == [("new", "B"), ("of", "B")])
    hold("a type under another name", sorted(it.renamed) == [("A", "B"), ("A", "C")])


DEFINITIONS = """use Rattle.std.specs.Prelude.{◌≡◌, ◌<◌, ℕ, List as Many}

abbrev pub two : ℕ → ℕ
two n = n + two_more
-- a comment
pub record Pair (X : Type 0) : Type 0 where
  pub first : X
  pub same : first ≡ first

pub data Side : Type 0 where
  left : ℕ → Side
  right : Side

module _ {X : Type 0} where
  abbrev pub many : Many X
  many = []

late : ℕ
late = two 1
"""

ITEMS = """#![tactic(auto)]
pub const MOST: usize = 4;
const LEAST: usize = 1;
#[derive(Drop)]
pub struct Shown { pub at: usize, rest: Vec<(u8, u8)>, }
pub(crate) struct Hidden { at: usize, }
impl Model for Shown { ghost Value = { Pair }; ghost view = { λ s. record { at = s.at; rest = s.rest } }; ghost invariant = { λ s. s.at < 4 }; }
impl Named for Shown { fn name(&self) -> u8 {} }
impl<T: Named> Other for T { fn other(&self) {} }
impl<T: Named> Named for &T { fn name(&self) -> u8 {} }
impl Hidden { const X: u8 = 1; }
impl fmt::Debug for Shown { ghost debug_output = { shown }; fn fmt<W: fmt::Write>(&self, f: &mut fmt::Formatter<W>) -> fmt::Result {} }
pub trait Named { fn name(&self) -> u8; }
"""


def check_definitions(hold):
    """What a file of definitions is cut into, and how a check comes to each part."""
    text = edits_stated.COMMENT_OF_ANTT.sub("", DEFINITIONS)
    named = lambda path: {it.text[1]: it for it in edits_items.definitions_of(path, text)}
    found = named("specs/Pairs.antt")
    hold("definitions", list(found) == ["two", "Pair", "Side", "many", "late"])
    hold("an equation", found["two"].text[2] == "\nabbrev pub two : ℕ → ℕ\ntwo n = n + two_more")
    hold("what a definition imports", found["two"].text[3] == ("Rattle.std.specs.Prelude.ℕ",) and found["Pair"].text[3] == ("Rattle.std.specs.Prelude.◌≡◌",))
    hold("an import under another name", found["many"].text[3] == ("Rattle.std.specs.Prelude.List as Many",))
    hold("a definition's names", found["two"].names == (frozenset({"two", ".specs.Pairs"}),))
    hold("the names of variants", [set(it) - {".specs.Pairs"} for it in found["Side"].names] == [{"Side"}, {"left"}, {"right"}])
    hold("what a module takes", found["many"].text[2].startswith("module _ {X : Type 0} where\nabbrev pub many"))
    hold("the modules of a path", {"krb_a.specs", "krb_a.specs.B"} < edits_items.words_of("use Rattle.krb_a.specs.B.{c}"))
    hold("a lemma's proof is left out", named("proofs/Pairs.antt")["late"].text[2] == "\nlate : ℕ")
    hold("an equation isn't", "two_more" in named("proofs/Pairs.antt")["two"].text[2])


def check_items(hold):
    """What the items of a source are, and which of them a crate shows."""
    traits = edits_items.traits_of(ITEMS)
    items = lambda is_below: {it.text[1]: it for it in edits_items.items_of_source("a.rt", ITEMS, lambda text: (), traits, is_below)}
    every, shown = items(False), items(True)
    shown_items = list(shown.values())
    hold("all items", len(every) == 12 and "#![tactic(auto)]" in every)
    hold("a public constant", [it for it in shown if "MOST" in it or "LEAST" in it] == ["pub const MOST: usize = 4;"])
    hold("a private field isn't shown", "#[derive(Drop)] pub struct Shown {pub at: usize}" in shown)
    hold("nor what the type's value is made of", [it for it in shown if " Model " in it] == ["impl Model for Shown { ghost Value = { Pair }; }"])
    hold("nor a private type", not any("Hidden" in it for it in shown) and any("Hidden" in it for it in every))
    names = {text: it.names for text, it in every.items()}
    hold("a type's name", names["#[derive(Drop)] pub struct Shown { pub at: usize, rest: Vec<(u8, u8)>, }"] == (frozenset({"Shown"}),))
    hold("a trait of another crate", next(it for text, it in names.items() if " Model " in text) == (frozenset({"Shown"}),))
    hold("a trait", next(it for text, it in names.items() if text.startswith("impl Named")) == (frozenset({"Shown", "Named"}),))
    hold("a trait for any type", next(it for text, it in names.items() if "Named for &T" in text) == (frozenset({"Named"}),))
    hold("an implementation for any type", next(it for text, it in names.items() if " Other " in text) == ())
    reached = edits_items.Reached(every.values())
    said = lambda *words: {it.text[1].partition(" {")[0] for it in reached.of(words)[0]}
    always = {"#![tactic(auto)]", "impl<T: Named> Other for T", "impl<T: Named> Named for &T", "pub trait Named"}
    hold("what matters always, and what that names", said() == always)
    named = edits_items.Reached([it for it in every.values() if it.names])
    functions = {it.text[1].partition(" {")[0] for it in named.of({"name"})[0]}
    hold("a trait by its function", functions == {"pub trait Named", "impl<T: Named> Named for &T"})
    elsewhere = edits_items.Reached([it for it in shown_items if it.names])
    hold("but not that of a crate below", not elsewhere.of({"name"})[0] and len(elsewhere.of({"Named"})[0]) == 2)
    is_debug = lambda words: any(it.startswith("impl fmt::Debug for Shown") for it in said(*words))
    hold("what shows a value, if something is formatted", is_debug({"Shown", edits_items.FORMATS}) and not is_debug({"Shown", "Debug"}))
    kept, of_debug = edits_items.split_derived("#[derive(Clone, Debug)] pub struct A {}")
    hold("what derives Debug", kept == "#[derive(Clone)] pub struct A {}" and of_debug == (frozenset({"A", edits_items.FORMATS}),))
    hold("what derives none", edits_items.split_derived("#[derive(Clone)] struct A;") == ("#[derive(Clone)] struct A;", ()))
    hold("what formats", all(map(edits_items.formats, ["write!(f, \"{x:?}\")", "x.unwrap_err()", "λ x. x.debug_output", "assert_eq!(x, y)"])))
    hold("what doesn't", not any(map(edits_items.formats, ["x.writer()", "x.unwrap_or(y)", "x.expect(y)", "#[derive(Clone)]"])))
    hold("what a name leads to", said("Shown") == always | {"#[derive(Drop)] pub struct Shown", "impl Model for Shown", "impl Named for Shown"})


def check_toolchains(hold, room):
    """Lines of another toolchain count for nothing, and stay while they hold."""
    write(f"{room}/tools/rt", "#!/bin/sh\necho another version\n")
    os.chmod(f"{room}/tools/rt", 0o755)
    words = [sys.executable, f"{os.path.dirname(os.path.abspath(__file__))}/edits.py", "--at", room, "--plan"]
    ran = subprocess.run(words, capture_output=True, text=True, env={**os.environ, "PATH": f"{room}/tools:{os.environ['PATH']}"})
    hold("another toolchain", "edits: sample: 1 edits are tried: changed since" in ran.stdout)
    known = crates_of(room)
    known["sample"].load()
    edit = known["sample"].edits[0]
    versions = ("another version", edits_lock.toolchain())
    both = "".join(f"toolchain {it}\n{edit.name} {edits_lock.hash_of(edit, edits_lock.Known(known), it)}\n" for it in versions)
    write(f"{room}/{edits_lock.FILE}", f"toolchain a third version\n{edit.name} 0\n{both}")
    status, _ = run_of(room, [], "sample")
    hold("lines of other toolchains stay while they hold", status == 0 and read(f"{room}/{edits_lock.FILE}") == both)


def check_turns(hold, room, plan):
    """Each edit is tried at least once in so many commits, so a line that lies is found."""
    edit = EDITS[4]
    os.remove(f"{room}/crates/sample/edits/{EDITS[1][0]}.edit")
    made(room, [edit])
    write(f"{room}/crates.txt", "low:\nsample: low\n")
    known = crates_of(room)
    known["sample"].load()
    lie = known["sample"].edits[0]
    lies = f"toolchain {edits_lock.toolchain()}\n{lie.name} {edits_lock.hash_of(lie, edits_lock.Known(known), edits_lock.toolchain())}\n"
    write(f"{room}/{edits_lock.FILE}", lies)
    turns = 0
    for _ in range(edits_lock.SLOTS):
        commit(room)
        if TURN in plan():
            turns += 1
            status, said = run_of(room, [])
            hold("a line that lies is found", status == 1 and "part_is_a_third.edit isn't refused" in said and said.endswith("\n0 passed, 1 failed\n"))
            hold("its line goes", lie.name not in read(f"{room}/{edits_lock.FILE}"))
            write(f"{room}/{edits_lock.FILE}", lies)
    hold("a turn in each round of commits", turns == 1)


# A program that starts another, which takes a lot of memory and then waits.
GREEDY = """import subprocess, sys
subprocess.run([sys.executable, "-c", "import os, time; print(os.getpid(), flush=True); x = bytearray(b'x' * 400_000_000); time.sleep(3600)"])
"""


def ends(process):
    """Whether a process that was killed ends: the system may be slow to take its memory back."""
    began = time.monotonic()
    while edits.memory_of(process) and time.monotonic() - began < 60:
        time.sleep(0.1)
    return edits.memory_of(process) == 0


def check_limits(hold):
    with mock.patch.object(edits, "MOST_MEMORY", 200_000_000):
        status, said, *_ = edits.run([sys.executable, "-c", GREEDY], "/")
    hold("a check that takes too much memory is ended", status < 0)
    hold("and so is what it started", ends(int(said)))
    status, said, *_ = edits.run([sys.executable, "-c", "print(1)"], "/")
    hold("one that doesn't isn't", (status, said) == (0, "1\n"))
    ended, runner, edit = edits.Said(None, -9, ""), edits.Runner("/", None, None), mock.Mock(by_terms=True, is_outside=False)
    with mock.patch.object(runner, "check", return_value=ended), mock.patch.object(runner, "names", return_value={"f"}), \
            mock.patch.object(edits, "without_misfits", return_value={}):
        silent = runner.by_goals(None, [edit])
        hold("an edit whose second try was ended is named", silent == [edit] and edit.by_terms and not edit.end.called)
        runner.alone(edit)
    hold("one whose check alone was ended fails", edit.end.call_args.args[0].startswith("wasn't checked to the end"))


def check_runs(hold):
    """What the runner says of each edit, as it is called by hand and after `rt ci`."""
    with tempfile.TemporaryDirectory(prefix="edits-test-") as room:
        status, said = run_of(room, EDITS)
        for name, _, _, fault in EDITS:
            lines = [it for it in said.split("\n") if it.startswith(f"edits: sample/{name}.edit ")]
            hold(name, not lines if fault is None else len(lines) == 1 and f".edit {fault}" in lines[0], said)
        refused = sum(fault is None for *_, fault in EDITS)
        hold("the last line", said.endswith(f"\n{refused} passed, {len(EDITS) - refused} failed\n") and status == 1, said)
        # one check for most: each edit alone would be a check of its own
        checks = re.search(r"refused, by (\d+) checks", said)
        hold("a goal is named of each", "show less" not in said, said)
        hold("few checks", checks and int(checks[1]) < len(EDITS), said)
        # after rt ci
        after = run_of(room, EDITS, "--after-ci", "--all")[1]
        told = lambda text: sorted(it for it in text.split("\n") if it.startswith("edits: sample/"))
        hold("the same after rt ci", told(after) == told(said) and after.split("\n")[-2] == said.split("\n")[-2], after)
        with open(f"{room}/crates/sample/src/lib.rt", "w", encoding="utf-8") as it:
            it.write(SOURCE.replace("    n + 1", "    n"))
        status, unproved = run_of(room, [], "--after-ci", "--all", "--few", "0")
        tried = [it for it in told(unproved) if " wasn't tried" not in it and " doesn't apply" not in it]
        is_named = f"\n0 passed, {len(EDITS)} failed\n" in unproved
        hold("nothing where the crate isn't proved", status == 1 and not tried and is_named, unproved)


CHECKS = [check_runs, check_lock, check_imports, check_definitions, check_items, check_limits]


def main():
    passed, failed = [], {}

    def hold(name, holds, said=""):
        if holds:
            passed.append(name)
        else:
            failed[name] = said

    # (each but the small ones waits for checks, which run side by side)
    with ThreadPoolExecutor() as pool:
        for it in [pool.submit(check, hold) for check in CHECKS]:
            it.result()
    for name, said in failed.items():
        print(f"{said}\nedits' own test: FAILED: {name}")
    print(f"{len(passed)} passed, {len(failed)} failed")
    return 1 if failed else 0


if __name__ == "__main__":
    sys.exit(main())
