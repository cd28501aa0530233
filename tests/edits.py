#!/usr/bin/env python3
"""Tries the edits of each crate, many at a time: the checker has to refuse each, by a goal of a function that it changes.

    tests/edits.py [NAME..]     the edits of these crates; if none is named, those that tests/edits.lock doesn't hold for, and beside them
                                a share of all others, another for each commit, to see that the lock is right (tests/edits_lock.py)
      --all                     the edits of all crates
      --plan                    says which edits would be tried, and tries none
      --jobs N                  so many checks side by side (as many as processors and memory allow, if left out)
      --at FOLDER               the repository (the one that this file stands in, if left out)
      --edit WORD               only edits whose name has this word
      --few N                   a crate of which more edits are tried is proved as it is first
      --after-ci                `rt ci` has just proved all crates as they are: what it left is taken (see libraries_of_ci)
      --log FOLDER              keeps what each check said there

An edit is a file crates/NAME/edits/WHAT.edit, in the form that `rt must-fail` reads: a line 'file: src/x.rt', then pairs of
lines 'old: TEXT' and 'new: TEXT'; each old TEXT stands once in that file, as the pairs before it left it.

Edits of one crate that change different functions are put into one copy of the crate, which is checked once: these functions and what
they call alone, from nothing. If many edits of a crate are tried, it is first proved as it is, and its checks go on from that. An edit is
refused if the check names a goal that it didn't prove in a function that the edit changes: goals speak of the contracts of what a function
calls, and not of its proofs. If it says only that a callee wasn't proved, the edit is tried again in a later round, without that callee's edit.
What is left is tried alone: an edit that its group didn't refuse, one whose group didn't compile, each of a group that left a
goal open in a function which none of them changes; and from the start an edit outside of functions, or of what other functions
see of one (its head, or a const fn), since its group could be refused for it.

An edit fails, by name, where it doesn't apply, doesn't compile or can't be read, where its crate stays proved, and where only
a proof file is refused, for a name that the edit took away. The line of each edit that was refused is written to the lock; that of one that
wasn't goes. An edit that is refused only since a term of an answer file no longer fits says nothing of the goal: another answer
might prove it. So it is tried once more without these answers. The checker then tries to prove the goal itself, and has to leave it open: if
it proves it, the edit isn't refused. If it names no goal even then, the report names the edit. A check that takes an hour, or 8 GB of memory,
is ended, since the search for a proof of what is false may have no end. The last line is 'N passed, M failed', of the edits that were tried.
"""
import argparse
import contextlib
import glob
import json
import os
import re
import shutil
import signal
import subprocess
import sys
import tempfile
import threading
import time
from collections import defaultdict
from concurrent.futures import ThreadPoolExecutor

import edits_lock
from source_text import blanked, functions_of, names_of

PARTS = ("src", "specs", "proofs")
# A check that has gone on for so many seconds, or holds so many bytes, won't end: it is ended, so that it isn't others that are.
LIMIT = 3600
MOST_MEMORY = 8_000_000_000
# More edits in one check save little, and leave other processors with nothing to do.
MOST = 16
# With more edits of a crate it is proved as it is first.
FEW = 64
# The toolchain.
KIT = os.path.dirname(os.path.dirname(os.path.realpath(shutil.which("rt") or "/opt/rattle/bin/rt")))

# ---------------------------------------------------------------- edits


class Edit:
    """An edit of a crate, and what it changes."""

    def __init__(self, crate, file):
        self.crate, self.file = crate, file
        self.name = f"{crate.name}/{os.path.basename(file)}"
        # why it can't be tried
        self.fault = None
        # the texts of the files that it changes, by path
        self.texts = {}
        # the functions that it changes, by path and number in the file, each with its new text
        self.changed = {}
        # whether it changes what stands in no function, or what others may see of one
        self.is_outside = self.is_seen = False
        # what came of it: 'refused', or a fault's words
        self.outcome, self.told = None, ""
        # whether it is refused by nothing but terms of answer files that no longer fit, and these answers: files and names
        self.by_terms, self.misfits = False, set()
        self.read()
        if not self.fault:
            self.look()

    def read(self):
        path, old, pairs = "", None, 0
        try:
            with open(self.file, encoding="utf-8") as it:
                lines = it.read().split("\n")
        except (OSError, UnicodeDecodeError) as error:
            self.fault = f"can't be read: {error}"
            return
        for line in lines:
            if line.startswith("file: "):
                path = line[len("file: ") :].strip()
            elif line.startswith("old: "):
                old = line[len("old: ") :]
            elif line.startswith("new:"):
                new = line[len("new:") :]
                new = new[1:] if new.startswith(" ") else new
                self.fault = self.fault or self.replace(path, old, new)
                old, pairs = None, pairs + 1
        if not pairs:
            self.fault = self.fault or "doesn't apply: it has no 'old:' and 'new:' pair"

    def replace(self, path, old, new):
        """Replaces a text in a file, or says why it can't."""
        if not path or not old:
            return "doesn't apply: a 'new:' line stands before any 'file:' or 'old:' line"
        text = self.texts.get(path, self.crate.texts.get(path))
        if text is None:
            return f"doesn't apply: there is no file {path} below src/, specs/ or proofs/"
        count = text.count(old)
        if count != 1:
            return f"doesn't apply: an 'old:' text is in {path} {count} times, and not once"
        self.texts[path] = text.replace(old, new)
        return None

    def look(self):
        """Finds the functions that the edit changes."""
        for path, text in self.texts.items():
            were, are = self.crate.functions(path), functions_of(text) if path.startswith("src/") else []
            self.is_outside = self.is_outside or around(self.crate.texts[path], were) != around(text, are)
            for number, (one, other) in enumerate(zip(were, are)):
                old, new = self.crate.texts[path][one.start : one.ends], text[other.start : other.ends]
                if old != new:
                    self.changed[path, number] = new
                    is_head = self.crate.texts[path][one.start : one.opens] != text[other.start : other.opens]
                    if is_head or one.is_const:
                        self.is_seen = self.is_seen or self.crate.is_named_elsewhere(path, one)

    def is_lone(self):
        """Returns whether the edit is tried alone: it changes what others than its functions may see."""
        return self.is_outside or self.is_seen or not self.changed

    def functions(self):
        return [(path, self.crate.functions(path)[number]) for path, number in self.changed]

    def end(self, outcome, told="", goals=()):
        self.outcome, self.told = outcome, told
        self.by_terms = bool(goals) and all(is_of_terms(it) for it in goals)
        self.misfits = {found.groups() for found in map(MISFIT.match, goals) if found} if self.by_terms else set()


def is_of_terms(line):
    """Returns whether a line says only that a term of an answer file no longer fits."""
    return line.startswith(("proofs/", "./proofs/")) and bool(TERMS_ALONE.search(line))


def without(text, names):
    """Returns the text of an answer file without these answers, and without the places of goals that only they name."""
    head, *answers = re.split(r"\n(?=pub \S+ :)", text)
    left = "\n".join(it for it in answers if not any(it.startswith(f"pub {name} :") for name in names))
    needed = lambda line: not (found := re.fullmatch(r"use \S+\.Goals\.\{(.*)\}", line)) or any(it in left for it in found[1].split(", "))
    return "\n".join([*filter(needed, head.split("\n")), left])


def without_misfits(crate, edits):
    """Returns the texts of the answer files without the answers that no longer fit these edits."""
    names = defaultdict(set)
    for path, name in set().union(*(it.misfits for it in edits)):
        names[path].add(name)
    texts = joined(crate, edits)
    return {path: without(texts.get(path, crate.texts[path]), names[path]) for path in names}


def around(text, functions):
    """Returns the text outside of the functions, and each function's name where it stands."""
    kept, at = [], 0
    for it in functions:
        kept += [text[at : it.start], it.key()]
        at = it.ends
    return [*kept, text[at:]]


def joined(crate, edits):
    """Returns the texts that these edits change together. An edit that isn't alone changes nothing but functions, and each of its own."""
    if len(edits) == 1:
        return edits[0].texts
    # (with no edit: the crate as it is)
    pieces = {place: new for it in edits for place, new in it.changed.items()}
    texts = {}
    for path in {path for path, _ in pieces}:
        made, at = "", 0
        for number, it in enumerate(crate.functions(path)):
            made += crate.texts[path][at : it.start] + pieces.get((path, number), crate.texts[path][it.start : it.ends])
            at = it.ends
        texts[path] = made + crate.texts[path][at:]
    return texts


class Crate:
    """A crate of the repository, with its edits and texts."""

    def __init__(self, top, name, deps, below):
        self.top, self.name, self.deps, self.below = top, name, deps, below
        self.folder = f"{top}/crates/{name}"
        # where the checker keeps what it proved of the crate as it is
        self.kept = f"{self.folder}/out/incremental"
        self.texts, self.parsed = {}, {}
        # the checker's names of its functions, once a check has listed them
        self.known = set()
        self.seconds, self.checks, self.memory = 0.0, 0, 0
        self.edits, self.strays, self.due = [], [], []

    def load(self):
        folder = f"{self.folder}/edits"
        names = sorted(os.listdir(folder)) if os.path.isdir(folder) else []
        for part in PARTS if names else ():
            for at, _, files in os.walk(f"{self.folder}/{part}"):
                for name in files:
                    with open(f"{at}/{name}", encoding="utf-8") as it:
                        self.texts[os.path.relpath(f"{at}/{name}", self.folder)] = it.read()
        for it in names:
            if re.fullmatch(r"[A-Za-z0-9_-][A-Za-z0-9_.-]*\.edit", it):
                self.edits.append(Edit(self, f"{folder}/{it}"))
            elif not it.endswith(".md"):
                self.strays.append(f"{self.name}/{it}")

    def functions(self, path):
        if path not in self.parsed:
            self.parsed[path] = functions_of(self.texts[path]) if path.startswith("src/") else []
        return self.parsed[path]

    def is_named_elsewhere(self, path, function):
        """Returns whether the function's name stands in code of the crate outside of the function, so that others can rest on what they see of it."""
        word = re.compile(rf"\b{re.escape(function.name)}\b")
        for other, text in self.texts.items():
            if other.startswith("src/"):
                code = blanked(text)
                if other == path:
                    code = "\n".join([code[: function.start], code[function.ends :]])
                if word.search(code):
                    return True
        return False

    def is_proved_first(self, few):
        """Returns whether the crate is proved as it is before edits are tried: many of them, or some for which it is checked whole."""
        return len(self.due) > few or sum(it.is_lone() for it in self.due) > 1

    def words(self, kept):
        """Returns the command that checks the crate in the folder where it runs, over what is kept there, if anything, and over the libraries
        as they are built."""
        words = [f"{KIT}/bin/rattle", "check", "--crate-name", self.name]
        words += ["src/main.rt" if os.path.isfile(f"{self.folder}/src/main.rt") else "src/lib.rt"]
        rlib = lambda it: f"{self.top}/crates/{it}/out/rlib"
        for it in ["std", *self.deps]:
            words += ["--extern", f"{it}={rlib(it)}/{it}.rlib" if it in self.below else f"{it}={KIT}/rlibs/{it}.rlib"]
        for it in [f"{KIT}/rlibs", *map(rlib, self.below)]:
            words += ["-L", f"dependency={it}"]
        words += ["--antt-project", f"{KIT}/rattle/logic/antt-project.json", "--logic-built", f"{KIT}/logic_built"]
        return [*words, "--jobs", "1", "--links", f"{self.name}=", *(["--incremental", kept] if kept else [])]

    def need(self):
        """Returns the memory that a check is likely to take, in bytes: what earlier ones took, or a guess by the size of its texts."""
        guess = 1_000_000_000 + 40 * sum(map(len, self.texts.values()))
        return max(self.memory * 1.1, 800_000_000) if self.memory else guess


def crates_of(top):
    """Returns the crates of crates.txt by name, each with the names of all crates of the repository below it."""
    rows = {}
    with open(f"{top}/crates.txt", encoding="utf-8") as it:
        for line in it:
            found = re.match(r"([\w-]+)[^:#]*:?([^#]*)", line.strip())
            if found and not line.startswith("#"):
                rows[found[1]] = found[2].replace(",", " ").split()

    def below(name):
        kept = [it for it in rows[name] if it in rows]
        return list(dict.fromkeys([more for it in kept for more in [*below(it), it]]))

    return {name: Crate(top, name, rows[name], below(name)) for name in rows}


# ---------------------------------------------------------------- checks


def free_memory():
    """Returns the free memory in bytes, under the limit of the control group too."""
    found = []
    pairs = [
        ("/proc/meminfo", r"MemAvailable:\s+(\d+)", 1024, None, None),
        ("/sys/fs/cgroup/memory.max", r"(\d+)", 1, "/sys/fs/cgroup/memory.stat", r"anon (\d+)"),
        ("/sys/fs/cgroup/memory/memory.limit_in_bytes", r"(\d+)", 1, "/sys/fs/cgroup/memory/memory.stat", r"total_rss (\d+)"),
    ]
    for file, pattern, unit, held, of_held in pairs:
        try:
            with open(file, encoding="utf-8") as it:
                number = int(re.search(pattern, it.read())[1]) * unit
            if held:
                with open(held, encoding="utf-8") as it:
                    number -= int(re.search(of_held, it.read())[1])
            found.append(number)
        except (OSError, TypeError):
            pass
    return min(found) if found else 4_000_000_000


def processors():
    """Returns the processors that there are to use: those that this process may run on, or fewer by its control group's quota."""
    found = len(os.sched_getaffinity(0))
    try:
        with open("/sys/fs/cgroup/cpu.max", encoding="utf-8") as it:
            quota, period = it.read().split()
        if quota != "max":
            found = min(found, max(int(quota) // int(period), 1))
    except (OSError, ValueError):
        pass
    return found


class Lanes:
    """Lets as many checks run as there are lanes, and as fit the memory that was free at the start."""

    def __init__(self, number):
        self.number, self.memory = number, 0.85 * free_memory()
        self.turn, self.running = threading.Condition(), {}

    def enter(self, key, need):
        with self.turn:
            fits = lambda: not self.running or (
                len(self.running) < self.number and sum(self.running.values()) + need <= self.memory
            )
            self.turn.wait_for(fits)
            self.running[key] = need

    def leave(self, key):
        with self.turn:
            del self.running[key]
            self.turn.notify_all()


def linked(source, to):
    """Makes a copy of a folder whose files are links to the same data: the checker puts a new file in an old one's place."""

    def link(here, there):
        try:
            os.link(here, there)
        except OSError:
            shutil.copy2(here, there)

    if os.path.isdir(source):
        shutil.copytree(source, to, copy_function=link)


def copy_of(crate, room, texts):
    """Makes a copy of the crate with these texts, and of what was proved of it."""
    for part in PARTS:
        if os.path.isdir(f"{crate.folder}/{part}"):
            shutil.copytree(f"{crate.folder}/{part}", f"{room}/{part}")
    if crate.kept:
        linked(crate.kept, f"{room}/kept")
    for path, text in texts.items():
        with open(f"{room}/{path}", "w", encoding="utf-8") as it:
            it.write(text)


def with_children(process):
    """Returns a process and those that it has started, and that these have."""
    found = []
    for path in glob.glob(f"/proc/{process}/task/*/children"):
        with contextlib.suppress(OSError), open(path, encoding="utf-8") as it:
            found += map(int, it.read().split())
    return [process, *(more for it in found for more in with_children(it))]


def memory_of(process):
    """Returns the memory that a process holds, in bytes: 0 if it has ended."""
    try:
        with open(f"/proc/{process}/statm", encoding="utf-8") as it:
            return int(it.read().split()[1]) * os.sysconf("SC_PAGE_SIZE")
    except (OSError, IndexError):
        return 0


def end_past_limits(process, has_ended):
    """Waits until a process has ended. Ends it, and what it started, once it has gone on for too long or holds too much memory."""
    began = time.monotonic()
    while not has_ended.wait(0.5):
        every = with_children(process)
        if time.monotonic() - began > LIMIT or max(map(memory_of, every)) > MOST_MEMORY:
            for it in every:
                with contextlib.suppress(ProcessLookupError):
                    os.kill(it, signal.SIGKILL)
            return


def run(words, folder):
    """Runs a command, and returns its status, what it said, and its processor seconds and memory with those of what it started. The status is
    negative if it was ended."""
    with tempfile.TemporaryFile("w+", errors="replace") as said:
        how = {"cwd": folder, "stdin": subprocess.DEVNULL, "stdout": said, "stderr": subprocess.STDOUT}
        started, has_ended = subprocess.Popen(words, **how), threading.Event()
        watch = threading.Thread(target=end_past_limits, args=(started.pid, has_ended), daemon=True)
        watch.start()
        _, status, used = os.wait4(started.pid, 0)
        has_ended.set()
        # (what it started is ended after it)
        watch.join()
        started.returncode = os.waitstatus_to_exitcode(status)
        said.seek(0)
        return started.returncode, said.read(), used.ru_utime + used.ru_stime, used.ru_maxrss * 1024


# What an answer file is told if a term of it no longer fits: that says nothing of the goal.
TERMS_ALONE = re.compile(r"the two types (?:first )?differ|the two types are|list the missing equation|no occurrence of the path's left endpoint|expected type")
# An answer that such a line is about: its file and its name.
MISFIT = re.compile(r"(?:\./)?(proofs/\S+?):\d+:\d+: error: `([^`]+)`: ")
NAMES_ALONE = re.compile(r"has no field|is not in scope|has no `|was not admitted|which was rejected, was not checked")
UNREADABLE = re.compile(r"is not in scope|has no field|is no name|operand is missing|expected the end|cannot continue")


class Said:
    """What a check said: of each function whether it was proved, and the open goals that it has of its own."""

    def __init__(self, crate, status, text):
        self.status, self.text = status, text
        self.lines = text.split("\n")
        self.state, self.goals, self.callees = {}, defaultdict(list), {}
        self.name_faults, self.unread, self.errors = defaultdict(list), [], []
        self.is_proved = status == 0 and any(it.startswith(("logic=proved ", "only=")) for it in self.lines)
        self.is_refused = status == 1 and any(it.startswith(("logic=not-proved", "only=")) for it in self.lines)
        self.read(crate)

    def read(self, crate):
        folders = {}
        for line in self.lines:
            it = re.match(r"fn (\S+): (.*)", line)
            if it:
                self.state[it[1]] = it[2]
                # (such as: no proof: expected answers in FILE; `search` did not prove `returns`)
                if "`search` did not prove `" in it[2]:
                    self.goals[it[1]].append(line)
                folders[f"proofs/{'/'.join(it[1].split('::')[1:])}/"] = it[1]
                calls = re.search(r"it calls (.*?), which (?:is|are) not proved", it[2])
                self.callees[it[1]] = re.findall(r"`([^`]+)`", calls[1]) if calls else []
        notes = []
        for line in self.lines:
            it = re.match(r"fn (\S+): ", line)
            if it:
                # (notes on goals stand right above the function's own line)
                if not self.state[it[1]].startswith("proved"):
                    self.goals[it[1]] = notes + self.goals[it[1]]
                notes = []
            elif re.match(r"(impl|trait|struct|enum|union|const) \S+: ", line):
                notes = []
            elif re.match(r"note: (\./)?src/\S+:\d+:\d+: ", line):
                notes.append(line)
            at = re.match(r"(?:\./)?((?:src|specs|proofs)/\S+?):(\d+):\d+: error: (.*)", line)
            if at:
                self.errors.append((at[1], int(at[2]), line))
                of = next((name for folder, name in folders.items() if at[1].startswith(folder)), None)
                if at[1].startswith("proofs/"):
                    (self.name_faults if NAMES_ALONE.search(line) else self.goals)[of].append(line)
                else:
                    plain = re.sub(r"`[^`]*`", "", re.sub(r"^`[^`]*`: ", "", at[3]))
                    if not re.match(r"`[^`]*`: ", at[3]) or UNREADABLE.search(plain):
                        self.unread.append(line)
                    else:
                        self.goals[of].append(line)

    def open_functions(self):
        return {it for it, goals in self.goals.items() if it and goals and not self.state.get(it, "").startswith("proved")}


class Runner:
    def __init__(self, top, lanes, log):
        self.top, self.lanes, self.log = top, lanes, log
        self.count, self.lock = 0, threading.Lock()
        # the processor seconds of proofs of the crates as they are
        self.seconds = 0.0

    def proves(self, crate):
        """Proves the crate as it is, where its work is kept, and returns whether it is proved."""
        self.lanes.enter(crate.name, crate.need())
        try:
            status, text, seconds, _ = run(crate.words(crate.kept), crate.folder)
        finally:
            self.lanes.leave(crate.name)
        with self.lock:
            self.seconds += seconds
        return Said(crate, status, text).is_proved

    def list_functions(self, crate):
        """Learns the checker's names of the crate's functions, without proving any."""
        self.lanes.enter(crate.name, crate.need())
        try:
            with tempfile.TemporaryDirectory(prefix="edits-names-") as room:
                _, _, seconds, _ = run([*crate.words(None), "--generated", room, "--old-names"], crate.folder)
                with open(f"{room}/names.json", encoding="utf-8") as it:
                    places = [name.removeprefix(f"Rattle-{crate.name}-proofs.").split(".") for name in json.load(it)]
        except OSError:
            # (what the crate's checks say is then the first that is known)
            return
        finally:
            self.lanes.leave(crate.name)
        with self.lock:
            crate.seconds += seconds
            crate.known |= {"::".join([crate.name, *it[:-1]]) for it in places if len(it) > 1 and it[-1] == "Lts"}

    def command(self, crate, edits):
        """Returns the command that checks a copy of the crate with these edits: all of it if something is kept or one may be seen elsewhere."""
        words = crate.words("kept" if crate.kept else None)
        names = [self.names(it) for it in edits]
        if crate.kept or not all(names) or any(it.is_lone() for it in edits):
            return words
        return [*words, *(word for name in sorted(set().union(*names)) for word in ("--only", name))]

    def check(self, crate, edits, texts=None):
        """Checks a copy of the crate with these edits, and then these texts, and returns what that said."""
        with self.lock:
            self.count += 1
            number = self.count
        self.lanes.enter(number, crate.need())
        try:
            with tempfile.TemporaryDirectory(prefix="edits-") as room:
                copy_of(crate, room, {**joined(crate, edits), **(texts or {})})
                status, text, seconds, memory = run(self.command(crate, edits), room)
        finally:
            self.lanes.leave(number)
        with self.lock:
            crate.seconds, crate.checks = crate.seconds + seconds, crate.checks + 1
            # (one that was ended says nothing of the others)
            crate.memory = max(crate.memory, memory if status >= 0 else 0)
        if self.log:
            with open(f"{self.log}/{crate.name}-{number}.log", "w", encoding="utf-8") as it:
                it.write("\n".join(["edits: " + " ".join(os.path.basename(e.file) for e in edits), f"seconds: {seconds:.1f}", f"memory: {memory}", text]))
        said = Said(crate, status, text)
        with self.lock:
            crate.known |= {*said.state}
        return said

    def names(self, edit):
        return {name for path, it in edit.functions() for name in names_of(edit.crate.name, path, it, edit.crate.known)}

    def alone(self, edit):
        said = self.check(edit.crate, [edit])
        last = next((it for it in reversed(said.lines) if it), "")
        if said.is_proved:
            edit.end("isn't refused: the crate is still proved with it")
        elif said.status < 0:
            edit.end("wasn't checked to the end: that takes too long, or too much memory")
        elif said.unread and said.is_refused:
            edit.end("can't be read, so no contract was tried", said.unread[0])
        elif not said.is_refused:
            first = next((it for it in said.lines if re.search(r"error[\[:]", it)), last)
            edit.end("doesn't compile", first)
        else:
            names = self.names(edit)
            goals = [it for name in names for it in said.goals[name] if not said.state.get(name, "").startswith("proved")]
            others = [it for goals in said.goals.values() for it in goals]
            if goals or (others and edit.is_outside):
                edit.end("refused", (goals or others)[0], goals or others)
            elif others:
                edit.end("is refused only elsewhere, by no goal of a function that it changes", others[0])
            else:
                named = [it for faults in said.name_faults.values() for it in faults]
                states = [f"{it}: {state}" for it, state in said.state.items() if not state.startswith("proved")]
                if named:
                    edit.end("is refused only because a proof file names what it took away: change a value and keep the names", named[0])
                else:
                    edit.end("is refused, but by no goal", (states or [last])[0])

    def together(self, crate, edits):
        """Tries edits in one check. Returns those to be tried in a later round, and those to be tried alone."""
        if len(edits) == 1:
            return [], edits
        said = self.check(crate, edits)
        names = {it: self.names(it) for it in edits}
        shared = [it for it in edits if any(names[it] & names[other] for other in edits if other is not it)]
        if not said.is_refused or said.unread:
            return self.apart(crate, edits, said)
        known = set().union(*names.values())
        if said.is_proved or said.open_functions() - known:
            # (what one edit changes was seen by a function that none of them changes)
            return [], edits
        later, lone = [], []
        for it in edits:
            open_names = [name for name in names[it] if said.goals[name] and not said.state.get(name, "").startswith("proved")]
            waits = any(said.callees.get(name) for name in names[it])
            if it in shared:
                lone.append(it)
            elif open_names:
                it.end("refused", said.goals[open_names[0]][0], [line for name in open_names for line in said.goals[name]])
            elif waits:
                later.append(it)
            else:
                lone.append(it)
        return later, lone

    def apart(self, crate, edits, said):
        """Sorts the edits of a group that didn't reach the prover: those that the errors point at are tried alone, the others again."""
        texts, bad = joined(crate, edits), set()
        for path, line, _ in [*said.errors, *places_of(said.lines)]:
            lines = texts.get(path, "").split("\n")
            at = len("\n".join(lines[: line - 1])) + (line > 1)
            end = at + len(lines[line - 1]) if line <= len(lines) else at
            places = {(path, n) for n, it in enumerate(functions_of(texts.get(path, ""))) if it.start <= end and at < it.ends}
            bad |= {it for it in edits if places & {*it.changed}}
        left = [it for it in edits if it not in bad]
        if bad:
            return left, [*bad]
        # (two halves, each tried apart)
        half = len(edits) // 2
        found = [self.together(crate, edits[:half]), self.together(crate, edits[half:])]
        return [it for later, _ in found for it in later], [it for _, lone in found for it in lone]

    def by_goals(self, crate, edits):
        """Tries edits again without the answers whose terms no longer fit, and returns those of which that says nothing."""
        said, silent = self.check(crate, edits, without_misfits(crate, edits)), []
        for it in edits:
            names = self.names(it)
            if it.is_outside and len(edits) == 1:
                # (it may be refused by a goal of any function)
                names = {*said.state, *(name for name, lines in said.goals.items() if lines)}
            open_names = [name for name in names if not said.state.get(name, "").startswith("proved")]
            if any(not is_of_terms(line) for name in open_names for line in said.goals[name]):
                it.by_terms = False
            elif said.state and names and not open_names:
                it.end("isn't refused: without the answers whose terms no longer fit, the checker proves its functions")
            else:
                silent.append(it)
        return silent

    def work(self, crate, pool, report, is_proved):
        """Tries the edits of a crate that are due. Rounds go on while each refuses some."""
        ready = [it for it in crate.due if not it.fault]
        if not crate.kept:
            pool.submit(self.list_functions, crate).result()
        elif not is_proved and not pool.submit(self.proves, crate).result():
            for it in ready:
                it.end("wasn't tried, since the crate isn't proved as it is")
            return report(crate)
        lone, left = [it for it in ready if it.is_lone()], [it for it in ready if not it.is_lone()]
        # (from nothing, more edits in a check share what it proves of the functions that they call)
        most = MOST if crate.kept else max(MOST, -(-len(left) // self.lanes.number))
        tried = []
        while left or lone:
            given = [pool.submit(self.together, crate, it) for it in groups_of(left, most)]
            tried += [pool.submit(self.alone, it) for it in lone]
            lone = []
            results = [it.result() for it in given]
            again = [it for later, _ in results for it in later]
            tried += [pool.submit(self.alone, it) for _, bad in results for it in bad]
            if len(again) == len(left):
                tried += [pool.submit(self.alone, it) for it in again]
                break
            left = again
        for it in tried:
            it.result()
        for groups in (lambda edits: groups_of(edits, most), lambda edits: [[it] for it in edits]):
            terms = [it for it in ready if it.by_terms and it.misfits]
            for it in [pool.submit(self.by_goals, crate, group) for group in groups(terms)]:
                it.result()
        report(crate)


def places_of(lines):
    """Returns the places in src/ that the front end's errors point at."""
    found = []
    for line in lines:
        for it in re.finditer(r"(?:\./)?(src/[\w/.-]+\.rt):(\d+):\d+", line):
            if not line.startswith("note: "):
                found.append((it[1], int(it[2]), line))
    return found


def groups_of(edits, most):
    """Groups edits, at most so many in each, so that none of a group change one function."""
    groups = []
    for it in edits:
        place = next((g for g in groups if len(g) < most and not any({*it.changed} & {*other.changed} for other in g)), None)
        if place is None:
            groups.append([it])
        else:
            place.append(it)
    return groups


def proved_first(top, crates, all_of_them, jobs):
    """Proves the crates as they are, over what earlier checks kept. Returns whether that was done, and its processor seconds."""
    seconds = 0.0
    if all_of_them:
        commands = [(["rt", "all", "check", "--jobs", str(jobs)], top)]
    else:
        commands = [(["rt", "check"], it.folder) for it in crates]
    for words, folder in commands:
        status, text, used, _ = run(words, folder)
        seconds += used
        if status:
            print(text[-6000:])
            return False, seconds
    return True, seconds


def libraries_of_ci(known, crates, room, few):
    """Takes the libraries that `rt ci` built. Returns whether they are there.

    `rt ci` proves everything from nothing and leaves each library's statements in out/rlib, where an author's own checks had left nothing.
    A crate of which many edits are tried is proved once more, while other crates' edits go on.
    """
    for name in {it for crate in crates for it in crate.below}:
        folder = f"{known[name].folder}/out/rlib"
        if not os.path.isdir(f"{folder}/{name}.rlib") or os.path.lexists(f"{folder}/stamp"):
            return False
    for it in crates:
        it.kept = f"{room}/{it.name}" if it.is_proved_first(few) else None
        if it.kept:
            os.makedirs(it.kept, exist_ok=True)
    return True


def read_words():
    parser = argparse.ArgumentParser(description=__doc__, formatter_class=argparse.RawDescriptionHelpFormatter)
    parser.add_argument("names", nargs="*", metavar="NAME")
    parser.add_argument("--all", action="store_true")
    parser.add_argument("--plan", action="store_true")
    parser.add_argument("--jobs", type=int, default=0)
    parser.add_argument("--at", default=os.path.dirname(os.path.dirname(os.path.abspath(__file__))))
    parser.add_argument("--edit", default="")
    parser.add_argument("--log")
    parser.add_argument("--few", type=int, default=FEW)
    parser.add_argument("--after-ci", action="store_true")
    return parser.parse_args()


def reported(crate):
    """What came of the edits of a crate, a line each."""
    refused = sum(it.outcome == "refused" for it in crate.due)
    cost = f"{crate.checks} checks, {crate.seconds:.0f} s of processor time, {crate.memory / 1e9:.1f} GB"
    yield f"{crate.name}: {refused} of {len(crate.due)} refused, by {cost}"
    terms = [os.path.basename(it.file) for it in crate.due if it.by_terms]
    if terms:
        yield f"{crate.name}: {len(terms)} of these show less: a term of an answer no longer fits, and no goal is named: {' '.join(terms)}"
    for it in crate.due:
        if it.outcome != "refused":
            told = f": {it.told[:300]}" if it.told else ""
            yield f"{it.name} {it.fault or it.outcome}{told}"
    for it in crate.strays:
        yield f"{it} is no edit: a file there ends in .edit (or in .md, where it is only to be read)"


def said_of_lock(lock, crates):
    """Says how many edits are tried, and why; and how many are not."""
    every = [it for crate in crates for it in crate.edits]
    due = [it for it in every if lock.is_due(it)]
    yield f"{len(every) - len(due)} edits were refused before, and nothing that decides it has changed (tests/edits.lock)"
    for crate in crates:
        missing, turn = [it for it in crate.edits if not lock.holds(it)], [it for it in crate.edits if lock.holds(it) and lock.is_due(it)]
        if missing:
            yield f"{crate.name}: {len(missing)} edits are tried: changed since they were refused, or new"
        if turn:
            yield f"{crate.name}: {len(turn)} edits are tried: it is their turn"


def try_all(given, top, known, crates, runner, report):
    """Proves the crates as they are and tries their edits. Returns whether the crates were proved."""
    jobs = runner.lanes.number
    # (a leader for each crate waits for the checks that it hands to the pool)
    with tempfile.TemporaryDirectory(prefix="edits-kept-") as room, ThreadPoolExecutor(4 * jobs) as pool, ThreadPoolExecutor(max(len(crates), 1)) as leaders:
        is_proved = not (given.after_ci and libraries_of_ci(known, crates, room, given.few))
        if is_proved:
            for it in crates:
                it.kept = f"{it.folder}/out/incremental"
            well, runner.seconds = proved_first(top, crates, given.all, jobs)
            if not well:
                return False
        order = sorted(crates, key=lambda it: -sum(map(len, it.texts.values())) * len(it.due))
        for it in [leaders.submit(runner.work, crate, pool, report, is_proved) for crate in order]:
            it.result()
    return True


def main():
    given = read_words()
    top = os.path.abspath(given.at)
    known = crates_of(top)
    unknown = [it for it in given.names if it not in known]
    if unknown:
        print(f"edits: crates.txt names no crate {' '.join(unknown)}", file=sys.stderr)
        return 2
    for it in known.values():
        it.load()
    crates = [it for it in known.values() if it.edits or it.strays]
    lock = edits_lock.Lock(top, known, crates)
    is_chosen = bool(given.names or given.all or given.edit)
    for it in crates:
        is_named = it.name in given.names or not given.names
        it.due = [edit for edit in it.edits if (is_named and given.edit in os.path.basename(edit.file) if is_chosen else lock.is_due(edit))]
    chosen = [it for it in crates if it.due or (it.strays and (not given.names or it.name in given.names))]
    if not is_chosen:
        for line in said_of_lock(lock, crates):
            print(f"edits: {line}", flush=True)
    if given.plan:
        return 0
    if given.log:
        os.makedirs(given.log, exist_ok=True)
    began, printing = time.monotonic(), threading.Lock()
    runner = Runner(top, Lanes(given.jobs or processors()), given.log)
    total = sum(len(it.due) + len(it.strays) for it in chosen)

    def report(crate):
        with printing:
            for line in reported(crate):
                print(f"edits: {line}", flush=True)
            # (at once: what a run that is ended early has seen isn't lost)
            lock.keep(crate.due)

    if not try_all(given, top, known, chosen, runner, report):
        print("edits: the crates aren't proved as they are, so no edit was tried")
        print(f"0 passed, {max(total, 1)} failed")
        return 1
    passed = sum(it.outcome == "refused" for crate in chosen for it in crate.due)
    seconds = runner.seconds + sum(it.seconds for it in chosen)
    print(f"edits: {runner.count} checks, {seconds:.0f} s of processor time, in {time.monotonic() - began:.0f} s")
    print(f"{passed} passed, {total - passed} failed")
    return 0 if total and passed == total else 1


if __name__ == "__main__":
    sys.exit(main())
