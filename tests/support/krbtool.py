"""Cases of krbtool, as tests/program/*.toml and the generators have them, and what runs them.

A case is a table [[case]] of a TOML file:

    name    what it shows
    args    the words after the program's name: a text, or { hex = "ff" } for bytes that are no text
    folders empty folders that lie where it runs
    files   files that lie there, of mode 640: hex digits, or "@PATH" of a file of the repository
    set     other modes of files, in octal digits
    links   links that lie there, and must stay: the name of each, and what it points to
    umask   in octal digits (022 where left out)
    stdin   what it reads (text), or "@PATH"
    output  "full": standard output is /dev/full
    closed  the standard streams that are closed: a list of 0, 1 and 2
    descriptors  how many files it may have open, the standard streams included
    status  its exit status (0 where left out)
    stdout  what it must write on standard output, whole; or stdout_begins, its beginning, and stdout_holds, texts that
    it must hold
    stderr  what it must write on standard error, whole; or stderr_begins, its beginning
    after   files that must lie there afterwards, as hex digits or "@PATH"
    modes   their modes, in octal digits
    gone    names that must not lie there afterwards
    left    all names that must lie there afterwards
"""
import os
import stat
import subprocess
import tempfile
import tomllib
from collections import deque
from concurrent.futures import ThreadPoolExecutor
from pathlib import Path

from support import TESTS, TOP

WORDS = """name args folders files set links umask stdin output closed descriptors status stdout stdout_begins
    stdout_holds stderr stderr_begins after modes gone left"""
KEYS = set(WORDS.split())
SECONDS = 300


def content(text):
    """The bytes that a case names: hex digits, or a file of the repository."""
    if isinstance(text, bytes):
        return text
    return (TOP / text[1:]).read_bytes() if text.startswith("@") else bytes.fromhex(text)


def word_of(word):
    return bytes.fromhex(word["hex"]) if isinstance(word, dict) else word.encode()


def stored_cases():
    for path in sorted(TESTS.glob("program/*.toml")):
        with open(path, "rb") as file:
            for case in tomllib.load(file)["case"]:
                yield {**case, "name": f"{path.stem}: {case['name']}"}


def unlike(case, stream, wrote):
    """What is wrong with what was written on this stream, or None."""
    wanted, begins = case.get(stream, ""), case.get(f"{stream}_begins")
    held = [it for it in case.get(f"{stream}_holds", []) if it.encode() not in wrote]
    if held:
        return f"{stream} {wrote[:800]!r} doesn't hold {held}"
    if begins is not None:
        return None if wrote.startswith(begins.encode()) else f"{stream} {wrote[:400]!r} doesn't begin {begins!r}"
    wanted = wanted if isinstance(wanted, bytes) else wanted.encode()
    return None if wrote == wanted else f"{stream} {wrote[:400]!r}, not {wanted[:400]!r}"


def difference(case, ran, room):
    """What is wrong with the run, or None."""
    unknown = set(case) - KEYS
    if unknown:
        return f"the case has unknown keys: {sorted(unknown)}"
    wanted = case.get("status", 0)
    if ran.returncode != wanted:
        return f"status {ran.returncode}, not {wanted}; it wrote {ran.stderr[:300]!r}"
    wrong = unlike(case, "stdout", ran.stdout) or unlike(case, "stderr", ran.stderr)
    if wrong:
        return wrong
    for name, text in case.get("after", {}).items():
        found = (room / name).read_bytes() if (room / name).is_file() else None
        if found != content(text):
            return f"the file {name} is {found!r}"
    for name, wanted in case.get("modes", {}).items():
        found = stat.S_IMODE((room / name).stat().st_mode)
        if found != int(wanted, 8):
            return f"the mode of {name} is {found:o}, not {wanted}"
    for name, target in case.get("links", {}).items():
        if not (room / name).is_symlink() or os.readlink(room / name) != target:
            return f"{name} is no link to {target}"
    found = sorted(it.name for it in room.iterdir())
    if found != sorted(case.get("left", found)):
        return f"there are {found}"
    there = [name for name in case.get("gone", []) if os.path.lexists(room / name)]
    return f"there is a file {there[0]}" if there else None


def laid_out(case, room):
    for name in case.get("folders", []):
        (room / name).mkdir()
    for name, text in case.get("files", {}).items():
        (room / name).write_bytes(content(text))
        (room / name).chmod(int(case.get("set", {}).get(name, "640"), 8))
    for name, target in case.get("links", {}).items():
        (room / name).symlink_to(target)


def run(program, case):
    with tempfile.TemporaryDirectory(prefix="krbtool-case-") as folder:
        room = Path(folder)
        laid_out(case, room)
        stdin = case.get("stdin", "")
        given = content(stdin) if isinstance(stdin, bytes) or stdin.startswith("@") else stdin.encode()
        out = open("/dev/full", "wb") if case.get("output") == "full" else subprocess.PIPE
        command = [program, *map(word_of, case["args"])]
        if "closed" in case:
            closing = " ".join(f"{it}>&-" for it in case["closed"])
            limit = f"ulimit -n {case['descriptors']}; " if "descriptors" in case else ""
            command = ["sh", "-c", f'exec {closing}; {limit}exec "$@"', "sh", *command]
        umask = int(case.get("umask", "022"), 8)
        try:
            ran = subprocess.run(command, cwd=room, input=given, stdout=out, stderr=subprocess.PIPE, timeout=SECONDS,
                                 umask=umask)
        except subprocess.TimeoutExpired:
            return f"it did not end within {SECONDS} seconds"
        ran.stdout = ran.stdout or b""
        return difference(case, ran, room)


def in_turn(function, items):
    """What the function gives of each item, in their order; a few items are made before they run. Some run side by
    side, if no other process of pytest-xdist does."""
    jobs, running = 1 if "PYTEST_XDIST_WORKER" in os.environ else os.cpu_count(), deque()
    with ThreadPoolExecutor(max_workers=jobs) as pool:
        for item in items:
            running.append(pool.submit(function, item))
            if len(running) == 4 * jobs:
                yield running.popleft().result()
        while running:
            yield running.popleft().result()


def results(program, cases):
    """The name of each case and what is wrong with it, or None; each runs in a folder of its own."""
    yield from in_turn(lambda case: (case["name"], run(program, case)), cases)
