"""Rows of the library for Rattle, by programs that `rt` builds over what `make` proved: the cipher beside OpenSSL,
sealing, messages and requests beside MIT krb5, and the memory of what was seen at two sizes. run.py prints them.
"""
import os
import shutil
import subprocess
import sys
from pathlib import Path
from typing import Iterator

from builds import HERE, TOP, said

import edits
import run
from rows import LIVES, PAC_SIZES, SIZES, Row, Side, messages, named, nothing
from support import der
from support.msg_values import TICKET

# Our programs, and the crates that each stands on.
PROGRAMS = {
    "krb_bench": "krb_aes krb_enc krb_msg krb_replay hex",
    "krb_exchange": "krb_ap krb_ccache krb_keytab krb_msg krb_replay hex",
}
# Tells OpenSSL that the processor has no instructions for AES.
NO_AES_NI = "~0x200000200000000"


def lay_out(folder, name):
    """Makes the crate of a program of ours, whose source has another ending here, since the gate wants each .rt file in
    a crate."""
    crate = folder / "crates" / name
    (crate / "src").mkdir(parents=True)
    shutil.copy(HERE / f"{name}.rt.in", crate / "src" / "main.rt")


def is_left_by_ci(folder, name):
    """Whether `rt ci` left the library of this crate, so that it needn't be proved and built again."""
    left = folder / "crates" / name / "out/rlib"
    return (left / f"{name}.rlib").exists() and not (left / "stamp").exists()


def build_over_ci(folder, name, cpu):
    crate, kit = edits.crates_of(str(folder))[name], Path(edits.KIT)
    out = folder / "crates" / name / "out"
    out.mkdir()
    words = crate.words("out/incremental")
    words[words.index("check")] = "build"
    words[words.index("--jobs") + 1] = str(os.cpu_count())
    more = ["--toolchain", str(kit / "toolchain"), "--backend", "llvm", f"--cpu={cpu}", "-o",
            str(out / f"{name}.o")]
    said(*words, *more, cwd=crate.folder)
    said("cc", out / f"{name}.o", kit / "c/libos_c.a", kit / "c/liblibc_c.a", "-o", out / name)


def build(folder, name, cpu):
    crate = folder / "crates" / name
    if all(is_left_by_ci(folder, it) for it in edits.crates_of(str(folder))[name].below):
        build_over_ci(folder, name, cpu)
        return crate / "out" / name
    # without words it ends with 2
    built = subprocess.run(["rt", "run", "--cpu", cpu], cwd=crate, capture_output=True, text=True)
    if not (crate / "out" / name).exists():
        sys.exit(f"{name} wasn't built: {(built.stdout + built.stderr)[-2000:]}")
    return crate / "out" / name


def crates_below(names):
    """These crates of the repository and those below them."""
    known = edits.crates_of(str(TOP))
    return {below for name in names if name in known for below in (*known[name].below, name)}


def built(folder, cpu):
    """The paths of our programs, which are built in a repository of its own with copies of the crates below them, and
    of those in C."""
    (folder / "crates").mkdir()
    kept = crates_below(" ".join(PROGRAMS.values()).split())
    for name in kept:
        shutil.copytree(TOP / "crates" / name, folder / "crates" / name)
    lines = [it for it in (TOP / "crates.txt").read_text().splitlines() if it.split(":")[0] in kept]
    lines += [f"{name}: {below}" for name, below in PROGRAMS.items()]
    (folder / "crates.txt").write_text("\n".join(lines) + "\n")
    (folder / "HANDLES").write_text((TOP / "HANDLES").read_text())
    for name in PROGRAMS:
        lay_out(folder, name)
    flags = said("pkg-config", "--cflags", "--libs", "krb5").split()
    said("cc", "-O2", "-o", folder / "mit_messages", HERE / "mit_messages.c", *flags)
    said("cc", "-O2", "-o", folder / "aes_blocks", HERE / "aes_blocks.c", "-lcrypto")
    in_c = {name: folder / name for name in ("mit_messages", "aes_blocks")}
    return {**{name: build(folder, name, cpu) for name in PROGRAMS}, **in_c}


def cipher() -> Iterator[Row]:
    """Neither side uses the processor's instructions for AES."""
    for bits in (128, 256):
        for way in ("encrypt", "decrypt"):
            yield Row("rattle", f"AES-{bits}: {way}, one block after another",
                      Side(f"{{krb_bench}} {way} lanes {bits} {{count}}"),
                      Side(f"{{aes_blocks}} {way} {bits} {{count}}", processor=NO_AES_NI), "OpenSSL without AES-NI",
                      nothing, 200_000, (1_000, 2_000))


# What callers do with the result.
FORMS = (("-to", ""), ("", ", into memory of its own"), ("-ready", ", a prepared key"))


def sealing() -> Iterator[Row]:
    for etype in (19, 20):
        for way, theirs in (("seal", "krb5_c_encrypt"), ("open", "krb5_c_decrypt")):
            for size, shown in SIZES:
                for form, said_of in FORMS if size == 60 else FORMS[:2]:
                    yield Row("rattle", f"type {etype}: {way}, {shown}{said_of}",
                              Side(f"{{krb_bench}} {way}{form} {etype} {size} {{count}}"),
                              Side(f"{{seal}} theirs {way} {etype} {size} {{count}}"), theirs, nothing,
                              max(2, 3_000_000 // (size + 1_000)), (1, 2) if size > 10_000 else (20, 40))


def several_messages():
    """The messages: a name, the word that the programs know the type by, and the bytes. The last byte is one of an
    OCTET STRING."""
    sealed, seconds = der.encrypted(19, b"\x5a" * 91), 1_700_000_000
    data = der.sequence(*[der.key(1, b"\x5a" * 32)] * 20)
    key, client = der.key(19, bytes(range(16))), der.name(1, b"alice")
    part = der.enc_ticket_part(0, key, b"EX", client, seconds, seconds + 36_000, data=data)
    moment, realm, service = der.time_of(seconds), der.string(b"EX"), der.name(3, b"host", b"web")
    error = der.message(0x7E, 5, 30, moment, 5, moment, 5, 37, realm, client, realm, service, der.string(b"skew"),
                        der.octets(b"\x5a" * 16))
    return [("AP-REQ", "ap-req", der.request(0, TICKET, sealed)), ("Ticket", "ticket", TICKET),
            ("EncTicketPart, 20 elements of authorization data", "enc-ticket", part),
            ("Authenticator", "authenticator", der.authenticator(b"EX", client, 5, seconds, subkey=key)),
            ("AP-REP", "ap-rep", der.reply(sealed)),
            ("EncAPRepPart", "enc-ap-rep", der.enc_reply_part(seconds, 5, key)), ("KRB-ERROR", "error", error)]


def of_messages() -> Iterator[Row]:
    """MIT's decoding always copies. Each call includes freeing what it made."""
    for name, word, message in several_messages():
        for way, shown, other in (("parse", "parse", "decode"), ("own", "parse and copy", "decode"),
                                  ("encode", "encode", "encode")):
            yield Row("rattle", f"{name}, {len(message)} bytes: {shown}",
                      Side(f"{{krb_bench}} {word} {way} {message.hex()} {{count}}"),
                      Side(f"{{mit_messages}} {word} {other} {message.hex()} {{count}}"), f"MIT's {other}", nothing,
                      4_000_000 // len(message), (200, 400))


def requests() -> Iterator[Row]:
    for etype in (19, 20):
        for extra in PAC_SIZES:
            for what, clients, each, count, counted in (LIVES[0], LIVES[3]):
                yield Row("rattle", named(f"accept, {what}", etype, extra),
                          Side("{krb_exchange} accept {at}/keytab {now} {count} {at}/messages"),
                          Side("{service} rd_req {at}/keytab {at}/messages {count}"), "krb5_rd_req",
                          messages("requests", etype, extra, clients, each, count), count, counted)
            for what, word in (("make_request of an Initiator", "keep"), ("make_request", "make")):
                yield Row("rattle", named(what, etype, extra),
                          Side("{krb_exchange} %s {at}/caches/0 {now} {count}" % word),
                          Side("{client} theirs {at}/caches {count}"), "krb5_mk_req_extended",
                          messages("requests", etype, extra, 1, 1, 1), 2_000, (500, 1_000))


def memory() -> Iterator[Row]:
    """Calls on a memory of what was seen, that holds 1,000 tuples or 1,000,000. A tuple's making isn't timed. (Its
    instructions aren't counted: they can't be told from those that fill the memory.)"""
    for what, name in (("lacks", "contains, of another tuple"), ("contains", "contains, of a tuple that is held"),
                       ("remember", "remember"), ("advance", "advance, for each tuple that it drops")):
        for order, orders in (("ordered", "in order of time"), ("jumping", "jumping in time")):
            yield Row("memory", f"{name}, {orders}: 1,000 held", Side("{krb_bench} %s %s 1000 500" % (what, order)),
                      Side("{krb_bench} %s %s 1000000 1" % (what, order)), "1,000,000 held", nothing, 1, ())


# What is counted of calls on a memory: what the program does, with how many tuples, and how many calls.
# (At 8,388,608 tuples the list of their buckets is copied to a place of twice the size.)
COUNTED_CALLS = (("full", "as many as its limits allow", 10_000_000, 1_000_000),
                 ("growing", "and one more after each call", 8_300_000, 200_000))


def greatest(folder, program):
    """What a call on a memory takes at least and at most: QEMU counts the instructions of each."""
    plugin = folder / "between_writes.so"
    said("cc", "-shared", "-fPIC", "-O2", "-o", plugin, HERE / "between_writes.c")
    for how, what, held, count in COUNTED_CALLS:
        # before the first call the memory is filled
        words = ["qemu-x86_64", "-cpu", "max", "-plugin", f"file={plugin}", program, "calls", how, held, count]
        words = list(map(str, words))
        ran = subprocess.run(words, stdout=subprocess.DEVNULL, stderr=subprocess.PIPE, text=True, check=True)
        writes, least, most = (int(it) for it in ran.stderr.split()[-3:])
        assert writes == count, f"{writes} calls, not {count}"
        print(f"\n{count:,} calls on a memory of {held:,} tuples, {what}: a call takes {least:,} instructions at least "
              f"and {most:,} at most.")


def found(folder, bench, groups, has_times):
    """The numbers of the rows of these groups."""
    bench.programs.update(built(folder, bench.cpu))
    if "greatest" in groups:
        greatest(folder, bench.programs["krb_bench"])
    rows = [row for of in (cipher, sealing, of_messages, requests) for row in of()] if "rattle" in groups else []
    if has_times and "memory" in groups:
        rows += memory()
    return run.found_of(bench, rows, has_times)
