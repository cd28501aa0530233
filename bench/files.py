#!/usr/bin/env python3
"""Keytabs and credential caches of many entries; and, as a program, how much memory krbtool takes for a file of the
greatest size.

    bench/files.py [PROGRAM]    prints a table for this krbtool, or for the one that make left
"""
import os
import resource
import struct
import subprocess
import sys
import tempfile
from pathlib import Path

import builds

LIMIT = 16_777_216


def data16(text):
    return struct.pack(">H", len(text)) + text


def keytab_record(index, name=None):
    """An entry of a name and a version number of its own, or of the name of this index."""
    host = b"web%d.example.test" % (index if name is None else name)
    body = struct.pack(">H", 2) + data16(b"EXAMPLE.TEST") + data16(b"host") + data16(host)
    body += struct.pack(">iIBh", 3, 1_700_000_000, index % 256, 19) + data16(bytes(16)) + struct.pack(">I", index + 1)
    return struct.pack(">i", len(body)) + body


def keytab(entries, first=0, name=None):
    return b"\x05\x02" + b"".join(keytab_record(index, name) for index in range(first, first + entries))


def holes(count, size):
    """A keytab of so many holes, each with so many bytes after its size."""
    return b"\x05\x02" + (struct.pack(">i", -size) + bytes(size)) * count


def small_keytab(limit):
    body = struct.pack(">H", 0) + data16(b"") + struct.pack(">iIBh", 1, 0, 1, 19) + data16(b"")
    record = struct.pack(">i", len(body)) + body
    return b"\x05\x02" + record * ((limit - 2) // len(record))


def data32(text):
    return struct.pack(">I", len(text)) + text


def principal(*components):
    return struct.pack(">iI", 1, len(components)) + data32(b"EXAMPLE.TEST") + b"".join(data32(it) for it in components)


def credential(index):
    times = struct.pack(">4I", 1_700_000_000, 1_700_000_000, 1_700_036_000, 0)
    names = principal(b"alice") + principal(b"host", b"web%d.example.test" % index)
    lists = struct.pack(">II", 0, 0)
    key, flags = struct.pack(">h", 20) + data32(bytes(32)), struct.pack(">BI", 0, 0x4061_0000)
    return names + key + times + flags + lists + data32(bytes(470)) + data32(b"")


def cache(credentials):
    return b"\x05\x04\x00\x00" + principal(b"alice") + b"".join(credential(index) for index in range(credentials))


def small_cache(limit):
    empty = bytes(12)
    one = empty + empty + bytes(2 + 4 + 16 + 1 + 4 + 8 + 8)
    return b"\x05\x04\x00\x00" + empty + one * ((limit - 16) // len(one))


def built_peak(folder):
    """The launcher that tells the memory of what it runs."""
    made = f"{folder}/peak"
    subprocess.run(["cc", "-O1", "-o", made, str(Path(__file__).resolve().parent / "peak.c")], check=True)
    return made


def processor_time(command):
    """A run of a command, for pairs: the processor time of the process, the system's part too, in nanoseconds."""
    def run():
        before = resource.getrusage(resource.RUSAGE_CHILDREN)
        ran = subprocess.run(command, stdout=subprocess.DEVNULL, stderr=subprocess.PIPE)
        if ran.returncode:
            sys.exit(f"{command} ended with {ran.returncode}: {ran.stderr[:300]!r}")
        after = resource.getrusage(resource.RUSAGE_CHILDREN)
        return 1e9 * (after.ru_utime + after.ru_stime - before.ru_utime - before.ru_stime)

    return run


def many_components(head, empty, tail, limit):
    """Records of names with 129 empty components."""
    record = head + empty * 129 + tail
    return record * ((limit - 64) // len(record))


def empty_keytab(limit):
    body = struct.pack(">H", 129) + data16(b"") + data16(b"") * 129 + struct.pack(">iIBh", 1, 0, 1, 19) + data16(b"")
    return b"\x05\x02" + many_components(struct.pack(">i", len(body)) + body[:4], data16(b""), body[4 + 2 * 129:],
                                         limit)


def empty_cache(limit):
    name = struct.pack(">iI", 1, 129) + data32(b"")
    rest = bytes(2 + 4 + 16 + 1 + 4 + 8 + 8)
    return b"\x05\x04\x00\x00" + bytes(12) + many_components(bytes(12) + name, data32(b""), rest, limit)


def keytab_of_long_records(limit, size):
    """Records of so many bytes, with components of 60,000."""
    parts = (size - 200) // 60_002
    body = struct.pack(">H", parts + 1) + data16(b"EXAMPLE.TEST") + data16(bytes(60_000)) * parts
    end = struct.pack(">iIBh", 1, 0, 1, 19) + data16(bytes(16))
    body += data16(bytes(size - 4 - 2 - len(body) - len(end))) + end
    return b"\x05\x02" + (struct.pack(">i", len(body)) + body) * ((limit - 2) // size)


def cache_of_long_credentials(limit, size):
    """Credentials of so many bytes, with one ticket each."""
    head = principal(b"alice") + principal(b"host", b"web.example.test") + struct.pack(">h", 20) + data32(bytes(32))
    head += struct.pack(">4I", 1, 1, 1, 1) + struct.pack(">BI", 0, 0) + struct.pack(">II", 0, 0)
    one = head + data32(bytes(size - len(head) - 8)) + data32(b"")
    start = b"\x05\x04\x00\x00" + principal(b"alice")
    return start + one * ((limit - len(start)) // size)


def at_the_limit(launcher, word, path, files):
    """How much memory a command takes on files, as a multiple of their size, and how much more than on the first, which
    is one of nothing."""
    own = None
    for name, data in files.items():
        path.write_bytes(data)
        done = subprocess.run([launcher, word[0], word[1], str(path)], capture_output=True, text=True)
        if done.returncode:
            sys.exit(f"{word} on {name} ended with {done.returncode}")
        used = int(done.stdout)
        own = own or used
        print(f"| {word[1]} | {name} | {len(data):,} | {used:,} | {used / len(data):.2f} | {used - own:,} |",
              flush=True)


def kinds_of_keytabs():
    return {"nothing": keytab(0), "an ordinary file": keytab((LIMIT - 2) // len(keytab_record(999_999))),
            "smallest records": small_keytab(LIMIT),
            "names with 129 empty components": empty_keytab(LIMIT),
            "records of 1 MiB": keytab_of_long_records(LIMIT, 1 << 20)}


def kinds_of_caches():
    return {"nothing": cache(0), "an ordinary file": cache((LIMIT - 100) // len(credential(99_999))),
            "smallest credentials": small_cache(LIMIT),
            "names with 129 empty components": empty_cache(LIMIT),
            "credentials of 1 MiB": cache_of_long_credentials(LIMIT, 1 << 20)}


def table(program):
    print("| command | file | bytes | memory, bytes | times the file | more than for nothing "
          "|\n|---|---|---|---|---|---|")
    with tempfile.TemporaryDirectory() as folder:
        launcher, path = built_peak(folder), Path(folder) / "file"
        for words, kinds in ((("list-keytab", "check-keytab"), kinds_of_keytabs()),
                             (("list-ccache", "check-ccache"), kinds_of_caches())):
            for word in words:
                at_the_limit(launcher, (program, word), path, kinds)


if __name__ == "__main__":
    table(os.path.abspath(sys.argv[1]) if sys.argv[1:] else str(builds.made_folder() / "krbtool"))
