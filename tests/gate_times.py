#!/usr/bin/env python3
"""Runs a command that proves crates, and says which of them took longer than the last time.

    tests/gate_times.py COMMAND..

The processor seconds of each crate that was proved are written to tests/gate_times.txt. (A crate that rt had kept takes none and keeps its
line.) Machines differ, and so does one that also does other work: so a crate is compared with the median of all. One that took 20 % and 10
seconds more than that leads to expect is named. The exit status is the command's.
"""
import os
import re
import subprocess
import sys
import threading
from pathlib import Path
from statistics import median

TOP = Path(__file__).resolve().parent.parent
FILE = TOP / "tests/gate_times.txt"
TICKS = os.sysconf("SC_CLK_TCK")


def checks(top):
    """The crate and the processor seconds so far of each check that runs in the repository, by process."""
    found = {}
    for folder in Path("/proc").glob("[0-9]*"):
        try:
            words = (folder / "cmdline").read_bytes().split(b"\0")
            if not words[0].endswith(b"/rattle") or b"--crate-name" not in words:
                continue
            if not os.readlink(folder / "cwd").startswith(f"{top}/"):
                continue
            used = (folder / "stat").read_text().rpartition(")")[2].split()
        except OSError:
            continue
        # (user and system time, also of processes that it waited for)
        crate, seconds = words[words.index(b"--crate-name") + 1].decode(), sum(map(int, used[11:15])) / TICKS
        found[folder.name] = used[1], crate, seconds
    # (a check's own processes count once it has waited for them)
    return [(process, *it) for process, (parent, *it) in found.items() if parent not in found]


def sampled(ended, top):
    """The processor seconds of each crate's checks, looked at each second until the event."""
    found = {}
    while not ended.wait(1):
        for process, crate, seconds in checks(top):
            found[process, crate] = seconds
    sums = {}
    for (_, crate), seconds in found.items():
        sums[crate] = sums.get(crate, 0) + seconds
    return sums


def slower(before, now):
    """The crates that took longer than the others lead to expect, with the seconds that were expected."""
    ratios = [now[it] / before[it] for it in now if before.get(it, 0) >= 10]
    pace = median(ratios) if len(ratios) >= 3 else 1
    expected = {it: before[it] * pace for it in now if it in before}
    return {it: seconds for it, seconds in expected.items() if now[it] > 1.2 * seconds and now[it] > seconds + 10}


def read_times():
    return {name: float(seconds) for name, seconds in re.findall(r"(?m)^(\w+) ([\d.]+)$", FILE.read_text())} if FILE.exists() else {}


def main():
    ended, sums = threading.Event(), {}
    watch = threading.Thread(target=lambda: sums.update(sampled(ended, TOP)))
    watch.start()
    status = subprocess.run(sys.argv[1:]).returncode
    ended.set()
    watch.join()
    before = read_times()
    for name, expected in sorted(slower(before, sums).items()):
        print(f"times: {name} took {sums[name]:.0f} s of processor time to prove; {expected:.0f} s were expected ({FILE.name})")
    if status == 0 and sums:
        FILE.write_text("".join(f"{name} {seconds:.0f}\n" for name, seconds in sorted({**before, **sums}.items())))
    return status


if __name__ == "__main__":
    sys.exit(main())
