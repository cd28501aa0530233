#!/usr/bin/env python3
"""Builds the archive of crates/krb_c, the library for C, for one processor.

    packaging/archive.py CPU OUT     CPU is x86-64, x86-64-v2 or x86-64-v3; OUT is the archive

Takes the libraries that `rt ci` left, if it has just run; else builds by `rt lib`, which proves whatever isn't proved
yet.
"""
import os
import pathlib
import shutil
import subprocess
import sys

ROOT = pathlib.Path(__file__).resolve().parent.parent
sys.path.insert(0, str(ROOT / "tests"))
sys.dont_write_bytecode = True
import edits  # noqa: E402  (the tests are no package that is installed)

CRATE = ROOT / "crates/krb_c"
# Where `rt lib` puts the archive.
BUILT = CRATE / "out/libkrb_c.a"


def run(*words, at=CRATE):
    return subprocess.run([str(word) for word in words], stdout=subprocess.PIPE, stderr=subprocess.STDOUT, text=True,
                          cwd=at)


def over_proved(folder, cpu, out, *more):
    """Builds a crate over the libraries below it, which are proved and built."""
    words = edits.crates_of(str(ROOT))[folder.name].words("out/incremental")
    words[words.index("check")] = "build"
    # (each job loads what the others load: four take twice the processor time of two, and library and program are
    # built side by side)
    words[words.index("--jobs") + 1] = str(min(2, len(os.sched_getaffinity(0))))
    return run(*words, *more, "--toolchain", f"{edits.KIT}/toolchain", "--backend", "llvm", f"--cpu={cpu}", "-o", out,
               at=folder)


def over_ci(folder, cpu, out, *more):
    """Builds a crate over the libraries that `rt ci` left, which rt would prove and build again; None if it left
    none."""
    for name in edits.crates_of(str(ROOT))[folder.name].below:
        left = ROOT / "crates" / name / "out/rlib"
        if not (left / f"{name}.rlib").exists() or (left / "stamp").exists():
            return None
    return over_proved(folder, cpu, out, *more)


def build(cpu, out):
    """Returns what built the archive, or failed to."""
    out = pathlib.Path(out).resolve()
    out.parent.mkdir(parents=True, exist_ok=True)
    built = over_ci(CRATE, cpu, out, "--crate-type", "staticlib")
    if built is None or built.returncode:
        built = run("rt", "lib", "--cpu", cpu)
        if built.returncode == 0 and out != BUILT:
            shutil.copyfile(BUILT, out)
    return built


def main():
    built = build(*sys.argv[1:])
    if built.returncode:
        print(built.stdout[-3000:], file=sys.stderr)
    return 1 if built.returncode else 0


if __name__ == "__main__":
    sys.exit(main())
