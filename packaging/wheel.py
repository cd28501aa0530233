#!/usr/bin/env python3
"""Packs the package for Python with the shared library inside: BUILD/fevstunik-VERSION-py3-none-PLATFORM.whl, for pip.

    packaging/wheel.py VERSION BUILD

The package loads fevstunik/lib/libfevstunik.so, which has no code: it needs libfevstunik.so.0 in its own folder, so
that the loader takes the build for the processor (from glibc-hwcaps there). The platform is that of the oldest glibc
that the libraries run with, as PEP 600 names it, and no library but glibc's is needed. The files have the commit's
time, or the one that SOURCE_DATE_EPOCH says.
"""
import base64
import hashlib
import os
import re
import shlex
import subprocess
import sys
import time
import tomllib
import zipfile
from pathlib import Path

TOP = Path(__file__).resolve().parent.parent
SONAME = "libfevstunik.so.0"
# Where each build of the library lies in the package.
PLACES = {"x86-64": "lib", **{cpu: f"lib/glibc-hwcaps/{cpu}" for cpu in ("x86-64-v2", "x86-64-v3")}}
# The oldest glibc for which pip still has a tag of its own; with the tag's older name.
OLDEST, OLDER_NAME = 17, "manylinux2014_x86_64"


def said(*words):
    return subprocess.run([str(it) for it in words], check=True, capture_output=True, text=True, cwd=TOP).stdout


def entry(build):
    """The library without code that the package loads."""
    file = build / "libfevstunik.so"
    # (by the older kind of path, which goes before LD_LIBRARY_PATH: the package uses its own library)
    how = ["-Wl,-rpath,$ORIGIN", "-Wl,--disable-new-dtags", "-Wl,--no-as-needed", "-Wl,--build-id=none",
           "-Wl,-z,noexecstack"]
    compiler = shlex.split(os.environ.get("CC", "cc"))
    with_library = [f"-L{build / 'x86-64'}", f"-l:{library(build, 'x86-64').name}"]
    said(*compiler, "-shared", "-nostdlib", "-o", file, "-Wl,-soname,libfevstunik.so", *how, *with_library)
    return file


def library(build, cpu):
    (found,) = (build / cpu).glob("libfevstunik.so.*.*.*")
    return found


def platform(libraries):
    """The tag of the oldest platform that has what these libraries need; it stops if they need more than glibc."""
    newest = OLDEST
    for it in libraries:
        needed = set(re.findall(r"NEEDED.*\[(.*)\]", said("readelf", "-dW", it)))
        if needed - {"libc.so.6"}:
            sys.exit(f"wheel: {it} needs {sorted(needed)}, not glibc alone")
        newest = max([newest, *map(int, re.findall(r"Name: GLIBC_2\.(\d+)", said("readelf", "-VW", it)))])
    tags = [f"manylinux_2_{newest}_x86_64", *([OLDER_NAME] if newest == OLDEST else [])]
    return ".".join(tags)


def metadata(version):
    about = tomllib.loads((TOP / "python/pyproject.toml").read_text())["project"]
    if about["version"] != version:
        sys.exit(f"wheel: python/pyproject.toml has the version {about['version']}, the header {version}")
    rows = [("Metadata-Version", "2.1"), ("Name", about["name"]), ("Version", version),
            ("Summary", about["description"])]
    rows += [("Classifier", it) for it in about["classifiers"]] + [("Requires-Python", about["requires-python"])]
    for extra, needed in about["optional-dependencies"].items():
        rows += [("Provides-Extra", extra), *(("Requires-Dist", f'{it} ; extra == "{extra}"') for it in needed)]
    return rows


def headers(rows):
    return "".join(f"{name}: {value}\n" for name, value in rows).encode()


def contents(version, build):
    """The files of the wheel by name, and its tag."""
    libraries = {cpu: library(build, cpu) for cpu in PLACES}
    tag = ("py3", "none", platform(libraries.values()))
    python = TOP / "python"
    files = {str(it.relative_to(python)): it.read_bytes() for it in [*python.glob("fevstunik/**/*.py"),
                                                                     python / "fevstunik/py.typed"]}
    files |= {f"fevstunik/{PLACES[cpu]}/{SONAME}": it.read_bytes() for cpu, it in libraries.items()}
    files["fevstunik/lib/libfevstunik.so"] = entry(build).read_bytes()
    about = f"fevstunik-{version}.dist-info"
    tags = [("Tag", f"{tag[0]}-{tag[1]}-{it}") for it in tag[2].split(".")]
    files[f"{about}/METADATA"] = headers(metadata(version))
    files[f"{about}/NOTICES"] = (build / "NOTICES").read_bytes()
    files[f"{about}/WHEEL"] = headers([("Wheel-Version", "1.0"), ("Generator", "fevstunik"),
                                       ("Root-Is-Purelib", "false"), *tags])
    files[f"{about}/RECORD"] = record(files, f"{about}/RECORD")
    return files, "-".join(tag)


def record(files, own):
    """The list of the files with their checksums, as PEP 376 has it."""
    digest = lambda data: base64.urlsafe_b64encode(hashlib.sha256(data).digest()).rstrip(b"=").decode()
    rows = [f"{name},sha256={digest(data)},{len(data)}" for name, data in sorted(files.items())]
    return "".join(f"{it}\n" for it in [*rows, f"{own},,"]).encode()


def packed(files, to, moment):
    with zipfile.ZipFile(to, "w", zipfile.ZIP_DEFLATED) as archive:
        # (the metadata last, as PEP 427 recommends)
        for name in sorted(files, key=lambda it: (".dist-info/" in it, it)):
            info = zipfile.ZipInfo(name, time.gmtime(moment)[:6])
            info.compress_type, info.external_attr = zipfile.ZIP_DEFLATED, 0o100644 << 16
            archive.writestr(info, files[name])


def main():
    version, build = sys.argv[1], Path(sys.argv[2]).resolve()
    moment = int(os.environ.get("SOURCE_DATE_EPOCH") or said("packaging/commit").split()[1])
    files, tag = contents(version, build)
    for old in build.glob("*.whl"):
        old.unlink()
    wheel = build / f"fevstunik-{version}-{tag}.whl"
    packed(files, wheel, moment)
    print(wheel)


if __name__ == "__main__":
    main()
