"""`make install` and `make uninstall`; what the libraries export and how they are linked; the documents and notices that are installed."""
import re
from pathlib import Path

import pytest
from support.packing import BUILDS, LIBDIR, LIBRARIES, OTHERS, ROOT, VERSION, files_below, header_functions, run, well

# Where it is installed: the words of make, where the libraries then are below the folder, and where the rest is.
PLACES = [
    (["DESTDIR={room}", "PREFIX=/usr", f"LIBDIR=/{LIBDIR}"], LIBDIR, "usr"),
    (["DESTDIR={room}"], "usr/local/lib", "usr/local"),
    (["DESTDIR={room}", "PREFIX=/opt/fevstunik", "LIBDIR=/opt/fevstunik/lib64"], "opt/fevstunik/lib64", "opt/fevstunik"),
    (["PREFIX={room}"], "lib", ""),
]
# The folders that stay: any system has them.
STAY = {"bin", "include", "lib", "lib64", "x86_64-linux-gnu", "share", "man"}
# The libraries of the toolchain that are linked, and have notices.
NOTICED = ["arrayvec", "base64", "byteorder", "clap", "hex", "itoa", "jiff_core", "md5", "memchr", "sha2", "smallvec", "strsim", "thiserror"]


@pytest.mark.parametrize("words, libraries, prefix", PLACES, ids=["debian", "local", "opt", "without DESTDIR"])
def test_installs_and_uninstalls(built, tmp_path, words, libraries, prefix):
    words = [it.format(room=tmp_path) for it in words]
    well("make", "install", *words)
    assert files_below(tmp_path) == {f"{libraries}/{it}" for it in LIBRARIES} | {str(Path(prefix) / it) for it in OTHERS}
    where = {"PATH": "/usr/bin:/bin", "PKG_CONFIG_LIBDIR": str(tmp_path / libraries / "pkgconfig"), "PKG_CONFIG_ALLOW_SYSTEM_CFLAGS": "1"}
    found = [well("pkg-config", f"--variable={it}", "fevstunik", env=where).strip() for it in ("includedir", "libdir")]
    assert found == ([f"/{prefix}/include", f"/{libraries}"] if prefix else [f"{tmp_path}/include", f"{tmp_path}/lib"])
    well("make", "uninstall", *words)
    left = {it for it in tmp_path.rglob("*") if it.name not in STAY and not (tmp_path / prefix).is_relative_to(it)}
    assert left == set()


@pytest.mark.parametrize("cpu", BUILDS)
def test_shared_library(staged, cpu):
    path = staged.root / BUILDS[cpu] / f"libfevstunik.so.{VERSION}"
    names = {line.split()[-1].split("@")[0] for line in well("nm", "-D", "--defined-only", path).splitlines()}
    assert names - {"FEVSTUNIK_0"} == header_functions()
    calls = set(re.findall(r" U (\w+)", well("nm", "-D", "--undefined-only", path)))
    assert calls <= {"malloc", "realloc", "free", "memcpy", "memmove", "memset", "memcmp"}
    said = well("readelf", "-dlW", path)
    assert re.findall(r"NEEDED.*\[(.*)\]", said) == ["libc.so.6"]
    assert "[libfevstunik.so.0]" in said
    assert re.search(r"BIND_NOW|FLAGS_1.*NOW", said) and "GNU_RELRO" in said
    stack = re.search(r"GNU_STACK.*? (R\S*)\s+0x", said)
    assert stack and "E" not in stack[1]


def test_static_library_exports_the_functions_of_the_header_alone(staged):
    lines = well("nm", "--defined-only", "--extern-only", staged.root / LIBDIR / "libfevstunik.a").splitlines()
    assert {words[-1] for words in map(str.split, lines) if len(words) == 3} == header_functions()


def links(document):
    """The files that a document links to."""
    found = re.findall(r"\]\(([^)#\s]+)[^)]*\)", document.read_text())
    return {(document.parent / it).resolve() for it in found if "://" not in it}


def test_what_documents_link_to_is_installed(staged):
    documents = sorted((staged.root / "usr/share/doc/fevstunik").rglob("*.md"))
    found = {it: document for document in documents for it in links(document)}
    assert len(documents) > 12 and len(found) > 12
    assert {str(it): str(document) for it, document in found.items() if not it.is_file()} == {}


def test_what_manual_pages_name_is_installed(staged):
    room = staged.root / "usr/share/doc/fevstunik"
    named = {it for page in (staged.root / "usr/share/man").rglob("*.[0-9]") for it in re.findall(r"\b(?:docs|examples)/[\w/.-]*\w", page.read_text())}
    assert "docs/OPERATING.md" in named
    assert {it for it in named if not (room / it).exists()} == set()


def test_installed_examples_are_the_programs_that_documents_run(staged):
    room = staged.root / "usr/share/doc/fevstunik/examples"
    assert {it.name for it in room.rglob("*") if it.is_file() and it.stat().st_mode & 0o111} == {"serve.py", "shared.py", "sign.py"}


def test_notices_of_the_toolchains_libraries(built):
    """Each library that is linked and has notices is named, with the holders of its rights and the whole of its licence."""
    text = (built / "NOTICES").read_text()
    listed = re.search(r"With notices, which follow:\n((?:  \w+\n)*)", text)[1].split()
    assert listed == NOTICED
    kit = Path(well("rt", "doc").strip()).parent
    for name in NOTICED:
        files = sorted((kit / "rattle" / name).glob("LICENSE*"))
        assert files and all(it.read_text().strip("\n") in text and f"{name} ({it.name})" in text for it in files), name
    assert "Copyright (c) 2015 Danny Guo" in text and "Apache License" in text


def test_completion_is_read_by_zsh_and_bash(staged):
    for shell, file in (("bash", "bash-completion/completions/krbtool"), ("zsh", "zsh/site-functions/_krbtool")):
        ran = run(shell, "-n", staged.root / "usr/share" / file)
        assert ran.returncode == 0, ran.stderr


def test_versions_agree():
    """The header has the version; the other files that name it follow."""
    header = dict(re.findall(r"^#define FEVSTUNIK_VERSION_(\w+) (\d+)$", (ROOT / "include/fevstunik.h").read_text(), re.M))
    version = ".".join(header[it] for it in ("MAJOR", "MINOR", "PATCH"))
    assert version == VERSION
    assert f'\nversion = "{version}"\n' in (ROOT / "python/pyproject.toml").read_text()
    assert (ROOT / "debian/changelog").read_text().startswith(f"fevstunik ({version}) ")
