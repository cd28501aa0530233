"""How the shared library is found, that the package says what the header says, the examples in its doc strings, and its
types."""
import ctypes
import doctest
import os
import re
import subprocess
import sys
from pathlib import Path
from types import FunctionType

import fevstunik
import pytest
from fevstunik import _interface, _library

from support import TOP

HEADER = (TOP / "include/fevstunik.h").read_text()
# Functions for which the package has another way: an error is made from its code alone, and hashlib has MD5.
LEFT_OUT = {"acceptor_error", "bindings_hash", "messages_of_accepted"}


def python(program, **more):
    where = {name: text for name, text in os.environ.items() if name not in ("FEVSTUNIK_LIBRARY", "LD_LIBRARY_PATH")}
    where = {**where, "PYTHONPATH": str(TOP / "python"), **more}
    return subprocess.run([sys.executable, "-B", "-c", program], env=where, capture_output=True, text=True)


def test_codes_are_the_headers():
    numbers = re.findall(r"^    FEVSTUNIK_(\w+) = (\d+)", HEADER[:HEADER.index("} fevstunik_code;")], re.M)
    assert {it.name: it.value for it in fevstunik.Code} == {name: int(number) for name, number in numbers}
    told = HEADER[HEADER.index("static inline const char *fevstunik_code_text("):]
    texts = dict(re.findall(r'case FEVSTUNIK_(\w+): return "([^"]*)";', told))
    assert {it.name: it.text for it in fevstunik.Code} == texts


def test_functions_are_the_headers():
    names = set(re.findall(r"^[a-z_0-9]+ \*?fevstunik_(\w+)\(", HEADER, re.M))
    assert set(_library.FUNCTIONS) == names - LEFT_OUT


def test_structs_are_the_headers(tmp_path):
    """Their sizes and places are those that a C compiler gives them."""
    kinds = [it for it in vars(_interface).values() if isinstance(it, type) and issubclass(it, ctypes.Structure) and it is not _interface.Opaque]
    structs = {re.sub("(?<=.)[A-Z]", lambda it: "_" + it[0], it.__name__).lower().removesuffix("_handle"): it for it in kinds} | {"acceptor": _interface.Opaque}
    assert len(structs) == len(re.findall(r"^typedef struct fevstunik_\w+ \{\n(?!    void)", HEADER, re.M)) + 1
    asked, wanted = [], []
    for name, struct in structs.items():
        asked.append(f'printf("{name} %zu\\n", sizeof(fevstunik_{name}));')
        wanted.append(f"{name} {ctypes.sizeof(struct)}")
        for field, *_ in struct._fields_:
            size = f"sizeof(((fevstunik_{name} *)0)->{field})"
            asked.append(f'printf("{field} %zu %zu\\n", offsetof(fevstunik_{name}, {field}), {size});')
            place = getattr(struct, field)
            wanted.append(f"{field} {place.offset} {place.size}")
    (tmp_path / "sizes.c").write_text('#include <stdio.h>\n#include "fevstunik.h"\nint main(void)\n{\n'
                                      + "\n".join(asked) + "\n}\n")
    subprocess.run(["gcc", f"-I{TOP}/include", str(tmp_path / "sizes.c"), "-o", str(tmp_path / "sizes")], check=True)
    assert subprocess.run([tmp_path / "sizes"], capture_output=True, text=True).stdout.splitlines() == wanted


def test_version():
    numbers = tuple(int(it) for it in re.findall(r"FEVSTUNIK_VERSION_\w+ (\d+)", HEADER))
    assert fevstunik.version() == numbers
    assert f'version = "{".".join(map(str, numbers))}"' in (TOP / "python/pyproject.toml").read_text()


def test_it_is_found(tmp_path):
    path = os.environ["FEVSTUNIK_LIBRARY"]
    told = "import fevstunik; print(fevstunik.version()[0])"
    assert python(told, FEVSTUNIK_LIBRARY=path).stdout == "0\n"
    assert python(f"import fevstunik; fevstunik.load({path!r}); print(fevstunik.version()[0])").stdout == "0\n"
    (tmp_path / "libfevstunik.so.0").symlink_to(Path(path).resolve())
    assert python(told, LD_LIBRARY_PATH=str(tmp_path)).stdout == "0\n"


def test_it_is_not_there(tmp_path):
    said = python("import fevstunik; print('imported'); fevstunik.version()",
                  FEVSTUNIK_LIBRARY=str(tmp_path / "none.so"))
    assert said.stdout == "imported\n"
    form = r"^fevstunik.LibraryError: the shared library \S*/none.so can't be loaded: .*libfevstunik0.*FEVSTUNIK"
    assert re.search(form, said.stderr, re.M)
    with pytest.raises(fevstunik.LibraryError, match="has no function fevstunik_version"):
        fevstunik.load("libc.so.6")
    with pytest.raises(OSError):
        fevstunik.load(tmp_path / "none.so")
    assert fevstunik.version()[0] == 0


@pytest.mark.parametrize("last, wanted", [("", []), ("del service", ["acceptor_free"]),
                                          ("service.close()", ["acceptor_free"])])
def test_what_is_freed(last, wanted):
    """What nobody uses any more is freed, but nothing at the end of the process, when threads may be in a call
    still."""
    ended = python(f"""
from fevstunik import Acceptor, Keytab, _library
call = _library.Library.call
service = Acceptor(Keytab.read("examples/service.keytab"), "host/web@EX", first_life=True)
_library.Library.call = lambda self, name, *words: (print(name, flush=True), call(self, name, *words))[1]
{last}
""", FEVSTUNIK_LIBRARY=os.environ["FEVSTUNIK_LIBRARY"])
    assert (ended.returncode, ended.stderr, ended.stdout.split()) == (0, "", wanted)


def public():
    """Each name that the package has, and each public method and property of its classes."""
    for name in sorted(set(fevstunik.__all__) - {"When"}):
        thing = getattr(fevstunik, name)
        yield name, thing
        if isinstance(thing, type):
            named = {word: it for of in reversed(thing.__mro__) if "fevstunik" in of.__module__ for word, it in vars(of).items()}
            yield from ((f"{name}.{word}", it) for word, it in named.items()
                        if not word.startswith("_") and isinstance(it, (FunctionType, classmethod, property)))


@pytest.mark.parametrize("name, thing", [("fevstunik", fevstunik), *public()])
def test_example(name, thing):
    """Each has an example, which runs as it says."""
    found, = doctest.DocTestFinder(recurse=False).find(getattr(thing, "__func__", thing), name, module=False,
                                                       globs=dict(vars(fevstunik)))
    assert found.examples
    assert doctest.DocTestRunner(optionflags=doctest.ELLIPSIS).run(found).failed == 0


def test_types(tmp_path):
    ran = subprocess.run(["mypy", "--strict", "--cache-dir", str(tmp_path), "fevstunik"], cwd=TOP / "python",
                         capture_output=True, text=True)
    assert ran.returncode == 0, ran.stdout


def test_types_are_seen(tmp_path):
    """A program that uses the package is held to its types."""
    lines = ["from fevstunik import Keytab", "entries = Keytab(b'').entries", "reveal_type(entries[0].key.data)",
             "Keytab(3)", ""]
    (tmp_path / "user.py").write_text("\n".join(lines))
    ran = subprocess.run(["mypy", "--strict", "--cache-dir", str(tmp_path), str(tmp_path / "user.py")],
                         env={**os.environ, "MYPYPATH": str(TOP / "python")}, capture_output=True, text=True)
    assert 'Revealed type is "builtins.bytes"' in ran.stdout and "Found 1 error" in ran.stdout
