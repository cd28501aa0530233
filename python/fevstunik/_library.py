"""The shared library, by ctypes: its functions, and its handles with their locks."""
from __future__ import annotations

import atexit
import ctypes
import operator
import os
import threading
from collections.abc import Callable
from ctypes import byref
from dataclasses import fields
from typing import Any, NoReturn, SupportsIndex, TypeVar, Union

from ._codes import Code
from ._errors import Error, Fault, LibraryError
from ._interface import FUNCTIONS, VERSION, Answer, Opaque

SONAME = "libfevstunik.so.0"
VARIABLE = "FEVSTUNIK_LIBRARY"
# The library that a wheel has (packaging/wheel.py). Without one the loader looks for the library.
PACKED = os.path.join(os.path.dirname(__file__), "lib", "libfevstunik.so")
DEFAULT = PACKED if os.path.exists(PACKED) else SONAME
Bytes = Union[bytes, bytearray, memoryview]


class Library:
    """The library's functions, by their names without ``fevstunik_``. A call releases the GIL, as those of ctypes.CDLL
    do."""

    def __init__(self, path: str) -> None:
        try:
            loaded = ctypes.CDLL(path)
        except OSError as fault:
            raise LibraryError(f"the shared library {path} can't be loaded: {fault}. Install this project's package "
                               f"libfevstunik0, or name the "
                               f"file in the environment variable {VARIABLE} or to fevstunik.load(..)") from None
        self.path = path
        self._functions: dict[str, Callable[..., Any]] = {}
        for name, (result, words) in FUNCTIONS.items():
            function = getattr(loaded, f"fevstunik_{name}", None)
            if function is None:
                raise LibraryError(f"the shared library {path} has no function fevstunik_{name}, which this package "
                                   f"calls")
            function.restype, function.argtypes = result, words
            self._functions[name] = function
        # A later library of the same major number serves the package too: sizes of options and codes only grow.
        found = self.version
        if found[0] != VERSION[0] or found < VERSION:
            raise LibraryError(f"the shared library {path} is of version {numbered(found)}, and this package needs "
                               f"{numbered(VERSION)} or a later "
                               f"one with the same first number")

    @property
    def version(self) -> tuple[int, int, int]:
        number = int(self.call("version"))
        return number // 10_000, number // 100 % 100, number % 100

    def call(self, name: str, *words: Any) -> Any:
        return self._functions[name](*words)


def numbered(version: tuple[int, int, int]) -> str:
    return ".".join(map(str, version))


_loaded: Library | None = None


def load(path: str | os.PathLike[str] | None = None) -> None:
    """Load the shared library at a path, for all objects that are made from now on.

    You needn't call this: the library is loaded when it is first needed. Without a path, loads the file that the
    environment variable FEVSTUNIK_LIBRARY names, or else the one that came with the wheel, or else the
    libfevstunik.so.0 that the system's loader finds. Raises LibraryError if it can't be loaded, or is older than the
    package, or of another major number.

    >>> import fevstunik
    >>> fevstunik.load()
    >>> fevstunik.version()
    (0, 2, 0)
    """
    global _loaded
    _loaded = Library(os.fspath(path) if path is not None else os.environ.get(VARIABLE) or DEFAULT)


def library() -> Library:
    if _loaded is None:
        load()
    assert _loaded is not None
    return _loaded


def version() -> tuple[int, int, int]:
    """Return the version of the shared library: its major, minor and patch number.

    >>> import fevstunik
    >>> fevstunik.version() >= (0, 2, 0)
    True
    """
    return library().version


def fault_of(answer: Answer) -> Error | MemoryError:
    if answer.code == Code.OUT_OF_MEMORY:
        return MemoryError(Code.OUT_OF_MEMORY.text)
    return Fault(answer.code, answer.kerberos, answer.at)


# (a member of an enumeration is found more slowly)
_OK, _SHORT = Code.OK.value, Code.SHORT_BUFFER.value


def done(answer: Answer) -> Answer:
    """The answer, if it is success."""
    if answer.code != _OK:
        raise fault_of(answer)
    return answer


# The room of a first buffer: enough, but for long names and data. (create_string_buffer takes four times as long.)
ROOM = 1024
Buffer = ctypes.c_char * ROOM


def filled(call: Callable[[Any, int], Answer], room: int = ROOM) -> bytes:
    """The bytes that a call with a buffer returns. The first buffer has this room; a call that needs more is made
    again."""
    buffer: Any = Buffer() if room == ROOM else ctypes.create_string_buffer(room)
    answer = call(buffer, room)
    while answer.code == _SHORT:
        room = answer.size
        buffer = ctypes.create_string_buffer(room)
        answer = call(buffer, room)
    if answer.code != _OK:
        raise fault_of(answer)
    return bytes_of(buffer, answer.size)


def bytes_of(buffer: Any, size: int) -> bytes:
    """The first bytes of a buffer."""
    found: bytes = buffer[:size]
    return found


def octets(data: Bytes) -> bytes:
    """A copy of something like bytes; a text, a number, and an array of other items than bytes are refused."""
    # (a subclass of bytes may say another length than it has)
    if type(data) is bytes:
        return data
    view = memoryview(data)
    if view.format not in ("B", "b", "c"):
        raise TypeError(f"these aren't bytes, but items of the format {view.format!r}")
    return view.tobytes()


def text_of(name: str) -> bytes:
    """The bytes of a name; anything but a text is refused."""
    if not isinstance(name, str):
        raise TypeError(f"a name is a str, not {type(name).__name__}")
    return str.encode(name)


def fitting(number: int, bits: int, signed: bool = False) -> int:
    """The number, which ctypes would cut to these bits silently; not True or False, which are numbers to Python."""
    if isinstance(number, bool):
        raise TypeError(f"{number} is not a number")
    number = operator.index(number)
    low, high = (-1 << bits - 1, 1 << bits - 1) if signed else (0, 1 << bits)
    if not low <= number < high:
        raise OverflowError(f"{number} doesn't fit into {bits} bits")
    return number


_Struct = TypeVar("_Struct", bound=ctypes.Structure)


def read(kind: type[_Struct], call: Callable[..., Answer], *words: Any) -> tuple[_Struct, bytes]:
    """The struct that a call with these first arguments returns, and the bytes in which its spans are places."""
    made, buffer = kind(), Buffer()
    place = byref(made)
    answer = call(*words, place, buffer, ROOM)
    if answer.code == _SHORT:
        return made, filled(lambda *into: call(*words, place, *into), answer.size)
    return made, bytes_of(buffer, done(answer).size)


class Secret:
    """What holds a key, or stands for something of this process: it can't be pickled or copied."""

    __slots__ = ()

    def __reduce_ex__(self, protocol: SupportsIndex) -> NoReturn:
        raise TypeError(f"{type(self).__name__} objects hold a key or belong to a process, and can't be pickled or "
                        f"copied")


class Shown:
    """A dataclass whose repr shows the sizes of bytes."""

    __slots__ = ()

    def __repr__(self) -> str:
        named = ((it.name, getattr(self, it.name)) for it in fields(self) if it.repr)
        words = ", ".join(f"{name}={size_of(value) if isinstance(value, bytes) else repr(value)}"
                          for name, value in named)
        return f"{type(self).__name__}({words})"


def size_of(data: bytes) -> str:
    return f"<{len(data)} bytes>"


class _Life:
    """A process, from its start or from the fork that made it. (A child may have the number of a process that is
    gone.)"""


_life = _Life()


def _begin_life() -> None:
    global _life
    _life = _Life()


os.register_at_fork(after_in_child=_begin_life)


class Handle(Secret):
    """A handle of the library, of the kind whose function ``KIND_free`` frees it. One call at a time uses it."""

    _made_in: tuple[object, int] = object(), 0
    # At the end of the process, when other threads may be in a call still, nothing is freed.
    _is_over = False

    def __init__(self, kind: str, opaque: type[ctypes.Structure] = Opaque) -> None:
        self.library = library()
        # (a signal handler may make a call while its thread has the lock)
        self._lock = threading.RLock()
        self._opaque: Any = opaque()
        self._free = kind + "_free"
        # The pointer to it, for a call that has the lock, or for the thread that made it.
        self.pointer: Any = byref(self._opaque)
        # That to what was accepted, if it holds that.
        self.accepted: Any = self.pointer
        self._made_in = here()

    def __del__(self) -> None:
        # (weakref.finalize takes seven times as long)
        if not self._is_over and self._made_in == here():
            self.library.call(self._free, self.pointer)

    def locked(self) -> threading._RLock:
        """The lock, to be entered for a call."""
        # (in a child, the lock may be held by a thread that isn't there)
        life, number = self._made_in
        if life is not _life or number != os.getpid():
            raise RuntimeError("this was made before a fork, and belongs to the process that made it")
        return self._lock

    def call(self, name: str, *words: Any) -> Any:
        """Call a function whose first argument is this handle."""
        with self.locked():
            return self.inside(name, *words)

    def inside(self, name: str, *words: Any) -> Any:
        """The same for a call that has the lock, or for the thread that made it."""
        return self.library.call(name, self.pointer, *words)

    def close(self) -> None:
        self.call(self._free)

    @classmethod
    def end(cls) -> None:
        """The process ends."""
        cls._is_over = True


atexit.register(Handle.end)


def here() -> tuple[object, int]:
    """This process: no other is equal, also if something has forked it without Python's knowledge."""
    return _life, os.getpid()
