"""The MIME types of files, by the library libmimelook over the bytes of a mime.cache.

    >>> import mimelook
    >>> types = mimelook.Cache.merged(["/usr/local/share", "/usr/share"])
    >>> types.type_of("notes.txt")
    'text/plain'
    >>> types.type_of_file("/tmp/photo")
    'image/jpeg'

A cache may be any bytes: a call answers or raises a Fault, in steps that are bounded by the lengths of the cache and the content.
A Cache is an open database of the library, which is quicker the more it is asked. Threads may share one: a call waits for those before
it, and lets the other threads run. It is closed by `with`, by `close`, or once nothing has it. A name is that of a file alone, with no
folder, as str or bytes. A type is a str; where a hostile cache has bytes that are no UTF-8, they are surrogates, as in the names of
files. The library is found as any other, or where the environment has its path in MIMELOOK_LIBRARY.
"""
from __future__ import annotations

import errno
import os
import stat
import threading
import weakref
from collections.abc import Callable, Iterable, Sequence
from contextlib import AbstractContextManager, suppress
from ctypes import CDLL, POINTER, Structure, addressof, byref, create_string_buffer, string_at
from ctypes import c_bool, c_char_p, c_size_t, c_uint16, c_uint32, c_uint64, c_void_p
from enum import IntEnum
from typing import Any, NamedTuple, Optional, TypeVar, Union

_Told = TypeVar("_Told")
Name = Union[str, bytes]
Path = Union[str, bytes, "os.PathLike[str]", "os.PathLike[bytes]"]


class Order(IntEnum):
    """What is asked first of a file's name and its content."""

    GLOBS_FIRST = 0  #: the specification's: the rules that match the name best, and the content where these leave it open
    MAGIC_FIRST = 1  #: a content of priority 80 or more before the name
    ALL_GLOBS = 2  #: all rules that match, among whose types the content chooses, unless they are one type


class Status(IntEnum):
    """Why a call gave no answer: the numbers of enum mimelook_status."""

    NAME_TOO_LONG = 1
    OUT_OF_MEMORY = 2
    NOT_A_TYPE = 3
    SHORT_BUFFER = 4
    TRUNCATED = 5
    VERSION = 6
    TOO_LARGE = 7
    OUT_OF_RANGE = 8
    LONG_TEXT = 9
    SPENT = 10
    TOO_DEEP = 11
    UNKNOWN_ORDER = 12
    BAD_MAGIC = 13
    NOT_OPEN = 14


class Fault(Exception):
    """A call that gave no answer."""

    def __init__(self, status: int, offset: int = 0, directory: Optional[Path] = None) -> None:
        super().__init__(status, offset, directory)
        #: one of Status
        self.status = status
        #: bytes from the front of the cache or, where there is a directory, of its `magic`; 0 where the status has no place
        self.offset = offset
        #: the data directory whose `magic` is refused, else None
        self.directory = directory

    def __str__(self) -> str:
        where = "" if self.directory is None else f"{os.fsdecode(self.directory)}: "
        return f"{where}{_library.mimelook_status_text(self.status).decode()}" + (f" (offset {self.offset})" if self.offset else "")


class Answer(NamedTuple):
    """A type, and how many bytes of a content a lookup of the name reads at most: 0 where the type is final."""

    type: str
    wanted: int


class Hit(NamedTuple):
    """A rule that matches a name: its type as the cache has it, its weight, and whether it is kept: no other is preferred to it."""

    type: str
    weight: int
    case_sensitive: bool
    kept: bool


class Sniffed(NamedTuple):
    """The type of a content alone, and the priority of the section of magic that holds; 0 where none does."""

    type: str
    priority: int
    holds: bool


class Icons(NamedTuple):
    """The names of a type's icon and of the icon of those like it."""

    icon: str
    generic: str


class Cache(AbstractContextManager["Cache"]):
    """A cache that is open, from its bytes."""

    def __init__(self, data: bytes) -> None:
        """Raises a Fault where the bytes can't be opened as a cache."""
        kept, handle = bytes(data), c_void_p()
        _check(_library.mimelook_open(*_bytes(kept), byref(handle)))
        self._hold(handle, kept)

    def _hold(self, handle: c_void_p, data: bytes) -> None:
        """Has a database until it is closed, and the bytes that it is open over, unless they are its own."""
        self._handle, self._turn = handle, threading.Lock()
        self._closing = weakref.finalize(self, _close, handle, data)

    def close(self) -> None:
        """Gives back what is kept; then each call raises a Fault."""
        with self._turn:
            self._closing()

    def __exit__(self, *_: object) -> None:
        self.close()

    @classmethod
    def open(cls, path: Path) -> Cache:
        """The cache in a file, such as /usr/share/mime/mime.cache."""
        with open(path, "rb") as file:
            return cls(file.read())

    @classmethod
    def merged(cls, directories: Sequence[Path]) -> Cache:
        """The cache of the text files of data directories such as /usr/share, most preferred first; what is missing is empty."""
        texts = [_texts_of(directory) for directory in directories]
        slices = (_Directory * len(texts))(*(_Directory(*(_Slice(*_bytes(text)) for text in each)) for each in texts))
        cache, handle = cls.__new__(cls), c_void_p()
        report = _library.mimelook_open_directories(slices, len(slices), byref(handle))
        if report.status:
            raise Fault(report.status, report.at, directories[report.directory] if report.status == Status.BAD_MAGIC else None)
        cache._hold(handle, b"")
        return cache

    def look_up(self, name: Name, content: Optional[bytes] = None, order: int = Order.GLOBS_FIRST) -> Answer:
        """The type of a name and a content, and how much of one is wanted; None is a content that is not available."""
        found = _Answer(_Text.empty())
        given = (None, 0) if content is None else _bytes(content)
        return self._ask("look_up", lambda: Answer(found.type.text(), found.wanted), *_bytes(name), *given, order, byref(found))

    def type_of(self, name: Name, content: Optional[bytes] = None, order: int = Order.GLOBS_FIRST) -> str:
        """The type of a name and a content; None is a content that is not available."""
        return self.look_up(name, content, order).type

    def types_of(self, files: Iterable[tuple[Name, Optional[bytes]]], order: int = Order.GLOBS_FIRST) -> list[str]:
        """The types of names, each with its content; None is one that is not available."""
        return [self.type_of(name, content, order) for name, content in files]

    def type_of_file(self, path: Path, order: int = Order.GLOBS_FIRST) -> str:
        """The type of a regular file, which is opened only where its name leaves the type open; an OSError where it can't be."""
        name = os.path.basename(os.fsencode(path))
        found = self.look_up(name, None, order)
        return self.type_of(name, _front(path, found.wanted), order) if found.wanted else found.type

    def hits(self, name: Name) -> list[Hit]:
        """The rules that match a name, the best first; aliases are not resolved."""
        return self._array("hits", _Hit, lambda hit: Hit(hit.type.text(), hit.weight, bool(hit.case_sensitive), bool(hit.kept)), name)

    def sniff(self, content: bytes) -> Sniffed:
        """The type of a content alone."""
        found = _Sniffed(_Text.empty())
        return self._ask("sniff", lambda: Sniffed(found.type.text(), found.priority, bool(found.holds)), *_bytes(content), byref(found))

    def is_a(self, kind: Name, base: Name) -> bool:
        """Whether a type is another or a subclass of it, aliases resolved."""
        is_so = c_bool()
        return self._ask("is_a", lambda: is_so.value, *_bytes(kind), *_bytes(base), byref(is_so))

    def parents(self, kind: Name) -> list[str]:
        """The types that a type is a subclass of, as the cache lists them."""
        return self._array("parents", _Text, _Text.text, kind)

    def unalias(self, kind: Name) -> str:
        """The type that a type is an alias of, else itself."""
        found, given = _Text.empty(), _bytes(kind)
        return self._ask("unalias", found.text, *given, byref(found))

    def icons(self, kind: Name) -> Icons:
        """The names of a type's icons: those that the cache lists, else names that are made of the type."""
        icon, generic, lengths = create_string_buffer(_ICON_ROOM), create_string_buffer(_ICON_ROOM), (c_size_t * 2)()
        given = *_bytes(kind), icon, _ICON_ROOM, generic, _ICON_ROOM, lengths
        return self._ask("icons", lambda: Icons(_text(icon.raw[: lengths[0]]), _text(generic.raw[: lengths[1]])), *given)

    def _array(self, what: str, item: Any, tell: Callable[[Any], _Told], asked: Name) -> list[_Told]:
        """What a call writes into an array, which is asked for twice where there is anything."""
        count, found = c_size_t(), (item * 0)()
        while True:
            told = self._ask(what, lambda: [tell(it) for it in found[: count.value]], *_bytes(asked), found, len(found), byref(count))
            if count.value <= len(found):
                return told
            found = (item * count.value)(*[item.empty()] * count.value)

    def _ask(self, what: str, tell: Callable[[], _Told], *words: Any) -> _Told:
        """What a call by the handle gives; its texts are read before another thread can close the database that they lie in."""
        with self._turn:
            _check(getattr(_library, f"mimelook_database_{what}")(self._handle, *words))
            return tell()


def is_type_name(name: Name) -> bool:
    """Whether this is the name of a type."""
    return bool(_library.mimelook_is_type_name(*_bytes(name)))


def version() -> str:
    """The library's version."""
    return str(_library.mimelook_version(), "ascii")


class _Report(Structure):
    _fields_ = [("status", c_uint32), ("version", c_uint16 * 2), ("at", c_uint64), ("cost", c_uint64 * 3), ("spare", c_uint64 * 3)]


class _Text(Structure):
    _fields_ = [("at", c_void_p), ("length", c_size_t)]

    @classmethod
    def empty(cls) -> _Text:
        return cls(addressof(_NOTHING), 0)

    def text(self) -> str:
        return _text(string_at(self.at, self.length))


class _Hit(Structure):
    _fields_ = [("type", _Text), ("weight", c_uint32), ("case_sensitive", c_uint16), ("kept", c_uint16), ("spare", c_uint64 * 2)]

    @classmethod
    def empty(cls) -> _Hit:
        return cls(_Text.empty())


class _Answer(Structure):
    _fields_ = [("type", _Text), ("wanted", c_uint64), ("spare", c_uint64 * 3)]


class _Sniffed(Structure):
    _fields_ = [("type", _Text), ("priority", c_uint32), ("holds", c_uint32), ("spare", c_uint64 * 3)]


class _Slice(Structure):
    _fields_ = [("at", c_char_p), ("length", c_size_t)]


class _MergeReport(Structure):
    _fields_ = [("status", c_uint32), ("fault", c_uint32), ("directory", c_uint64), ("at", c_uint64), ("spare", c_uint64 * 2)]


_TEXT_FILES = ("globs2", "magic", "aliases", "subclasses", "icons", "generic-icons")
_Directory = _Slice * len(_TEXT_FILES)
_NOTHING = create_string_buffer(1)
_ICON_ROOM = 265
_BYTES = (c_char_p, c_size_t)
_FUNCTIONS = {
    "open": (_Report, *_BYTES, POINTER(c_void_p)),
    "open_directories": (_MergeReport, POINTER(_Directory), c_size_t, POINTER(c_void_p)),
    "close": (None, c_void_p),
    "is_type_name": (c_bool, *_BYTES),
    "status_text": (c_char_p, c_uint32),
    "version": (c_char_p,),
    "database_look_up": (_Report, c_void_p, *_BYTES, *_BYTES, c_uint32, POINTER(_Answer)),
    "database_hits": (_Report, c_void_p, *_BYTES, POINTER(_Hit), c_size_t, POINTER(c_size_t)),
    "database_sniff": (_Report, c_void_p, *_BYTES, POINTER(_Sniffed)),
    "database_is_a": (_Report, c_void_p, *_BYTES, *_BYTES, POINTER(c_bool)),
    "database_parents": (_Report, c_void_p, *_BYTES, POINTER(_Text), c_size_t, POINTER(c_size_t)),
    "database_unalias": (_Report, c_void_p, *_BYTES, POINTER(_Text)),
    "database_icons": (_Report, c_void_p, *_BYTES, *_BYTES, *_BYTES, POINTER(c_size_t)),
}


def _loaded() -> CDLL:
    """The library with the types of its functions."""
    library = CDLL(os.environ.get("MIMELOOK_LIBRARY") or "libmimelook.so.1")
    for name, (gives, *takes) in _FUNCTIONS.items():
        function = getattr(library, f"mimelook_{name}")
        function.restype, function.argtypes = gives, takes
    return library


def _bytes(given: Name) -> tuple[bytes, int]:
    """What a function takes of a name or a content."""
    encoded = given.encode("utf-8", "surrogateescape") if isinstance(given, str) else bytes(given)
    return encoded, len(encoded)


def _text(found: bytes) -> str:
    return found.decode("utf-8", "surrogateescape")


def _close(handle: c_void_p, _data: bytes) -> None:
    """Closes a database; bytes that it is open over are kept until then."""
    _library.mimelook_close(handle)
    handle.value = None


def _check(report: _Report) -> None:
    if report.status:
        raise Fault(report.status, report.at)


def _front(path: Path, wanted: int) -> bytes:
    """The first bytes of a regular file. Nothing else is opened, so no call waits for a writer."""
    if not stat.S_ISREG(os.stat(path).st_mode):
        raise OSError(errno.EINVAL, "not a regular file", path)
    with open(path, "rb", buffering=0, opener=lambda name, flags: os.open(name, flags | os.O_NONBLOCK)) as file:
        return file.read(min(wanted, os.fstat(file.fileno()).st_size))


def _texts_of(directory: Path) -> list[bytes]:
    """The text files of a data directory; one that is missing is empty."""
    texts = [b""] * len(_TEXT_FILES)
    for number, name in enumerate(_TEXT_FILES):
        path = os.path.join(os.fsencode(directory), b"mime", name.encode())
        with suppress(FileNotFoundError, NotADirectoryError), open(path, "rb") as file:
            texts[number] = file.read()
    return texts


_library = _loaded()
