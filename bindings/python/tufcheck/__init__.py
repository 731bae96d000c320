"""Verify a repository of The Update Framework, by the C library ``libtufcheck``.

An updater keeps a trusted state, which begins with a root file that it was shipped with::

    state = tufcheck.first(root_bytes)

For each update it makes a `Job`, fetches what the job needs, and verifies it::

    job = tufcheck.Job(state, wanted=["abc.txt"], moment=int(time.time()))
    tufcheck.fetch_all(job, fetch)
    outcome = job.verify()
    state = outcome.state

Here ``fetch(need)`` returns the bytes of a file, or None if there is none. A target file may be
given by its length and digests alone (`Digests`), which a caller can compute while it downloads.

This module needs ctypes alone. The first call loads the library that the environment variable
``TUFCHECK_LIBRARY`` names, or else ``libtufcheck.so.1`` where the system looks for libraries, and
raises `LibraryError` if there is none or if it isn't that of this module. What is proved of the
library's calls, and what isn't, is in its page EMBEDDING.
"""

from __future__ import annotations

import ctypes as _c
import enum
import functools
import os
from dataclasses import dataclass, field
from typing import Callable, Dict, List, Mapping, Optional, Sequence, Set, Tuple, Union

__all__ = [
    "Digests", "End", "Fault", "Job", "Kind", "LibraryError", "LimitError", "Listed", "Listing",
    "MomentError", "Need", "Needs", "Outcome", "Place", "StateError", "Status", "TextError",
    "Trusted", "TrustedFile", "TufcheckError", "Verdict", "fetch_all", "first", "lms_verify",
    "show", "version",
]


class _Worded(enum.IntEnum):
    """A number that the library has a text of."""

    @property
    def text(self) -> str:
        """The library's text, in English. Raises `LibraryError`."""
        return str(_library().tufcheck_text(self), "ascii")


class _Number(_Worded):
    """A number of the library. One that this module doesn't know, as a library of a later version
    may have, is a value ``UNKNOWN_99``; none means that a target is accepted."""

    @classmethod
    def _missing_(cls, value: object) -> Optional[_Number]:
        if not isinstance(value, int):
            return None
        unknown = int.__new__(cls, value)
        unknown._name_, unknown._value_ = f"UNKNOWN_{value}", value
        return unknown


class Status(_Worded):
    """The result of a call."""

    GOOD = 0
    """The cycle is ready, and every wanted target is accepted."""
    REFUSED = 1
    """The cycle is ready, and some wanted target is refused."""
    STOPPED = 2
    """The cycle stopped."""


class End(_Number):
    """How a cycle ends: ready, or the step at which it stopped."""

    READY = 33
    ROOT = 34
    TIMESTAMP = 35
    SNAPSHOT = 36
    TARGETS = 37


class Kind(_Number):
    """The kind of a verdict, or of a row of a listing."""

    ACCEPTED = 17
    """The file has the length and the digests that a role lists."""
    NOT_FOUND = 18
    """No role lists the path."""
    LIMIT_REACHED = 19
    """The search would visit more roles than the limit."""
    ROLE_REFUSED = 20
    """The search came to a role whose own file is refused."""
    FILE_REFUSED = 21
    """A role lists the path, but its file is refused."""
    NOT_SEARCHED = 22
    """The cycle stopped before any search."""
    LISTED = 23
    """In a listing: a role lists the path."""


class Fault(_Number):
    """Why a file is refused: the first check that it fails."""

    NOT_LISTED = 65
    MISSING = 66
    TOO_LONG = 67
    LENGTH_WRONG = 68
    HASH_WRONG = 69
    NO_KNOWN_HASH = 70
    MALFORMED = 71
    UNSIGNED = 72
    VERSION_WRONG = 73
    ROLLBACK = 74
    EXPIRED = 75


class Place(_Number):
    """Where a file belongs that is to be fetched."""

    METADATA = 49
    TARGETS = 50


class TufcheckError(Exception):
    """A call of the library failed. (Out of memory is a `MemoryError`.)"""


class LibraryError(TufcheckError):
    """The library can't be loaded, or is another one or of another version."""


class StateError(TufcheckError, ValueError):
    """The state, or the first root, is not one."""


class TextError(TufcheckError, ValueError):
    """A file's name or a wanted path is not UTF-8."""


class MomentError(TufcheckError, ValueError):
    """The moment is past the year 9999."""


class LimitError(TufcheckError, ValueError):
    """The limit is not 1 to 256."""


@dataclass(frozen=True)
class Digests:
    """A target file by its length in bytes and the digests of its bytes. Those that are listed are
    needed: `Job.list` says which."""

    length: int
    sha256: Optional[bytes] = None
    sha512: Optional[bytes] = None


@dataclass(frozen=True)
class TrustedFile:
    """A file that a state trusts."""

    version: int
    expires: int
    """In seconds after 1970-01-01T00:00:00Z, below 0 before that."""


@dataclass(frozen=True)
class Trusted:
    """What a state trusts: its top-level files, or None for one that it has not."""

    root: TrustedFile
    timestamp: Optional[TrustedFile]
    snapshot: Optional[TrustedFile]
    targets: Optional[TrustedFile]


@dataclass(frozen=True)
class Verdict:
    """The verdict of a wanted path. It is true exactly if the file is accepted."""

    kind: Kind
    fault: Optional[Fault]
    """Why a file is refused."""
    length: int
    """The length of an accepted file in bytes, or 0."""
    role: str
    """The role that lists the accepted file, or whose own file is refused, or ``""``."""
    file: Optional[str]
    """The name of the file that was checked, in the job's `digests` or else its `targets`. Install
    no other one."""

    def __bool__(self) -> bool:
        return self.kind is Kind.ACCEPTED


@dataclass(frozen=True)
class Outcome:
    """The outcome of a cycle. Keep `state` whatever the status is."""

    status: Status
    end: End
    fault: Optional[Fault]
    """Why the cycle stopped."""
    root_version: int
    state: bytes
    """The text of the new trusted state."""
    verdicts: Dict[str, Verdict]
    """By wanted path."""
    roles: Dict[str, int]
    """The version of each delegated role that was accepted."""


@dataclass(frozen=True)
class Listed:
    """What roles list of a wanted path. It is true exactly if a role lists it."""

    kind: Kind
    """`Kind.LISTED`, or why no role lists the path."""
    fault: Optional[Fault]
    length: int
    role: str
    sha256: Optional[bytes]
    sha512: Optional[bytes]
    name: str
    """The first name under which the file is looked up, or ``""``."""

    def __bool__(self) -> bool:
        return self.kind is Kind.LISTED


@dataclass(frozen=True)
class Listing:
    """What roles list of the wanted paths: GOOD if all are listed, REFUSED if some is not."""

    status: Status
    end: End
    fault: Optional[Fault]
    root_version: int
    state: bytes
    listed: Dict[str, Listed]
    """By wanted path."""


@dataclass(frozen=True)
class Need:
    """A file to fetch. A caller that opens files must refuse names that lead out of its folder."""

    place: Place
    name: str
    most: int
    """Fetch no more bytes than that: a longer file is refused."""
    optional: bool
    """Whether the file may be absent for good: the root of the next version, and a target's file
    under a name that isn't its last. Fetch these first: with one, others may no longer be needed."""


@dataclass(frozen=True)
class Needs:
    """The files that the workflow looked up and didn't find."""

    status: Status
    """REFUSED if some file isn't optional, else STOPPED if the cycle stopped, else GOOD."""
    end: End
    fault: Optional[Fault]
    root_version: int
    files: List[Need]


@dataclass
class Job:
    """The input of a call: a trusted state, files by name, wanted paths, and the moment in seconds
    after 1970-01-01T00:00:00Z. The limit is the maximum number of roles that a search visits, 1 to
    256. A name in `digests` counts before the same one in `targets`."""

    state: bytes
    wanted: Sequence[str]
    moment: int
    metadata: Dict[str, bytes] = field(default_factory=dict)
    targets: Dict[str, bytes] = field(default_factory=dict)
    digests: Dict[str, Digests] = field(default_factory=dict)
    limit: int = 32

    def verify(self) -> Outcome:
        """Runs one cycle of the client workflow. Raises `StateError`, `TextError`, `MomentError`,
        `LimitError`, `LibraryError` or `MemoryError`, and `ValueError` for a digest of another length
        than its own."""
        rooms = _Rooms(self._state_room(), len(self.wanted), 64, 4096)
        while True:
            state, names = _buffer(rooms.state), _buffer(rooms.names)
            verdicts, roles = (_Verdict * (rooms.rows + 1))(), (_Role * (rooms.roles + 1))()
            answer = _Answer(_c.sizeof(_Answer), state, rooms.state, verdicts, rooms.rows, roles,
                             rooms.roles, names, rooms.names)
            status = _status(_library().tufcheck_verify(self._in_c(), answer))
            if status is not None:
                break
            rooms = _Rooms.of(answer.summary)
        found, text = answer.summary, names.raw
        files = {_IN_TARGETS: list(self.targets), _IN_DIGESTS: list(self.digests)}
        return Outcome(
            status, End(found.end), _fault(found.fault), found.root_version,
            state.raw[: found.state_len],
            {path: Verdict(Kind(row.kind), _fault(row.fault), row.length,
                           _cut(text, row.role_at, row.role_len),
                           files[row.source][row.file_at] if row.source in files else None)
             for path, row in zip(self.wanted, verdicts)},
            {_cut(text, row.name_at, row.name_len): row.version
             for row in roles[: found.role_count]})

    def list(self) -> Listing:
        """Returns what roles list of the wanted paths, without looking at target files. Raises what
        `verify` raises."""
        rooms = _Rooms(self._state_room(), len(self.wanted), 0, 4096)
        while True:
            state, names = _buffer(rooms.state), _buffer(rooms.names)
            rows = (_Listed * (rooms.rows + 1))()
            listing = _Listing(_c.sizeof(_Listing), state, rooms.state, rows, rooms.rows, names,
                               rooms.names)
            status = _status(_library().tufcheck_list(self._in_c(), listing))
            if status is not None:
                break
            rooms = _Rooms.of(listing.summary)
        found, text = listing.summary, names.raw
        return Listing(
            status, End(found.end), _fault(found.fault), found.root_version,
            state.raw[: found.state_len],
            {path: Listed(Kind(row.kind), _fault(row.fault), row.length,
                          _cut(text, row.role_at, row.role_len),
                          bytes(row.sha256) if row.has_sha256 else None,
                          bytes(row.sha512) if row.has_sha512 else None,
                          _cut(text, row.name_at, row.name_len))
             for path, row in zip(self.wanted, rows)})

    def next(self) -> Needs:
        """Returns the files to fetch next. Raises what `verify` raises."""
        rooms = _Rooms(0, len(self.wanted) + 2, 0, 4096)
        while True:
            rows, names = (_Need * (rooms.rows + 1))(), _buffer(rooms.names)
            needs = _Needs(_c.sizeof(_Needs), rows, rooms.rows, names, rooms.names)
            status = _status(_library().tufcheck_next(self._in_c(), needs))
            if status is not None:
                break
            rooms = _Rooms.of(needs.summary)
        found, text = needs.summary, names.raw
        return Needs(
            status, End(found.end), _fault(found.fault), found.root_version,
            [Need(Place(row.place), _cut(text, row.name_at, row.name_len), row.most,
                  bool(row.optional))
             for row in rows[: found.verdict_count]])

    def _state_room(self) -> int:
        # A guess: a state has files of the job in hexadecimal, or those of the state before.
        return len(self.state) + 2 * sum(map(len, self.metadata.values())) + 64

    def _in_c(self) -> _Job:
        # ctypes would take a number that is too large, or below 0, modulo 2 to the power of 64.
        if not 0 <= self.moment < 1 << 64:
            raise MomentError(_FAULTS[-4][1])
        if not 0 <= self.limit < 1 << 64:
            raise LimitError(_FAULTS[-5][1])
        digests = (_Digests * len(self.digests))(
            *(_Digests(_text(name), d.length, d.sha256 is not None, d.sha512 is not None,
                       _digest(d.sha256, 32), _digest(d.sha512, 64))
              for name, d in self.digests.items()))
        wanted = (_Bytes * len(self.wanted))(*map(_text, self.wanted))
        return _Job(_c.sizeof(_Job), _bytes(self.state), _files(self.metadata), len(self.metadata),
                    _files(self.targets), len(self.targets), digests, len(self.digests),
                    wanted, len(self.wanted), self.moment, self.limit)


def version() -> str:
    """The version of the library. Raises `LibraryError`."""
    number = _library().tufcheck_version()
    return f"{number // 1_000_000}.{number // 1_000 % 1_000}.{number % 1_000}"


def first(root: bytes) -> bytes:
    """The text of the state of a first root file, which the caller trusts. Raises `StateError` if it
    isn't a root file, `LibraryError` or `MemoryError`."""
    used = _c.c_size_t(2 * len(root) + 64)
    while True:
        room = _buffer(used.value)
        result = _library().tufcheck_first(root, len(root), room, len(room) - 1, used)
        if _status(result) is not None:
            return room.raw[: used.value]


def show(state: bytes) -> Trusted:
    """Which files a state trusts, and when each expires. It checks no signature and no moment.
    Raises `StateError` if it isn't a state, `LibraryError` or `MemoryError`."""
    trusted = _Trusted(_c.sizeof(_Trusted))
    result = _library().tufcheck_show(state, len(state), trusted)
    if _status(result) is not Status.GOOD:
        raise LibraryError(f"an unknown result {result}")
    return Trusted(_file(trusted.root), _if_trusted(trusted.timestamp),
                   _if_trusted(trusted.snapshot), _if_trusted(trusted.targets))


def lms_verify(key: bytes, message: bytes, signature: bytes) -> bool:
    """Whether an LMS signature of a message is valid for a public key of 56 bytes (RFC 8554). Raises
    `LibraryError`."""
    result = _library().tufcheck_lms_verify(key, len(key), message, len(message), signature,
                                            len(signature))
    return bool(result == 1)


def fetch_all(job: Job, fetch: Callable[[Need], Union[bytes, Digests, None]]) -> List[Need]:
    """Adds files to the job until `fetch` has none that is needed. Returns those that it had not.

    `fetch` returns a file's bytes, of a target file its digests instead, or None if there is no such
    file. It is called once for each name."""
    fetched: Set[Tuple[Place, str]] = set()
    while True:
        needed = job.next().files
        new = [need for need in needed if (need.place, need.name) not in fetched]
        if not new:
            return needed
        for need in [need for need in new if need.optional] or new:
            found = fetch(need)
            fetched.add((need.place, need.name))
            if isinstance(found, Digests):
                job.digests[need.name] = found
            elif found is not None:
                files = job.metadata if need.place is Place.METADATA else job.targets
                files[need.name] = found


# The rest is the layout of the header.

_NO_ROOM = -6
_IN_TARGETS, _IN_DIGESTS = 81, 82
_FAULTS = {
    -2: (StateError, "the state, or the first root, is not one"),
    -3: (TextError, "a file's name or a wanted path is not UTF-8"),
    -4: (MomentError, "the moment is past the year 9999"),
    -5: (LimitError, "the limit is not 1 to 256"),
}


class _Bytes(_c.Structure):
    _fields_ = [("data", _c.c_char_p), ("len", _c.c_size_t)]


class _File(_c.Structure):
    _fields_ = [("name", _Bytes), ("bytes", _Bytes)]


class _Digests(_c.Structure):
    _fields_ = [("name", _Bytes), ("length", _c.c_uint64), ("has_sha256", _c.c_uint8),
                ("has_sha512", _c.c_uint8), ("sha256", _c.c_uint8 * 32),
                ("sha512", _c.c_uint8 * 64)]


class _Job(_c.Structure):
    _fields_ = [("size", _c.c_size_t), ("state", _Bytes),
                ("metadata", _c.POINTER(_File)), ("metadata_count", _c.c_size_t),
                ("targets", _c.POINTER(_File)), ("target_count", _c.c_size_t),
                ("digests", _c.POINTER(_Digests)), ("digest_count", _c.c_size_t),
                ("wanted", _c.POINTER(_Bytes)), ("wanted_count", _c.c_size_t),
                ("moment", _c.c_uint64), ("limit", _c.c_size_t)]


class _Summary(_c.Structure):
    _fields_ = [("end", _c.c_uint32), ("fault", _c.c_uint32), ("root_version", _c.c_uint64),
                ("state_len", _c.c_size_t), ("verdict_count", _c.c_size_t),
                ("role_count", _c.c_size_t), ("name_len", _c.c_size_t),
                ("reserved", _c.c_uint64 * 4)]


class _Verdict(_c.Structure):
    _fields_ = [("kind", _c.c_uint32), ("fault", _c.c_uint32), ("length", _c.c_uint64),
                ("role_at", _c.c_size_t), ("role_len", _c.c_size_t), ("file_at", _c.c_size_t),
                ("source", _c.c_uint32), ("reserved", _c.c_uint32 * 5)]


class _Role(_c.Structure):
    _fields_ = [("version", _c.c_uint64), ("name_at", _c.c_size_t), ("name_len", _c.c_size_t),
                ("reserved", _c.c_uint64 * 2)]


class _Answer(_c.Structure):
    _fields_ = [("size", _c.c_size_t), ("state", _c.POINTER(_c.c_char)), ("state_room", _c.c_size_t),
                ("verdicts", _c.POINTER(_Verdict)), ("verdict_room", _c.c_size_t),
                ("roles", _c.POINTER(_Role)), ("role_room", _c.c_size_t),
                ("names", _c.POINTER(_c.c_char)), ("name_room", _c.c_size_t),
                ("summary", _Summary)]


class _Listed(_c.Structure):
    _fields_ = [("kind", _c.c_uint32), ("fault", _c.c_uint32), ("length", _c.c_uint64),
                ("role_at", _c.c_size_t), ("role_len", _c.c_size_t), ("name_at", _c.c_size_t),
                ("name_len", _c.c_size_t), ("has_sha256", _c.c_uint8),
                ("has_sha512", _c.c_uint8), ("sha256", _c.c_uint8 * 32),
                ("sha512", _c.c_uint8 * 64), ("reserved", _c.c_uint8 * 30)]


class _Listing(_c.Structure):
    _fields_ = [("size", _c.c_size_t), ("state", _c.POINTER(_c.c_char)), ("state_room", _c.c_size_t),
                ("rows", _c.POINTER(_Listed)), ("row_room", _c.c_size_t),
                ("names", _c.POINTER(_c.c_char)), ("name_room", _c.c_size_t),
                ("summary", _Summary)]


class _Need(_c.Structure):
    _fields_ = [("place", _c.c_uint32), ("optional", _c.c_uint8), ("most", _c.c_uint64),
                ("name_at", _c.c_size_t), ("name_len", _c.c_size_t), ("reserved", _c.c_uint64 * 2)]


class _Needs(_c.Structure):
    _fields_ = [("size", _c.c_size_t), ("rows", _c.POINTER(_Need)), ("row_room", _c.c_size_t),
                ("names", _c.POINTER(_c.c_char)), ("name_room", _c.c_size_t),
                ("summary", _Summary)]


class _TrustedFile(_c.Structure):
    _fields_ = [("version", _c.c_uint64), ("expires", _c.c_int64), ("reserved", _c.c_uint64 * 2)]


class _Trusted(_c.Structure):
    _fields_ = [("size", _c.c_size_t), ("root", _TrustedFile), ("timestamp", _TrustedFile),
                ("snapshot", _TrustedFile), ("targets", _TrustedFile)]


@dataclass(frozen=True)
class _Rooms:
    state: int
    rows: int
    roles: int
    names: int

    @staticmethod
    def of(needed: _Summary) -> _Rooms:
        return _Rooms(needed.state_len, needed.verdict_count, needed.role_count, needed.name_len)


def _buffer(size: int) -> _c.Array[_c.c_char]:
    return _c.create_string_buffer(size + 1)


def _bytes(data: bytes) -> _Bytes:
    return _Bytes(data, len(data))


def _text(name: str) -> _Bytes:
    try:
        return _bytes(name.encode())
    except UnicodeEncodeError:
        raise TextError(_FAULTS[-3][1]) from None


def _files(files: Mapping[str, bytes]) -> _c.Array[_File]:
    return (_File * len(files))(*(_File(_text(name), _bytes(data))
                                  for name, data in files.items()))


def _digest(digest: Optional[bytes], size: int) -> _c.Array[_c.c_uint8]:
    if digest is not None and len(digest) != size:
        raise ValueError(f"a digest of {len(digest)} bytes, not {size}")
    return (_c.c_uint8 * size).from_buffer_copy(bytes(size) if digest is None else digest)


def _cut(names: bytes, at: int, length: int) -> str:
    return names[at: at + length].decode()


def _fault(number: int) -> Optional[Fault]:
    return Fault(number) if number else None


def _file(row: _TrustedFile) -> TrustedFile:
    return TrustedFile(row.version, row.expires)


def _if_trusted(row: _TrustedFile) -> Optional[TrustedFile]:
    return _file(row) if row.version else None


def _status(result: int) -> Optional[Status]:
    """The status, or None if there was too little room."""
    if result in (0, 1, 2):
        return Status(result)
    if result == _NO_ROOM:
        return None
    if result == -1:
        raise MemoryError("out of memory")
    kind, why = _FAULTS.get(result, (LibraryError, f"an unknown result {result}"))
    raise kind(why)


@functools.lru_cache(maxsize=None)
def _library() -> _c.CDLL:
    name = os.environ.get("TUFCHECK_LIBRARY", "libtufcheck.so.1")
    try:
        library = _c.CDLL(name)
        library.tufcheck_version.restype = _c.c_uint32
        if library.tufcheck_version() // 1_000_000 != 1:
            raise LibraryError(f"{name} has another version than this module")
        _declare(library)
    except (OSError, AttributeError) as error:
        raise LibraryError(f"{name} is no libtufcheck: {error}") from error
    return library


def _declare(library: _c.CDLL) -> None:
    room, size = _c.POINTER(_c.c_char), _c.c_size_t
    library.tufcheck_first.argtypes = [_c.c_char_p, size, room, size, _c.POINTER(size)]
    library.tufcheck_show.argtypes = [_c.c_char_p, size, _c.POINTER(_Trusted)]
    library.tufcheck_next.argtypes = [_c.POINTER(_Job), _c.POINTER(_Needs)]
    library.tufcheck_list.argtypes = [_c.POINTER(_Job), _c.POINTER(_Listing)]
    library.tufcheck_verify.argtypes = [_c.POINTER(_Job), _c.POINTER(_Answer)]
    library.tufcheck_lms_verify.argtypes = [_c.c_char_p, size] * 3
    library.tufcheck_text.argtypes, library.tufcheck_text.restype = [_c.c_int32], _c.c_char_p
    for call in (library.tufcheck_first, library.tufcheck_show, library.tufcheck_next,
                 library.tufcheck_list, library.tufcheck_verify, library.tufcheck_lms_verify):
        call.restype = _c.c_int32
