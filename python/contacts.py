"""A store of sonar contacts in lent memory that speaks Couchbase's binary protocol: the calls of libcontacts, over ctypes.

A table is a bytearray of yours. `make` makes one, `serve_run` serves the requests that have been received and `serve` one of
them; `read`, `purge` and `activate` are its owner's; `read_request` and `write_request` are for frames; `replay` serves a
recorded voyage once more. include/contacts.h says what every call answers and does, docs/MANUAL.md what every command means.

    table = bytearray(contacts.size(4))
    contacts.make(table, 4, State.ACTIVE, Mode.REVISION, 3)
    frame = contacts.write_request(Opcode.SET, extras=bytes(8), key=b"sonar:17", value=b"bearing 143", vbucket=3)
    served = contacts.serve(table, 1_000_000, frame)
    contacts.read(table, 1_000_000, b"sonar:17").value

A call that is refused raises `Refused`, which has its outcome and status. A table is lent to one call at a time: calls on one
table from several threads are the caller's to keep apart.

The shared library is libcontacts.so of CONTACTS_LIB_DIR, of target/staticlib beside this folder (`make shared`), or the
system's.
"""
import ctypes
import ctypes.util
import os
import pathlib
from ctypes import POINTER, Structure, c_bool, c_int64, c_size_t, c_uint8, c_uint16, c_uint32, c_uint64
from enum import IntEnum
from typing import NamedTuple, Optional

VERSION = "4.10.0"

ROWS_MAX = 256
KEY_MAX = 250
VALUE_MAX = 1024
BODY_MAX = 1400
FRAME_HEADER = 24
FRAME_MAX = 1424
REPLY_ROOM = 1302
TRACE_MAX = 65536
REPLAY_ROWS = 32

class State(IntEnum):
    """A vbucket's state."""

    ACTIVE, REPLICA, PENDING, DEAD = 1, 2, 3, 4


class Mode(IntEnum):
    """How with-meta writes are compared."""

    REVISION, LAST_WRITE_WINS = 1, 2


class Outcome(IntEnum):
    """Why a call was refused."""

    SHORT, MAGIC, LENGTH, ROOM, DAMAGED = 1, 2, 3, 4, 5


class Status(IntEnum):
    """What a request is answered."""

    SUCCESS, NOT_FOUND, EXISTS, TOO_LARGE, INVALID, NOT_STORED, NOT_NUMERIC, NOT_MY_VBUCKET = range(8)
    UNKNOWN_COMMAND, OUT_OF_MEMORY, NOT_SUPPORTED, INTERNAL = range(0x81, 0x85)


class Opcode(IntEnum):
    """The commands. One with a Q is quiet."""

    GET, SET, ADD, REPLACE, DELETE, INCREMENT, DECREMENT = range(0x00, 0x07)
    GETQ, NOOP, VERSION, GETK, GETKQ, APPEND, PREPEND = range(0x09, 0x10)
    SETQ, ADDQ, REPLACEQ, DELETEQ, INCREMENTQ, DECREMENTQ = range(0x11, 0x17)
    APPENDQ, PREPENDQ = 0x19, 0x1A
    TOUCH, GET_AND_TOUCH = 0x1C, 0x1D
    SET_WITH_META, SETQ_WITH_META, ADD_WITH_META, ADDQ_WITH_META = range(0xA2, 0xA6)
    DELETE_WITH_META, DELETEQ_WITH_META = 0xA8, 0xA9
    GET_KEYS = 0xB8


class Refused(Exception):
    """A call that was refused: its outcome, 0 to 5, and the protocol's status, 0 where it has none."""

    OUTCOMES = {
        Outcome.SHORT: "the frame isn't all there",
        Outcome.MAGIC: "no request frame",
        Outcome.LENGTH: "the body is over 1,400 bytes",
        Outcome.ROOM: "too little room",
        Outcome.DAMAGED: "the table is damaged",
    }

    def __init__(self, outcome: int, status: int = 0, needed: int = 0):
        self.outcome, self.status, self.needed = outcome, status, needed
        words = self.OUTCOMES.get(outcome, f"status 0x{status:02x}")
        super().__init__(f"{words}, {needed} bytes are needed" if needed else words)


class Tally(Structure):
    """Counts of frames served: with status 0, with another, and without reply bytes, which are counted above too."""

    _fields_ = [("served", c_uint64), ("refused", c_uint64), ("silent", c_uint64)]


class Served(NamedTuple):
    """What became of a frame."""

    status: int
    used: int
    reply: bytes


class Ran(NamedTuple):
    """What became of a run: the bytes that its frames took, their replies, and the refusal that ended it."""

    used: int
    replies: bytes
    outcome: int
    needed: int


class Document(NamedTuple):
    """A live document. Seconds left are None where it never expires."""

    flags: int
    expiry: int
    revision: int
    cas: int
    left: Optional[int]
    value: bytes


class Expired(NamedTuple):
    """A document that is past: zero seconds left, or fewer."""

    left: int


class Request(NamedTuple):
    """A request that was read. Its value has the extended meta at its end, so many bytes."""

    opcode: int
    datatype: int
    vbucket: int
    opaque: int
    cas: int
    extras: bytes
    key: bytes
    value: bytes
    meta: int


class Replay(NamedTuple):
    """How a replay ended: "differs" or "stopped" at a place, or "replayed" with a number of frames."""

    end: str
    place: int
    frames: int


class _Part(Structure):
    _fields_ = [("at", c_size_t), ("len", c_size_t)]

    def of(self, data) -> bytes:
        return bytes(data[self.at : self.at + self.len])


class _ServedAnswer(Structure):
    _fields_ = [("outcome", c_uint8), ("status", c_uint8), ("used", c_size_t), ("reply", c_size_t), ("needed", c_size_t)]


class _RanAnswer(Structure):
    _fields_ = [("outcome", c_uint8), ("used", c_size_t), ("reply", c_size_t), ("needed", c_size_t)]


class _DocumentAnswer(Structure):
    _fields_ = [("outcome", c_uint8), ("status", c_uint8), ("lifetime", c_uint8), ("flags", c_uint32), ("expiry", c_uint32)]
    _fields_ += [("revision", c_uint64), ("cas", c_uint64), ("left", c_int64), ("value", _Part)]


class _PurgedAnswer(Structure):
    _fields_ = [("outcome", c_uint8), ("freed", c_size_t)]


class _ActivatedAnswer(Structure):
    _fields_ = [("outcome", c_uint8), ("status", c_uint8)]


class _RequestAnswer(Structure):
    _fields_ = [("outcome", c_uint8), ("status", c_uint8), ("opcode", c_uint8), ("datatype", c_uint8), ("vbucket", c_uint16)]
    _fields_ += [("opaque", c_uint32), ("cas", c_uint64), ("extras", _Part), ("key", _Part), ("value", _Part), ("meta", c_size_t)]


class _WrittenAnswer(Structure):
    _fields_ = [("outcome", c_uint8), ("status", c_uint8), ("len", c_size_t)]


class _ReplayedAnswer(Structure):
    _fields_ = [("outcome", c_uint8), ("end", c_uint8), ("place", c_size_t), ("frames", c_size_t)]


_BYTES = [POINTER(c_uint8), c_size_t]
_CALLS = {
    "contacts_version": (c_uint32, []),
    "contacts_size": (c_size_t, [c_size_t]),
    "contacts_make": (c_uint8, [*_BYTES, c_size_t, c_uint8, c_uint8, c_uint16]),
    "contacts_sound": (c_bool, [c_bool, *_BYTES]),
    "contacts_read": (_DocumentAnswer, [c_bool, *_BYTES, c_uint32, *_BYTES]),
    "contacts_purge": (_PurgedAnswer, [c_bool, *_BYTES, c_uint32, c_uint64]),
    "contacts_activate": (_ActivatedAnswer, [c_bool, *_BYTES]),
    "contacts_serve": (_ServedAnswer, [c_bool, *_BYTES, c_uint32, *_BYTES, *_BYTES, POINTER(Tally)]),
    "contacts_serve_run": (_RanAnswer, [c_bool, *_BYTES, c_uint32, *_BYTES, *_BYTES, POINTER(Tally)]),
    "contacts_read_request": (_RequestAnswer, [*_BYTES]),
    "contacts_write_request": (_WrittenAnswer, [c_uint8, c_uint8, c_uint16, c_uint32, c_uint64, *_BYTES, *_BYTES, *_BYTES, *_BYTES]),
    "contacts_replay": (_ReplayedAnswer, [c_bool, *_BYTES, *_BYTES]),
}


def _library():
    beside = pathlib.Path(__file__).resolve().parent.parent / "target/staticlib"
    folder = pathlib.Path(os.environ.get("CONTACTS_LIB_DIR", beside))
    path = folder / "libcontacts.so"
    found = str(path) if path.is_file() else ctypes.util.find_library("contacts")
    if found is None:
        raise OSError(f"there is no {path}: make it with `make shared`, or set CONTACTS_LIB_DIR to the folder that has it")
    library = ctypes.CDLL(found)
    for name, (answer, arguments) in _CALLS.items():
        call = getattr(library, name)
        call.restype, call.argtypes = answer, arguments
    return library


_lib = _library()


def _whole(name: str, number: int, bits: int) -> int:
    """A number that fits so many bits. ctypes would cut a longer one without a word."""
    if not 0 <= number < 1 << bits:
        raise ValueError(f"{name} is {number}, and it is 0 to 2^{bits} - 1")
    return number


_NOTHING = (c_uint8 * 1)()


def _lent(data):
    """Bytes that a call reads, and their number. A pointer that is lent isn't null, also to no bytes."""
    if not data:
        return ctypes.cast(_NOTHING, POINTER(c_uint8)), 0
    if isinstance(data, bytearray):
        return _lent_for_change(data)
    return ctypes.cast(bytes(data), POINTER(c_uint8)), len(data)


def _lent_for_change(data: bytearray):
    """The bytes of a bytearray themselves, and their number."""
    if not isinstance(data, bytearray):
        raise TypeError(f"memory that a call changes is a bytearray, not {type(data).__name__}")
    return ctypes.cast((c_uint8 * len(data)).from_buffer(data) if data else _NOTHING, POINTER(c_uint8)), len(data)


def version() -> str:
    """The version of the library that is linked. Where it isn't VERSION, calls may differ."""
    number = _lib.contacts_version()
    return f"{number // 10000}.{number // 100 % 100}.{number % 100}"


def size(rows: int) -> int:
    """The bytes that a table of 1 to 256 rows takes; 0 for other counts."""
    return _lib.contacts_size(_whole("rows", rows, 64))


def make(table: bytearray, rows: int, state: int, mode: int, vbucket: int) -> None:
    """Makes a fresh table for one vbucket. Refused, with the memory unchanged, where it isn't of the size of its rows."""
    rows, state, mode = _whole("rows", rows, 64), _whole("state", state, 8), _whole("mode", mode, 8)
    outcome = _lib.contacts_make(*_lent_for_change(table), rows, state, mode, _whole("vbucket", vbucket, 16))
    if outcome:
        raise Refused(outcome)


def sound(table, plain: bool = False) -> bool:
    """Whether the memory is a sound table."""
    return _lib.contacts_sound(plain, *_lent(table))


def read(table, clock: int, key: bytes, plain: bool = False):
    """A key's live `Document`, an `Expired` one, or None where there is none. Changes nothing."""
    answer = _lib.contacts_read(plain, *_lent(table), _whole("clock", clock, 32), *_lent(key))
    if answer.outcome:
        raise Refused(answer.outcome)
    if answer.status:
        return Expired(answer.left) if answer.lifetime == 2 else None
    left = answer.left if answer.lifetime == 2 else None
    return Document(answer.flags, answer.expiry, answer.revision, answer.cas, left, answer.value.of(table))


def purge(table: bytearray, clock: int, bound: int, plain: bool = False) -> int:
    """Frees tombstones and expired documents whose CAS is at or below the bound, and says how many."""
    clock, bound = _whole("clock", clock, 32), _whole("bound", bound, 64)
    answer = _lib.contacts_purge(plain, *_lent_for_change(table), clock, bound)
    if answer.outcome:
        raise Refused(answer.outcome)
    return answer.freed


def activate(table: bytearray, plain: bool = False) -> None:
    """Makes a replica or pending table active. A dead one is refused with status 0x07."""
    answer = _lib.contacts_activate(plain, *_lent_for_change(table))
    if answer.outcome or answer.status:
        raise Refused(answer.outcome, answer.status)


def serve(table: bytearray, clock: int, received: bytes, tally: Optional[Tally] = None, plain: bool = False) -> Served:
    """Serves the request at the start of the received bytes. Whatever its status, it is served."""
    reply = bytearray(REPLY_ROOM)
    tally = Tally() if tally is None else tally
    clock = _whole("clock", clock, 32)
    answer = _lib.contacts_serve(plain, *_lent_for_change(table), clock, *_lent(received), *_lent_for_change(reply), tally)
    if answer.outcome:
        raise Refused(answer.outcome, 0, answer.needed)
    return Served(answer.status, answer.used, bytes(reply[: answer.reply]))


def serve_run(
    table: bytearray, clock: int, received: bytes, tally: Optional[Tally] = None, room: int = 65536, plain: bool = False
) -> Ran:
    """Serves the received frames one after another until one is refused, with one test of the table. Room is for replies."""
    replies = bytearray(room)
    tally = Tally() if tally is None else tally
    clock = _whole("clock", clock, 32)
    answer = _lib.contacts_serve_run(plain, *_lent_for_change(table), clock, *_lent(received), *_lent_for_change(replies), tally)
    return Ran(answer.used, bytes(replies[: answer.reply]), answer.outcome, answer.needed)


def read_request(received: bytes) -> Request:
    """The request at the start of the received bytes."""
    a = _lib.contacts_read_request(*_lent(received))
    if a.outcome or a.status:
        raise Refused(a.outcome, a.status)
    parts = (part.of(received) for part in (a.extras, a.key, a.value))
    return Request(a.opcode, a.datatype, a.vbucket, a.opaque, a.cas, *parts, a.meta)


def write_request(
    opcode: int, extras: bytes = b"", key: bytes = b"", value: bytes = b"", vbucket: int = 0, opaque: int = 0, cas: int = 0, datatype: int = 0
) -> bytes:
    """A request's frame. What `read_request` would refuse is refused with status 0x04."""
    out = bytearray(FRAME_MAX)
    numbers = _whole("opcode", opcode, 8), _whole("datatype", datatype, 8), _whole("vbucket", vbucket, 16)
    numbers += _whole("opaque", opaque, 32), _whole("cas", cas, 64)
    answer = _lib.contacts_write_request(*numbers, *_lent(extras), *_lent(key), *_lent(value), *_lent_for_change(out))
    if answer.outcome or answer.status:
        raise Refused(answer.outcome, answer.status)
    return bytes(out[: answer.len])


def replay(trace: bytes, table: Optional[bytearray] = None, plain: bool = False) -> Replay:
    """Replays a trace on a fresh table of 32 rows, in this memory where it is given, so that it can be looked at."""
    table = bytearray(size(REPLAY_ROWS)) if table is None else table
    answer = _lib.contacts_replay(plain, *_lent_for_change(table), *_lent(trace))
    if answer.outcome:
        raise Refused(answer.outcome)
    ends = {1: "differs", 2: "stopped", 3: "replayed"}
    return Replay(ends[answer.end], answer.place, answer.frames)
