"""The SSD1815B model from Python: a thin module over its shared object.

    chip = Chip()            a chip of a new cabinet, which hangs the module upside down
    Chip(upright=True)       a chip of an old cabinet, as at power-on
    chip.command(0xAF)       the four events: command, write, read, reset
    chip.run(trace)          recorded bus traffic, in document 01's form
    chip.draw()              the frame on the glass
    listing(frame)           a frame as document 01's text
    compare_frames(a, b)     where two frames differ, run by run
    compare_memories(a, b)   where two memories differ, byte by byte

    wide = WideTerminal()                     two chips side by side, wide.left and wide.right
    wide.command(Selection.LEFT, 0xAF)        an event for the left chip, the right one or both
    wide.run(trace)                           a trace with select records; each run starts with both
    wide_listing(wide.draw().frame)           a frame of 264 places to a row as text

Each call answers what host/ssd1815b.h says, with its numbers.  A refusal is an
answer, not an exception; an exception says that the module was misused (a byte
that is none, a frame of another length) or that there is no library.

The library is looked for, in this order: what SSD1815B_LIBRARY names, which is
then the only place; libssd1815b.so beside this file; the repository's own
(`make shared`); the system's (`make install`).

Up to version 4.2 Chip() and chip.start() began upright, at power-on; what was
recorded in an old cabinet now wants Chip(upright=True) or chip.start_upright().

No two threads are in the library at once: a call holds Python's lock.
"""

from __future__ import annotations

import ctypes
import enum
import functools
import os
import pathlib
import struct
import warnings
from collections.abc import Iterator
from typing import Any, NamedTuple, Union

COLUMNS = 132
ROWS = 64
FRAME_ROWS = 65  # the panel rows and the icon line
PAGES = 9
ICON_PAGE = 8
ICON_ROW = 64

STATE_SIZE = 23
MEMORY_SIZE = 1188
FRAME_SIZE = 8580
TEXT_SIZE = 27408

WIDE_COLUMNS = 264  # the left chip's, then the right chip's
WIDE_FRAME_SIZE = 17160
WIDE_TEXT_SIZE = 61728

FRAME_ENTRY_SIZE = 5
MEMORY_ENTRY_SIZE = 4
FRAME_LIST_SIZE = 42900
MEMORY_LIST_SIZE = 4752

Bytes = Union[bytes, bytearray, memoryview]


class Number(enum.IntEnum):
    """The numbers given: taken, or why not (host/ssd1815b.h, "Numbers given")."""

    TAKEN = 0
    TOO_SHORT = 1
    OUT_OF_RANGE = 2
    OUTSIDE_TABLE = 3
    NO_PAGE = 4
    NOT_ALLOWED = 5
    CODE_AWAITED = 6
    COLUMN_ABOVE = 7
    HEADER_CUT = 8
    KIND_UNKNOWN = 9
    READ_DIFFERS = 10
    LIST_TOO_SMALL = 11
    FRAME_BYTE_ABOVE = 12
    NO_SELECTION = 13
    BOTH_SELECTED = 14
    TEST_MODE = 15


class Register(enum.IntEnum):
    """The place of each register in the state image: chip.state[Register.PAGE]."""

    PAGE = 0
    COLUMN = 1
    START_LINE = 2
    OFFSET = 3
    MULTIPLEX = 4
    CONTRAST = 5
    RESISTOR_RATIO = 6
    POWER_CONTROL = 7
    BIAS = 8
    QUARTER_BIAS = 9
    BYTE_OF_A9 = 10
    FRAME_PHASES = 11
    COLUMN_DIRECTION = 12
    ROW_DIRECTION = 13
    ENTIRE_ON = 14
    REVERSE = 15
    DISPLAY_ON = 16
    INDICATOR_ON = 17
    INDICATOR_MODE = 18
    AWAITED_CODE = 19
    READ_MODIFY_WRITE = 20
    SAVED_COLUMN = 21
    FRESH = 22


class Power(enum.IntEnum):
    """What display off with entire on makes of the chip."""

    AWAKE = 0
    SLEEP = 1
    STANDBY = 2


class Kind(enum.IntEnum):
    """The kinds of a trace's records."""

    COMMANDS = 1
    WRITTEN = 2
    READ = 3
    RESET_PIN = 4
    SELECT = 5  # of a wide trace alone


class Selection(enum.IntEnum):
    """Which chips of a wide terminal an event is for."""

    LEFT = 1
    RIGHT = 2
    BOTH = 3


class Read(NamedTuple):
    """A read's answer: byte and dummy are 0 and False where it is refused."""

    number: Number
    byte: int
    dummy: bool


class Run(NamedTuple):
    """A run's answer: where it stopped, and how many whole records were done."""

    number: Number
    offset: int
    records: int


class Drawn(NamedTuple):
    """A drawing's answer: row r, place x at 132r + x, of a wide terminal at 264r + x; no bytes where it is refused."""

    number: Number
    frame: bytes


class Powered(NamedTuple):
    """The power state's answer: awake where it is refused."""

    number: Number
    power: Power


class Page(NamedTuple):
    """The answer for a page: its 132 bytes as a part of the chip's own memory, which shows what is there when it is
    looked at; no bytes where it is refused."""

    number: Number
    part: memoryview


class Record(NamedTuple):
    """A whole record of a trace: where it begins, its kind (any number) and payload."""

    at: int
    kind: int
    payload: bytes


class DifferingRun(NamedTuple):
    """Places of a row, from the first to the last, that differ in the same way: 0 dark, 1 lit, in the first frame
    (was) and in the second (is_)."""

    row: int
    first: int
    last: int
    was: int
    is_: int


class Differing(NamedTuple):
    """The answer of comparing frames: no runs where they are equal, or where it is refused."""

    number: Number
    runs: list[DifferingRun]


class DifferingByte(NamedTuple):
    """A byte that differs: its place in the memory, its content in the first (was) and in the second (is_); of page 8
    bit 0 alone."""

    place: int
    was: int
    is_: int


class LibraryNotFound(OSError):
    """There is no library, or it cannot be loaded or is too old."""


# ---- the library ----

NAME = "libssd1815b.so"
SYSTEM_NAME = "libssd1815b.so.4"  # of this version
BYTE = ctypes.c_uint8
SIZE = ctypes.c_size_t
BYTES = ctypes.POINTER(BYTE)
CONST = ctypes.c_char_p
_CHIP = (BYTES, SIZE, BYTES, SIZE)
_CHIPS = (*_CHIP, *_CHIP)
_PAIR = (CONST, SIZE, CONST, SIZE, BYTES, SIZE, ctypes.POINTER(SIZE))

_CALLS = {
    "ssd1815b_start": _CHIP,
    "ssd1815b_start_upright": _CHIP,
    "ssd1815b_command": (*_CHIP, BYTE),
    "ssd1815b_write": (*_CHIP, BYTE),
    "ssd1815b_read": (*_CHIP, BYTES, BYTES),
    "ssd1815b_reset": _CHIP,
    "ssd1815b_run": (*_CHIP, CONST, SIZE, ctypes.POINTER(SIZE), ctypes.POINTER(SIZE)),
    "ssd1815b_draw": (*_CHIP, BYTES, SIZE),
    "ssd1815b_list": (BYTE, SIZE, CONST, SIZE, BYTES, SIZE, ctypes.POINTER(SIZE)),
    "ssd1815b_power_state": (BYTES, SIZE, BYTES),
    "ssd1815b_record": (CONST, SIZE, SIZE, ctypes.POINTER(SIZE), ctypes.POINTER(SIZE)),
    "ssd1815b_compare_frames": _PAIR,
    "ssd1815b_compare_memories": _PAIR,
    "ssd1815b_wide_command": (*_CHIPS, BYTE, BYTE),
    "ssd1815b_wide_write": (*_CHIPS, BYTE, BYTE),
    "ssd1815b_wide_read": (*_CHIPS, BYTE, BYTES, BYTES),
    "ssd1815b_wide_reset": (*_CHIPS, BYTE),
    "ssd1815b_wide_run": (*_CHIPS, CONST, SIZE, ctypes.POINTER(SIZE), ctypes.POINTER(SIZE)),
    "ssd1815b_wide_draw": (*_CHIPS, BYTES, SIZE),
    "ssd1815b_wide_page": (*_CHIP, BYTE, BYTE, ctypes.POINTER(SIZE), ctypes.POINTER(SIZE)),
    "ssd1815b_wide_list": (BYTE, SIZE, CONST, SIZE, BYTES, SIZE, ctypes.POINTER(SIZE)),
}


def library_path() -> str:
    """The library that is used: a path, or a name that the system finds."""
    named = os.environ.get("SSD1815B_LIBRARY")
    if named:
        return named
    here = pathlib.Path(__file__).resolve().parent
    built = here.parent / "target" / "c"
    for path in (here / NAME, built / "proved" / NAME):
        if path.exists():
            return str(path)
    if (built / "plain" / NAME).exists():
        warnings.warn("ssd1815b: plain C, which is not proved, as the proved library is not built (`make shared`)",
                      stacklevel=2)
        return str(built / "plain" / NAME)
    return SYSTEM_NAME


@functools.lru_cache(maxsize=None)
def _library() -> ctypes.PyDLL:
    """The library, loaded when it is first called."""
    path = library_path()
    try:
        loaded = ctypes.PyDLL(path)
    except OSError as failure:
        if path == SYSTEM_NAME:
            raise LibraryNotFound(f"no {NAME}: `make shared` builds it, or SSD1815B_LIBRARY says where it is") from None
        raise LibraryNotFound(f"{path} cannot be loaded: {failure}") from failure
    for name, parameters in _CALLS.items():
        call = getattr(loaded, name, None)
        if call is None:
            raise LibraryNotFound(f"{path} has no {name}: it is older than this module")
        call.argtypes = parameters
        call.restype = BYTE
    return loaded


def _call(name: str, *arguments: Any) -> Number:
    """A call of the library."""
    return Number(getattr(_library(), name)(*arguments))


def _number(value: int, what: str) -> int:
    """A number; says so where it is none, and neither True nor False is one."""
    if isinstance(value, bool) or not isinstance(value, int):
        raise TypeError(f"{what} is a number, not {type(value).__name__}")
    return value


def _byte(value: int) -> int:
    """A byte; says so where it is none."""
    if not 0 <= _number(value, "a byte") <= 0xFF:
        raise ValueError(f"a byte is 0 to 255, not {value}")
    return value


def _bytes(value: Bytes, what: str, length: int | None = None) -> bytes:
    """Bytes, of that length if one is asked for; says so where they are not."""
    if not isinstance(value, (bytes, bytearray, memoryview)):
        raise TypeError(f"{what}: bytes are wanted, not {type(value).__name__}")
    taken = bytes(value)
    if length is not None and len(taken) != length:
        raise ValueError(f"{what} has {length} bytes, not {len(taken)}")
    return taken


# ---- what one chip and two chips answer alike ----


def _read(name: str, *arguments: Any) -> Read:
    """A call that reads."""
    byte, dummy = BYTE(), BYTE()
    number = _call(name, *arguments, ctypes.byref(byte), ctypes.byref(dummy))
    return Read(number, byte.value, dummy.value == 1)


def _run(name: str, lent: tuple[Any, ...], trace: Bytes) -> Run:
    """A call that runs a trace."""
    content = _bytes(trace, "a trace")
    offset, count = SIZE(), SIZE()
    number = _call(name, *lent, content, len(content), ctypes.byref(offset), ctypes.byref(count))
    return Run(number, offset.value, count.value)


def _draw(name: str, lent: tuple[Any, ...], size: int) -> Drawn:
    """A call that draws."""
    frame = (BYTE * size)()
    number = _call(name, *lent, frame, size)
    return Drawn(number, bytes(frame) if number == Number.TAKEN else b"")


def _list(name: str, frame: bytes, text_size: int, number: int, offset: int) -> str:
    """A call that lists, with a text that is always enough."""
    if _number(offset, "an offset") < 0:
        raise ValueError(f"an offset is 0 or more, not {offset}")
    text, length = (BYTE * text_size)(), SIZE()
    _call(name, _byte(number), offset, frame, len(frame), text, text_size, ctypes.byref(length))
    return bytes(text[:length.value]).decode("ascii")


# ---- the model ----


class Chip:
    """A chip: its registers and its display memory."""

    def __init__(self, *, upright: bool = False) -> None:
        """A chip with zero memory: as start() has it or, if upright, as start_upright() does."""
        self._state = (BYTE * STATE_SIZE)()
        self._memory = (BYTE * MEMORY_SIZE)()
        if upright:
            self.start_upright()
        else:
            self.start()

    @property
    def _lent(self) -> tuple[Any, int, Any, int]:
        """State and memory as a call is lent them."""
        return self._state, STATE_SIZE, self._memory, MEMORY_SIZE

    @property
    def state(self) -> bytes:
        """The registers as an image of 23 bytes; any 23 bytes may be put in its place."""
        return bytes(self._state)

    @state.setter
    def state(self, image: Bytes) -> None:
        self._state[:] = list(_bytes(image, "a state image", STATE_SIZE))

    @property
    def memory(self) -> bytes:
        """The display memory, 1,188 bytes: page p, column c at 132p + c; it may be replaced."""
        return bytes(self._memory)

    @memory.setter
    def memory(self, content: Bytes) -> None:
        self._memory[:] = list(_bytes(content, "a memory", MEMORY_SIZE))

    def start(self) -> Number:
        """A new cabinet, the module upside down: column and row direction 1, all else as at power-on, zero memory."""
        return _call("ssd1815b_start", *self._lent)

    def start_upright(self) -> Number:
        """An old cabinet, the module upright: the power-on image and zero memory."""
        return _call("ssd1815b_start_upright", *self._lent)

    def command(self, byte: int) -> Number:
        """A command byte: 0, or 2 to 5 or 15 and nothing is changed."""
        return _call("ssd1815b_command", *self._lent, _byte(byte))

    def write(self, byte: int) -> Number:
        """A data byte written: 0, or 2, 6 or 7 and nothing is changed."""
        return _call("ssd1815b_write", *self._lent, _byte(byte))

    def read(self) -> Read:
        """A data byte read, or the dummy read; or 2, 6 or 7 and nothing is changed."""
        return _read("ssd1815b_read", *self._lent)

    def reset(self) -> Number:
        """A pulse on the reset pin: the power-on image, upright, whatever the start was; memory stays."""
        return _call("ssd1815b_reset", *self._lent)

    def run(self, trace: Bytes) -> Run:
        """Runs a trace up to its end or its first refusal; what came before stands."""
        return _run("ssd1815b_run", self._lent, trace)

    def draw(self) -> Drawn:
        """The frame that the panel shows: 0 dark, 1 lit, the icon line as row 64; or 2.

        M rows in use lie in the middle, from row (64 - M) // 2 on, moved up by the offset, round the 64.
        """
        return _draw("ssd1815b_draw", self._lent, FRAME_SIZE)

    def power_state(self) -> Powered:
        """Awake, asleep or in standby; or 2."""
        power = BYTE()
        number = _call("ssd1815b_power_state", self._state, STATE_SIZE, ctypes.byref(power))
        return Powered(number, Power(power.value))


class WideTerminal:
    """A wide terminal: two chips side by side on one bus, 264 dots wide.

    Each event is given the Selection that it is for; a byte that is none of the three is refused, 13.  If a selected
    chip refuses, neither changes, and the number is the left's where both do.  2 is asked of both chips, whichever are
    selected, but not by reset().  The terminal does not keep the selection.
    """

    def __init__(self, *, upright: bool = False) -> None:
        """Two chips with zero memory: as start() has them or, if upright, as start_upright() does."""
        self._left = Chip(upright=upright)
        self._right = Chip(upright=upright)

    @property
    def left(self) -> Chip:
        """The left chip, to look at or to set; its own calls do nothing to the other."""
        return self._left

    @property
    def right(self) -> Chip:
        """The right chip."""
        return self._right

    @property
    def _lent(self) -> tuple[Any, ...]:
        """What both chips have, as a call is lent it."""
        return *self._left._lent, *self._right._lent

    def start(self) -> Number:
        """A new cabinet: Chip.start() of each."""
        self._left.start()
        return self._right.start()

    def start_upright(self) -> Number:
        """An old cabinet: Chip.start_upright() of each."""
        self._left.start_upright()
        return self._right.start_upright()

    def command(self, selection: int, byte: int) -> Number:
        """A command byte for each selected chip: 0, or 2, 13, 3 to 5 or 15 and nothing is changed."""
        return _call("ssd1815b_wide_command", *self._lent, _byte(selection), _byte(byte))

    def write(self, selection: int, byte: int) -> Number:
        """A data byte written to each selected chip: 0, or 2, 13, 6 or 7 and nothing is changed."""
        return _call("ssd1815b_wide_write", *self._lent, _byte(selection), _byte(byte))

    def read(self, selection: int) -> Read:
        """A data byte read from the one selected chip, or its dummy read; with both selected 14; or 2, 13, 6 or 7."""
        return _read("ssd1815b_wide_read", *self._lent, _byte(selection))

    def reset(self, selection: int) -> Number:
        """A pulse on the reset pin of each selected chip: 0, or 13 and nothing is changed."""
        return _call("ssd1815b_wide_reset", *self._lent, _byte(selection))

    def run(self, trace: Bytes) -> Run:
        """Runs a wide trace: Kind.SELECT with a payload of 1, 2 or 3 selects, any other payload is 13; each run starts
        with both, and a read with both is 14."""
        return _run("ssd1815b_wide_run", self._lent, trace)

    def draw(self) -> Drawn:
        """The frame of both: places 0 to 131 of each row are the left chip's, 132 to 263 the right chip's; or 2."""
        return _draw("ssd1815b_wide_draw", self._lent, WIDE_FRAME_SIZE)

    def page(self, side: int, page: int) -> Page:
        """A page of the left memory or the right, nothing copied; or 13, neither left nor right, or 4, above 8."""
        place, length = SIZE(), SIZE()
        left, right = self._left._memory, self._right._memory
        number = _call("ssd1815b_wide_page", left, MEMORY_SIZE, right, MEMORY_SIZE, _byte(side), _byte(page),
                       ctypes.byref(place), ctypes.byref(length))
        memory = memoryview(left if side == Selection.LEFT else right).cast("B").toreadonly()
        return Page(number, memory[place.value:place.value + length.value])


def listing(frame: Bytes, number: int = Number.TAKEN, offset: int = 0) -> str:
    """A frame as text; with a run's number and offset, its line `refused` first."""
    return _list("ssd1815b_list", _bytes(frame, "a frame", FRAME_SIZE), TEXT_SIZE, number, offset)


def wide_listing(frame: Bytes, number: int = Number.TAKEN, offset: int = 0) -> str:
    """A wide frame as text, 264 places to a row; with a run's number and offset, its line `refused` first."""
    return _list("ssd1815b_wide_list", _bytes(frame, "a wide frame", WIDE_FRAME_SIZE), WIDE_TEXT_SIZE, number, offset)


def _compared(name: str, first: bytes, second: bytes, longest: int, entry: str) -> tuple[Number, list[tuple[Any, ...]]]:
    """A call on two to compare, with a list that is always enough: its number, and the entries of the list."""
    entries, count = (BYTE * longest)(), SIZE()
    number = _call(name, first, len(first), second, len(second), entries, longest, ctypes.byref(count))
    listed = bytes(entries)[:count.value * struct.calcsize(entry)]
    return number, list(struct.iter_unpack(entry, listed))


def compare_frames(first: Bytes, second: Bytes) -> Differing:
    """Where two frames differ, row by row and left to right; or 12, a byte of a frame is above 1."""
    pair = _bytes(first, "a frame", FRAME_SIZE), _bytes(second, "a frame", FRAME_SIZE)
    number, runs = _compared("ssd1815b_compare_frames", *pair, FRAME_LIST_SIZE, "5B")
    return Differing(number, [DifferingRun(*run) for run in runs])


def compare_memories(first: Bytes, second: Bytes) -> list[DifferingByte]:
    """Where two memories differ, in rising order, page 8 by bit 0."""
    pair = _bytes(first, "a memory", MEMORY_SIZE), _bytes(second, "a memory", MEMORY_SIZE)
    _, places = _compared("ssd1815b_compare_memories", *pair, MEMORY_LIST_SIZE, "<HBB")
    return [DifferingByte(*place) for place in places]


def records(trace: Bytes) -> Iterator[Record]:
    """The whole records of a trace, by their lengths alone; the rest of a cut trace is left out."""
    content = _bytes(trace, "a trace")
    at, kind, after = 0, SIZE(), SIZE()
    while True:
        number = _call("ssd1815b_record", content, len(content), at, ctypes.byref(kind), ctypes.byref(after))
        if number != Number.TAKEN or after.value == at:
            return
        yield Record(at, kind.value, content[at + 4:after.value])
        at = after.value


def record(kind: int, payload: Bytes = b"") -> bytes:
    """The bytes of a record, to make a trace of: length, kind, payload."""
    content = _bytes(payload, "a payload")
    if len(content) > 0xFFFF:
        raise ValueError(f"a payload has at most 65,535 bytes, not {len(content)}")
    if not 0 <= _number(kind, "a kind") <= 0xFFFF:
        raise ValueError(f"a kind is 0 to 65,535, not {kind}")
    return len(content).to_bytes(2, "little") + kind.to_bytes(2, "little") + content
