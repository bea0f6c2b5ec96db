"""Blocks of 32-bit words rearranged within their buffer: the proved calls, over ctypes and the standard library alone.

A buffer is anything that lends its memory, writable and in one piece: array.array("I"), a numpy array of uint32, a memoryview of either. Words
are unsigned and 32 bits wide, readings signed and 64 bits wide ("q", int64), both in the machine's own order; text is bytes or a bytearray. Nothing that
is written to is copied. Shapes, chains and texts that are only read may be any sequence of numbers, or bytes.

A 2-D numpy array keeps its old shape: reshape it after a turn. Release 1 of an order number is numpy.transpose, release 2 is numpy.moveaxis.

A refused call raises Refused, with the number, the place, the name in C and a sentence, and has changed nothing. What the proof assumes and
Python does not guarantee is tested before each call: items of the right kind, memory in one piece and aligned, and buffers apart from one
another (TypeError, ValueError). That nobody else writes to them meanwhile is left to the caller.

The library is the shared one that install.sh made: the one named by ZIBSNARDA_LIBRARY, else the one beside this module, under one of the folders
above it or under Python's own prefix, else the one that the system's loader finds.

>>> from array import array
>>> block = array("I", range(6))
>>> turn(block, array("I", [0] * 3), 2, 3)
>>> list(block)
[0, 3, 1, 4, 2, 5]
"""

from __future__ import annotations

import ctypes
import itertools
import operator
import os
import pathlib
import sys
from ctypes import POINTER, Structure, c_int64, c_size_t, c_uint8, c_uint32, c_void_p
from typing import Any, NamedTuple, Sequence

__version__ = "3.0"

__all__ = [
    "NUMBERS",
    "Refused",
    "Answer",
    "LineRecord",
    "Measured",
    "ResultSheet",
    "Sheet",
    "JobAnswer",
    "turn",
    "turn_back",
    "turn_passes",
    "turn_back_passes",
    "turn_halves",
    "lines",
    "tick",
    "resume",
    "repeats",
    "remove_camera",
    "add_camera",
    "judge_cycles",
    "run_cycles",
    "to_tiles",
    "from_tiles",
    "chain",
    "chain5",
    "request",
    "request5",
    "plan",
    "plan5",
    "read_sheet",
    "write_result",
    "write_release",
    "read_result",
    "job",
    "offset_delay",
    "to_frames",
    "join",
    "choose",
    "order_number",
    "order_axes",
]

# Each number with its name in C and the sentence that says when it is given.
# The numbers: written by share/numbers.
NUMBERS = {
    1: ("ZIB_BAD_LENGTH", "an axis length is 0 or above 4,096; the camera count afterwards too; in joining the camera count or F"),
    2: ("ZIB_TOO_MANY_WORDS", "the lengths multiply to more than 1,048,576"),
    3: ("ZIB_SHORT_BUFFER", "the buffer has fewer words than the block"),
    4: ("ZIB_SHORT_SCRATCH", "scratch has fewer words than the call needs: a flat turn the longer side, a chain the longest axis that it exchanges, a request what its plan needs, tiles of r rows r times n words"),
    5: ("ZIB_LONG_CHAIN", "the chain has more than 32 swaps"),
    6: ("ZIB_BAD_SWAP", "a swap number is above 2, on five axes above 3; place is the first such, from 0"),
    7: ("ZIB_BAD_ORDER", "the order number is above 23, of five axes above 119"),
    9: ("ZIB_LONG_SHEET", "a sheet has more than 16,384 bytes"),
    10: ("ZIB_BAD_LINE", "a sheet line is malformed, missing or left over; place is its line number, from 1"),
    11: ("ZIB_LARGE_SHEET", "a sheet's lengths multiply to more than 1,024"),
    12: ("ZIB_PAST_LINES", "the lines done are more than the turn has"),
    13: ("ZIB_LONG_BUFFER", "the buffer has more words than the block (turns, chains, requests, tiles, running cycles; not cameras, sheets)"),
    14: ("ZIB_BAD_RELEASE", "the release of an order number is neither 1 nor 2"),
    15: ("ZIB_BAD_TILE", "a tile side is 0 or above 64"),
    16: ("ZIB_BAD_COLUMN", "a column number is above the last camera (removing) or above the camera count (adding)"),
    17: ("ZIB_NO_ROOM", "the buffer lacks room for the block with one camera more"),
    18: ("ZIB_FAR_NUMBER", "a reading is beyond 2 to the 60th either side of zero; an offset (to frames) or a shift (joining) beyond 2 to the 61st"),
    19: ("ZIB_NOTHING_USABLE", "no usable exchange exists: both runs are empty, or every delay is negative"),
    20: ("ZIB_NONE_COMMON", "no frame is common to all cameras"),
    21: ("ZIB_BAD_TICKS", "ticks per frame are outside 1 to 1,000,000"),
    22: ("ZIB_OTHER_CYCLES", "the list of cycles is not the right one; place is that of the first pair that differs, from 0, a missing, half or surplus pair counted by its place"),
    23: ("ZIB_PAST_STAGES", "the progress word is above twice the line count plus one"),
    24: ("ZIB_SHORT_BYTES", "the byte buffer is shorter than the result sheet"),
    25: ("ZIB_OTHER_COLUMN", "the column's length isn't the frame count"),
    26: ("ZIB_BAD_RUN", "a run isn't four readings (offset and delay); a run's length isn't a multiple of four (choosing)"),
}
# The end of the numbers.


class Refused(Exception):
    """Why a call was refused: `number` and `place`, the number's `name` in C, and when it is given, a `sentence`."""

    def __init__(self, number: int, place: int = 0) -> None:
        self.number, self.place = number, place
        self.name, self.sentence = NUMBERS.get(number, ("unknown", "a number of a later version"))
        super().__init__(number, place)

    def __str__(self) -> str:
        return f"{self.sentence} (number {self.number}, place {self.place})"


class Answer(NamedTuple):
    """What a chain or a request answers: the new lengths, the number of the order, how many swaps were done."""

    lengths: list[int]
    order: int
    swaps: int


class Sheet(NamedTuple):
    """What a sheet holds besides its words: its lengths and its chain."""

    lengths: list[int]
    swaps: list[int]


class ResultSheet(NamedTuple):
    """What a result sheet holds besides its words; the release is 0 where the sheet names none."""

    lengths: list[int]
    release: int
    order: int


class JobAnswer(NamedTuple):
    """What the whole job answers: how many bytes its text has, and the refusal that it tells, or None."""

    count: int
    refused: Refused | None


class Measured(NamedTuple):
    """The offset and the delay of an exchange, in ticks."""

    offset: int
    delay: int


class LineRecord(Structure):
    """How far a turn by lines has come: `done`. Make one at 0 and lend it to each tick, which advances it.

    >>> LineRecord()
    LineRecord(done=0)
    """

    _fields_ = [("done", c_size_t)]

    def __repr__(self) -> str:
        return f"LineRecord(done={self.done})"


def _struct(name: str, **fields: Any) -> Any:
    return type(name, (Structure,), {"_fields_": list(fields.items())})


_Shape = _struct("Shape", lengths=c_size_t * 5)
_SheetShape = _struct("SheetShape", lengths=c_size_t * 4)
_Count = _struct("Count", number=c_uint32, count=c_size_t)
_Judged = _struct("Judged", number=c_uint32, place=c_size_t)
_Answer = _struct("Answer", number=c_uint32, place=c_size_t, lengths=c_size_t * 5, order=c_size_t, swaps=c_size_t)
_Planned = _struct("Planned", number=c_uint32, swaps=c_size_t * 10, count=c_size_t)
_Sheet = _struct("Sheet", number=c_uint32, place=c_size_t, lengths=c_size_t * 4, swaps=c_size_t * 32, count=c_size_t)
_ResultSheet = _struct("ResultSheet", number=c_uint32, place=c_size_t, lengths=c_size_t * 4, release=c_size_t, order=c_size_t)
_JobAnswer = _struct("JobAnswer", number=c_uint32, place=c_size_t, count=c_size_t)
_Pair = _struct("Pair", number=c_uint32, first=c_int64, second=c_int64)
_Frames = _struct("Frames", number=c_uint32, frames=c_int64)
_Part = _struct("Part", readings=POINTER(c_int64), count=c_size_t)

_slice = [c_void_p, c_size_t]  # a lent slice: where it begins, and how many items it has
_flat = [*_slice, *_slice, c_size_t, c_size_t]  # buffer, scratch, m, n

# Of each call what it answers and what it takes.
_CALLS: dict[str, tuple[Any, list[Any]]] = {
    "turn": (c_uint32, _flat),
    "turn_back": (c_uint32, _flat),
    "turn_passes": (c_uint32, _flat),
    "turn_back_passes": (c_uint32, _flat),
    "turn_halves": (c_uint32, [*_slice, c_size_t, c_size_t]),
    "lines": (_Count, [c_size_t, c_size_t]),
    "tick": (c_uint32, [*_slice, *_slice, POINTER(LineRecord), c_size_t, c_size_t]),
    "resume": (c_uint32, [*_slice, *_slice, c_void_p, c_size_t, c_size_t, c_size_t]),
    "repeats": (_Count, [c_size_t, c_size_t]),
    "remove_camera": (c_uint32, [*_slice, c_size_t, c_size_t, c_size_t]),
    "add_camera": (c_uint32, [*_slice, c_size_t, c_size_t, c_size_t, *_slice]),
    "judge_cycles": (_Judged, [*_slice, c_size_t, c_size_t]),
    "run_cycles": (_Judged, _flat),
    "to_tiles": (c_uint32, [*_flat, c_size_t, c_size_t]),
    "from_tiles": (c_uint32, [*_flat, c_size_t, c_size_t]),
    "chain": (_Answer, [*_slice, *_slice, _Shape, *_slice]),
    "chain5": (_Answer, [*_slice, *_slice, _Shape, *_slice]),
    "request": (_Answer, [*_slice, *_slice, _Shape, c_size_t, c_size_t]),
    "request5": (_Answer, [*_slice, *_slice, _Shape, c_size_t, c_size_t]),
    "plan": (_Planned, [c_size_t]),
    "plan5": (_Planned, [c_size_t]),
    "read_sheet": (_Sheet, [*_slice, *_slice]),
    "write_result": (_Count, [_SheetShape, c_size_t, *_slice, *_slice]),
    "write_release": (_Count, [_SheetShape, c_size_t, c_size_t, *_slice, *_slice]),
    "read_result": (_ResultSheet, [*_slice, *_slice]),
    "job": (_JobAnswer, [*_slice, c_void_p, c_void_p, c_void_p]),
    "offset_delay": (_Pair, _slice),
    "to_frames": (_Frames, [c_int64, c_size_t]),
    "join": (_Pair, [*_slice, c_size_t]),
    "choose": (None, [*_slice, *_slice, POINTER(_Part)]),
    "choose_number": (c_uint32, [*_slice, *_slice]),
}


def _loaded() -> ctypes.CDLL:
    """The shared library, with what each call takes and answers."""
    name = "libzibsnarda.so.3"
    here = pathlib.Path(__file__).resolve().parent
    near = [here / name, *(above / "lib" / name for above in [*here.parents, pathlib.Path(sys.prefix), pathlib.Path("/usr/local")])]
    named = os.environ.get("ZIBSNARDA_LIBRARY") or next((str(path) for path in near if path.is_file()), name)
    try:
        library = ctypes.CDLL(named)
    except OSError as error:
        raise ImportError(f"{error}: install it with ./install.sh PREFIX, and put this module under the same prefix or name it in ZIBSNARDA_LIBRARY") from error
    if not hasattr(library, "zib_version_" + __version__.replace(".", "_")):
        raise ImportError(f"{named} is of another version than this module, {__version__}")
    for call, (answers, takes) in _CALLS.items():
        function = getattr(library, "zib_" + call)
        function.restype, function.argtypes = answers, takes
    return library


_library = _loaded()


def _call(name: str, *arguments: Any) -> Any:
    return getattr(_library, "zib_" + name)(*arguments)


# The formats in which memory may come: integers of the right width and sign in the machine's own order. Words that were recorded in network order are
# refused although a turn would only move them, for a later call reads them.
_FORMATS = {
    c_uint32: ("IL", "unsigned 32-bit integers in the machine's order, as array('I') or numpy.uint32"),
    c_int64: ("qln", "signed 64-bit integers in the machine's order, as array('q') or numpy.int64"),
    c_uint8: ("Bc", "bytes"),
    c_size_t: ("QLN", "unsigned 64-bit integers in the machine's order"),
}
_NATIVE = "@=" + ("<" if sys.byteorder == "little" else ">")


def _tested(view: memoryview, kind: Any) -> None:
    """That memory comes in the right format."""
    size = ctypes.sizeof(kind)
    letters, wanted = _FORMATS[kind]
    letter = view.format.lstrip(_NATIVE) if len(view.format) <= 2 else view.format
    if view.itemsize != size or letter not in tuple(letters):
        raise TypeError(f"wanted {wanted}; got items of {view.itemsize} bytes in format {view.format!r}")
    if not view.c_contiguous:
        raise TypeError("the buffer must lie in one piece")


def _lent(items: Any, kind: Any, fixed: int | None = None) -> Any:
    """A buffer as ctypes takes it, without a copy; of what cannot be written to, such as a list or bytes, a copy that is only read."""
    size = ctypes.sizeof(kind)
    if isinstance(items, str):
        raise TypeError("wanted bytes; got str")
    try:
        view = memoryview(items)
    except TypeError:
        lent = (kind * max(len(items), 1))(*items)
        if any(kept != item for kept, item in zip(lent, items)):
            raise ValueError(f"a number does not fit into {size} bytes") from None
        return lent, len(items)
    _tested(view, kind)
    if fixed is not None and view.nbytes != fixed * size:
        raise ValueError(f"the buffer must have {fixed} items")
    count = view.nbytes // size
    if count == 0:
        return (kind * 1)(), 0
    lent = (kind * count).from_buffer_copy(items) if view.readonly else (kind * count).from_buffer(items)
    if ctypes.addressof(lent) % size:
        raise ValueError(f"the buffer must begin at a multiple of {size} bytes")
    return lent, count


def _written(items: Any, kind: Any, fixed: int | None = None) -> Any:
    """A buffer that the call writes to."""
    try:
        readonly = memoryview(items).readonly
    except TypeError:
        raise TypeError(f"wanted a buffer that can be written to: {_FORMATS[kind][1]}; got {type(items).__name__}") from None
    if readonly:
        raise TypeError("the buffer must be writable")
    return _lent(items, kind, fixed)


def _apart(*buffers: Any) -> list[Any]:
    """The pointers and counts of buffers, which must not overlap."""
    spans = sorted((ctypes.addressof(b), ctypes.addressof(b) + n * ctypes.sizeof(b._type_)) for b, n in buffers)
    if any(end > start for (_, end), (start, _) in zip(spans, spans[1:])):
        raise ValueError("the buffers overlap")
    return [x for b, n in buffers for x in (b, n)]


def _worked(buffer: Any, scratch: Any) -> list[Any]:
    """A word buffer and scratch, both written to."""
    return _apart(_written(buffer, c_uint32), _written(scratch, c_uint32))


def _whole(number: Any) -> int:
    """A whole number, numpy's too."""
    try:
        return operator.index(number)
    except TypeError:
        raise TypeError(f"wanted a whole number; got {type(number).__name__}") from None


def _sizes(*numbers: int) -> list[int]:
    sizes = [_whole(number) for number in numbers]
    if any(not 0 <= size < 1 << 64 for size in sizes):
        raise ValueError("a size is a number from 0 to 2 to the 64th less 1")
    return sizes


def _shape(lengths: Sequence[int], axes: int) -> Any:
    sizes = _sizes(*lengths)
    if len(sizes) != axes:
        raise ValueError(f"the shape must have {axes} lengths")
    return _Shape((c_size_t * 5)(*sizes))


def _sheet_shape(lengths: Sequence[int]) -> Any:
    return _SheetShape((c_size_t * 4)(*_shape(lengths, 4).lengths[:4]))


def _accepted(number: int, place: int = 0) -> None:
    if number:
        raise Refused(number, place)


def turn(buffer: Any, scratch: Any, m: int, n: int) -> None:
    """Turns the block of m rows and n columns that fills the buffer. Scratch: max(m, n) words, zeroed. Refused: 1, 2, 3, 13, 4."""
    _accepted(_call("turn", *_worked(buffer, scratch), *_sizes(m, n)))


def turn_back(buffer: Any, scratch: Any, m: int, n: int) -> None:
    """Undoes turn with the same m and n, the sides of the block as it was before the turn. Scratch: max(m, n) words, zeroed.
    Refused: 1, 2, 3, 13, 4."""
    _accepted(_call("turn_back", *_worked(buffer, scratch), *_sizes(m, n)))


def turn_passes(buffer: Any, scratch: Any, m: int, n: int) -> None:
    """Leaves the same words as turn, by three passes over the block. Scratch: max(m, n) words, zeroed. Refused: 1, 2, 3, 13, 4."""
    _accepted(_call("turn_passes", *_worked(buffer, scratch), *_sizes(m, n)))


def turn_back_passes(buffer: Any, scratch: Any, m: int, n: int) -> None:
    """Leaves the same words as turn_back, by three passes. Scratch: max(m, n) words, zeroed. Refused: 1, 2, 3, 13, 4."""
    _accepted(_call("turn_back_passes", *_worked(buffer, scratch), *_sizes(m, n)))


def turn_halves(buffer: Any, m: int, n: int) -> None:
    """Leaves the same words as turn, by recursion and without scratch. Refused: 1, 2, 3, 13."""
    _accepted(_call("turn_halves", *_apart(_written(buffer, c_uint32)), *_sizes(m, n)))


def lines(m: int, n: int) -> int:
    """How many lines a turn has. Refused: 1, 2.

    >>> lines(64, 16)
    96
    """
    answer = _call("lines", *_sizes(m, n))
    _accepted(answer.number)
    return answer.count


def tick(buffer: Any, scratch: Any, record: LineRecord, m: int, n: int) -> None:
    """One line of turn: the line that the record names moves, and the record counts it. Scratch: max(m, n) words, zeroed.
    Refused: 1, 2, 3, 13, 4, 12, which leaves the record too."""
    if not isinstance(record, LineRecord):
        raise TypeError(f"wanted a LineRecord; got {type(record).__name__}")
    _accepted(_call("tick", *_worked(buffer, scratch), ctypes.byref(record), *_sizes(m, n)))


def resume(buffer: Any, scratch: Any, progress: Any, m: int, n: int, budget: int) -> None:
    """A turn that may be stopped at any time: goes on from the stage that the progress word, a buffer of one word, names, and stops after
    `budget` stores; 10,000,000 always finish. The turn is done where the word is twice lines(m, n) and one. Scratch: max(m, n) words, zeroed at the
    end, and the same ones at every call. Refused: 1, 2, 3, 13, 4, 23."""
    b, bn, s, sn, p, _ = _apart(_written(buffer, c_uint32), _written(scratch, c_uint32), _written(progress, c_uint32, 1))
    _accepted(_call("resume", b, bn, s, sn, p, *_sizes(m, n, budget)))


def repeats(m: int, n: int) -> int:
    """How often a turn is repeated until every block of that shape is home. Refused: 1, 2.

    >>> repeats(64, 16)
    5
    """
    answer = _call("repeats", *_sizes(m, n))
    _accepted(answer.number)
    return answer.count


def remove_camera(buffer: Any, frames: int, cameras: int, column: int) -> None:
    """Removes a column of a frames by cameras block: the others close up, the freed words become zero. Refused: 1, 2, 3, 16."""
    _accepted(_call("remove_camera", *_apart(_written(buffer, c_uint32)), *_sizes(frames, cameras, column)))


def add_camera(buffer: Any, frames: int, cameras: int, column: int, words: Any) -> None:
    """Adds a column, one word a frame, using the words that follow the block. Refused: 1, 2, 3, 16, 17, 25."""
    b, bn, w, wn = _apart(_written(buffer, c_uint32), _lent(words, c_uint32))
    _accepted(_call("add_camera", b, bn, *_sizes(frames, cameras, column), w, wn))


def judge_cycles(cycles: Any, m: int, n: int) -> None:
    """Judges a list of the cycles of turn: start, length, start, length. Refused: 1, 2, 22."""
    answer = _call("judge_cycles", *_apart(_lent(cycles, c_uint32)), *_sizes(m, n))
    _accepted(answer.number, answer.place)


def run_cycles(cycles: Any, buffer: Any, m: int, n: int) -> None:
    """Judges such a list and moves the words of the block along its cycles. Refused: 1, 2, 3, 13, 22."""
    answer = _call("run_cycles", *_apart(_lent(cycles, c_uint32), _written(buffer, c_uint32)), *_sizes(m, n))
    _accepted(answer.number, answer.place)


def to_tiles(buffer: Any, scratch: Any, m: int, n: int, r: int, s: int) -> None:
    """Stores the block as tiles of r by s words. Scratch: r·n words, zeroed. Refused: 1, 2, 15, 3, 13, 4."""
    _accepted(_call("to_tiles", *_worked(buffer, scratch), *_sizes(m, n, r, s)))


def from_tiles(buffer: Any, scratch: Any, m: int, n: int, r: int, s: int) -> None:
    """Undoes to_tiles with the same numbers. Scratch: r·n words, zeroed. Refused: 1, 2, 15, 3, 13, 4."""
    _accepted(_call("from_tiles", *_worked(buffer, scratch), *_sizes(m, n, r, s)))


def _answered(answer: Any, axes: int) -> Answer:
    _accepted(answer.number, answer.place)
    return Answer(list(answer.lengths[:axes]), answer.order, answer.swaps)


def _chained(call: str, axes: int, buffer: Any, scratch: Any, lengths: Sequence[int], swaps: Sequence[int]) -> Answer:
    return _answered(_call(call, *_worked(buffer, scratch), _shape(lengths, axes), *_apart(_lent(list(swaps), c_size_t))), axes)


def _requested(call: str, axes: int, buffer: Any, scratch: Any, lengths: Sequence[int], release: int, order: int) -> Answer:
    return _answered(_call(call, *_worked(buffer, scratch), _shape(lengths, axes), *_sizes(release, order)), axes)


def _planned(call: str, order: int) -> list[int]:
    answer = _call(call, *_sizes(order))
    _accepted(answer.number)
    return answer.swaps[: answer.count]


def chain(buffer: Any, scratch: Any, lengths: Sequence[int], swaps: Sequence[int]) -> Answer:
    """Runs a chain of at most 32 swaps on a block of four axes. Scratch: the longest axis always suffices; as much as the chain needs is zeroed.
    Refused: 1, 2, 3, 13, 5, 6, 4."""
    return _chained("chain", 4, buffer, scratch, lengths, swaps)


def chain5(buffer: Any, scratch: Any, lengths: Sequence[int], swaps: Sequence[int]) -> Answer:
    """Runs a chain of at most 32 swaps on a block of five axes. Scratch and refusals are those of chain."""
    return _chained("chain5", 5, buffer, scratch, lengths, swaps)


def request(buffer: Any, scratch: Any, lengths: Sequence[int], release: int, order: int) -> Answer:
    """Brings a block of four axes into the order that a number names by its release: 1 as numpy.transpose lists the axes, 2 as numpy.moveaxis
    lists their places. Scratch: the longest axis always suffices; as much as the plan needs is zeroed. Refused: 1, 2, 3, 13, 14, 7, 4."""
    return _requested("request", 4, buffer, scratch, lengths, release, order)


def request5(buffer: Any, scratch: Any, lengths: Sequence[int], release: int, order: int) -> Answer:
    """Brings a block of five axes into the order that a number names by its release. Scratch and refusals are those of request."""
    return _requested("request5", 5, buffer, scratch, lengths, release, order)


def plan(order: int) -> list[int]:
    """The shortest chain that names an order of four axes, the first in dictionary order. Refused: 7.

    >>> plan(9)
    [0, 1, 2]
    """
    return _planned("plan", order)


def plan5(order: int) -> list[int]:
    """The shortest chain that names an order of five axes. Refused: 7.

    >>> plan5(1)
    [3]
    """
    return _planned("plan5", order)


def order_number(axes: Sequence[int]) -> int:
    """The number of an order, of four axes or five: its place among all, in dictionary order.

    >>> order_number((2, 0, 1, 3))
    12
    """
    if len(axes) not in (4, 5) or sorted(axes) != list(range(len(axes))):
        raise ValueError("an order lists each of four axes, or of five, once")
    return list(itertools.permutations(range(len(axes)))).index(tuple(axes))


def order_axes(number: int, axes: int = 4) -> tuple[int, ...]:
    """The order that a number names, of four axes or five: which axis stands at each place. Refused: 7.

    >>> order_axes(12)
    (2, 0, 1, 3)
    """
    if axes not in (4, 5):
        raise ValueError("an order has four axes or five")
    _accepted(0 if 0 <= number < (24, 120)[axes - 4] else 7)
    return list(itertools.permutations(range(axes)))[number]


def read_sheet(text: Any, words: Any) -> Sheet:
    """Reads a sheet and stores its words from the start of the word buffer; 1,024 words always suffice. Refused: 9, 10, 1, 11, 3, 5, 6."""
    answer = _call("read_sheet", *_apart(_lent(text, c_uint8), _written(words, c_uint32)))
    _accepted(answer.number, answer.place)
    return Sheet(list(answer.lengths), answer.swaps[: answer.count])


def write_result(lengths: Sequence[int], order: int, words: Any, text: Any) -> int:
    """Writes the result sheet of a block from the start of the byte buffer; answers how many bytes it has, at most 16,384.
    Refused: 1, 11, 3, 7, 24."""
    lent = _apart(_lent(words, c_uint32), _written(text, c_uint8))
    answer = _call("write_result", _sheet_shape(lengths), *_sizes(order), *lent)
    _accepted(answer.number)
    return answer.count


def write_release(lengths: Sequence[int], release: int, order: int, words: Any, text: Any) -> int:
    """Writes the result sheet that names the release of its order number. Refused: 1, 11, 3, 14, 7, 24."""
    lent = _apart(_lent(words, c_uint32), _written(text, c_uint8))
    answer = _call("write_release", _sheet_shape(lengths), *_sizes(release, order), *lent)
    _accepted(answer.number)
    return answer.count


def read_result(text: Any, words: Any) -> ResultSheet:
    """Reads a result sheet, with a release or without; 1,024 words always suffice. Refused: 9, 10, 1, 11, 3, 14, 7."""
    answer = _call("read_result", *_apart(_lent(text, c_uint8), _written(words, c_uint32)))
    _accepted(answer.number, answer.place)
    return ResultSheet(list(answer.lengths), answer.release, answer.order)


def job(text: Any, words: Any, scratch: Any, out: Any) -> JobAnswer:
    """The whole job on a sheet. Words and scratch have 1,024 words each, out 16,384 bytes. A refusal (9, 10, 1, 11, 5, 6) is in the answer and in the
    text."""
    t, tn, w, _, s, _, o, _ = _apart(
        _lent(text, c_uint8), _written(words, c_uint32, 1024), _written(scratch, c_uint32, 1024), _written(out, c_uint8, 16384)
    )
    answer = _call("job", t, tn, w, s, o)
    return JobAnswer(answer.count, Refused(answer.number, answer.place) if answer.number else None)


def offset_delay(run: Any) -> Measured:
    """The offset and the delay of one exchange of four readings. Refused: 26, 18.

    >>> offset_delay([0, 7, 9, 10])
    Measured(offset=3, delay=8)
    """
    answer = _call("offset_delay", *_apart(_lent(run, c_int64)))
    _accepted(answer.number)
    return Measured(answer.first, answer.second)


def to_frames(offset: int, ticks_per_frame: int) -> int:
    """An offset as the nearest whole number of frames. Refused: 21, 18.

    >>> to_frames(-3, 2)
    -1
    """
    whole = _whole(offset)
    if not -(2**63) <= whole < 2**63:
        raise ValueError("the offset does not fit into 64 bits")
    answer = _call("to_frames", whole, *_sizes(ticks_per_frame))
    _accepted(answer.number)
    return answer.frames


def join(shifts: Any, frames: int) -> range:
    """The frames that all cameras have. Refused: 1, 18, 20.

    >>> join([0, 3, -2], 10)
    range(3, 8)
    """
    answer = _call("join", *_apart(_lent(shifts, c_int64)), *_sizes(frames))
    _accepted(answer.number)
    return range(answer.first, answer.second)


def choose(first: Any, second: Any) -> list[int]:
    """The readings of the usable exchange with the smallest delay of two runs. Refused: 26, 18, 19.

    >>> choose([0, 7, 9, 10], [0, 2, 3, 4])
    [0, 2, 3, 4]
    """
    runs = [_lent(first, c_int64), _lent(second, c_int64)]
    lent = [x for run, n in runs for x in (run, n)]
    _accepted(_call("choose_number", *lent))
    part = _Part(ctypes.cast(lent[0], POINTER(c_int64)), lent[1])
    _call("choose", *lent, ctypes.byref(part))
    return part.readings[: part.count]
