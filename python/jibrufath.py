"""Jibrufath from Python: a packet cube for one-way broadcast, over the proved library with nothing but ctypes.

A cube is a block of cells in three axes, each cell a packet of W bytes. Every line of cells along every axis carries
two parity packets, so that lost or damaged packets follow from the others. `write` turns a file into a pack of packets,
and `receive` any list of them back into the file, or into the cells that are left:

>>> from jibrufath import Shape, air_pack, packets, receive, write
>>> shape = Shape(5, 4, 3, 16)                  # 60 packets of 16 bytes
>>> pack = write(shape, b"a broadcast")
>>> heard = list(packets(pack))[:40]            # the last 20 are lost
>>> receive(air_pack(shape, heard)).file
b'a broadcast'

A call takes any bytes-like object where it reads bytes, and a writable one where it works in place; one that cannot be
written is then a TypeError. Memory that is lent to a call cannot be resized until the call has returned and its
exception is gone. No other thread may change it during the call: other threads run meanwhile.

Numbers are whole: a float or a str is a TypeError, and a number that is negative or has more than 64 bits, or 8 in the
field, is a ValueError. Input that the library refuses is a `Refusal`, which is a ValueError too. Where the system has
no memory the error is MemoryError.

The library is the file that JIBRUFATH_LIBRARY names; without it the one beside this module, or else the one that the
system's loader finds, or else the one two folders above, where `make install` has it.
"""

from __future__ import annotations

import ctypes
import dataclasses
import enum
import itertools
import operator
import os
import struct
from typing import TYPE_CHECKING, Any, Generic, Iterable, Iterator, NamedTuple, Optional, Tuple, TypeVar, Union

if TYPE_CHECKING:
    from _typeshed import ReadableBuffer, WriteableBuffer

__all__ = [
    "Limit", "Needs", "Number", "Plan", "Reception", "Refusal", "ScanCounts", "Shape", "air_pack", "default_limit",
    "encode", "extract", "fill", "from_text", "inverse", "is_code_cube", "mend", "mend_axis", "mul", "needs", "packets",
    "pow", "read_plan", "receive", "receive_plan", "scan", "to_text", "write", "write_plan",
]
__version__ = "3.3.0"

F = TypeVar("F")                # what a reception gives: bytes, or a plan
Cell = Tuple[int, int, int]     # (a, b, c)


# Why a call gives no answer.


class Number(enum.IntEnum):
    """The number of a refusal, with its `meaning`, and the `place` that it names: "packet", "line", "offset" or "".

    >>> Number.CELL_INDEX.value, Number.CELL_INDEX.meaning, Number.CELL_INDEX.place
    (11, 'a packet names a cell outside the cube or an unsent one', 'packet')
    """

    meaning: str
    place: str

    def __new__(cls, number: int, meaning: str, place: str = "") -> Number:
        member = int.__new__(cls, number)
        member._value_ = number
        member.meaning = meaning
        member.place = place
        return member

    DIMENSION = 1, "a length is not 3 to 255, an axis number not 1 to 3, or there is no such line"
    PACKET_SIZE = 2, "W is not 1 to 1,024"
    CUBE_SIZE = 3, "W × cells is above 268,435,456"
    SLICE_LENGTH = 4, "a lent slice has not the exact length"
    FLAG_VALUE = 5, "a flag is above 2"
    TRUNCATED = 6, "the pack ends inside a count or a section"
    HEADER_COUNT = 7, "the count of section 1 is neither 5 nor 9, or not 5 for a text"
    TRAILING_BYTES = 8, "the pack has bytes after section 3"
    SECTION_COUNT = 9, "the section that must be empty is not"
    CAPACITY = 10, "the data string has no room for the file"
    CELL_INDEX = 11, "a packet names a cell outside the cube or an unsent one", "packet"
    CONTRADICTION = 13, "the known cells contradict each other"
    FILE_LENGTH = 14, "the data string holds no file"
    ERASURE = 15, "a cell is flagged missing"
    UNCORRECTED = 16, "what mending leaves is not a code cube"
    LINE = 17, "a line of the text breaks the form", "line"
    ENTRY = 18, "an entry or count of the plan breaks a rule or is cut, or bytes are left over", "offset"
    USED_CELLS = 19, "the number of used data cells is below 1, above the data cells, or too low for the file"


class Refusal(ValueError):
    """Why a call refused its input: the `number`, and the `place` that it names, or None.

    The place is with 11 the packet's index from 0, with 17 the line's number from 1, with 18 an offset in the plan's
    file.

    >>> try:
    ...     from_text("shape 3 3 3 5\\npacket 0 0 0 01 00 00 00 A7\\n")
    ... except Refusal as refusal:
    ...     print(refusal)
    ...     print(refusal.number == Number.LINE, refusal.place)
    refused 17: a line of the text breaks the form, line 2
    True 2
    """

    def __init__(self, number: int, place: Optional[int] = None) -> None:
        self.number = Number(number)
        self.place = place if self.number.place else None
        super().__init__(self.number, self.place)

    def __str__(self) -> str:
        named = "" if self.place is None else f", {self.number.place} {self.place}"
        return f"refused {self.number:d}: {self.number.meaning}{named}"


class Limit(MemoryError):
    """A pack needs so many `bytes` of memory, and its receiver is allowed no more than `limit`. None was taken.

    >>> receive(air_pack(Shape(100, 100, 100, 8), []))
    Traceback (most recent call last):
    jibrufath.Limit: 16529532 bytes are needed, and 1048576 are allowed
    """

    def __init__(self, bytes: int, limit: int) -> None:
        self.bytes = bytes
        self.limit = limit
        super().__init__(bytes, limit)

    def __str__(self) -> str:
        return f"{self.bytes} bytes are needed, and {self.limit} are allowed"


# Shapes, and what a pack needs.


class Shape(NamedTuple):
    """Three lengths, 3 to 255, and W, the bytes of a cell, 1 to 1,024.

    Any numbers can be put in; every call checks them. Cell (a, b, c) has number a + l1 * (b + l2 * c), and its W bytes
    stand there in the cube. The sizes refuse with 1, 2, 3.

    >>> Shape(69, 69, 25, 397).cube_bytes
    47252925
    >>> Shape(255, 255, 255, 17).cells
    Traceback (most recent call last):
    jibrufath.Refusal: refused 3: W × cells is above 268,435,456
    """

    l1: int
    l2: int
    l3: int
    w: int

    @property
    def cells(self) -> int:
        """The number of cells, which is the length of flags.

        >>> Shape(5, 4, 3, 16).cells
        60
        """
        return _ask("cells", [], *self._numbers())

    @property
    def cube_bytes(self) -> int:
        """The length of a cube: W * cells.

        >>> Shape(5, 4, 3, 16).cube_bytes
        960
        """
        return _ask("cube_bytes", [], *self._numbers())

    @property
    def capacity(self) -> int:
        """The length of a data string: W * (l1 - 2) * (l2 - 2) * (l3 - 2).

        >>> Shape(5, 4, 3, 16).capacity
        96
        """
        return _ask("capacity", [], *self._numbers())

    @property
    def file_bytes(self) -> int:
        """The most bytes of a file: four less than a data string. Refuses also with 10, where that has less than four.

        >>> Shape(5, 4, 3, 16).file_bytes
        92
        >>> Shape(3, 3, 3, 3).file_bytes
        Traceback (most recent call last):
        jibrufath.Refusal: refused 10: the data string has no room for the file
        """
        capacity = self.capacity
        if capacity < _COUNT.size:
            raise Refusal(Number.CAPACITY)
        return capacity - _COUNT.size

    @property
    def pack_bytes(self) -> int:
        """The length of a written pack that has every cell: 17 + cells * (3 + W).

        >>> Shape(5, 4, 3, 16).pack_bytes
        1157
        """
        return _ask("pack_bytes", [], *self._numbers())

    def used_by(self, length: int) -> int:
        """The fewest used data cells that have room for a file of this length: the `used` of `write` and `air_pack`.

        >>> Shape(5, 4, 3, 16).used_by(12), Shape(5, 4, 3, 16).used_by(13)
        (1, 2)
        """
        return -(-(_COUNT.size + _number("length", length)) // max(self.w, 1))

    def _numbers(self) -> list[int]:
        """The four numbers as the library takes them."""
        return [_number(name, number) for name, number in zip(self._fields, self)]


class Needs(NamedTuple):
    """The shape in a pack, the sizes of the memory that its calls take, and the number of used data cells.

    >>> needs(write(Shape(5, 4, 3, 16), b"any file")).receiver_bytes == 960 + 60 + 92
    True
    """

    shape: Shape
    cells: int
    cube_bytes: int
    capacity: int
    file_bytes: int
    pack_bytes: int
    used: int

    @property
    def receiver_bytes(self) -> int:
        """All that the receiver takes: a cube, flags and a file buffer.

        >>> needs(bytes([5, 0, 0, 0, 3, 3, 3, 5, 0])).receiver_bytes == 135 + 27 + 1
        True
        """
        return self.cube_bytes + self.cells + self.file_bytes


def needs(pack: ReadableBuffer) -> Needs:
    """Reads section 1 of a pack, whatever stands behind it. Refuses with 6, 7, 1, 2, 3, 10 and 19.

    >>> needs(bytes([5, 0, 0, 0, 3, 3, 3, 5, 0]))[1:]
    (27, 135, 5, 1, 233, 1)
    >>> needs(write(Shape(5, 4, 3, 16), b"any file", used=1)).used
    1
    """
    places = _counts(16)
    _ask("needs", [_read(pack)], places)
    return Needs(Shape(*places[:4]), *places[4:10])


# Files into packets and back.


def write(shape: Shape, file: ReadableBuffer, used: Optional[int] = None) -> bytes:
    """The air pack of all packets of a file, in cell order. Refuses with 1, 2, 3, and 10 where the file has no room.

    Where `used` says how many data cells are used, the others are unsent: 00h, known to the receiver, and in no packet.
    It refuses with 19 a number that is not 1 to the number of data cells, or that has no room for the file.

    >>> pack = write(Shape(5, 4, 3, 16), b"every packet of it")
    >>> len(pack)
    1157
    >>> receive(pack).file
    b'every packet of it'
    >>> shape = Shape(20, 20, 10, 100)
    >>> short = write(shape, b"a short file", used=shape.used_by(12))
    >>> len(short), shape.pack_bytes
    (145148, 412017)
    >>> receive(short).file
    b'a short file'
    """
    data = _read(file)
    job = b"".join((_header(shape, len(data), used), data, _COUNT.pack(0)))
    needed = needs(job)
    cube, pack = _fresh(needed.cube_bytes), _fresh(needed.pack_bytes)
    _ask("write_pack", [job, cube, pack])
    return pack


@dataclasses.dataclass(frozen=True)
class Reception(Generic[F]):
    """What came of a pack: the `file`, or None and how many cells are `left`.

    `packets` are those of the pack, `repeats` those of them whose cell had come before, with the same bytes or with
    others, `conflicts` the cells whose copies are not all equal, `flags` a byte for each cell, 1 where it is left, 2
    where it is unsent, and else 0.

    >>> receive(write(Shape(3, 3, 3, 5), b"8"))
    Reception(file=b'8', left=0, packets=27, repeats=0, conflicts=0, shape=Shape(l1=3, l2=3, l3=3, w=5))
    """

    file: Optional[F]
    left: int
    packets: int
    repeats: int
    conflicts: int
    shape: Shape
    flags: bytes = dataclasses.field(repr=False)

    @property
    def missing(self) -> list[Cell]:
        """The cells left as (a, b, c), in cell order.

        >>> nothing = receive(air_pack(Shape(3, 3, 3, 5), []))
        >>> nothing.left, nothing.missing[:4]
        (27, [(0, 0, 0), (1, 0, 0), (2, 0, 0), (0, 1, 0)])
        """
        l1, l2, l3, _ = self.shape
        backwards = itertools.product(range(l3), range(l2), range(l1))
        left = self.flags.replace(b"\2", b"\0")
        return [(a, b, c) for c, b, a in itertools.compress(backwards, left)]


def receive(pack: ReadableBuffer, limit: Optional[int] = None) -> Reception[bytes]:
    """Places the packets of an air pack, fills what the lines force, and gives the file where nothing is left.

    Packets come in any order, each any number of times. Copies that differ make their cell missing, whichever came
    first. `limit` is the most bytes for cube, flags and file together, `default_limit` where it is None; above it the
    error is `Limit`. Refuses with 6, 7, 1, 2, 3, 10, 19, 9 and 8 before that, and with 11, 13 and 14 after it.

    >>> shape = Shape(5, 4, 3, 16)
    >>> heard = list(packets(write(shape, b"a broadcast")))
    >>> damaged = (4, 3, 2), bytes(16)
    >>> reception = receive(air_pack(shape, heard + [damaged]))
    >>> reception.file, reception.packets, reception.repeats, reception.conflicts
    (b'a broadcast', 61, 1, 1)
    >>> receive(air_pack(shape, heard[:5])).left
    45
    """
    air = _read(pack)
    needed = _read_air(air)
    allowed = default_limit(air) if limit is None else limit
    if needed.receiver_bytes > allowed:
        raise Limit(needed.receiver_bytes, allowed)
    cube, flags, file = _fresh(needed.cube_bytes), _fresh(needed.cells), _fresh(needed.file_bytes)
    counts = _counts(16)
    left = _ask("receive_pack", [air, cube, flags, file], counts)
    return Reception(
        file=None if left else file[:counts[0]],
        left=left,
        packets=counts[1],
        repeats=counts[2],
        conflicts=counts[13],
        shape=needed.shape,
        flags=flags,
    )


def default_limit(pack: ReadableBuffer) -> int:
    """The memory that `receive` takes at most: 28 times the pack's bytes, 80 times where the pack says how many data
    cells are used, and 1 MiB for a pack however short.

    A pack that gives a file has at least as many packets as its cube has used data cells. Where all are used, they are
    a 27th or more of any cube. So cube, flags and file take less than 28 times the bytes of such a pack: what the limit
    keeps out are packs that would end in cells left or in a refusal. Where few are used, a few packets may be enough
    for a cube of any size. A pack with every packet that is sent never takes 80 times its bytes; for one that lost most
    of them in a big cube, `receive` takes a larger limit.

    >>> default_limit(bytes(17)), default_limit(bytes(100_000)), default_limit(bytes([9]) * 100_000)
    (1048576, 2800000, 8000000)
    """
    air = _read(pack)
    times = 80 if len(air) > 0 and air[0] == _USED else 28
    return max(times * len(air), 1 << 20)


def packets(pack: ReadableBuffer) -> Iterator[Tuple[Cell, bytes]]:
    """The packets of an air pack in their order, each as the (a, b, c) that it names and its W bytes.

    They may name cells outside the cube. Refuses at once with 6, 7, 1, 2, 3, 10, 19, 9 and 8. The pack cannot be
    resized as long as the iterator is there.

    >>> list(packets(write(Shape(3, 3, 3, 5), b"8")))[0]
    ((0, 0, 0), b'\\x01\\x00\\x00\\x008')
    """
    air = _read(pack)
    w = _read_air(air).shape.w
    behind_head = memoryview(air)[3 * _COUNT.size + air[0]:]
    return (((a, b, c), data) for a, b, c, data in struct.iter_unpack(f"<3B{w}s", behind_head))


def air_pack(
    shape: Shape, packets: Iterable[Tuple[Cell, ReadableBuffer]], used: Optional[int] = None
) -> bytes:
    """The air pack of these packets, in their order and with every copy. Each is an (a, b, c) and W bytes.

    `used` is as in `write`. Refuses with 1, 2, 3, 10 and 19; then with 4 a packet that has not W bytes, and with 11 one
    whose cell is outside the cube or unsent.

    >>> air_pack(Shape(3, 3, 3, 5), [((2, 1, 0), b"12345")])[13:]
    b'\\x01\\x00\\x00\\x00\\x02\\x01\\x0012345'
    >>> air_pack(Shape(3, 3, 3, 5), [((3, 0, 0), b"12345")])
    Traceback (most recent call last):
    jibrufath.Refusal: refused 11: a packet names a cell outside the cube or an unsent one, packet 0
    """
    header = _header(shape, 0, used)
    sent = needs(header).used
    body = bytearray()
    for index, (cell, data) in enumerate(packets):
        body += _packet(shape, sent, index, cell, data)
    count = len(body) // (3 + shape.w)
    return b"".join((header, _COUNT.pack(_number("the count of packets", count, 32)), body))


# The head of a pack is section 1 and the counts of sections 2 and 3. The count of section 1 is 5, or 9 where the number
# of used data cells stands behind the shape.
_SHAPE = struct.Struct("<IBBBH")
_COUNT = struct.Struct("<I")
_USED = 9


def _section(shape: Shape, used: Optional[int]) -> bytes:
    """Section 1 with its count, whose numbers must have their places in it."""
    shape.file_bytes  # refuses a shape that has none
    if used is None:
        return _SHAPE.pack(5, *shape)
    number = _number("used", used)
    if number >= 1 << 32:
        raise Refusal(Number.USED_CELLS)
    return _SHAPE.pack(_USED, *shape) + _COUNT.pack(number)


def _header(shape: Shape, length: int, used: Optional[int]) -> bytes:
    """Section 1 and the count of section 2, where a file of this length has room."""
    section = _section(shape, used)
    needed = needs(section)
    if length > needed.file_bytes:
        raise Refusal(Number.CAPACITY)
    return section + _COUNT.pack(length)


def _packet(shape: Shape, used: int, index: int, cell: Cell, data: ReadableBuffer) -> bytes:
    """A packet as it stands in a pack of this shape, with so many used data cells."""
    content = memoryview(data).tobytes()
    if len(content) != shape.w:
        raise Refusal(Number.SLICE_LENGTH)
    a, b, c = cell
    inside = 0 <= a < shape.l1 and 0 <= b < shape.l2 and 0 <= c < shape.l3
    if not inside or not _sends(shape, used, a, b, c):
        raise Refusal(Number.CELL_INDEX, index)
    return bytes((a, b, c)) + content


def _sends(shape: Shape, used: int, a: int, b: int, c: int) -> bool:
    """Whether a cell is sent: a parity cell, or one of the used data cells."""
    data1, data2, data3 = shape.l1 - 2, shape.l2 - 2, shape.l3 - 2
    return not (a < data1 and b < data2 and c < data3) or a + data1 * (b + data2 * c) < used


def _read_air(air: Any) -> Needs:
    """What an air pack needs that the receiver can take apart: lent no memory, it refuses it for that alone."""
    try:
        _ask("receive_pack", [air, b"", b"", b""], _counts(16))
    except Refusal as refusal:
        if refusal.number != Number.SLICE_LENGTH:
            raise
    return needs(air)


# Cubes.


def encode(shape: Shape, data: ReadableBuffer) -> bytes:
    """The one code cube that has the data string. Refuses with 1, 2, 3 and 4.

    >>> encode(Shape(3, 3, 3, 1), b"\\x08")[:9].hex(" ")
    '08 0c 04 0c 0a 06 04 06 02'
    """
    cube = _fresh(shape.cube_bytes)
    _ask("encode", [_read(data), cube], *shape._numbers())
    return cube


def extract(shape: Shape, cube: ReadableBuffer) -> bytes:
    """The data string of a cube, whether or not that is a code cube. Refuses with 1, 2, 3 and 4.

    >>> shape = Shape(4, 3, 3, 2)
    >>> extract(shape, encode(shape, b"data"))
    b'data'
    """
    data = _fresh(shape.capacity)
    _ask("extract", [_read(cube), data], *shape._numbers())
    return data


def is_code_cube(shape: Shape, cube: ReadableBuffer) -> bool:
    """Whether every line of every axis is right in every layer. Refuses with 1, 2, 3 and 4.

    >>> shape = Shape(3, 3, 3, 1)
    >>> cube = encode(shape, b"\\x08")
    >>> is_code_cube(shape, cube), is_code_cube(shape, cube[::-1])
    (True, False)
    """
    return _ask("is_code_cube", [_read(cube)], *shape._numbers()) == 1


def fill(shape: Shape, cube: WriteableBuffer, flags: WriteableBuffer) -> int:
    """Gives every missing cell the bytes that the lines force, in place, and answers with the number of cells left.

    `flags` has a byte for each cell: 0 known, 1 missing, 2 known and unsent. The cells left are the largest set of
    missing cells that meets every line in none or in at least three. They become 00h and keep flag 1; cells that are
    filled get flag 0, and known cells keep theirs. With no cell missing, the call checks the cube. Cube and flags must
    not overlap, which is a ValueError.

    Refuses with 1, 2, 3, 4 and 5, which change no byte, and with 13 where the known cells contradict each other:
    missing cells are then 00h, and the flags as before.

    >>> shape = Shape(3, 3, 3, 1)
    >>> cube, flags = bytearray(encode(shape, b"\\x08")), bytearray(27)
    >>> cube[:26], flags[:26] = bytes(26), bytes([1]) * 26     # one cell is enough
    >>> fill(shape, cube, flags)
    0
    >>> cube == encode(shape, b"\\x08")
    True
    """
    lent_cube, lent_flags = _lend("cube", cube), _lend("flags", flags)
    if _overlap(lent_cube, lent_flags):
        raise ValueError("cube and flags overlap")
    return _ask("fill", [lent_cube, lent_flags], *shape._numbers())


class ScanCounts(NamedTuple):
    """How many missing cells `scan` found on a line, at most three, and how many places it read.

    >>> scan(Shape(3, 3, 3, 1), bytes(27), 1, 0)
    ScanCounts(erasures=0, read=3)
    """

    erasures: int
    read: int


def scan(shape: Shape, flags: ReadableBuffer, axis: int, line: int) -> ScanCounts:
    """Counts the missing cells of a line up to the third: with one or two it is filled, with three it forces nothing.

    `line` is the number of the line along the axis 1, 2 or 3, from 0, lines counted by the number of their first cell.
    A cell is missing where its flag is 1, and no flag is refused. Refuses with 1, 2, 3 and 4.

    >>> flags = bytes([1, 0, 1, 1, 0]) + bytes(55)
    >>> scan(Shape(5, 4, 3, 16), flags, 1, 0)
    ScanCounts(erasures=3, read=4)
    >>> scan(Shape(5, 4, 3, 16), flags, 2, 0)
    ScanCounts(erasures=1, read=4)
    """
    counts = _counts(2)
    _ask("scan", [_read(flags)], *shape._numbers(), _number("axis", axis), _number("line", line), counts)
    return ScanCounts(*counts)


def mend(shape: Shape, cube: ReadableBuffer, flags: Optional[ReadableBuffer] = None) -> bytes:
    """The code cube that mending passes along axis 1, 2 and 3 lead to. The cube itself is only read.

    `flags` are all 0 where none are given: mending takes whole cubes. Refuses with 1, 2, 3, 4, 5, with 15 where a flag
    is 1, and with 16 where the passes lead to no code cube.

    A cube that differs from some code cube in at most seven bytes of each layer, wherever they are, is mended to that code
    cube: so where seven cells are damaged, in whatever bytes. The same where all damage lies in one plane of cells, across
    any axis. Eight wrong bytes of a layer may be refused, or lead to another code cube.

    >>> shape = Shape(3, 3, 3, 1)
    >>> cube = encode(shape, b"\\x08")
    >>> damaged = bytearray(cube)
    >>> for cell in 0, 1, 3, 4, 9, 10, 12:             # seven of the eight cells of a box
    ...     damaged[cell] ^= 0x40
    >>> mend(shape, damaged) == cube
    True
    """
    second = _fresh(shape.cube_bytes)
    whole = bytes(shape.cells) if flags is None else _read(flags)
    _ask("mend", [_read(cube), whole, second], *shape._numbers())
    return second


def mend_axis(shape: Shape, cube: WriteableBuffer, axis: int) -> None:
    """One mending pass along axis 1, 2 or 3, in place.

    On each line, in each layer, the one wrong byte that the two sums point to is put right. A line whose sums point to
    no place of it keeps its bytes. Refuses with 1, 2, 3 and 4.

    >>> cube = bytearray(27)                    # zeros are a code cube
    >>> cube[0] = cube[1] = 0x01
    >>> mend_axis(Shape(3, 3, 3, 1), cube, 2)
    >>> any(cube)
    False
    """
    _ask("mend_axis", [_lend("cube", cube)], *shape._numbers(), _number("axis", axis))


# Texts.


def to_text(pack: ReadableBuffer) -> str:
    """The text of an air pack: a line for its shape and one for each packet.

    Refuses with 6, 7, 1, 2, 3, 10, 9, 8 and 11; with 7 also a pack that says how many data cells are used.

    >>> print(to_text(air_pack(Shape(3, 3, 3, 5), [((2, 1, 0), bytes([1, 0, 0, 0, 0xA7]))])), end="")
    shape 3 3 3 5
    packet 2 1 0 01 00 00 00 a7
    """
    air = _read(pack)
    text = _fresh(_ask("text_bytes", [air]))
    _ask("write_text", [air, text])
    return text.decode("ascii")


def from_text(text: Union[str, ReadableBuffer]) -> bytes:
    """The air pack of a text, which is a str or its bytes. Refuses with 17, and then with 1, 2, 3, 10 and 11.

    >>> pack = write(Shape(5, 4, 3, 16), b"any file")
    >>> from_text(to_text(pack)) == pack
    True
    """
    # Characters that no text has become bytes that none has either, on the same line.
    characters = text.encode("utf-8", "surrogatepass") if isinstance(text, str) else _read(text)
    air = _fresh(_ask("text_pack_bytes", [characters]))
    _ask("read_text", [characters, air])
    return air


# Splice plans.


@dataclasses.dataclass
class Plan:
    """A splice plan. The lists may hold anything: `write_plan` says whether they keep the rules.

    A closure is its number, in ascending order. A fibre is the number of its closure, which is listed, and its own
    number, 1 to 288; fibres ascend by both. A splice is two indexes of fibres, from 0, in the same closure, the first
    lower; first indexes ascend, and each fibre is in at most one splice.

    >>> Plan(closures=[700], fibres=[(700, 12), (700, 15)], splices=[(0, 1)])
    Plan(closures=[700], fibres=[(700, 12), (700, 15)], splices=[(0, 1)])
    """

    closures: list[int] = dataclasses.field(default_factory=list)
    fibres: list[Tuple[int, int]] = dataclasses.field(default_factory=list)
    splices: list[Tuple[int, int]] = dataclasses.field(default_factory=list)


def write_plan(plan: Plan) -> bytes:
    """The file of a plan. Refuses with 18, and the offset that the entry would have in the file.

    Before that, an entry is a ValueError that is not made of whole numbers which their places can hold: closures and
    numbers of fibres have 16 bits, indexes 32.

    >>> write_plan(Plan([700])).hex(" ")
    '01 00 00 00 bc 02 00 00 00 00 00 00 00 00'
    >>> write_plan(Plan([8, 7]))                # doctest: +ELLIPSIS
    Traceback (most recent call last):
    jibrufath.Refusal: refused 18: an entry or count of the plan breaks a rule ... offset 6
    """
    lists = [
        _list("closure", "a number of 16 bits", _CLOSURE, ((number,) for number in plan.closures)),
        _list("fibre", "two numbers of 16 bits", _FIBRE, plan.fibres),
        _list("splice", "two numbers of 32 bits", _SPLICE, plan.splices),
    ]
    file = _fresh(3 * _COUNT.size + sum(map(len, lists)))
    _ask("write_plan", [*lists, file])
    return file


def read_plan(file: ReadableBuffer) -> Plan:
    """The plan of a file. Refuses with 18, and the offset of what is cut or breaks a rule.

    >>> plan = Plan([700], [(700, 12), (700, 15)], [(0, 1)])
    >>> read_plan(write_plan(plan)) == plan
    True
    """
    content = _read(file)
    entries = _counts(3)
    _ask("measure_plan", [content], entries)
    lists = [_fresh(count * layout.size) for count, layout in zip(entries, (_CLOSURE, _FIBRE, _SPLICE))]
    _ask("read_plan", [content, *lists], entries)
    closures, fibres, splices = lists
    return Plan(
        closures=[number for number, in _CLOSURE.iter_unpack(closures)],
        fibres=list(_FIBRE.iter_unpack(fibres)),
        splices=list(_SPLICE.iter_unpack(splices)),
    )


def receive_plan(pack: ReadableBuffer, limit: Optional[int] = None) -> Reception[Plan]:
    """Receives an air pack whose file is a plan: `receive`, with the plan in the place of the file.

    Refuses also with 18, once the file is there.

    >>> plan = Plan([700], [(700, 12), (700, 15)], [(0, 1)])
    >>> shape = Shape(5, 4, 3, 16)
    >>> heard = list(packets(write(shape, write_plan(plan))))
    >>> receive_plan(air_pack(shape, heard[24:])).file
    Plan(closures=[700], fibres=[(700, 12), (700, 15)], splices=[(0, 1)])
    >>> nothing = receive_plan(air_pack(shape, []))
    >>> nothing.file, nothing.left
    (None, 60)
    """
    reception = receive(pack, limit)
    plan = None if reception.file is None else read_plan(reception.file)
    return dataclasses.replace(reception, file=plan)


# The entries of a plan as they stand in a file.
_CLOSURE = struct.Struct("<H")
_FIBRE = struct.Struct("<HH")
_SPLICE = struct.Struct("<II")


def _list(name: str, form: str, layout: struct.Struct, entries: Iterable[Tuple[int, ...]]) -> bytes:
    """The bytes of entries, in their order."""
    packed = bytearray()
    for index, entry in enumerate(entries):
        try:
            packed += layout.pack(*entry)
        except (struct.error, TypeError):
            raise ValueError(f"{name} {index} is not {form}") from None
    return bytes(packed)


# The field: bytes as binary polynomials modulo 1C3h. The sum is a ^ b.


def mul(a: int, b: int) -> int:
    """The product of two bytes.

    >>> hex(mul(0x02, 0x80))
    '0xc3'
    """
    return _calls["mul"](_number("a", a, 8), _number("b", b, 8))


def inverse(a: int) -> Optional[int]:
    """The byte whose product with `a` is 01h; None for 00h.

    >>> hex(inverse(0x02)), inverse(0)
    ('0xe1', None)
    """
    return _calls["inverse"](_number("a", a, 8)) or None


def pow(i: int) -> int:
    """02h to the i-th, i a byte.

    >>> hex(pow(7)), hex(pow(8))
    ('0x80', '0xc3')
    """
    return _calls["pow"](_number("i", i, 8))


# Numbers and memory, as the library takes them.


def _number(name: str, value: int, bits: int = 64) -> int:
    """A number of so many bits without a sign. ctypes by itself would cut one that is negative or longer."""
    number = operator.index(value)
    if not 0 <= number < 1 << bits:
        raise ValueError(f"{name} is negative or has more than {bits} bits")
    return number


def _read(data: ReadableBuffer) -> Any:
    """Memory that a call only reads: the object's own, or a copy of it.

    Of what cannot be written, ctypes takes only bytes in place. A subclass of bytes may say another length than it has,
    and is copied like all else.
    """
    if type(data) is bytes:
        return data
    view = memoryview(data)
    if view.readonly or not view.c_contiguous:
        return view.tobytes()
    return (ctypes.c_ubyte * view.nbytes).from_buffer(view)


def _lend(name: str, data: WriteableBuffer) -> Any:
    """Memory in which a call works."""
    view = memoryview(data)
    if view.readonly:
        raise TypeError(f"{name} is read-only, and the call works in place")
    if not view.c_contiguous:
        raise TypeError(f"{name} is not contiguous, and the call works in place")
    return (ctypes.c_ubyte * view.nbytes).from_buffer(view)


def _overlap(first: Any, second: Any) -> bool:
    """Whether two arrays have a byte in common."""
    begins = ctypes.addressof(first), ctypes.addressof(second)
    return max(begins) < min(begins[0] + len(first), begins[1] + len(second))


def _fresh(length: int) -> bytes:
    """Bytes that may hold anything, of which a call writes all that is shown later.

    They are written before anyone else sees them, as extensions in C do it. Clearing them first and copying them
    afterwards would take longer than the call.
    """
    return _new_bytes(None, length)


def _counts(places: int) -> Any:
    """An array of numbers that a call writes."""
    return (ctypes.c_uint64 * places)()


_new_bytes = ctypes.pythonapi.PyBytes_FromStringAndSize
_new_bytes.argtypes = [ctypes.c_char_p, ctypes.c_ssize_t]
_new_bytes.restype = ctypes.py_object


# The library.

_LIBRARY = f"libjibrufath.so.{__version__.split('.')[0]}"

_MISSING = """\
the library cannot be loaded: {error}.
JIBRUFATH_LIBRARY names the file of the library. Without it {library} is looked for beside {module}, or else where the
system's loader looks, or else two folders above, where `make install` puts it. In a checkout `targets/build x86-64`
makes target/archives/x86-64/{library}: name that file, or copy it to one of these places."""

# What each call takes: s a slice, which is a pointer and a length, n a number, c an array of counts, b a byte.
_SIGNATURES = {
    "cells": "nnnn",
    "cube_bytes": "nnnn",
    "capacity": "nnnn",
    "pack_bytes": "nnnn",
    "needs": "sc",
    "write_pack": "sss",
    "receive_pack": "ssssc",
    "text_bytes": "s",
    "write_text": "ss",
    "text_pack_bytes": "s",
    "read_text": "ss",
    "write_plan": "ssss",
    "measure_plan": "sc",
    "read_plan": "ssssc",
    "encode": "ssnnnn",
    "extract": "ssnnnn",
    "is_code_cube": "snnnn",
    "fill": "ssnnnn",
    "scan": "snnnnnnc",
    "mend_axis": "snnnnn",
    "mend": "sssnnnn",
    "mul": "bb",
    "inverse": "b",
    "pow": "b",
}

_TYPES = {
    "s": [ctypes.c_void_p, ctypes.c_uint64],
    "n": [ctypes.c_uint64],
    "c": [ctypes.c_void_p],
    "b": [ctypes.c_ubyte],
}


def _paths() -> list[str]:
    """Where the library is looked for, in this order; a name alone is for the loader to look for."""
    named = os.environ.get("JIBRUFATH_LIBRARY")
    if named:
        return [os.path.abspath(named)]
    folder = os.path.dirname(os.path.abspath(__file__))
    beside = os.path.join(folder, _LIBRARY)
    installed = os.path.normpath(os.path.join(folder, "..", "..", _LIBRARY))
    return [path for path in (beside, _LIBRARY, installed) if path == _LIBRARY or os.path.exists(path)]


def _library() -> ctypes.CDLL:
    """The first library of these paths that can be loaded."""
    *paths, last = _paths()
    for path in paths:
        try:
            return ctypes.CDLL(path)
        except OSError:
            pass
    return ctypes.CDLL(last)


def _load() -> dict[str, Any]:
    """The calls of the library by their names."""
    try:
        library = _library()
        return {name: _declared(library, name) for name in _SIGNATURES}
    except (OSError, AttributeError) as error:
        message = _MISSING.format(error=error, library=_LIBRARY, module=__file__)
        raise ImportError(message, name=__name__) from error


def _declared(library: ctypes.CDLL, name: str) -> Any:
    """A call with its types."""
    call = library[f"jibrufath_{name}"]
    signature = _SIGNATURES[name]
    call.argtypes = [part for kind in signature for part in _TYPES[kind]]
    call.restype = ctypes.c_ubyte if "b" in signature else ctypes.c_uint64
    return call


def _ask(name: str, slices: list[Any], *others: Any) -> int:
    """The count that a call answers with, or else its refusal. A slice goes with its length."""
    lent = [part for memory in slices for part in (memory, len(memory))]
    answer = _calls[name](*lent, *others)
    number, count = answer & 0xFF, answer >> 8
    if number:
        raise Refusal(number, count)
    return count


_calls = _load()
