"""Buffers, as mpi4py takes them: memory of some type, with counts and displacements.

A specification is `buf`, `[buf, count]`, `[buf, type]`, `[buf, count, type]`, or, of several parts,
`[buf, counts, displacements, type]` and `[buf, (counts, displacements), type]`. `buf` is whatever
shows its memory: a numpy array, an `array`, a `bytearray`, a `memoryview`. Counts and displacements
are in elements of the type.
"""

from __future__ import annotations

import struct
from operator import index
from typing import Any, List, NamedTuple, Optional, Sequence, Tuple


class Datatype:
    """An integer type of some width, or the pair of two that maxloc takes.

    >>> INT32_T.Get_size(), INT32_T.name
    (4, 'MPI_INT32_T')
    """

    def __init__(self, name: str, word: str, format: str) -> None:
        self.name, self.word, self._format = name, word, format

    def __repr__(self) -> str:
        return f"<{self.name}>"

    def Get_size(self) -> int:
        """How many bytes an element has.

        >>> MPI.TWOINT.Get_size()
        8
        """
        return struct.calcsize(self._format)

    def Get_name(self) -> str:
        """Its name in MPI.

        >>> MPI.INT.Get_name()
        'MPI_INT32_T'
        """
        return self.name

    def Get_extent(self) -> Tuple[int, int]:
        """Where an element begins, and how many bytes lie to the next.

        >>> MPI.LONG.Get_extent()
        (0, 8)
        """
        return 0, self.Get_size()

    def unpack(self, memory: memoryview, first: int, count: int) -> List[Any]:
        """So many elements from this one on, as whole numbers, or pairs of them.

        >>> MPI.INT8_T.unpack(memoryview(b"\\x01\\xff\\x03"), 1, 2)
        [-1, 3]
        """
        size = self.Get_size()
        if first < 0 or count < 0 or (first + count) * size > len(memory):
            raise Exception_(TRUNCATE, f"{count} elements from {first} on, of {len(memory) // size}")
        found = [it for it in struct.iter_unpack(self._format, memory[first * size:(first + count) * size])]
        return found if self.word == "2int" else [number for number, in found]

    def pack(self, memory: memoryview, first: int, elements: Sequence[Any]) -> None:
        """Puts these elements from this one on.

        >>> room = bytearray(3)
        >>> MPI.INT8_T.pack(memoryview(room), 1, [-1])
        >>> room
        bytearray(b'\\x00\\xff\\x00')
        """
        size = self.Get_size()
        if first < 0 or (first + len(elements)) * size > len(memory):
            raise Exception_(TRUNCATE, f"{len(elements)} elements from {first} on, in {len(memory) // size}")
        if memory.readonly:
            raise Exception_(BUFFER, "a buffer that cannot be written")
        for at, element in enumerate(elements, first):
            words = element if self.word == "2int" else (element,)
            struct.pack_into(self._format, memory, at * size, *words)


# Classes of errors, by their numbers in MPI's own order.
SUCCESS, BUFFER, COUNT_, TYPE, COMM, RANK, ROOT, GROUP, OP, TOPOLOGY, DIMS, ARG, TRUNCATE, OTHER, \
    INTERN, REQUEST, UNSUPPORTED, NO_MEM, DENIED = range(19)
CLASSES = ("SUCCESS", "BUFFER", "COUNT", "TYPE", "COMM", "RANK", "ROOT", "GROUP", "OP", "TOPOLOGY",
           "DIMS", "ARG", "TRUNCATE", "OTHER", "INTERN", "REQUEST", "UNSUPPORTED_OPERATION",
           "NO_MEM", "DENIED")


class Exception_(RuntimeError):
    """What a call raises that went wrong, with the class of its error.

    >>> Exception_(ROOT, "7").Get_error_string()
    'MPI_ERR_ROOT: 7'
    """

    def __init__(self, number: int, words: str = "") -> None:
        super().__init__(number, words)
        self.number, self.words = number, words

    def __str__(self) -> str:
        return self.Get_error_string()

    def Get_error_class(self) -> int:
        """The class of the error: one of the numbers `ERR_..`.

        >>> MPI.Exception(MPI.ERR_ROOT).Get_error_class() == MPI.ERR_ROOT
        True
        """
        return self.number

    def Get_error_code(self) -> int:
        """The same: there is one code of each class.

        >>> MPI.Exception(MPI.ERR_ROOT).Get_error_code() == MPI.ERR_ROOT
        True
        """
        return self.number

    def Get_error_string(self) -> str:
        """The name of the class, and what was wrong.

        >>> MPI.Exception(MPI.ERR_ROOT, "7").Get_error_string()
        'MPI_ERR_ROOT: 7'
        """
        return f"MPI_ERR_{CLASSES[self.number]}: {self.words}"


INT8_T, INT16_T = Datatype("MPI_INT8_T", "int8", "=b"), Datatype("MPI_INT16_T", "int16", "=h")
INT32_T, INT64_T = Datatype("MPI_INT32_T", "int32", "=i"), Datatype("MPI_INT64_T", "int64", "=q")
UINT8_T, UINT16_T = Datatype("MPI_UINT8_T", "uint8", "=B"), Datatype("MPI_UINT16_T", "uint16", "=H")
UINT32_T, UINT64_T = Datatype("MPI_UINT32_T", "uint32", "=I"), Datatype("MPI_UINT64_T", "uint64", "=Q")
TWOINT = Datatype("MPI_2INT", "2int", "=ii")
SIGNED = {1: INT8_T, 2: INT16_T, 4: INT32_T, 8: INT64_T}
UNSIGNED = {1: UINT8_T, 2: UINT16_T, 4: UINT32_T, 8: UINT64_T}


def type_of(view: memoryview) -> Datatype:
    """The type of what an array holds.

    >>> type_of(memoryview(array("h", [7])))
    <MPI_INT16_T>
    """
    code = view.format.lstrip("@=<>!")
    if code in ("b", "h", "i", "l", "q", "n"):
        return SIGNED[view.itemsize]
    if code in ("B", "H", "I", "L", "Q", "N", "?"):
        return UNSIGNED[view.itemsize]
    raise Exception_(TYPE, f"no integer type: {view.format!r}")


class Part(NamedTuple):
    """A piece of so many, into which a collective of many elements is cut.

    >>> [Part(piece, 3).of(10, 7) for piece in range(3)]
    [(10, 3), (13, 2), (15, 2)]
    """

    piece: int
    pieces: int

    def of(self, first: int, count: int) -> Tuple[int, int]:
        """Where its part of a block begins, and how many elements that has.

        >>> Part(1, 2).of(0, 5)
        (3, 2)
        """
        each, longer = divmod(count, self.pieces)
        return first + self.piece * each + min(self.piece, longer), each + (self.piece < longer)


WHOLE = Part(0, 1)


class Buffer:
    """Memory as elements of a type, in parts.

    >>> from array import array
    >>> Buffer([array("i", [5, 6, 7]), 2]).all()
    [5, 6]
    """

    def __init__(self, given: Any) -> None:
        parts = list(given) if isinstance(given, (list, tuple)) else [given]
        view = memoryview(parts[0])
        if not view.c_contiguous:
            raise Exception_(BUFFER, "memory that is not of one piece")
        self.type = parts.pop() if isinstance(parts[-1], Datatype) else type_of(view)
        self.memory = view.cast("B")
        self.length = len(self.memory) // self.type.Get_size()
        self.counts, self.starts = self._parts(parts[1:])

    def _parts(self, given: List[Any]) -> Tuple[Optional[List[int]], Optional[List[int]]]:
        """Counts and displacements, as far as they are given."""
        if len(given) == 1 and isinstance(given[0], tuple) and len(given[0]) == 2 and not _is_number(given[0][0]):
            given = list(given[0])
        if not given or given[0] is None:
            return None, None
        if _is_number(given[0]):
            self.length = index(given[0])
            return None, None
        counts = [index(it) for it in given[0]]
        if len(given) > 1 and given[1] is not None:
            return counts, [index(it) for it in given[1]]
        return counts, [sum(counts[:at]) for at in range(len(counts))]

    def all(self, part: Part = WHOLE) -> List[Any]:
        """All its elements, or those of a piece.

        >>> Buffer(array("i", [5, 6])).all()
        [5, 6]
        """
        return self.type.unpack(self.memory, *part.of(0, self.length))

    def part_of(self, number: int, parts: int) -> Tuple[int, int]:
        """Where a part begins, and how many elements it has.

        >>> Buffer([array("i", [5, 6, 7]), [1, 2], None, MPI.INT]).part_of(1, 2)
        (1, 2)
        """
        if self.counts is not None and self.starts is not None:
            return self.starts[number], self.counts[number]
        each = self.length // parts if parts else 0
        return number * each, each

    def block(self, number: int, parts: int, part: Part = WHOLE) -> List[Any]:
        """The elements of a part, or those of them that are in a piece.

        >>> Buffer(array("i", [5, 6, 7, 8])).block(1, 2)
        [7, 8]
        """
        return self.type.unpack(self.memory, *part.of(*self.part_of(number, parts)))

    def blocks(self, parts: int, part: Part = WHOLE) -> List[List[Any]]:
        """Those of each part.

        >>> Buffer(array("i", [5, 6, 7, 8])).blocks(2)
        [[5, 6], [7, 8]]
        """
        return [self.block(number, parts, part) for number in range(parts)]

    def put_all(self, elements: Sequence[Any], skipped: int = 0) -> None:
        """Puts elements behind so many.

        >>> room = array("i", [0, 0])
        >>> Buffer(room).put_all([7], 1)
        >>> room
        array('i', [0, 7])
        """
        self.type.pack(self.memory, skipped, elements)

    def put_blocks(self, blocks: Sequence[Optional[Sequence[Any]]]) -> None:
        """Puts a block into each part; one that is missing leaves its part alone.

        >>> room = array("i", [0, 0])
        >>> Buffer(room).put_blocks([None, [7]])
        >>> room
        array('i', [0, 7])
        """
        for number, block in enumerate(blocks):
            first, count = self.part_of(number, len(blocks))
            if block is not None:
                if len(block) > count:
                    raise Exception_(TRUNCATE, f"{len(block)} elements for {count}")
                self.type.pack(self.memory, first, block)


def _is_number(value: Any) -> bool:
    try:
        index(value)
    except TypeError:
        return False
    return True
