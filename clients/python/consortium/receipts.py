"""Receipts: what a member holds of the book while it is written, by which it sees later whether the
book that is handed out is that one."""

from __future__ import annotations

import hashlib
import os
import re
from dataclasses import dataclass
from typing import Iterable, Iterator, Optional, Union

PIECE = 1 << 20
LINE = re.compile(r"head (0|[1-9][0-9]*) ([0-9a-f]{64})|head 0 -")


@dataclass(frozen=True)
class Receipt:
    """At some time the book had so many entries, and its text so far, the first line and those of
    the entries, had this digest: a SHA-256 in 64 hex digits. The digest is None where there was
    nothing to tell: the server keeps no book, or had answered no call of the session.

    As text it is the server's line, which `read_receipt` reads again: so it can be kept.

    >>> print(Receipt(0, None))
    head 0 -
    """

    entries: int
    digest: Optional[str]

    def __str__(self) -> str:
        return f"head {self.entries} {'-' if self.digest is None else self.digest}"


def read_receipt(line: str) -> Receipt:
    """The receipt of a line, with or without its LF. What is none is a `ValueError`.

    >>> read_receipt("head 0 -")
    Receipt(entries=0, digest=None)
    """
    found = LINE.fullmatch(line[:-1] if line.endswith("\n") else line)
    if not found:
        raise ValueError(f"no receipt: {line[:100]!r}")
    return Receipt(int(found[1] or 0), found[2])


def verify(book: Union[str, os.PathLike[str], Iterable[bytes]], receipt: Receipt) -> bool:
    """Whether a book begins with the text that the receipt was given for.

    The book is the path of a file, or its bytes in pieces, as lines: what a file gives that is open
    for reading bytes. No more of it is read than the receipt speaks of, and little is in memory.

    False where the first lines, one more than the receipt has entries, have another digest, and
    where the book has fewer lines than that. What stands behind them is not looked at: `consortium
    audit` says whether the book is sound. A receipt without a digest speaks of no book, and is a
    `ValueError`.

    >>> import hashlib
    >>> receipt = Receipt(1, hashlib.sha256(b"book 2\\npost ..\\n").hexdigest())
    >>> verify([b"book 2\\n", b"post ..\\n", b"end 1\\n"], receipt)
    True
    >>> verify([b"book 2\\n", b"end 0\\n"], receipt), verify([b"book 2\\n"], receipt)
    (False, False)
    """
    if receipt.digest is None:
        raise ValueError(f"it speaks of no book: {receipt}")
    hasher, left = hashlib.sha256(), receipt.entries + 1
    for piece in pieces_of(book):
        lines = piece.count(b"\n")
        if lines >= left:
            hasher.update(piece[:end_of_line(piece, left)])
            return hasher.hexdigest() == receipt.digest
        hasher.update(piece)
        left -= lines
    return False


def pieces_of(book: Union[str, os.PathLike[str], Iterable[bytes]]) -> Iterator[bytes]:
    """The bytes of a book, piece by piece.

    >>> list(pieces_of([b"book 2\\n", b"end 0\\n"]))
    [b'book 2\\n', b'end 0\\n']
    """
    if isinstance(book, (bytes, bytearray, memoryview)):
        raise TypeError("a path, or the bytes of a book in pieces, and not in one")
    if isinstance(book, (str, os.PathLike)):
        with open(book, "rb") as file:
            yield from iter(lambda: file.read(PIECE), b"")
    else:
        yield from book


def end_of_line(piece: bytes, number: int) -> int:
    """Where the line of this number, from 1, ends in a piece that has so many.

    >>> end_of_line(b"one\\ntwo\\nthree", 2)
    8
    """
    end = 0
    for _ in range(number):
        end = piece.index(b"\n", end) + 1
    return end
