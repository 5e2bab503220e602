"""Elements, blocks and lists, as words of a line and back."""

from __future__ import annotations

import re
from operator import index
from typing import Any, Iterable, List, Optional, Sequence, Tuple, Union

Element = Union[int, Tuple[int, int]]
Block = List[Element]
Blocks = List[Optional[Block]]

TYPES = ("int8", "int16", "int32", "int64", "uint8", "uint16", "uint32", "uint64", "2int")
OPERATIONS = ("max", "min", "sum", "prod", "land", "lor", "lxor", "band", "bor", "bxor", "maxloc",
              "minloc")
BLOCK = re.compile(rb"\[([^\]]*)\]|-")


def flat(values: Iterable[Any]) -> List[Any]:
    """Elements as a list; an array of several dimensions in the order of its rows.

    >>> flat((7, 8))
    [7, 8]
    """
    if hasattr(values, "ravel"):
        values = values.ravel()
    return values.tolist() if hasattr(values, "tolist") else list(values)


def numbers(values: Iterable[Element], is_pairs: bool) -> List[str]:
    """The words of elements. What is no whole number is a `TypeError`.

    >>> numbers([(7, 0), (-1, 1)], True)
    ['7', '0', '-1', '1']
    """
    if is_pairs:
        values = (number for value, place in values for number in (value, place))
    return [format(index(number), "d") for number in values]


def listed(values: Iterable[int]) -> str:
    """A list as a field of a line.

    >>> listed([2, 0, 1]), listed([])
    ('2,0,1', '-')
    """
    return ",".join(format(index(value), "d") for value in values) or "-"


def joined(blocks: Sequence[Sequence[Element]]) -> List[Element]:
    """The elements of all blocks, one after the other.

    >>> joined([[1, 2], [], [3]])
    [1, 2, 3]
    """
    return [element for block in blocks for element in block]


def the_count(kind: str, is_given: bool, lengths: List[int]) -> int:
    """The one length of blocks that are given.

    >>> the_count("bcast", True, [2])
    2
    """
    if not is_given:
        raise ValueError(f"{kind}: who gives nothing says count=..")
    if len(set(lengths)) > 1:
        raise ValueError(f"{kind}: blocks of one length, and not of {lengths}")
    return lengths[0] if lengths else 0


def known(word: Any, words: Sequence[str], what: str) -> str:
    """One of these words.

    >>> known("sum", OPERATIONS, "operation")
    'sum'
    """
    if word not in words:
        raise ValueError(f"no {what}: {word!r}")
    return str(word)


def one_word(label: Any) -> str:
    """A label: one word, so that it cannot bring elements of its own.

    >>> one_word("alpha")
    'alpha'
    """
    if not isinstance(label, str) or not label.isascii() or len(label.split()) != 1 or label != label.strip():
        raise ValueError(f"no label: {label!r}")
    return label


def read_block(found: Any, is_pairs: bool) -> Optional[Block]:
    """A block of a delivery, or None for one that is missing.

    >>> [read_block(found, True) for found in BLOCK.finditer(b"[7 0] -")]
    [[(7, 0)], None]
    """
    if found.group(1) is None:
        return None
    read = [int(word) for word in found.group(1).split()]
    return list(zip(read[::2], read[1::2])) if is_pairs else read


def read_delivery(text: bytes, form: str, is_pairs: bool) -> Any:
    """What was delivered: a block, or blocks, one for each rank or slot.

    >>> read_delivery(b"[1 2] - [3]", "slots", False)
    [[1, 2], None, [3]]
    >>> read_delivery(b"none", "block", False)
    """
    if text == b"none":
        return [] if form == "slots" else None
    blocks = [read_block(found, is_pairs) for found in BLOCK.finditer(text)]
    return blocks[0] if form == "block" else blocks
