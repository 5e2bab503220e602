"""Communicators, and the calls on them."""

from __future__ import annotations

import re
from operator import index
from typing import TYPE_CHECKING, Any, Iterable, Optional, Sequence

from .grid import Grid, OnGrid
from .request import Request
from .values import (OPERATIONS, TYPES, Element, flat, joined, known, listed, numbers, one_word,
                     the_count)

if TYPE_CHECKING:
    from .process import Process

# A field that is a number, a list, or no colour.
FIELD = re.compile(r"[-0-9,]+|undefined")


class Comm(OnGrid):
    """A communicator: its `number` at the server, the process's `rank` in it, and its `size`.

    The calls whose names begin with I post, and give a `Request`. What a rank gets is said of each;
    it is None for the ranks that get nothing. `type` is one of int8, int16, int32, int64, uint8,
    uint16, uint32, uint64 and 2int, `op` one of max, min, sum, prod, land, lor, lxor, band, bor and
    bxor, and of 2int maxloc and minloc. Sums wrap at the width of the type.

    >>> world.number, world.rank, world.size
    (0, 0, 1)
    """

    def __init__(self, process: Process, number: int, rank: int, size: int,
                 grid: Optional[Grid] = None) -> None:
        self.process, self.number, self.rank, self.size = process, number, rank, size
        self._grid = grid

    def __repr__(self) -> str:
        return f"Comm({self.number}, rank {self.rank} of {self.size})"

    # Collectives.

    def Ibarrier(self) -> Request:
        """Nothing is given, and nothing got.

        >>> world.Ibarrier().wait()
        """
        return self._post("barrier", form="block")

    def Ibcast(self, values: Optional[Iterable[Element]] = None, root: int = 0,
               type: str = "int64", count: Optional[int] = None,
               label: Optional[str] = None) -> Request:
        """The root gives a block; all but the root get it.

        >>> world.Ibcast([7, -1], root=0, type="int32").wait()    # the root gets nothing
        """
        return self._post_block("bcast", values, type, label, count, [root])

    def Igather(self, values: Iterable[Element], root: int = 0, type: str = "int64",
                label: Optional[str] = None) -> Request:
        """Each gives a block, all of one length; the root gets a block of each rank.

        >>> world.Igather([7, 8]).wait()
        [[7, 8]]
        """
        return self._post_block("gather", values, type, label, None, [root], form="ranks")

    def Igatherv(self, values: Iterable[Element] = (), root: int = 0, type: str = "int64",
                 label: Optional[str] = None) -> Request:
        """Each gives a block of any length; the root gets a block of each rank.

        >>> world.Igatherv([]).wait()
        [[]]
        """
        return self._post("gatherv", root, type, values=values, label=label, form="ranks")

    def Iscatter(self, blocks: Optional[Sequence[Iterable[Element]]] = None, root: int = 0,
                 type: str = "int64", count: Optional[int] = None,
                 label: Optional[str] = None) -> Request:
        """The root gives a block for each rank, all of one length; each gets its own.

        >>> world.Iscatter([[7, 8]]).wait()
        [7, 8]
        """
        return self._post_blocks("scatter", blocks, type, label, count, [root], form="block")

    def Iscatterv(self, blocks: Sequence[Iterable[Element]] = (), root: int = 0,
                  type: str = "int64", label: Optional[str] = None) -> Request:
        """The root gives a block for each rank, of any lengths; each gets its own.

        >>> world.Iscatterv([[7]]).wait()
        [7]
        """
        return self._post_counts("scatterv", blocks, type, label, [root], form="block")

    def Iallgather(self, values: Iterable[Element], type: str = "int64",
                   label: Optional[str] = None) -> Request:
        """Each gives a block, all of one length; each gets a block of each rank.

        >>> world.Iallgather([7, 8]).wait()
        [[7, 8]]
        """
        return self._post_block("allgather", values, type, label, None, form="ranks")

    def Iallgatherv(self, values: Iterable[Element] = (), type: str = "int64",
                    label: Optional[str] = None) -> Request:
        """Each gives a block of any length; each gets a block of each rank.

        >>> world.Iallgatherv([7]).wait()
        [[7]]
        """
        return self._post("allgatherv", type, values=values, label=label, form="ranks")

    def Ialltoall(self, blocks: Sequence[Iterable[Element]], type: str = "int64",
                  label: Optional[str] = None) -> Request:
        """Each gives a block for each rank, all of one length; each gets a block of each rank.

        >>> world.Ialltoall([[7, 8]]).wait()
        [[7, 8]]
        """
        return self._post_blocks("alltoall", blocks, type, label, None, form="ranks")

    def Ialltoallv(self, blocks: Sequence[Iterable[Element]], type: str = "int64",
                   label: Optional[str] = None) -> Request:
        """Each gives a block for each rank, of any lengths; each gets a block of each rank.

        >>> world.Ialltoallv([[7]]).wait()
        [[7]]
        """
        return self._post_counts("alltoallv", blocks, type, label, form="ranks")

    def Ireduce(self, values: Iterable[Element], op: str = "sum", root: int = 0,
                type: str = "int64", label: Optional[str] = None) -> Request:
        """Each gives a block; the root gets the reduction over all.

        >>> world.Ireduce([7, 8], op="max").wait()
        [7, 8]
        """
        return self._post_block("reduce", values, type, label, None, [root, op])

    def Iallreduce(self, values: Iterable[Element], op: str = "sum", type: str = "int64",
                   label: Optional[str] = None) -> Request:
        """Each gives a block; each gets the reduction over all.

        >>> world.Iallreduce([(7, 0)], op="maxloc", type="2int").wait()
        [(7, 0)]
        """
        return self._post_block("allreduce", values, type, label, None, [op])

    def Ireduce_scatter(self, blocks: Sequence[Iterable[Element]], op: str = "sum",
                        type: str = "int64", label: Optional[str] = None) -> Request:
        """Each gives a block for each rank; each gets the reduction of those that are for it. Block
        j has one length with all members, and may have another than block k.

        >>> world.Ireduce_scatter([[7, 8]]).wait()
        [7, 8]
        """
        return self._post_counts("reduce_scatter", blocks, type, label, [op], form="block")

    def Ireduce_scatter_block(self, blocks: Sequence[Iterable[Element]], op: str = "sum",
                              type: str = "int64", label: Optional[str] = None) -> Request:
        """Each gives a block for each rank, all of one length; each gets the reduction of those
        that are for it.

        >>> world.Ireduce_scatter_block([[7, 8]]).wait()
        [7, 8]
        """
        return self._post_blocks("reduce_scatter_block", blocks, type, label, None, [op],
                                 form="block")

    def Iscan(self, values: Iterable[Element], op: str = "sum", type: str = "int64",
              label: Optional[str] = None) -> Request:
        """Each gives a block; each gets the reduction over the ranks up to its own.

        >>> world.Iscan([7]).wait()
        [7]
        """
        return self._post_block("scan", values, type, label, None, [op])

    def Iexscan(self, values: Iterable[Element], op: str = "sum", type: str = "int64",
                label: Optional[str] = None) -> Request:
        """Each gives a block; each but rank 0 gets the reduction over the ranks below its own.

        >>> world.Iexscan([7]).wait()
        """
        return self._post_block("exscan", values, type, label, None, [op])

    # Collectives on a grid. The slots of a rank are, for each dimension, that of its negative and
    # that of its positive neighbour. A list of blocks has None where there is no neighbour.

    def Ineighbor_allgather(self, values: Iterable[Element], type: str = "int64",
                            label: Optional[str] = None) -> Request:
        """Each gives a block, all of one length; each gets a block of each neighbour.

        >>> grid = world.Create_cart([1], [1])
        >>> grid.Ineighbor_allgather([7]).wait()
        [[7], [7]]
        """
        return self._post_block("neighbor_allgather", values, type, label, None, form="slots")

    def Ineighbor_allgatherv(self, values: Iterable[Element] = (), type: str = "int64",
                             label: Optional[str] = None) -> Request:
        """Each gives a block of any length; each gets a block of each neighbour.

        >>> grid = world.Create_cart([1], [0])
        >>> grid.Ineighbor_allgatherv([7]).wait()
        [None, None]
        """
        return self._post("neighbor_allgatherv", type, values=values, label=label, form="slots")

    def Ineighbor_alltoall(self, blocks: Sequence[Iterable[Element]], type: str = "int64",
                           label: Optional[str] = None) -> Request:
        """Each gives a block for each slot, all of one length; each gets a block of each neighbour.

        >>> grid = world.Create_cart([1], [1])
        >>> grid.Ineighbor_alltoall([[7], [8]]).wait()
        [[8], [7]]
        """
        return self._post_blocks("neighbor_alltoall", blocks, type, label, None, form="slots")

    def Ineighbor_alltoallv(self, blocks: Sequence[Iterable[Element]], type: str = "int64",
                            label: Optional[str] = None) -> Request:
        """Each gives a block for each slot, of any lengths; each gets a block of each neighbour.

        >>> grid = world.Create_cart([1], [1])
        >>> grid.Ineighbor_alltoallv([[], [8]]).wait()
        [[8], []]
        """
        return self._post_counts("neighbor_alltoallv", blocks, type, label, form="slots")

    # Constructors: the outcome is the new communicator, or None for who is in none.

    def Idup(self) -> Request:
        """A communicator with the same group and grid.

        >>> world.Idup().wait().size
        1
        """
        request = self._post("dup")
        request._grid = self._grid
        return request

    def Isplit(self, color: Optional[int] = 0, key: int = 0) -> Request:
        """The communicator of all that state this colour, by key and then by rank. Who states None
        is in none.

        >>> world.Isplit(color=None).wait()
        """
        return self._post("split", "undefined" if color is None else color, key)

    def Icreate(self, ranks: Iterable[int]) -> Request:
        """The communicator of these ranks, in this order; all members state them alike.

        >>> world.Icreate([0]).wait().rank
        0
        """
        return self._post("create", listed(ranks))

    def Icreate_cart(self, dims: Iterable[int],
                     periods: Optional[Iterable[bool]] = None) -> Request:
        """A grid over the lowest ranks. Without `periods` no dimension is periodic.

        >>> world.Icreate_cart([1, 1], [True, False]).wait().dims
        [1, 1]
        """
        sides = [index(side) for side in dims]
        ends = [False] * len(sides) if periods is None else [bool(end) for end in periods]
        request = self._post("cart_create", listed(sides), listed(ends))
        request._grid = sides, ends
        return request

    def Isub(self, remain_dims: Iterable[bool]) -> Request:
        """The part of the grid that keeps the dimensions marked true.

        >>> world.Create_cart([1, 1]).Isub([True, False]).wait().dims
        [1]
        """
        keeps = [bool(keep) for keep in remain_dims]
        request = self._post("cart_sub", listed(keeps))
        if self._grid is not None:
            sides, ends = ([it for it, keep in zip(row, keeps) if keep] for row in self._grid)
            request._grid = sides, ends
        return request

    def Dup(self) -> Comm:
        """Waits for `Idup`.

        >>> world.Dup().size
        1
        """
        return self.Idup().wait()

    def Split(self, color: Optional[int] = 0, key: int = 0) -> Optional[Comm]:
        """Waits for `Isplit`.

        >>> world.Split(3).size
        1
        """
        return self.Isplit(color, key).wait()

    def Create(self, ranks: Iterable[int]) -> Optional[Comm]:
        """Waits for `Icreate`.

        >>> world.Create([0]).size
        1
        """
        return self.Icreate(ranks).wait()

    def Create_cart(self, dims: Iterable[int],
                    periods: Optional[Iterable[bool]] = None) -> Optional[Comm]:
        """Waits for `Icreate_cart`.

        >>> world.Create_cart([1]).dims
        [1]
        """
        return self.Icreate_cart(dims, periods).wait()

    def Sub(self, remain_dims: Iterable[bool]) -> Comm:
        """Waits for `Isub`.

        >>> world.Create_cart([1, 1]).Sub([True, False]).dims
        [1]
        """
        return self.Isub(remain_dims).wait()

    def _post_block(self, kind: str, values: Optional[Iterable[Element]], type: str,
                    label: Optional[str], count: Optional[int], fields: Sequence[Any] = (),
                    form: str = "block") -> Request:
        """A post with a COUNT, of one block."""
        block = [] if values is None else flat(values)
        if count is None:
            count = the_count(kind, values is not None, [len(block)])
        return self._post(kind, *fields, type, count, values=block, label=label, form=form)

    def _post_blocks(self, kind: str, blocks: Optional[Sequence[Iterable[Element]]], type: str,
                     label: Optional[str], count: Optional[int], fields: Sequence[Any] = (),
                     form: str = "block") -> Request:
        """A post with a COUNT, of blocks of that length."""
        parts = [flat(block) for block in (() if blocks is None else blocks)]
        if count is None:
            count = the_count(kind, blocks is not None, [len(part) for part in parts])
        return self._post(kind, *fields, type, count, values=joined(parts), label=label, form=form)

    def _post_counts(self, kind: str, blocks: Sequence[Iterable[Element]], type: str,
                     label: Optional[str], fields: Sequence[Any] = (),
                     form: str = "block") -> Request:
        """A post with COUNTS, of blocks."""
        parts = [flat(block) for block in blocks]
        counts = listed(len(part) for part in parts)
        return self._post(kind, *fields, type, counts, values=joined(parts), label=label, form=form)

    def _post(self, kind: str, *fields: Any, values: Iterable[Element] = (),
              label: Optional[str] = None, form: str = "comm") -> Request:
        for field in fields:
            if isinstance(field, str) and not FIELD.fullmatch(field):
                known(field, TYPES + OPERATIONS, "type or operation")
        is_pairs = "2int" in fields
        words = numbers(flat(values), is_pairs)
        told = [field if isinstance(field, str) else format(index(field), "d") for field in fields]
        call = " ".join(["post", str(self.number), kind, *told])
        if words:
            label = self.process.label if label is None else label
            if label is None:
                raise ValueError("who gives elements says whose they are: label=..")
            call = " ".join([call, "as", one_word(label), *words])
        request = self.process._post(call, form, is_pairs)
        request._comm = self.number
        return request
