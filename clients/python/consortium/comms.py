"""Communicators, as mpi4py has them, over those of the thin client."""

from __future__ import annotations

import functools
from typing import Any, Callable, List, Optional, Sequence, Tuple

from . import comm as thin_comms
from .alone import Alone
from .buffers import ARG, COMM, GROUP, RANK, UNSUPPORTED, Exception_
from .collectives import SUM, TABLE, Op, Plan, parts_of
from .errors import ConsortiumError, Denied
from .groups import CONGRUENT, IDENT, PROC_NULL, UNDEFINED, UNEQUAL, Group, strangers
from .requests import Prequest, Request, raised


class Comm:
    """A communicator of processes that behave as MPI's.

    >>> COMM.rank, COMM.size, bool(COMM), bool(MPI.COMM_NULL)
    (0, 1, True, False)
    """

    def __init__(self, thin: Optional[thin_comms.Comm], members: List[int], me: int = 0,
                 label: Optional[str] = None) -> None:
        self._thin, self._members, self._me, self._label = thin, members, me, label
        self.name = ""

    @property
    def thin(self) -> thin_comms.Comm:
        """The communicator of the thin client (`consortium.Comm`).

        >>> COMM.thin
        Comm(0, rank 0 of 1)
        """
        if self._thin is None:
            raise Exception_(COMM, "the null communicator")
        return self._thin

    @property
    def label(self) -> Optional[str]:
        """Whose data its posts give; None: that of the process.

        >>> COMM.label
        'alpha'
        """
        return self._label

    def Set_label(self, label: Optional[str]) -> None:
        """Says whose data the posts on this communicator give from now on.

        >>> twin = COMM.Dup()
        >>> twin.Set_label("beta")
        >>> twin.label
        'beta'
        """
        self._label = label

    def __bool__(self) -> bool:
        return self._thin is not None

    def __eq__(self, other: object) -> bool:
        return isinstance(other, Comm) and self.Compare(self, other) == IDENT

    def __hash__(self) -> int:
        return hash(self._thin.number if self._thin else None)

    def Get_rank(self) -> int:
        """The rank of this process.

        >>> COMM.Get_rank()
        0
        """
        return self.thin.rank

    def Get_size(self) -> int:
        """The number of ranks.

        >>> COMM.Get_size()
        1
        """
        return self.thin.size

    rank, size = property(Get_rank), property(Get_size)

    def Get_group(self) -> Group:
        """Its members. Of what `Split` made they are strangers but for those whose data is public:
        what needs to know who they are raises an exception of class ERR_UNSUPPORTED_OPERATION.

        >>> COMM.Get_group().size
        1
        """
        return Group(self._members, self._me)

    group = property(Get_group)

    @staticmethod
    def Compare(one: Comm, other: Comm) -> int:
        """IDENT (the same), CONGRUENT (the same members in the same order), SIMILAR or UNEQUAL.

        >>> MPI.Comm.Compare(COMM, COMM.Dup()) == MPI.CONGRUENT
        True
        """
        if not one or not other:
            return IDENT if not one and not other else UNEQUAL
        if one.thin.number == other.thin.number:
            return IDENT
        found = Group.Compare(one.Get_group(), other.Get_group())
        return CONGRUENT if found == IDENT else found

    def Get_name(self) -> str:
        """Its name, which is this process's own.

        >>> COMM.Dup().Get_name()
        ''
        """
        return self.name

    def Set_name(self, name: str) -> None:
        """Gives it a name, for this process alone.

        >>> twin = COMM.Dup()
        >>> twin.Set_name("firms")
        >>> twin.Get_name()
        'firms'
        """
        self.name = name

    def Get_topology(self) -> int:
        """CART, or UNDEFINED.

        >>> COMM.Get_topology() == MPI.UNDEFINED
        True
        """
        return UNDEFINED if self.thin.dims is None else CART

    topology = property(Get_topology)

    def Is_inter(self) -> bool:
        """False: there are no intercommunicators.

        >>> COMM.Is_inter()
        False
        """
        return False

    def Free(self) -> None:
        """Forgets it. At the server it stays: communicators are not freed there.

        >>> twin = COMM.Dup()
        >>> twin.Free()
        >>> twin == MPI.COMM_NULL
        True
        """
        self._thin = None

    def Abort(self, errorcode: int = 0) -> None:
        """Closes the pipes and ends this process; the others go on.

        >>> try:
        ...     MPI.COMM_NULL.Abort(3)
        ... except SystemExit as end:
        ...     print(end.code)
        3
        """
        if self._thin is not None:
            self._thin.process.close()
        raise SystemExit(errorcode)

    # Constructors. Each waits, as mpi4py's do.

    def _made(self, post: Callable[[], Any], members: Optional[List[int]], kind: Any = None) -> Any:
        try:
            found = post().wait()
            if found is not None and members is None:
                members = self._told_members(found)
        except ConsortiumError as error:
            raise raised(error) from None
        kind = kind or (Cartcomm if found is not None and found.dims is not None else Intracomm)
        return COMM_NULL if found is None else kind(found, members, self._me, self._label)

    def _told_members(self, made: thin_comms.Comm) -> List[int]:
        """Who is in what a split made, the server tells nobody. Processes that give public data tell
        the others their ranks in the world; all others give nothing, so nothing is charged to
        anybody. Who is not told is a stranger."""
        members = strangers(made.size)
        members[made.rank] = self._me
        if made.size > 1:
            is_public = (self._label or made.process.label) == "public"
            try:
                told = made.Iallgatherv([self._me] if is_public else [], "int32", "public").wait()
            except Denied:
                told = []
            for rank, block in enumerate(told):
                members[rank] = block[0] if block else members[rank]
        return members

    def Dup(self, info: Any = None) -> Comm:
        """A communicator with the same members and grid.

        >>> COMM.Dup().Get_size()
        1
        """
        return self._made(self.thin.Idup, self._members, type(self))

    Clone = Dup

    def Split(self, color: int = 0, key: int = 0) -> Comm:
        """The communicator of all who state this colour, by key and then by rank.

        >>> COMM.Split(3).size, COMM.Split(MPI.UNDEFINED) == MPI.COMM_NULL
        (1, True)
        """
        colour = None if color == UNDEFINED else color
        return self._made(lambda: self.thin.Isplit(colour, key), None, Intracomm)

    def Split_type(self, split_type: int, key: int = 0, info: Any = None) -> Comm:
        """With COMM_TYPE_SHARED, this process alone: firms share no memory.

        >>> COMM.Split_type(MPI.COMM_TYPE_SHARED).size
        1
        """
        if split_type == UNDEFINED:
            return COMM_NULL
        if split_type != COMM_TYPE_SHARED:
            raise Exception_(UNSUPPORTED, "firms share nothing")
        return Intracomm(Alone(self.thin.process), [self._me], self._me, self._label)

    def Create(self, group: Group) -> Comm:
        """That of this group, COMM_NULL for who is not in it. Members of disjoint groups may each
        state their own: it is posted as a split.

        >>> COMM.Create(COMM.group.Incl([0])).size, COMM.Create(MPI.GROUP_EMPTY) == MPI.COMM_NULL
        (1, True)
        """
        ranks = Group.Translate_ranks(group, range(group.size), self.Get_group())
        if UNDEFINED in ranks:
            raise Exception_(RANK, "a group of other processes too")
        colour = None if group.rank == UNDEFINED else ranks[0]
        made = self._made(lambda: self.thin.Isplit(colour, 0 if colour is None else group.rank),
                          list(group.members), Intracomm)
        if made and made.size != group.size:
            raise Exception_(GROUP, "the members stated different groups")
        return made

    def Create_cart(self, dims: Sequence[int], periods: Optional[Sequence[bool]] = None,
                    reorder: bool = False) -> Comm:
        """A grid over the lowest ranks. Nothing is reordered.

        >>> COMM.Create_cart([1], [True]).Get_topology() == MPI.CART
        True
        """
        number = functools.reduce(lambda one, other: one * other, dims, 1)
        return self._made(lambda: self.thin.Icreate_cart(dims, periods), self._members[:number], Cartcomm)

    # Calls on whole numbers, lists of them, and None.

    def _talk(self, post: Callable[[], Any], read: Callable[[Any], Any]) -> Any:
        try:
            return read(post().wait())
        except ConsortiumError as error:
            raise raised(error) from None

    def barrier(self) -> None:
        """Waits until all have come.

        >>> COMM.barrier()
        """
        self._talk(self.thin.Ibarrier, lambda found: None)

    def bcast(self, obj: Any = None, root: int = 0) -> Any:
        """The root's value, at all ranks.

        >>> COMM.bcast([7, 8])
        [7, 8]
        """
        given = words_of(obj) if self.rank == root else []
        return self._talk(lambda: self.thin.Iallgatherv(given, label=self.label),
                          lambda found: value_of(found[root]))

    def gather(self, sendobj: Any, root: int = 0) -> Optional[List[Any]]:
        """The values of all, at the root.

        >>> COMM.gather(7)
        [7]
        """
        return self._talk(lambda: self.thin.Igatherv(words_of(sendobj), root, label=self.label), values_of)

    def allgather(self, sendobj: Any) -> List[Any]:
        """The values of all.

        >>> COMM.allgather([7, 8])
        [[7, 8]]
        """
        return self._talk(lambda: self.thin.Iallgatherv(words_of(sendobj), label=self.label), values_of)

    def scatter(self, sendobj: Optional[Sequence[Any]] = None, root: int = 0) -> Any:
        """One of the root's values for each.

        >>> COMM.scatter([7])
        7
        """
        given = [words_of(it) for it in sendobj or ()] if self.rank == root else ()
        return self._talk(lambda: self.thin.Iscatterv(given, root, label=self.label), value_of)

    def alltoall(self, sendobj: Sequence[Any]) -> List[Any]:
        """One of each rank's values.

        >>> COMM.alltoall([7])
        [7]
        """
        given = [words_of(it) for it in sendobj]
        return self._talk(lambda: self.thin.Ialltoallv(given, label=self.label), values_of)

    def reduce(self, sendobj: Any, op: Op = SUM, root: int = 0) -> Any:
        """The reduction of all values, at the root; of lists, place by place.

        >>> COMM.reduce(7, MPI.MAX)
        7
        """
        return self._fold(lambda given: self.thin.Ireduce(given, op.word, root, label=self.label), sendobj)

    def allreduce(self, sendobj: Any, op: Op = SUM) -> Any:
        """The reduction of all values.

        >>> COMM.allreduce([7, 8])
        [7, 8]
        """
        return self._fold(lambda given: self.thin.Iallreduce(given, op.word, label=self.label), sendobj)

    def scan(self, sendobj: Any, op: Op = SUM) -> Any:
        """That of the ranks up to one's own.

        >>> COMM.scan(7)
        7
        """
        return self._fold(lambda given: self.thin.Iscan(given, op.word, label=self.label), sendobj)

    def exscan(self, sendobj: Any, op: Op = SUM) -> Any:
        """That of the ranks below one's own; None at rank 0.

        >>> COMM.exscan(7) is None
        True
        """
        return self._fold(lambda given: self.thin.Iexscan(given, op.word, label=self.label), sendobj)

    def _fold(self, post: Callable[[List[int]], Any], value: Any) -> Any:
        if not isinstance(value, (list, tuple)):
            return self._talk(lambda: post([value]), lambda found: None if found is None else found[0])
        whole: List[int] = []
        for part in parts_of([len(value)], 1):
            first, count = part.of(0, len(value))
            found = self._talk(lambda: post(list(value[first:first + count])), lambda found: found)
            whole += found or []
        return None if found is None else whole


class Intracomm(Comm):
    """A communicator without a grid.

    >>> type(COMM.Dup()).__name__
    'Intracomm'
    """


class Cartcomm(Intracomm):
    """A communicator with a grid.

    >>> grid = COMM.Create_cart([1, 1], [True, False])
    >>> grid.dim, grid.dims, grid.periods, grid.coords
    (2, [1, 1], [True, False], [0, 0])
    """

    def Get_dim(self) -> int:
        """How many dimensions it has.

        >>> COMM.Create_cart([1, 1]).Get_dim()
        2
        """
        return len(self.thin.dims or [])

    def Get_topo(self) -> Tuple[List[int], List[int], List[int]]:
        """Sides, which are periodic, and this process's coordinates.

        >>> COMM.Create_cart([1], [True]).Get_topo()
        ([1], [1], [0])
        """
        return self.thin.dims or [], [int(it) for it in self.thin.periods or []], self.Get_coords(self.rank)

    def Get_coords(self, rank: int) -> List[int]:
        """The coordinates of a rank.

        >>> COMM.Create_cart([1, 1]).Get_coords(0)
        [0, 0]
        """
        return self._on_grid(lambda: self.thin.Get_coords(rank))

    def Get_cart_rank(self, coords: Sequence[int]) -> int:
        """The rank at these coordinates.

        >>> COMM.Create_cart([1], [True]).Get_cart_rank([5])
        0
        """
        return self._on_grid(lambda: self.thin.Get_cart_rank(coords))

    def Shift(self, direction: int, disp: int) -> Tuple[int, int]:
        """The ranks from which and to which a shift leads; PROC_NULL past an edge.

        >>> COMM.Create_cart([1]).Shift(0, 1) == (MPI.PROC_NULL, MPI.PROC_NULL)
        True
        """
        source, dest = self._on_grid(lambda: self.thin.Shift(direction, disp))
        return PROC_NULL if source is None else source, PROC_NULL if dest is None else dest

    def Sub(self, remain_dims: Sequence[bool]) -> Comm:
        """The part of the grid that keeps the dimensions marked true.

        >>> COMM.Create_cart([1, 1]).Sub([True, False]).dims
        [1]
        """
        mine = self.Get_coords(self.rank)
        same = [rank for rank in range(self.size) if all(
            keep or here == there for keep, here, there in zip(remain_dims, mine, self.Get_coords(rank)))]
        return self._made(lambda: self.thin.Isub(remain_dims), [self._members[rank] for rank in same], Cartcomm)

    def neighbor_allgather(self, sendobj: Any) -> List[Any]:
        """The values of the neighbours; None where there is none.

        >>> COMM.Create_cart([1], [True]).neighbor_allgather(7)
        [7, 7]
        """
        return self._talk(lambda: self.thin.Ineighbor_allgatherv(words_of(sendobj), label=self.label), values_of)

    def neighbor_alltoall(self, sendobj: Sequence[Any]) -> List[Any]:
        """One of each neighbour's values; None where there is none.

        >>> COMM.Create_cart([1], [True]).neighbor_alltoall([7, 8])
        [8, 7]
        """
        given = [words_of(it) for it in sendobj]
        return self._talk(lambda: self.thin.Ineighbor_alltoallv(given, label=self.label), values_of)

    def _on_grid(self, ask: Callable[[], Any]) -> Any:
        try:
            return ask()
        except ValueError as fault:
            raise Exception_(ARG, str(fault)) from None

    dim, topo = property(Get_dim), property(Get_topo)
    dims = property(lambda self: self.thin.dims)
    periods = property(lambda self: self.thin.periods)
    coords = property(lambda self: self.Get_coords(self.rank))


CART, COMM_TYPE_SHARED = 1, 0
COMM_NULL = Intracomm(None, [])


def words_of(value: Any) -> List[int]:
    """A whole number, a list of them, or None, so that all ranks can read which.

    >>> words_of(7), words_of([7, 8]), words_of(None)
    ([0, 7], [1, 7, 8], [])
    """
    if value is None:
        return []
    return [1, *value] if isinstance(value, (list, tuple)) else [0, value]


def value_of(words: Optional[Sequence[int]]) -> Any:
    """What such words are of.

    >>> value_of([0, 7]), value_of([1, 7, 8]), value_of([])
    (7, [7, 8], None)
    """
    if not words:
        return None
    return list(words[1:]) if words[0] == 1 else words[1]


def values_of(blocks: Optional[Sequence[Any]]) -> Any:
    """Those of several.

    >>> values_of([[0, 7], None])
    [7, None]
    """
    return None if blocks is None else [value_of(block) for block in blocks]


def _calls(name: str, describe: Callable[..., Plan]) -> None:
    """Gives communicators the blocking, nonblocking and persistent call of one collective."""
    def blocking(self: Comm, *given: Any, **named: Any) -> None:
        Request(functools.partial(describe, self, *given, **named)).run()

    def nonblocking(self: Comm, *given: Any, **named: Any) -> Request:
        return Request(functools.partial(describe, self, *given, **named)).begin()

    def persistent(self: Comm, *given: Any, **named: Any) -> Prequest:
        return Prequest(functools.partial(describe, self, *given, **named))

    for call, word, how in ((blocking, name, "It waits."), (nonblocking, f"I{name.lower()}", "It gives a request."),
                            (persistent, f"{name}_init", "It gives a request that can be started.")):
        call.__name__, call.__qualname__ = word, f"Comm.{word}"
        what, _, example = (describe.__doc__ or "").partition("\n")
        call.__doc__ = f"{what} {how}\n{example}" if call is blocking else f"{what} {how}"
        setattr(Comm, word, call)


for _name, _describe in TABLE.items():
    _calls(_name, _describe)
