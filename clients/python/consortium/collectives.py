"""What each collective of MPI posts here, and where what it gives is put.

Each function below describes one of them: it gives a `Plan`, by which it is posted and what comes
of it is put into the receiver's memory. The blocking, nonblocking and persistent calls of a
communicator are all made from these (`comms.py`).

A post has 65,536 elements at most. A collective that gives more is cut into several of the same
kind, by what all members know alike: where the root alone gives blocks of one length, and where what
all give is reduced. Each piece has something of every block that has anything, so that it goes
between the same ranks as the whole would. Where each gets what the others gave it is not cut: who
got it could give nothing more to a second piece (the star rule, docs/POLICY.md).
"""

from __future__ import annotations

from typing import TYPE_CHECKING, Any, Callable, Dict, List, NamedTuple, Optional, Sequence, Tuple

from .buffers import ARG, COUNT_, WHOLE, Buffer, Exception_, Part
from .request import Request

if TYPE_CHECKING:
    from .comms import Comm

MOST_ELEMENTS = 65536


class Plan(NamedTuple):
    """A collective before it is posted.

    `post` posts a piece of it, `put` puts what comes of a piece, or is None where nothing is put.
    `lengths` are those of the blocks that a member gives, one or all, and `blocks` how many these
    are; None where it is not cut.

    >>> len(Plan(None, None, [100000]).parts())
    2
    """

    post: Callable[[Part], Request]
    put: Optional[Callable[[Any, Part], None]] = None
    lengths: Optional[Sequence[int]] = None
    blocks: int = 1

    def parts(self) -> List[Part]:
        """The pieces into which it is cut.

        >>> Plan(None).parts()
        [Part(piece=0, pieces=1)]
        """
        return [WHOLE] if self.lengths is None else parts_of(self.lengths, self.blocks)


def parts_of(lengths: Sequence[int], blocks: int) -> List[Part]:
    """The pieces into which so many blocks of these lengths are cut.

    >>> [len(parts_of(*given)) for given in (([65536], 1), ([65537], 1), ([65536], 2), ([9, 65530], 2))]
    [1, 2, 2, 2]
    """
    given = lengths if len(lengths) == blocks else [lengths[0]] * blocks
    pieces = max(1, sum(given) // MOST_ELEMENTS)
    while sum(-(-length // pieces) for length in given) > MOST_ELEMENTS:
        pieces += 1
    if any(0 < length < pieces for length in given):
        raise Exception_(COUNT_, f"blocks of {lengths}, which cannot be cut into {pieces} pieces")
    return [Part(piece, pieces) for piece in range(pieces)]


class InPlace:
    """In place of a buffer: what a rank gives stands where it gets.

    >>> IN_PLACE
    MPI_IN_PLACE
    """

    def __repr__(self) -> str:
        return "MPI_IN_PLACE"


IN_PLACE = InPlace()


class Op:
    """An operation of a reduction.

    >>> SUM
    MPI_SUM
    """

    def __init__(self, word: str) -> None:
        self.word = word

    def __repr__(self) -> str:
        return f"MPI_{self.word.upper()}"


MAX, MIN, SUM, PROD, LAND, LOR, LXOR, BAND, BOR, BXOR, MAXLOC, MINLOC = map(Op, (
    "max", "min", "sum", "prod", "land", "lor", "lxor", "band", "bor", "bxor", "maxloc", "minloc"))


def _given(send: Any, receive: Any) -> Buffer:
    """What a rank of a reduction gives: in place it stands in the receiver's memory."""
    return Buffer(receive if send is IN_PLACE else send)


def _all_into(into: Optional[Buffer], length: int) -> Optional[Callable[[Any, Part], None]]:
    """Puts the piece of a block of this length."""
    if into is None:
        return None
    buffer = into
    return lambda found, part: buffer.put_all(found, part.of(0, length)[0])


def _blocks_into(into: Optional[Buffer]) -> Optional[Callable[[Any, Part], None]]:
    """Puts blocks, which are not cut."""
    if into is None:
        return None
    buffer = into
    return lambda found, part: buffer.put_blocks(found)


def barrier(comm: Comm) -> Plan:
    """All members come to it.

    >>> COMM.Barrier()
    """
    return Plan(lambda part: comm.thin.Ibarrier())


def bcast(comm: Comm, buf: Any, root: int = 0) -> Plan:
    """The root's memory comes to all.

    >>> COMM.Bcast(array("i", [7, 8]), root=0)
    """
    it = Buffer(buf)
    if comm.rank == root:
        return Plan(lambda part: comm.thin.Ibcast(it.all(part), root, it.type.word, label=comm.label), None,
                    [it.length])
    return Plan(lambda part: comm.thin.Ibcast(None, root, it.type.word, count=part.of(0, it.length)[1]),
                _all_into(it, it.length), [it.length])


def gather(comm: Comm, sendbuf: Any, recvbuf: Any = None, root: int = 0) -> Plan:
    """The root gets a block of each, all of one length.

    >>> room = array("i", [0, 0])
    >>> COMM.Gather(array("i", [7, 8]), room)
    >>> room
    array('i', [7, 8])
    """
    return _to_root(comm, comm.thin.Igather, sendbuf, recvbuf, root)


def gatherv(comm: Comm, sendbuf: Any, recvbuf: Any = None, root: int = 0) -> Plan:
    """The root gets a block of each.

    >>> room = array("i", [0, 0])
    >>> COMM.Gatherv(array("i", [7]), [room, [1], [1], MPI.INT])
    >>> room
    array('i', [0, 7])
    """
    return _to_root(comm, comm.thin.Igatherv, sendbuf, recvbuf, root)


def _to_root(comm: Comm, call: Callable[..., Request], send: Any, receive: Any, root: int) -> Plan:
    into = Buffer(receive) if comm.rank == root else None
    given, place, parts = _own_block(comm, send, into)
    return Plan(lambda part: call(given.block(place, parts), root, given.type.word, label=comm.label),
                _blocks_into(into))


def _own_block(comm: Comm, send: Any, into: Optional[Buffer]) -> Tuple[Buffer, int, int]:
    """The buffer that a rank gives a block of, which one, and of how many."""
    if send is IN_PLACE and into is not None:
        return into, comm.rank, comm.size
    return Buffer(send), 0, 1


def scatter(comm: Comm, sendbuf: Any, recvbuf: Any = None, root: int = 0) -> Plan:
    """Each gets its block of the root's, all of one length.

    >>> room = array("i", [0, 0])
    >>> COMM.Scatter(array("i", [7, 8]), room)
    >>> room
    array('i', [7, 8])
    """
    into = None if recvbuf is IN_PLACE else Buffer(recvbuf)
    if comm.rank == root:
        given = Buffer(sendbuf)
        length = given.part_of(0, comm.size)[1]
        return Plan(lambda part: comm.thin.Iscatter(given.blocks(comm.size, part), root, given.type.word,
                                                    label=comm.label),
                    _all_into(into, length), [length], comm.size)
    if into is None:
        raise Exception_(ARG, "in place is for the root")
    return Plan(lambda part: comm.thin.Iscatter(None, root, into.type.word, count=part.of(0, into.length)[1]),
                _all_into(into, into.length), [into.length], comm.size)


def scatterv(comm: Comm, sendbuf: Any, recvbuf: Any = None, root: int = 0) -> Plan:
    """Each gets its block of the root's.

    >>> room = array("i", [0])
    >>> COMM.Scatterv([array("i", [7, 8]), [1], [1], MPI.INT], room)
    >>> room
    array('i', [8])
    """
    into = None if recvbuf is IN_PLACE else Buffer(recvbuf)
    if comm.rank == root:
        given = Buffer(sendbuf)
        return Plan(lambda part: comm.thin.Iscatterv(given.blocks(comm.size), root, given.type.word, label=comm.label),
                    _all_into(into, 0))
    if into is None:
        raise Exception_(ARG, "in place is for the root")
    return Plan(lambda part: comm.thin.Iscatterv((), root, into.type.word), _all_into(into, 0))


def allgather(comm: Comm, sendbuf: Any, recvbuf: Any) -> Plan:
    """Each gets a block of each, all of one length.

    >>> room = array("i", [0])
    >>> COMM.Allgather(array("i", [7]), room)
    >>> room
    array('i', [7])
    """
    return _to_all(comm, comm.thin.Iallgather, sendbuf, recvbuf)


def allgatherv(comm: Comm, sendbuf: Any, recvbuf: Any) -> Plan:
    """Each gets a block of each.

    >>> room = array("i", [0, 0])
    >>> COMM.Allgatherv(array("i", [7]), [room, [1], [1], MPI.INT])
    >>> room
    array('i', [0, 7])
    """
    return _to_all(comm, comm.thin.Iallgatherv, sendbuf, recvbuf)


def _to_all(comm: Comm, call: Callable[..., Request], send: Any, receive: Any) -> Plan:
    into = Buffer(receive)
    given, place, parts = _own_block(comm, send, into)
    return Plan(lambda part: call(given.block(place, parts), given.type.word, label=comm.label),
                _blocks_into(into))


def alltoall(comm: Comm, sendbuf: Any, recvbuf: Any) -> Plan:
    """Each gives a block for each, all of one length.

    >>> room = array("i", [0])
    >>> COMM.Alltoall(array("i", [7]), room)
    >>> room
    array('i', [7])
    """
    return _each_to_each(comm, comm.thin.Ialltoall, sendbuf, recvbuf, comm.size)


def alltoallv(comm: Comm, sendbuf: Any, recvbuf: Any) -> Plan:
    """Each gives a block for each.

    >>> room = array("i", [0, 0])
    >>> COMM.Alltoallv([array("i", [7]), [1], [0], MPI.INT], [room, [1], [1], MPI.INT])
    >>> room
    array('i', [0, 7])
    """
    return _each_to_each(comm, comm.thin.Ialltoallv, sendbuf, recvbuf, comm.size)


def _each_to_each(comm: Comm, call: Callable[..., Request], send: Any, receive: Any,
                  parts: int) -> Plan:
    into, given = Buffer(receive), _given(send, receive)
    return Plan(lambda part: call(given.blocks(parts), given.type.word, label=comm.label), _blocks_into(into))


def reduce(comm: Comm, sendbuf: Any, recvbuf: Any = None, op: Op = SUM, root: int = 0) -> Plan:
    """The root gets the reduction over all.

    >>> room = array("i", [0])
    >>> COMM.Reduce(array("i", [7]), room, op=MPI.MAX)
    >>> room
    array('i', [7])
    """
    given = _given(sendbuf, recvbuf)
    into = Buffer(recvbuf) if comm.rank == root else None
    return Plan(lambda part: comm.thin.Ireduce(given.all(part), op.word, root, given.type.word, label=comm.label),
                _all_into(into, given.length), [given.length])


def allreduce(comm: Comm, sendbuf: Any, recvbuf: Any, op: Op = SUM) -> Plan:
    """Each gets the reduction over all.

    >>> room = array("i", [7])
    >>> COMM.Allreduce(MPI.IN_PLACE, room, op=MPI.SUM)
    >>> room
    array('i', [7])
    """
    return _folded(comm, comm.thin.Iallreduce, sendbuf, recvbuf, op)


def scan(comm: Comm, sendbuf: Any, recvbuf: Any, op: Op = SUM) -> Plan:
    """Each gets the reduction over the ranks up to its own.

    >>> room = array("i", [0])
    >>> COMM.Scan(array("i", [7]), room)
    >>> room
    array('i', [7])
    """
    return _folded(comm, comm.thin.Iscan, sendbuf, recvbuf, op)


def exscan(comm: Comm, sendbuf: Any, recvbuf: Any, op: Op = SUM) -> Plan:
    """Each but rank 0 gets the reduction over the ranks below its own.

    >>> room = array("i", [0])
    >>> COMM.Exscan(array("i", [7]), room)    # rank 0 gets nothing
    >>> room
    array('i', [0])
    """
    return _folded(comm, comm.thin.Iexscan, sendbuf, recvbuf, op)


def _folded(comm: Comm, call: Callable[..., Request], send: Any, receive: Any, op: Op) -> Plan:
    given, into = _given(send, receive), Buffer(receive)
    return Plan(lambda part: call(given.all(part), op.word, given.type.word, label=comm.label),
                _all_into(into, given.length), [given.length])


def reduce_scatter_block(comm: Comm, sendbuf: Any, recvbuf: Any, op: Op = SUM) -> Plan:
    """Each gets its block of the reduction over all, all of one length.

    >>> room = array("i", [0])
    >>> COMM.Reduce_scatter_block(array("i", [7]), room)
    >>> room
    array('i', [7])
    """
    given, into = _given(sendbuf, recvbuf), Buffer(recvbuf)
    if given.length % comm.size:
        raise Exception_(COUNT_, f"{given.length} elements for {comm.size} ranks")
    length = given.length // comm.size
    return Plan(lambda part: comm.thin.Ireduce_scatter_block(given.blocks(comm.size, part), op.word,
                                                             given.type.word, label=comm.label),
                _all_into(into, length), [length], comm.size)


def reduce_scatter(comm: Comm, sendbuf: Any, recvbuf: Any, recvcounts: Optional[List[int]] = None,
                   op: Op = SUM) -> Plan:
    """Each gets its block of the reduction over all.

    >>> room = array("i", [0])
    >>> COMM.Reduce_scatter(array("i", [7]), room, [1])
    >>> room
    array('i', [7])
    """
    given, into = _given(sendbuf, recvbuf), Buffer(recvbuf)
    if recvcounts is None:
        raise Exception_(COUNT_, "recvcounts says how many elements each rank gets")
    given.counts = [int(count) for count in recvcounts]
    given.starts = [sum(given.counts[:rank]) for rank in range(len(given.counts))]
    return Plan(lambda part: comm.thin.Ireduce_scatter(given.blocks(comm.size, part), op.word, given.type.word,
                                                       label=comm.label),
                _all_into(into, given.counts[comm.rank]), given.counts, comm.size)


def neighbor_allgather(comm: Comm, sendbuf: Any, recvbuf: Any) -> Plan:
    """Each neighbour on the grid gets the block, all of one length.

    >>> room = array("i", [0, 0])
    >>> COMM.Create_cart([1], [True]).Neighbor_allgather(array("i", [7]), room)
    >>> room
    array('i', [7, 7])
    """
    return _beside(comm, comm.thin.Ineighbor_allgather, sendbuf, recvbuf)


def neighbor_allgatherv(comm: Comm, sendbuf: Any, recvbuf: Any) -> Plan:
    """Each neighbour on the grid gets the block.

    >>> room = array("i", [0, 0, 0])
    >>> COMM.Create_cart([1], [True]).Neighbor_allgatherv(array("i", [7]), [room, [1, 1], [0, 2], MPI.INT])
    >>> room
    array('i', [7, 0, 7])
    """
    return _beside(comm, comm.thin.Ineighbor_allgatherv, sendbuf, recvbuf)


def _beside(comm: Comm, call: Callable[..., Request], send: Any, receive: Any) -> Plan:
    given, into = Buffer(send), Buffer(receive)
    return Plan(lambda part: call(given.all(), given.type.word, label=comm.label), _blocks_into(into))


def neighbor_alltoall(comm: Comm, sendbuf: Any, recvbuf: Any) -> Plan:
    """Each neighbour on the grid gets a block of its own, all of one length.

    >>> room = array("i", [0, 0])
    >>> COMM.Create_cart([1], [True]).Neighbor_alltoall(array("i", [7, 8]), room)
    >>> room
    array('i', [8, 7])
    """
    return _slots(comm, comm.thin.Ineighbor_alltoall, sendbuf, recvbuf)


def neighbor_alltoallv(comm: Comm, sendbuf: Any, recvbuf: Any) -> Plan:
    """Each neighbour on the grid gets a block of its own.

    >>> room = array("i", [0, 0])
    >>> given = [array("i", [7, 8]), [1, 1], [0, 1], MPI.INT]
    >>> COMM.Create_cart([1], [True]).Neighbor_alltoallv(given, [room, [1, 1], [0, 1], MPI.INT])
    >>> room
    array('i', [8, 7])
    """
    return _slots(comm, comm.thin.Ineighbor_alltoallv, sendbuf, recvbuf)


def _slots(comm: Comm, call: Callable[..., Request], send: Any, receive: Any) -> Plan:
    if comm.thin.dims is None:
        raise Exception_(ARG, "no grid")
    return _each_to_each(comm, call, send, receive, 2 * len(comm.thin.dims))


TABLE: Dict[str, Callable[..., Plan]] = {it.__name__.capitalize(): it for it in (
    barrier, bcast, gather, gatherv, scatter, scatterv, allgather, allgatherv, alltoall, alltoallv,
    reduce, allreduce, scan, exscan, reduce_scatter_block, reduce_scatter, neighbor_allgather,
    neighbor_allgatherv, neighbor_alltoall, neighbor_alltoallv)}
