"""mpi4py's surface over the wall: `from consortium import MPI` is what changes of a program.

    from consortium import MPI

    comm = MPI.COMM_WORLD
    total = comm.allreduce(120, op=MPI.SUM)

Who the process is stands in the environment: CONSORTIUM_DIR is the folder of the pipes,
CONSORTIUM_PROCESS the name, CONSORTIUM_LABEL whose data its posts give (`Comm.Set_label` says it
anew). The pipes are opened when COMM_WORLD is first used, and left when the interpreter ends.

Upper-case calls take buffers (`consortium.buffers`), lower-case ones whole numbers, lists of them
and None. What is not here is said on docs/MPI.md; an instance that the wall denies raises
`DeniedException`, whose error class is ERR_DENIED.
"""

from __future__ import annotations

import atexit
import os
import time
from typing import List, Optional, Sequence

from . import buffers as _buffers
from . import comm as _thin
from .alone import Alone as _Alone
from .buffers import (INT8_T, INT16_T, INT32_T, INT64_T, TWOINT, UINT8_T, UINT16_T, UINT32_T,
                      UINT64_T, Datatype)
from .buffers import Exception_ as Exception
from .collectives import (BAND, BOR, BXOR, IN_PLACE, LAND, LOR, LXOR, MAX, MAXLOC, MIN, MINLOC,
                          PROD, SUM, Op)
from .comms import CART, COMM_NULL, COMM_TYPE_SHARED, Cartcomm, Comm, Intracomm
from .errors import Gone
from .groups import CONGRUENT, IDENT, PROC_NULL, SIMILAR, UNDEFINED, UNEQUAL, Group
from .process import Process
from .requests import ANY_SOURCE, ANY_TAG, DeniedException, Prequest, Request, Status

SIGNED_CHAR = CHAR = INT8_T
SHORT, INT, LONG, LONG_LONG = INT16_T, INT32_T, INT64_T, INT64_T
UNSIGNED_CHAR, UNSIGNED_SHORT, UNSIGNED, UNSIGNED_LONG = UINT8_T, UINT16_T, UINT32_T, UINT64_T
UNSIGNED_LONG_LONG, C_BOOL = UINT64_T, UINT8_T
AINT = OFFSET = COUNT = INT64_T
INT_INT = TWOINT
GROUP_EMPTY = Group([])
SUCCESS, ERR_BUFFER, ERR_COUNT, ERR_TYPE = 0, _buffers.BUFFER, _buffers.COUNT_, _buffers.TYPE
ERR_COMM, ERR_RANK, ERR_ROOT, ERR_GROUP = _buffers.COMM, _buffers.RANK, _buffers.ROOT, _buffers.GROUP
ERR_OP, ERR_TOPOLOGY, ERR_DIMS, ERR_ARG = _buffers.OP, _buffers.TOPOLOGY, _buffers.DIMS, _buffers.ARG
ERR_TRUNCATE, ERR_OTHER, ERR_REQUEST = _buffers.TRUNCATE, _buffers.OTHER, _buffers.REQUEST
ERR_UNSUPPORTED_OPERATION, ERR_NO_MEM = _buffers.UNSUPPORTED, _buffers.NO_MEM
ERR_INTERN, ERR_DENIED = _buffers.INTERN, _buffers.DENIED
ROOT = -4

_process: Optional[Process] = None


class _Begun(Intracomm):
    """A communicator that is there from the start. Its first use opens the pipes."""

    @property
    def thin(self) -> _thin.Comm:
        if self._thin is None:
            Init()
        return super().thin

    def __bool__(self) -> bool:
        return True


COMM_WORLD, COMM_SELF = _Begun(None, []), _Begun(None, [])


def Init() -> None:
    """Opens the pipes of the process that the environment names.

    >>> try:
    ...     MPI.Init()
    ... except MPI.Exception as error:    # the environment names no process
    ...     print(error.Get_error_class() == MPI.ERR_OTHER)
    True
    """
    global _process
    if _process is not None:
        return
    folder, name = os.environ.get("CONSORTIUM_DIR"), os.environ.get("CONSORTIUM_PROCESS")
    if not folder or not name:
        raise Exception(ERR_OTHER, "CONSORTIUM_DIR and CONSORTIUM_PROCESS say who this process is")
    try:
        process = Process(folder, name, os.environ.get("CONSORTIUM_LABEL") or None, resume=True)
    except (Gone, OSError) as fault:
        raise Exception(ERR_OTHER, str(fault)) from None
    if process.posts:
        process.close()
        raise Exception(ERR_OTHER, "an earlier program of this process has posted: one that goes on "
                                   "where it died takes consortium.Process")
    _process = process
    thin = _process.world
    COMM_WORLD._thin, COMM_WORLD._members, COMM_WORLD._me = thin, list(range(thin.size)), thin.rank
    COMM_SELF._thin, COMM_SELF._members, COMM_SELF._me = _Alone(_process), [thin.rank], thin.rank
    atexit.register(Finalize)


def Is_initialized() -> bool:
    """Whether the pipes were opened.

    >>> MPI.Is_initialized()
    False
    """
    return _process is not None


def Finalize() -> None:
    """Leaves the session. No call is made after it.

    >>> MPI.Finalize()    # nothing is to be left
    """
    if _process is not None:
        try:
            _process.leave()
        except (Gone, OSError):
            pass


def Is_finalized() -> bool:
    """Whether the session was left, or is over.

    >>> MPI.Is_finalized()
    False
    """
    return _process is not None and not _process._pipes.is_open


def Wtime() -> float:
    """Seconds of a clock that never goes back.

    >>> MPI.Wtime() <= MPI.Wtime()
    True
    """
    return time.monotonic()


def Wtick() -> float:
    """The resolution of that clock.

    >>> 0 < MPI.Wtick() < 1
    True
    """
    return time.get_clock_info("monotonic").resolution


def Get_processor_name() -> str:
    """The name of this machine.

    >>> MPI.Get_processor_name() != ""
    True
    """
    return os.uname().nodename


def Get_version() -> tuple:
    """The version of MPI whose collectives these are.

    >>> MPI.Get_version()
    (4, 1)
    """
    return 4, 1


def Compute_dims(nnodes: int, dims: object) -> List[int]:
    """Sides of a grid of so many, as equal as can be and not rising; given sides stay.

    >>> Compute_dims(12, 2), Compute_dims(12, [0, 3, 0])
    ([4, 3], [2, 3, 2])
    """
    sides: List[int] = [0] * dims if isinstance(dims, int) else list(dims)  # type: ignore[call-overload]
    left = nnodes
    for side in sides:
        if side < 0 or side > 0 and left % side:
            raise Exception(ERR_DIMS, f"{nnodes} by {sides}")
        left //= side or 1
    free = [at for at, side in enumerate(sides) if side == 0]
    if not free:
        if left != 1:
            raise Exception(ERR_DIMS, f"{nnodes} by {sides}")
        return sides
    for at, side in zip(free, _most_equal(left, len(free))):
        sides[at] = side
    return sides


def _most_equal(number: int, parts: int) -> Sequence[int]:
    """Factors of a number, falling, the largest as small as it can be."""
    if parts == 1:
        return [number]
    best: Optional[List[int]] = None
    for side in range(1, number + 1):
        if number % side == 0 and side ** parts >= number:
            rest = _most_equal(number // side, parts - 1)
            if rest[0] <= side:
                best = [side, *rest]
                break
    return best if best is not None else [number] + [1] * (parts - 1)
