"""Communicators of this process alone, of which the server knows nothing: COMM_SELF, and what is made
of it. Nothing goes to anybody, so nothing is judged, and no book has it."""

from __future__ import annotations

import itertools
import math
from typing import TYPE_CHECKING, Any, Iterable, List, Optional, Tuple

from .comm import Comm
from .errors import Refused
from .request import Request
from .values import flat

if TYPE_CHECKING:
    from .process import Process

# The server's numbers are 0 and above.
_numbers = itertools.count(-1, -1)


class Settled(Request):
    """A request whose outcome is there.

    >>> Settled(process, [7]).test()
    (True, [7])
    """

    def __init__(self, process: Process, outcome: Any) -> None:
        super().__init__(process, -1, None, "block", False)
        self._outcome = outcome

    def test(self) -> Tuple[bool, Any]:
        """True, and the outcome.

        >>> Settled(process, None).test()
        (True, None)
        """
        return True, self.wait()

    def wait(self, timeout: Optional[float] = None) -> Any:
        """The outcome.

        >>> Settled(process, [7]).wait()
        [7]
        """
        if isinstance(self._outcome, Alone):
            self._outcome._grid = self._grid
        return self._outcome


class Alone(Comm):
    """A communicator of one process.

    >>> Alone(process).Iallgather([7, 8]).wait()
    [[7, 8]]
    """

    def __init__(self, process: Process) -> None:
        super().__init__(process, next(_numbers), 0, 1)

    def _post(self, kind: str, *fields: Any, values: Iterable[Any] = (), label: Optional[str] = None,
              form: str = "comm") -> Request:
        if form == "comm":
            return Settled(self.process, self._made(kind, fields))
        if kind in ("barrier", "bcast", "exscan"):
            return Settled(self.process, None)
        given = flat(values)
        if form == "slots":
            return Settled(self.process, self._beside(kind, given, fields))
        return Settled(self.process, [given] if form == "ranks" else given)

    def _made(self, kind: str, fields: Tuple[Any, ...]) -> Optional[Alone]:
        is_left_out = fields[:1] == ("undefined",) or (kind == "create" and fields == ("-",))
        if kind == "cart_create" and math.prod(_list_of(fields[0])) != 1:
            raise Refused("BadDims", f"{kind} {fields[0]}")
        return None if is_left_out else Alone(self.process)

    def _beside(self, kind: str, given: List[Any], fields: Tuple[Any, ...]) -> List[Any]:
        """What comes from the neighbours: it is this process itself, where a dimension is periodic,
        and what it gives for a slot arrives in the opposite one."""
        slots = 2 * len(self.dims or [])
        blocks = [given] * slots
        if "alltoall" in kind:
            counts = _list_of(fields[1]) if kind.endswith("v") else [int(fields[1])] * slots
            ends = list(itertools.accumulate(counts))
            blocks = [given[end - count:end] for end, count in zip(ends, counts)]
        return [blocks[slot ^ 1] if wraps else None
                for wraps, slots_of in zip(self.periods or [], range(0, slots, 2))
                for slot in (slots_of, slots_of + 1)]


def _list_of(field: str) -> List[int]:
    return [] if field == "-" else [int(word) for word in field.split(",")]
