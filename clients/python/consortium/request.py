"""What a post gives: by it the process gets the outcome."""

from __future__ import annotations

from typing import TYPE_CHECKING, Any, List, Optional, Tuple

from .errors import BadLine, ConsortiumError, Denied, NoRoom, Refused, Stuck, is_error
from .values import read_delivery

if TYPE_CHECKING:
    from .process import Process


class Request:
    """What a post gives: by it the process gets the outcome.

    `number` counts the process's posts from 0. `barred` is the label where the star rule barred the
    post, and None where it passed. The outcome is what the process gets: None where that is
    nothing, a block, a list of blocks, or a communicator. A denial is raised as `Denied`.

    >>> request = world.Iallreduce([7], op="sum")
    >>> request.barred is None
    True
    """

    def __init__(self, process: Process, number: int, barred: Optional[str], form: str,
                 is_pairs: bool) -> None:
        self.number, self.barred = number, barred
        self._process, self._form, self._is_pairs = process, form, is_pairs
        self._comm: Optional[int] = None
        self._grid: Optional[Tuple[List[int], List[bool]]] = None
        self._outcome: Any = None
        self._refusal: Optional[ConsortiumError] = None
        self._is_done = self._is_asked = False

    def __repr__(self) -> str:
        return f"Request({self.number})"

    def test(self) -> Tuple[bool, Any]:
        """Whether all members have posted, and then the outcome.

        >>> world.Iallreduce([7], op="sum").test()
        (True, [7])
        """
        return self._is_settled("take", None), self._told()

    def wait(self, timeout: Optional[float] = None) -> Any:
        """The outcome, as soon as all members have posted. The server sleeps meanwhile.

        `Stuck` is raised where every other process has left, is gone or waits too, and `TimeoutError`
        where it takes longer than `timeout` seconds: the server goes on waiting, and a later call of
        this process first waits for its answer.

        >>> world.Iallreduce([7], op="sum").wait(timeout=60)
        [7]
        """
        if not self._is_settled("wait", timeout):
            raise Stuck(f"request {self.number}: every other process has left, is gone or waits too")
        return self._told()

    def _told(self) -> Any:
        if is_error(self._outcome):
            raise self._outcome
        return self._outcome

    def _is_settled(self, verb: str, timeout: Optional[float]) -> bool:
        if self._is_asked:
            # (the reply to an earlier call is still owed)
            self._process._settle(timeout)
        if not self._is_done:
            self._is_asked = True
            self._process._exchange(f"{verb} {self.number}", self._take, timeout)
        if self._refusal:
            refusal, self._refusal = self._refusal, None
            raise refusal
        return self._is_done

    def _take(self, reply: bytes) -> None:
        """Is handed the reply to a take or a wait."""
        from .process import words_of

        self._is_asked = False
        try:
            words = words_of(reply, f"take {self.number}")
        except (Refused, BadLine) as refusal:
            self._refusal = refusal
            return
        if words[0] != b"pending":
            self._outcome = self._read(words)
            self._is_done = True

    def _read(self, words: List[bytes]) -> Any:
        kind = words[0]
        if kind == b"delivered":
            return read_delivery(words[1], self._form, self._is_pairs)
        if kind == b"comm":
            from .comm import Comm

            number, rank, size = int(words[1]), int(words[3]), int(words[5])
            return Comm(self._process, number, rank, size, self._grid)
        if kind == b"null":
            return None
        if kind == b"denied":
            return Denied(*(word.decode("ascii") for word in words[1:4]))
        if kind == b"noroom":
            return NoRoom("1,024 communicators are the most")
        raise ConsortiumError(f"no outcome: {kind!r}")
