"""A process of the policy, at its pair of pipes."""

from __future__ import annotations

import os
import random
import threading
import time
from typing import Any, Callable, List, Optional, Tuple

from .comm import Comm
from .errors import BadLine, ConsortiumError, Gone, Refused, shown
from .pipes import Late, Pipes
from .receipts import Receipt, read_receipt
from .request import Request
from .values import one_word


class Process:
    """A process of the policy, at its pair of pipes `folder/name.calls` and `folder/name.replies`.

    `label` is that of all its posts that say no other. It waits until the server has opened the
    pipes, for at most `timeout` seconds where that is given, and then raises `Gone`. Used in a
    `with` statement it leaves at the end; where an exception ends that, it is gone, and another
    program may go on.

    With `resume` it goes on where an earlier program of this process has died: `resumed` has its
    requests that are not taken, each of which gives its delivery as a list of blocks, and `posts` is
    the number that the next one had then. What that program was told and did not read is lost.
    (Without it, what that one did not read would be taken for answers to this one's lines.)

    One exchange goes at a time: threads that share a process take turns, and who waits keeps the
    others out. An exchange that was interrupted (by ^C, or a timeout) is ended by the next: its
    reply is then handed to the request that it is of. A post that was interrupted stands all the
    same, and its request is found in `interrupted`.

    >>> process.name, process.world.rank, process.world.size
    ('solo', 0, 1)
    """

    def __init__(self, folder: str, name: str, label: Optional[str] = None,
                 timeout: Optional[float] = None, resume: bool = False) -> None:
        self.name, self.label = name, None if label is None else one_word(label)
        self.interrupted: List[Request] = []
        self._lock = threading.RLock()
        self.resumed: List[Request] = []
        self.posts = 0
        path = os.path.join(folder, name)
        self._pipes = opened_anew(path, timeout) if resume else Pipes(path, timeout)
        try:
            if resume:
                self.resumed = [Request(self, int(word), None, "slots", False)
                                for word in self._call("open")[1:]]
                self.posts = int(self._call("next")[1])
            size, rank, _ = self._info(0)
        except BaseException:
            self.close()
            raise
        self.world = Comm(self, 0, rank, size)

    def __repr__(self) -> str:
        return f"Process({self.name!r})"

    def ask(self, call: str, timeout: Optional[float] = None) -> str:
        """Writes one line, and gives the line that answers it.

        It is for lines that this package has no call for. `Gone` is raised where there is no
        answer, and `TimeoutError` where it does not come in time.

        >>> process.ask("info 0")
        'info size 1 rank 0'
        """
        found: List[bytes] = []
        self._exchange(call, found.append, timeout)
        return found[0].decode("ascii")

    def receipt(self) -> Receipt:
        """What the book had by the time of this process's last call that was answered: how many
        entries, and the digest of its text so far. `verify` tells later whether a book begins so.

        It is no call of the run: it has no entry, is not counted, and holds up nobody. It covers
        all that this process was told. What others did since its last call is in the next receipt
        behind a call, as `ask("info 0")`.

        >>> receipt = process.receipt()
        >>> len(receipt.digest), receipt == process.receipt()
        (64, True)
        """
        reply = b" ".join(self._call("head"))
        try:
            return read_receipt(reply.decode("ascii"))
        except ValueError:
            raise ConsortiumError(f"no receipt: {reply[:100]!r}") from None

    def leave(self) -> None:
        """Ends the session, for good. The others go on; what is still open of this process stays so.

        >>> spare.leave()
        """
        if self._pipes.is_open:
            try:
                self._exchange("leave", lambda reply: None)
            finally:
                self.close()

    def close(self) -> None:
        """Closes the pipes and says nothing: the process is gone, and another program may go on.

        >>> spare.close()
        """
        self._pipes.close()

    def __enter__(self) -> Process:
        return self

    def __exit__(self, kind: Any, value: Any, trace: Any) -> None:
        if kind is not None:
            self.close()
            return
        try:
            self.leave()
        except Gone:
            pass

    def _exchange(self, call: str, then: Callable[[bytes], None],
                  timeout: Optional[float] = None) -> None:
        """Writes a line and reads on to its reply, which `then` is handed."""
        if "\n" in call or not call.isascii():
            raise ValueError(f"no line: {shown(call)!r}")
        with self._lock:
            self._see_open()
            try:
                self._pipes.send(call.encode("ascii") + b"\n", then)
                self._pipes.settle(timeout)
            except Late:
                raise TimeoutError(f"no reply in time: {shown(call)}") from None
            except (Gone, OSError):
                self.close()
                raise

    def _settle(self, timeout: Optional[float]) -> None:
        """Reads the replies that are owed."""
        with self._lock:
            self._see_open()
            try:
                self._pipes.settle(timeout)
            except Late:
                raise TimeoutError(f"{self.name}: no reply in time") from None
            except (Gone, OSError):
                self.close()
                raise

    def _see_open(self) -> None:
        if not self._pipes.is_open:
            raise Gone("left", f"{self.name} has left")

    def _call(self, call: str) -> List[bytes]:
        """The words of the reply to a line that waits for nobody."""
        found: List[bytes] = []
        self._exchange(call, found.append)
        return words_of(found[0], call)

    def _post(self, call: str, form: str, is_pairs: bool) -> Request:
        """Posts, and gives the request. Where that is interrupted it is kept."""
        found: List[Any] = []

        def then(reply: bytes) -> None:
            try:
                words = words_of(reply, call)
            except (BadLine, Refused, Gone) as fault:
                found.append(fault)
                return
            barred = words[2].decode("ascii") if words[0] == b"barred" else None
            found.append(Request(self, int(words[1]), barred, form, is_pairs))
            if is_lost:
                self.interrupted.append(found[-1])

        is_lost = False
        try:
            self._exchange(call, then)
        except BaseException:
            is_lost = True
            raise
        if isinstance(found[0], Exception):
            raise found[0]
        request: Request = found[0]
        return request

    def _info(self, number: int) -> Tuple[int, int, Optional[int]]:
        words = self._call(f"info {number}")
        return int(words[2]), int(words[4]), int(words[6]) if len(words) > 6 else None


def opened_anew(path: str, timeout: Optional[float]) -> Pipes:
    """The pipes of a process whose earlier program is gone, if there was one.

    >>> callable(opened_anew)
    True
    """
    while True:
        pipes = Pipes(path, timeout)
        try:
            pipes.begin_anew(random.SystemRandom().getrandbits(62), timeout)
            return pipes
        except Gone as gone:
            pipes.close()
            if gone.cause not in ("ended", "unread"):
                raise
            # The server has closed what that program had left open, and opens it again.
            time.sleep(0.01)
        except BaseException:
            pipes.close()
            raise


def words_of(reply: bytes, call: str) -> List[bytes]:
    """The words of a reply, of a delivery the first word and all the rest; a refusal is raised.

    >>> words_of(b"info size 1 rank 0", "info 0")
    [b'info', b'size', b'1', b'rank', b'0']
    """
    word, _, rest = reply.partition(b" ")
    if word == b"delivered":
        return [word, rest]
    if word == b"refused":
        raise Refused(rest.decode("ascii"), call)
    if word == b"bad":
        raise BadLine(rest.decode("ascii"), call)
    if word == b"exhausted":
        raise Gone("exhausted", "exhausted: the server takes no more calls")
    if word == b"unbooked":
        raise Gone("unbooked", "unbooked: the server cannot write its book any more")
    if word == b"dismissed":
        raise Gone("dismissed", "dismissed: the operator has put this process out")
    if word == b"ended":
        raise Gone("over", "ended: the operator has ended the run")
    return [word] + rest.split()
