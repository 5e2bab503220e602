"""A pair of named pipes: whole lines out, whole lines in, and replies that are still owed."""

from __future__ import annotations

import errno
import os
import select
import time
from collections import deque
from typing import Callable, Deque, List, Optional

from .errors import Gone

PIECE = 1 << 20

# The lines behind which stands nothing more, and the causes that they are.
LAST_WORDS = {b"left": "left", b"exhausted": "exhausted", b"unbooked": "unbooked",
              b"dismissed": "dismissed", b"ended": "over"}


class Late(Exception):
    """The reply did not come in time. It is owed, and read before any other.

    >>> issubclass(Late, Exception)
    True
    """


def open_for_writing(path: str, timeout: Optional[float]) -> int:
    """Opens a named pipe for writing as soon as somebody has it open for reading.

    >>> try:
    ...     open_for_writing("/dev/null/calls", timeout=1)
    ... except OSError as fault:
    ...     print(type(fault).__name__)
    NotADirectoryError
    """
    if timeout is None:
        return os.open(path, os.O_WRONLY)
    end = time.monotonic() + timeout
    while True:
        try:
            pipe = os.open(path, os.O_WRONLY | os.O_NONBLOCK)
            os.set_blocking(pipe, True)
            return pipe
        except OSError as error:
            if error.errno != errno.ENXIO:
                raise
        if time.monotonic() >= end:
            raise Gone("absent", f"nobody reads {path}")
        time.sleep(0.01)


def await_writer(pipe: int) -> None:
    """Until a named pipe that was opened before anybody wrote to it has something to read. From
    then on reading it blocks, and tells the end once the writer has closed it.

    >>> import os
    >>> end, other = os.pipe()
    >>> os.write(other, b"info")
    4
    >>> await_writer(end)
    >>> os.read(end, 4)
    b'info'
    """
    poll = select.poll()
    poll.register(pipe, select.POLLIN)
    poll.poll()
    os.set_blocking(pipe, True)


class Pipes:
    """The pipes `path.calls` and `path.replies`.

    A line that was written has one reply. Where whoever asked was interrupted, or did not wait any
    longer, the reply is owed: the next to ask reads it first, and hands it to who is to have it.

    >>> process._pipes.is_open
    True
    """

    def __init__(self, path: str, timeout: Optional[float]) -> None:
        # The replies first, as the server does, and without waiting: so a timeout is kept.
        self._replies = os.open(path + ".replies", os.O_RDONLY | os.O_NONBLOCK)
        try:
            self._calls = open_for_writing(path + ".calls", timeout)
        except BaseException:
            os.close(self._replies)
            raise
        self.is_open, self._is_joined, self._is_unread = True, False, False
        self._unwritten: bytes = b""
        self._pieces: List[bytes] = []
        self._owed: Deque[Callable[[bytes], None]] = deque()

    def close(self) -> None:
        """Closes both, once.

        >>> spare._pipes.close(), spare._pipes.is_open
        (None, False)
        """
        if self.is_open:
            self.is_open = False
            os.close(self._calls)
            os.close(self._replies)

    def begin_anew(self, number: int, timeout: Optional[float] = None) -> None:
        """Ends what an earlier program at these pipes has left half written, by a line that asks for
        nothing, and reads what it has left unread, up to the answer to a ping with this number.
        `Gone` is raised with a cause of the session where that has ended, as "absent" where the answer
        does not come in time, since a wait of that program goes on, and else with another.

        >>> process._pipes.begin_anew(4711)
        """
        self._unwritten = b"?\nping %d\n" % number
        self._flush()
        end = None if timeout is None else time.monotonic() + timeout
        # (Where nobody reads the calls, nobody answers: what is there is read, and not waited for.)
        end = 0.0 if self._is_unread else end
        try:
            line = self._read_line(end)
            while line != b"ping %d" % number:
                if line in LAST_WORDS:
                    raise Gone(LAST_WORDS[line], f"the session has ended: {line.decode('ascii')}")
                line = self._read_line(end)
        except Late:
            if self._is_unread:
                raise Gone("unread", "nobody reads the calls") from None
            raise Gone("absent", "a wait of an earlier program goes on") from None

    def send(self, line: bytes, then: Callable[[bytes], None]) -> None:
        """Writes a line, whose reply `then` is to have.

        >>> told = []
        >>> process._pipes.send(b"info 0\\n", told.append)
        >>> process._pipes.settle(), told
        (None, [b'info size 1 rank 0'])
        """
        self._flush()
        self._unwritten = line
        self._owed.append(then)
        self._flush()

    def _flush(self) -> None:
        """Writes what is left of a line. Interrupted, it goes on where it was. Where nobody reads
        the calls, the replies have an end, and perhaps a last word before it."""
        try:
            while self._unwritten:
                self._unwritten = self._unwritten[os.write(self._calls, self._unwritten):]
        except BrokenPipeError:
            self._unwritten, self._is_unread = b"", True

    def settle(self, timeout: Optional[float] = None) -> None:
        """Reads all replies that are owed, or raises `Late`.

        >>> process._pipes.settle()    # none is owed
        """
        end = None if timeout is None else time.monotonic() + timeout
        self._flush()
        while self._owed:
            line = self._read_line(end)
            self._owed.popleft()(line)

    def _read_line(self, end: Optional[float]) -> bytes:
        while not self._pieces or b"\n" not in self._pieces[-1]:
            self._await(end)
            piece = os.read(self._replies, PIECE)
            if not piece and self._is_unread:
                raise Gone("unread", "nobody reads the calls")
            if not piece:
                raise Gone("ended", "the server has ended the session")
            self._pieces.append(piece)
        line, _, rest = b"".join(self._pieces).partition(b"\n")
        self._pieces = [rest] if rest else []
        return line

    def _await(self, end: Optional[float]) -> None:
        """Until there is something to read, or it is too late."""
        if end is None and self._is_joined:
            return
        poll = select.poll()
        poll.register(self._replies, select.POLLIN)
        left = None if end is None else max(0, int((end - time.monotonic()) * 1000))
        if not poll.poll(left):
            raise Late()
        if not self._is_joined:
            os.set_blocking(self._replies, True)
            self._is_joined = True
