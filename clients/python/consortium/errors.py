"""What is raised."""

from __future__ import annotations

from typing import Any, Optional


def shown(call: str) -> str:
    """The beginning of a line, as an error shows it.

    >>> len(shown("x" * 1000))
    83
    """
    return call if len(call) <= 80 else call[:80] + " .."


class ConsortiumError(Exception):
    """Whatever the server answers that is no outcome.

    >>> issubclass(Denied, ConsortiumError)
    True
    """


class Refused(ConsortiumError):
    """The call was refused, and changed nothing. `reason` is a name of docs/SCRIPT.md.

    >>> try:
    ...     world.Ibcast([7], root=5)
    ... except Refused as refused:
    ...     print(refused.reason)
    BadRoot
    """

    def __init__(self, reason: str, call: str) -> None:
        super().__init__(reason, call)
        self.reason, self.call = reason, call

    def __str__(self) -> str:
        return f"{self.reason}: {shown(self.call)}"


class BadLine(ConsortiumError):
    """The server could not read the line of a call. `fault` is a name of docs/SCRIPT.md.

    >>> try:
    ...     world.Ibcast([7], label="nobody")
    ... except BadLine as bad:
    ...     print(bad.fault)
    BadLabel
    """

    def __init__(self, fault: str, call: str) -> None:
        super().__init__(fault, call)
        self.fault, self.call = fault, call

    def __str__(self) -> str:
        return f"{self.fault}: {shown(self.call)}"


class Denied(ConsortiumError):
    """The instance was denied, to all its members alike.

    `rule` is "star" (the post of `process` was barred, with `label`) or "simple" (`process` would
    have got `label`, a rival of what it has had access to).

    >>> try:
    ...     world.Iallreduce([7], label="public").wait()
    ... except Denied as denied:
    ...     print(denied.rule, denied.process, denied.label)
    star solo public
    """

    def __init__(self, rule: str, process: str, label: str) -> None:
        super().__init__(rule, process, label)
        self.rule, self.process, self.label = rule, process, label

    def __str__(self) -> str:
        return f"{self.rule} rule: {self.process}, {self.label}"


class NoRoom(ConsortiumError):
    """A constructor's communicators would pass 1,024, and none was made.

    >>> str(NoRoom("no more"))
    'no more'
    """


class Stuck(ConsortiumError):
    """A wait was answered `pending`: every other process has left, is gone or waits too.

    The request stays, and may be waited for again.

    >>> str(Stuck("request 3"))
    'request 3'
    """


class Gone(ConsortiumError):
    """The session is over. `cause` says why: "dismissed" (by the operator), "over" (the operator
    has ended the run), "ended" (the replies end), "unread" (nobody reads the calls), "exhausted",
    "unbooked", "left" or "absent" (nobody opened the pipes in time, or answered who resumes).

    >>> Gone("ended", "the server has ended the session of solo").cause
    'ended'
    """

    def __init__(self, cause: str, words: Optional[str] = None) -> None:
        super().__init__(cause, words)
        self.cause, self.words = cause, words

    def __str__(self) -> str:
        return self.words or self.cause


def is_error(outcome: Any) -> bool:
    """Whether an outcome is one that is raised.

    >>> is_error(Denied("star", "a0", "beta")), is_error([7])
    (True, False)
    """
    return isinstance(outcome, ConsortiumError)
