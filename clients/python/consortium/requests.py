"""Requests and statuses, as mpi4py has them."""

from __future__ import annotations

import time
from collections import deque
from typing import Any, Callable, Deque, List, Optional, Sequence, Tuple

from .buffers import ARG, BUFFER, COMM, COUNT_, DENIED, DIMS, GROUP, NO_MEM, OP, OTHER, RANK, REQUEST
from .buffers import ROOT, TOPOLOGY, TRUNCATE, Exception_, Part
from .collectives import Plan
from .errors import BadLine, ConsortiumError, Denied, NoRoom, Refused
from .groups import UNDEFINED
from .request import Request as Posted

ANY_SOURCE = ANY_TAG = -1
MOST_REQUESTS = 256
SHORTEST_SLEEP, LONGEST_SLEEP = 20e-6, 2e-3

# The class of each refusal (docs/SCRIPT.md).
REFUSALS = {"NoSuchComm": COMM, "NotMember": COMM, "NoTopology": TOPOLOGY, "BadRoot": ROOT,
            "BadOp": OP, "BadCount": COUNT_, "BadColour": ARG, "NotSubgroup": GROUP,
            "BadDims": DIMS, "TooManyRequests": REQUEST, "NoMemory": NO_MEM,
            "NoSuchRequest": REQUEST, "NoSuchProcess": RANK}


class DeniedException(Exception_):
    """The instance was denied to all its members, by the rule, and since this process would hold or
    gave this dataset.

    >>> DeniedException(Denied("simple", "b0", "alpha")).process
    'b0'
    """

    def __init__(self, denied: Denied) -> None:
        super().__init__(DENIED, str(denied))
        self.rule, self.process, self.label = denied.rule, denied.process, denied.label

    def __reduce__(self) -> Any:
        return type(self), (Denied(self.rule, self.process, self.label),)


def raised(error: ConsortiumError) -> Exception_:
    """The exception of MPI for what the server answered.

    >>> raised(Refused("BadRoot", "post 0 bcast 9")).Get_error_class() == MPI.ERR_ROOT
    True
    """
    if isinstance(error, Denied):
        return DeniedException(error)
    if isinstance(error, Refused):
        return Exception_(REFUSALS.get(error.reason, OTHER), str(error))
    if isinstance(error, BadLine):
        return Exception_(ARG, str(error))
    return Exception_(NO_MEM if isinstance(error, NoRoom) else OTHER, str(error))


class Status:
    """What became of a request. That of a collective is empty: nothing comes from one rank alone.

    >>> status = Status()
    >>> status.Get_source() == MPI.ANY_SOURCE, status.Get_count(), status.Get_error()
    (True, 0, 0)
    """

    def __init__(self, status: Optional[Status] = None) -> None:
        self.source = ANY_SOURCE if status is None else status.source
        self.tag = ANY_TAG if status is None else status.tag
        self.error = 0 if status is None else status.error
        self._count = 0 if status is None else status._count
        self._is_cancelled = False if status is None else status._is_cancelled

    def _become(self, error: int) -> None:
        self.source, self.tag, self.error, self._count, self._is_cancelled = ANY_SOURCE, ANY_TAG, error, 0, False

    def Get_source(self) -> int:
        """The rank that it came from: ANY_SOURCE.

        >>> Status().Get_source() == MPI.ANY_SOURCE
        True
        """
        return self.source

    def Set_source(self, source: int) -> None:
        """Says another.

        >>> status = Status()
        >>> status.Set_source(2)
        >>> status.source
        2
        """
        self.source = source

    def Get_tag(self) -> int:
        """Its tag: ANY_TAG.

        >>> Status().Get_tag() == MPI.ANY_TAG
        True
        """
        return self.tag

    def Set_tag(self, tag: int) -> None:
        """Says another.

        >>> status = Status()
        >>> status.Set_tag(2)
        >>> status.tag
        2
        """
        self.tag = tag

    def Get_error(self) -> int:
        """The class of the error, 0 for none. `Waitall` and the others on several requests tell it
        of each; elsewhere an error is raised.

        >>> Status().Get_error()
        0
        """
        return self.error

    def Set_error(self, error: int) -> None:
        """Says another.

        >>> status = Status()
        >>> status.Set_error(MPI.ERR_ROOT)
        >>> status.error == MPI.ERR_ROOT
        True
        """
        self.error = error

    def Get_count(self, datatype: Any = None) -> int:
        """How many items came: 0.

        >>> Status().Get_count(MPI.INT)
        0
        """
        return self._count

    Get_elements = Get_count

    def Set_elements(self, datatype: Any, count: int) -> None:
        """Says another number.

        >>> status = Status()
        >>> status.Set_elements(MPI.INT, 3)
        >>> status.Get_elements(MPI.INT)
        3
        """
        self._count = count

    def Is_cancelled(self) -> bool:
        """Whether it was cancelled: never.

        >>> Status().Is_cancelled()
        False
        """
        return self._is_cancelled

    def Set_cancelled(self, flag: bool) -> None:
        """Says so, or not.

        >>> status = Status()
        >>> status.Set_cancelled(True)
        >>> status.cancelled
        True
        """
        self._is_cancelled = flag

    @property
    def cancelled(self) -> bool:
        """As `Is_cancelled`.

        >>> Status().cancelled
        False
        """
        return self._is_cancelled

    @property
    def count(self) -> int:
        """As `Get_count`.

        >>> Status().count
        0
        """
        return self._count


def _tell(status: Optional[Status], error: int = 0) -> None:
    if status is not None:
        status._become(error)


class Request:
    """A collective under way. Its outcome is put into the receiver's memory when it is told.

    >>> request = COMM.Ibarrier()
    >>> request.Wait()
    True
    """

    def __init__(self, start: Optional[Callable[[], Plan]] = None) -> None:
        self._start = start
        self._plan = Plan(lambda part: None)  # type: ignore[arg-type,return-value]
        self._under_way: Deque[Tuple[Posted, Part]] = deque()
        self._fault: Optional[Exception_] = None
        self._result: Any = None

    def __bool__(self) -> bool:
        return bool(self._under_way)

    def begin(self) -> Request:
        """Posts all its pieces. What keeps a later one from being posted is told at the end.

        >>> try:
        ...     MPI.Request().begin()
        ... except MPI.Exception as error:
        ...     print(error)
        MPI_ERR_REQUEST: nothing to start
        """
        if self._under_way:
            raise Exception_(REQUEST, "it is under way")
        if self._start is None:
            raise Exception_(REQUEST, "nothing to start")
        self._plan = self._start()
        parts = self._plan.parts()
        if len(parts) > MOST_REQUESTS:
            raise Exception_(REQUEST, f"{len(parts)} pieces, and {MOST_REQUESTS} can be under way")
        for part in parts:
            try:
                self._post(part)
            except Exception_ as fault:
                if not self._under_way:
                    raise
                self._fault = fault
                break
        return self

    def run(self) -> None:
        """Posts and waits, a piece after the other, until one is not delivered. Where the receiver's
        memory is at fault the others go on, and so does this one.

        >>> try:
        ...     MPI.Request().run()
        ... except MPI.Exception as error:
        ...     print(error)
        MPI_ERR_REQUEST: nothing to start
        """
        if self._start is None:
            raise Exception_(REQUEST, "nothing to start")
        self._plan, first = self._start(), None
        for part in self._plan.parts():
            try:
                self._post(part)
                self._is_settled("wait")
            except Exception_ as fault:
                if fault.number not in (TRUNCATE, BUFFER):
                    raise
                first = first or fault
        if first is not None:
            raise first

    def _post(self, part: Part) -> None:
        try:
            self._under_way.append((self._plan.post(part), part))
        except ConsortiumError as error:
            raise raised(error) from None

    def _is_settled(self, verb: str) -> bool:
        """Takes the outcome of each piece that has one, and raises what went wrong when all have."""
        while self._under_way:
            request, part = self._under_way[0]
            try:
                is_done, outcome = request.test() if verb == "test" else (True, request.wait())
            except (Denied, NoRoom) as error:
                self._fault = self._fault or raised(error)
                self._under_way.popleft()
                continue
            except ConsortiumError as error:
                raise raised(error) from None
            if not is_done:
                return False
            self._under_way.popleft()
            self._take(outcome, part)
        if self._fault is not None:
            fault, self._fault = self._fault, None
            raise fault
        return True

    def _take(self, outcome: Any, part: Part) -> None:
        self._result = outcome
        if self._plan.put is not None and outcome is not None:
            try:
                self._plan.put(outcome, part)
            except Exception_ as fault:
                self._fault = self._fault or fault

    def Wait(self, status: Optional[Status] = None) -> bool:
        """Sleeps until all members have posted, and puts what this one gets.

        >>> COMM.Ibarrier().Wait()
        True
        """
        self._is_settled("wait")
        _tell(status)
        return True

    def Test(self, status: Optional[Status] = None) -> bool:
        """Whether all members have posted; then what this one gets was put.

        >>> COMM.Ibarrier().Test()
        True
        """
        is_done = self._is_settled("test")
        if is_done:
            _tell(status)
        return is_done

    def wait(self, status: Optional[Status] = None) -> Any:
        """As `Wait`, and gives what a call on Python's values got.

        >>> COMM.Iallreduce(array("i", [7]), array("i", [0])).wait()
        [7]
        """
        self.Wait(status)
        return self._result

    def test(self, status: Optional[Status] = None) -> Tuple[bool, Any]:
        """As `Test`, and gives what a call on Python's values got.

        >>> COMM.Ibarrier().test()
        (True, None)
        """
        is_done = self.Test(status)
        return is_done, self._result if is_done else None

    def Get_status(self, status: Optional[Status] = None) -> bool:
        """As `Test`.

        >>> COMM.Ibarrier().Get_status()
        True
        """
        return self.Test(status)

    def Free(self) -> None:
        """Forgets a request that is not under way.

        >>> COMM.Barrier_init().Free()
        """
        if self._under_way:
            raise Exception_(REQUEST, "a collective under way is not freed")

    @classmethod
    def Waitall(cls, requests: Sequence[Request], statuses: Optional[List[Status]] = None) -> bool:
        """Waits for all. Then the first error is raised; those of the others are in the statuses.

        >>> statuses = []
        >>> MPI.Request.Waitall([COMM.Ibarrier(), COMM.Ibarrier()], statuses)
        True
        >>> [status.error for status in statuses]
        [0, 0]
        """
        _each(requests, statuses, lambda request: request.Wait())
        return True

    @classmethod
    def Testall(cls, requests: Sequence[Request], statuses: Optional[List[Status]] = None) -> bool:
        """Whether all have settled. What has settled was put.

        >>> MPI.Request.Testall([COMM.Ibarrier(), COMM.Ibarrier()])
        True
        """
        found = _each(requests, statuses, lambda request: request.Test())
        return all(found)

    @classmethod
    def Testany(cls, requests: Sequence[Request], status: Optional[Status] = None) -> Tuple[int, bool]:
        """The first that has settled since, or UNDEFINED; and whether there is one, or none is
        under way.

        >>> requests = [COMM.Ibarrier()]
        >>> MPI.Request.Testany(requests), MPI.Request.Testany(requests) == (MPI.UNDEFINED, True)
        ((0, True), True)
        """
        live = [at for at, request in enumerate(requests) if request]
        for at in live:
            if requests[at].Test(status):
                return at, True
        if not live:
            _tell(status)
        return UNDEFINED, not live

    @classmethod
    def Waitany(cls, requests: Sequence[Request], status: Optional[Status] = None) -> int:
        """One that has settled, as soon as there is one. Where all are of one communicator the server
        waits; of several it can wait for one only, so they are looked at again and again.

        >>> MPI.Request.Waitany([COMM.Ibarrier(), COMM.Ibarrier()])
        0
        """
        sleep = SHORTEST_SLEEP
        while True:
            at, is_done = cls.Testany(requests, status)
            if is_done:
                return at
            first = _first_to_end(requests)
            if first is not None:
                requests[first].Wait(status)
                return first
            time.sleep(sleep)
            sleep = min(2 * sleep, LONGEST_SLEEP)

    @classmethod
    def Testsome(cls, requests: Sequence[Request],
                 statuses: Optional[List[Status]] = None) -> Optional[List[int]]:
        """All that have settled since; None where none is under way.

        >>> MPI.Request.Testsome([COMM.Ibarrier(), COMM.Ibarrier()]), MPI.Request.Testsome([])
        ([0, 1], None)
        """
        live = [at for at, request in enumerate(requests) if request]
        if not live:
            return None
        found = _each([requests[at] for at in live], None, lambda request: request.Test())
        done = [at for at, is_done in zip(live, found) if is_done]
        _tell_all(statuses, [0] * len(done))
        return done

    @classmethod
    def Waitsome(cls, requests: Sequence[Request],
                 statuses: Optional[List[Status]] = None) -> Optional[List[int]]:
        """As `Testsome`, but at least one.

        >>> MPI.Request.Waitsome([COMM.Ibarrier()])
        [0]
        """
        found = cls.Testsome(requests, statuses)
        if found == []:
            found = [cls.Waitany(requests)]
            _tell_all(statuses, [0])
        return found


def _each(requests: Sequence[Request], statuses: Optional[List[Status]],
          ask: Callable[[Request], bool]) -> List[bool]:
    """Asks each, tells all, and then raises the first error."""
    found, errors, first = [], [], None
    for request in requests:
        try:
            found.append(ask(request))
            errors.append(0)
        except Exception_ as fault:
            found.append(True)
            errors.append(fault.number)
            first = first or fault
    if all(found):
        _tell_all(statuses, errors)
    if first is not None:
        raise first
    return found


def _tell_all(statuses: Optional[List[Status]], errors: Sequence[int]) -> None:
    """Fills a list of statuses, which grows where it is too short, as mpi4py's does."""
    if statuses is not None:
        statuses += [Status() for _ in errors[len(statuses):]]
        for status, error in zip(statuses, errors):
            _tell(status, error)


def _first_to_end(requests: Sequence[Request]) -> Optional[int]:
    """The one that settles first: of one communicator that was posted first, since each member posts
    its collectives in the same order. None where they are of several."""
    live = [(it._under_way[0][0], at) for at, it in enumerate(requests) if it]
    if len({posted._comm for posted, _ in live}) != 1:
        return None
    return min((posted.number, at) for posted, at in live)[1]


class Prequest(Request):
    """A collective that can be started again and again.

    >>> request = COMM.Barrier_init()
    >>> request.Start(), request.Wait(), request.Start(), request.Wait()
    (None, True, None, True)
    """

    def Start(self) -> None:
        """Makes the post.

        >>> request = COMM.Barrier_init()
        >>> request.Start(), request.Wait()
        (None, True)
        """
        self.begin()

    @classmethod
    def Startall(cls, requests: Sequence[Prequest]) -> None:
        """Starts each, in this order.

        >>> requests = [COMM.Barrier_init(), COMM.Barrier_init()]
        >>> MPI.Prequest.Startall(requests), MPI.Request.Waitall(requests)
        (None, True)
        """
        for request in requests:
            request.Start()
