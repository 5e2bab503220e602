"""The client in Python, where it is interrupted, late, or given what is no element."""
import os
import pickle
import signal
import threading
import time
from array import array

from live import consortium
from live import Client, House, Raw, all_results, neutral, want


def raised(kind, call):
    """What a call raises, if it is of this kind."""
    try:
        call()
    except kind as fault:
        return fault
    raise AssertionError(f"no {kind.__name__}")


def errors_can_be_sent(given):
    """Errors go through pickle, as to another process."""
    for error in (consortium.Refused("BadRoot", "post 0 barrier"), consortium.BadLine("BadLabel", "x"),
                  consortium.Denied("star", "a0", "alpha"), consortium.Gone("ended", "why"),
                  consortium.NoRoom("none"), consortium.Stuck("still")):
        again = pickle.loads(pickle.dumps(error))
        want((type(again), str(again), vars(again)), (type(error), str(error), vars(error)), "an error")


def labels_bring_no_elements(given):
    """A label, a type or an operation of two words is refused by the client itself."""
    house = House(given.program, neutral(1)).start()
    with house.connect("p0") as process:
        world = process.world
        raised(ValueError, lambda: world.Iallreduce([7], label="public 5"))
        raised(ValueError, lambda: world.Iallreduce([7], op="sum int64 9"))
        raised(ValueError, lambda: world.Iallreduce([7], type="int64 2"))
        want(world.Iallreduce([7]).wait(), [7], "what counts")
    house.end()


class Rows:
    """As an array of two rows: elements go row by row."""

    def ravel(self):
        return self

    def tolist(self):
        return [1, 2, 3, 4]


def arrays_are_elements(given):
    """An array of several dimensions is its elements; as blocks it is its rows."""
    house = House(given.program, neutral(1)).start()
    with house.connect("p0") as process:
        want(process.world.Iallreduce(Rows()).wait(), [1, 2, 3, 4], "elements of rows")
    house.end()


def interrupted(seconds):
    """Sends an interrupt to the main thread after so many seconds."""
    main = threading.main_thread().ident
    timer = threading.Timer(seconds, lambda: signal.pthread_kill(main, signal.SIGINT))
    timer.start()
    return timer


def waits_are_interrupted(given):
    """After ^C in a wait, or a timeout, the session goes on, and the outcome is not lost."""
    house = House(given.program, neutral(2)).start()
    other = house.connect("p1")
    with house.connect("p0") as process:
        first = process.world.Iallreduce([1])
        timer = interrupted(0.3)
        raised(KeyboardInterrupt, first.wait)
        timer.join()
        began = time.monotonic()
        raised(TimeoutError, lambda: first.wait(timeout=0.2))
        want(time.monotonic() - began < 5, True, "a timeout in time")
        joined = other.world.Iallreduce([2])
        want(first.wait(), [3], "the outcome after both")
        want(joined.wait(), [3], "that of the other")
        # An answer that is owed comes first, and goes to its own request.
        second = process.world.Ibarrier()
        raised(TimeoutError, lambda: second.wait(timeout=0.1))
        threading.Timer(0.3, lambda: other.world.Ibarrier()).start()
        want(process.world.Ibcast([5], root=0).number, 2, "a post behind a wait that is late")
        want(second.test(), (True, None), "the barrier")
        want(second._is_asked, False, "whether its reply is owed")
    other.leave()
    house.end()


def threads_take_turns(given):
    """Threads that share a process get each its own replies."""
    house = House(given.program, neutral(1)).start()
    with house.connect("p0") as process:
        wrong = []

        def work(number):
            for turn in range(50):
                got = process.world.Iallreduce([number * 1000 + turn]).wait()
                if got != [number * 1000 + turn]:
                    wrong.append((number, turn, got))

        threads = [threading.Thread(target=work, args=(number,)) for number in range(4)]
        for thread in threads:
            thread.start()
        for thread in threads:
            thread.join()
        want(wrong, [], "replies of another thread")
    house.end()


def a_rank(house, name, label):
    """What a program of mpi4py's calls gets at one of three ranks."""
    os.environ.update(CONSORTIUM_DIR=str(house.pipes), CONSORTIUM_PROCESS=name, CONSORTIUM_LABEL=label)
    from consortium import MPI

    comm = MPI.COMM_WORLD
    rank, size = comm.Get_rank(), comm.Get_size()
    found = [comm.allreduce(rank + 1, op=MPI.MAX)] if label == "public" else []
    if label != "public":
        try:
            comm.bcast(7 if rank == 0 else None)
        except MPI.DeniedException as denied:
            return denied.Get_error_class() == MPI.ERR_DENIED, denied.rule, denied.process, denied.label
    room = array("i", [0] * size)
    comm.Allgather(array("i", [10 * rank]), room)
    found.append(room.tolist())
    part = array("q", [rank, 5])
    comm.Allreduce(MPI.IN_PLACE, part, op=MPI.SUM)
    found.append(part.tolist())
    room16 = array("H", [0])
    sums = comm.Scan_init(array("H", [2]), room16)
    for _ in range(2):
        sums.Start()
        MPI.Request.Waitall([sums])
    found.append(room16.tolist())
    grid = comm.Create_cart([size], [True])
    found += [grid.Get_coords(rank), list(grid.Shift(0, 1)), grid.neighbor_allgather(rank)]
    some = comm.Create(comm.Get_group().Incl([2, 0]))
    found.append(None if some == MPI.COMM_NULL else (some.Get_rank(), some.allgather([rank])))
    found.append(comm.Split(rank % 2, -rank).Get_rank())
    try:
        comm.Bcast(array("i", [1]), root=9)
    except MPI.Exception as fault:
        found.append(fault.Get_error_class() == MPI.ERR_ROOT)
    MPI.Finalize()
    return found


def programs_of_mpi4py(given):
    """`from consortium import MPI`: collectives, groups, grids and requests of three processes."""
    house = House(given.program, neutral(3)).start()
    told = all_results([Client(a_rank, house, name, "public") for name in house.names])
    house.end()
    for rank, found in enumerate(told):
        want(found, [3, [0, 10, 20], [3, 15], [2 * rank + 2], [rank], [(rank - 1) % 3, (rank + 1) % 3],
                     [(rank - 1) % 3, (rank + 1) % 3], {0: (1, [[2], [0]]), 1: None, 2: (0, [[2], [0]])}[rank],
                     [1, 0, 0][rank], True], f"what rank {rank} got")


def denials_of_mpi4py(given):
    """A denial is an exception of a class of its own, at all ranks alike."""
    house = House(given.program, [("a0", "alpha"), ("b0", "beta")], [["alpha", "beta"]]).start()
    told = all_results([Client(a_rank, house, name, label) for name, label in (("a0", "alpha"), ("b0", "beta"))])
    want(told, [(True, "simple", "b0", "alpha")] * 2, "a denial")
    house.end()


def has_begun(house):
    """Whether a program of mpi4py's calls begins."""
    os.environ.update(CONSORTIUM_DIR=str(house.pipes), CONSORTIUM_PROCESS="p0")
    from consortium import MPI

    try:
        MPI.Init()
    except MPI.Exception as fault:
        want(fault.Get_error_class(), MPI.ERR_OTHER, "the class")
    return MPI.Is_initialized()


def second_programs_of_mpi4py(given):
    """A program of mpi4py's calls does not begin as if there had been nobody where an earlier one of
    its process has posted. What that one did not read is not taken for its answers."""
    for lines, begins in ((b"info 0\ninfo 7\ninfo 0\n", True), (b"post 0 barrier\ninf", False)):
        house = House(given.program, neutral(2)).start()
        other, raw = Raw(house, "p1"), Raw(house, "p0")
        raw.send(lines)
        raw.close()
        want(Client(has_begun, house).result(), begins, "whether it begins")
        want(other.ask("leave"), "left", "the other's leave")
        house.end()
        house.audit()


def a_long_rank(house, name, label):
    """What one of three ranks gets of arrays that are longer than a post."""
    os.environ.update(CONSORTIUM_DIR=str(house.pipes), CONSORTIUM_PROCESS=name, CONSORTIUM_LABEL=label)
    from consortium import MPI

    comm, number = MPI.COMM_WORLD, 70001
    rank, size = comm.rank, comm.size
    given, room = array("q", range(size * number)), array("q", [-1] * (size * number))
    part = array("q", [-1] * number)
    comm.Bcast([room if rank else given, number, MPI.LONG])
    found = [rank == 0 or room[:number] == given[:number] and room[number] == -1]
    comm.Scatter(given, part, root=1)
    found.append(part == given[rank * number:(rank + 1) * number])
    request = comm.Iallreduce([given, number, MPI.LONG], [room, number, MPI.LONG])
    barrier = comm.Ibarrier()
    MPI.Request.Waitall([request, barrier])
    found.append(room[number - 1] == size * (number - 1))
    comm.Scan(MPI.IN_PLACE, part, MPI.MAX)
    found.append(part == given[rank * number:(rank + 1) * number])
    counts = [number, 3, number - 1]
    comm.Reduce_scatter(given[:sum(counts)], part, counts)
    first = sum(counts[:rank])
    found.append(part[counts[rank] - 1] == size * (first + counts[rank] - 1) and part[0] == size * first)
    found.append(comm.allreduce([1] * number) == [size] * number)
    for call in (lambda: comm.Allgather([given, number, MPI.LONG], room),
                 lambda: comm.Reduce_scatter(given, part, [2 * number, 1, number - 1])):
        fault = raised(MPI.Exception, call)
        found.append(fault.Get_error_class() == MPI.ERR_COUNT)
    comm.Barrier()
    MPI.Finalize()
    return found


def long_arrays_are_cut(given):
    """Arrays longer than a post: cut where the root gives or what all give is reduced, else refused."""
    house = House(given.program, neutral(3)).start()
    told = all_results([Client(a_long_rank, house, name, "public") for name in house.names])
    house.end()
    want(told, [[True] * 8] * 3, "long arrays")


def a_split_rank(house, name, label):
    """What one of three ranks knows of those that it was split with."""
    os.environ.update(CONSORTIUM_DIR=str(house.pipes), CONSORTIUM_PROCESS=name, CONSORTIUM_LABEL=label)
    from consortium import MPI

    world, own = MPI.COMM_WORLD, MPI.COMM_SELF
    half = world.Split(world.rank > 0, -world.rank)
    try:
        found = [MPI.Group.Translate_ranks(half.group, list(range(half.size)), world.group)]
    except MPI.Exception as fault:
        found = [fault.Get_error_class() == MPI.ERR_UNSUPPORTED_OPERATION]
    found.append(MPI.Comm.Compare(half, half.Dup()) == MPI.CONGRUENT)
    turned = half.Create(half.group.Incl(range(half.size - 1, -1, -1)))
    found.append(turned.rank == half.size - 1 - half.rank)
    # Of this process alone, and by the server for nobody.
    room = array("q", [0, 0])
    own.Create_cart([1], [True]).Neighbor_alltoall(array("q", [7, 8]), room)
    found += [room.tolist(), own.allreduce([world.rank]), own.Split().size,
              MPI.Group.Translate_ranks(own.group, [0], world.group)]
    # The request of one communicator may end before that of another.
    twin, status = world.Dup(), MPI.Status()
    if world.rank == 0:
        requests = [twin.Ibarrier(), world.Ibarrier()]
        found += [MPI.Request.Waitany(requests, status), status.Get_source() == MPI.ANY_SOURCE]
        world.Barrier()
    else:
        world.Barrier()
        world.Barrier()
        requests = [twin.Ibarrier()]
    found.append(MPI.Request.Waitall(requests))
    MPI.Finalize()
    return found


def members_of_a_split(given):
    """Who gives public data tells the others of a split who it is; the rest are strangers there."""
    house = House(given.program, neutral(3)).start()
    told = all_results([Client(a_split_rank, house, name, "public") for name in house.names])
    house.end()
    alone = [[[8, 7], [rank], 1, [rank]] for rank in range(3)]
    want(told, [[[0], True, True, *alone[0], 1, True, True], [[2, 1], True, True, *alone[1], True],
                [[2, 1], True, True, *alone[2], True]], "a split of public ranks")
    firms = [("a0", "alpha"), ("b0", "beta"), ("c0", "gamma")]
    house = House(given.program, firms, [["alpha", "beta", "gamma"]]).start()
    told = all_results([Client(a_split_rank, house, name, label) for name, label in firms])
    house.end()
    want([found[:3] for found in told], [[[0], True, True], [True, True, True], [True, True, True]],
         "a split of rivals")


TESTS = [programs_of_mpi4py, denials_of_mpi4py, second_programs_of_mpi4py, long_arrays_are_cut,
         members_of_a_split, errors_can_be_sent, labels_bring_no_elements, arrays_are_elements,
         waits_are_interrupted, threads_take_turns]
