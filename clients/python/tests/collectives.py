"""A program written for mpi4py: random collectives, and what each rank gets.

    collectives.py MODULE SEED NUMBER FILE

MODULE is `mpi4py.MPI` or `consortium.MPI`. All ranks draw the same collectives from the seed; rank
R writes what it gets to FILE.R, a line for each. `compare` runs it over both and compares.

Two things are left out, in which Open MPI 4.1 differs from the standard: a sum or a product of a
narrow type that passes its range (it is kept at the bound), and a neighbour exchange of blocks on a
periodic dimension of one or two ranks.
"""
import importlib
import random
import sys
import zlib
from array import array

MPI = importlib.import_module(sys.argv[1])
SEED, NUMBER, FILE = int(sys.argv[2]), int(sys.argv[3]), sys.argv[4]
WORLD = MPI.COMM_WORLD
RANK, SIZE = WORLD.Get_rank(), WORLD.Get_size()
TYPES = {"b": MPI.INT8_T, "h": MPI.INT16_T, "i": MPI.INT32_T, "q": MPI.INT64_T,
         "B": MPI.UINT8_T, "H": MPI.UINT16_T, "I": MPI.UINT32_T, "Q": MPI.UINT64_T}
OPERATIONS = "MAX MIN SUM PROD LAND LOR LXOR BAND BOR BXOR".split()


class Turn:
    """One collective, as it was drawn, and the buffers of it."""

    def __init__(self, rng):
        self.code = rng.choice(list(TYPES))
        self.type = TYPES[self.code]
        self.count, self.root = rng.choice([0, 1, 2, 3, 17]), rng.randrange(SIZE)
        self.operation = rng.choice(OPERATIONS)
        self.op = getattr(MPI, self.operation)
        self.counts = [rng.choice([0, 1, 2, 5]) for _ in range(SIZE)]
        self.starts, self.span = [], 0
        for count in self.counts:
            self.span += rng.choice([0, 1, 3])
            self.starts.append(self.span)
            self.span += count
        self.span += 2
        self.waits = rng.choice([True, False])

    def element(self, at):
        """An element of this rank's data: small ones where a sum could pass the range."""
        bits = array(self.code).itemsize * 8
        drawn = random.Random(repr((SEED, RANK, at, self.code))).getrandbits(bits)
        if self.code.islower() and drawn >= 1 << (bits - 1):
            drawn -= 1 << bits
        return abs(drawn) % 3 if self.operation in ("SUM", "PROD") else drawn

    def data(self, count):
        return array(self.code, [self.element(at) for at in range(count)])

    def room(self, count):
        return array(self.code, [1] * count)

    def call(self, comm, name, *given, **named):
        """The blocking call, or the nonblocking one and a wait."""
        if self.waits:
            getattr(comm, name)(*given, **named)
        else:
            getattr(comm, "I" + name.lower())(*given, **named).Wait()

    def gets(self, count, name, sent, comm=WORLD, at_root=False, parts=None, **named):
        """What a call of a sender's and a receiver's buffer puts into so much room."""
        room = self.room(count)
        into = [room, parts, self.type] if parts else [room, self.type]
        self.call(comm, name, sent, into if not at_root or RANK == self.root else None, **named)
        return room.tolist()

    def sent(self, count, parts=None):
        data = self.data(count)
        return [data, parts, self.type] if parts else [data, self.type]


def bcast(turn):
    data = turn.data(turn.count)
    turn.call(WORLD, "Bcast", [data, turn.type], root=turn.root)
    return data.tolist()


def gather(turn):
    return turn.gets(turn.count * SIZE, "Gather", turn.sent(turn.count), at_root=True, root=turn.root)


def gatherv(turn):
    return turn.gets(turn.span, "Gatherv", turn.sent(turn.counts[RANK]), at_root=True,
                     parts=(turn.counts, turn.starts), root=turn.root)


def scatter(turn):
    sent = turn.sent(turn.count * SIZE) if RANK == turn.root else None
    return turn.gets(turn.count, "Scatter", sent, root=turn.root)


def scatterv(turn):
    sent = turn.sent(turn.span, (turn.counts, turn.starts)) if RANK == turn.root else None
    return turn.gets(turn.counts[RANK], "Scatterv", sent, root=turn.root)


def allgather(turn):
    return turn.gets(turn.count * SIZE, "Allgather", turn.sent(turn.count))


def allgatherv(turn):
    return turn.gets(turn.span, "Allgatherv", turn.sent(turn.counts[RANK]), parts=(turn.counts, turn.starts))


def alltoall(turn):
    return turn.gets(turn.count * SIZE, "Alltoall", turn.sent(turn.count * SIZE))


def alltoallv(turn):
    gives = [(turn.counts[to] + RANK) % 4 for to in range(SIZE)]
    takes = [(turn.counts[RANK] + by) % 4 for by in range(SIZE)]
    sent = turn.sent(sum(gives), (gives, [sum(gives[:to]) for to in range(SIZE)]))
    places = (takes, [sum(takes[:by]) + by for by in range(SIZE)])
    return turn.gets(sum(takes) + SIZE, "Alltoallv", sent, parts=places)


def reduce(turn):
    return turn.gets(turn.count, "Reduce", turn.sent(turn.count), at_root=True, op=turn.op, root=turn.root)


def allreduce(turn):
    return turn.gets(turn.count, "Allreduce", turn.sent(turn.count), op=turn.op)


def scan(turn):
    return turn.gets(turn.count, "Scan", turn.sent(turn.count), op=turn.op)


def exscan(turn):
    return turn.gets(turn.count, "Exscan", turn.sent(turn.count), op=turn.op)


def reduce_scatter_block(turn):
    return turn.gets(turn.count, "Reduce_scatter_block", turn.sent(turn.count * SIZE), op=turn.op)


def reduce_scatter(turn):
    room = turn.room(turn.counts[RANK])
    turn.call(WORLD, "Reduce_scatter", turn.sent(sum(turn.counts)), [room, turn.type], turn.counts, op=turn.op)
    return room.tolist()


def in_place(turn):
    data, blocks = turn.data(turn.count), turn.data(turn.count * SIZE)
    turn.call(WORLD, "Allreduce", MPI.IN_PLACE, [data, turn.type], op=turn.op)
    turn.call(WORLD, "Allgather", MPI.IN_PLACE, [blocks, turn.type])
    return data.tolist(), blocks.tolist()


def grid(turn):
    sides = list(MPI.Compute_dims(SIZE, 2))
    wraps = [turn.count > 1, turn.root % 2 == 0]
    comm = WORLD.Create_cart(sides, wraps)
    found = [sides, list(comm.Get_coords(comm.Get_rank())), list(comm.Shift(0, 1)), list(comm.Shift(1, -2))]
    found.append(turn.gets(4 * turn.count, "Neighbor_allgather", turn.sent(turn.count), comm))
    blocks = turn.gets(4 * turn.count, "Neighbor_alltoall", turn.sent(4 * turn.count), comm)
    if not any(wrap and side < 3 for wrap, side in zip(wraps, sides)):
        found.append(blocks)
    part = comm.Sub([True, False])
    found += [part.Get_rank(), part.Get_size()]
    return found + [turn.gets(turn.count, "Allreduce", turn.sent(turn.count), part, op=turn.op)]


def constructors(turn):
    copy = WORLD.Dup()
    if SIZE > 1:    # two disjoint groups at once
        half = [rank for rank in range(SIZE) if rank % 2 == RANK % 2]
        part = WORLD.Create(WORLD.Get_group().Incl(half))
        part.Barrier()
    found = [copy.Get_rank(), copy.Get_size(), MPI.Comm.Compare(WORLD, copy) == MPI.CONGRUENT]
    some = [rank for rank in range(SIZE) if turn.counts[rank]][::-1] or [0]
    comm = WORLD.Create(WORLD.Get_group().Incl(some))
    if comm != MPI.COMM_NULL:
        found += [comm.Get_rank(), comm.allreduce(RANK, op=MPI.SUM), comm.bcast([RANK, 3])]
    colour = turn.counts[RANK] if turn.counts[RANK] < 5 else MPI.UNDEFINED
    comm = WORLD.Split(colour, (turn.root - RANK) % SIZE)
    if comm == MPI.COMM_NULL:
        return found
    members = MPI.Group.Translate_ranks(comm.Get_group(), list(range(comm.Get_size())), WORLD.Get_group())
    return found + [comm.Get_rank(), comm.Get_size(), comm.allgather(RANK), list(members)]


def values(turn):
    root = turn.root
    return [WORLD.bcast([1, 2, root] if RANK == root else None, root), WORLD.gather(RANK * 2, root),
            WORLD.allgather([RANK] * turn.counts[RANK]), WORLD.alltoall([RANK * 10 + to for to in range(SIZE)]),
            WORLD.scatter([[to, root] for to in range(SIZE)] if RANK == root else None, root),
            WORLD.reduce(RANK, MPI.MAX, root), WORLD.allreduce(RANK), WORLD.scan(RANK), WORLD.exscan(RANK)]


def groups(turn):
    world, found = WORLD.Get_group(), []
    one = world.Incl([rank for rank in range(SIZE) if turn.counts[rank] > 1])
    other = world.Excl([rank for rank in range(SIZE) if turn.counts[rank] == 2])
    for group in (MPI.Group.Union(one, other), MPI.Group.Intersection(one, other), MPI.Group.Difference(one, other),
                  world.Range_incl([(SIZE - 1, 0, -1)])):
        found.append(list(MPI.Group.Translate_ranks(group, list(range(group.Get_size())), world)))
    return found + [MPI.Group.Compare(one, one) == MPI.IDENT, MPI.Group.Compare(one, other) == MPI.UNEQUAL]


def long(turn):
    """Arrays of more elements than a post has."""
    count = 70001 + turn.root
    mine = [array("q", range(RANK, count * SIZE + RANK)), MPI.INT64_T]
    own, room = [mine[0][:count], MPI.INT64_T], [array("q", [0] * count), MPI.INT64_T]
    found = []
    for name, sent, named in (("Allreduce", own, {"op": turn.op}), ("Scan", own, {"op": turn.op}),
                              ("Reduce_scatter_block", mine, {"op": turn.op}),
                              ("Scatter", mine if RANK == turn.root else None, {"root": turn.root})):
        turn.call(WORLD, name, sent, room, **named)
        found.append(zlib.crc32(room[0].tobytes()))
    turn.call(WORLD, "Bcast", own, root=turn.root)
    return found + [zlib.crc32(own[0].tobytes())]


def of_self(turn):
    own = MPI.COMM_SELF
    data, room = turn.sent(turn.count), turn.room(turn.count)
    turn.call(own, "Allgather", data, [room, turn.type])
    found = [own.Get_rank(), own.Get_size(), room.tolist(), own.allreduce(RANK), own.bcast([RANK])]
    return found + [MPI.Comm.Compare(own, own.Dup()) == MPI.CONGRUENT]


def statuses(turn):
    """Requests of two communicators, ended in four ways. (Source, tag and count of a collective's
    status MPI leaves open.)"""
    twin, given, rooms = WORLD.Dup(), array("q", [RANK]), [array("q", [0]) for _ in range(4)]
    requests = [(WORLD, twin)[at % 2].Iallreduce(given, rooms[at]) for at in range(4)]
    told, done, way = [MPI.Status() for _ in range(4)], [], turn.root % 4
    if way == 0:
        MPI.Request.Waitall(requests, told)
    while way and len(done) < 4:
        done += {1: lambda: [MPI.Request.Waitany(requests, told[0])], 2: lambda: MPI.Request.Waitsome(requests, told),
                 3: lambda: [it for it, is_done in [MPI.Request.Testany(requests, told[0])] if it != MPI.UNDEFINED],
                 }[way]()
    return [room.tolist() for room in rooms], sorted(done), told[0].Get_error(), [bool(it) for it in requests]


ALL = [bcast, gather, gatherv, scatter, scatterv, allgather, allgatherv, alltoall, alltoallv, reduce,
       allreduce, scan, exscan, reduce_scatter_block, reduce_scatter, in_place, grid, constructors,
       values, groups, long, of_self, statuses]


def main():
    rng = random.Random(SEED)
    with open(f"{FILE}.{RANK}", "w", encoding="ascii") as file:
        for number in range(NUMBER):
            what, turn = rng.choice(ALL), Turn(rng)
            file.write(f"{number} {what.__name__} {turn.code} {turn.count} {turn.operation}: {what(turn)}\n")


main()
