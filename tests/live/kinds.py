"""Each kind and each constructor through the client, against values that are worked out here."""
from live import consortium
from live import Client, House, Wrong, all_results, neutral, want

SIZE = 6
WIDTHS = {"int8": (8, True), "int16": (16, True), "int32": (32, True), "int64": (64, True),
          "uint8": (8, False), "uint16": (16, False), "uint32": (32, False), "uint64": (64, False)}


def wrapped(number, type):
    """Two's complement at the width of the type."""
    width, is_signed = WIDTHS[type]
    number %= 1 << width
    return number - (1 << width) if is_signed and number >> (width - 1) else number


OPERATIONS = {
    "max": max,
    "min": min,
    "sum": lambda a, b: a + b,
    "prod": lambda a, b: a * b,
    "land": lambda a, b: int(a != 0 and b != 0),
    "lor": lambda a, b: int(a != 0 or b != 0),
    "lxor": lambda a, b: int((a != 0) != (b != 0)),
    "band": lambda a, b: a & b,
    "bor": lambda a, b: a | b,
    "bxor": lambda a, b: a ^ b,
}


def better(sign):
    """Of two pairs that of the greater (less) value, of equal ones that of the lower index."""
    return lambda a, b: max(a, b, key=lambda pair: (sign * pair[0], -pair[1]))


def reduced(blocks, op, type="int64"):
    """Element by element, by rising rank. Of one block it is that block."""
    if op in ("maxloc", "minloc"):
        combine = better(1 if op == "maxloc" else -1)
    else:
        def combine(a, b):
            return wrapped(OPERATIONS[op](a, b), type)
    result = list(blocks[0])
    for block in blocks[1:]:
        result = [combine(a, b) for a, b in zip(result, block)]
    return result


def block(rank, length, salt=0):
    """What a rank gives, by its rank alone, so that each can work out what the others give."""
    return [(rank * 37 + at * 11 + salt * 5) % 101 - 50 for at in range(length)]


def blocks(rank, lengths, salt=0):
    return [block(rank, length, salt + at) for at, length in enumerate(lengths)]


def every_kind(house, name):
    with house.connect(name) as process:
        world = process.world
        rank, ranks = world.rank, range(SIZE)
        want((world.number, world.size, house.names[rank]), (0, SIZE, name), "the world")
        collectives_of_a_root(world, rank, ranks)
        collectives_of_all(world, rank, ranks)
        reductions(world, rank, ranks)
        constructors(world, rank)
        neighbours(world, rank)


def collectives_of_a_root(world, rank, ranks):
    want(world.Ibarrier().wait(), None, "barrier")
    for root in (0, 4):
        is_root = rank == root
        given = block(root, 3)
        got = world.Ibcast(given if is_root else None, root=root, type="int8", count=3).wait()
        want(got, None if is_root else given, "bcast")
        got = world.Igather(block(rank, 2), root=root, type="int16").wait()
        want(got, [block(r, 2) for r in ranks] if is_root else None, "gather")
        got = world.Igatherv(block(rank, rank), root=root, type="int32").wait()
        want(got, [block(r, r) for r in ranks] if is_root else None, "gatherv")
        parts = blocks(root, [2] * SIZE)
        got = world.Iscatter(parts if is_root else None, root=root, count=2).wait()
        want(got, parts[rank], "scatter")
        parts = blocks(root, [3, 0, 1, 5, 0, 2])
        got = world.Iscatterv(parts if is_root else (), root=root).wait()
        want(got, parts[rank], "scatterv")
        got = world.Ireduce(block(rank, 4), op="min", root=root).wait()
        want(got, reduced([block(r, 4) for r in ranks], "min") if is_root else None, "reduce")


def collectives_of_all(world, rank, ranks):
    got = world.Iallgather(block(rank, 2)).wait()
    want(got, [block(r, 2) for r in ranks], "allgather")
    got = world.Iallgatherv(block(rank, 5 - rank)).wait()
    want(got, [block(r, 5 - r) for r in ranks], "allgatherv")
    got = world.Ialltoall(blocks(rank, [2] * SIZE), type="int8").wait()
    want(got, [blocks(r, [2] * SIZE)[rank] for r in ranks], "alltoall")

    def lengths(r):
        return [(r + 2 * at) % 4 for at in ranks]
    got = world.Ialltoallv(blocks(rank, lengths(rank)), type="int16").wait()
    want(got, [blocks(r, lengths(r))[rank] for r in ranks], "alltoallv")
    pairs = [[(r, at) for at in range(r)] for r in ranks]
    want(world.Iallgatherv(pairs[rank], type="2int").wait(), pairs, "allgatherv of pairs")


def reductions(world, rank, ranks):
    for type, (width, is_signed) in WIDTHS.items():
        low, top = (-(1 << width - 1), (1 << width - 1) - 1) if is_signed else (0, (1 << width) - 1)
        given = [[low + 3 * r, top - r, r % 2, r + 1, 0, top] for r in ranks]
        for op in OPERATIONS:
            got = world.Iallreduce(given[rank], op=op, type=type).wait()
            want(got, reduced(given, op, type), f"allreduce {op} {type}")
    given = [[(r % 3, r), (5, 9 - r), (-r, r)] for r in ranks]
    for op in ("maxloc", "minloc"):
        got = world.Iallreduce(given[rank], op=op, type="2int").wait()
        want(got, reduced(given, op), f"allreduce {op}")
    counts = [2, 0, 3, 1, 0, 4]
    got = world.Ireduce_scatter(blocks(rank, counts), op="sum").wait()
    want(got, reduced([blocks(r, counts)[rank] for r in ranks], "sum"), "reduce_scatter")
    got = world.Ireduce_scatter_block(blocks(rank, [2] * SIZE), op="bxor").wait()
    want(got, reduced([blocks(r, [2] * SIZE)[rank] for r in ranks], "bxor"), "reduce_scatter_block")
    got = world.Iscan(block(rank, 3), op="sum").wait()
    want(got, reduced([block(r, 3) for r in range(rank + 1)], "sum"), "scan")
    got = world.Iexscan(block(rank, 3), op="sum").wait()
    below = [block(r, 3) for r in range(rank)]
    want(got, reduced(below, "sum") if below else None, "exscan")


def members(comm, rank):
    """The old ranks of all members, by their new ones."""
    found = [old for part in comm.Iallgather([rank]).wait() for old in part]
    want((found[comm.rank], len(found)), (rank, comm.size), f"place in {comm}")
    return found


def constructors(world, rank):
    copy = world.Idup().wait()
    want((members(copy, rank), copy.dims), (list(range(SIZE)), None), "dup")
    part = world.Isplit(color=None if rank == 5 else rank % 2, key=-rank).wait()
    if rank == 5:
        want(part, None, "split by no colour")
    else:
        want(members(part, rank), [3, 1] if rank % 2 else [4, 2, 0], "split")
    some = world.Icreate([4, 0, 2]).wait()
    if rank in (0, 2, 4):
        want(members(some, rank), [4, 0, 2], "create")
    else:
        want(some, None, "create of others")
    want(world.Icreate([]).wait(), None, "create of nobody")
    grid = world.Icreate_cart([2, 2], [False, True]).wait()
    if rank < 4:
        want((members(grid, rank), grid.dims), ([0, 1, 2, 3], [2, 2]), "cart_create")
        row = grid.Isub([False, True]).wait()
        want((members(row, rank), row.dims), ([0, 1] if rank < 2 else [2, 3], [2]), "cart_sub")
    else:
        want(grid, None, "cart_create of fewer")


def neighbours(world, rank):
    """Two rows of three, of which the second dimension is periodic."""
    grid = world.Create_cart([2, 3], [False, True])
    want((grid.rank, grid.size, grid.dims), (rank, SIZE, [2, 3]), "the grid")
    row, column = divmod(rank, 3)
    want((grid.Get_coords(rank), grid.Get_cart_rank([row, column + 3])), ([row, column], rank), "its coordinates")
    want(grid.Shift(1, 1), (3 * row + (column - 1) % 3, 3 * row + (column + 1) % 3), "a shift")
    want(grid.Shift(0, 1), (None if row == 0 else rank - 3, None if row == 1 else rank + 3), "another")

    def slots(r):
        row, column = divmod(r, 3)
        return [r - 3 if row else None, None if row else r + 3,
                3 * row + (column - 1) % 3, 3 * row + (column + 1) % 3]

    def got(given):
        """`given(r, slot)`, of each neighbour that which it gave for the opposite slot."""
        return [None if r is None else given(r, slot ^ 1) for slot, r in enumerate(slots(rank))]

    want(grid.Ineighbor_allgather(block(rank, 2)).wait(), got(lambda r, _: block(r, 2)),
         "neighbor_allgather")
    want(grid.Ineighbor_allgatherv(block(rank, rank)).wait(), got(lambda r, _: block(r, r)),
         "neighbor_allgatherv")
    want(grid.Ineighbor_alltoall(blocks(rank, [2] * 4)).wait(),
         got(lambda r, slot: blocks(r, [2] * 4)[slot]), "neighbor_alltoall")

    def lengths(r):
        return [(r + at) % 3 for at in range(4)]
    want(grid.Ineighbor_alltoallv(blocks(rank, lengths(rank))).wait(),
         got(lambda r, slot: blocks(r, lengths(r))[slot]), "neighbor_alltoallv")
    ring = world.Create_cart([2], [True])
    if ring is not None:
        # The one neighbour stands on both sides.
        want(ring.Ineighbor_alltoall([[rank], [10 + rank]]).wait(), [[11 - rank], [1 - rank]],
             "neighbor_alltoall between two")


def all_kinds(given):
    """Twenty kinds, five constructors, nine types and twelve operations, by six processes."""
    house = House(given.program, neutral(SIZE)).start()
    all_results([Client(every_kind, house, name) for name in house.names])
    house.end()
    house.audit()


def widest_posts(given):
    """65,536 elements, which is the most, of the longest words: to the server and back."""
    house = House(given.program, neutral(2)).start()
    number, most = -(1 << 63), 65_536

    def gives(name):
        with house.connect(name) as process:
            world = process.world
            got = world.Iallgather([number] * most).wait()
            want(got, [[number] * most] * 2, "the widest allgather")
            pair = (-(1 << 31), -(1 << 31))
            got = world.Iallreduce([pair] * most, op="minloc", type="2int").wait()
            want(got, [pair] * most, "the widest pairs")

    all_results([Client(gives, name) for name in house.names])
    house.end()


def no_room_is_told(given):
    """The 1,024th communicator is made, and no further one."""
    house = House(given.program, neutral(1)).start()
    with house.connect("p0") as process:
        for number in range(1, 1024):
            want(process.world.Dup().number, number, "a new communicator")
        try:
            process.world.Dup()
            raise Wrong("1,025 communicators")
        except consortium.NoRoom:
            pass
        want(process.world.Iallreduce([7]).wait(), [7], "a sum afterwards")
    house.end()
    house.audit()


TESTS = [all_kinds, widest_posts, no_room_is_told]
