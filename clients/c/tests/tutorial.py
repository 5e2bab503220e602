"""What mpi4py's tutorial does with collectives, on whole numbers. `compare` runs it by Debian's
mpi4py, unmodified, over Open MPI and over this library."""
import sys

import numpy
from mpi4py import MPI

world = MPI.COMM_WORLD
rank, size = world.Get_rank(), world.Get_size()
sys.stdout = open(f"{sys.argv[1]}.{rank}", "w", encoding="utf-8")

# Objects, which travel as bytes.
print(world.bcast({"key1": [7, 272], "key2": "abc"} if rank == 0 else None, root=0))
print(world.scatter([(place + 1) ** 2 for place in range(size)] if rank == 0 else None, root=0))
print(world.gather((rank + 1) ** 2, root=size - 1))
print(world.allgather("x" * rank))
print(world.alltoall([(rank, other) for other in range(size)]))

# Arrays.
row = numpy.arange(10, dtype="i") if rank == 0 else numpy.empty(10, dtype="i")
world.Bcast(row, root=0)
print(row)
table = numpy.empty([size, 10], dtype="i") if rank == 0 else None
world.Gather(numpy.zeros(10, dtype="i") + rank, table, root=0)
print(table)
part = numpy.empty(10, dtype="i")
world.Scatter(table, part, root=0)
print(part)

# A matrix, whose rows the processes share, times a vector.
matrix = numpy.arange(2 * 2 * size, dtype="q").reshape(2, 2 * size) + rank
vector = numpy.arange(2, dtype="q") - rank
whole = numpy.zeros(2 * size, dtype="q")
world.Allgather([vector, MPI.LONG], [whole, MPI.LONG])
print(matrix @ whole)

for op in (MPI.SUM, MPI.MAX, MPI.MIN, MPI.PROD, MPI.BXOR, MPI.LAND):
    answer = numpy.zeros(3, dtype="i")
    world.Allreduce(numpy.array([rank, rank + 1, 3 - rank], dtype="i"), answer, op=op)
    print(answer)
best = numpy.zeros(2, dtype="i")
world.Reduce([numpy.array([(rank * 5) % 3, rank], dtype="i"), MPI.TWOINT], [best, MPI.TWOINT],
             op=MPI.MAXLOC, root=0)
print(best)
steps = numpy.array([rank + 1])
world.Scan(MPI.IN_PLACE, steps)
print(steps)

# Blocks of several lengths.
counts = [place + 1 for place in range(size)]
ragged = numpy.zeros(sum(counts), dtype="h")
world.Allgatherv(numpy.full(rank + 1, rank, dtype="h"), [ragged, counts, None, MPI.SHORT])
print(ragged)

# Requests.
sums = [numpy.zeros(1, dtype="q") for _ in range(4)]
given = [numpy.array([rank * place], dtype="q") for place in range(4)]
requests = [world.Iallreduce(one, other) for one, other in zip(given, sums)]
MPI.Request.Waitall(requests)
print(sums, [bool(request) for request in requests])
pending = world.Ibarrier()
while not pending.Test():
    pass

# Groups, communicators and grids.
even = world.group.Incl(range(0, size, 2))
half = world.Create(even)
print(half == MPI.COMM_NULL, MPI.Group.Translate_ranks(even, list(range(even.size)), world.group))
if half != MPI.COMM_NULL:
    print(half.Get_rank(), half.Get_size(), half.allgather(rank))
parity = world.Split(rank % 2, -rank)
print(parity.Get_rank(), parity.Get_size(), MPI.Comm.Compare(parity, world))
dims = MPI.Compute_dims(size, 2)
grid = world.Create_cart(dims, periods=[True, False])
print(dims, grid.coords, grid.Shift(0, 1), grid.Shift(1, -1), grid.inedges)
print(grid.neighbor_allgather(rank))
line = grid.Sub([False, True])
print(line.Get_size(), line.Get_rank(), line.allgather(rank))
world.Set_name("firms")
print(world.Get_name(), world.Get_attr(MPI.WTIME_IS_GLOBAL) is not None)
try:
    world.Bcast(numpy.zeros(1), root=size)
except MPI.Exception as error:
    print(error.Get_error_class() == MPI.ERR_ROOT)
MPI.Finalize()
