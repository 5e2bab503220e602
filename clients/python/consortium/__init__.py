"""A process of a consortium, in Python: the client of `consortium serve` (docs/SERVE.md).

    from consortium import Process

    with Process("/run/consortium/bank", "a0", label="alpha") as process:
        total = process.world.Iallreduce([120], op="sum").wait()

A process opens the pair of pipes that has its name, and speaks for it from then on. Communicators
have the calls of mpi4py in their nonblocking forms; each gives a request, whose `test` and `wait`
give what the process gets. Every call is one line to the server and one line from it, whose forms
are in docs/SCRIPT.md; docs/KINDS.md says of each kind what a rank gives and what it gets.

    elements   whole numbers, also as an array; of type "2int" pairs of a value and its index
    a block    a list of elements: what goes from one rank to one place
    blocks     a list of blocks, one for each rank, or for each slot of a grid
    label      whose data the elements are: a dataset of the policy, or "public"; that of the
               process where none is given. Who gives no elements needs none.
    count      how many elements a block has. Who gives some need not say it; all others must, since
               all members state it alike.
    receipt    how many entries the server's book had at a time, and the digest of its text so far:
               who keeps it can `verify` the book that is handed out later.

The examples in this package are of a process `solo` that is alone in its world, so that they can be
run by themselves (tests/live does). Python 3.8 or newer, and nothing else.
"""

from .comm import Comm
from .errors import BadLine, ConsortiumError, Denied, Gone, NoRoom, Refused, Stuck
from .grid import OnGrid
from .pipes import await_writer, open_for_writing
from .process import Process
from .receipts import Receipt, read_receipt, verify
from .request import Request
from .values import Block, Blocks, Element

__version__ = "1.0.0"
__all__ = ["BadLine", "Block", "Blocks", "Comm", "ConsortiumError", "Denied", "Element", "Gone",
           "NoRoom", "OnGrid", "Process", "Receipt", "Refused", "Request", "Stuck", "await_writer",
           "open_for_writing", "read_receipt", "verify"]
