"""The same as figures.c, by the client in Python: figures.py COUNT CALLS."""
import os
import sys
import time

from consortium import Process

count, calls = int(sys.argv[1]), int(sys.argv[2])
given = [100000 + place for place in range(count)]
with Process(os.environ["CONSORTIUM_DIR"], os.environ["CONSORTIUM_PROCESS"],
             label=os.environ["CONSORTIUM_LABEL"]) as process:
    process.world.Iallreduce(given).wait()
    begin, own = time.perf_counter(), time.process_time()
    for _ in range(calls):
        process.world.Iallreduce(given).wait()
    end, own_end = time.perf_counter(), time.process_time()
    if process.world.rank == 0:
        print(f"{(end - begin) / calls * 1e6:.1f} {(own_end - own) / calls * 1e6:.1f}")
