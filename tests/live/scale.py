"""What waiting and many calls cost the server."""
import time

from live import Client, House, Wrong, all_results, neutral, until, want


def waits_once(house, name):
    with house.connect(name) as process:
        request = process.world.Iallreduce([process.world.rank])
        (house.folder / f"{name}.posted").write_bytes(b"")
        return request.wait()


def waits_that_sleep(given):
    """63 processes wait for the 64th: less than 0.05 s of the server's processor in ten seconds."""
    house = House(given.program, neutral(64)).start()
    last = house.connect("p63")
    clients = [Client(waits_once, house, name) for name in house.names[:63]]
    until(lambda: len(list(house.folder.glob("*.posted"))) == 63, "63 have posted", 60)
    time.sleep(1)
    before = house.processor_seconds()
    time.sleep(given.idle)
    used = house.processor_seconds() - before
    if used >= 0.05:
        raise Wrong(f"{used:.2f} s of processor time in {given.idle} s of waiting")
    total = sum(range(64))
    want(last.world.Iallreduce([63]).wait(), [total], "the sum")
    want(all_results(clients), [[total]] * 63, "the sums of those that waited")
    last.leave()
    house.end()


def calls_often(house, name, first, all_calls, keeps):
    """Rounds of a post, a wait, two infos, a take and a bad line, six lines each. After the first
    calls it waits until the server has been measured. If it keeps a request, it never takes the
    outcome of its first post."""
    with house.connect(name) as process:
        world, calls, measured = process.world, 1, False
        kept = world.Ibarrier() if keeps else None
        while calls < all_calls:
            want(world.Iallreduce([calls]).wait(), [2 * calls], "a sum")
            for line in ("info 0", "info 700", "take 9999999999", "hello"):
                process.ask(line)
            calls += 6
            if calls >= first and not measured:
                measured = True
                (house.folder / f"{name}.first").write_bytes(b"")
                until(lambda: (house.folder / "measured").exists(), "the measure")
        if keeps:
            kept.wait()
        (house.folder / f"{name}.last").write_bytes(b"")
        until(lambda: (house.folder / "measured_again").exists(), "the measure")


def memory_stays_with(given, book, keeps=False):
    """A server that is measured, with a book or without, and where each process keeps a request."""
    house = House(given.program, neutral(2), book=book).start()
    first = min(100_000, given.calls // 3)
    clients = [Client(calls_often, house, name, first // 2, given.calls // 2, keeps)
               for name in house.names]
    before = measured(house, "first", "measured", given.seconds)
    after = measured(house, "last", "measured_again", given.seconds)
    all_results(clients)
    if after > before * 1.1:
        raise Wrong(f"{before} KiB after {first} calls, {after} KiB after {given.calls}, "
                    f"{'with' if book else 'without'} a book{', a request kept' if keeps else ''}")
    house.end()


def memory_stays(given):
    """The server's memory after many calls is that after 100,000, within a tenth: no entry of the
    book is kept, and nothing behind a request that is never taken."""
    for book in (False, True):
        memory_stays_with(given, book)
    memory_stays_with(given, False, keeps=True)


def measured(house, mark, answer, seconds):
    until(lambda: len(list(house.folder.glob(f"*.{mark}"))) == 2, f"calls ({mark})", seconds)
    memory = house.memory_kib()
    (house.folder / answer).write_bytes(b"")
    return memory


TESTS = [waits_that_sleep, memory_stays]
