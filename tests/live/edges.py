"""The edges of a server: descriptors that are closed, starts that fail, syncs, calls that are cut
short, a standard output that nobody reads, memory that is refused to a session."""
import itertools
import os
import pathlib
import resource
import select
import shutil
import subprocess
import time

from live import House, Raw, Wrong
from live import as_nobody, die_with_parent, neutral, of_nobody, started, until, want

HERE = pathlib.Path(__file__).resolve().parent


def plays_a_barrier(house, names):
    """These processes post a barrier, are told that it settled, and leave."""
    raws = [Raw(house, name) for name in names]
    for raw in raws:
        want(raw.ask("post 0 barrier"), "posted 0", "a post")
    for raw in raws:
        want(raw.ask("take 0"), "delivered none", "a take")
        want(raw.ask("leave"), "left", "a leave")
        want(raw.read(), b"", "the end of the replies")


def library(house, name):
    """A C file beside this one, built to be loaded in front of the program's own calls."""
    if not shutil.which("cc"):
        print("not tried, since there is no C compiler: ", end="")
        return None
    built = house.folder / f"{name}.so"
    words = ["cc", "-O1", "-shared", "-fPIC", "-o", built, HERE / f"{name}.c"]
    subprocess.run(words, check=True, timeout=60)
    return built


def streams_that_are_closed(given):
    """Whichever of descriptors 0, 1 and 2 is closed: no event and no fault's line goes into the
    book, or to a member, and what cannot be told is a write fault."""
    for closed in itertools.chain.from_iterable(
            itertools.combinations(range(3), count) for count in range(4)):
        for has_book in (True, False):
            house = House(given.program, neutral(2), book=has_book)

            def before():
                die_with_parent()
                for number in closed:
                    os.close(number)

            server = started(house, before)
            what = f"{closed} closed, book {has_book}"
            plays_a_barrier(house, house.names)
            out, err = server.communicate(timeout=60)
            want(server.returncode, 3 if 1 in closed else 0, f"status ({what})")
            events = [] if 1 in closed else ["serving 2 processes", "served 4 calls"]
            lines = out.decode("ascii").splitlines()
            want(lines[:1] + lines[-1:], events, f"events ({what})")
            due = b"write fault\n" if 1 in closed and 2 not in closed else b""
            want(err, due, f"standard error ({what})")
            if has_book:
                house.audit()


def books_are_of_the_user_alone(given):
    """Whatever the mask, nobody but the server's user may read the book."""
    house = House(given.program, neutral(1))

    def before():
        die_with_parent()
        os.umask(0)

    started(house, before)
    want(house.server.stdout.readline(), b"serving 1 processes\n", "the first event")
    want(house.book.stat().st_mode & 0o7777, 0o600, "the mode of the book")
    plays_a_barrier(house, house.names)
    house.server.communicate(timeout=60)
    want(house.book.stat().st_mode & 0o7777, 0o600, "the mode of the book behind its end")


def starts_that_fail(given):
    """Where no session begins the book's file is taken away again."""
    house = House(given.program, neutral(4))
    of_nobody(house)
    server = started(house, as_nobody((resource.RLIMIT_NPROC, 2)))
    out, err = server.communicate(timeout=60)
    if server.returncode == 4:
        want((out, err), (b"serving 4 processes\n", b"no thread\n"), "how a start ends")
        want(house.book.exists(), False, "a book where no session began")
    else:
        raise Wrong(f"no limit on threads binds: {server.returncode} {err!r}")


def syncs_are_asked_for(given):
    """With --sync the folder of the book is asked for before a session begins, the file behind each
    post that settles, and at the end line; without it nothing is."""
    for options in ([], ["--sync"]):
        house = House(given.program, neutral(1))
        built = library(house, "refuse_sync")
        if built is None:
            return
        told = house.folder / "syncs"
        environment = ["env", f"LD_PRELOAD={built}", "REFUSED_SYNC=100", f"TOLD_SYNCS={told}"]
        house.words = [*environment, *house.words, *options]
        house.start()
        begun = told.read_bytes() if told.exists() else b""
        want(begun, b"d" if options else b"", "syncs before the first session")
        plays_a_barrier(house, house.names)
        house.end()
        done = told.read_bytes() if told.exists() else b""
        want(done, b"dff" if options else b"", "syncs at the end")
    # The folder, the verdict of the first post, the end line.
    for most, asked in ((0, 0), (1, 1), (2, 2)):
        house = House(given.program, neutral(1))
        environment = ["env", f"LD_PRELOAD={library(house, 'refuse_sync')}", f"REFUSED_SYNC={most}"]
        house.words = [*environment, *house.words, "--sync"]
        server = started(house)
        if asked:
            raw = Raw(house, "p0")
            posted = raw.ask("post 0 barrier")
            want(posted, "unbooked" if asked == 1 else "posted 0", "the post")
            if asked == 2:
                want(raw.ask("leave"), "left", "a leave")
        out, err = server.communicate(timeout=60)
        want((server.returncode, err), (3, b"write fault\n"), f"the end, sync {most} refused")
        want(house.book.exists(), asked > 0, "the book's file")


def nobody_reads_the_events(given):
    """A standard output that stands still holds up nobody: who comes later is served too."""
    house = House(given.program, neutral(3))
    reader, writer = os.pipe()
    os.set_blocking(writer, False)
    try:
        while True:
            os.write(writer, b"x" * 4096)
    except BlockingIOError:
        pass
    os.set_blocking(writer, True)
    server = started(house, stdout=writer)
    os.close(writer)
    plays_a_barrier(house, house.names)
    want(server.poll(), None, "a server whose events are not read yet")
    told = b""
    while True:
        more = os.read(reader, 1 << 16)
        if not more:
            break
        told += more
    os.close(reader)
    server.communicate(timeout=60)
    events = told.lstrip(b"x").decode("ascii").splitlines()
    want((server.returncode, events[0], events[-1], len(events)),
         (0, "serving 3 processes", "served 6 calls", 8), "how the server ends")
    house.audit()


def calls_that_are_cut_short(given):
    """Reads and writes that a signal cuts short are made again: of pipes, policy and book."""
    house = House(given.program, neutral(2))
    built = library(house, "cut_short")
    if built is None:
        return
    # The name of the folder is in no call of the program's own start.
    environment = ["env", f"LD_PRELOAD={built}", "CUT_SHORT=3"]
    house.words = [*environment, *house.words]
    house.start()
    plays_a_barrier(house, house.names)
    house.end()
    house.audit()
    want(house.events()[-1], "served 4 calls", "the last event")


def refusing(given, built, number):
    """A server to which its growth of this number is refused, and whether its sessions began: there
    are threads of two beside its first. (One more writes the events, if it was not refused.)"""
    house = House(given.program, neutral(2))
    environment = ["env", f"LD_PRELOAD={built}", f"REFUSED_GROWTH={number}"]
    house.words = [*environment, *house.words]
    server = started(house)
    threads = f"/proc/{server.pid}/task"
    until(lambda: server.poll() is not None or len(os.listdir(threads)) >= 3, "a server begins")
    time.sleep(0.1)
    return house, server.poll() is None


def first_of_a_session(given, built):
    """The number of the first growth with whose refusal a server begins to serve all the same."""
    low, high = 0, 4096
    while high - low > 1:
        middle = (low + high) // 2
        house, serves = refusing(given, built, middle)
        house.server.kill()
        house.server.wait()
        low, high = (low, middle) if serves else (middle, high)
    return high


def memory_that_is_refused(given):
    """A session to which memory is refused ends so: the event says it, and the status is 4."""
    probe = House(given.program, neutral(2))
    if not shutil.which("cc"):
        print("not tried, since there is no C compiler: ", end="")
        return
    built = probe.folder / "refuse_one.so"
    shim = HERE.parent / "refuse_one.c"
    subprocess.run(["cc", "-O1", "-shared", "-fPIC", "-o", built, shim], check=True, timeout=60)
    first, found = first_of_a_session(given, built), 0
    for number in range(first, first + 60):
        house, serves = refusing(given, built, number)
        if not serves:
            # Refused before the first session began.
            err = house.server.communicate(timeout=60)[1]
            want((house.server.returncode, err in (b"out of memory\n", b"no thread\n")), (4, True),
                 f"the end at growth {number}")
            want(house.book.exists(), False, "a book where no session began")
            continue
        ended = [talks(house, name) for name in house.names]
        out, err = house.server.communicate(timeout=60)
        if b": out of memory\n" in out:
            found += 1
            want((house.server.returncode, err), (4, b"out of memory\n"), f"growth {number}")
            want(False in ended, True, f"whether a reply was missing at growth {number}")
        elif house.server.returncode == 0:
            want(ended, [True, True], f"replies at growth {number}")
        if found >= 3:
            return
    raise Wrong("no growth of a session was refused")


def talks(house, name):
    """Whether a process was answered to the end, with a post of some size."""
    raw = Raw(house, name)
    numbers = " ".join(["1234567890123"] * 3000)
    lines = f"post 0 allreduce sum int64 3000 as public {numbers}\ninfo 0\nleave\n"
    try:
        raw.send(lines.encode("ascii"))
    except BrokenPipeError:
        return False
    told = b""
    while True:
        more = raw.read()
        if not more:
            return told.endswith(b"left\n")
        told += more


def files_that_may_not_grow(given):
    """A limit on the size of files, where its signal is ignored as the page says: a full disk."""
    house = House(given.program, neutral(1))
    house.words = ["sh", "-c", "trap '' XFSZ; ulimit -f 1; exec \"$@\"", "sh", *house.words]
    server = started(house)
    raw, told = Raw(house, "p0"), "posted 0"
    for turn in range(100):
        told = raw.ask("post 0 barrier")
        if told == "unbooked":
            break
        want(told, f"posted {turn}", "a post")
    want(told, "unbooked", "the last post")
    err = server.communicate(timeout=60)[1]
    want((server.returncode, err), (3, b"write fault\n"), "how the server ends")
    want(house.book.stat().st_size <= 1024, True, "the size of the book")


def all_who_wait_are_told(given):
    """Where all that have not left wait, each is told so; who waits again is told with all others."""
    house = House(given.program, neutral(4)).start()
    raws = [Raw(house, name) for name in house.names]
    for raw in raws[:3]:
        want(raw.ask("post 0 barrier"), "posted 0", "a post")
        raw.send(b"wait 0\n")
    # Nobody is told while somebody could still post.
    time.sleep(0.3)
    told = select.select([raw.replies for raw in raws[:3]], [], [], 0)[0]
    want(told, [], "who is told before the last has left")
    want(raws[3].ask("leave"), "left", "the leave of the last")
    for raw in raws[:3]:
        want(raw.line(), "pending", "what each is told")
    # Two wait again, and sleep while the third may act; as it leaves, both are told.
    for raw in raws[:2]:
        raw.send(b"wait 0\n")
    time.sleep(0.3)
    told = select.select([raw.replies for raw in raws[:2]], [], [], 0)[0]
    want(told, [], "who is told beside one that is awake")
    want(raws[2].ask("leave"), "left", "the leave of the third")
    for raw in raws[:2]:
        want(raw.line(), "pending", "what both are told")
        want(raw.ask("leave"), "left", "a leave")
    house.end()


def room_is_given_back(given):
    """A session keeps no room for a long reply that was written, nor for a long line."""
    house = House(given.program, neutral(4))
    # So that the C library hands on what it is given back.
    house.words = ["env", "MALLOC_MMAP_THRESHOLD_=65536", *house.words]
    house.start()
    raws = [Raw(house, name) for name in house.names]
    want(raws[0].ask("info 0"), "info size 4 rank 0", "an info")
    begun = house.memory_kib()
    numbers = " ".join(["1234567890123456789"] * 65_536)
    for raw in raws:
        raw.send(f"post 0 allgatherv int64 as public {numbers}\n".encode("ascii"))
        want(raw.line(), "posted 0", "a post")
    for raw in raws:
        raw.send(b"take 0\n")
        want(len(raw.line()), len("delivered") + 4 * (len(numbers) + 3), "the length of a reply")
        want(raw.ask("info 0").split()[0], "info", "the session afterwards")
    most, kept = house.memory_kib("VmHWM"), house.memory_kib()
    if kept > begun + 3_000 or most < begun + 6_000:
        raise Wrong(f"the server had {begun} KiB at first, {most} at most, and {kept} at last")
    for raw in raws:
        want(raw.ask("leave"), "left", "a leave")
    house.end()


def calls_are_bounded(given):
    """With --calls N the call behind the N-th of a session is answered `exhausted` and not made, and
    its replies end; what asks for nothing, and a leave, are answered as ever, and others go on."""
    house = House(given.program, neutral(3))
    house.words += ["--calls", "4"]
    server = started(house)
    raws = [Raw(house, name) for name in house.names]
    for raw in raws:
        want(raw.ask("post 0 barrier"), "posted 0", "a post")
    for raw in raws:
        want(raw.ask("wait 0"), "delivered none", "a wait")
    first, second, third = raws
    want(first.ask("info 0"), "info size 3 rank 0", "the third call")
    want(first.ask("foo"), "bad BadVerb", "no call")
    want(first.ask("post 0 barrier"), "posted 1", "the fourth call")
    want(first.ask("foo"), "bad BadVerb", "no call behind the last")
    want(first.ask("post 0 barrier"), "exhausted", "a call more")
    want(first.read(), b"", "the end of the replies")
    for _ in range(2):
        want(second.ask("info 0"), "info size 3 rank 1", "a call of another")
    want(third.ask("info 0"), "info size 3 rank 2", "a call of a third")
    for raw in (second, third):
        want(raw.ask("leave"), "left", "a leave")
    out, err = server.communicate(timeout=60)
    want((server.returncode, err), (4, b"exhausted\n"), "the end")
    events = out.decode("ascii").splitlines()
    for event in ("p0 left after 4 calls: exhausted", "p1 left after 4 calls: left",
                  "p2 left after 3 calls: left", "served 11 calls"):
        want(event in events, True, event)
    # three posts with their verdict, and the one that was made before the bound
    want(len(house.book_lines()), 7, "the lines of the book")
    house.audit()


TESTS = [streams_that_are_closed, books_are_of_the_user_alone, starts_that_fail,
         syncs_are_asked_for, nobody_reads_the_events, calls_that_are_cut_short,
         memory_that_is_refused, files_that_may_not_grow, all_who_wait_are_told,
         room_is_given_back, calls_are_bounded]
