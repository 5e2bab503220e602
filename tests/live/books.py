"""The book on the disk: servers that are killed, disks that are full, and what was told before."""
import fcntl
import mmap
import os
import pathlib
import random
import resource
import shutil
import signal
import subprocess
import time

from live import consortium
from live import SERVERS, Client, House, Raw, Wrong
from live import all_results, die_with_parent, neutral, replayed, until, want
from together import Order, a_plan, plays


HERE = pathlib.Path(__file__).resolve().parent


def sealed(house):
    """The whole book of what stands in the book's file, as the program makes it."""
    whole = house.folder / "whole.txt"
    words = [house.program, "seal", str(house.policy), str(house.book), str(whole)]
    done = subprocess.run(words, capture_output=True, text=True, timeout=120, check=False)
    want((done.returncode, done.stderr), (0, ""), "how the seal ends")
    finished = house.book.read_text(encoding="utf-8").split("\n")[:-1]
    house.book = whole
    lines = house.book_lines()
    want(done.stdout, f"sealed {len(lines) - 2}\n", "what the seal tells")
    want(lines[: len(finished)], finished, "the finished lines")
    want(len(lines) - len(finished) <= 2, True, "a verdict and an end at most are added")
    house.audit()
    return lines


class Counting(list):
    """Lines with their replies, of which a board tells how many there are."""

    def __init__(self, board, at):
        super().__init__()
        self._board, self._at = board, at

    def append(self, pair):
        super().append(pair)
        self._board[self._at : self._at + 4] = len(self).to_bytes(4, "little")


def plays_until_it_is_gone(house, name, plan, seed, board, at):
    """Each line that the process wrote, with the reply that it read, while the server was there."""
    seen = Counting(board, at)
    try:
        plays(house, name, plan, seed, seen)
    except (consortium.Gone, OSError):
        pass
    return list(seen)


def judged(given, house, seen, book):
    """Each reply that was read is one to which the book gives rise, which is the book of its
    posts."""
    order = Order(book).merged(seen)
    replies, again = replayed(given.program, house.policy, [line for line, _ in order],
                              house.folder)
    for (line, reply), due in zip(order, replies):
        if reply is not None:
            want(reply, due, f"seed {given.seed}, reply to {line[:60]!r}")
    want(len(replies), len(order), "how many replies the replay gives")
    want(again, book, "the book of the replay")


def killed(given, number):
    """One server that is killed at a random moment of a random session. Gives whether it was at
    work then, and had not ended before."""
    rng = random.Random(1_000_003 * given.seed + number)
    ranks, length = rng.randint(2, 5), rng.randint(3, 25)
    classes = [["alpha", "beta"], ["umbra"]][: rng.randint(1, 2)]
    datasets = [name for of_class in classes for name in of_class]
    homes = [rng.choice([None, None, datasets[0], datasets[-1]]) for _ in range(ranks)]
    processes = [(f"p{p}", home) for p, home in enumerate(homes)]
    house = House(given.program, processes, classes, [("sum", 3, 1)])
    house.start()
    plan = a_plan(rng, ranks, homes, datasets, length)
    board = mmap.mmap(-1, 4 * ranks)
    clients = [Client(plays_until_it_is_gone, house, name, plan[p], rng.random(), board, 4 * p)
               for p, name in enumerate(house.names)]

    def read():
        return [int.from_bytes(board[4 * p : 4 * p + 4], "little") for p in range(ranks)]

    # Who has not come yet would wait for ever at a pipe that nobody opens any more.
    goal = ranks + rng.randrange(2 * ranks * length)
    while (0 in read() or sum(read()) < goal) and house.server.poll() is None:
        time.sleep(0.0001)
    is_at_work = house.server.poll() is None
    house.server.kill()
    house.server.wait()
    seen = all_results(clients)
    judged(given, house, seen, sealed(house))
    return is_at_work


def killed_servers(given):
    """Servers that are killed at a random moment: the sealed book has all that was told."""
    at_work = sum(killed(given, number) for number in range(given.kills))
    if at_work < given.kills // 2:
        raise Wrong(f"{at_work} of {given.kills} servers were killed at work")


def entries_in(book):
    """How many finished lines of entries there are."""
    return max(book.read_bytes().count(b"\n") - 1, 0)


def is_ahead(given, options):
    """A server with these options, whose book has at each reply all that it tells of."""
    house = House(given.program, neutral(2))
    house.words += options
    house.start()
    one, two = Raw(house, "p0"), Raw(house, "p1")
    for turn in range(50):
        want(one.ask("post 0 barrier"), f"posted {turn}", "the first post")
        want(entries_in(house.book), 3 * turn + 1, "entries behind the first post")
        want(two.ask("post 0 barrier"), f"posted {turn}", "the second post")
        want(entries_in(house.book), 3 * turn + 3, "entries behind the second post")
        want(one.ask(f"take {turn}"), "delivered none", "the take")
        want(two.ask(f"take {turn}"), "delivered none", "the other take")
    want(one.ask("leave"), "left", "the leave")
    want(two.ask("leave"), "left", "the other leave")
    want(len(house.end()), 152, "lines of the book")
    house.audit()
    for raw in (one, two):
        raw.close()


def book_is_ahead(given):
    """At each reply the book's file has all that it tells of, also where it is synced."""
    for options in ([], ["--sync"]):
        is_ahead(given, options)


ROUNDS = 6


def bounded(size):
    """What a server does before it begins, whose files have at most so many bytes."""
    def prepared():
        die_with_parent()
        signal.signal(signal.SIGXFSZ, signal.SIG_IGN)
        resource.setrlimit(resource.RLIMIT_FSIZE, (size, size))
    return prepared


def on_a_disk_of(given, size):
    """A session of two by turns on a disk that takes so many bytes. Gives whether all was told."""
    house = House(given.program, neutral(2))
    server = subprocess.Popen(house.words, stdin=subprocess.DEVNULL, stdout=subprocess.PIPE,
                              stderr=subprocess.PIPE, preexec_fn=bounded(size))
    SERVERS.append(server)
    if size < len("book 2\n"):
        out, err = server.communicate(timeout=60)
        want((server.returncode, err), (3, b"write fault\n"), "a start without a first line")
        want(out, b"serving 2 processes\nunbooked: file too large (ulimit -f)\n",
             "events of a server that does not start")
        want(house.book.exists(), False, "a book by which nothing was served")
        return False
    raws = [Raw(house, name) for name in house.names]
    told, entries, calls = 0, 0, 0
    open_ones = list(raws)
    for turn in range(ROUNDS):
        for number, raw in enumerate(raws):
            if raw not in open_ones:
                continue
            reply = raw.ask("post 0 barrier")
            calls += 1
            entries += 1 + number
            if reply == "unbooked":
                want(raw.read(), b"", "the end of a session that was told unbooked")
                open_ones.remove(raw)
                continue
            want(reply, f"posted {turn}", "a post")
            want(len(open_ones), 2, "sessions that go on, where a post was told")
            want(entries_in(house.book), entries, f"entries on a disk of {size}")
            told += 1
    if len(open_ones) == 2:
        for raw in raws:
            want(raw.ask("leave"), "left", "a leave")
    else:
        for raw in open_ones:
            # Nobody is told anything any more, not even what was settled before.
            want(raw.ask("info 0"), "unbooked", "an info where the book is cut")
            calls += 1
            want(raw.read(), b"", "the end of the other session")
    out, err = server.communicate(timeout=60)
    whole = len(open_ones) == 2 and server.returncode == 0
    events = out.splitlines()
    want(events[-1], f"served {calls} calls".encode("ascii"), "the last event")
    lost = [line for line in events if line.startswith(b"unbooked")]
    want(lost, [] if whole else [b"unbooked: file too large (ulimit -f)"], "what is told of the book")
    if whole:
        want((calls, err), (12, b""), "how the server ends")
        house.audit()
    else:
        want((server.returncode, err), (3, b"write fault\n"), f"how a disk of {size} ends")
        want(house.book.stat().st_size <= size, True, "the size of the book")
        lines = sealed(house)
        want(sum(line.startswith("post") for line in lines) >= told, True, "posts that were told")
    return whole


def full_disks(given):
    """A disk that is full at every size of the book: nothing is told that is not on it."""
    house = House(given.program, neutral(2)).start()
    raws = [Raw(house, name) for name in house.names]
    for turn in range(ROUNDS):
        for raw in raws:
            want(raw.ask("post 0 barrier"), f"posted {turn}", "a post")
    for raw in raws:
        want(raw.ask("leave"), "left", "a leave")
    length = len("\n".join(house.end())) + 1
    for size in range(0, length + 2):
        want(on_a_disk_of(given, size), size >= length, f"whether all is told on a disk of {size}")
        for raw in raws:
            raw.close()


def waits_end_where_the_book_does(given):
    """Who waits when the book can no longer be written is told at once."""
    house = House(given.program, neutral(3))
    server = subprocess.Popen(house.words, stdin=subprocess.DEVNULL, stdout=subprocess.DEVNULL,
                              stderr=subprocess.PIPE, preexec_fn=bounded(200))
    SERVERS.append(server)
    house.server = server
    raws = [Raw(house, name) for name in house.names]
    want(raws[0].ask("post 0 barrier"), "posted 0", "a post")
    raws[0].send(b"wait 0\n")
    number = 0
    while True:
        told = raws[1].ask("post 0 barrier")
        if told == "unbooked":
            break
        want(told, f"posted {number}", "a post while there is room")
        number += 1
    # The third has not come to act, and could still settle what is waited for.
    want(raws[0].line(), "unbooked", "what the wait is told")
    want(raws[2].ask("info 0"), "unbooked", "what the third is told")
    server.communicate(timeout=60)
    want(server.returncode, 3, "the status")


def books_are_locked(given):
    """While a server writes its book nobody else gets a lock on it, and no second server starts."""
    house = House(given.program, neutral(1)).start()
    raw = Raw(house, "p0")
    want(raw.ask("post 0 barrier"), "posted 0", "a post")
    want(os.path.exists(house.book), True, "a book")
    locked = subprocess.run(["flock", "--nonblock", str(house.book), "true"], check=False)
    want(locked.returncode, 1, "whether the book is locked")
    second = subprocess.run(house.words, capture_output=True, text=True, timeout=60, check=False)
    want((second.returncode, second.stderr), (3, f"in use: {house.pipes}\n"), "a second server")
    want(raw.ask("leave"), "left", "the leave")
    house.end()
    locked = subprocess.run(["flock", "--nonblock", str(house.book), "true"], check=False)
    want(locked.returncode, 0, "whether the book is free afterwards")


def commands_on_a_book(house, book, other):
    """The command lines that read a book as one, or write over it."""
    program, policy, script = house.program, str(house.policy), str(house.folder / "script.txt")
    out, after = str(house.folder / "out.txt"), ["--after", book]
    reads = [["audit", policy, book], ["report", policy, book], ["seal", policy, book, out],
             ["check", policy, "--book", book], ["audit", policy, other, *after],
             ["check", policy, "--book", other, *after], ["replay", policy, script, *after],
             ["run", policy, script, *after], ["seal", policy, other, out, *after],
             ["report", policy, other, *after], ["serve", policy, str(house.pipes), *after]]
    writes = [["replay", policy, script, "--book", book], ["run", policy, script, "--book", book],
              ["report", policy, other, "--html", book]]
    return [[program, *words] for words in reads], [[program, *words] for words in writes]


def books_of_others(given):
    """No command reads a book that a server writes, or writes over it, by whatever name; none writes
    over a book that another reads, or that it reads itself."""
    house = House(given.program, neutral(1)).start()
    raw = Raw(house, "p0")
    want(raw.ask("post 0 barrier"), "posted 0", "a post")
    (house.folder / "script.txt").write_text("info 0 0\n", encoding="utf-8")
    live, other, link = str(house.book), house.folder / "other.txt", house.folder / "link.txt"
    link.symlink_to(house.book)
    subprocess.run([given.program, "replay", str(house.policy), str(house.folder / "script.txt"),
                    "--book", str(other)], check=True, stdout=subprocess.DEVNULL)

    def refused(words, book, what):
        done = subprocess.run(words, capture_output=True, text=True, timeout=60, check=False)
        want((done.returncode, done.stdout, done.stderr), (3, "", f"book in use: {book}\n"), what)

    before = house.book.read_bytes()
    for book in (live, str(link)):
        reads, writes = commands_on_a_book(house, book, str(other))
        for words in reads + writes:
            refused(words, book, f"{words[1:]} beside a server")
    want(house.book.read_bytes(), before, "the book behind all of them")
    want((house.folder / "out.txt").exists(), False, "what a seal has made")
    want(raw.ask("leave"), "left", "the leave")
    house.end()
    house.mark()
    # From then on it is read; and while another reads it, not written over.
    reads, writes = commands_on_a_book(house, live, str(other))
    with open(house.book, "rb") as book:
        fcntl.flock(book, fcntl.LOCK_SH)
        for words in reads[:4]:
            done = subprocess.run(words, capture_output=True, text=True, timeout=60, check=False)
            want((done.returncode, done.stderr), (0, ""), f"{words[1:]} beside a reader")
        for words in writes:
            refused(words, live, f"{words[1:]} beside a reader")
    refused([given.program, "report", str(house.policy), live, "--html", str(link)], str(link),
            "a page over its own book")
    house.audit()
    # What is no plain file takes no lock.
    text = house.book.read_text(encoding="utf-8")
    for words in (writes[0][:-1] + ["/dev/null"], reads[0][:-1] + ["/dev/stdin"]):
        done = subprocess.run(words, input=text, capture_output=True, text=True, timeout=60,
                              check=False)
        want((done.returncode, done.stderr), (0, ""), f"{words[1:]}")


def of_three(given, *books):
    """A server on a wall over days: two banks and a consultant, after these books, the oldest
    first."""
    processes = [("a0", "alpha"), ("b0", "beta"), ("n0", None)]
    house = House(given.program, processes, [["alpha", "beta"]])
    house.words[2:2] = [word for book in books for word in ("--after", str(book))]
    return house


def sends_to_the_consultant(house, sender, label):
    """The posts by which n0 is given a number of a bank, and what it is told."""
    raws = [Raw(house, name) for name in house.names]
    for raw in raws:
        want(raw.ask(f"post 0 create {sender},2"), "posted 0", "the post of a constructor")
    want(raws[2].ask("take 0"), "comm 1 rank 1 size 2", "n0's communicator")
    want(raws[sender].ask(f"post 1 bcast 0 int32 1 as {label} 7"), "posted 1", "the sender's post")
    want(raws[2].ask("post 1 bcast 0 int32 1"), "posted 1", "n0's post")
    told = raws[2].ask("take 1")
    for raw in raws:
        raw.close()
    return told


def killed_after_earlier_books(given):
    """A killed server that went on after a book: the seal names that book too, and so does who goes
    on."""
    first = of_three(given).start()
    want(sends_to_the_consultant(first, 0, "alpha"), "delivered [7]", "the first day")
    first.end()
    second = of_three(given, first.book).start()
    want(sends_to_the_consultant(second, 1, "beta"), "denied simple n0 beta", "the second day")
    second.server.kill()
    second.server.wait()
    # As if it had been killed in the middle of the last line: the verdict.
    lines = [line for line in second.book_lines() if not line.startswith("end")]
    want(lines[-1], "verdict 1 0 denied simple n0 beta", "the last line")
    second.book.write_text("\n".join(lines)[:-3], encoding="utf-8")
    sealed_to, forgot = second.folder / "whole.txt", second.folder / "forgot.txt"
    for out, books in ((sealed_to, ["--after", str(first.book)]), (forgot, [])):
        words = [given.program, "seal", str(second.policy), str(second.book), str(out), *books]
        done = subprocess.run(words, capture_output=True, text=True, timeout=60, check=False)
        want((done.returncode, done.stderr), (0, ""), "how the seal ends")
    want(sealed_to.read_text(encoding="utf-8").splitlines()[-2], lines[-1], "the verdict it adds")
    want(forgot.read_text(encoding="utf-8").splitlines()[-2], "verdict 1 0 granted",
         "the verdict of a seal that forgot the earlier book")
    third = of_three(given, first.book, sealed_to).start()
    want(sends_to_the_consultant(third, 1, "beta"), "denied simple n0 beta", "the third day")
    third.end()
    words = [given.program, "audit", str(third.policy), str(third.book)]
    words += ["--after", str(first.book), "--after", str(sealed_to)]
    done = subprocess.run(words, capture_output=True, text=True, timeout=60, check=False)
    want((done.returncode, done.stdout), (0, "sound 7\n"), "the audit of the third day")


def syncs_that_fail(given):
    """A book that cannot be synced: nobody is told of what was to be, unless no sync is asked for."""
    if not shutil.which("cc"):
        print("not tried, since there is no C compiler: ", end="")
        return
    for options, turns in (([], 4), (["--sync"], 2)):
        house = House(given.program, neutral(1))
        shim = house.folder / "refuse_sync.so"
        words = ["cc", "-O1", "-shared", "-fPIC", "-o", shim, HERE / "refuse_sync.c"]
        subprocess.run(words, check=True, timeout=60)
        # The first is that of the folder.
        environment = ["env", f"LD_PRELOAD={shim}", "REFUSED_SYNC=3"]
        house.words = [*environment, *house.words, *options]
        house.start()
        raw = Raw(house, "p0")
        for turn in range(turns):
            want(raw.ask("post 0 barrier"), f"posted {turn}", "a post whose verdict is on the disk")
        if not options:
            want(raw.ask("leave"), "left", "the leave")
            house.end()
            continue
        want(raw.ask("post 0 barrier"), "unbooked", "a post whose verdict is not on the disk")
        want(raw.read(), b"", "the end of the session")
        until(lambda: house.server.poll() is not None, "the server ends")
        want((house.server.returncode, house.complaint()), (3, "write fault\n"), "how it ends")
        want(house.events()[2], "unbooked: input/output error", "what is told of the book")
        want(len(sealed(house)) - 2 in (4, 6), True, "what the book has at least")


TESTS = [book_is_ahead, books_are_locked, books_of_others, waits_end_where_the_book_does, full_disks,
         killed_servers, killed_after_earlier_books, syncs_that_fail]
