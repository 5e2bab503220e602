"""Members that mean harm, each beside three that compute. What a member can do to others is listed
in SECURITY.md: here each harm is done, and what it comes to for the others is measured."""
import os
import shutil
import time

from beside import LONGEST, PATIENCE, ROUNDS, Beside
from edges import library
from live import consortium
from live import House, Raw, Wrong, until, want

# Seconds for which somebody stands in the middle of a line.
STANDS = 0.2

# What a member that means harm does, at its pipes and on a communicator of its own. Its request 0
# was the split, and request 1 is a barrier of the world.

def answered(raw, lines):
    """Writes lines at once, and gives their replies."""
    raw.send("".join(line + "\n" for line in lines).encode("ascii"))
    return [raw.line() for _ in lines]


def posts_alone(raw, board, post, told, first):
    """Posts and takes, again and again, from this request on; `told` is what a take may be told."""
    while board.goes_on():
        requests = range(first, first + 100)
        lines = [line for number in requests for line in (post, f"take {number}")]
        replies = answered(raw, lines)
        want(replies[::2], [f"posted {number}" for number in requests], "the posts")
        odd = [reply for reply in replies[1::2] if reply.split()[0] not in told]
        want(odd, [], "odd replies to the takes")
        board.made(len(lines))
        board.begins()
        first += 100


def takes_no_request(raw, comm, board):
    """Of the world and of its own communicator one request is never taken, and many follow."""
    want(raw.ask(f"post {comm} barrier"), "posted 2", "the request that is never taken")
    posts_alone(raw, board, f"post {comm} barrier", ["delivered"], 3)


def fills_the_book(raw, comm, board):
    """Long lines of the book, for short lines of its own."""
    want(raw.ask("take 1"), "delivered none", "the world's barrier")
    sides = ",".join(["1"] * 8)
    want(raw.ask(f"post {comm} cart_create {sides} {sides}"), "posted 2", "the grid")
    grid = raw.ask("take 2").split()[1]
    counts = ",".join(["0"] * 16)
    post = f"post {grid} neighbor_alltoallv uint64 {counts}"
    posts_alone(raw, board, post, ["delivered"], 3)


def makes_communicators(raw, comm, board):
    want(raw.ask("take 1"), "delivered none", "the world's barrier")
    posts_alone(raw, board, f"post {comm} dup", ["comm", "noroom"], 2)


def posts_alone_at_a_disk(raw, comm, board):
    want(raw.ask("take 1"), "delivered none", "the world's barrier")
    posts_alone(raw, board, f"post {comm} barrier", ["delivered"], 2)


def posts_wide(raw, comm, board):
    """Of its own communicator wide instances, each taken."""
    want(raw.ask("take 1"), "delivered none", "the world's barrier")
    numbers = " ".join(["7"] * 65_536)
    for request in range(2, 1 << 20):
        if not board.goes_on():
            return
        want(raw.ask(f"post {comm} allgatherv int64 as public {numbers}"), f"posted {request}",
             "a wide post")
        want(len(raw.ask(f"take {request}")), len(f"delivered [{numbers}]"), "a wide delivery")
        board.made(2)
        board.begins()


def posts_ahead(raw, _, board, type, count):
    """Wide posts to the world's instances, to which nobody else has come, and never will."""
    want(raw.ask("take 1"), "delivered none", "the world's barrier")
    numbers = " ".join(["7"] * count)
    board.begins()
    for request in range(2, 1 << 20):
        if not board.goes_on():
            return
        told = raw.ask(f"post 0 gatherv 0 {type} as public {numbers}")
        is_one_more = request < 2 + 256
        due = f"posted {request}" if is_one_more else "refused TooManyRequests"
        want(told, due, "a post ahead")
        board.made(1)


def posts_wrongly(raw, _, board):
    """The first post to each coming instance of the world, of a kind that nobody else means."""
    want(raw.ask("take 1"), "delivered none", "the world's barrier")
    told = answered(raw, ["post 0 bcast 3 int8 1"] * 256)
    want(told, [f"posted {request}" for request in range(2, 258)], "the first posts")
    board.begins()
    while board.goes_on():
        told = answered(raw, ["post 0 bcast 3 int8 1"] * 100)
        want(set(told), {"refused TooManyRequests"}, "posts beyond")
        board.made(100)


def posts_what_is_denied(raw, _, board):
    """To the world by turns what its rival would get, and what it may not post."""
    want(raw.ask("take 1"), "delivered none", "the world's barrier")
    board.begins()
    first, untaken = 2, []
    while board.goes_on():
        if len(untaken) < 100:
            told = answered(raw, ["post 0 bcast 0 int64 1 as alpha 7",
                                  "post 0 bcast 0 int64 1 as beta 7"])
            want(told, [f"posted {first}", f"barred {first + 1} beta"], "its posts")
            untaken += [first, first + 1]
            first += 2
        told = answered(raw, [f"take {request}" for request in untaken])
        denied = [reply.startswith("denied ") for reply in told]
        untaken = [request for request, is_denied in zip(untaken, denied) if not is_denied]
        board.made(len(told))


def is_denied(ask, process):
    """What the world's next instance comes to for the honest."""
    request = ask("post 0 bcast 0 int64 1").split()[-1]
    told = process.ask(f"wait {request}", timeout=PATIENCE)
    # (the split and the barrier of the world were its first two requests)
    want(told in ("denied simple p1 alpha", "denied star p0 beta"), True, f"what is told ({told})")


def is_told_mismatch(ask, _):
    want(ask("post 0 barrier"), "refused Mismatch", "a post to the instance that was spoilt")


def makes_no_communicator(process, ours):
    request = process.ask(f"post {ours.number} dup", timeout=PATIENCE).split()[-1]
    want(process.ask(f"wait {request}", timeout=PATIENCE), "noroom", "a constructor of the honest")


def writes_long_lines(raw, _, board):
    """Lines of sixteen megabytes, the second half of each a moment behind the first."""
    half = b"x" * (8 << 20)
    while board.goes_on():
        raw.send(half)
        board.begins()
        time.sleep(STANDS)
        raw.send(half + b"\n")
        want(raw.line(), "bad TooLong", "the answer to a long line")
        board.made(1)


def makes_noise(raw, _, board):
    while board.goes_on():
        piece = os.urandom(1 << 15) + b"\n"
        raw.send(piece)
        told = [raw.line() for _ in range(piece.count(b"\n"))]
        want([reply for reply in told if not reply.startswith("bad ")], [], "answers not bad")
        board.made(len(told))
        board.begins()


def asks_for_receipts(raw, _, board):
    """Receipts behind one call, which no bound counts."""
    while board.goes_on():
        told = answered(raw, ["head"] * 100)
        want((len(set(told)), told[0].split()[0]), (1, "head"), "the receipts behind one call")
        board.made(100)
        board.begins()


def never_reads(raw, comm, board):
    """Asks for a wide delivery, and writes on: of nothing it reads a reply."""
    numbers = " ".join(["-9223372036854775808"] * 65_536)
    raw.send(f"post {comm} allgatherv int64 as public {numbers}\ntake 2\n".encode("ascii"))
    os.set_blocking(raw.calls, False)
    while board.goes_on():
        try:
            board.made(os.write(raw.calls, b"info 0\n" * 500) // 7)
        except BlockingIOError:
            # Nothing more is taken: the server waits for the reader.
            board.begins()
            time.sleep(0.01)


def stands_in_a_line(raw, comm, board):
    """Half a line, and nothing behind it."""
    raw.send(f"post {comm} allgatherv int64 as public 7".encode("ascii"))
    time.sleep(STANDS)
    board.made(1)
    board.begins()
    until(lambda: not board.goes_on(), "the others", 2 * LONGEST)


def comes_and_goes(_, comm, board, house):
    """One program after the other, each of which leaves answers unread and half a line."""
    while board.goes_on():
        try:
            process = consortium.Process(str(house.pipes), "p0", timeout=1, resume=True)
        except consortium.Gone:
            # (when all others have left nobody comes back)
            continue
        process._pipes.send(b"info 0\nopen\nnext\n" * 50 + b"info %d" % comm, len)
        board.made(1)
        board.begins()
        process.close()


def leaves(raw, _, board):
    """Behind the split nothing more is posted, or said."""
    want(raw.ask("leave"), "left", "the leave")
    board.made(1)
    board.begins()


def finds_nobody(process, _):
    """The world's next instance never settles: all that are left wait, and are told so."""
    request = process.ask("post 0 barrier", timeout=PATIENCE).split()[-1]
    told = process.ask(f"wait {request}", timeout=PATIENCE)
    want(told, "pending", "the wait for who has left")


def calls_to_the_end(raw, comm, board, most):
    """As many calls as it may make; then it is told so, and its replies end."""
    board.begins()
    told, first = answered(raw, ["take 1"]), 2
    while told[-1] != "exhausted":
        # (what is behind the last call is not answered)
        lines = [line for number in range(first, first + 50)
                 for line in (f"post {comm} barrier", f"take {number}")]
        raw.send("".join(line + "\n" for line in lines).encode("ascii"))
        for _ in lines:
            told.append(raw.line())
            if told[-1] == "exhausted":
                break
        first += 50
    # Its split and the world's barrier were three calls more.
    want((len(told) - 1 + 3, raw.read()), (most, b""), "its calls, and the end of its replies")
    board.made(1)


def goes_on_alone(process, ours):
    """What the honest can do behind the end of the other."""
    request = process.ask(f"post {ours.number} barrier", timeout=PATIENCE).split()[-1]
    want(process.ask(f"wait {request}", timeout=PATIENCE), "delivered none", "a barrier")


def request_never_taken(given):
    """Requests that are never taken, and many calls behind them: the server's memory stays."""
    beside = Beside(given, 40_000).harmed_by(takes_no_request)
    beside.grew_by_at_most(1024)
    beside.end()


def book_that_is_filled(given):
    """A member alone fills the book as fast as it can: others go on, and the memory stays."""
    beside = Beside(given, 20_000).harmed_by(fills_the_book)
    beside.grew_by_at_most(1024)
    beside.end()


def no_room_is_left(given):
    """A member makes communicators until there is no room for any: what others have goes on."""
    beside = Beside(given, 4_000, last=makes_no_communicator).harmed_by(makes_communicators)
    book = beside.end()
    made = [line for line in book if line.split()[0] == "verdict" and " made " in line]
    # The world was there before.
    want(sum(int(line.split()[-1]) for line in made), 1023, "communicators that were made")


def disk_of_one(given):
    """With --sync a member alone settles instances as fast as it can, at a disk that takes two
    thousandths of a second. Others wait for it, each call for those that came before; they get
    their turns all the same."""
    beside = Beside(given, 100, words=["--sync"], before=a_slow_disk)
    # A hundred syncs: 99 of 100 calls took up to 36 of them. Three times as long as without is no
    # bound here, as long as a turn lasts until the disk has its entry.
    beside.floors = {**beside.floors, 99: 0.2}
    beside.harmed_by(posts_alone_at_a_disk).end()


def wide_instances(given):
    """A member alone posts and takes as wide as it can."""
    beside = Beside(given, 40).harmed_by(posts_wide)
    beside.grew_by_at_most(8 << 10)
    beside.end()


def posts_ahead_of_all(given):
    """Wide posts ahead of all others, as many as it may: the memory that SECURITY.md names."""
    # (a pair is one element, and two numbers)
    for type, count in (("int64", 65_536), ("2int", 131_072)):
        beside = Beside(given, 280).harmed_by(posts_ahead, type, count)
        # 256 posts of 512 KiB each, and some for the lines.
        beside.grew_by_at_most((128 + 8) << 10)
        if beside.grown < 120 << 10:
            raise Wrong(f"{beside.grown} KiB for posts ahead")
        beside.end()


def wrong_first_posts(given):
    """Wrong first posts to what the world has before it: others are told, and go on elsewhere."""
    Beside(given, 10_000, also=is_told_mismatch).harmed_by(posts_wrongly).end()


def posts_that_are_denied(given):
    """What the wall denies is denied to all, and nothing else is."""
    homes = ["alpha", "beta"]
    beside = Beside(given, 1_000, also=is_denied, homes=homes, label="beta")
    book = beside.harmed_by(posts_what_is_denied).end()
    denied = [line for line in book if line.startswith("verdict 0 ") and " denied " in line]
    want(len(denied) >= ROUNDS, True, "the denials in the book")


def lines_that_are_long(given):
    """Lines of sixteen megabytes, in halves: others do not wait for the second."""
    beside = Beside(given, 3).harmed_by(writes_long_lines)
    beside.grew_by_at_most(8 << 10)
    beside.end()


def noise_beside(given):
    """Noise as fast as it can."""
    beside = Beside(given, 5_000).harmed_by(makes_noise)
    beside.grew_by_at_most(1024)
    beside.end()


def receipts_without_end(given):
    """Receipts as fast as it can: no turn is taken by them, and no memory."""
    beside = Beside(given, 5_000).harmed_by(asks_for_receipts)
    beside.grew_by_at_most(1024)
    beside.end()


def replies_not_read(given):
    """A session that never reads, in the middle of a wide delivery."""
    beside = Beside(given, 1_000).harmed_by(never_reads)
    beside.grew_by_at_most(8 << 10)
    beside.end()


def line_that_is_half(given):
    """Half a line holds up nobody else, but the end of the server."""
    beside = Beside(given, 1).harmed_by(stands_in_a_line)
    want(beside.house.server.poll(), None, "a server with a session that is open")
    beside.end()


def programs_that_come_and_go(given):
    """A member whose programs come and go as fast as they can."""
    beside = Beside(given, 30)
    beside.raw.close()
    beside.harmed_by(comes_and_goes, beside.house)
    beside.grew_by_at_most(1024)
    beside.end()


def member_that_leaves(given):
    """Who leaves holds up what it is a member of, and who waits for that is told."""
    Beside(given, 1, last=finds_nobody).harmed_by(leaves).end()


def calls_are_used_up(given):
    """With --calls a member that has made all of its own is told so, and others go on."""
    most = 4_000
    beside = Beside(given, 1, last=goes_on_alone, words=["--calls", str(most)])
    book = beside.harmed_by(calls_to_the_end, most).end(status=4)
    events = beside.house.events()
    want(f"p0 left after {most} calls: exhausted" in events, True, "the event")
    entries = sum(line.split()[:3] == ["post", "0", "1"] for line in book)
    want(entries in range(most // 2 - 3, most // 2), True, f"{entries} posts of its own")


def a_slow_disk(house):
    """What stands before the words of a server, so that each sync takes this long."""
    if not shutil.which("cc"):
        return []
    return ["env", f"LD_PRELOAD={library(house, 'slow_sync')}", "SLOW_SYNC=2000"]


# Names as long as they may be.
LONG = [letter * 32 for letter in "abc"]


def longest_books(given):
    """Of a member that posts the longest lines that it can, each barred and settled, the book is no
    longer than docs/SERVE.md says."""
    most, sides = 250, ",".join(["1"] * 8)
    house = House(given.program, [(LONG[0], LONG[1])], [LONG[1:]])
    house.words += ["--calls", str(most)]
    house.start()
    raw = Raw(house, LONG[0])
    want(raw.ask(f"post 0 cart_create {sides} {sides}"), "posted 0", "the grid")
    # Sixteen counts, with as many digits as 65,536 elements let them have.
    counts = [10_000] * 5 + [1_000] * 11
    listed, numbers = ",".join(map(str, counts)), " ".join(["7"] * sum(counts))
    line = f"post 1 neighbor_alltoallv uint64 {listed} as {LONG[2]} {numbers}"
    for request in range(1, most):
        want(raw.ask(line), f"barred {request} {LONG[2]}", "a long post")
    want(raw.ask("info 0"), "exhausted", "a call more")
    want(raw.read(), b"", "the end of the replies")
    until(lambda: house.server.poll() is not None, "the server ends")
    want((house.server.returncode, house.complaint()), (4, "exhausted\n"), "how the server ends")
    house.audit()
    size, bound = house.book.stat().st_size, most * (230 + 6 * 16) + 40
    if given.figures:
        print(f"{size} bytes of {bound}: ", end="")
    want(size <= bound, True, f"{size} bytes, and {bound} at most")


TESTS = [request_never_taken, book_that_is_filled, no_room_is_left, disk_of_one, wide_instances,
         posts_ahead_of_all, wrong_first_posts, posts_that_are_denied, lines_that_are_long,
         noise_beside, receipts_without_end, replies_not_read, line_that_is_half,
         programs_that_come_and_go, member_that_leaves, calls_are_used_up, longest_books]
