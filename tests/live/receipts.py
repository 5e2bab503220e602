"""Receipts: what a member holds of the book while the server runs, and what it shows later.

The digests that are due are computed here anew, from the bytes of the book.
"""
import hashlib
import os
import subprocess
import threading
import time

from books import bounded, sealed
from chains import BANKS, THREE, Years
from client import raised
from live import consortium
from live import Client, House, Raw, Wrong
from live import a_folder, all_results, neutral, started, want

NOTHING = "head 0 -"


def beginning(text, entries):
    """The first line of a book, and those of so many entries."""
    return b"".join(line + b"\n" for line in text.split(b"\n")[:entries + 1])


def due(book, entries):
    """The line of a receipt by which a book has so many entries."""
    return f"head {entries} {hashlib.sha256(beginning(book.read_bytes(), entries)).hexdigest()}"


def receipts_of_a_run(given):
    """A receipt is of the book by the session's own last call, whatever others did since; it is no
    call, and no line asks for it but `head`."""
    house = House(given.program, neutral(2)).start()
    one, two = (Raw(house, name) for name in house.names)
    want(one.ask("head"), NOTHING, "a receipt before any call")
    want(two.ask("post 0 barrier"), "posted 0", "the first post")
    want(one.ask("head"), NOTHING, "a receipt before any call, behind the post of another")
    want(two.ask("head"), due(house.book, 1), "a receipt of one entry")
    want(one.ask("info 0"), "info size 2 rank 0", "an info")
    want(one.ask("head"), due(house.book, 1), "a receipt behind an info")
    want(one.ask("post 0 barrier"), "posted 0", "the second post")
    want(one.ask("head"), due(house.book, 3), "a receipt with the verdict")
    for line, reply in (("foo", "bad BadVerb"), ("head now", "bad BadShape"), ("head ", "bad BadShape")):
        want(two.ask(line), reply, "a line that is no call")
        want(two.ask("head"), due(house.book, 1), "a receipt by the call before")
    for line, reply, entries in (("take 0", "delivered none", 3), ("take 0", "refused NoSuchRequest", 3),
                                 ("post 7 barrier", "refused NoSuchComm", 3),
                                 ("post 0 barrier", "posted 1", 4), ("take 1", "pending", 4)):
        want(two.ask(line), reply, line)
        want(two.ask("head"), due(house.book, entries), f"a receipt behind {line!r}")
        want(two.ask("head"), due(house.book, entries), f"one more behind {line!r}")
    # Several lines at once, with a CR, and one that is not finished.
    one.send(b"head\r\npost 0 barrier\nhead\nwait 1\nhead\ninfo 0\nhe")
    for expected in (3, "posted 1", 6, "delivered none", 6, "info size 2 rank 0"):
        found = one.line()
        want(found, due(house.book, expected) if isinstance(expected, int) else expected,
             "a reply to one of several lines")
    one.send(b"ad\n")
    want(one.line(), due(house.book, 6), "a receipt by a line in two pieces")
    for raw in (one, two):
        want(raw.ask("leave"), "left", "a leave")
        want(raw.read(), b"", "the end of the replies")
    want(len(house.end()), 8, "the lines of the book")
    house.audit()
    for event in ("p0 left after 5 calls: left", "p1 left after 6 calls: left", "served 11 calls"):
        want(event in house.events(), True, event)


def a_receipt_wakes_nobody(given):
    """Who asks for a receipt neither waits nor settles anything: who waits goes on waiting."""
    house = House(given.program, neutral(2)).start()
    one, two = (Raw(house, name) for name in house.names)
    want(one.ask("post 0 barrier"), "posted 0", "a post")
    want(two.ask("info 0"), "info size 2 rank 1", "an info")
    one.send(b"wait 0\n")
    for _ in range(20):
        want(two.ask("head"), due(house.book, 1), "a receipt beside a wait")
        time.sleep(0.01)
    want(two.ask("post 0 barrier"), "posted 0", "the other post")
    want(one.line(), "delivered none", "what the wait is told")
    want(one.ask("head"), due(house.book, 3), "a receipt behind the wait")
    for raw in (one, two):
        want(raw.ask("leave"), "left", "a leave")
    house.end()


def receipts_of_every_length(given):
    """Receipts behind each of many posts: texts whose lengths fill the digest's blocks in every way."""
    house = House(given.program, neutral(1)).start()
    lengths = set()
    with house.connect("p0") as process:
        for turn in range(200):
            process.world.Ibarrier().wait()
            receipt = process.receipt()
            want(str(receipt), due(house.book, 2 * turn + 2), f"the receipt behind post {turn}")
            want(consortium.verify(house.book, receipt), True, "whether the book bears it out")
            lengths.add(len(house.book.read_bytes()) % 64)
    house.end()
    want(len(lengths), 64, "how many remainders of 64 there were")


def keeps_receipts(house, name, turns):
    """A process that keeps a receipt behind each of its posts and each outcome."""
    kept = []
    with house.connect(name) as process:
        for _ in range(turns):
            request = process.world.Ibarrier()
            posted = process.receipt()
            request.wait()
            kept.append((posted, process.receipt()))
    return kept


def receipts_beside_others(given):
    """Processes that post at the same time: the book at the end bears out each of their receipts,
    which cover what the process had done by then."""
    house = House(given.program, neutral(4)).start()
    kept = all_results([Client(keeps_receipts, house, name, 40) for name in house.names])
    lines = house.end()
    house.audit()
    for number, receipts in enumerate(kept):
        posts = [at for at, line in enumerate(lines) if line.startswith(f"post {number} ")]
        before = 0
        for turn, pair in enumerate(receipts):
            verdict = lines.index(f"verdict 0 {turn} granted")
            for receipt, told in zip(pair, (posts[turn], verdict)):
                want(str(receipt), due(house.book, receipt.entries), f"a receipt of process {number}")
                want(consortium.verify(house.book, receipt), True, "whether the book bears it out")
                want(max(before, told) <= receipt.entries <= len(lines) - 2, True, "what it covers")
                before = receipt.entries


def a_days_book(given):
    """A book of a bank, its rival and a consultant, and the receipts that each of them holds."""
    house = House(given.program, THREE, BANKS).start()
    processes = [house.connect(name, home or "public") for name, home in THREE]
    receipts = []
    for process in processes:
        process.world.Ibarrier()
        receipts.append(process.receipt())
    for process, figures in zip(processes, ([7], None, None)):
        process.world.Ibcast(figures, root=0, count=1)
        receipts.append(process.receipt())
    for process in processes:
        process.ask("info 0")
        receipts.append(process.receipt())
        process.leave()
    house.end()
    house.audit()
    want([receipt.entries for receipt in receipts], [1, 2, 4, 5, 6, 8, 8, 8, 8], "what receipts cover")
    return house, receipts


def audited(house, text):
    """What the audit of another text of this book writes."""
    path = house.folder / "other.txt"
    path.write_bytes(text)
    done = subprocess.run([house.program, "audit", str(house.policy), str(path)],
                          capture_output=True, text=True, timeout=60, check=False)
    return done.stdout


def changed_books_are_found(given):
    """A book that is another within what a receipt covers is found by it, also where its audit calls
    it sound; one that is another behind that is not."""
    house, receipts = a_days_book(given)
    text = house.book.read_bytes()
    lines = text.splitlines(keepends=True)
    for receipt in receipts:
        end = len(beginning(text, receipt.entries))
        want(consortium.verify([text], receipt), True, "the book as it is")
        for at in range(end):
            other = text[:at] + bytes([text[at] ^ 1]) + text[at + 1:]
            want(consortium.verify([other], receipt), False, f"byte {at} is another ({receipt})")
            want(consortium.verify([text[:at]], receipt), False, f"it is cut at {at} ({receipt})")
        for at in range(end, len(text)):
            other = text[:at] + bytes([text[at] ^ 1]) + text[at + 1:]
            want(consortium.verify([other], receipt), True, f"byte {at}, behind it, is another")
        want(consortium.verify([text[:end]], receipt), True, "the book cut behind it")
        for one in range(receipt.entries + 1):
            for two in range(one):
                swapped = list(lines)
                swapped[one], swapped[two] = swapped[two], swapped[one]
                want(consortium.verify(swapped, receipt), False, f"lines {two} and {one} are swapped")
    last = receipts[-1]
    posts = [line for line in lines if line.startswith(b"post")]
    # What an audit alone does not show: the order of posts, posts that are left out, another's post.
    turned = [lines[0], posts[1], posts[0], *lines[3:]]
    fewer = [*lines[:5], b"end 4\n"]
    another = [line.replace(b"bcast 0", b"bcast 1").replace(b"b0 alpha", b"a0 beta") for line in lines]
    another[5] = another[5].replace(b"gives 1 as alpha", b"gives 0 as none")
    another[6] = another[6].replace(b"gives 0 as none", b"gives 1 as beta")
    for what, other, entries in (("two posts are swapped", turned, 8), ("it is cut, with an end", fewer, 4),
                                 ("the sender is another", another, 8)):
        want(audited(house, b"".join(other)), f"sound {entries}\n", f"the audit where {what}")
        want(consortium.verify(other, last), False, what)


def recipe_of_the_shell(given):
    """What docs/BOOK.md has the shell do says the same."""
    house, receipts = a_days_book(given)
    for receipt in receipts:
        script = 'head -n $((N+1)) "$BOOK" | sha256sum'
        done = subprocess.run(["sh", "-c", script], capture_output=True, text=True, timeout=60, check=False,
                              env=dict(os.environ, N=str(receipt.entries), BOOK=str(house.book)))
        want(done.stdout, f"{receipt.digest}  -\n", f"what the shell says of {receipt}")


def no_book_no_digest(given):
    """A server that keeps no book has nothing to tell, behind calls too."""
    house = House(given.program, neutral(1), book=False).start()
    with house.connect("p0") as process:
        process.world.Ibarrier().wait()
        want(process.receipt(), consortium.Receipt(0, None), "a receipt without a book")
        raised(ValueError, lambda: consortium.verify([b"book 2\n"], process.receipt()))
    house.end()


def receipts_outlive_a_kill(given):
    """A server that was killed: the sealed book bears out what its members hold, on a chain too."""
    for years in (None, Years(given)):
        house = years.house() if years else House(given.program, THREE, BANKS)
        house.start()
        raws = [Raw(house, name) for name in house.names]
        kept = []
        for turn in range(3):
            for raw in raws:
                want(raw.ask("post 0 barrier"), f"posted {turn}", "a post")
                kept.append(consortium.read_receipt(raw.ask("head")))
        house.server.kill()
        house.server.wait()
        # As if the last line, a verdict, had not been written to its end.
        house.book.write_bytes(house.book.read_bytes()[:-3])
        want(consortium.verify(house.book, kept[-1]), False, "the book that is cut, and the last receipt")
        if years:
            years.seal(12)
        else:
            sealed(house)
        want([receipt.entries for receipt in kept], [1, 2, 4, 5, 6, 8, 9, 10, 12], "what receipts cover")
        want([consortium.verify(house.book, receipt) for receipt in kept], [True] * 9, "the sealed book")


def receipts_where_the_book_ends(given):
    """Where the book can't be gone on with a receipt is still told, the one by the last call that was
    answered; the sealed book bears it out."""
    house = House(given.program, neutral(2))
    server = started(house, bounded(200))
    one, two = (Raw(house, name) for name in house.names)
    for turn, raw, entries in ((0, one, 1), (0, two, 3), (1, one, 4)):
        want(raw.ask("post 0 barrier"), f"posted {turn}", "a post")
        want(raw.ask("head"), due(house.book, entries), "its receipt")
    want(two.ask("post 0 barrier"), "unbooked", "a post without room")
    want(two.read(), b"", "the end of the replies")
    want(one.ask("head"), due(house.book, 4), "a receipt of before")
    kept = consortium.read_receipt(one.ask("head"))
    want(one.ask("info 0"), "unbooked", "a call")
    want(one.read(), b"", "the end of the other's replies")
    err = server.communicate(timeout=60)[1]
    want((server.returncode, err), (3, b"write fault\n"), "the end")
    sealed(house)
    want(consortium.verify(house.book, kept), True, "the sealed book")


def receipts_are_no_calls(given):
    """With --calls N a receipt is none of the N: it is answered before and behind the last of them."""
    house = House(given.program, neutral(2))
    house.words += ["--calls", "2"]
    server = started(house)
    one, two = (Raw(house, name) for name in house.names)
    for line, reply, entries in (("info 0", "info size 2 rank 0", 0), ("post 0 barrier", "posted 0", 1)):
        want(one.ask(line), reply, line)
        for _ in range(5):
            want(one.ask("head"), due(house.book, entries), f"a receipt behind {line!r}")
    want(one.ask("info 0"), "exhausted", "a call more")
    want(one.read(), b"", "the end of the replies")
    for _ in range(5):
        want(two.ask("head"), NOTHING, "a receipt before any call")
    want(two.ask("leave"), "left", "the leave")
    out, err = server.communicate(timeout=60)
    want((server.returncode, err), (4, b"exhausted\n"), "the end")
    for event in ("p0 left after 2 calls: exhausted", "p1 left after 0 calls: left", "served 2 calls"):
        want(event in out.decode("ascii").splitlines(), True, event)
    house.audit()


def answers(folder, replies):
    """A server in a thread, which answers the lines of a process `p0` by these replies."""
    for end in ("calls", "replies"):
        os.mkfifo(folder / f"p0.{end}", 0o600)

    def serve():
        with open(folder / "p0.replies", "wb", buffering=0) as out, open(folder / "p0.calls", "rb") as lines:
            for reply, line in zip(replies, lines):
                asked.append(line)
                out.write(reply + b"\n")

    asked = []
    thread = threading.Thread(target=serve, daemon=True)
    thread.start()
    return thread, asked


HEX = b"0123456789abcdef" * 4
REPLIES = [
    (b"head 0 -", consortium.Receipt(0, None)),
    (b"head 0 " + HEX, consortium.Receipt(0, HEX.decode("ascii"))),
    (b"head 18446744073709551615 " + HEX, consortium.Receipt(2**64 - 1, HEX.decode("ascii"))),
    # (a server that has none)
    (b"bad BadVerb", consortium.BadLine),
    (b"head", consortium.ConsortiumError), (b"head 3", consortium.ConsortiumError),
    (b"head 3 -", consortium.ConsortiumError), (b"head - " + HEX, consortium.ConsortiumError),
    (b"head 03 " + HEX, consortium.ConsortiumError), (b"head 3 " + HEX[:-1], consortium.ConsortiumError),
    (b"head 3 " + HEX.upper(), consortium.ConsortiumError), (b"head 3 \xff", consortium.ConsortiumError),
    (b"head 3 " + HEX + b" 4", consortium.ConsortiumError), (b"posted 3", consortium.ConsortiumError),
    (b"unbooked", consortium.Gone),
]


def replies_that_are_no_receipts(given):
    """What a receipt is read from, and what is raised at any other reply."""
    folder = a_folder()
    thread, asked = answers(folder, [b"info size 1 rank 0", *(reply for reply, _ in REPLIES)])
    process = consortium.Process(str(folder), "p0", timeout=60)
    for reply, expected in REPLIES:
        if isinstance(expected, consortium.Receipt):
            want(process.receipt(), expected, f"what {reply!r} is read as")
            want(consortium.read_receipt(str(expected)), expected, "what its text is read as")
        else:
            fault = raised(consortium.ConsortiumError, process.receipt)
            want(type(fault), expected, f"what is raised at {reply!r}")
    thread.join(timeout=60)
    want(asked, [b"info 0\n", *[b"head\n"] * len(REPLIES)], "the lines that were asked")
    process.close()


def behind(text):
    """A book that is not to be read further than to its last line here."""
    yield from text.splitlines(keepends=True)
    raise Wrong("it is read on")


def books_are_read_lazily(given):
    """No more of a book is read than the receipt speaks of, and what is no book is told."""
    text = b"book 2\n" + b"post 0 0 barrier gives 0 as none passed\nverdict 0 0 granted\n"
    receipt = consortium.Receipt(2, hashlib.sha256(text).hexdigest())
    want(consortium.verify(behind(text), receipt), True, "a book that goes on")
    want(consortium.verify((bytes([byte]) for byte in text), receipt), True, "a book byte by byte")
    path = a_folder() / "book"
    for size in (1, 2, len(text) - 1, (1 << 20) - 1, 1 << 20, (1 << 20) + 1):
        line = b"x" * size + b"\n"
        path.write_bytes(text + line + b"end 3\n")
        long = consortium.Receipt(3, hashlib.sha256(text + line).hexdigest())
        for book in (path, str(path), [text + line], [text, line], behind(text + line)):
            want(consortium.verify(book, long), True, f"a line of {size} bytes")
        want(consortium.verify(path, receipt), True, "the receipt of before")
        want(consortium.verify([(text + line)[:-1]], long), False, "a last line that is not finished")
    for wrong in (text, bytearray(text), text.decode("ascii"), [text.decode("ascii")], None):
        raised((TypeError, OSError), lambda: consortium.verify(wrong, receipt))
    raised(FileNotFoundError, lambda: consortium.verify(path.with_name("none"), receipt))


TESTS = [receipts_of_a_run, a_receipt_wakes_nobody, receipts_of_every_length, receipts_beside_others,
         changed_books_are_found, recipe_of_the_shell, no_book_no_digest, receipts_outlive_a_kill,
         receipts_where_the_book_ends, receipts_are_no_calls, replies_that_are_no_receipts,
         books_are_read_lazily]
