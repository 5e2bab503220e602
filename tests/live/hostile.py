"""Processes that die, stop, flood or never read, while others compute and are unharmed."""
import mmap
import os
import random
import signal
import time

from live import Client, House, Raw, Wrong, all_results, neutral, until, want

LONGEST = 2_097_152
GOOD = 4


class Mixed:
    """A house in which the first four processes compute until they are told to end, and each other
    one, a stranger to them, has a communicator of its own."""

    def __init__(self, given, strangers):
        self.house = House(given.program, neutral(GOOD + strangers)).start()
        # Shared with the clients: how many turns the four have done, and whether they are to end.
        self.board = mmap.mmap(-1, 9)
        self.good = [Client(computes, self.house, name, self.board)
                     for name in self.house.names[:GOOD]]
        # Each stranger takes part in the split, or no communicator would be made.
        self.names, self.raws = self.house.names[GOOD:], {}
        for name in self.names:
            raw = Raw(self.house, name)
            want(raw.ask(f"post 0 split {1 + len(self.raws)} 0"), "posted 0", "a stranger's split")
            self.raws[name] = raw
        self.comms = {name: int(raw.ask("wait 0").split()[1]) for name, raw in self.raws.items()}

    def go_on(self):
        """Waits until the four have done some turns more."""
        goal = int.from_bytes(self.board[:8], "little") + 20
        until(lambda: int.from_bytes(self.board[:8], "little") >= goal, "the others' turns")

    def end(self):
        """Ends all sessions, and gives the lines of the book."""
        self.go_on()
        for name in self.names:
            self.raws[name].close()
        for name in self.names:
            self.house.await_event(f"{name} gone")
        self.go_on()
        self.board[8] = 1
        all_results(self.good)
        book = self.house.end()
        self.house.audit()
        return book


def computes(house, name, board):
    """Sums among the four, until the board says that they are to end."""
    turns = 0
    with house.connect(name) as process:
        four = process.world.Split(color=0)
        while True:
            # Whether to end is a sum too, so that all end together.
            got = four.Iallreduce([turns + four.rank, board[8] if four.rank == 0 else 0]).wait()
            want(got[0], GOOD * turns + GOOD * (GOOD - 1) // 2, "a sum among the others")
            turns += 1
            if four.rank == 0:
                board[:8] = turns.to_bytes(8, "little")
            if got[1]:
                return
            time.sleep(0.002)


def lines_of_a_stranger(comm, number):
    """Lines that a process which is alone in a communicator may write, with their answers. Its
    request 0 is the split."""
    lines = []
    for turn in range(number):
        figure = 10 ** (turn % 18)
        post = f"post {comm} allreduce sum int64 1 as public {figure}"
        lines.append((post, f"posted {turn + 1}"))
        lines.append((f"wait {turn + 1}", f"delivered [{figure}]"))
        lines.append((f"info {comm}", "info size 1 rank 0"))
    return lines


def killed_at_a_random_byte(given):
    """Clients that are killed at a random byte: what they finished counts, and nothing else."""
    rng = random.Random(given.seed)
    mixed = Mixed(given, 12)
    posts = {}
    for number, (name, raw) in enumerate(mixed.raws.items()):
        comm = mixed.comms[name]
        lines = lines_of_a_stranger(comm, 40)
        data = "".join(line + "\n" for line, _ in lines).encode("ascii")
        data = data[: rng.randrange(len(data))]
        client = Client(dies_behind, raw, data, rng.randrange(1, 60))
        finished = data.count(b"\n")
        posts[comm] = sum(line.startswith("post") for line, _ in lines[:finished])
        if number % 2 == 0:
            # Nobody has the pipes any more: a write fails, and the session ends there.
            raw.close()
            client.dies()
            posts[comm] = range(posts[comm] + 1)
        else:
            # The replies still have a reader, who gets all that are due.
            os.close(raw.calls)
            raw.calls = -1
            client.dies()
            got = [raw.line() for _ in range(finished)]
            want(got, [answer for _, answer in lines[:finished]], f"answers to {name}")
            want(raw.read(), b"", f"the end of the replies to {name}")
            posts[comm] = [posts[comm]]
    book = [line.split() for line in mixed.end()]
    for comm, numbers in posts.items():
        entries = sum(words[0] == "post" and words[2] == str(comm) for words in book)
        want(entries in numbers, True, f"{entries} posts in {comm}, and not {numbers}")


def dies_behind(raw, data, piece):
    """Writes all this in pieces, and is killed."""
    for at in range(0, len(data), piece):
        raw.send(data[at : at + piece])
    os.kill(os.getpid(), signal.SIGKILL)


def who_dies_at_the_door(given):
    """Clients that are gone again before the server has looked at the first line."""
    rng = random.Random(given.seed)
    house = House(given.program, neutral(12)).start()
    for name in house.names:
        raw = Raw(house, name)
        raw.send(b"info 0\nwait 0\n"[: rng.randrange(15)])
        raw.close()
    for name in house.names:
        house.await_event(f"{name} left")
    house.end()


def who_never_reads(given):
    """A client that writes on and on, and never reads a reply: it alone is held up."""
    mixed = Mixed(given, 2)
    for name, raw in mixed.raws.items():
        os.set_blocking(raw.calls, False)
        end, last, sent = time.monotonic() + 20, time.monotonic(), 0
        # Until nothing has been taken for half a second: the server waits for the reader.
        while time.monotonic() < end and time.monotonic() - last < 0.5:
            try:
                sent += os.write(raw.calls, b"info 0\n" * 500)
                last = time.monotonic()
            except BlockingIOError:
                time.sleep(0.01)
        if sent < 50_000:
            raise Wrong(f"{name} could write {sent} bytes")
    mixed.end()


def noise(given):
    """A hundred megabytes of noise, each line of it answered by one that says what is bad."""
    mixed = Mixed(given, 1)
    raw = mixed.raws[mixed.names[0]]
    piece = os.urandom((1 << 20) - 1) + b"\n"
    writer = Client(writes_often, raw, piece, given.noise)
    lines = given.noise * piece.count(b"\n")
    os.close(raw.calls)
    raw.calls = -1
    seen, behind = 0, b""
    while True:
        more = raw.read()
        if not more:
            break
        *whole, behind = (behind + more).split(b"\n")
        seen += len(whole)
        odd = [line for line in whole if not line.startswith(b"bad ")]
        want(odd, [], "answers that are not bad")
    want((seen, behind, writer.result()), (lines, b"", lines), "answers to the noise")
    mixed.end()


def writes_often(raw, piece, times):
    os.close(raw.replies)
    for _ in range(times):
        raw.send(piece)
    return times * piece.count(b"\n")


def cut_anywhere(given):
    """Lines that come in pieces, cut anywhere, or many at once."""
    rng = random.Random(given.seed)
    mixed = Mixed(given, 1)
    name = mixed.names[0]
    raw = mixed.raws[name]
    lines = lines_of_a_stranger(mixed.comms[name], 60) + [("hello", "bad BadVerb")]
    data = "".join(line + "\n" for line, _ in lines).encode("ascii")
    while data:
        length = rng.choice([1, 1, 2, 3, 7, 40, 300])
        raw.send(data[:length])
        data = data[length:]
        if rng.random() < 0.1:
            time.sleep(0.001)
    for line, answer in lines:
        want(raw.line(), answer, f"answer to {line!r}")
    mixed.end()


def long_lines(given):
    """Lines of sixteen megabytes, and of one byte more or less than the most."""
    mixed = Mixed(given, 1)
    raw = mixed.raws[mixed.names[0]]
    want(raw.ask("x" * LONGEST), "bad BadVerb", "answer to the longest line")
    want(raw.ask("x" * (LONGEST + 1)), "bad TooLong", "answer to a line that is a byte too long")
    # A post of 65,536 elements fits, whatever they are.
    digits = " ".join(["-9223372036854775808"] * 65_536)
    post = f"post {mixed.comms[mixed.names[0]]} allgatherv int64 as public {digits}"
    want(raw.ask(post), "posted 1", "answer to the widest post")
    want(raw.ask("take 1"), f"delivered [{digits}]", "the widest delivery")
    before = mixed.house.memory_kib()
    for _ in range(3):
        want(raw.ask("x" * (16 << 20)), "bad TooLong", "answer to a line of 16 MB")
    grown = mixed.house.memory_kib() - before
    if grown > 12 << 10:
        raise Wrong(f"{grown} KiB for lines that are skipped")
    # The end of a line that was skipped begins no call, and the next line is read.
    raw.send(b"y" * (3 << 20) + b" info 0\ninfo 0\n")
    want(raw.line(), "bad TooLong", "answer to a call behind a long line")
    want(raw.line()[:4], "info", "answer to the next line")
    mixed.end()


def all_at_once(given):
    """All of these at once: noise, cut lines, one who never reads, one who dies, half a line."""
    rng = random.Random(given.seed)
    mixed = Mixed(given, 5)
    raws = list(mixed.raws.values())
    piece = os.urandom(1 << 18) + b"\n"
    loud = Client(writes_often, raws[0], piece, 8)
    quiet = Client(writes_often, raws[1], b"info 0\n", 1)
    half = Client(dies_behind, raws[2], b"post 0 barr", 3)
    dead = Client(dies_behind, raws[3], b"info 0\n" * rng.randrange(1, 99) + b"inf", 5)
    raws[2].close()
    raws[3].close()
    os.set_blocking(raws[4].calls, False)
    for _ in range(100):
        try:
            os.write(raws[4].calls, b"info 0\n" * 500)
        except BlockingIOError:
            break
    half.dies()
    dead.dies()
    # Of the noise too nobody reads an answer: the writer is let go when the pipe is closed.
    time.sleep(0.5)
    loud.kill()
    quiet.result()
    mixed.end()


def stopped_while_it_is_served(given):
    """Process 0 is stopped while its large delivery is written: process 1 is answered meanwhile."""
    house = House(given.program, neutral(3)).start()
    wide = [-(1 << 63)] * 65_536

    def waits(name):
        """Gets three blocks of 1.3 MB each, far more than a pipe holds."""
        with house.connect(name) as process:
            request = process.world.Igather(wide, root=0)
            process.world.Ibarrier()
            flag.write_bytes(b"")
            return request.wait() == [wide] * 3

    flag = house.folder / "waits"
    first = Client(waits, "p0")
    one, two = house.connect("p1"), house.connect("p2")
    one.world.Igather(wide, root=0)
    request = one.world.Ibarrier()
    until(lambda: flag.exists() and asleep(first.pid), "process 0 waits for the last member")
    first.signal(signal.SIGSTOP)
    two.world.Igather(wide, root=0)
    two.world.Ibarrier()
    # The delivery is being worked out or written now, and nobody reads it.
    begin = time.monotonic()
    want(request.wait(), None, "the barrier")
    for turn in range(200):
        want(one.world.Iallgatherv([turn]).number, 2 + turn, "process 1's next post")
    took = time.monotonic() - begin
    if took > 20:
        raise Wrong(f"process 1 was held up for {took:.1f} s")
    want(first.has_ended(), False, "whether process 0 has ended")
    first.signal(signal.SIGCONT)
    want(first.result(), True, "what process 0 got")
    one.leave()
    two.leave()
    house.end()
    house.audit()


def asleep(pid):
    """Whether a process sleeps whenever it is looked at."""
    for _ in range(5):
        with open(f"/proc/{pid}/stat", encoding="ascii") as stat:
            if stat.read().rpartition(")")[2].split()[0] != "S":
                return False
        time.sleep(0.01)
    return True


TESTS = [killed_at_a_random_byte, who_dies_at_the_door, who_never_reads, noise, cut_anywhere,
         long_lines, all_at_once, stopped_while_it_is_served]
