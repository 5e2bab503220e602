"""A member that means harm beside three that compute: how long these wait for their replies without
the harm and with it, and what memory and the book come to."""
import mmap
import struct
import time

from live import Client, House, Raw, Wrong, all_results, until, want

HONEST = 3
# How many sums a stretch has at least, of two calls each: without the harm, and with it.
ROUNDS = 250
# Between two sums, so that the honest ones do not hold up each other.
PAUSE = 0.001
# With the harm so many of 100 calls may take three times as long as without, or so many seconds. On
# two processors with two programs more that never sleep, of a machine that did much other work,
# half took up to 0.13 ms, 99 of 100 up to 24 and each up to 56 ms, with the harm and without:
# whoever is woken there waits for turns of some milliseconds.
TIMES, FLOORS = 3, {50: 0.001, 99: 0.1, 100: 1}
# Seconds: a reply that takes longer does not come, and a stretch that takes longer is over.
PATIENCE, LONGEST = 10, 20
ALL_CALLS = 2_000_000


class Board:
    """What the member that means harm, the honest ones and the runner tell each other."""

    def __init__(self, goal):
        self._shared, self._goal = mmap.mmap(-1, 16), goal

    def begins(self):
        """The harm is being done."""
        self._shared[0] = 1

    def has_begun(self):
        return self._shared[0] == 1

    def end(self):
        """All was measured."""
        self._shared[1] = 1

    def has_ended(self):
        return self._shared[1] == 1

    def goes_on(self):
        """Whether the harm is to go on. It ends by itself too."""
        return not self.has_ended() and self.calls() < ALL_CALLS

    def made(self, calls):
        """So many calls more were made."""
        self._shared[8:] = struct.pack("<q", self.calls() + calls)

    def calls(self):
        return struct.unpack("<q", self._shared[8:])[0]

    def is_done(self):
        """Whether there was as much harm as the test asks for."""
        return self.calls() >= self._goal


class Beside:
    """A house in which process 0 means harm and shares the world, of which it is rank 0, with three
    others, which compute on a communicator of their own. It too has one of its own."""

    def __init__(self, given, goal, also=None, last=None, homes=(), label="public", words=(),
                 before=None):
        self.given, self.board = given, Board(goal)
        homes = list(homes) + [None] * (1 + HONEST - len(homes))
        names = [f"p{number}" for number in range(1 + HONEST)]
        classes = [sorted(set(filter(None, homes)))] if any(homes) else []
        self.house = House(given.program, list(zip(names, homes)), classes)
        self.house.words += words
        if before is not None:
            self.house.words = before(self.house) + self.house.words
        self.house.start()
        self.clients = [Client(is_honest, self.house, name, label, self.board, also, last)
                        for name in names[1:]]
        self.raw = Raw(self.house, "p0")
        want(self.raw.ask("post 0 split 0 0"), "posted 0", "the split")
        self.comm = int(self.raw.ask("wait 0").split()[1])
        want(self.raw.ask("post 0 barrier"), "posted 1", "the world's barrier")
        self.await_all("without")
        self.kib, self.floors = self.house.memory_kib(), FLOORS

    def await_all(self, mark):
        """Waits until the honest ones have come so far, or one has failed."""
        def is_so():
            ended = [client for client in self.clients if client.has_ended()]
            for client in ended:
                client.result()
                self.clients.remove(client)
            return len(list(self.house.folder.glob(f"*.{mark}"))) == HONEST
        until(is_so, f"the stretch {mark} the harm", 2 * LONGEST)

    def harmed_by(self, harm, *more):
        """Lets the harm begin, and waits until the honest ones have computed beside it."""
        honest = list(self.clients)
        self.clients.append(Client(harm, self.raw, self.comm, self.board, *more))
        self.await_all("beside")
        self.grown = self.house.memory_kib("VmHWM") - self.kib
        self.board.end()
        self.judge(all_results(honest))
        self.clients = [client for client in self.clients if client not in honest]
        return self

    def judge(self, told):
        without, beside = (sorted(seconds for one in told for seconds in one[number])
                           for number in range(2))
        text = f"{figures(without)} without, {figures(beside)} with it"
        if self.given.figures:
            print(f"{text}, {self.board.calls()} calls of it, {self.grown} KiB: ", end="")
        for percent, floor in self.floors.items():
            if at(beside, percent) > max(TIMES * at(without, percent), floor):
                raise Wrong(f"the replies of others, {text}")
        want(self.board.is_done(), True, f"whether {self.board.calls()} calls are enough of a harm")
        self.sums = told[0][2]

    def grew_by_at_most(self, kib):
        if self.grown > kib:
            raise Wrong(f"{self.grown} KiB more, and not {kib} at most")

    def end(self, status=0):
        """Ends the one that means harm, and gives the lines of the book: each sum stands there."""
        all_results(self.clients)
        self.raw.close()
        if status:
            until(lambda: self.house.server.poll() is not None, "the server ends")
            told = (self.house.server.returncode, self.house.complaint())
            want(told, (status, "exhausted\n"), "how the server ends")
        else:
            self.house.end()
        book = self.house.book_lines()
        self.house.audit()
        ours = [line for line in book if line.startswith("verdict 2 ")]
        granted = [line for line in ours if line.endswith(" granted")]
        # (what the test had them do besides at the end may be one more)
        want(len(granted) - self.sums in (0, 1), True, f"{len(granted)} of {self.sums} sums")
        return book


def at(times, percent):
    """Of sorted times the one that so many of a hundred do not pass."""
    return times[min(len(times) - 1, len(times) * percent // 100)]


def figures(times):
    half, most, all_of_them = (1e3 * at(times, percent) for percent in (50, 99, 100))
    return f"{half:.2f} ms (99 of 100: {most:.2f}, all: {all_of_them:.2f})"


def is_honest(house, name, label, board, also, last):
    """The seconds of each call, without the harm and with it, and how many sums there were."""
    process = house.connect(name, label)
    ours = process.world.Split(color=1)
    process.world.Ibarrier().wait()
    without, first = stretch(process, ours, lambda: True)
    (house.folder / f"{name}.without").write_bytes(b"")
    until(board.has_begun, "the harm", 2 * LONGEST)
    beside, second = stretch(process, ours, board.is_done, also)
    (house.folder / f"{name}.beside").write_bytes(b"")
    until(board.has_ended, "the measure", 2 * LONGEST)
    if last is not None:
        last(process, ours)
    # (not where something failed: a reply that is owed would be waited for)
    process.leave()
    return without, beside, first + second


def stretch(process, ours, is_done, also=None):
    """Sums, until the first of the honest says by one that it is the last: the seconds of each
    call, and how many sums there were. `also` is what is called besides after each."""
    times, turn, end = [], 0, time.monotonic() + LONGEST

    def ask(line):
        begin = time.monotonic()
        reply = process.ask(line, timeout=PATIENCE)
        times.append(time.monotonic() - begin)
        return reply

    while True:
        is_last = turn + 1 >= ROUNDS and is_done() or time.monotonic() > end
        values = f"{turn} {int(is_last) if ours.rank == 0 else 0}"
        line = f"post {ours.number} allreduce sum int64 2 as {process.label} {values}"
        request = ask(line).split()[-1]
        told = ask(f"wait {request}")
        is_last = told == f"delivered [{HONEST * turn} 1]"
        if not is_last:
            want(told, f"delivered [{HONEST * turn} 0]", "a sum among the honest")
        if also is not None:
            also(ask, process)
        if is_last:
            return times, turn + 1
        turn += 1
        time.sleep(PAUSE)
