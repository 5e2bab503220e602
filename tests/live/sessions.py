"""Pipes, events, and what a session is told."""
import datetime
import doctest
import importlib
import hashlib
import os
import pkgutil
import re
import shutil
import signal
import subprocess
import time
from array import array

from live import consortium
from consortium import MPI
from consortium.comms import Intracomm
from live import EXAMPLES, GROUPS, SERVERS, TOP, Client, House, Raw, Wrong
from live import a_folder, all_results, die_with_parent, neutral, want

BANKS = [("a0", "alpha"), ("b0", "beta"), ("u0", "umbra"), ("n0", None)]
CLASSES = [["alpha", "beta"], ["umbra"]]
SUMS = [("sum", 3, 3)]


def refused_start(house, status, complaint):
    """The server does not start, and says why; nothing is opened or made."""
    before = sorted(os.listdir(house.pipes))
    done = subprocess.run(house.words, capture_output=True, text=True, timeout=60, check=False)
    want(done.returncode, status, f"status ({done.stderr!r})")
    if not done.stderr.startswith(complaint) or done.stderr.count("\n") != 1:
        raise Wrong(f"standard error: {done.stderr!r}, and not {complaint!r}")
    want(done.stdout, "", "standard output")
    want(sorted(os.listdir(house.pipes)), before, "the names in DIR")
    want(house.book.exists(), False, "a book")


def pipes_are_looked_at(given):
    """What is missing, no named pipe, or open to others is refused by name, with status 3."""
    house = House(given.program, neutral(2))
    calls, replies = house.pipes / "p1.calls", house.pipes / "p1.replies"
    replies.unlink()
    refused_start(house, 3, "no pipe: p1")
    replies.write_bytes(b"")
    os.chmod(replies, 0o600)
    refused_start(house, 3, "no pipe: p1")
    replies.unlink()
    os.mkfifo(replies, 0o600)
    for pipe in (calls, replies):
        for mode in (0o604, 0o602, 0o666):
            os.chmod(pipe, mode)
            refused_start(house, 3, "open to others: p1")
        os.chmod(pipe, 0o600)
        # A name that leads to a pipe is none.
        elsewhere = house.folder / "elsewhere"
        pipe.rename(elsewhere)
        pipe.symlink_to(elsewhere)
        refused_start(house, 3, "no pipe: p1")
        pipe.unlink()
        elsewhere.rename(pipe)
    os.chmod(calls, 0o620)
    os.chmod(replies, 0o641)
    house.start()
    Raw(house, "p0").close()
    Raw(house, "p1").close()
    house.end()
    house.book.unlink()
    house.policy.write_text("version = 7\n", encoding="utf-8")
    refused_start(house, 1, "policy: BadVersion")
    house.words = house.words[:3]
    refused_start(house, 5, "bad arguments")


def books_are_new(given):
    """A file that is there is no place for a book, and is left as it is; nor is no place at all."""
    house = House(given.program, neutral(1))
    house.book.write_bytes(b"another\n")
    taken = (3, "", f"book exists: {house.book}\n")
    nowhere = house.folder / "nowhere" / "book.txt"
    for book, told in ((house.book, taken), (nowhere, (3, "", "write fault\n"))):
        house.words[-1] = str(book)
        done = subprocess.run(house.words, capture_output=True, text=True, timeout=60, check=False)
        want((done.returncode, done.stdout, done.stderr), told, f"the end at {book}")
    want(house.book.read_bytes(), b"another\n", "the file that was there")
    # Pipes that are not as they must be are told first, and nothing is made.
    house.book.unlink()
    house.words[-1] = str(house.book)
    (house.pipes / "p0.calls").unlink()
    refused_start(house, 3, "no pipe: p0")


def events_that_are_not_written(given):
    """Where events cannot be written the sessions go on, and the status tells it at the end."""
    house = House(given.program, neutral(1))
    with open("/dev/full", "wb") as full:
        server = subprocess.Popen(house.words, stdin=subprocess.DEVNULL, stdout=full,
                                  stderr=subprocess.PIPE, preexec_fn=die_with_parent)
    SERVERS.append(server)
    raw = Raw(house, "p0")
    want(raw.ask("post 0 barrier"), "posted 0", "the post")
    want(raw.ask("wait 0"), "delivered none", "the wait")
    want(raw.ask("leave"), "left", "the leave")
    told = server.communicate(timeout=60)[1]
    want((server.returncode, told), (3, b"write fault\n"), "how the server ends")
    house.audit()


def events_are_told(given):
    """The events on standard output, and a session without a line."""
    house = House(given.program, neutral(3)).start()
    first = Raw(house, "p0")
    house.await_event("p0 came")
    want(first.ask("info 0"), "info size 3 rank 0", "p0's info")
    want(first.ask("post 0 barrier"), "posted 0", "p0's post")
    want(first.ask("take 0"), "pending", "p0's take")
    first.close()
    house.await_event("p0 gone")
    Raw(house, "p1").close()
    house.await_event("p1 gone")
    last = Raw(house, "p2")
    # Dropped, since nothing ends it: a client that dies in the middle of a line has not called.
    last.send(b"info 0\ninfo 0")
    want(last.line(), "info size 3 rank 2", "p2's info")
    last.close()
    house.end()
    events = house.events()
    want(events[0], "serving 3 processes", "the first event")
    want([event for event in events if event.startswith("p0")],
         ["p0 came"] + [f"p0 {word} after 3 calls: end of stream" for word in ("gone", "left")],
         "p0's events")
    want([event for event in events if event.startswith("p1")],
         ["p1 came"] + [f"p1 {word} after 0 calls: end of stream" for word in ("gone", "left")],
         "p1's events")
    want([event for event in events if event.startswith("p2")],
         ["p2 came", "p2 left after 1 calls: end of stream"], "p2's events")
    want(events[-1:] + [len(events)], ["served 4 calls", 10], "the end of the events")


def events_have_their_times(given):
    """With --times each event begins with its time, in UTC; the book and the replies have none."""
    house = House(given.program, neutral(1))
    house.mark()
    begin = int(time.time())
    server = subprocess.Popen([*house.words, "--times"], stdin=subprocess.DEVNULL,
                              stdout=subprocess.PIPE, stderr=subprocess.PIPE,
                              preexec_fn=die_with_parent)
    SERVERS.append(server)
    raw = Raw(house, "p0")
    want(raw.ask("post 0 barrier"), "posted 0", "the post")
    want(raw.ask("leave"), "left", "the leave")
    out, err = server.communicate(timeout=60)
    want((server.returncode, err), (0, b""), "how the server ends")
    times, events = [], []
    for line in out.decode("ascii").splitlines():
        written, event = line.split(" ", 1)
        at = datetime.datetime.strptime(written, "%Y-%m-%dT%H:%M:%SZ")
        times.append(at.replace(tzinfo=datetime.timezone.utc).timestamp())
        events.append(event)
    want(events, ["serving 1 processes", "p0 came", "p0 left after 1 calls: left", "served 1 calls"],
         "the events")
    want(times, sorted(times), "the times")
    want(begin <= times[0] and times[-1] <= time.time(), True, "the first time and the last")
    house.audit()


def a_failed_write_ends_a_session(given):
    """Who reads no replies any more is gone, though its calls are open."""
    house = House(given.program, neutral(2)).start()
    deaf, other = Raw(house, "p0"), Raw(house, "p1")
    want(deaf.ask("info 0"), "info size 2 rank 0", "an info")
    os.close(deaf.replies)
    deaf.replies = -1
    deaf.send(b"info 0\n")
    house.await_event("p0 gone")
    want(other.ask("post 0 barrier"), "posted 0", "the other's post")
    # Nobody is here who could settle it.
    want(other.ask("wait 0"), "pending", "the other's wait")
    want(other.ask("leave"), "left", "the other's leave")
    house.end()
    want([event for event in house.events() if event.startswith("p0 left")],
         ["p0 left after 2 calls: replies not read"], "why p0 has left")


def bad_lines_are_answered(given):
    """One answer for each finished line, whatever it is, and the session goes on."""
    table = [
        ("", "bad BadShape"), ("# a note", "bad BadVerb"), ("hello", "bad BadVerb"),
        ("info", "bad BadShape"), ("info 0 ", "bad BadShape"), ("info  0", "bad BadShape"),
        (" info 0", "bad BadShape"), ("info x", "bad BadField"), ("info 00", "bad BadField"),
        ("info 4294967296", "bad BadField"), ("info 0\t", "bad BadShape"),
        ("take 18446744073709551616", "bad BadField"), ("wait", "bad BadShape"),
        ("wait -1", "bad BadField"), ("leave now", "bad BadShape"), ("leave ", "bad BadShape"),
        ("post 0 gossip", "bad BadKind"), ("post 0 allgather int9 1", "bad BadType"),
        ("post 0 allreduce avg int8 1", "bad UnknownOp"), ("post 0 barrier x", "bad BadShape"),
        ("post 0 allgatherv int8 to public 1", "bad BadShape"),
        ("post 0 allgatherv int8 as gamma 1", "bad BadLabel"),
        ("post 0 allgatherv int8 as public 128", "bad BadNumber"),
        ("post 0 allgatherv 2int as public 1 2 3", "bad OddPair"),
        ("post 0 0 barrier", "bad BadKind"), ("info 0\r", "info size 1 rank 0"),
        ("take 7", "refused NoSuchRequest"), ("wait 7", "refused NoSuchRequest"),
        ("post 700 barrier", "refused NoSuchComm"), ("info 0", "info size 1 rank 0"),
    ]
    house = House(given.program, neutral(1)).start()
    raw = Raw(house, "p0")
    for line, answer in table:
        want(raw.ask(line), answer, f"answer to {line!r}")
    # All at once, and by bytes that are no text.
    raw.send("".join(line + "\n" for line, _ in table).encode("ascii"))
    for line, answer in table:
        want(raw.line(), answer, f"answer to {line!r} among all")
    raw.send(b"info \xff\n\0\n")
    want([raw.line(), raw.line()], ["bad BadShape"] * 2, "answers to bytes")
    want(raw.ask("leave"), "left", "answer to leave")
    want(raw.read(), b"", "the end of the replies")
    house.end()


def examples_of_the_client(given):
    """The examples in the client's docstrings, run by a process that is alone."""
    house = House(given.program, [("solo", "alpha")], [["alpha", "beta"]]).start()
    with house.connect("solo", "alpha") as process:
        told = []
        names = {name: getattr(consortium, name) for name in consortium.__all__}
        world = process.world
        other = House(given.program, neutral(1)).start()
        names.update(process=process, world=world, COMM=Intracomm(world, [0], 0, "alpha"),
                     spare=other.connect("p0"), MPI=MPI, array=array)
        runner = doctest.DocTestRunner(verbose=False)
        for part in pkgutil.iter_modules(consortium.__path__):
            module = importlib.import_module(f"consortium.{part.name}")
            for test in doctest.DocTestFinder().find(module, extraglobs=names):
                runner.run(test, out=told.append)
        results = runner.summarize(verbose=False)
    if results.failed or results.attempted < 350:
        raise Wrong(f"{results}: {''.join(told)}")
    house.end()
    house.audit()
    other.end()


class Counted(consortium.Process):
    """Counts the calls that it makes."""
    calls = 0

    def _exchange(self, call, then, timeout=None):
        self.calls += call != "leave"
        super()._exchange(call, then, timeout)


def outcome(request):
    try:
        return request.wait()
    except consortium.Denied as denied:
        return denied.rule, denied.process, denied.label


def a_firm(house, name, label, figure):
    """What one of the four is told."""
    told = []
    with house.connect(name, label, Counted) as process:
        world = process.world
        told.append(outcome(world.Iallreduce([figure], op="sum")))
        # A broadcast of alpha's figure would reach its rival.
        told.append(outcome(world.Ibcast([figure] if name == "a0" else None, count=1)))
        # Alpha and the auditor, which is bound to it from then on, and then beta and the auditor.
        for first in (0, 1):
            pair = world.Create([first, 3])
            if pair is not None:
                values = [figure] if name != "n0" else None
                told.append((pair.rank, pair.size, outcome(pair.Ibcast(values, count=1))))
        request = world.Iallreduce([figure], op="sum", label="umbra" if name == "n0" else None)
        told.append((request.barred, outcome(request)))
    return told, process.calls


def four_firms(given):
    """Two banks, an insurer and an auditor, each a process of its own."""
    house = House(given.program, BANKS, CLASSES, SUMS).start()
    figures = [("a0", "alpha", 120), ("b0", "beta", 80), ("u0", "umbra", 300), ("n0", "public", 0)]
    clients = [Client(a_firm, house, *firm) for firm in figures]
    told = dict(zip("abun", all_results(clients)))
    rival, star = ("simple", "b0", "alpha"), ("star", "n0", "umbra")
    second = ("simple", "n0", "beta")
    want(told["a"][0], [[500], rival, (0, 2, None), (None, star)], "a0 is told")
    want(told["b"][0], [[500], rival, (0, 2, second), (None, star)], "b0 is told")
    want(told["u"][0], [[500], rival, (None, star)], "u0 is told")
    want(told["n"][0], [[500], rival, (1, 2, [120]), (1, 2, second), ("umbra", star)], "n0 is told")
    house.end()
    house.audit()
    events = house.events()
    calls = {name + "0": count for name, (_, count) in told.items()}
    for name, count in calls.items():
        want([event for event in events if event.startswith(name)],
             [f"{name} came", f"{name} left after {count} calls: left"], f"{name}'s events")
    want(events[-1], f"served {sum(calls.values())} calls", "the last event")


def refusals_are_typed(given):
    """Each refusal that one call can meet, by its name; and a post of another kind."""
    house = House(given.program, neutral(2)).start()

    def tried(call):
        try:
            return call()
        except consortium.Refused as refused:
            return refused.reason

    def both(name):
        with house.connect(name) as process:
            world = process.world
            part = world.Isplit(color=world.rank).wait()
            nowhere = consortium.Comm(process, 700, 0, 1)
            # Of the two communicators of the split the other's.
            others = consortium.Comm(process, 3 - part.number, 0, 1)
            told = [
                tried(nowhere.Ibarrier), tried(lambda: world.Ineighbor_allgather([1])),
                tried(lambda: world.Ibcast([1], root=2)), tried(lambda: world.Isplit(color=-1)),
                tried(lambda: world.Iallreduce([1], op="maxloc")),
                tried(lambda: world.Ialltoall([[1]])), tried(lambda: world.Icreate([0, 0])),
                tried(lambda: world.Icreate_cart([3])), tried(lambda: world.Icreate_cart([0])),
                tried(lambda: world.Iallgatherv([1] * 65_537)), part.size,
            ]
            told.append(tried(others.Ibarrier))
            request = world.Ibarrier()
            request.wait()
            told.append(process.ask(f"take {request.number}"))
        return told

    common = ["NoSuchComm", "NoTopology", "BadRoot", "BadColour", "BadOp", "BadCount",
              "NotSubgroup", "BadDims", "BadDims", "BadCount", 1]
    for found in all_results([Client(both, name) for name in ("p0", "p1")]):
        want(found, common + ["NotMember", "refused NoSuchRequest"], "refusals")
    house.end()

    house = House(given.program, neutral(2)).start()
    one, two = house.connect("p0"), house.connect("p1")
    one.world.Ibarrier()
    want(tried(two.world.Idup), "Mismatch", "a post of another kind")
    for _ in range(255):
        one.world.Ibarrier()
    want(tried(one.world.Ibarrier), "TooManyRequests", "the 257th request that is not taken")
    for faulty in (lambda: two.world.Iallreduce([1.5]), lambda: two.world.Iallreduce(["1"])):
        try:
            faulty()
            raise Wrong("an element that is no number was posted")
        except TypeError:
            pass
    for line in ("info 0\ninfo 0", "info \u00e9"):
        try:
            two.ask(line)
            raise Wrong("two lines at once, or no ASCII")
        except ValueError:
            pass
    want(two.ask("info 0"), "info size 2 rank 1", "the session afterwards")
    one.leave()
    two.leave()
    house.end()


def nobody_waits_for_the_dead(given):
    """A wait is answered pending once every other process has left or waits too."""
    house = House(given.program, neutral(3)).start()

    def waits(name):
        with house.connect(name) as process:
            request = process.world.Ibarrier()
            try:
                return request.wait()
            except consortium.Stuck:
                return request.test()

    def dies(name):
        house.connect(name)
        signal.pause()

    doomed = Client(dies, house.names[2])
    clients = [Client(waits, name) for name in house.names[:2]]
    house.await_event("p2 came")
    doomed.kill()
    want(all_results(clients), [(False, None)] * 2, "the waits of the others")
    house.end()


def a_day(house, sender, label, told):
    """The two of the world's three that have a communicator of their own: n0 is sent a number."""
    house.start()
    raws = [Raw(house, name) for name in house.names]
    for raw in raws:
        want(raw.ask(f"post 0 create {sender},2"), "posted 0", "the post of a constructor")
    want(raws[2].ask("wait 0"), "comm 1 rank 1 size 2", "n0's communicator")
    want(raws[sender].ask(f"post 1 bcast 0 int32 1 as {label} 7"), "posted 1", "the sender's post")
    want(raws[2].ask("post 1 bcast 0 int32 1"), "posted 1", "n0's post")
    want(raws[2].ask("wait 1"), told, "what n0 is told")
    for raw in raws:
        want(raw.ask("leave"), "left", "the leave")
    house.end()


def a_wall_over_days(given):
    """What n0 was given one day it has held the next, where the server goes on after that book."""
    def of_three(*books):
        processes = [("a0", "alpha"), ("b0", "beta"), ("n0", None)]
        house = House(given.program, processes, [["alpha", "beta"]])
        for book in books:
            house.words[2:2] = ["--after", str(book)]
        return house

    first, alone = of_three(), of_three()
    a_day(first, 0, "alpha", "delivered [7]")
    a_day(alone, 1, "beta", "delivered [7]")
    second = of_three(first.book)
    a_day(second, 1, "beta", "denied simple n0 beta")
    # The newest stands in front in `of_three`.
    third = of_three(second.book, first.book)
    a_day(third, 1, "beta", "denied simple n0 beta")
    refused_start(of_three(alone.book, first.book), 2, f"after {alone.book}: unsound at entry 7\n")
    cut = first.folder / "cut"
    cut.write_text("book 2\n", encoding="utf-8")
    refused_start(of_three(cut), 2, f"after {cut}: cut\n")
    refused_start(of_three(first.folder / "none"), 3, "read fault\n")


def talk_in_the_shell(given):
    """examples/serve: make_pipes, talk.sh with echo and read, the bridge, and the digests."""
    house = House(given.program, BANKS, CLASSES, SUMS)
    shutil.rmtree(house.pipes)
    made = house.make_pipes()
    want((made.returncode, made.stdout, made.stderr), (0, "", ""), "make_pipes")
    names = [f"{name}.{end}" for name in (*house.names, "@operator") for end in ("calls", "replies")]
    want(sorted(os.listdir(house.pipes)), sorted([*names, "unused"]), "the pipes")
    house.start()
    firms = [("a0", "alpha", 120), ("b0", "beta", 80), ("u0", "umbra", 300)]
    started = [begun([EXAMPLES / "talk.sh", house.pipes, name, label]) for name, label, _ in firms]
    for (_, _, number), talk in zip(firms, started):
        talk.stdin.write(f"{number}\n".encode("ascii"))
        talk.stdin.close()
    bridge = begun([EXAMPLES / "bridge", house.pipes, "n0"])
    lines = "post 0 allreduce sum int64 1 as public 0\nwait 0\nleave\n"
    want(bridge.communicate(lines.encode("ascii"), timeout=60)[0].decode("ascii"),
         "posted 0\ndelivered [500]\nleft\n", "what comes over the bridge")
    for (name, _, _), talk in zip(firms, started):
        want(talk.stdout.read().decode("ascii"), f"{name}: delivered [500]\n", name)
    house.end()
    house.audit()
    environment = dict(os.environ, CONSORTIUM=given.program)
    words = [EXAMPLES / "digests", house.policy, house.book]
    told = subprocess.run(words, env=environment, capture_output=True, text=True, timeout=60,
                          check=False)
    kept = [f"{hashlib.sha256(path.read_bytes()).hexdigest()}  {path}\n"
            for path in (house.policy, house.book)]
    sound = f"sound {len(house.book_lines()) - 2}\n"
    want((told.returncode, told.stdout), (0, sound + "".join(kept)), "the digests")
    # The same book twice is sound: the sum was sanitised, so no history has grown.
    twice = subprocess.run(words + [house.book], env=environment, capture_output=True, text=True,
                           timeout=60, check=False)
    want((twice.returncode, twice.stdout), (0, sound + "".join(kept) + kept[1]), "digests of two")
    cut = house.folder / "cut.txt"
    cut.write_text("book 2\n", encoding="utf-8")
    words = [EXAMPLES / "digests", house.policy, cut, house.book]
    told = subprocess.run(words, env=environment, capture_output=True, text=True, timeout=60,
                          check=False)
    want((told.returncode, told.stdout, told.stderr), (2, "", f"after {cut}: cut\n"),
         "digests behind a book that was cut")


def begun(words):
    process = subprocess.Popen(list(map(str, words)), stdin=subprocess.PIPE, stdout=subprocess.PIPE,
                               cwd=TOP, start_new_session=True, preexec_fn=die_with_parent)
    GROUPS.append(process)
    SERVERS.append(process)
    return process


class Terminal:
    """A shell that is told blocks of a page, and what it writes."""

    def __init__(self):
        self.shell = begun(["sh"])
        self.lines = []

    def tell(self, block):
        self.shell.stdin.write(block.encode("utf-8"))
        self.shell.stdin.flush()

    def read_to(self, line):
        while line not in self.lines:
            read = self.shell.stdout.readline().decode("utf-8")
            if not read:
                raise Wrong(f"{line!r} does not come; there is {self.lines}")
            self.lines.append(read.rstrip("\n"))

    def replies(self):
        words = ("info", "posted", "delivered", "head", "left", "sound")
        return [line for line in self.lines if line.split(" ")[0] in words]


def first_session(given):
    """The section on the first session of docs/SERVE.md, for this program and a folder of its own."""
    page = (TOP / "docs" / "SERVE.md").read_text(encoding="utf-8")
    section = page[page.index("## A first session") : page.index("## Lines")]
    built = "$PWD/crates/consortium/out/consortium"
    want((section.count(built), section.count("/tmp/first") > 5), (1, True), "names on the page")
    return section.replace(built, given.program).replace("/tmp/first", str(a_folder() / "first"))


def blocks(section, kind):
    return re.findall(f"```{kind}\n(.*?)```", section, re.DOTALL)


def first_session_of_the_page(given):
    """The first session of docs/SERVE.md, in two shells, as it stands there."""
    section = first_session(given)
    begin, first, second, head, leave, audit, digest = blocks(section, "sh")[:7]
    receipt, told = (block.splitlines() for block in blocks(section, "text")[:2])
    one, two = Terminal(), Terminal()
    one.tell(begin + first)
    one.read_to("posted 0")
    two.tell(second)
    two.read_to("delivered [120 -7]")
    one.read_to("delivered none")
    two.tell(head)
    two.read_to(receipt[0])
    one.tell(leave)
    two.tell(leave)
    one.read_to("served 5 calls")
    two.read_to("left")
    one.tell("wait\n" + audit)
    one.read_to("sound 3")
    want(one.replies(), ["info size 2 rank 0", "posted 0", "delivered none", "left", "sound 3"],
         "replies in terminal 1")
    want(two.replies(), ["posted 0", "delivered [120 -7]", receipt[0], "left"],
         "replies in terminal 2")
    events = [line for line in one.lines if line not in one.replies()]
    want(sorted(events), sorted(told), "events in terminal 1")
    one.tell(digest)
    one.read_to(f"{receipt[0].split()[2]}  -")


def first_session_in_python(given):
    """The same by the client, in place of terminal 2, as it stands there."""
    section = first_session(given)
    begin, first, _, _, leave = blocks(section, "sh")[:5]
    one = Terminal()
    one.tell(begin + first)
    one.read_to("posted 0")
    runner, told = doctest.DocTestRunner(verbose=False), []
    page = doctest.DocTestParser().get_doctest(blocks(section, "python")[0], {}, "page", None, 0)
    runner.run(page, out=told.append)
    want((runner.tries > 5, "".join(told)), (True, ""), "what the client does otherwise")
    one.tell(leave)
    one.read_to("served 6 calls")


TESTS = [pipes_are_looked_at, books_are_new, events_that_are_not_written, events_are_told,
         events_have_their_times, a_failed_write_ends_a_session, bad_lines_are_answered,
         examples_of_the_client, four_firms,
         refusals_are_typed, nobody_waits_for_the_dead, a_wall_over_days, talk_in_the_shell,
         first_session_of_the_page, first_session_in_python]
