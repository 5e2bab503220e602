"""The operator of a live server at its own pair of pipes: what it is told, whom it dismisses, how it
ends a run, and operators that mean harm."""
import os
import pathlib
import select
import stat
import subprocess
import time

from chains import Years
from live import EXAMPLES, NOBODY, Client, House, Late, Raw, Wrong
from live import neutral, of_nobody, as_nobody, started, until, want

# (by the name of the client's module, as everywhere)
from live import consortium


def with_pair(house):
    """The pair of the operator, as make_pipes makes it."""
    for end in ("calls", "replies"):
        os.mkfifo(house.pipes / f"@operator.{end}", 0o600)
    return house


def of(given, count, **words):
    """A server of so many processes, with an operator."""
    return with_pair(House(given.program, neutral(count), **words)).start()


class Operator:
    """Both pipes, the replies first, as a program that can open a file has them."""
    count = 0

    def __init__(self, house):
        pair = f"{house.pipes}/@operator"
        self.replies = os.open(f"{pair}.replies", os.O_RDONLY | os.O_NONBLOCK)
        self.calls = os.open(f"{pair}.calls", os.O_WRONLY | os.O_NONBLOCK)
        os.set_blocking(self.calls, True)
        self._behind = b""

    def send(self, data):
        os.write(self.calls, data)

    def line(self, seconds=20):
        """One line, or none where the replies end."""
        poll, end = select.poll(), time.monotonic() + seconds
        poll.register(self.replies, select.POLLIN)
        while b"\n" not in self._behind:
            if not poll.poll(max(0, 1000 * (end - time.monotonic()))):
                raise Late("no answer for the operator")
            more = os.read(self.replies, 1 << 16)
            if not more:
                return None
            self._behind += more
        line, _, self._behind = self._behind.partition(b"\n")
        return line.decode("ascii")

    def ask(self, line):
        """The lines of an answer."""
        self.send(line.encode("latin-1") + b"\n")
        lines = []
        while True:
            lines.append(self.line())
            if lines[-1] is None:
                raise Wrong(f"the answers end behind {lines}")
            if lines[-1] == "done" or lines[-1].split(" ")[0] in ("refused", "bad") \
                    and lines[-1].split(" ")[1][0].isupper():
                return lines

    def begin(self):
        """What another has left half written is no line, and what it has not read is dropped."""
        Operator.count += 1
        pong = f"pong {os.getpid()}-{Operator.count}"
        self.send(b"\x01\n" + pong.replace("pong", "ping").encode("ascii") + b"\n")
        said = ""
        while said != pong:
            said = self.line()
            if said is None:
                raise Wrong("the answers end before a pong")
        want(self.line(), "done", "the answer to a ping")
        return self

    def close(self):
        os.close(self.calls)
        os.close(self.replies)


def asked(house, line):
    """What one operator is told, that comes and goes."""
    operator = Operator(house)
    try:
        return operator.begin().ask(line)
    finally:
        operator.close()


def the_end(raw, word):
    """The client reads one word, and the end."""
    want(raw.line(), word, "the last word")
    want(raw.read(), b"", "what stands behind it")


def left(house, name, calls, why):
    want(house.await_event(f"{name} left"), f"{name} left after {calls} calls: {why}", "the event")


def book_of(house):
    text = house.book.read_bytes()
    return f"entries {text.count(b'%c' % 10) - 1}, bytes {len(text)}"


def each_line(given):
    """Each line of the operator, with its answer; whoever is asked for, and what is no line."""
    house = of(given, 3)
    until(lambda: house.book.read_bytes().endswith(b"\n"), "the book begins")
    operator = Operator(house)
    want(operator.ask("status"), ["p0 never came", "p1 never came", "p2 never came",
                                  f"calls 0, {book_of(house)}", "done"], "nobody came")
    first, second = Raw(house, "p0"), Raw(house, "p1")
    for raw in (first, second):
        want(raw.ask("post 0 barrier"), "posted 0", "a post")
    want(second.ask("take 0"), "pending", "a take")
    want(first.ask("bad"), "bad BadVerb", "a line that is no call")
    want(first.ask("leave"), "left", "a leave")
    left(house, "p0", 1, "left")
    want(operator.ask("status"), ["p0 left after 1 calls: left", "p1 here after 2 calls",
                                  "p2 never came", f"calls 3, {book_of(house)}", "done"], "status")
    for line, answer in [
        ("", "bad BadShape"), (" status", "bad BadShape"), ("status ", "bad BadShape"),
        ("status x", "bad BadShape"), ("end now", "bad BadShape"), ("dismiss", "bad BadShape"),
        ("dismiss ", "bad BadShape"), ("dismiss p1 ", "bad BadShape"), ("stat\tus", "bad BadShape"),
        ("dismiss p1 p2", "bad BadShape"), ("status\xe4", "bad BadShape"), ("#", "bad BadVerb"),
        ("Status", "bad BadVerb"), ("dismissed", "bad BadVerb"), ("ends", "bad BadVerb"),
        ("kill p1", "bad BadVerb"), ("dismiss nobody", "refused NoSuchProcess"),
        ("dismiss P1", "refused NoSuchProcess"), ("dismiss p", "refused NoSuchProcess"),
        ("dismiss p0", "refused HasLeft"), ("dismiss " + "x" * 4088, "refused NoSuchProcess"),
        ("dismiss " + "x" * 4089, "bad TooLong"), ("x" * 100_000, "bad TooLong"),
        ("ping", "bad BadShape"), ("ping a b", "bad BadShape"), ("pong a", "bad BadVerb"),
        ("end\r\r", "bad BadShape"), ("dismiss " + "x" * 4088 + "\r", "refused NoSuchProcess"),
    ]:
        want(operator.ask(line), [answer], f"the answer to {line[:30]!r}")
    want(operator.ask("ping a1~"), ["pong a1~", "done"], "a ping")
    want(operator.ask("dismiss p1\r"), ["done"], "a dismissal, with a CR")
    the_end(second, "dismissed")
    left(house, "p1", 2, "dismissed")
    want(operator.ask("dismiss p1"), ["refused HasLeft"], "who was dismissed")
    want(operator.ask("end"), ["done"], "the end")
    want(operator.line(), None, "the end of the answers")
    left(house, "p2", 0, "ended")
    want(house.end()[-1], "end 2", "the book")
    want(house.events()[-1], "served 3 calls", "the last event")
    house.audit()
    operator.close()


def without_a_book(given):
    """Where no book is kept there is none to tell of; who never came is told of as well."""
    house = of(given, 2, book=False)
    raw = Raw(house, "p1")
    want(raw.ask("info 0"), "info size 2 rank 1", "an info")
    want(asked(house, "status"), ["p0 never came", "p1 here after 1 calls", "calls 1, book none",
                                  "done"], "status")
    want(asked(house, "end"), ["done"], "the end")
    the_end(raw, "ended")
    house.end()


def ends_for_all(given):
    """The end while some wait, some have not read their replies, some are in the middle of a line, and
    some never came: each reads its answers, and then that; the book is whole."""
    house = of(given, 6)
    waits = [Raw(house, name) for name in ("p0", "p1")]
    reads, halves, idles = Raw(house, "p2"), Raw(house, "p3"), Raw(house, "p4")
    for raw in waits:
        want(raw.ask("post 0 barrier"), "posted 0", "a post")
        raw.send(b"wait 0\n")
    reads.send(b"info 0\n" * 500)
    halves.send(b"info 0\npost 0 barr")
    want(idles.ask("post 0 barrier"), "posted 0", "a post")
    status = lambda: asked(house, "status")[:6]
    until(lambda: status()[2:4] == ["p2 here after 500 calls", "p3 here after 1 calls"], "all called")
    want(asked(house, "end"), ["done"], "the end")
    for raw in waits:
        want(raw.line(), "pending", "a wait for nothing")
        the_end(raw, "ended")
    for _ in range(500):
        want(reads.line(), "info size 6 rank 2", "a reply that was not read")
    the_end(reads, "ended")
    want(halves.line(), "info size 6 rank 3", "a reply")
    the_end(halves, "ended")
    the_end(idles, "ended")
    want(house.end()[-1], "end 3", "the book")
    for name, calls in (("p0", 2), ("p1", 2), ("p2", 500), ("p3", 1), ("p4", 1), ("p5", 0)):
        left(house, name, calls, "ended")
    house.audit()


def dismissed_in_a_wait(given):
    """Who waits is told what it waits for, then that it is dismissed; who waits for it is not held up
    for ever."""
    house = of(given, 3)
    raws = [Raw(house, f"p{number}") for number in range(3)]
    for raw in raws[:2]:
        want(raw.ask("post 0 barrier"), "posted 0", "a post")
    raws[0].send(b"wait 0\n")
    time.sleep(0.5)
    want(asked(house, "dismiss p0"), ["done"], "a dismissal")
    want(asked(house, "dismiss p0"), ["done"], "it holds already")
    want(asked(house, "status")[0], "p0 here after 1 calls: dismissed", "who is to end")
    want(raws[2].ask("post 0 barrier"), "posted 0", "the post that settles")
    want(raws[0].line(), "delivered none", "the answer of the wait")
    the_end(raws[0], "dismissed")
    left(house, "p0", 2, "dismissed")
    # The other two wait for one that is dismissed.
    for raw in raws[1:]:
        want(raw.ask("post 0 barrier"), "posted 1", "another post")
        raw.send(b"wait 1\n")
    want([raw.line() for raw in raws[1:]], ["pending"] * 2, "waits for nothing")
    for raw in raws[1:]:
        want(raw.ask("leave"), "left", "a leave")
    house.end()
    house.audit()


def dismissed_before_it_came(given):
    """Who never came is dismissed: it can never come."""
    house = of(given, 2)
    replies = os.open(house.pipes / "p1.replies", os.O_RDONLY | os.O_NONBLOCK)
    want(asked(house, "dismiss p0"), ["done"], "of one of which nobody has a pipe")
    want(asked(house, "dismiss p1"), ["done"], "of one that has opened its replies")
    left(house, "p0", 0, "dismissed")
    left(house, "p1", 0, "dismissed")
    want(os.read(replies, 100), b"dismissed\n", "what its replies have")
    os.close(replies)
    want(house.end()[-1], "end 0", "the book")
    want([line for line in house.events() if line.endswith("came")], [], "who came")
    house.audit()


def all_of_it(raw, seconds=60):
    """What is left of a client's replies."""
    pieces, end = [], time.monotonic() + seconds
    while not pieces or pieces[-1]:
        if time.monotonic() > end:
            raise Late("the replies have no end")
        pieces.append(raw.read())
    return b"".join(pieces)


def stuck(house):
    """Waits until nobody is answered any more, since nobody reads."""
    before, now = None, asked(house, "status")
    while now != before:
        time.sleep(0.5)
        before, now = now, asked(house, "status")
    want(all(" here after " in line and len(line) > len("p0 here after 999 calls")
             for line in now[:2]), True, "who is stuck")


def who_never_reads(house, names, line):
    """Clients of these that have written lines until no more are taken, and read nothing."""
    raws = [Raw(house, name) for name in names]
    for raw in raws:
        os.set_blocking(raw.calls, False)
        for _ in range(10_000):
            try:
                os.write(raw.calls, line)
            except BlockingIOError:
                break
    stuck(house)
    return raws


def who_does_not_read(given):
    """A client that reads nothing is waited for, and read no further; others go on. When it reads, it
    gets all answers and its last word; one that goes is gone."""
    house = of(given, 3)
    slow, silent = who_never_reads(house, ("p0", "p1"), b"info 0\n")
    other = Raw(house, "p2")
    for name in ("p0", "p1"):
        want(asked(house, f"dismiss {name}"), ["done"], f"the dismissal of {name}")
    began = time.monotonic()
    want(other.ask("info 0"), "info size 3 rank 2", "what another is told")
    want(time.monotonic() - began < 1, True, "in time")
    told = asked(house, "status")
    want([line.endswith(" calls: dismissed") for line in told[:2]], [True, True], "who is to end")
    want(asked(house, "status"), told, "some time later")
    lines = all_of_it(slow).split(b"\n")
    want((set(lines[:-2]), lines[-2:]), ({b"info size 3 rank 0"}, [b"dismissed", b""]), "all of it")
    want(house.await_event("p0 left").endswith("calls: dismissed"), True, "the event")
    silent.close()
    want(house.await_event("p1 left").endswith("calls: dismissed"), True, "who has gone")
    want(asked(house, "end"), ["done"], "the end")
    the_end(other, "ended")
    house.end()
    house.audit()


def a_run_that_never_reads(given):
    """A run in which nobody reads ends as soon as they have gone, with a whole book."""
    house = of(given, 2)
    raws = who_never_reads(house, ("p0", "p1"), b"post 0 dup\n")
    want(asked(house, "end"), ["done"], "the end")
    want(asked(house, "end"), ["done"], "said again")
    want([line.endswith(" calls: ended") for line in asked(house, "status")[:2]], [True, True],
         "whom the end waits for")
    want(house.server.poll(), None, "the server")
    for raw in raws:
        raw.close()
    house.end()
    house.audit()


def hostile_operators(given):
    """What an operator sends, leaves half or never reads holds up no session, and the next is served."""
    house = of(given, 2)
    first, second = Raw(house, "p0"), Raw(house, "p1")

    def others_go_on(what):
        began = time.monotonic()
        want(first.ask("info 0"), "info size 2 rank 0", what)
        want(second.ask("info 0"), "info size 2 rank 1", what)
        want(time.monotonic() - began < 2, True, f"in time, {what}")

    def all_go_on(what):
        others_go_on(what)
        want(asked(house, "status")[-1], "done", f"the next operator, {what}")

    # Half a line, of one that goes.
    for half in (b"en", b"end", b"dismiss p0", b"\x00\xff", b"x" * 5000):
        operator = Operator(house)
        operator.send(half)
        time.sleep(0.05)
        operator.close()
        all_go_on(f"behind half a line, {half[:12]!r}")
    # Noise, in one piece and with LFs.
    operator = Operator(house)
    operator.send(os.urandom(30_000).replace(b"end\n", b"?"))
    operator.send(b"\n" * 3000)
    time.sleep(0.2)
    operator.close()
    all_go_on("behind noise")
    # One that never reads, and is still there.
    silent = Operator(house)
    for _ in range(1500):
        silent.send(b"status\n")
    time.sleep(1)
    others_go_on("beside one that never reads")
    silent.close()
    all_go_on("behind one that never reads")
    # Who comes and goes, without a word or with one and no ear.
    for number in range(200):
        operator = Operator(house)
        if number % 2:
            operator.send(b"status\n")
        operator.close()
    all_go_on("behind those who came and went")
    # Words alone, each by itself: none is lost.
    pipe = house.pipes / "@operator.calls"
    for name in ("nobody", "p1"):
        file = os.open(pipe, os.O_WRONLY)
        os.write(file, b"dismiss %s\n" % name.encode("ascii"))
        os.close(file)
    left(house, "p1", 9, "dismissed")
    the_end(second, "dismissed")
    # Two at a time: each line is answered once, to one of them.
    one, two = Operator(house).begin(), Operator(house)
    one.send(b"dismiss nobody\n")
    want(one.line(), "refused NoSuchProcess", "one of two")
    two.send(b"dismiss p1\n")
    want(two.line(), "refused HasLeft", "the other of two")
    one.close()
    want(two.ask("end"), ["done"], "the end by the other")
    the_end(first, "ended")
    house.end()
    house.audit()


def pairs_that_are_wrong(given):
    """Where the pair is there and not right, nothing begins; where it is not there, all is as ever."""
    def refused(change, line):
        house = with_pair(House(given.program, neutral(1)))
        change(house.pipes / "@operator.calls", house.pipes / "@operator.replies")
        done = subprocess.run(house.words, capture_output=True, text=True, timeout=60, check=False)
        want((done.returncode, done.stdout, done.stderr), (3, "", line), "how it ends")
        want(house.book.exists(), False, "a book")
        want((house.pipes / "unused").exists(), True, "the mark of the pipes")

    def linked(calls, replies):
        calls.rename(calls.with_name("elsewhere"))
        calls.symlink_to(calls.with_name("elsewhere"))

    none, wide = "no pipe: @operator\n", "open to others: @operator\n"
    refused(lambda calls, replies: calls.unlink(), none)
    refused(lambda calls, replies: replies.unlink(), none)
    refused(lambda calls, replies: (calls.unlink(), calls.write_text("end\n")), none)
    refused(lambda calls, replies: (replies.unlink(), replies.mkdir()), none)
    refused(linked, none)
    for mode in (0o620, 0o640, 0o602, 0o604):
        refused(lambda calls, replies: calls.chmod(mode), wide)
        refused(lambda calls, replies: replies.chmod(mode), wide)
    house = House(given.program, neutral(1)).start()
    want(list(house.pipes.glob("@*")), [], "a pair of the operator")
    raw = Raw(house, "p0")
    want(raw.ask("leave"), "left", "a leave")
    house.end()


def members_cannot_operate(given):
    """make_pipes gives the operator's pair to nobody; who may speak as a process may not open it."""
    house = House(given.program, neutral(1))
    words = [EXAMPLES / "make_pipes", house.policy, house.pipes]
    environment = dict(os.environ, CONSORTIUM=given.program)
    group = [] if os.geteuid() else [f"p0={NOBODY}"]
    done = subprocess.run(words + group, env=environment, capture_output=True, text=True, timeout=60,
                          check=False)
    want((done.returncode, done.stderr), (0, ""), "the pipes")
    for end in ("calls", "replies"):
        found = os.stat(house.pipes / f"@operator.{end}")
        want((stat.S_ISFIFO(found.st_mode), found.st_mode & 0o777, found.st_uid),
             (True, 0o600, os.geteuid()), "the operator's pipe")
    done = subprocess.run(words + ["@operator=0"], env=environment, capture_output=True, text=True,
                          timeout=60, check=False)
    want((done.returncode, done.stderr), (1, "no process: @operator\n"), "a group for the operator")
    if os.geteuid() == 0:
        def opens():
            os.setgroups([])
            os.setgid(NOBODY)
            os.setuid(NOBODY)
            told = []
            for name in ("p0.replies", "@operator.replies"):
                try:
                    os.close(os.open(house.pipes / name, os.O_RDONLY | os.O_NONBLOCK))
                    told.append(True)
                except PermissionError:
                    told.append(False)
            return told
        for folder in (house.folder, house.pipes):
            folder.chmod(0o711)
        want(Client(opens).result(), [True, False], "what a member may open")


def chains_that_are_ended(given):
    """A run of a chain that the operator ends is whole: its line, its book and its audit."""
    years = Years(given)
    for run in (1, 2):
        house = with_pair(years.house()).start()
        years.begun(house)
        raw = Raw(house, "a0")
        want(raw.ask("post 0 barrier"), "posted 0", "a post")
        want(asked(house, "dismiss b0"), ["done"], "a dismissal")
        want(asked(house, "end"), ["done"], "the end")
        the_end(raw, "ended")
        want(house.end()[-1], "end 1", "the book")
        years.ended(house)
        years.sound(run, run)


def by_the_script(given):
    """examples/serve/operate: what it prints, its status, and that behind `end` all is done."""
    house = House(given.program, neutral(2))

    def operate(status, out, *lines, err=""):
        done = subprocess.run([EXAMPLES / "operate", house.pipes, *lines], capture_output=True,
                              text=True, timeout=60, check=False)
        want((done.returncode, done.stdout, done.stderr), (status, out, err), f"operate {lines}")

    operate(3, "", "status", err=f"no pipe: {house.pipes}/@operator.calls\n")
    with_pair(house)
    operate(3, "", "status", err=f"nobody serves: {house.pipes}\n")
    house.start()
    raw = Raw(house, "p1")
    want(raw.ask("post 0 barrier"), "posted 0", "a post")
    all_lines = f"p0 never came\np1 here after 1 calls\ncalls 1, {book_of(house)}\ndone\n"
    for _ in range(20):
        operate(0, all_lines, "status")
    operate(1, "refused NoSuchProcess\n", "dismiss nobody", "end")
    operate(1, "bad BadVerb\n", "stop")
    operate(5, "", "status\nend", err="more than a line: status\nend\n")
    # What one has left unread is nobody's answer, and what it has left half written no line.
    file = os.open(house.pipes / "@operator.calls", os.O_RDWR)
    os.write(file, b"dismiss nobody\n" * 3000 + b"end")
    operate(0, all_lines, "status")
    os.close(file)
    several = [Client(lambda: subprocess.run([EXAMPLES / "operate", house.pipes, "status"],
                                             capture_output=True, text=True, timeout=60,
                                             check=False).stdout) for _ in range(8)]
    want({one.result() for one in several}, {all_lines}, "several at a time")
    operate(0, "done\n" + all_lines.replace("p0 never came", "p0 left after 0 calls: dismissed")
            + "done\n", "dismiss p0", "status", "end")
    want(house.book_lines()[-1], "end 1", "the book behind the script")
    the_end(raw, "ended")
    house.end()
    house.audit()
    operate(3, "", "end", err=f"nobody serves: {house.pipes}\n")


def as_python_sees_it(given):
    """The client raises what tells why its session is over."""
    house = of(given, 3)
    first, second, third = (house.connect(f"p{number}") for number in range(3))

    def gone(call):
        try:
            return call()
        except consortium.Gone as gone:
            return gone.cause

    request = second.world.Ibarrier()
    want(asked(house, "dismiss p0"), ["done"], "a dismissal")
    left(house, "p0", 1, "dismissed")
    want(gone(first.world.Ibarrier), "dismissed", "what who is dismissed is told")
    want(gone(first.world.Ibarrier), "unread", "what it is told from then on")
    want(asked(house, "end"), ["done"], "the end")
    left(house, "p1", 2, "ended")
    want(gone(request.wait), "over", "what a wait is told")
    house.server.wait(timeout=60)
    want(gone(third.world.Ibarrier), "over", "what the others are told")
    house.end()


def ends_as_another_user(given):
    """A server of another user, with few files: sessions that never came are ended all the same."""
    house = with_pair(House(given.program, neutral(40)))
    of_nobody(house)
    import resource
    server = started(house, as_nobody((resource.RLIMIT_NOFILE, 100)))
    want(server.stdout.readline(), b"serving 40 processes\n", "the first event")
    until(lambda: house.book.read_bytes().endswith(b"\n"), "the book begins")
    want(asked(house, "status")[-3:], ["p39 never came", f"calls 0, {book_of(house)}", "done"],
         "status")
    want(asked(house, "end"), ["done"], "the end")
    out, err = server.communicate(timeout=60)
    want((server.returncode, err), (0, b""), "how it ends")
    want(out.splitlines()[-1], b"served 0 calls", "the last event")
    want(pathlib.Path(house.book).read_text().splitlines()[-1], "end 0", "the book")


def threads_that_are_refused(given):
    """Where the thread of the events, of the operator or of a session is refused, the server ends."""
    if os.geteuid():
        return
    import resource
    for number in (1, 2, 3):
        house = with_pair(House(given.program, neutral(2)))
        of_nobody(house)
        server = started(house, as_nobody((resource.RLIMIT_NPROC, number)))
        out, err = server.communicate(timeout=60)
        want((server.returncode, out, err), (4, b"serving 2 processes\n", b"no thread\n"),
             f"with {number} threads at most")


TESTS = [each_line, without_a_book, ends_for_all, dismissed_in_a_wait, dismissed_before_it_came,
         who_does_not_read, a_run_that_never_reads, hostile_operators, pairs_that_are_wrong,
         members_cannot_operate, chains_that_are_ended, by_the_script, as_python_sees_it,
         ends_as_another_user, threads_that_are_refused]
