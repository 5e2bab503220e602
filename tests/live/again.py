"""Programs that come back, beside back.py: as other users of the system, to servers that are killed,
while others wait, and while an operator looks on; and what they are told of their own requests."""
import fcntl
import os
import random
import select
import shutil
import signal
import subprocess
import time

import live
from back import goes_round, gone, resumed, steady
from books import bounded
from chains import Years
from live import Client, House, Late, Raw, Wrong, all_results, consortium, die_with_parent
from live import neutral, started, until, want
from operators import asked, left, of, the_end

# Reached through the path of `live`.
from consortium.pipes import Pipes

# Users that own nothing: of the server, and of two firms, each with a group of its own.
SERVER, FIRMS = 65_431, (65_432, 65_433)
# (which Python names from 3.10 on)
SET_PIPE_SIZE = 1031


def becomes(user, groups=()):
    """What a process does to be of this user, where it is the administrator's."""
    if os.geteuid() == 0:
        os.setgroups(list(groups))
        os.setgid(user)
        os.setuid(user)


def server_of_firms():
    die_with_parent()
    becomes(SERVER, FIRMS)


def as_user(user, work, *args):
    becomes(user)
    return work(*args)


def opens(path, how):
    """Whether a pipe can be opened so, without waiting; None where nobody may."""
    try:
        os.close(os.open(path, how | os.O_NONBLOCK))
        return True
    except PermissionError:
        return None
    except OSError:
        return False


def cannot_come(folder, name):
    """A user to whom the pair of a process does not belong may open neither pipe."""
    pair = os.path.join(folder, name)
    want((opens(pair + ".calls", os.O_WRONLY), opens(pair + ".replies", os.O_RDONLY)), (None, None),
         f"the pair of {name}, for another user")


def users_come_back_to_their_own(given):
    """A server, and two firms that are users of their own: a program that is killed is followed by
    another of its user; another firm's user cannot come in its place."""
    if os.geteuid():
        return
    house = House(given.program, neutral(2))
    for path in house.pipes.iterdir():
        path.unlink()
    os.chmod(house.folder, 0o711)
    for path in (house.folder, house.policy, house.pipes):
        os.chown(path, SERVER, SERVER)
    groups = [f"p{number}={group}" for number, group in enumerate(FIRMS)]
    words = [live.EXAMPLES / "make_pipes", house.policy, house.pipes, *groups]
    made = subprocess.run(words, env=dict(os.environ, CONSORTIUM=given.program), text=True,
                          capture_output=True, timeout=60, check=False, preexec_fn=server_of_firms)
    want((made.returncode, made.stderr), (0, ""), "make_pipes")
    with open(house.out, "wb") as out, open(house.err, "wb") as err:
        started(house, server_of_firms, stdout=out, stderr=err)
    house.await_event("serving")
    rounds, dice = 300, random.Random(given.seed)
    folder, done = str(house.pipes), str(house.folder / "done")
    other = Client(as_user, FIRMS[1], steady, folder, "p1", rounds, done)
    for turn in range(10):
        client = Client(as_user, FIRMS[0], goes_round, folder, "p0", rounds, False)
        time.sleep(dice.uniform(0.0, 0.2))
        client.kill()
        if turn % 3 == 0:
            Client(as_user, FIRMS[1], cannot_come, folder, "p0").result()
            Client(as_user, FIRMS[0], cannot_come, folder, "p1").result()
    last = Client(as_user, FIRMS[0], goes_round, folder, "p0", rounds, True)
    want(last.result(), rounds, "the posts of who was killed")
    open(done, "x", encoding="ascii").close()
    want(other.result(), [[2 * number] for number in range(rounds)], "the other's sums")
    house.end()
    house.audit()


def waits_outlast_a_death(given):
    """While another one is here, whoever waits sleeps on when a program is gone, and is answered when
    one is back and posts; where all others wait they are told, and sleep when they wait again."""
    house = House(given.program, neutral(4)).start()
    first, *others = [Raw(house, name) for name in house.names]
    for raw in others:
        want(raw.ask("post 0 barrier"), "posted 0", "a post")
    # (The last one does not wait: it could still do something.)
    for raw in others[:2]:
        raw.send(b"wait 0\n")
    time.sleep(0.1)
    first.close()
    house.await_event("p0 gone")
    time.sleep(0.2)
    first = Raw(house, "p0")
    want(first.ask("open"), "open", "nothing is open")
    want(first.ask("post 0 barrier"), "posted 0", "the missing post")
    want([raw.line() for raw in others[:2]], ["delivered none"] * 2, "waits over a death")
    want(others[2].ask("wait 0"), "delivered none", "the wait of who was here")
    # Now all others wait.
    for raw in others:
        raw.send(b"post 0 barrier\nwait 1\n")
        want(raw.line(), "posted 1", "another post")
    time.sleep(0.1)
    first.close()
    want([raw.line() for raw in others], ["pending"] * 3, "all that are left wait")
    gone(house, "p0", 2)
    first = Raw(house, "p0")
    # (One that is back, and asks for something, is here.)
    want(first.ask("next"), "next 1", "the next number")
    for raw in others:
        raw.send(b"wait 1\n")
    time.sleep(0.1)
    want(first.ask("take 0"), "delivered none", "what was open")
    want(first.ask("post 0 barrier"), "posted 1", "the missing post")
    want([raw.line() for raw in others], ["delivered none"] * 3, "the waits that slept again")
    for raw in (first, *others):
        want(raw.ask("leave"), "left", "the leave")
    house.end()
    house.audit()


def dies_in_a_wait(given):
    """A wait goes on without its program: who comes back meanwhile is answered when it ends, and what
    it came to is not told again."""
    house = House(given.program, neutral(2)).start()
    first, other = Raw(house, "p0"), Raw(house, "p1")
    for number, ends in enumerate((True, False)):
        want(first.ask("post 0 barrier"), f"posted {number}", "a post")
        first.send(b"wait %d\n" % number)
        time.sleep(0.1)
        first.close()
        first = Raw(house, "p0")
        first.send(b"?\nping 5\n")
        time.sleep(0.3)
        try:
            raise Wrong(f"in the wait it was told {os.read(first.replies, 100)}")
        except BlockingIOError:
            pass
        if ends:
            want(other.ask("post 0 barrier"), "posted 0", "the missing post")
        else:
            want(other.ask("post 0 allreduce sum int32 1 as public 1"), "refused Mismatch", "a post")
            # All that are here wait.
            other.send(b"wait 7\nwait 0\n")
            want([other.line() for _ in range(2)], ["refused NoSuchRequest", "delivered none"],
                 "waits that don't sleep")
            want(other.ask("leave"), "left", "a leave")
        told = "delivered none" if ends else "pending"
        want([first.line() for _ in range(3)], [told, "bad BadVerb", "ping 5"], "behind the wait")
        want(first.ask("open"), "open" if ends else f"open {number}", "what is open")
    want(first.ask("leave"), "left", "the leave")
    house.end()
    # Nobody was seen to go.
    want([line for line in house.events() if line.startswith("p0")],
         ["p0 came", "p0 left after 4 calls: left"], "its events")
    house.audit()


def who_comes_back_in_a_wait(given):
    """With a bound the client in Python does not wait for the end of an earlier program's wait."""
    house = House(given.program, neutral(2)).start()
    first, other = Raw(house, "p0"), Raw(house, "p1")
    want(first.ask("post 0 barrier"), "posted 0", "a post")
    first.send(b"wait 0\n")
    time.sleep(0.1)
    first.close()
    try:
        consortium.Process(str(house.pipes), "p0", timeout=0.3, resume=True)
        raise Wrong("who comes back in a wait is answered")
    except consortium.Gone as fault:
        want(fault.cause, "absent", "why")
    want(other.ask("post 0 barrier"), "posted 0", "the missing post")
    process = resumed(house, "p0")
    want((process.resumed, process.posts), ([], 1), "what it finds")
    process.leave()
    want(other.ask("leave"), "left", "the other's leave")
    house.end()
    house.audit()


def half_a_reply_is_dropped(given):
    """Who opens the pair before another program dies reads on in the middle of its reply, behind half a
    line that it wrote: neither is taken for this one's."""
    house = House(given.program, neutral(2)).start()
    other, raw = Raw(house, "p1"), Raw(house, "p0")
    want(other.ask("post 0 split undefined 0"), "posted 0", "the other's split")
    want(raw.ask("post 0 split 0 0"), "posted 0", "its split")
    want(raw.ask("take 0"), "comm 1 rank 0 size 1", "its communicator")
    numbers = " ".join(["7"] * 30_000)
    want(raw.ask(f"post 1 allgatherv int64 as public {numbers}"), "posted 1", "a post")
    raw.send(b"take 1\ntake 0")
    want(os.read(raw.replies, 1000)[:13], b"delivered [7 ", "a part of the reply")
    process = resumed(house, "p0")
    raw.close()
    want((process.resumed, process.posts, process.world.rank), ([], 2, 0), "what it finds")
    process.leave()
    want(other.ask("leave"), "left", "the other's leave")
    house.end()
    want([line for line in house.events() if line.startswith("p0")],
         ["p0 came", "p0 left after 5 calls: left"], "its events")
    house.audit()


def new_pair(folder):
    """New pipes of p0 in the place of those that there are, open both ways: calls, and replies."""
    pair = []
    for end in ("calls", "replies"):
        os.mkfifo(folder / "new", 0o600)
        pair.append(os.open(folder / "new", os.O_RDWR))
        (folder / "new").rename(folder / f"p0.{end}")
    return pair


def close_pair(pair):
    for file in pair:
        os.close(file)


def first_lines(calls):
    """What a client has asked for first."""
    want(select.select([calls], [], [], 10)[0], [calls], "what a client asks")
    return os.read(calls, 100)


def why_not(folder):
    """Why the client in Python does not go on."""
    try:
        consortium.Process(folder, "p0", timeout=3, resume=True)
    except consortium.Gone as fault:
        return fault.cause
    return None


def last_words_to_who_comes_back(_):
    """Where the session has ended, the client in Python says why, behind what an earlier program did
    not read, and does not ask again. Each one draws a number of its own."""
    lines = set()
    for line, cause in (("left", "left"), ("exhausted", "exhausted"), ("unbooked", "unbooked"),
                        ("dismissed", "dismissed"), ("ended", "over")):
        folder = live.a_folder()
        pair = new_pair(folder)
        client = Client(why_not, str(folder))
        lines.add(first_lines(pair[0]))
        os.write(pair[1], f"7]\nping 1\n{line}\n".encode("ascii"))
        close_pair(pair)
        want(client.result(), cause, "why")
    want((len(lines), {line[:7] for line in lines}), (5, {b"?\nping "}), "what it asks")


def finds(folder, inherited):
    close_pair(inherited)
    process = consortium.Process(folder, "p0", timeout=10, resume=True)
    return [request.number for request in process.resumed], process.posts, process.world.size


def who_opens_a_pair_that_is_closed(_):
    """Who opens a pair that is just being closed opens it again, and does not wait for an answer where
    nobody reads its lines."""
    folder = live.a_folder()
    pair = new_pair(folder)
    client = Client(finds, str(folder), pair)
    for _ in range(3):
        first_lines(pair[0])
        before, pair = pair, new_pair(folder)
        os.write(before[1], b"posted 3\n")
        close_pair(before)
    ping = first_lines(pair[0]).split(b"\n")[1]
    os.write(pair[1], b"bad BadVerb\n%s\nopen 3 5\nnext 7\ninfo size 2 rank 0\n" % ping)
    want(client.result(), ([3, 5], 7, 2), "what it finds at last")
    # (The replies are still open on the other side.)
    pipes = Pipes(str(folder / "p0"), 10)
    os.close(pair[0])
    client = Client(has_no_reader, pipes)
    until(client.has_ended, "that nobody reads is seen", 10)
    want(client.result(), "unread", "why")
    pipes.close()
    os.close(pair[1])


def has_no_reader(pipes):
    try:
        pipes.begin_anew(7)
    except consortium.Gone as fault:
        return fault.cause
    return None


def who_closes_its_calls_alone(given):
    """Who closes its calls, and reads on, is answered to the end, and sees that, unless it did not run
    while the pair was closed; so the bridge ends where its input does. Another program goes on."""
    house = House(given.program, neutral(2)).start()
    other = Raw(house, "p1")
    ends = {by_itself: 0, over_the_bridge: 0}
    for turn in range(5):
        for number, way in enumerate(ends):
            told = way(house)
            want(told in (b"info size 2 rank 0\n", None), True, f"all that it was told: {told}")
            ends[way] += told is not None
            gone(house, "p0", 2 * turn + number + 1)
    want([times >= 3 for times in ends.values()], [True, True], f"ends that were seen: {ends}")
    want(other.ask("leave"), "left", "the other's leave")
    house.end()
    house.audit()


def by_itself(house):
    """What a program was told that asks once, and reads to the end; none where that does not come."""
    client = Client(reads_to_the_end, house)
    try:
        until(client.has_ended, "the end", 5)
    except Late:
        # (It would take what another is told.)
        client.kill()
        return None
    return client.result()


def reads_to_the_end(house):
    raw = Raw(house, "p0")
    raw.send(b"info 0\n")
    os.close(raw.calls)
    told = b""
    while True:
        more = raw.read()
        if not more:
            return told
        told += more


def over_the_bridge(house, environment=None):
    """The same over the bridge."""
    bridge = subprocess.Popen([live.EXAMPLES / "bridge", house.pipes, "p0"], stdin=subprocess.PIPE,
                              stdout=subprocess.PIPE, env=environment, start_new_session=True,
                              preexec_fn=die_with_parent)
    live.GROUPS.append(bridge)
    try:
        told = bridge.communicate(b"info 0\n", timeout=5)[0]
    except subprocess.TimeoutExpired:
        os.killpg(bridge.pid, signal.SIGKILL)
        bridge.communicate()
        return None
    want(bridge.returncode, 0, "how the bridge ends")
    return told


def the_bridge_reads_first(given):
    """The bridge has opened the replies before anything is called, as slow as it may be: also where the
    server has them open already, for one that came and did not open the calls."""
    house = House(given.program, neutral(2)).start()
    other, raw = Raw(house, "p1"), Raw(house, "p0")
    raw.close()
    gone(house, "p0", 1)
    replies = os.open(house.pipes / "p0.replies", os.O_RDONLY | os.O_NONBLOCK)
    time.sleep(0.2)
    os.close(replies)
    # (What has a file to open is slow.)
    slow = house.folder / "cat"
    slow.write_text(f'#!/bin/sh\n[ $# -eq 0 ] || sleep 0.5\nexec {shutil.which("cat")} "$@"\n')
    slow.chmod(0o755)
    environment = dict(os.environ, PATH=f"{house.folder}:{os.environ['PATH']}")
    told = over_the_bridge(house, environment)
    want(told in (b"info size 2 rank 0\n", None), True, f"what is told over it: {told}")
    want(gone(house, "p0", 2), 1, "the calls over the bridge")
    want(house.events()[-1], "p0 gone after 1 calls: end of stream", "why it is gone")
    want(other.ask("leave"), "left", "the other's leave")
    house.end()
    house.audit()


class Own:
    """What `open` and `next` are to tell, from the calls that were made: a model of one process. The
    world (0) has another member, which posts while the process is gone; a second communicator is of
    the process alone, and each of its instances settles at once."""

    def __init__(self):
        # (and how many posts the other member has made)
        self.next, self.posts, self.settled = 0, {0: 0, 1: 0}, 0
        self.open = {}

    def reply(self, line):
        """The reply to a call, which is made."""
        verb, _, rest = line.partition(" ")
        if verb == "info":
            return "info size 2 rank 0"
        if verb == "post":
            comm = int(rest.split(" ")[0])
            if len(self.open) == 256:
                return "refused TooManyRequests"
            number, self.next = self.next, self.next + 1
            self.open[number] = (comm, self.posts[comm])
            self.posts[comm] += 1
            return f"posted {number}"
        request = int(rest)
        if request not in self.open:
            return "refused NoSuchRequest"
        comm, instance = self.open[request]
        if comm == 0 and instance >= self.settled:
            return "pending"
        del self.open[request]
        return "delivered none"

    def told(self):
        return "".join(f" {number}" for number in sorted(self.open)), self.next


CALLS = ("post", "take", "wait", "info")


def a_line(dice, own):
    """A line that a process may write: a call, or one that is none."""
    kind = dice.random()
    if kind < 0.35:
        return f"post {dice.randrange(2)} barrier"
    if kind < 0.75:
        known = sorted(own.open) or [0]
        some = dice.choice([dice.choice(known), dice.randrange(own.next + 3)])
        # (A wait for what has not settled would sleep until the other has gone.)
        return f"{dice.choice(('take', 'take', 'wait'))} {some}"
    return dice.choice(["info 0", "open", "next", "head", "ping 7", "hello", "", "next 1"])


def a_sitting(dice, own, raw, length):
    """Writes lines, reads some of the answers, and is gone. What was written, and what was read."""
    ahead, lines = Own(), []
    ahead.__dict__.update(next=own.next, posts=dict(own.posts), settled=own.settled,
                          open=dict(own.open))
    for _ in range(length):
        line = a_line(dice, ahead)
        if line.startswith("wait") and ahead.reply("take" + line[4:]) == "pending":
            line = "take" + line[4:]
        elif line.startswith("wait"):
            pass
        elif line.split(" ")[0] in CALLS:
            ahead.reply(line)
        lines.append(line)
    data = "".join(line + "\n" for line in lines).encode("ascii")
    data = data[: dice.randrange(len(data) + 1)]
    raw.send(data)
    whole = data.count(b"\n")
    got = [raw.line() for _ in range(dice.choice([0, dice.randrange(whole + 1), whole]))]
    time.sleep(dice.choice([0, 0, 0.002]))
    raw.close()
    return lines[:whole], got


def makes(own, made, lines, got):
    """Has the model make so many calls of these lines, and looks at the answers that were read."""
    for number, line in enumerate(lines):
        is_call = line.split(" ")[0] in CALLS
        if is_call and made == 0:
            want(number >= len(got), True, "answers to lines that were not acted on")
            break
        made -= is_call
        told, following = own.told()
        due = own.reply(line) if is_call else {"open": "open" + told, "next": f"next {following}",
                                               "ping 7": "ping 7"}.get(line)
        if number < len(got) and due is not None:
            want(got[number], due, f"the answer to {line!r}")
    want(made, 0, "calls that nobody asked for")


def own_requests(given):
    """Programs that die at any byte, and read as many answers as they like: `open` and `next` tell the
    next one what a model has, of the calls that were made."""
    for seed in range(3):
        dice = random.Random(f"{given.seed} {seed}")
        house = House(given.program, neutral(2)).start()
        other, first = Raw(house, "p1"), Raw(house, "p0")
        own, calls = Own(), 2
        # A communicator of its own, number 1.
        want(other.ask("post 0 split undefined 0"), "posted 0", "the other's split")
        want(first.ask("post 0 split 0 0"), "posted 0", "its split")
        want(first.ask("take 0"), "comm 1 rank 0 size 1", "its communicator")
        own.next, own.posts[0], own.settled = 1, 1, 1
        theirs = 1
        raw = first
        for sitting in range(40):
            lines, got = a_sitting(dice, own, raw, dice.randrange(1, 60))
            before, calls = calls, gone(house, "p0", sitting + 1)
            makes(own, calls - before, lines, got)
            # The other one posts for some that are there, and sometimes ahead.
            for _ in range(dice.randrange(4)):
                if theirs < own.posts[0] + 2 and len(own.open) < 200:
                    want(other.ask("post 0 barrier"), f"posted {theirs}", "the other's post")
                    want(other.ask(f"take {theirs}") in ("pending", "delivered none"), True, "a take")
                    theirs += 1
            own.settled = theirs
            raw = Raw(house, "p0")
            raw.send(b"?\nping 4711\n")
            while raw.line() != "ping 4711":
                pass
            told, following = own.told()
            want(raw.ask("open"), "open" + told, f"seed {seed}: what is open")
            want(raw.ask("next"), f"next {following}", f"seed {seed}: the next number")
        raw.close()
        process = resumed(house, "p0")
        want((" " + " ".join(str(one.number) for one in process.resumed)).rstrip(), own.told()[0],
             "what the client has")
        want(process.posts, own.next, "the client's next number")
        process.leave()
        want(other.ask("leave"), "left", "the other's leave")
        house.end()
        house.audit()
        live.clear()


def as_many_as_may_be_open(given):
    """256 requests are open, and no post more is taken, by whichever program."""
    house = House(given.program, neutral(2)).start()
    raw, other = Raw(house, "p0"), Raw(house, "p1")
    for number in range(256):
        want(raw.ask("post 0 barrier"), f"posted {number}", "a post")
    raw.close()
    gone(house, "p0", 1)
    raw = Raw(house, "p0")
    want(raw.ask("open"), "open" + "".join(f" {number}" for number in range(256)), "all of them")
    want(raw.ask("post 0 barrier"), "refused TooManyRequests", "one more")
    want(raw.ask("next"), "next 256", "the next number, behind a refusal")
    want(other.ask("post 0 barrier"), "posted 0", "the other's")
    want(raw.ask("take 0"), "delivered none", "the first")
    want(raw.ask("post 0 barrier"), "posted 256", "one more then")
    raw.close()
    gone(house, "p0", 2)
    raw = Raw(house, "p0")
    want(raw.ask("open"), "open" + "".join(f" {number}" for number in range(1, 257)), "the others")
    want(raw.ask("leave"), "left", "the leave")
    want(other.ask("leave"), "left", "the other's")
    house.end()
    house.audit()


def lines_that_ask_wrongly(given):
    """What is no `open`, `next` or `ping` is answered by its name, and nothing is done."""
    house = House(given.program, neutral(1)).start()
    raw = Raw(house, "p0")
    for line, answer in [
        ("open 1", "bad BadShape"), ("open ", "bad BadShape"), ("opens", "bad BadVerb"),
        ("next x", "bad BadShape"), ("next ", "bad BadShape"), ("Next", "bad BadVerb"),
        ("ping", "bad BadShape"), ("ping ", "bad BadShape"), ("ping  1", "bad BadShape"),
        ("ping 18446744073709551616", "bad BadField"), ("ping x", "bad BadField"),
        ("ping -1", "bad BadField"), ("ping 01", "bad BadField"), ("ping 1 2", "bad BadShape"),
        ("ping 1\t", "bad BadShape"), (" ping 1", "bad BadShape"), ("PING 1", "bad BadVerb"),
        ("pong 1", "bad BadVerb"), ("?", "bad BadVerb"), ("post 0 barr?", "bad BadKind"),
        ("wait 1?", "bad BadField"),
    ]:
        want(raw.ask(line), answer, f"the answer to {line!r}")
    for line, answer in [("ping 18446744073709551615\r", "ping 18446744073709551615"),
                         ("ping 0", "ping 0"), ("open\r", "open"), ("next\r", "next 0")]:
        want(raw.ask(line), answer, f"the answer to {line!r}")
    # They are no calls: not counted, and behind --calls answered as ever.
    want(raw.ask("leave"), "left", "the leave")
    house.end()
    want(house.events()[-2:], ["p0 left after 0 calls: left", "served 0 calls"], "the events")


def an_operator_looks_on(given):
    """Who is gone is told of as that; who is dismissed meanwhile does not come back, and the end of a
    run reaches who is gone, who is here, and who never came."""
    house = of(given, 4)
    goes, waits = Raw(house, "p0"), Raw(house, "p1")
    for raw in (goes, waits):
        want(raw.ask("post 0 barrier"), "posted 0", "a post")
    goes.close()
    house.await_event("p0 gone")
    want(asked(house, "status")[:4], ["p0 gone after 1 calls: end of stream", "p1 here after 1 calls",
                                      "p2 never came", "p3 never came"], "who is gone")
    goes = Raw(house, "p0")
    want(goes.ask("info 0"), "info size 4 rank 0", "who is back")
    want(asked(house, "status")[0], "p0 here after 2 calls", "who is back")
    goes.close()
    until(lambda: asked(house, "status")[0] == "p0 gone after 2 calls: end of stream", "gone again")
    want(asked(house, "dismiss p0"), ["done"], "the dismissal of who is gone")
    left(house, "p0", 2, "dismissed")
    want(asked(house, "dismiss p0"), ["refused HasLeft"], "said again")
    want(asked(house, "status")[0], "p0 left after 2 calls: dismissed", "who was dismissed")
    for is_new in (True, False):
        try:
            consortium.Process(str(house.pipes), "p0", timeout=0.3, resume=is_new)
            raise Wrong("who was dismissed is served")
        except consortium.Gone as fault:
            want(fault.cause, "absent", "why")
    # One that waits to be served again, with its replies open, reads why it is not.
    stands = Raw(house, "p2")
    want(stands.ask("info 0"), "info size 4 rank 2", "an info")
    stands.close()
    house.await_event("p2 gone")
    replies = os.open(house.pipes / "p2.replies", os.O_RDONLY | os.O_NONBLOCK)
    want(asked(house, "dismiss p2"), ["done"], "a dismissal")
    left(house, "p2", 1, "dismissed")
    want(os.read(replies, 100), b"dismissed\n", "what its replies have")
    os.close(replies)
    # The end: one has gone, one waits, and one never came.
    waits.close()
    house.await_event("p1 gone")
    want(asked(house, "end"), ["done"], "the end")
    left(house, "p1", 1, "ended")
    left(house, "p3", 0, "ended")
    want(house.end()[-1], "end 2", "the book")
    want(house.events()[-1], "served 4 calls", "the last event")
    # (Who is let in only to end has not come.)
    want([line for line in house.events() if line[:3] in ("p2 ", "p3 ")],
         ["p2 came", "p2 gone after 1 calls: end of stream", "p2 left after 1 calls: dismissed",
          "p3 left after 0 calls: ended"], "the events of two of them")
    house.audit()


def ends_among_many(given):
    """The end of a run reaches programs that come and go all the time. (One stays: it is not over.)"""
    for turn in range(5):
        house = of(given, 5)
        stays, names = Raw(house, "p4"), house.names[:4]
        clients = [Client(comes_and_goes, str(house.pipes), name) for name in names]
        for name in names:
            house.await_event(f"{name} gone")
        time.sleep(0.01 * turn)
        want(asked(house, "end"), ["done"], "the end")
        the_end(stays, "ended")
        house.end()
        want(all_results(clients), [True] * 4, "how each is told")
        lefts = [line for line in house.events() if " left " in line]
        want([line.split(": ")[1] for line in lefts], ["ended"] * 5, "why each has left")
        house.audit()
        live.clear()


def comes_and_goes(folder, name):
    """Comes, posts and is gone, until the run has ended: whether it is told so, or finds nobody."""
    while True:
        try:
            process = consortium.Process(folder, name, label="public", timeout=1, resume=True)
            for request in process.resumed:
                request.test()
            process.world.Ibarrier()
            process.close()
        except consortium.Gone as fault:
            return fault.cause in ("over", "absent", "ended", "unread")


def many_that_come_and_go(given):
    """Where nobody reads the events the server serves on, whoever comes and goes; that some of them
    were lost it tells at the end."""
    house = House(given.program, neutral(21))
    read, write = os.pipe()
    # (a page: some eighty events of both sorts)
    fcntl.fcntl(write, SET_PIPE_SIZE, 4096)
    server = started(house, stdout=write)
    os.close(write)
    raw, calls = Raw(house, "p20"), 0
    for _ in range(35):
        for name in house.names[:20]:
            # (each asks for its world)
            consortium.Process(str(house.pipes), name, timeout=60, resume=True).close()
            calls += 1
    want(raw.ask("info 0"), "info size 21 rank 20", "another one's call")
    want(raw.ask("leave"), "left", "its leave")
    told = b""
    while True:
        more = os.read(read, 1 << 16)
        if not more:
            break
        told += more
    os.close(read)
    server.wait(timeout=60)
    want((server.returncode, server.stderr.read()), (3, b"write fault\n"), "how the server ends")
    lines = told.decode("ascii").splitlines()
    want(sorted(line.split(" ")[0] for line in lines if " left after " in line),
         sorted(house.names), "who has left")
    want(lines[-1], f"served {calls + 1} calls", "the last event")
    house.audit()


def pipes_that_changed_meanwhile(given):
    """Pipes that are not as they must be when they are opened again: the process has left, and the
    others go on."""
    for wrong in ("open to others", "no pipe, or another one than at the start"):
        house = House(given.program, neutral(2)).start()
        other, raw = Raw(house, "p0"), Raw(house, "p1")
        want(raw.ask("post 0 barrier"), "posted 0", "a post")
        raw.close()
        gone(house, "p1", 1)
        replies = house.pipes / "p1.replies"
        if wrong == "open to others":
            os.chmod(replies, 0o606)
        else:
            elsewhere, link = house.folder / "elsewhere", house.folder / "link"
            os.link(replies, elsewhere)
            link.symlink_to(elsewhere)
            link.replace(replies)
        try:
            consortium.Process(str(house.pipes), "p1", timeout=0.5, resume=True)
            raise Wrong("who comes back is served")
        except consortium.Gone:
            pass
        want(house.await_event("p1 left"), f"p1 left after 1 calls: {wrong}", "the event")
        want(other.ask("post 0 barrier"), "posted 0", "another one's post")
        want(other.ask("wait 0"), "delivered none", "its wait")
        want(other.ask("leave"), "left", "its leave")
        until(lambda: house.server.poll() is not None, "the server ends")
        want((house.server.returncode, house.complaint()), (3, "not opened: p1\n"), "how it ends")
        house.audit()
        live.clear()


def pipes_that_were_elsewhere(given):
    """As long as a pipe of one that is gone is not where it was, nobody can let it in: neither the
    operator, nor the end of the run, which tries again until it can."""
    house = of(given, 3)
    raws = [Raw(house, name) for name in house.names]
    for number in (1, 2):
        raws[number].close()
        gone(house, f"p{number}", 1)
    there = [(house.pipes / f"p{number}.replies", house.folder / f"{number}") for number in (1, 2)]
    # (behind the closing of the pair: from then on it is waited at the pipe itself)
    time.sleep(0.2)
    for pipe, elsewhere in there:
        pipe.rename(elsewhere)
    want(asked(house, "dismiss p1"), ["refused NotWoken"], "a dismissal")
    want(asked(house, "status")[1], "p1 gone after 0 calls: dismissed", "who is to be let in")
    there[0][1].rename(there[0][0])
    want(asked(house, "dismiss p1"), ["done"], "the dismissal once more")
    left(house, "p1", 0, "dismissed")
    raws[0].close()
    left(house, "p0", 0, "end of stream")
    time.sleep(0.3)
    want(house.server.poll(), None, "a server with one that cannot be let in")
    there[1][1].rename(there[1][0])
    house.end()
    want(house.events()[-2:], ["p2 left after 0 calls: end of stream", "served 0 calls"], "the end")


def dismissed_at_changed_pipes(given):
    """Who is dismissed while its pipes are not as they must be has left once: whoever goes behind that
    is gone, and comes back, as long as another one is here."""
    house = of(given, 3)
    stays, goes, raw = (Raw(house, name) for name in house.names)
    for one in (goes, raw):
        want(one.ask("ping 1"), "ping 1", "who is here")
    raw.close()
    gone(house, "p2", 1)
    os.chmod(house.pipes / "p2.replies", 0o606)
    # (One that looks wrong wakes nobody for certain: it is asked again.)
    until(lambda: asked(house, "dismiss p2") == ["refused HasLeft"], "the dismissal")
    left(house, "p2", 0, "open to others")
    goes.close()
    gone(house, "p1", 1)
    goes = Raw(house, "p1")
    for one in (goes, stays):
        want(one.ask("leave"), "left", "a leave")
    until(lambda: house.server.poll() is not None, "the server ends")
    want((house.server.returncode, house.complaint()), (3, "not opened: p2\n"), "how it ends")
    house.audit()


def comes_back_to_a_lost_book(given):
    """Where the book could not be written while a process was gone, it is told so at its next call,
    and has left for good."""
    house = House(given.program, neutral(3))
    with open(house.out, "wb") as out:
        server = started(house, bounded(2_000), stdout=out)
    raw, other, stays = (Raw(house, name) for name in house.names)
    want(raw.ask("post 0 barrier"), "posted 0", "a post")
    raw.close()
    gone(house, "p0", 1)
    told = ""
    while told != "unbooked":
        told = other.ask("post 0 barrier")
        want(told.split(" ")[0] in ("posted", "unbooked"), True, told)
    raw = Raw(house, "p0")
    want(raw.ask("open"), "open 0", "what is open, which is no call")
    want(raw.ask("take 0"), "unbooked", "a call")
    want(raw.read(), b"", "the end of the replies")
    want(stays.ask("leave"), "left", "the leave of who calls nothing")
    server.wait(timeout=60)
    want((server.returncode, server.stderr.read()), (3, b"write fault\n"), "how the server ends")
    want([line for line in house.events() if line.startswith("p0")],
         ["p0 came", "p0 gone after 1 calls: end of stream", "p0 came",
          "p0 left after 2 calls: unbooked"], "its events")


class Runs:
    """Servers one after the other on one folder of pipes, each on the books of those before."""

    def __init__(self, given, is_chain):
        self.years, self.is_chain, self.given = Years(given), is_chain, given
        processes = [("a0", "alpha"), ("b0", "beta"), ("n0", None), ("p0", None)]
        self.house = House(given.program, processes, [["alpha", "beta"]])
        self.books, self.whole = [], []

    def before(self):
        """The words that name all earlier runs."""
        if self.is_chain:
            return ["--chain", str(self.years.chain)]
        return [word for book in self.whole for word in ("--after", str(book))]

    def start(self):
        """The recipe of docs/SERVE.md: pipes that are made anew, and a server behind all books."""
        house = self.house
        house.book = house.folder / f"{len(self.books)}.book"
        self.books.append(house.book)
        made = house.make_pipes()
        want((made.returncode, made.stderr), (0, ""), "make_pipes")
        house.words = [house.program, "serve", str(house.policy), str(house.pipes), *self.before(),
                       "--book", str(house.book)]
        house.start()

    def seal(self):
        house = self.house
        whole = house.book
        words = [house.program, "seal"]
        if not self.is_chain:
            whole = house.folder / f"{len(self.whole)}.whole"
            words += [str(house.policy), str(house.book), str(whole)]
        done = subprocess.run([*words, *self.before()], capture_output=True, text=True, timeout=120,
                              check=False)
        want((done.returncode, done.stderr), (0, ""), "the seal")
        self.whole.append(whole)
        live.SERVERS.remove(house.server)

    def ended(self):
        self.house.end()
        self.whole.append(self.house.book)

    def script(self, lines):
        """What the next run would answer."""
        path = self.house.folder / "script.txt"
        path.write_text("".join(line + "\n" for line in lines), encoding="ascii")
        words = [self.house.program, "replay", str(self.house.policy), str(path), *self.before()]
        done = subprocess.run(words, capture_output=True, text=True, timeout=120, check=False)
        want((done.returncode, done.stderr), (0, ""), "the replay")
        return done.stdout.splitlines()

    def audit(self):
        """All of them, and how many entries they have."""
        words = [self.house.program, "audit"]
        if not self.is_chain:
            before = [word for book in self.whole[:-1] for word in ("--after", str(book))]
            words += [str(self.house.policy), str(self.whole[-1]), *before]
        else:
            words += self.before()
        done = subprocess.run(words, capture_output=True, text=True, timeout=300, check=False)
        want((done.returncode, done.stdout[:6]), (0, "sound "), f"the audit ({done.stderr})")


def settled_in(book):
    """How many of a book's instances have settled: all are of the world."""
    if not book.exists():
        return 0
    return sum(line.startswith("verdict ") for line in book.read_text("ascii").split("\n")[:-1])


def kills(given, is_chain, count):
    """Servers that are killed one after the other, and clients that follow. First n0 is given alpha's
    data: behind all kills it still gets none of beta's."""
    dice = random.Random(given.seed)
    runs = Runs(given, is_chain)
    runs.start()
    house = runs.house
    raws = [Raw(house, name) for name in house.names]
    for raw in raws:
        want(raw.ask("post 0 create 0,2"), "posted 0", "a constructor")
    want(raws[2].ask("take 0"), "comm 1 rank 1 size 2", "the communicator")
    want(raws[0].ask("post 1 bcast 0 int32 1 as alpha 7"), "posted 1", "a post")
    want(raws[2].ask("post 1 bcast 0 int32 1"), "posted 1", "the consultant's post")
    want(raws[2].ask("take 1"), "delivered [7]", "what it is given")
    for raw in raws:
        want(raw.ask("leave"), "left", "a leave")
    runs.ended()
    board, booked, at_work = str(house.folder / "board"), 0, 0

    def hand_out(*numbers):
        """What the operator tells between two servers: how many rounds are booked, and the last."""
        with open(board + ".new", "w", encoding="ascii") as file:
            file.write(" ".join(map(str, numbers)))
        os.replace(board + ".new", board)

    hand_out(0)
    clients = [Client(follows, str(house.pipes), board, name) for name in house.names]
    for _ in range(count):
        runs.start()
        goal = dice.choice([0, 1, 1, 2, 5, 20])
        until(lambda: settled_in(house.book) >= goal, "instances", 60)
        time.sleep(dice.uniform(0, 0.005))
        house.server.kill()
        house.server.wait()
        runs.seal()
        found = settled_in(runs.whole[-1])
        at_work += found > 0
        booked += found
        hand_out(booked)
    rounds = booked + 10
    hand_out(booked, rounds)
    runs.start()
    outcomes = all_results(clients)
    runs.ended()
    want(booked + settled_in(runs.whole[-1]), rounds, "instances over all books, each once")
    runs.audit()
    lost = 0
    for name, told in zip(house.names, outcomes):
        due = None if name == "p0" else 1
        odd = {number: got for number, got in told.items() if got != (due and [number])}
        want(odd, {}, f"what {name} was told")
        lost += rounds - len(told)
    # Not told was at most the last one of a server that was killed, between its book and a reply.
    want(lost <= 4 * count, True, f"{lost} outcomes that were not read")
    script = [f"post {p} 0 create 1,2" for p in range(4)]
    script += ["take 2 0", "post 1 1 bcast 0 int32 1 as beta 8", "post 2 1 bcast 0 int32 1",
               "take 2 1"]
    want(runs.script(script)[-1], "denied simple n0 beta", "beta's data, behind all runs")
    return at_work, booked, lost


def follows(folder, board, name):
    """Takes part in one round after the other, at whichever server there is: p0 tells the others its
    number. Behind a kill it goes on with the round behind the last that is booked. What it was told,
    by the rounds."""
    told, done, last = {}, 0, None
    while last is None or done < last:
        try:
            process = consortium.Process(folder, name, label="public", timeout=0.2, resume=True)
        except (consortium.Gone, OSError):
            time.sleep(0.002)
            continue
        try:
            with open(board, encoding="ascii") as file:
                booked, *limit = (int(word) for word in file.read().split())
            last, done = limit[0] if limit else None, booked + process.posts
            for request in process.resumed:
                request.wait(timeout=60)
            while last is None or done < last:
                given = {"values": [done]} if name == "p0" else {"count": 1}
                request = process.world.Ibcast(root=3, **given)
                told[done] = waited(request)
                done += 1
            process.leave()
        except (consortium.Gone, OSError):
            process.close()
    return told


def waited(request):
    while True:
        try:
            return request.wait(timeout=60)
        except consortium.Stuck:
            # (the others wait, or are gone)
            time.sleep(0.001)


def killed_servers_of_a_chain(given):
    """Servers of one chain that are killed, each sealed, and clients that come back to the next: all
    runs are sound, and what is booked is gone on from, once."""
    at_work, booked, lost = kills(given, True, given.chained)
    if given.figures:
        print(f"{given.chained} killed, {at_work} of them at work, {booked} instances, {lost} "
              f"outcomes not read: ", end="")


def killed_servers_after_books(given):
    """The same with `--after` and a seal for each book."""
    kills(given, False, min(given.chained, 50))


TESTS = [users_come_back_to_their_own, waits_outlast_a_death, dies_in_a_wait,
         who_comes_back_in_a_wait, last_words_to_who_comes_back, who_opens_a_pair_that_is_closed,
         who_closes_its_calls_alone, the_bridge_reads_first, own_requests, as_many_as_may_be_open,
         half_a_reply_is_dropped, lines_that_ask_wrongly, an_operator_looks_on, ends_among_many,
         many_that_come_and_go, pipes_that_changed_meanwhile, pipes_that_were_elsewhere,
         dismissed_at_changed_pipes, comes_back_to_a_lost_book,
         killed_servers_of_a_chain, killed_servers_after_books]
