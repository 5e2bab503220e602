"""Programs that are gone and come back: the session of their process goes on where it was."""
import os
import random
import time

import live
from live import Client, House, Raw, Wrong, consortium, neutral, until, want


def resumed(house, name):
    return consortium.Process(str(house.pipes), name, label="public", timeout=60, resume=True)


def gone(house, name, times):
    """After how many calls a process was gone, this many times. From then on the pair is closed, and
    who opens it opens it anew."""
    def events():
        return [line for line in house.events() if line.startswith(f"{name} gone after ")]
    until(lambda: len(events()) >= times, f"{name} is gone")
    return int(events()[times - 1].split(" ")[3])


def a_client_comes_back(given):
    """What was not finished is dropped, requests stand, and events and the book say what was."""
    house = House(given.program, neutral(2)).start()
    first, other = Raw(house, "p0"), Raw(house, "p1")
    want(first.ask("post 0 allreduce sum int32 1 as public 5"), "posted 0", "the post")
    want(first.ask("post 0 barrier"), "posted 1", "another")
    first.send(b"take 0")
    first.close()
    house.await_event("p0 gone after 2 calls: end of stream")
    want(other.ask("post 0 allreduce sum int32 1 as public 7"), "posted 0", "the other's post")
    want(other.ask("wait 0"), "delivered [12]", "the other's wait")
    again = Raw(house, "p0")
    want(again.ask("head"), "head 0 -", "nothing was shown in this sitting")
    want(again.ask("open"), "open 0 1", "what is open")
    want(again.ask("next"), "next 2", "the next number")
    want(again.ask("ping 18446744073709551615"), "ping 18446744073709551615", "the ping")
    for line, answer in (("ping", "bad BadShape"), ("ping 18446744073709551616", "bad BadField"),
                         ("ping x", "bad BadField"), ("open 0", "bad BadShape"),
                         ("next 0", "bad BadShape")):
        want(again.ask(line), answer, line)
    want(again.ask("take 0"), "delivered [12]", "the take")
    want(again.ask("open"), "open 1", "what is open then")
    want(other.ask("post 0 barrier"), "posted 1", "the other's second")
    want(again.ask("wait 1"), "delivered none", "the wait")
    want(again.ask("open"), "open", "nothing is open")
    want(again.ask("leave"), "left", "the leave")
    want(other.ask("leave"), "left", "the other's")
    house.end()
    want([event for event in house.events() if event.startswith("p0")],
         ["p0 came", "p0 gone after 2 calls: end of stream", "p0 came", "p0 left after 4 calls: left"],
         "p0's events")
    want(house.events()[-1], "served 7 calls", "the last event")
    house.audit()


def an_exception_is_no_leave(given):
    """A `with` statement that an exception ends leaves the process to another program, which has its
    requests, and finds its communicators by their numbers."""
    house = House(given.program, neutral(2)).start()
    other = Raw(house, "p1")
    want(other.ask("post 0 split undefined 0"), "posted 0", "the other's split")
    try:
        with house.connect("p0") as process:
            want(process.world.Isplit(color=1).wait(timeout=60).number, 1, "its communicator")
            process.world.Ibarrier()
            raise Wrong("on purpose")
    except Wrong:
        pass
    gone(house, "p0", 1)
    with resumed(house, "p0") as process:
        want([request.number for request in process.resumed], [1], "what is open")
        words = process.ask("info 1").split()
        alone = consortium.Comm(process, 1, int(words[4]), int(words[2]))
        want((alone.size, alone.Iallreduce([7], op="sum").wait(timeout=60)), (1, [7]), "a sum alone")
    want(other.ask("leave"), "left", "the other's leave")
    house.end()
    want(house.events()[-3:-2], ["p0 left after 8 calls: left"], "its last event")
    house.audit()


def waits_count_who_is_gone_as_left(given):
    """A wait is answered `pending` as soon as the other is gone, and sleeps again when it is back."""
    house = House(given.program, neutral(2)).start()
    first, other = Raw(house, "p0"), Raw(house, "p1")
    want(other.ask("post 0 barrier"), "posted 0", "a post")
    other.send(b"wait 0\n")
    first.close()
    want(other.line(), "pending", "the wait of who is alone")
    want(other.ask("wait 0"), "pending", "and again")
    gone(house, "p0", 1)
    first = Raw(house, "p0")
    want(first.ask("info 0"), "info size 2 rank 0", "who is back")
    other.send(b"wait 0\n")
    time.sleep(0.2)
    want(first.ask("post 0 barrier"), "posted 0", "the missing post")
    want(other.line(), "delivered none", "the wait, which had slept")
    for raw in (first, other):
        want(raw.ask("leave"), "left", "the leave")
    house.end()
    house.audit()


def who_left_does_not_come_back(given):
    """Behind `leave` the pipes are not opened again; a run is over when all have gone or left."""
    house = House(given.program, neutral(3)).start()
    raws = [Raw(house, name) for name in house.names]
    want(raws[0].ask("leave"), "left", "the leave")
    house.await_event("p0 left after 0 calls: left")
    try:
        consortium.Process(str(house.pipes), "p0", timeout=0.5)
        raise Wrong("p0 was served behind its leave")
    except consortium.Gone as gone:
        want(gone.cause, "absent", "why")
    raws[1].close()
    house.await_event("p1 gone after 0 calls: end of stream")
    want(house.server.poll(), None, "the server serves on")
    raws[2].close()
    house.end()
    want(sorted(house.events()[-3:]), ["p1 left after 0 calls: end of stream",
                                       "p2 left after 0 calls: end of stream", "served 0 calls"],
         "the last events")
    house.audit()


def calls_are_counted_over_sittings(given):
    """With --calls a program that comes back has the calls that are left."""
    house = House(given.program, neutral(2))
    house.words += ["--calls", "3"]
    house.start()
    other = Raw(house, "p1")
    for turn in (1, 2):
        raw = Raw(house, "p0")
        want(raw.ask("info 0"), "info size 2 rank 0", "a call")
        raw.close()
        want(gone(house, "p0", turn), turn, "the calls of all its programs")
    raw = Raw(house, "p0")
    want(raw.ask("info 0"), "info size 2 rank 0", "the third call")
    want(raw.ask("info 0"), "exhausted", "the fourth")
    house.await_event("p0 left after 3 calls: exhausted")
    want(other.ask("leave"), "left", "the other's leave")
    until(lambda: house.server.poll() is not None, "the server ends")
    want(house.server.returncode, 4, "the status")
    house.audit()


def what_was_not_read_is_skipped(given):
    """A program that comes back before the server saw the other go reads its own answers alone."""
    for seed in range(20):
        house = House(given.program, neutral(2)).start()
        other = Raw(house, "p1")
        first = Raw(house, "p0")
        first.send(b"post 0 barrier\n" + b"open\nnext\nping 5\n" * seed + b"take 0"[:seed % 7])
        if seed % 2:
            time.sleep(0.001 * seed)
        first.close()
        process = resumed(house, "p0")
        want(([request.number for request in process.resumed], process.posts), ([0], 1),
             "what it finds")
        want(process.world.rank, 0, "its rank")
        want(other.ask("post 0 barrier"), "posted 0", "the other's post")
        want(process.resumed[0].wait(timeout=60), [], "its outcome")
        process.leave()
        other.close()
        house.end()
        house.audit()
        live.clear()


def goes_round(folder, name, rounds, is_last):
    """Posts and waits, one sum a round, and goes on where an earlier program of the process died."""
    process = consortium.Process(folder, name, label="public", timeout=60, resume=True)
    for request in process.resumed:
        request.wait(timeout=60)
    while process.posts < rounds:
        posted = process.world.Iallreduce([process.posts], op="sum")
        process.posts += 1
        posted.wait(timeout=60)
    if not is_last:
        time.sleep(60)
    process.leave()
    return process.posts


def steady(folder, name, rounds, done):
    process = consortium.Process(folder, name, label="public", timeout=60)
    sums = []
    for number in range(rounds):
        request = process.world.Iallreduce([number], op="sum")
        while True:
            try:
                sums.append(request.wait(timeout=60))
                break
            except consortium.Stuck:
                # (the others wait, or are gone)
                time.sleep(0.001)
    # (a run is over when nobody is here, and who is gone then has left)
    until(lambda: os.path.exists(done), "the last program")
    process.leave()
    return sums


def a_client_is_killed_again_and_again(given):
    """A hundred times a program is killed, at any moment, and another goes on: each instance settles
    and is delivered to the others, and the book is sound."""
    rounds, dice = 3000, random.Random(given.seed)
    house = House(given.program, neutral(3)).start()
    folder, done = str(house.pipes), str(house.folder / "done")
    others = [Client(steady, folder, name, rounds, done) for name in ("p1", "p2")]
    for _ in range(100):
        client = Client(goes_round, folder, "p0", rounds, False)
        time.sleep(dice.uniform(0.0, 0.08))
        client.kill()
    last = Client(goes_round, folder, "p0", rounds, True)
    want(last.result(), rounds, "the posts of who was killed")
    open(done, "x", encoding="ascii").close()
    for other in others:
        want(other.result(), [[3 * number] for number in range(rounds)], "the others' sums")
    house.end()
    house.audit()
    settled = [line for line in house.book_lines() if line.startswith("verdict")]
    want(len(settled), rounds, "instances that came out")


TESTS = [a_client_comes_back, an_exception_is_no_leave, waits_count_who_is_gone_as_left, who_left_does_not_come_back,
         calls_are_counted_over_sittings, what_was_not_read_is_skipped,
         a_client_is_killed_again_and_again]
