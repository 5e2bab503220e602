"""Chains: runs over years, each under the policy of its day, with servers that are killed.

What a chain file has to say is computed here anew, from its form in docs/CHAIN.md.
"""
import hashlib
import os
import subprocess
import time

from books import bounded
from live import SERVERS, House, Raw, Wrong, a_folder, policy_text, shown, want

BANKS = [["alpha", "beta"]]
THREE = [("a0", "alpha"), ("b0", "beta"), ("n0", None)]


def digest(data):
    return hashlib.sha256(data).hexdigest()


def spelled(path):
    """The word of a path."""
    return "".join(chr(byte) if 32 < byte < 127 and byte != 37 else f"%{byte:02x}"
                   for byte in os.fsencode(str(path)))


def with_line(text, words):
    """A chain file's text, and a line of these words."""
    line = text + (" ".join(words) + " ").encode("ascii")
    return line + digest(line).encode("ascii") + b"\n"


def with_begun(text, policy, book):
    return with_line(text, ["begun", spelled(policy), digest(policy.read_bytes()), spelled(book)])


def with_ended(text, book):
    return with_line(text, ["ended", digest(book.read_bytes())])


class Years:
    """A chain in a folder of its own, and the program that goes on with it."""

    def __init__(self, given):
        self.program, self.given = given.program, given
        self.folder = a_folder()
        self.chain = self.folder / "chain.txt"
        self.chain.write_bytes(b"chain 1\n")
        # What the file is to be.
        self.due = b"chain 1\n"

    def house(self, processes=None, classes=None, sanitise=(), policy=None):
        """A server on the next run, which has not started; its book is new."""
        house = House(self.program, processes or THREE, classes or BANKS, sanitise)
        if policy is not None:
            house.policy.write_text(policy, encoding="utf-8")
        house.words[2:2] = ["--chain", str(self.chain)]
        return house

    def begun(self, house):
        """The line of this server's run is due, and stands there."""
        self.due = with_begun(self.due, house.policy, house.book)
        want(self.chain.read_bytes(), self.due, "the chain behind the start")

    def ended(self, house):
        self.due = with_ended(self.due, house.book)
        want(self.chain.read_bytes(), self.due, "the chain behind the end")

    def command(self, *words):
        return subprocess.run([self.program, *words, "--chain", str(self.chain)],
                              capture_output=True, text=True, timeout=300, check=False)

    def audit(self, status, out, err, what):
        done = self.command("audit")
        want((done.returncode, done.stdout, done.stderr), (status, out, err), what)

    def head(self):
        return self.due.split()[-1].decode("ascii")

    def sound(self, runs, entries):
        self.audit(0, f"sound {runs} runs, {entries} entries, head {self.head()}\n", "", "the audit")

    def seal(self, entries, what="the seal"):
        done = self.command("seal")
        want((done.returncode, done.stdout, done.stderr), (0, f"sealed {entries}\n", ""), what)

    def refused(self, house, status, err, what):
        """A server that does not start; its chain and its pipes are as they were."""
        before = self.chain.read_bytes()
        done = subprocess.run(house.words, capture_output=True, text=True, timeout=60, check=False)
        want((done.returncode, done.stderr), (status, err), what)
        want(self.chain.read_bytes(), before, f"the chain behind {what}")
        want(house.book.exists(), False, f"a book behind {what}")
        want((house.pipes / "unused").exists(), True, f"the pipes behind {what}")


def gives_to_the_consultant(house, sender, label, stays=False, meanwhile=None):
    """n0, the third process, is to be given a number of a bank, on a communicator of the two. Who
    stays does not close its pipes: as soon as all have, the run ends."""
    raws = [Raw(house, name) for name in house.names]
    for raw in raws:
        want(raw.ask(f"post 0 create {sender},2"), "posted 0", "the post of a constructor")
    want(raws[2].ask("take 0"), "comm 1 rank 1 size 2", "n0's communicator")
    want(raws[sender].ask(f"post 1 bcast 0 int32 1 as {label} 7"), "posted 1", "a post")
    want(raws[2].ask("post 1 bcast 0 int32 1"), "posted 1", "n0's post")
    told = raws[2].ask("take 1")
    if meanwhile is not None:
        meanwhile()
    if not stays:
        for raw in raws:
            raw.close()
    return told


def a_day(years, sender, label, told, **policy):
    """A whole run on which a bank gives the consultant a number. Gives the server that was."""
    house = years.house(**policy).start()
    found = gives_to_the_consultant(house, sender, label, meanwhile=lambda: years.begun(house))
    want(found, told, "what the consultant is told")
    house.end()
    years.ended(house)
    return house


def runs_of_three_years(given):
    """Three runs under two policies, the second killed and sealed: what was held is held for ever."""
    years = Years(given)
    years.audit(0, "sound 0 runs, 0 entries, head -\n", "", "the audit of no runs")
    a_day(years, 0, "alpha", "delivered [7]")
    years.sound(1, 7)
    # A firm joins the first class, and another process: the earlier numbers are others by then.
    processes = [*THREE, ("m0", None)]
    classes = [["gamma", "alpha", "beta"], ["umbra"]]
    killed = years.house(processes, classes, [("sum", 2, 2)]).start()
    told = gives_to_the_consultant(killed, 1, "beta", stays=True)
    want(told, "denied simple n0 beta", "the second day")
    years.begun(killed)
    years.audit(2, "", "chain: run 2 has not ended\n", "the audit of a run that is under way")
    done = years.command("seal")
    want((done.returncode, done.stderr), (3, f"in use: {years.chain}\n"), "a seal meanwhile")
    killed.server.kill()
    killed.server.wait()
    years.refused(years.house(processes, classes), 2, "chain: run 2 has not ended\n",
                  "a start behind a kill")
    killed.book.write_bytes(killed.book.read_bytes()[:-3])
    years.seal(8)
    years.ended(killed)
    want(killed.book.read_text(encoding="utf-8").splitlines()[-2:],
         ["verdict 1 0 denied simple n0 beta", "end 8"], "the sealed book")
    years.sound(2, 15)
    done = years.command("seal")
    want((done.returncode, done.stderr), (2, "chain: no run is under way\n"), "one more seal")
    a_day(years, 1, "beta", "denied simple n0 beta", processes=processes, classes=classes)
    a_day(years, 0, "alpha", "delivered [7]", processes=processes, classes=classes)
    years.sound(4, 31)


# What may not be done to a policy of a chain, and how it is told. (Names in the order of the first.)
SHRUNK = [
    ({"processes": [("a0", "alpha"), ("n0", None), ("b0", "beta")]}, "process b0: is another, or gone"),
    ({"processes": THREE[:2]}, "process n0: is another, or gone"),
    ({"processes": [("a0", "alpha"), ("b1", "beta"), ("n0", None)]}, "process b0: is another, or gone"),
    ({"processes": [("a0", "beta"), *THREE[1:]]}, "process a0: has another home"),
    ({"processes": [("a0", None), *THREE[1:]]}, "process a0: has another home"),
    ({"processes": [*THREE[:2], ("n0", "alpha")]}, "process n0: has another home"),
    ({"classes": [["alpha"], ["beta"]]}, "dataset beta: is in another class"),
    ({"processes": [("a0", "alpha"), ("b0", None), ("n0", None)], "classes": [["alpha"]]},
     "process b0: has another home"),
]


def policies_that_shrink(given):
    """Each edit of a policy by which the wall would forget is refused by name, before any pipe is
    opened."""
    years = Years(given)
    a_day(years, 0, "alpha", "delivered [7]")
    for policy, why in SHRUNK:
        house = years.house(**policy)
        years.refused(house, 1, f"chain: next run: policy: {why}\n", why)
    base = policy_text(THREE, BANKS)
    for edited, why in [
        (base.replace('"class0"', '"houses"'), "class class0: is gone"),
        (base.replace('"beta"', '"betta"'), "process b0: has another home"),
    ]:
        years.refused(years.house(policy=edited), 1, f"chain: next run: policy: {why}\n", why)
    years.refused(years.house(policy="version = 3\n"), 1, "policy: BadVersion\n", "no policy")
    missing = years.house()
    missing.policy.unlink()
    years.refused(missing, 3, "read fault\n", "a policy that is missing")
    # Least numbers, the version and new names are each day's own.
    a_day(years, 1, "beta", "denied simple n0 beta", sanitise=[("sum", 2, 2)])
    a_day(years, 1, "beta", "denied simple n0 beta", policy=base.replace("version = 2", "version = 1"))
    years.sound(3, 21)


def least_numbers_of_their_day(given):
    """A least number that is lowered changes what comes, and not what was: what a sum charged stays
    charged."""
    years = Years(given)
    processes = [("a0", "alpha"), ("a1", "alpha"), ("n0", None), ("b0", "beta")]

    def a_sum(least, members, labels, told):
        """Day by day, a sum on a communicator of these, and what the consultant is told of it."""
        house = years.house(processes, sanitise=[("sum", least, 1)]).start()
        raws = [Raw(house, name) for name, _ in processes]
        listed = ",".join(str(member) for member in members)
        for raw in raws:
            want(raw.ask(f"post 0 create {listed}"), "posted 0", "a constructor")
        for member, label in zip(members, labels):
            reply = raws[member].ask(f"post 1 allreduce sum int32 1 as {label} 5")
            want(reply, "posted 1", f"the post of {member}")
        want(raws[2].ask("take 1"), told, f"what is told of a sum with least {least}")
        for raw in raws:
            raw.close()
        house.end()

    # Under the number of this day the sum of two is not sanitised, and n0 has alpha from then on.
    a_sum(9, (0, 1, 2), ("alpha", "alpha", "public"), "delivered [15]")
    # Under that of the next it would have been; what was charged stays.
    a_sum(2, (2, 3), ("alpha", "beta"), "delivered [10]")
    a_sum(9, (2, 3), ("alpha", "beta"), "denied simple n0 beta")
    want(years.command("audit").returncode, 0, "the audit")


def told_or_another_head(years, was):
    """Whether an audit of the chain tells what is wrong, or another head than this one."""
    done = years.command("audit")
    if done.returncode == 2:
        want(done.stdout, "", "what is written of a chain at fault")
        return done.stderr.startswith("chain: ")
    return done.returncode == 0 and done.stdout.split()[-1] != was


def each_byte_is_told(given):
    """Each byte of a chain, its policies and its books that is another is told, or the head differs."""
    years = Years(given)
    one = a_day(years, 0, "alpha", "delivered [7]")
    two = a_day(years, 1, "beta", "denied simple n0 beta", sanitise=[("sum", 2, 2)])
    was = years.head()
    files = [years.chain, one.policy, one.book, two.policy, two.book]
    for path in files:
        data = path.read_bytes()
        for at in range(len(data)):
            path.write_bytes(data[:at] + bytes([data[at] ^ 1]) + data[at + 1:])
            if not told_or_another_head(years, was):
                raise Wrong(f"byte {at} of {path.name} is another, and nobody is told")
        for at in range(len(data)):
            path.write_bytes(data[:at])
            if not told_or_another_head(years, was):
                raise Wrong(f"{path.name} is cut at {at}, and nobody is told")
        path.write_bytes(data)
    # Files that are gone, that stand for each other, and a run that is left out.
    for path in files[1:]:
        aside = path.with_suffix(".aside")
        path.rename(aside)
        if not told_or_another_head(years, was):
            raise Wrong(f"{path.name} is gone, and nobody is told")
        aside.rename(path)
    lines = years.due.splitlines(keepends=True)
    for left in (lines[:1] + lines[3:], lines[:1] + lines[3:] + lines[1:3], lines + lines[1:3]):
        years.chain.write_bytes(b"".join(left))
        want(years.command("audit").returncode, 2, "the audit of other runs")
    years.chain.write_bytes(years.due)
    years.sound(2, 14)


def one_server_goes_on(given):
    """Two servers on one chain: the second does not begin, and neither does one whose pipes or book
    are not as they must be; none of them changes the chain."""
    years = Years(given)
    first = years.house().start()
    first.await_event("serving")
    years.begun(first)
    years.refused(years.house(), 3, f"in use: {years.chain}\n", "a second server")
    told = gives_to_the_consultant(first, 0, "alpha")
    want(told, "delivered [7]", "what the first server tells")
    first.end()
    years.ended(first)
    used = years.house()
    (used.pipes / "unused").unlink()
    done = subprocess.run(used.words, capture_output=True, text=True, timeout=60, check=False)
    want((done.returncode, done.stderr), (3, f"pipes used: {used.pipes}\n"), "pipes that were used")
    taken = years.house()
    taken.book.write_bytes(b"mine")
    done = subprocess.run(taken.words, capture_output=True, text=True, timeout=60, check=False)
    want((done.returncode, done.stderr), (3, f"book exists: {taken.book}\n"), "a book that is there")
    want(taken.book.read_bytes(), b"mine", "the book that was there")
    want(years.chain.read_bytes(), years.due, "the chain behind what did not begin")
    gone = years.house()
    gone.words[3] = str(years.folder / "missing")
    done = subprocess.run(gone.words, capture_output=True, text=True, timeout=60, check=False)
    want((done.returncode, done.stderr), (3, "read fault\n"), "a chain that is missing")
    want((years.folder / "missing").exists(), False, "a chain that nobody made")
    years.sound(1, 7)


def stopped_anywhere(given):
    """A server, or a seal, that was stopped at any point of a run: the seal of the chain ends it, and
    what was told is kept."""
    years = Years(given)
    house = years.house().start()
    want(gives_to_the_consultant(house, 0, "alpha"), "delivered [7]", "what is told")
    house.end()
    whole = house.book.read_bytes()
    began = with_begun(b"chain 1\n", house.policy, house.book)
    ended = with_ended(began, house.book)
    want(years.chain.read_bytes(), ended, "the chain")
    beside = house.book.with_name(house.book.name + ".sealed")

    def again(book, left, entries, last):
        house.book.write_bytes(book)
        years.chain.write_bytes(began + left)
        years.seal(entries, f"the seal of {shown(book)} behind {shown(left)}")
        want(beside.exists(), False, "what is left beside the book")
        want(house.book.read_bytes().splitlines()[-1], last, "the last line")
        years.due = with_ended(began, house.book)
        want(years.chain.read_bytes(), years.due, "the chain behind the seal")
        years.sound(1, entries)

    # At each byte of the book, of which nothing may have been written; behind it.
    for at in range(0, len(whole) + 1, 5):
        cut = whole[:at].splitlines(keepends=True)[1:]
        posts = sum(line.startswith(b"post") and line.endswith(b"\n") for line in cut)
        # The third post fills the constructor, and the fifth the broadcast.
        due = min(posts + (posts >= 3) + (posts >= 5), 7)
        again(whole[:at], b"", due, f"end {due}".encode("ascii"))
        finished = whole[:at].rpartition(b"\n")[0]
        want(house.book.read_bytes().startswith(finished), True, "what a seal keeps")
    # Within the line that it has ended, and where a seal left its file.
    line = ended[len(began):]
    for at in (1, 6, len(line) - 1):
        again(whole, line[:at], 7, b"end 7")
    beside.write_bytes(b"what a seal left")
    again(whole[:60], b"", 1, b"end 1")
    # Within the line that it begins: nothing was done by it.
    years.chain.write_bytes(began[:-5])
    years.audit(2, "", "chain: cut\n", "the audit of a line that is not finished")
    done = years.command("seal")
    want((done.returncode, done.stderr), (2, "chain: no run is under way\n"), "its seal")
    want(years.chain.read_bytes(), b"chain 1\n", "the chain behind it")
    # A run began when its book was there: one that is missing is never made, and is told.
    house.book.unlink()
    years.chain.write_bytes(began)
    for left in (b"", line[:6]):
        done = years.command("seal")
        want((done.returncode, done.stdout, done.stderr), (3, "", "read fault\n"),
             "the seal of a book that is missing")
        want((house.book.exists(), beside.exists()), (False, False), "what a seal has made")
        want(years.chain.read_bytes(), began, "the chain behind it")
        years.chain.write_bytes(began + left)
    # A book of the chain that has the name of a seal's own file is not taken away.
    beside.write_bytes(whole)
    other = with_ended(with_begun(b"chain 1\n", house.policy, beside), beside)
    years.chain.write_bytes(with_begun(other, house.policy, house.book))
    house.book.write_bytes(whole[:60])
    done = years.command("seal")
    want((done.returncode, done.stderr), (3, f"book exists: {beside}\n"), "the seal beside a book")
    want((beside.read_bytes(), house.book.read_bytes()), (whole, whole[:60]), "both books")
    beside.unlink()
    # A file that is no chain is left as it is, whatever its last line lacks.
    for other in (b"chain 2\nnot", b"chain 1\nbegun\nnot", began.replace(b"begun", b"began") + b"x"):
        years.chain.write_bytes(other)
        want(years.command("seal").returncode, 2, "the seal of what is no chain")
        want(years.chain.read_bytes(), other, "what is no chain")
    # A book that no run could have left is told, and stays as it was.
    house.book.write_bytes(whole.replace(b"granted", b"denied simple n0 beta"))
    before = house.book.read_bytes()
    years.chain.write_bytes(began)
    done = years.command("seal")
    want((done.returncode, done.stderr), (2, ""), "the seal of a book that is not sound")
    want((house.book.read_bytes(), years.chain.read_bytes()), (before, began), "book and chain")
    want(beside.exists(), False, "what is left beside it")


def nothing_of_a_chain_is_written_over(given):
    """A replay, a run or a report behind a chain writes over no policy, no book and no chain file of
    it, by whatever name."""
    years = Years(given)
    houses = [a_day(years, 0, "alpha", "delivered [7]") for _ in range(2)]
    script = years.folder / "script.txt"
    script.write_text("info 0 0\n", encoding="utf-8")
    link = years.folder / "link.txt"
    mine = [years.chain, *(house.book for house in houses), *(house.policy for house in houses)]
    before = [path.read_bytes() for path in mine]
    policy = str(houses[1].policy)
    for path in mine:
        link.unlink(missing_ok=True)
        os.link(path, link)
        for name in (path, link):
            for words in (["replay", policy, str(script), "--book", str(name)],
                          ["run", policy, str(script), "--book", str(name)],
                          ["report", "--html", str(name)]):
                done = years.command(*words)
                told = (5, "bad arguments\n") if name == years.chain \
                    else (3, f"book exists: {name}\n")
                want((done.returncode, done.stderr), told, f"{words} over {path.name}")
    want([path.read_bytes() for path in mine], before, "what the chain has")
    link.unlink()
    link.write_bytes(b"mine")
    done = years.command("replay", policy, str(script), "--book", str(link))
    want((done.returncode, done.stderr), (0, ""), "a replay over another file")
    want(link.read_text(encoding="utf-8").splitlines()[-1], "end 0", "the book of a replay")


def on_a_full_disk(house, size):
    """How a server of the chain ends whose files take so many bytes, and all of whose processes leave
    at once where it begins."""
    house.mark()
    server = subprocess.Popen(house.words, stdin=subprocess.DEVNULL, stdout=subprocess.PIPE,
                              stderr=subprocess.PIPE, preexec_fn=bounded(size))
    SERVERS.append(server)
    if server.stdout.readline():
        raws = [Raw(house, name) for name in ("a0", "b0", "n0")]
        for raw in raws:
            want(raw.ask("leave"), "left", "a leave")
            raw.close()
    err = server.communicate(timeout=60)[1]
    return server.returncode, err


def lines_that_find_no_room(given):
    """A line of the chain that is not written whole is taken back: a run that could not begin has none,
    and one that could not be entered as ended has not ended."""
    years = Years(given)
    for size in (8, 60, 200):
        house = years.house()
        want(on_a_full_disk(house, size), (3, b"write fault\n"), f"a start on a disk of {size}")
        want(years.chain.read_bytes(), b"chain 1\n", "the chain of a run that did not begin")
        want(house.book.exists(), False, "the book of a run that did not begin")
    house = years.house()
    began = with_begun(b"chain 1\n", house.policy, house.book)
    for more in (0, 40):
        years.chain.write_bytes(b"chain 1\n")
        house.book.unlink(missing_ok=True)
        want(on_a_full_disk(house, len(began) + more), (3, b"write fault\n"), "an end without room")
        want(years.chain.read_bytes(), began, "the chain of a run that has not ended")
        want(house.book.read_bytes(), b"book 2\nend 0\n", "its book")
    years.seal(0)
    years.due = began
    years.ended(house)
    years.sound(1, 0)


def killed_while_it_ends(given):
    """Servers of a chain that are killed at a moment of their own: the seal ends each run, or it has
    ended, and the next goes on."""
    years = Years(given)
    for number in range(12):
        house = years.house().start()
        raws = [Raw(house, name) for name in ("a0", "b0", "n0")]
        for raw in raws:
            want(raw.ask("post 0 barrier"), "posted 0", "a post")
        for raw in raws:
            raw.send(b"leave\n")
        time.sleep(number / 1000)
        house.server.kill()
        house.server.wait()
        for raw in raws:
            raw.close()
        if years.chain.read_bytes().splitlines()[-1].startswith(b"begun"):
            years.seal(4, f"the seal of run {number}")
        done = years.command("audit")
        want((done.returncode, done.stderr), (0, ""), "the audit")
        want(done.stdout.split(", head")[0],
             f"sound {number + 1} runs, {4 * (number + 1)} entries", "the runs that stand")


def many_runs(given):
    """Ten thousand runs in a chain are audited in a time that grows as they do."""
    years = Years(given)
    folder = a_folder()
    policy, book = folder / "p.toml", folder / "b.txt"
    policy.write_text(policy_text(THREE, BANKS), encoding="utf-8")
    book.write_bytes(b"book 2\nend 0\n")

    def seconds(runs):
        hasher, text = hashlib.sha256(), [b"chain 1\n"]
        hasher.update(text[0])
        policy_word, book_word = digest(policy.read_bytes()), digest(book.read_bytes())
        for words in runs * [["begun", spelled(policy), policy_word, spelled(book)],
                             ["ended", book_word]]:
            line = (" ".join(words) + " ").encode("ascii")
            hasher.update(line)
            head = hasher.hexdigest().encode("ascii") + b"\n"
            hasher.update(head)
            text.append(line + head)
        years.chain.write_bytes(b"".join(text))
        years.due = b"".join(text)
        begin = time.monotonic()
        years.sound(runs, 0)
        return time.monotonic() - begin

    few, many = min(seconds(1000) for _ in range(3)), seconds(10000)
    if many > 30 * few + 1:
        raise Wrong(f"{few:.3f} s for 1,000 runs, and {many:.3f} s for 10,000")


TESTS = [runs_of_three_years, nothing_of_a_chain_is_written_over, policies_that_shrink, least_numbers_of_their_day, each_byte_is_told,
         one_server_goes_on, stopped_anywhere, lines_that_find_no_room, killed_while_it_ends,
         many_runs]
