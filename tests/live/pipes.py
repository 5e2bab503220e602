"""Pipes that are not as they were, or are not opened, and the pipes of a page."""
import os
import re
import resource
import subprocess

from live import consortium
from live import EXAMPLES, GROUPS, NOBODY, SERVERS, TOP, House, Raw
from live import as_nobody, die_with_parent, neutral, of_nobody, started, want


def shut_out(house, why, others=("p0",)):
    """The server tells why p1 was not served, and ends with status 3."""
    for name in others:
        raw = Raw(house, name)
        want(raw.ask("post 0 barrier"), "posted 0", f"the post of {name}")
        want(raw.ask("leave"), "left", f"the leave of {name}")
    out, err = house.server.communicate(timeout=60)
    left = [line for line in out.decode("ascii").splitlines() if line.startswith("p1 ")]
    want(left, [f"p1 left after 0 calls: {why}"], "the event of who was shut out")
    want((house.server.returncode, err), (3, b"not opened: p1\n"), "how the server ends")


def first_event(house):
    want(house.server.stdout.readline(), b"serving 2 processes\n", "the first event")


def pipes_that_are_not_opened(given):
    """A pipe that was not as it must be when it was opened, or could not be opened: the event says
    why, the others go on, and the status is 3."""
    def of_two():
        house = House(given.program, neutral(2))
        of_nobody(house)
        started(house, as_nobody())
        first_event(house)
        return house, house.pipes / "p1.calls", house.pipes / "p1.replies"

    def opened(house):
        """Both sides of the pair of p1, which the server then looks at."""
        replies = os.open(house.pipes / "p1.replies", os.O_RDONLY | os.O_NONBLOCK)
        calls = consortium.open_for_writing(str(house.pipes / "p1.calls"), 60)
        consortium.await_writer(replies)
        want(os.read(replies, 100), b"", "the replies of who is shut out")
        os.close(calls)
        os.close(replies)

    for number in (0, 1):
        house, *pipes = of_two()
        os.chmod(pipes[number], 0o606)
        opened(house)
        shut_out(house, "open to others")
        # Another pipe stands there, that is linked to.
        house, *pipes = of_two()
        elsewhere, link = house.folder / "elsewhere", house.folder / "link"
        os.link(pipes[number], elsewhere)
        link.symlink_to(elsewhere)
        # (at once: the server may open it at any moment)
        link.replace(pipes[number])
        opened(house)
        shut_out(house, "no pipe, or another one than at the start")
        if os.geteuid() == 0:
            house, *pipes = of_two()
            os.chown(pipes[number], 0, NOBODY)
            os.chmod(pipes[number], 0o660)
            opened(house)
            shut_out(house, "no pipe, or another one than at the start")


def pipes_that_may_not_be_opened(given):
    """A pipe that the server's user may not open, as where the firm's group was forgotten."""
    house = House(given.program, neutral(2))
    of_nobody(house)
    for end in ("calls", "replies"):
        path = house.pipes / f"p1.{end}"
        os.chmod(path, 0o000)
    started(house, as_nobody())
    first_event(house)
    shut_out(house, "permission denied")


def files_that_are_too_many(given):
    """A limit on open files that is too low: who finds none is told of, with the limit."""
    house = House(given.program, neutral(2), book=False)
    of_nobody(house)
    started(house, as_nobody((resource.RLIMIT_NOFILE, 7)))
    first_event(house)
    # Three are the standard streams, one is the folder, and each process has its replies: one has
    # calls too.
    first = Raw(house, "p0")
    want(first.ask("info 0"), "info size 2 rank 0", "an info")
    late = os.open(house.pipes / "p1.replies", os.O_RDONLY | os.O_NONBLOCK)
    event = "p1 left after 0 calls: too many open files (ulimit -n)\n"
    lines = [house.server.stdout.readline().decode("ascii") for _ in range(2)]
    want(sorted(lines), ["p0 came\n", event], "the events")
    want(first.ask("leave"), "left", "a leave")
    out, err = house.server.communicate(timeout=60)
    os.close(late)
    want((house.server.returncode, err), (3, b"not opened: p1\n"), "how the server ends")
    want(out, b"p0 left after 1 calls: left\nserved 1 calls\n", "the other events")


def talk_at_pipes_of_the_page(given):
    """The two pipes of the page on another machine, with the bridge in place of ssh: who opens them
    in the order of the page is answered."""
    page = (TOP / "docs" / "SERVE.md").read_text(encoding="utf-8")
    line = re.search("^ssh alpha@server.example (.*) &$", page, re.MULTILINE)[1]
    house = House(given.program, [("a0", "alpha")], [["alpha"]]).start()
    far = house.folder / "far"
    far.mkdir()
    for end in ("calls", "replies"):
        os.mkfifo(far / f"a0.{end}", 0o600)
    bridge = f"cd {far} && exec {EXAMPLES / 'bridge'} {house.pipes} a0 {line}"
    ssh = subprocess.Popen(["sh", "-c", bridge], start_new_session=True, preexec_fn=die_with_parent)
    GROUPS.append(ssh)
    SERVERS.append(ssh)
    done = subprocess.run([EXAMPLES / "talk.sh", far, "a0", "alpha"], input="120\n", text=True,
                          capture_output=True, timeout=60, check=False)
    want((done.returncode, done.stdout), (0, "a0: delivered [120]\n"), "what is told far away")
    house.end()


def one_server_holds_a_folder(given):
    """Beside a server no other one starts on its folder, and no pipes are made there."""
    house = House(given.program, neutral(1)).start()
    raw = Raw(house, "p0")
    want(raw.ask("info 0"), "info size 1 rank 0", "an info")
    house.mark()
    second = subprocess.run(house.words[:4], capture_output=True, text=True, timeout=60, check=False)
    busy = (3, "", f"in use: {house.pipes}\n")
    want((second.returncode, second.stdout, second.stderr), busy, "a second server")
    made = house.make_pipes()
    want((made.returncode, made.stdout, made.stderr), busy, "make_pipes")
    want(raw.ask("info 0"), "info size 1 rank 0", "an info behind both")
    want(raw.ask("leave"), "left", "the leave")
    house.end()


def pipes_serve_one_run(given):
    """An old client is no client of the next run: its ends are those of pipes that are gone."""
    house = House(given.program, neutral(2)).start()
    old = Raw(house, "p0")
    want(old.ask("post 0 barrier"), "posted 0", "a post to the first server")
    house.server.kill()
    house.server.wait()
    house.book.unlink()
    again = subprocess.run(house.words, capture_output=True, text=True, timeout=60, check=False)
    want((again.returncode, again.stderr), (3, f"pipes used: {house.pipes}\n"), "the old pipes")
    want(house.book.exists(), False, "a book")
    made = house.make_pipes()
    want((made.returncode, made.stderr), (0, ""), "make_pipes")
    house.server = subprocess.Popen(house.words, stdin=subprocess.DEVNULL, stderr=subprocess.PIPE,
                                    stdout=subprocess.DEVNULL, preexec_fn=die_with_parent)
    SERVERS.append(house.server)
    new = Raw(house, "p0")
    want(old.read(), b"", "what the old client reads")
    try:
        old.send(b"post 0 barrier\n")
        raise AssertionError("an old client's line was taken")
    except BrokenPipeError:
        pass
    want(new.ask("post 0 barrier"), "posted 0", "a post to the second server")
    for raw in (new, Raw(house, "p1")):
        want(raw.ask("leave"), "left", "a leave")
    house.server.communicate(timeout=60)
    want(house.server.returncode, 0, "how the second server ends")
    want(len(house.book_lines()), 3, "the lines of its book")


TESTS = [one_server_holds_a_folder, pipes_serve_one_run, pipes_that_are_not_opened,
         pipes_that_may_not_be_opened, files_that_are_too_many, talk_at_pipes_of_the_page]
