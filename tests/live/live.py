"""What the tests of live processes share: a server with its pipes, and clients that are processes.

Nothing here waits without a bound: each test has an alarm (`Bounds`), at which all that it started
is killed, by process id, and its folder removed; and whatever is started dies with the runner.
"""
import ctypes
import os
import pathlib
import pickle
import resource
import shutil
import signal
import subprocess
import sys
import tempfile
import time
import traceback

TOP = pathlib.Path(__file__).resolve().parent.parent.parent
EXAMPLES = TOP / "examples" / "serve"
sys.path.insert(0, str(TOP / "clients" / "python"))
# Reached through the path above.
import consortium  # noqa: E402

NOBODY = 65534
LIBC = ctypes.CDLL(None, use_errno=True)
SET_DEATH_SIGNAL = 1
FOLDERS, SERVERS, CLIENTS, RAWS = [], [], [], []
# Programs that start others, each the first of a group of its own.
GROUPS = []


class Wrong(Exception):
    """What a test found."""


class Late(Exception):
    """A test came to its bound."""


def want(found, expected, what):
    if found != expected:
        raise Wrong(f"{what}: {shown(found)}, and not {shown(expected)}")


def shown(value):
    text = repr(value)
    return text if len(text) <= 200 else f"{text[:200]} .. ({len(text)} bytes)"


def die_with_parent():
    LIBC.prctl(SET_DEATH_SIGNAL, signal.SIGKILL)


def until(is_so, what, seconds=60.0):
    """Looks every hundredth of a second until it is so."""
    end = time.monotonic() + seconds
    while not is_so():
        if time.monotonic() > end:
            raise Late(f"{what}: not after {seconds} s")
        time.sleep(0.01)


def a_folder():
    folder = pathlib.Path(tempfile.mkdtemp(prefix="consortium_live_"))
    FOLDERS.append(folder)
    return folder


def clear():
    """Kills and removes all that is left of a test."""
    for client in CLIENTS:
        client.kill()
    for first in GROUPS:
        # As long as nobody has waited for it, its number is of nobody else.
        if first.returncode is None:
            os.killpg(first.pid, signal.SIGKILL)
    for server in SERVERS:
        server.kill()
        server.wait()
    for raw in list(RAWS):
        raw.close()
    for folder in FOLDERS:
        shutil.rmtree(folder, ignore_errors=True)
    CLIENTS.clear()
    GROUPS.clear()
    SERVERS.clear()
    FOLDERS.clear()


def policy_text(processes, classes=(), sanitise=()):
    """`processes` are pairs of a name and a home or None, `classes` lists of datasets, `sanitise`
    triples of an operation, least and distinct."""
    text = ["version = 2"]
    for number, datasets in enumerate(classes):
        listed = ", ".join(f'"{name}"' for name in datasets)
        text += ["[[class]]", f'name = "class{number}"', f"datasets = [{listed}]"]
    for name, home in processes:
        text += ["[[process]]", f'name = "{name}"'] + ([f'home = "{home}"'] if home else [])
    for op, least, distinct in sanitise:
        text += ["[[sanitise]]", f'op = "{op}"', f"least = {least}", f"distinct = {distinct}"]
    return "\n".join(text) + "\n"


def neutral(count):
    """Processes p0, p1 and so on, without homes."""
    return [(f"p{number}", None) for number in range(count)]


class House:
    """A folder with a policy, the pipes of its processes, and a server that runs on them."""

    def __init__(self, program, processes, classes=(), sanitise=(), book=True):
        self.program, self.names = program, [name for name, _ in processes]
        self.folder = a_folder()
        self.policy, self.book = self.folder / "policy.toml", self.folder / "book.txt"
        self.pipes = self.folder / "pipes"
        self.policy.write_text(policy_text(processes, classes, sanitise), encoding="utf-8")
        self.pipes.mkdir(mode=0o711)
        for name in self.names:
            os.mkfifo(self.pipes / f"{name}.calls", 0o600)
            os.mkfifo(self.pipes / f"{name}.replies", 0o600)
        self.mark()
        self.words = [program, "serve", str(self.policy), str(self.pipes)]
        if book:
            self.words += ["--book", str(self.book)]
        self.out, self.err = self.folder / "out", self.folder / "err"
        self.server = None

    def mark(self):
        """Has the pipes serve one run more, as if they were made anew."""
        (self.pipes / "unused").touch()

    def make_pipes(self):
        """What examples/serve/make_pipes comes to."""
        return subprocess.run([EXAMPLES / "make_pipes", self.policy, self.pipes],
                              env=dict(os.environ, CONSORTIUM=self.program), capture_output=True,
                              text=True, timeout=60, check=False)

    def start(self):
        self.mark()
        with open(self.out, "wb") as out, open(self.err, "wb") as err:
            self.server = subprocess.Popen(self.words, stdin=subprocess.DEVNULL, stdout=out,
                                           stderr=err, preexec_fn=die_with_parent)
        SERVERS.append(self.server)
        first = f"serving {len(self.names)} processes"
        until(lambda: self.server.poll() is not None or self.events(), "the server starts")
        want(self.events()[:1], [first], f"first event ({self.complaint()!r})")
        return self

    def events(self):
        """The finished lines on standard output."""
        return self.out.read_text(encoding="utf-8").split("\n")[:-1]

    def complaint(self):
        return self.err.read_text(encoding="utf-8")

    def await_event(self, begins, seconds=60.0):
        def found():
            return any(line.startswith(begins) for line in self.events())
        until(found, f"event {begins!r}", seconds)
        return next(line for line in self.events() if line.startswith(begins))

    def end(self, status=0):
        """Waits for the server, and gives the lines of its book."""
        until(lambda: self.server.poll() is not None, "the server ends")
        want((self.server.returncode, self.complaint()), (status, ""), "how the server ends")
        return self.book_lines()

    def book_lines(self):
        if not self.book.exists():
            return []
        return self.book.read_text(encoding="utf-8").splitlines()

    def audit(self):
        words = [self.program, "audit", str(self.policy), str(self.book)]
        done = subprocess.run(words, capture_output=True, text=True, timeout=120, check=False)
        entries = len(self.book_lines()) - 2
        want((done.returncode, done.stdout), (0, f"sound {entries}\n"), "the book's audit")

    def connect(self, name, label="public", kind=consortium.Process):
        return kind(str(self.pipes), name, label=label, timeout=60)

    def processor_seconds(self):
        """What the server has used of the processor, its ended threads too."""
        text = pathlib.Path(f"/proc/{self.server.pid}/stat").read_text(encoding="utf-8")
        fields = text.rpartition(")")[2].split()
        return (int(fields[11]) + int(fields[12])) / os.sysconf("SC_CLK_TCK")

    def memory_kib(self, word="VmRSS"):
        for line in pathlib.Path(f"/proc/{self.server.pid}/status").read_text().splitlines():
            if line.startswith(word + ":"):
                return int(line.split()[1])
        raise Wrong(f"no {word}")


def started(house, before=die_with_parent, **streams):
    """The server, with what is to be done before it begins, and these streams."""
    house.mark()
    # (unbuffered: a line that is read must not take those behind it from who reads all at the end)
    server = subprocess.Popen(house.words, preexec_fn=before, bufsize=0, **{
        "stdin": subprocess.DEVNULL, "stdout": subprocess.PIPE, "stderr": subprocess.PIPE,
        **streams})
    SERVERS.append(server)
    house.server = server
    return server


def as_nobody(*limits):
    """What a server does before it begins, so that files and limits bind it."""
    def before():
        die_with_parent()
        if os.geteuid() == 0:
            os.setgroups([])
            os.setgid(NOBODY)
            os.setuid(NOBODY)
        for limit, most in limits:
            resource.setrlimit(limit, (most, most))
    return before


def of_nobody(house):
    """All of a house belongs to nobody, where this is run as root."""
    if os.geteuid() == 0:
        for path in (house.folder, house.policy, house.pipes, *house.pipes.iterdir()):
            os.chown(path, NOBODY, NOBODY)


class Client:
    """An operating system's process that does `work(*args)`, and hands back what it gives."""

    def __init__(self, work, *args):
        sys.stdout.flush()
        sys.stderr.flush()
        self._result, given = os.pipe()
        self._status = None
        self.pid = os.fork()
        if self.pid == 0:
            perform(given, work, args)
        os.close(given)
        CLIENTS.append(self)

    def result(self):
        pieces = []
        while not pieces or pieces[-1]:
            pieces.append(os.read(self._result, 1 << 20))
        self._reap()
        told = b"".join(pieces)
        if not told:
            raise Wrong(f"a client died (status {self._status})")
        is_good, value = pickle.loads(told)
        if not is_good:
            raise Wrong(f"a client failed:\n{value}")
        return value

    def has_ended(self):
        look = os.WEXITED | os.WNOHANG | os.WNOWAIT
        return self._status is not None or os.waitid(os.P_PID, self.pid, look) is not None

    def dies(self):
        """Waits for a client that is to die by SIGKILL before it has anything to hand back."""
        want((os.read(self._result, 1), self._reap()), (b"", signal.SIGKILL), "how a client died")

    def signal(self, number):
        if self._status is None:
            os.kill(self.pid, number)

    def kill(self):
        if self._status is None:
            os.kill(self.pid, signal.SIGKILL)
            self._reap()

    def _reap(self):
        if self._status is None:
            self._status = os.waitpid(self.pid, 0)[1]
            os.close(self._result)
        return self._status


def perform(given, work, args):
    """The life of a client, after the fork. It does not return."""
    try:
        die_with_parent()
        for number in (signal.SIGINT, signal.SIGTERM, signal.SIGHUP, signal.SIGALRM):
            signal.signal(number, signal.SIG_DFL)
        # A copy of the runner's own pipes would keep sessions alive.
        for raw in RAWS:
            if raw not in args:
                raw.close_files()
        try:
            told = (True, work(*args))
        except BaseException:
            told = (False, traceback.format_exc())
        with os.fdopen(given, "wb") as pipe:
            pickle.dump(told, pipe)
    finally:
        os._exit(0)


def all_results(clients):
    return [client.result() for client in clients]


class Raw:
    """The two pipes of a process, as bytes."""

    def __init__(self, house, name):
        path = house.pipes / name
        self.replies = os.open(f"{path}.replies", os.O_RDONLY | os.O_NONBLOCK)
        self.calls = consortium.open_for_writing(f"{path}.calls", 60)
        self._behind = b""
        self._is_joined = False
        RAWS.append(self)

    def send(self, data):
        left = memoryview(data)
        while left:
            left = left[os.write(self.calls, left):]

    def read(self):
        """Bytes as they come; none at the end."""
        if not self._is_joined:
            consortium.await_writer(self.replies)
            self._is_joined = True
        return os.read(self.replies, 1 << 20)

    def line(self):
        while b"\n" not in self._behind:
            more = self.read()
            if not more:
                raise Wrong(f"the session ended, behind {shown(self._behind)}")
            self._behind += more
        line, _, self._behind = self._behind.partition(b"\n")
        return line.decode("ascii")

    def ask(self, line):
        self.send(line.encode("ascii") + b"\n")
        return self.line()

    def close(self):
        self.close_files()
        if self in RAWS:
            RAWS.remove(self)

    def close_files(self):
        for file in (self.calls, self.replies):
            try:
                os.close(file)
            except OSError:
                pass
        self.calls = self.replies = -1


def replayed(program, policy, script, folder):
    """The replies and the book of a replay."""
    path, book = folder / "script.txt", folder / "again.txt"
    path.write_text("".join(line + "\n" for line in script), encoding="ascii")
    words = [program, "replay", str(policy), str(path), "--book", str(book)]
    done = subprocess.run(words, capture_output=True, text=True, timeout=120, check=False)
    want((done.returncode, done.stderr), (0, ""), "how the replay ends")
    return done.stdout.splitlines(), book.read_text(encoding="utf-8").splitlines()
