#!/usr/bin/env python3
"""Tries must-fail edits of crates, those of different functions in one check.

    tests/gate/together.py TREE NAME ..    in the words of `rt must-fail`, a line an edit

Each check of the kit begins by reading a thousand modules of statements, which is a good part of
what an edit costs. A function is proved by its own body and by the contracts of those that it calls. So
edits that change the bodies of different functions can be tried in one check, and the check says of
each function whether it is proved. An edit counts as refused there only where its own function was
not proved, at a goal that the check names. One whose function waits for the proof of another that is
edited too is tried once more without that. All others are tried alone, by the kit's own function:
those that change no body, or that of more than one function, those that are proved or not known to
be refused, and all of a check that came to no end.
"""
import importlib.machinery
import importlib.util
import os
import re
import shutil
import sys
import threading
from concurrent.futures import ThreadPoolExecutor

from rounds import processors

# So many edits are tried in one check at most, and so often before the rest are tried alone.
MOST, OFTEN = 10, 3

HEAD = re.compile(r"^( *)(?:pub(?:\([a-z]+\))? )?fn (\w+)")
STATUS = re.compile(r"^fn (\S+): (.*)$")
WAITS = "no proof: it calls"


def kit():
    """The kit's command `rt`, as a module."""
    sys.dont_write_bytecode = True
    loader = importlib.machinery.SourceFileLoader("rt_kit", os.path.realpath(shutil.which("rt")))
    made = importlib.util.module_from_spec(importlib.util.spec_from_loader("rt_kit", loader))
    loader.exec_module(made)
    return made


def bodies(text):
    """The functions of a source as `rt fmt` lays it out: name, and first and last line of the body."""
    lines, found = text.split("\n"), []
    for first, line in enumerate(lines):
        head = HEAD.match(line)
        if not head:
            continue
        opens = first
        if not line.endswith(" {"):
            ends = (f"{head[1]}{{", f"{head[1]}) {{")
            closes = lambda it: it in ends or re.match(rf"{head[1]}\) -> .*{{$", it)
            opens = next((at for at in range(first + 1, len(lines)) if closes(lines[at])), None)
        last = next((at for at in range(first + 1, len(lines)) if lines[at] == f"{head[1]}}}"), None)
        if opens is not None and last is not None and opens < last:
            found.append((head[2], opens + 1, last - 1))
    return found


class Edit:
    """An edit: what it puts in place of what, and the one function whose body it changes, if it is
    one."""

    def __init__(self, path, folder):
        self.path, self.name, self.pairs, self.body = path, os.path.basename(path), [], None
        with open(path, encoding="utf-8", errors="replace") as file:
            lines = file.read().split("\n")
        where, old = "", ""
        for line in lines:
            if line.startswith("file: "):
                where = line[len("file: "):].strip()
            elif line.startswith("old: "):
                old = line[len("old: "):]
            elif line.startswith("new:"):
                self.pairs.append((where, old, line[len("new:"):].removeprefix(" ")))
        files = {it[0] for it in self.pairs}
        if len(files) == 1 and where.startswith("src/") and os.path.isfile(f"{folder}/{where}"):
            with open(f"{folder}/{where}", encoding="utf-8") as file:
                self.look(file.read())

    def look(self, text):
        """Finds the function."""
        every, found = bodies(text), set()
        for where, old, _ in self.pairs:
            if text.count(old) != 1:
                return
            at = text[: text.index(old)].count("\n")
            inside = [it for it in every if it[1] <= at <= it[2]]
            if len(inside) != 1:
                return
            found.add((where, *inside[0]))
        if len(found) == 1:
            self.body = found.pop()

    def put(self, texts, folder):
        """Makes the edit in these texts. False where they have no room for it."""
        made = dict(texts)
        for where, old, new in self.pairs:
            if where not in made:
                with open(f"{folder}/{where}", encoding="utf-8") as file:
                    made[where] = file.read()
            if made[where].count(old) != 1:
                return False
            made[where] = made[where].replace(old, new)
        texts.update(made)
        return True


def groups(edits, number):
    """Edits of different functions, in this many groups or more."""
    made = [[] for _ in range(max(1, number))]
    for edit in edits:
        free = (it for it in made if len(it) < MOST and edit.body not in [one.body for one in it])
        room = min(free, key=len, default=None)
        if room is None:
            made.append([edit])
        else:
            room.append(edit)
    return [it for it in made if it]


def said_of(crate, edit, lines):
    """The one function that the check names as the edit's, and what it says of it."""
    where, name, _, _ = edit.body
    parts = [it for it in where[len("src/"):-len(".rt")].split("/") if it not in ("lib", "main", "mod")]
    start, found = "::".join([crate.name, *parts]) + "::", []
    for line in lines:
        status = STATUS.match(line)
        if status and status[1].startswith(start):
            rest = status[1][len(start):].split("::")
            if rest[-1] == name and len(rest) <= 2 and rest[0] != "fn":
                found.append((status[1], status[2]))
    return found[0] if len(found) == 1 else (None, "")


def goal_of(edit, full, lines):
    """The first goal of the edit's function that the check could not prove, in its words; none where
    it only misses a name."""
    where, _, first, last = edit.body
    proofs = "proofs/" + "/".join(full.split("::")[1:]) + "/"
    told = []
    for line in lines:
        at = re.match(r"(?:note: )?(?:\./)?(\S+?):(\d+):\d+:", line)
        if at and (at[1].startswith(proofs) or at[1] == where and first <= int(at[2]) - 1 <= last):
            told.append(line)
    told = [it for it in told if ": error" in it or it.startswith("note: ")] or told
    names = r"(note: )?(\./)?proofs/.*(has no field|is not in scope|has no `|was not admitted)"
    first = next((it for it in told if not re.match(names, it)), "")
    return first or ("" if told else "its goals are not proved")


class Crate:
    """A crate of the tree, whose edits are tried."""

    def __init__(self, rt, crate, slots, jobs):
        self.rt, self.crate, self.slots = rt, crate, slots
        self.flags, self.jobs, self.told = ["--jobs", "1"], jobs, {}
        self.edits = [Edit(it, crate.folder) for it in rt.edits_of(crate)[0]]

    def over_seed(self, call):
        """A call over a copy of what the crate's own check has kept."""
        with self.slots:
            number = next(self.numbers)
            over = f"{self.room}/{number}"
            try:
                self.rt.linked(f"{self.room}/seed", over)
                return call(over)
            finally:
                shutil.rmtree(over, ignore_errors=True)

    def together(self, edits):
        """Tries edits of different functions in one check."""
        texts, tried = {}, []
        for edit in edits:
            if edit.put(texts, self.crate.folder):
                tried.append(edit)
        ran = self.over_seed(lambda over: self.rt.checked(self.crate, texts, self.flags, over))
        lines = ran.stdout.rstrip("\n").split("\n")
        ends = ran.returncode == 1 and lines[-1].startswith("logic=not-proved")
        if not ends or any(self.rt.unread(it, texts) for it in lines) or self.rt.rtlib.STALE.search(ran.stdout):
            return
        for edit in tried:
            full, words = said_of(self.crate, edit, lines)
            is_open = words == "not proved" or words.startswith("no proof: expected answers")
            goal = goal_of(edit, full, lines) if is_open else ""
            if goal:
                self.told[edit.name] = f"refused, as it must be: {goal[:160]}"
            elif not words.startswith(WAITS):
                edit.body = None

    def alone(self, edit):
        """Tries an edit by itself, as `rt must-fail` does."""
        must_fail = lambda over: self.rt.must_fail(self.crate, edit.path, self.flags, over)
        tried = self.over_seed(must_fail)
        if tried[0] not in self.rt.SETTLED:
            with self.slots:
                tried = must_fail(None)
        self.told[edit.name] = tried[1].partition(": ")[2]

    def left(self):
        """Those of one function each that nothing is known of yet."""
        return [it for it in self.edits if it.body and it.name not in self.told]

    def try_all(self):
        try:
            self.try_each()
        except (OSError, shutil.Error) as error:
            # (nothing is told of it then)
            self.told = {}
            print(f"{self.crate.name}: {error}", flush=True)

    def try_each(self):
        start, self.numbers = f"{self.crate.folder}/out/incremental", iter(range(10**9))
        with self.slots:
            jobs = ["--jobs", str(self.jobs)]
            self.room = self.rt.seeded(self.crate, jobs, start if os.path.isdir(start) else None)
        if not self.room:
            return
        files = self.rt.listing(f"{self.room}/seed")
        with ThreadPoolExecutor(processors()) as pool:
            for _ in range(OFTEN):
                left = self.left()
                number = max(-(-len(left) // MOST), min(processors(), len(left) // 2))
                list(pool.map(self.together, groups(left, number)))
                if len(self.left()) in (0, len(left)):
                    break
            list(pool.map(self.alone, [it for it in self.edits if it.name not in self.told]))
        with self.slots:
            same = self.rt.listing(f"{self.room}/seed") == files
            if not same or self.rt.checked(self.crate, {}, self.flags, f"{self.room}/seed").returncode:
                # (what was tried over it counts for nothing)
                self.told = {}
        shutil.rmtree(self.room, ignore_errors=True)


def main(tree, names):
    rt = kit()
    os.chdir(tree)
    os.environ.pop(rt.rtlib.ALLOW_C, None)
    rt.rtlib.guarded()
    # (what other checkouts here have proved of the same files serves too)
    rt.share_work(False)
    crates = [it for it in rt.rtlib.crates_below(os.getcwd()) if it.name in names]
    slots = threading.Semaphore(processors())
    for crate in crates:
        for low in crate.below():
            if low.build_rlib(["--jobs", str(processors())], anew=False):
                return 1
    tried = [Crate(rt, it, slots, max(1, processors() // len(crates))) for it in crates]
    with ThreadPoolExecutor(len(tried) or 1) as pool:
        list(pool.map(Crate.try_all, tried))
    for it in tried:
        for edit, words in sorted(it.told.items()):
            print(f"must-fail {it.crate.name}/{edit}: {words}")
    return 0


if __name__ == "__main__":
    sys.exit(main(sys.argv[1], sys.argv[2:]))
