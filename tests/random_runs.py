#!/usr/bin/env python3
"""Runs random scripts by `consortium run`, and judges each book and each reply.

    tests/random_runs.py PROGRAM [--runs N] [--seed N] [--ranks N] [--processors 0,1]

Each script is for 1 to 12 ranks, or for as many as are named, and has collectives of most kinds, constructors of communicators
and grids, refused calls, denials, wide deliveries, and takes out of order. Every rank posts its
collectives in one order, and takes only what it has posted, so nobody waits for ever. Of each run
it is wanted that

- it ends with status 0, within 60 seconds, with nothing on standard error, and for each rank with
  its number and name and one reply for each call;
- its book audits as sound, with as many entries as it has lines;
- each reply is the one that is due: the calls, put into the order of the book, each take just before
  its rank's next counted post, are replayed, and give the same replies.

The scripts follow from the seed, which is told of a run that is wrong. The last line is
`N passed, M failed`.
"""
import argparse
import os
import random
import subprocess
import sys
import tempfile

# No longer script is read.
LONGEST = 16 * 1024 * 1024
TYPES = {"int8": 100, "int32": 10_000, "int64": 10_000, "uint8": 200, "uint16": 10_000}
OPERATIONS = ["max", "min", "sum", "prod", "band", "bxor"]


def policy_of(rng, ranks):
    text, datasets = ["version = 1"], []
    for c in range(rng.randint(0, 3)):
        of_class = [f"d{c}{i}" for i in range(rng.randint(1, 3))]
        datasets += of_class
        listed = ", ".join(f'"{d}"' for d in of_class)
        text += ["[[class]]", f'name = "c{c}"', f"datasets = [{listed}]"]
    homes = []
    # Half of all policies have all ranks at home with one dataset or none, so that most is granted.
    few = datasets[:1] if rng.random() < 0.5 else datasets
    for p in range(ranks):
        home = rng.choice(few) if few and rng.random() < 0.7 else None
        homes.append(home)
        text += ["[[process]]", f'name = "p{p}"'] + ([f'home = "{home}"'] if home else [])
    if rng.random() < 0.5:
        text += ["[[sanitise]]", 'op = "sum"', f"least = {rng.randint(2, 4)}"]
    return "\n".join(text) + "\n", datasets, homes


def collective(rng, size, grid, wide):
    """(fields of the signature, own fields and elements of each rank, type)"""
    ty = rng.choice(list(TYPES))
    # A post has 65,536 elements at most: one that is refused would shift the numbers of all later requests.
    count = rng.choice([0, 1, 1, 2, 3]) if not wide else min(rng.choice([600, 2000]), 65536 // size)
    op, root = rng.choice(OPERATIONS), rng.randrange(size)
    kinds = ["barrier", "bcast", "gather", "gatherv", "scatter", "allgather", "allgatherv", "alltoall",
             "alltoallv", "reduce", "allreduce", "reduce_scatter", "reduce_scatter_block", "scan", "exscan"]
    if grid:
        kinds += 3 * ["neighbor_allgather", "neighbor_alltoall"]
    kind = rng.choice(kinds)
    at_root = [count if r == root else 0 for r in range(size)]
    several = [rng.choice([0, 1, 2]) for _ in range(size)]
    table = {
        "barrier": ("", None),
        "bcast": (f"{root} {ty} {count}", at_root),
        "gather": (f"{root} {ty} {count}", [count] * size),
        "gatherv": (f"{root} {ty}", several),
        "scatter": (f"{root} {ty} {count}", [size * n for n in at_root]),
        "allgather": (f"{ty} {count}", [count] * size),
        "allgatherv": (ty, several),
        "alltoall": (f"{ty} {count}", [size * count] * size),
        "alltoallv": (ty, None),
        "reduce": (f"{root} {op} {ty} {count}", [count] * size),
        "allreduce": (f"{op} {ty} {count}", [count] * size),
        "reduce_scatter": (f"{op} {ty} " + ",".join(map(str, several)), [sum(several)] * size),
        "reduce_scatter_block": (f"{op} {ty} {count}", [size * count] * size),
        "scan": (f"{op} {ty} {count}", [count] * size),
        "exscan": (f"{op} {ty} {count}", [count] * size),
        "neighbor_allgather": (f"{ty} {count}", [count] * size),
        "neighbor_alltoall": (f"{ty} {count}", [2 * grid * count] * size),
    }
    fields, given = table[kind]
    if kind == "alltoallv":
        rows = [[rng.choice([0, 1, 2]) for _ in range(size)] for _ in range(size)]
        return [(f"{kind} {ty} " + ",".join(map(str, row)), sum(row), ty) for row in rows]
    if kind == "barrier":
        return [("barrier", 0, None)] * size
    return [(f"{kind} {fields}", n, ty) for n in given]


def numbers(rng, ty, count):
    return " ".join(str(rng.randrange(TYPES[ty])) for _ in range(count))


def scripts_of(rng, ranks, datasets, homes):
    """The acts of each rank."""
    acts = [[] for _ in range(ranks)]
    given, open_ones = [0] * ranks, [[] for _ in range(ranks)]
    comms, made = [(0, list(range(ranks)), 0)], 1

    def post(p, comm, rest):
        acts[p].append(f"post {p} {comm} {rest}")
        open_ones[p].append(given[p])
        given[p] += 1

    def take(p, at):
        acts[p].append(f"take {p} {open_ones[p].pop(at)}")

    for _ in range(rng.randint(1, 30)):
        roll = rng.random()
        if roll < 0.06:
            for p in range(ranks):
                post(p, 0, "dup")
                take(p, len(open_ones[p]) - 1)
            comms.append((made, list(range(ranks)), 0))
            made += 1
        elif roll < 0.12 and ranks > 1:
            members = rng.sample(range(ranks), rng.randint(1, ranks))
            for p in range(ranks):
                post(p, 0, "create " + ",".join(map(str, members)))
                take(p, len(open_ones[p]) - 1)
            comms.append((made, members, 0))
            made += 1
        elif roll < 0.17 and ranks % 2 == 0:
            for p in range(ranks):
                post(p, 0, f"cart_create 2,{ranks // 2} {rng.choice(['1,0', '0,0', '1,1'])}")
                # Not one grid: periods differ, so what the first rank says is taken by all.
            flags = acts[0][-1].split()[-1]
            for p in range(ranks):
                acts[p][-1] = f"post {p} 0 cart_create 2,{ranks // 2} {flags}"
                take(p, len(open_ones[p]) - 1)
            comms.append((made, list(range(ranks)), 2))
            made += 1
        else:
            comm, members, grid = rng.choice(comms)
            lines = collective(rng, len(members), grid, rng.random() < 0.08)
            for r, p in enumerate(members):
                fields, count, ty = lines[r]
                label = homes[p] if homes[p] and rng.random() < 0.9 else "public"
                if homes[p] is None and datasets and rng.random() < 0.3:
                    label = rng.choice(datasets)
                tail = f" as {label} {numbers(rng, ty, count)}" if count else ""
                post(p, comm, fields + tail)
        for p in range(ranks):
            if rng.random() < 0.1:
                acts[p].append(rng.choice([f"info {p} 0", f"info {p} 700", f"take {p} 999999",
                                           f"post {p} 0 bcast 777 int32 1", f"post {p} 900 barrier"]))
            while open_ones[p] and rng.random() < 0.5:
                take(p, rng.randrange(len(open_ones[p])))
    for p in range(ranks):
        while open_ones[p] and rng.random() < 0.95:
            take(p, rng.randrange(len(open_ones[p])))
    return acts


def merged(rng, acts):
    """One script, each rank's acts in order."""
    left, lines = [list(reversed(a)) for a in acts], []
    while any(left):
        p = rng.choice([p for p, a in enumerate(left) if a])
        lines.append(left[p].pop())
    return "\n".join(lines) + "\n"


def replies_of(text, ranks):
    """The replies of each rank, in what `run` prints; none if a rank is not called by its number and name."""
    replies = []
    for line in text.splitlines():
        if line.startswith("rank "):
            if line != f"rank {len(replies)} p{len(replies)}":
                return None
            replies.append([])
        elif not replies:
            return None
        else:
            replies[-1].append(line)
    return replies if len(replies) == ranks else None


def by_the_book(book, acts, replies):
    """The calls in the order of the book, with the rank of each and the reply that it got."""
    at, calls = [0] * len(acts), []

    def go(p):
        line, reply = acts[p][at[p]], replies[p][at[p]]
        calls.append((line, reply))
        at[p] += 1
        return line.startswith("post ") and reply.split()[0] in ("posted", "barred")

    for line in book.splitlines():
        if line.startswith("post "):
            p = int(line.split()[1])
            while not go(p):
                pass
    for p in range(len(acts)):
        while at[p] < len(acts[p]):
            go(p)
    return calls


def run(words, processors):
    before = ["taskset", "-c", processors] if processors else []
    return subprocess.run(before + words, capture_output=True, text=True, timeout=60)


def judge(program, seed, folder, ranks, processors):
    """None, or what is wrong."""
    rng = random.Random(seed)
    ranks = ranks or rng.choice([1, 2, 3, 4, 5, 6, 8, 12])
    text, datasets, homes = policy_of(rng, ranks)
    acts = scripts_of(rng, ranks, datasets, homes)
    script = merged(rng, acts)
    while len(script) > LONGEST:
        acts = scripts_of(rng, ranks, datasets, homes)
        script = merged(rng, acts)
    paths = {n: os.path.join(folder, n) for n in ("policy", "script", "book", "again")}
    for name, content in (("policy", text), ("script", script)):
        with open(paths[name], "w", encoding="utf-8") as f:
            f.write(content)
    ran = run([program, "run", paths["policy"], paths["script"], "--book", paths["book"]], processors)
    if ran.returncode or ran.stderr:
        return f"status {ran.returncode}: {ran.stderr.strip()}"
    replies = replies_of(ran.stdout, ranks)
    if replies is None or [len(r) for r in replies] != [len(a) for a in acts]:
        return "not one reply for each call"
    audited = run([program, "audit", paths["policy"], paths["book"]], None)
    with open(paths["book"], encoding="utf-8") as f:
        book = f.read()
    if (audited.returncode, audited.stdout, audited.stderr) != (0, f"sound {book.count(chr(10)) - 2}\n", ""):
        return f"the book is not sound: {audited.stdout.strip()} {audited.stderr.strip()}"
    calls = by_the_book(book, acts, replies)
    with open(paths["again"], "w", encoding="utf-8") as f:
        f.write("".join(line + "\n" for line, _ in calls))
    again = run([program, "replay", paths["policy"], paths["again"]], None)
    if again.returncode or again.stderr:
        return f"the replay ends with {again.returncode}: {again.stderr.strip()}"
    due = again.stdout.splitlines()
    for (line, reply), other in zip(calls, due):
        if reply != other:
            return f"{line[:60]} got {reply[:60]}, and {other[:60]} is due"
    return None if len(due) == len(calls) else "the replay is shorter"


def main():
    a = argparse.ArgumentParser()
    a.add_argument("program")
    a.add_argument("--runs", type=int, default=1000)
    a.add_argument("--seed", type=int, default=0)
    a.add_argument("--ranks", type=int)
    a.add_argument("--processors")
    a = a.parse_args()
    wrong = 0
    with tempfile.TemporaryDirectory(prefix="runs-") as folder:
        for seed in range(a.seed, a.seed + a.runs):
            try:
                found = judge(os.path.abspath(a.program), seed, folder, a.ranks, a.processors)
            except subprocess.TimeoutExpired:
                found = "it took longer than 60 seconds"
            if found:
                wrong += 1
                print(f"seed {seed}: {found}", flush=True)
    print(f"{a.runs - wrong} passed, {wrong} failed")
    return 1 if wrong else 0


if __name__ == "__main__":
    sys.exit(main())
