"""Many processes at once, and random sessions that are judged by a replay."""
import random

from live import consortium
from live import Client, House, Wrong, all_results, neutral, replayed, want

TYPES = {"int8": (-128, 127), "int32": (-(1 << 31), (1 << 31) - 1), "uint16": (0, (1 << 16) - 1),
         "int64": (-(1 << 63), (1 << 63) - 1), "uint64": (0, (1 << 64) - 1)}
OPERATIONS = ["max", "min", "sum", "prod", "land", "lor", "lxor", "band", "bor", "bxor"]


def rounds(house, name, number):
    """Sums over all, and exchanges with both neighbours of a ring."""
    with house.connect(name) as process:
        world, size = process.world, process.world.size
        ring = world.Create_cart([size], [True])
        for turn in range(number):
            got = world.Iallreduce([turn + world.rank]).wait()
            want(got, [turn * size + size * (size - 1) // 2], "a sum")
            got = ring.Ineighbor_alltoall([[turn], [world.rank]], type="int32").wait()
            # What the neighbour at the low side gave upwards, and the one at the high side down.
            want(got, [[(world.rank - 1) % size], [turn]], "a ring")


def so_many(given, count, number):
    house = House(given.program, neutral(count)).start()
    all_results([Client(rounds, house, name, number) for name in house.names])
    house.end()
    house.audit()


def sixty_four_processes(given):
    """64 processes at once."""
    so_many(given, 64, 20)


def most_processes(given):
    """256 processes at once, as many as a policy can have."""
    so_many(given, 256, 4)


# A random session. All processes keep to one plan of collectives, so nobody waits for what cannot
# come; each decides by its own chance when it takes, waits, asks and errs.

def a_plan(rng, ranks, homes, datasets, length):
    """For each rank the lines of its posts, with what makes them count."""
    plan = [[] for _ in range(ranks)]
    comms, made = [(0, list(range(ranks)), 0)], 1
    for _ in range(length):
        roll = rng.random()
        if roll < 0.03:
            for p in range(ranks):
                plan[p].append("post 0 dup")
            comms.append((made, list(range(ranks)), 0))
            made += 1
        elif roll < 0.06:
            some = rng.sample(range(ranks), rng.randint(1, ranks))
            for p in range(ranks):
                plan[p].append("post 0 create " + ",".join(map(str, some)))
            comms.append((made, some, 0))
            made += 1
        elif roll < 0.08 and ranks % 2 == 0:
            periods = rng.choice(["1,0", "0,0", "1,1"])
            for p in range(ranks):
                plan[p].append(f"post 0 cart_create 2,{ranks // 2} {periods}")
            comms.append((made, list(range(ranks)), 2))
            made += 1
        else:
            comm, members, grid = rng.choice(comms)
            for (fields, count, type), p in zip(a_collective(rng, len(members), grid), members):
                tail = elements(rng, type, count, homes[p], datasets)
                plan[p].append(f"post {comm} {fields}{tail}")
    return plan


def a_collective(rng, size, grid):
    """Of each rank kind and fields, how many elements it gives, and their type."""
    type, op, root = rng.choice(list(TYPES)), rng.choice(OPERATIONS), rng.randrange(size)
    count = rng.choice([0, 1, 1, 2, 3, 40])
    at_root = [count if r == root else 0 for r in range(size)]
    some = [rng.choice([0, 1, 2, 9]) for _ in range(size)]
    rows = [[rng.choice([0, 1, 2]) for _ in range(size)] for _ in range(size)]
    slots = [[rng.choice([0, 1, 2]) for _ in range(2 * grid)] for _ in range(size)]
    listed = ",".join(map(str, some))
    table = [
        ("barrier", [0] * size),
        (f"bcast {root} {type} {count}", at_root),
        (f"gather {root} {type} {count}", [count] * size),
        (f"gatherv {root} {type}", some),
        (f"scatter {root} {type} {count}", [size * n for n in at_root]),
        (f"allgather {type} {count}", [count] * size),
        (f"allgatherv {type}", some),
        (f"alltoall {type} {count}", [size * count] * size),
        (f"reduce {root} {op} {type} {count}", [count] * size),
        (f"allreduce {op} {type} {count}", [count] * size),
        (f"reduce_scatter {op} {type} {listed}", [sum(some)] * size),
        (f"reduce_scatter_block {op} {type} {count}", [size * count] * size),
        (f"scan {op} {type} {count}", [count] * size),
        (f"exscan {op} {type} {count}", [count] * size),
    ]
    own = [
        [(f"alltoallv {type} " + ",".join(map(str, row)), sum(row), type) for row in rows],
        [(f"scatterv {root} {type} " + (listed if r == root else "-"),
          sum(some) if r == root else 0, type) for r in range(size)],
    ]
    if grid:
        table += 2 * [(f"neighbor_allgather {type} {count}", [count] * size),
                      (f"neighbor_allgatherv {type}", some),
                      (f"neighbor_alltoall {type} {count}", [2 * grid * count] * size)]
        own.append([(f"neighbor_alltoallv {type} " + ",".join(map(str, row)), sum(row), type)
                    for row in slots])
    if rng.random() < 0.2:
        return rng.choice(own)
    fields, given = rng.choice(table)
    return [(fields, n, type) for n in given]


def elements(rng, type, count, home, datasets):
    if not count:
        return ""
    label = home if home and rng.random() < 0.97 else "public"
    if home is None and datasets and rng.random() < 0.02:
        label = rng.choice(datasets)
    low, top = TYPES[type]
    return f" as {label} " + " ".join(str(rng.randint(low, top)) for _ in range(count))


ASIDE = [("info 0", None), ("info 700", None), ("take 999999", None), ("wait 999999", None),
         ("post 0 bcast 777 int32 1", None), ("post 900 barrier", None),
         ("post 0 alltoall int8 1 as public", None), ("hello", "bad BadVerb"), ("", "bad BadShape"),
         ("take -1", "bad BadField"), ("post 0 allgatherv int8 as public 999", "bad BadNumber")]


def plays(house, name, plan, seed, seen):
    """Adds each line that the process wrote, with its reply; the last may have none."""
    rng, left = random.Random(seed), []
    with house.connect(name) as process:
        seen.append(("info 0", f"info size {len(house.names)} rank {process.world.rank}"))

        def ask(line):
            seen.append((line, None))
            seen[-1] = (line, process.ask(line))
            return seen[-1][1]

        for line in plan:
            word, request = ask(line).split()[:2]
            want(word in ("posted", "barred"), True, f"whether {line!r} counts")
            left.append(int(request))
            if line.split()[2] in ("dup", "create", "cart_create"):
                # Before the outcome the communicator may not be there.
                ask(f"wait {left.pop()}")
            while left and rng.random() < 0.5:
                at = rng.randrange(len(left))
                if ask(f"{rng.choice(['take', 'wait'])} {left[at]}") != "pending":
                    left.pop(at)
            if rng.random() < 0.15:
                aside, answer = rng.choice(ASIDE)
                reply = ask(aside)
                if answer is not None:
                    want(reply, answer, f"answer to {aside!r}")
            while len(left) > 60:
                ask(f"wait {left.pop(0)}")
        for request in left:
            ask(f"wait {request}")
    return seen


def plays_on(house, name, plan, seed):
    """Each line that the process wrote, with its reply, to the end of the session."""
    seen = []
    plays(house, name, plan, seed, seen)
    return seen


def counts(reply):
    return reply.split(" ", 1)[0] in ("posted", "barred")


class Order:
    """The calls of all processes in an order that the book allows: each that is no post of the book
    stands as early as it may, behind the post that settled what it was told of."""

    def __init__(self, book):
        self.posts = []                     # (process, communicator) of each post of the book
        self.settled = {}                   # (communicator, instance): behind how many posts
        self.made = {0: 0}                  # communicator: behind how many posts
        self.instances = []                 # of each process, (communicator, instance) by request
        counts_of = {}
        for line in book[1:-1]:
            words = line.split()
            if words[0] == "post":
                p, comm = int(words[1]), int(words[2])
                self.posts.append((p, comm))
                while len(self.instances) <= p:
                    self.instances.append([])
                k = counts_of.get((p, comm), 0)
                counts_of[p, comm] = k + 1
                self.instances[p].append((comm, k))
            else:
                self.settled[int(words[1]), int(words[2])] = len(self.posts)
                if words[3] == "made":
                    for comm in range(int(words[4]), int(words[4]) + int(words[5])):
                        self.made[comm] = len(self.posts)

    def earliest(self, p, line, reply):
        """Behind how many posts of the book a call that is none of them stands at the earliest."""
        words = line.split()
        if words[0] in ("take", "wait"):
            if reply == "pending" or reply.startswith("refused"):
                return 0
            return self.settled[self.instances[p][int(words[1])]]
        if words[0] in ("post", "info") and reply != "refused NoSuchComm":
            return self.made.get(int(words[1]), 0)
        return 0

    def merged(self, seen):
        """Lines of a script with their replies. To its last line a process may have read none, if
        the server was killed: a post that the book has is in the script all the same."""
        # Behind so many posts of the book, the calls that are no posts of it.
        others = [[] for _ in range(len(self.posts) + 1)]
        places = [[] for _ in seen]
        for at, (p, _) in enumerate(self.posts):
            places[p].append(at)
        counted = []
        for p, calls in enumerate(seen):
            now, mine = 0, iter(places[p])
            for line, reply in calls:
                if reply is None:
                    at = next(mine, None) if line.startswith("post ") else None
                    if at is not None:
                        counted.append((at, (f"post {p} {line[5:]}", None)))
                    continue
                if reply.startswith("bad "):
                    continue
                verb, _, rest = line.partition(" ")
                call = (f"{'take' if verb == 'wait' else verb} {p} {rest}", reply)
                if line.startswith("post ") and counts(reply):
                    at = next(mine, None)
                    if at is None:
                        raise Wrong(f"process {p} posted more than the book has")
                    if at < now:
                        raise Wrong(f"process {p} was told of post {now} before its post {at}")
                    counted.append((at, call))
                    now = at + 1
                else:
                    now = max(now, self.earliest(p, line, reply))
                    others[now].append(call)
            if next(mine, None) is not None:
                raise Wrong(f"the book has more posts of process {p} than it made")
        counted.sort(key=lambda pair: pair[0])
        order = list(others[0])
        for (_, call), behind in zip(counted, others[1:]):
            order += [call] + behind
        return order


def random_sessions(given):
    """Random sessions, whose replies and book are those of a replay in the order of the book."""
    for round_number, (ranks, length) in enumerate([(8, 500), (5, 300), (12, 150)]):
        rng = random.Random(1000 * given.seed + round_number)
        classes = [["alpha", "beta"], ["umbra"]][: rng.randint(1, 2)]
        datasets = [name for of_class in classes for name in of_class]
        # Few homes, so that most is granted.
        homes = [rng.choice([None, None, datasets[0], datasets[-1]]) for _ in range(ranks)]
        processes = [(f"p{p}", home) for p, home in enumerate(homes)]
        house = House(given.program, processes, classes, [("sum", 3, 1)]).start()
        plan = a_plan(rng, ranks, homes, datasets, length)
        clients = [Client(plays_on, house, name, plan[p], rng.random())
                   for p, name in enumerate(house.names)]
        seen = all_results(clients)
        book = house.end()
        house.audit()
        order = Order(book).merged(seen)
        replies, again = replayed(given.program, house.policy, [line for line, _ in order],
                                  house.folder)
        for (line, reply), due in zip(order, replies):
            want(reply, due, f"seed {given.seed}, reply to {line[:60]!r}")
        want((len(replies), again == book), (len(order), True), "the replay's replies and book")


TESTS = [random_sessions, sixty_four_processes, most_processes]
