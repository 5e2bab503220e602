"""What of a crate's must-fail edits was seen refused, and when: crates/NAME/must-fail/TRIED.md.

A record has two sums. `own` is over what decides whether the edits are refused: the crate's src,
specs, proofs and edits, and its line of crates.txt. `below` is over the src and specs of all crates
below it and the logic that `rt version` names: a proof file below decides nothing above. A record
whose sums do not fit counts as none.
"""
import datetime
import hashlib
import re
import subprocess

NAME = "TRIED.md"
HEAD = "Written by `tests/try_edits`, which had just seen each edit here refused at a goal.\n\n"
# (a gate elsewhere saw it; its own record went with its checkout)
TAKEN = "Taken from what a gate printed, which had just seen each edit here refused at a goal.\n\n"
FORM = re.compile(
    f"(?:{re.escape(HEAD)}|{re.escape(TAKEN)})"
    + r"    own ([0-9a-f]{64})\n    below ([0-9a-f]{64})\n    refused (\d+)\n    on (\d{4}-\d\d-\d\d)\n"
)
# A record as a gate prints it.
LINE = re.compile(
    r"record (\w+) own ([0-9a-f]{64}) below ([0-9a-f]{64}) refused (\d+) on (\d{4}-\d\d-\d\d)$", re.M
)
# What is known of a crate's edits, the most doubtful first.
NEVER, CHANGED, BELOW, SEEN = "never seen", "changed", "changed below", "seen"


def crates_of(top):
    """Each crate with its line of crates.txt and the crates right below it, in the file's order."""
    found = {}
    for line in (top / "crates.txt").read_text(encoding="utf-8").splitlines():
        head, colon, below = line.partition(":")
        if colon and not line.startswith("#"):
            found[head.split()[0]] = (line, below.split())
    return {name: (line, [it for it in below if it in found]) for name, (line, below) in found.items()}


def all_below(crates, name, seen=None):
    """The names of all crates below this one."""
    seen = set() if seen is None else seen
    for it in crates[name][1]:
        if it not in seen:
            seen.add(it)
            all_below(crates, it, seen)
    return seen


def edits_of(top, name):
    return sorted((top / "crates" / name / "must-fail").glob("*.edit"))


def add_files(total, top, name, parts):
    """Adds the files of these folders of a crate to a sum, each with its path and length."""
    crate = top / "crates" / name
    for part in parts:
        for file in sorted(it for it in (crate / part).rglob("*") if it.is_file()):
            if file.name != NAME:
                content = file.read_bytes()
                total.update(f"{name}/{file.relative_to(crate)} {len(content)}\n".encode())
                total.update(content)


def logic():
    """The logic that the toolchain names, as `rt version` prints it."""
    said = subprocess.run(["rt", "version"], capture_output=True, text=True, check=True).stdout
    return re.search(r"logic \w+", said)[0]


def sums_of(top, crates, name, by):
    """Both sums of a crate as it stands, under this logic."""
    own, below = hashlib.sha256(crates[name][0].encode()), hashlib.sha256(by.encode())
    add_files(own, top, name, ("src", "specs", "proofs", "must-fail"))
    for it in sorted(all_below(crates, name)):
        add_files(below, top, it, ("src", "specs"))
    return own.hexdigest(), below.hexdigest()


def state_of(top, crates, name, by):
    """What is known of a crate's edits."""
    try:
        text = (top / "crates" / name / "must-fail" / NAME).read_text(encoding="utf-8")
    except OSError:
        return NEVER
    found = FORM.fullmatch(text)
    if not found or int(found[3]) != len(edits_of(top, name)):
        return CHANGED
    own, below = sums_of(top, crates, name, by)
    if found[1] != own:
        return CHANGED
    return SEEN if found[2] == below else BELOW


def today():
    return datetime.date.today().isoformat()


def line(name, sums, refused):
    """The record of a crate whose edits were all refused, over files with these sums, in a line."""
    return f"record {name} own {sums[0]} below {sums[1]} refused {refused} on {today()}"


def write(top, name, sums, refused, day=None):
    """Writes that record: of today, seen here, or of another day, taken from what a gate printed."""
    text = f"{TAKEN if day else HEAD}    own {sums[0]}\n    below {sums[1]}\n    refused {refused}\n"
    text += f"    on {day or today()}\n"
    (top / "crates" / name / "must-fail" / NAME).write_text(text, encoding="utf-8")
