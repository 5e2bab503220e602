"""The table of growths, tests/growths.txt: how many allocations a row of a script asks for.

A growth that is asked for though there is room, or twice, changes nothing that a contract could
name: it may be refused, and then a call is out of memory that need not be. So each row's number is
kept, and one that differs is a failure, until somebody has explained it and written it down, by
`--write` of the script whose row it is.
"""
import pathlib

TABLE = pathlib.Path(__file__).resolve().parent.parent / "growths.txt"
HEAD = """# How many allocations each row asks for: those of [calls] by tests/growths, one number for each
# call; the others by the script of that name. A number that changes is to be explained, and then
# written by that script with --write.
"""


def sections():
    """The table: for each script its rows, in order."""
    found, rows = {}, None
    for line in TABLE.read_text(encoding="utf-8").splitlines() if TABLE.is_file() else []:
        if line.startswith("["):
            rows = found.setdefault(line[1:-1], {})
        elif line and not line.startswith("#"):
            row, _, counts = line.rpartition(": ")
            rows[row] = counts
    return found


class Growths:
    """What a script counts, beside its part of the table."""

    def __init__(self, section, is_written):
        self.section, self.is_written, self.counted = section, is_written, {}

    def see(self, row, counts):
        if row in self.counted:
            raise ValueError(f"two rows {row}")
        self.counted[row] = str(counts)

    def end(self):
        """How many rows are as they were, and how many are not; each of those is told."""
        if self.is_written:
            self.write()
        stored = sections().get(self.section, {})
        wrong = 0
        for row in [*self.counted, *(row for row in stored if row not in self.counted)]:
            found, kept = self.counted.get(row, "no such row"), stored.get(row, "not in the table")
            if found != kept:
                wrong += 1
                print(f"WRONG: growths of {row}: {found}, and not {kept}")
        return len(self.counted) - wrong if wrong < len(self.counted) else 0, wrong

    def write(self):
        found = sections()
        found[self.section] = self.counted
        parts = [f"[{name}]\n" + "".join(f"{row}: {counts}\n" for row, counts in found[name].items())
                 for name in sorted(found)]
        TABLE.write_text(HEAD + "\n" + "\n".join(parts), encoding="utf-8")
