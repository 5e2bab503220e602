"""Which edits a run of the gate tries: those that are owed, and crates drawn by the commit."""
import hashlib

import records

# At least so many edits are drawn, however little changed.
LEAST = 40


def owed(states):
    """The crates whose edits were never seen refused as they stand."""
    return [name for name, state in states.items() if state in (records.NEVER, records.CHANGED)]


def drawn(states, numbers, commit, least=LEAST):
    """Crates that are not owed, until they have so many edits: first those above a change, then all
    others, each in the order of the hash of the commit and their name."""
    def place(name):
        return states[name] != records.BELOW, hashlib.sha256(f"{commit} {name}".encode()).digest()

    chosen, edits = [], 0
    late = owed(states)
    for name in sorted((it for it in states if it not in late), key=place):
        if edits >= least:
            break
        chosen.append(name)
        edits += numbers[name]
    return chosen
