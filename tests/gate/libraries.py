"""Has `rt must-fail` take the libraries that `rt ci` has just built in the same tree.

`rt ci` builds each library with its statements alone, and marks none as built, since they fit only
the libraries that they were built over. In a tree that one `rt ci` has proved all fit each other: so
each gets the mark that the kit's other commands look for. Without it they would prove every crate
below anew. A crate's mark is written only where its library stands.
"""
import importlib.machinery
import importlib.util
import os
import shutil
import sys


def kit():
    """The kit's own functions, which make that mark."""
    sys.dont_write_bytecode = True
    path = os.path.join(os.path.dirname(os.path.realpath(shutil.which("rt"))), "rtlib.py")
    loader = importlib.machinery.SourceFileLoader("rtlib", path)
    made = importlib.util.module_from_spec(importlib.util.spec_from_loader("rtlib", loader))
    sys.modules["rtlib"] = made
    loader.exec_module(made)
    return made


def mark(tree):
    """Marks the libraries of a tree that `rt ci` has proved, and says how many."""
    rtlib = kit()
    made, seen = rtlib.Crate.stamp, {}

    def stamp(crate):
        # (the kit's reads a library's files once for each way that leads to it)
        if crate.folder not in seen:
            seen[crate.folder] = made(crate)
        return seen[crate.folder]

    rtlib.Crate.stamp = stamp
    os.chdir(tree)
    number = 0
    for crate in rtlib.crates_below(os.getcwd()):
        if os.path.isfile(f"{crate.rlib}/format"):
            with open(f"{os.path.dirname(crate.rlib)}/stamp", "w", encoding="utf-8") as file:
                file.write(crate.stamp())
            number += 1
    return number


if __name__ == "__main__":
    print(f"marked {mark(sys.argv[1])} libraries")
