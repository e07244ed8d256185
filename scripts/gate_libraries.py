#!/usr/bin/env python3
"""Lets `rt lib` take the libraries that the gate has just built. For ./test.

usage: gate_libraries.py CRATE

The gate leaves the library of each crate that it proved in crates/*/out/rlib, without the stamp by
which the kit's other commands know a library that is up to date. This writes the stamps of all
crates below CRATE. It is run after a gate that passed, over the same files. Otherwise all these
crates would be proved a second time.

Status 1: a library is not there, or this kit tells no stamp. Then nothing is written.
"""
import os
import sys

from crates import with_all_below
from kit import kit_module


def stamps(names):
    """The stamp of each crate, by the kit's own code."""
    crate, top, known = kit_module("rtlib.py").Crate, os.getcwd(), {}
    return {name: crate(f"{top}/crates/{name}", top, known).stamp() for name in names}


def main():
    below = [name for name in with_all_below(sys.argv[1]) if name != sys.argv[1]]
    libraries = {name: f"crates/{name}/out/rlib" for name in below}
    for name, folder in libraries.items():
        if not os.path.isfile(f"{folder}/{name}.rlib/format"):
            print(f"test: the gate left no library of {name}")
            return 1
    try:
        found = stamps(below)
    except Exception as error:  # another kit: its code may be any
        print(f"test: this kit tells no stamp of a library: {error!r}")
        return 1
    for name, stamp in found.items():
        with open(f"{libraries[name]}/stamp", "w", encoding="utf-8") as file:
            file.write(stamp)
    return 0


if __name__ == "__main__":
    sys.exit(main())
