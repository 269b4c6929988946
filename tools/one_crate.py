#!/usr/bin/env python3
"""Proves and builds one crate, those below it being there: a process of build_program.py.

    tools/one_crate.py JOBS CRATE [ARGUMENT..]

What stands already is kept. A program is run then with the arguments. The exit status is 0 where the crate is built, and of a program that
of its run.
"""
import os
import sys

from kit import TOP, load_rt


def main(argv: list[str]) -> int:
    """Builds the crate, while no other rt works in its folder."""
    jobs, name, *arguments = argv
    rt = load_rt()
    rt.guarded()
    crate = next(it for it in rt.crates_below(str(TOP)) if it.name == name)
    crate.held = rt.lock([crate])
    if crate.makes_rlib():
        return int(crate.build_rlib(["--jobs", jobs], anew=False))
    os.makedirs(f"{crate.folder}/out", exist_ok=True)
    return int(crate.run(["--jobs", jobs], arguments))


if __name__ == "__main__":
    sys.exit(main(sys.argv[1:]))
