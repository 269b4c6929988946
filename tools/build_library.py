#!/usr/bin/env python3
"""Proves and compiles the C library, and links it.

    tools/build_library.py [--static PATH] [--out FOLDER]

The crate fact_graph_c is checked over the libraries below it, which `rt ci` leaves; where one is wanting, they are built first as
build_program.py does it. The LLVM module that it is compiled from is kept beside the static library, for javascript/wasm/build_wasm.py.
In the folder, out/ where none is given, stand then the shared library and the archive that linking.py describes. With --static they are
linked from the static library there, and nothing is proved. Both need the C library alone and have the functions of
crates/fact_graph_c/fact_graph.h. CC names another compiler than cc.

The exit status is 0 where it was linked, 1 where a crate isn't proved or the linker failed, 2 where the static library is wanting, and
130 where the libraries below were being built and that was interrupted.
"""
import argparse
import os
import subprocess
import sys
from pathlib import Path
from typing import Any

from build_program import build, known_crates, libraries
from keep_module import keeping
from kit import TOP, load_rt
from linking import link

CRATE = TOP / "crates" / "fact_graph_c"
ARCHIVE = CRATE / "out" / f"lib{CRATE.name}.a"
MODULE = CRATE / "out" / f"{CRATE.name}.bc"


def is_wanting(library: Any) -> bool:
    """Whether no library was built of the crate's text. One that `rt ci` built has no stamp."""
    stamp = os.path.join(os.path.dirname(library.rlib), "stamp")
    return not os.path.isdir(library.rlib) or os.path.isfile(stamp) and not library.is_built()


def compile_static() -> Path | int:
    """Proves the crate and compiles it. Returns the static library, or the exit status."""
    rt = load_rt()
    rt.guarded()
    crate = known_crates()[CRATE.name]
    status = build(libraries([CRATE.name])) if any(map(is_wanting, crate.below())) else 0
    if status:
        return status
    ARCHIVE.parent.mkdir(exist_ok=True)
    with keeping(MODULE) as toolchain:
        words = [*crate.words(["--jobs", str(os.cpu_count())]), "--toolchain", str(toolchain), "--backend", "llvm", *rt.KEPT, "-o", str(ARCHIVE)]
        command = [rt.RATTLE, "build", *words]
        built = subprocess.run(command, cwd=CRATE, stdout=subprocess.PIPE, stderr=subprocess.STDOUT, text=True, errors="replace", check=False)
    if built.returncode:
        print(built.stdout, file=sys.stderr, end="")
        return 1
    return ARCHIVE


def main(argv: list[str]) -> int:
    """Builds what the words ask for."""
    words = argparse.ArgumentParser(description=__doc__, formatter_class=argparse.RawDescriptionHelpFormatter)
    words.add_argument("--static", type=Path, metavar="PATH")
    words.add_argument("--out", type=Path, default=TOP / "out", metavar="FOLDER")
    given = words.parse_args(argv)
    static = given.static or compile_static()
    if isinstance(static, int):
        return static
    if not static.is_file():
        words.error(f"no {static}")
    return 0 if link(static, given.out) else 1


if __name__ == "__main__":
    sys.exit(main(sys.argv[1:]))
