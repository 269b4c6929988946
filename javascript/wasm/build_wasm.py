#!/usr/bin/env python3
"""Makes fact_graph.wasm, the C library as a WebAssembly module, of the module that LLVM compiled it from.

  javascript/wasm/build_wasm.py [--module PATH] [--out PATH]

tools/build_library.py keeps that module; it is run where no PATH is given, and proves the crate. With --module nothing is proved. The module
is held against the static library first: compiled again, it has to be that library's object file to the byte. Then it is written for
WebAssembly (retarget.py), compiled by the toolchain's clang, linked with the runtime, which it calls, made one with addresses of 32 bits
(lower.py), optimized by binaryen's wasm-opt, and ordered for what compresses it on its way to a visitor (reorder.py). It imports nothing, and
exports the functions of fact_graph.h with numbers of 32 bits. The same module gives the same bytes.

The exit status is 0 where it was written, 1 where a step failed or met what it doesn't know, and 2 where the module is wanting.
"""

from __future__ import annotations

import argparse
import subprocess
import sys
import tempfile
from collections.abc import Sequence
from pathlib import Path
from typing import NamedTuple

from binary import Refused
from lower import lowered
from narrow import file_of
from reorder import reordered
from retarget import TARGET, retargeted

HERE = Path(__file__).resolve().parent
TOP = HERE.parent.parent
sys.path.insert(0, str(TOP / "tools"))
# pylint: disable=wrong-import-position,wrong-import-order # (they are found by the line above)
from build_library import CRATE, MODULE, compile_static  # noqa: E402
from keep_module import CLANG, TOOLCHAIN, is_of, words_beside  # noqa: E402

LINKER = TOOLCHAIN / "bin" / "ld.lld"
HEADER = CRATE / "fact_graph.h"
STACK = 1_048_576
X86, WASM = TARGET["target triple"]

# Each browser since 2021 has bulk memory and the extension of signs, and since 2023 vectors of 128 bits.
FEATURES = ["-mcpu=mvp", "-mbulk-memory", "-msign-ext"]
TO_OPTIMIZE = ["--enable-bulk-memory", "--enable-sign-ext"]

# The engine's lists are short: vectors that LLVM makes of loops, and unrolled loops, make the module larger and no line faster. A call is
# replaced by what it runs where that is this short: of longer ones the module grows by a fifteenth, and a line gains a twentieth.
AS_WRITTEN = ["-fno-vectorize", "-fno-slp-vectorize", "-fno-unroll-loops", "-mllvm", "-inline-threshold=150"]

OF_C = ["-std=c11", "-O2", "-ffreestanding", "-fno-builtin", "-Wall", "-Wextra", "-Wpedantic", "-Wconversion"]

# The words with which rattle has clang compile the module: those that stay, and those that say nothing on WebAssembly (which traps behind
# a call that doesn't return, and has sections, positions and files of its own).
STAY = {"-O3", "-disable-machine-licm", "-disable-postra-machine-licm", "-sink-common-insts=false"}
GO = {
    "-mllvm", "-no-trap-after-noreturn", "-trap-unreachable", "-no-x86-call-frame-opt", "-ffunction-sections", "-fdata-sections", "--no-default-config",
    "-no-canonical-prefixes", "-fintegrated-cc1", "-fno-crash-diagnostics", "-Werror", "-c", "-x", "ir", "module.bc", "-o", "module.o", "-fPIC",
}
GO_WITH_VALUE = ("--target=", "--sysroot=", "-march=")


def words_that_stay(words: Sequence[str]) -> list[str]:
    """What of the words for x86-64 is said for WebAssembly, too."""
    for word in words:
        if word not in STAY | GO and not word.startswith(GO_WITH_VALUE):
            raise Refused(f"the library's compiler was given {word}")
    return [it for word in words if word in STAY for it in ([] if word.startswith("-O") else ["-mllvm"]) + [word]]


class Variant(NamedTuple):
    """A way to build the module: as it is shipped, or one of those that it is held against."""

    has_vectors: bool = True
    is_testing: bool = False  # with what the tests call, and allocations that fail on demand
    is_lowered_here: bool = True  # and ordered; or lowered by binaryen, which does so without vectors alone


SHIPPED = Variant()
TESTING = Variant(is_testing=True)
LOWERED_BY_BINARYEN = Variant(has_vectors=False, is_lowered_here=False)


class Builder:
    """Builds variants in a folder, each part once."""

    def __init__(self, module: Path, words: Sequence[str], folder: Path) -> None:
        self.module, self.words, self.folder = module, words_that_stay(words), folder
        folder.mkdir(parents=True, exist_ok=True)

    def build(self, variant: Variant, to: Path) -> None:
        """Writes the module of a variant."""
        linked = self.linked(variant)
        small = linked.with_suffix(".32.wasm")
        small.write_bytes(lowered(linked.read_bytes(), with_memory=variant.is_lowered_here))
        lowering = [] if variant.is_lowered_here else ["--enable-memory64", "--memory64-lowering"]
        vectors = ["--enable-simd"] if variant.has_vectors else []
        if lowering:
            run("wasm-opt", *TO_OPTIMIZE, *lowering, small, "-o", small)
        optimized = small.with_suffix(".optimized.wasm")
        # LLVM has inlined what makes a line fast; more of it makes the module larger and no line faster
        run("wasm-opt", "-Os", "--one-caller-inline-max-function-size=0", *TO_OPTIMIZE, *vectors, small, "-o", optimized)
        to.parent.mkdir(parents=True, exist_ok=True)
        to.write_bytes(reordered(optimized.read_bytes()) if variant.is_lowered_here else optimized.read_bytes())

    def linked(self, variant: Variant) -> Path:
        """The engine and the runtime in one module, with addresses of 64 bits."""
        linked = self.folder / f"{'testing' if variant.is_testing else 'library'}{'' if variant.has_vectors else '.plain'}.wasm"
        parts = [self.engine(variant.has_vectors), *self.runtime(variant.has_vectors)]
        more: list[str] = []
        if variant.is_testing:
            parts.append(self.compiled(HERE / "testing" / "testing.c", variant.has_vectors))
            more = ["--wrap=rattle_alloc", "--wrap=rattle_realloc"]
        # the stack comes first in memory, so that it traps where it overflows
        flags = ["-mwasm64", "--no-entry", "--gc-sections", "--strip-all", "--stack-first", "-z", f"stack-size={STACK}"]
        run(LINKER, "-flavor", "wasm", *flags, *more, *parts, "-o", linked)
        return linked

    def engine(self, has_vectors: bool) -> Path:
        """The object file of the library's module."""
        made = self.folder / f"engine{'' if has_vectors else '.plain'}.o"
        if not made.is_file():
            text = self.folder / "module.ll"
            as_text = ["-S", "-emit-llvm", "-Xclang", "-disable-llvm-passes", "-O3"]
            run(CLANG, "--no-default-config", f"--target={X86}", *as_text, "-x", "ir", self.module, "-o", text)
            changed = made.with_suffix(".ll")
            changed.write_text(retargeted(text.read_text(), has_vectors))
            self.compile([*self.words, *AS_WRITTEN, "-x", "ir", changed], has_vectors, made)
        return made

    def runtime(self, has_vectors: bool) -> list[Path]:
        """The object files of what the engine calls, and of what a page calls."""
        exports = self.folder / "exports.c"
        exports.write_text(file_of(HEADER.read_text()))
        return [self.compiled(source, has_vectors) for source in [*sorted((HERE / "runtime").glob("*.c")), exports]]

    def compiled(self, source: Path, has_vectors: bool) -> Path:
        """The object file of a file of C."""
        made = self.folder / f"{source.stem}{'' if has_vectors else '.plain'}.o"
        self.compile([*OF_C, f"-I{HERE / 'runtime'}", source], has_vectors, made)
        return made

    def compile(self, what: Sequence[str | Path], has_vectors: bool, to: Path) -> None:
        """Has clang compile something for WebAssembly."""
        features = [*FEATURES, "-msimd128"] if has_vectors else FEATURES
        sections = ["-ffunction-sections", "-fdata-sections"]
        run(CLANG, "--no-default-config", f"--target={WASM}", *features, *sections, "-Werror", "-Wno-override-module", "-c", *what, "-o", to)


def run(*words: str | Path) -> None:
    """Runs a program, which has to end well."""
    subprocess.run([str(word) for word in words], check=True)


def kept_module(given: Path | None) -> Path | int:
    """The module that the library was compiled from, which is proved here where none is given; or the exit status."""
    module = given or MODULE
    if given is None:
        built = compile_static()
        if isinstance(built, int):
            return built
    archive = module.with_name(f"lib{module.stem}.a")
    if not all(path.is_file() for path in (module, words_beside(module), archive)):
        print(f"build_wasm.py: no {module} with its words and {archive.name} beside it: run tools/build_library.py", file=sys.stderr)
        return 2
    if not is_of(archive, module):
        print(f"build_wasm.py: {module} isn't what {archive.name} was compiled from", file=sys.stderr)
        return 1
    return module


def words_of_module(module: Path) -> list[str]:
    """The words with which the library was compiled from a kept module."""
    return words_beside(module).read_text(encoding="utf-8").splitlines()


def main(argv: list[str]) -> int:
    """Builds the module that is shipped."""
    arguments = argparse.ArgumentParser(description=__doc__, formatter_class=argparse.RawDescriptionHelpFormatter)
    arguments.add_argument("--module", type=Path, metavar="PATH")
    arguments.add_argument("--out", type=Path, default=TOP / "javascript" / "src" / "fact_graph.wasm", metavar="PATH")
    given = arguments.parse_args(argv)
    with tempfile.TemporaryDirectory(prefix="build_wasm.") as folder:
        try:
            module = kept_module(given.module)
            if isinstance(module, int):
                return module
            Builder(module, words_of_module(module), Path(folder)).build(SHIPPED, given.out)
        except (Refused, subprocess.CalledProcessError) as why:
            print(f"build_wasm.py: {why}", file=sys.stderr)
            return 1
    return 0


if __name__ == "__main__":
    sys.exit(main(sys.argv[1:]))
