"""Packs the package with the C library inside, as pyproject.toml has no words for: from a tree the same bytes each time.

The library is the one that FACT_GRAPH_LIBRARY names, else the one that stands built in the repository, else the one that
stands beside the modules, as in a source distribution. So it is with the engine of pages, which `fact-graph page` puts into them:
FACT_GRAPH_ENGINE names the folder javascript, and where there is none with its module built, the package has no engine. Where there
is a C compiler, CC or else cc, and Python's headers stand, the module of compiled.c is built too, for all versions of Python from
3.11 on; without it the package calls the library by ctypes.
"""

from __future__ import annotations

import gzip
import io
import os
import re
import shlex
import shutil
import sys
import tarfile
from pathlib import Path

from setuptools import Extension, setup
from setuptools.command.build_ext import build_ext
from setuptools.command.build_py import build_py
from setuptools.command.sdist import sdist
from wheel.bdist_wheel import bdist_wheel

HERE = Path(__file__).resolve().parent
LIBRARY = Path("fact_graph", "libfact_graph.so")
WANTING = (
    "fact-graph is built around the C library libfact_graph.so, and there is none at {}. "
    "Build it (in the repository, docs/LIBRARY.md says how), or set FACT_GRAPH_LIBRARY to the path of one."
)

# Where it can't be built, the package does without.
COMPILED = Extension("fact_graph._compiled", ["compiled.c"], py_limited_api=True, optional=True)
COMPILER = shlex.split(os.environ.get("CC", "cc"))
# How Python itself was compiled isn't asked, so that the same compiler gives the same bytes for each.
COMPILING = ["-std=c11", "-O2", "-fPIC"]
LINKING = ["-shared", "-s", "-Wl,--build-id=none"]

# The JavaScript package, as far as a page needs it.
ENGINE = Path("fact_graph", "javascript")
MODULE = Path("src", "fact_graph.wasm")
PARTS = ("src/*.js", str(MODULE), "page/*.js")
NO_ENGINE = (
    "fact-graph is packed without the engine of pages, and its `fact-graph page` asks for one: "
    "no module is built at {} (javascript/README.md says how)."
)

# The time of all files in what is built, where SOURCE_DATE_EPOCH says no other: 2020-02-02.
EPOCH = int(os.environ.setdefault("SOURCE_DATE_EPOCH", "1580601600"))
# By the number of a machine in an ELF file, the name that wheels have for it.
MACHINES = {62: "x86_64", 183: "aarch64"}
# Below this version of glibc there is no tag.
OLDEST_GLIBC = (2, 5)


def library() -> Path:
    """The C library to pack; the build ends with a word on what to do where there is none."""
    named = os.environ.get("FACT_GRAPH_LIBRARY")
    places = [Path(named)] if named else [HERE.parent / "out" / LIBRARY.name, HERE / LIBRARY]
    found = next((place for place in places if place.is_file()), None)
    if found is None:
        sys.exit(WANTING.format(" or ".join(map(str, places))))
    return found


def put_engine(package: Path) -> None:
    """Puts the engine of pages into a folder that has the package, or says that there is none. One that is named has to be there."""
    named = os.environ.get("FACT_GRAPH_ENGINE")
    places = [Path(named)] if named else [HERE.parent / "javascript", HERE / ENGINE]
    found = next((place for place in places if (place / MODULE).is_file()), None)
    if found is None and named:
        sys.exit(f"FACT_GRAPH_ENGINE names {named}, and there is no {Path(named) / MODULE}")
    if found is None:
        print(NO_ENGINE.format(" or ".join(str(place / MODULE) for place in places)), file=sys.stderr)
        return
    for file in (file for part in PARTS for file in found.glob(part)):
        target = package / ENGINE / file.relative_to(found)
        target.parent.mkdir(parents=True, exist_ok=True)
        shutil.copyfile(file, target)


def platform_of(elf: bytes, *others: bytes) -> str:
    """The platform that shared libraries are for, by the machine of the first and the newest version of glibc that its symbols name.

    >>> platform_of(b"\\x7fELF".ljust(18, b"\\0") + b"\\x3e\\0 .. \\0GLIBC_2.14\\0GLIBC_2.2.5\\0")
    'manylinux_2_14_x86_64'
    """
    machine = MACHINES.get(int.from_bytes(elf[18:20], "little"))
    if elf[:4] != b"\x7fELF" or machine is None:
        sys.exit(f"fact-graph is packed with a shared library for Linux on {' or '.join(MACHINES.values())}, and was given another file")
    versions = re.findall(rb"\0GLIBC_(\d+)\.(\d+)(?:\.\d+)?(?=\0)", b"".join((elf, *others)))
    major, minor = max([OLDEST_GLIBC, *((int(major), int(minor)) for major, minor in versions)])
    return f"manylinux_{major}_{minor}_{machine}"


class BuildPy(build_py):
    """The modules, and the library and the engine of pages beside them."""

    def run(self) -> None:
        """Copies them anew; to a tree that is installed to be edited, the library alone."""
        found = library()
        if not self.editable_mode:
            shutil.rmtree(self.build_lib, ignore_errors=True)
        super().run()
        target = HERE if self.editable_mode else Path(self.build_lib)
        if found.resolve() != (target / LIBRARY).resolve():
            shutil.copyfile(found, target / LIBRARY)
        if not self.editable_mode:
            put_engine(target)


class BuildExt(build_ext):
    """The compiled module, with the flags of this file alone."""

    def build_extensions(self) -> None:
        """Compiles it, or warns that it can't."""
        self.compiler.set_executables(compiler_so=[*COMPILER, *COMPILING], linker_so=[*COMPILER, *LINKING])
        super().build_extensions()


class BdistWheel(bdist_wheel):
    """A wheel for the platform of its library: for each Python from 3.11 on with the compiled module, and without for each Python 3."""

    def get_tag(self) -> tuple[str, str, str]:
        """What the wheel is for."""
        compiled = Path(self.get_finalized_command("build_ext").get_ext_fullpath(COMPILED.name))
        if not compiled.is_file():
            return "py3", "none", platform_of(library().read_bytes())
        return "cp311", "abi3", platform_of(library().read_bytes(), compiled.read_bytes())

    def write_wheelfile(self, *given: str) -> None:
        """Writes the last file to pack, and gives all of them the same modes, whatever those of the tree are."""
        super().write_wheelfile(*given)
        for path in Path(self.bdist_dir).rglob("*"):
            path.chmod(_mode(path.is_dir()))


class Sdist(sdist):
    """The sources, the library and the engine of pages, so that a wheel can be built of them elsewhere."""

    def run(self) -> None:
        """Packs them where there is a library."""
        library()
        super().run()

    def make_release_tree(self, base_dir: str, files: list[str]) -> None:
        """Lays out what is packed."""
        super().make_release_tree(base_dir, files)
        shutil.copyfile(library(), Path(base_dir, LIBRARY))
        put_engine(Path(base_dir))

    def make_archive(self, base_name: str, *_: object, base_dir: str, **__: object) -> str:  # pylint: disable=arguments-differ # those that count
        """Packs it, whoever does so and when: each file by its name, with the same time, owner and mode."""
        name, archived = f"{base_name}.tar.gz", io.BytesIO()
        with tarfile.open(fileobj=archived, mode="w", format=tarfile.PAX_FORMAT) as archive:
            for path in sorted(Path(base_dir).rglob("*")):
                archive.add(path, recursive=False, filter=_plain)
        Path(name).write_bytes(gzip.compress(archived.getvalue(), mtime=EPOCH))
        return name


def _plain(entry: tarfile.TarInfo) -> tarfile.TarInfo:
    entry.uid = entry.gid = 0
    entry.uname = entry.gname = ""
    entry.mtime = EPOCH
    entry.mode = _mode(entry.isdir())
    return entry


def _mode(is_folder: bool) -> int:
    return 0o755 if is_folder else 0o644


if __name__ == "__main__":
    setup(ext_modules=[COMPILED], cmdclass={"build_py": BuildPy, "build_ext": BuildExt, "bdist_wheel": BdistWheel, "sdist": Sdist})
