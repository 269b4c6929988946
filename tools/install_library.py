#!/usr/bin/env python3
"""Installs the C library that build_library.py built: for programs that are compiled against it, and for those that run with it.

    tools/install_library.py --prefix PREFIX [--destdir FOLDER] [--libdir NAME] [--built FOLDER]

Below the prefix then stand

    include/fact_graph.h and include/fact_graph_text.h
    lib/libfact_graph.so.1.2.0 with its links, and lib/libfact_graph.a
    lib/pkgconfig/fact_graph.pc             for pkg-config
    lib/cmake/fact_graph/                   for CMake: find_package(fact_graph 1 CONFIG), fact_graph::shared and fact_graph::static
    share/licenses/fact_graph/LICENSE

With --destdir all is put below that folder, as for a package, and is at home at the prefix. --libdir names another folder than lib,
as lib64 or lib/x86_64-linux-gnu. The library is taken from out/, or from where --built says. Each file is put in whole, or not at
all, so one that programs are running with can be replaced. The paths are printed, a line each. The exit status is 0 where all were
put in, and 2 where the library isn't built or a folder can't be written.
"""
import argparse
import os
import sys
import tempfile
from collections.abc import Iterator
from pathlib import Path, PurePosixPath

from header import ARCHIVE, HEADER, LINK, MAJOR, SHARED, SONAME, TEXTS, TOP, VERSION

LICENSE = "CC0-1.0"
TEMPLATES = TOP / "tools" / "package"


def put(target: Path, data: bytes, mode: int = 0o644) -> None:
    """Puts in a file whole."""
    target.parent.mkdir(parents=True, exist_ok=True)
    handle, name = tempfile.mkstemp(dir=target.parent, prefix=f".{target.name}.")
    with os.fdopen(handle, "wb") as new:
        new.write(data)
        os.fchmod(handle, mode)
    os.replace(name, target)


def put_link(target: Path, to: str) -> None:
    """Puts in a link to a file beside it."""
    new = target.with_name(f".{target.name}.{os.getpid()}")
    new.symlink_to(to)
    os.replace(new, target)


def filled(name: str, words: dict[str, str]) -> bytes:
    """A template with its words filled in."""
    text = (TEMPLATES / name).read_text(encoding="utf-8")
    for word, value in words.items():
        text = text.replace(f"@{word}@", value)
    return text.encode()


def install(built: Path, root: Path, prefix: PurePosixPath, libdir: PurePosixPath) -> Iterator[Path]:
    """Puts all in below the root, for a home at the prefix. Yields each path."""
    cmake = libdir / "cmake" / "fact_graph"
    words = {
        "PREFIX": str(prefix), "LIBDIR": str(libdir), "UP": "/".join([".."] * len(cmake.parts)), "LICENSE": LICENSE,
        "VERSION": VERSION, "MAJOR": str(MAJOR), "SHARED": SHARED, "SONAME": SONAME, "ARCHIVE": ARCHIVE,
    }
    for place, data, mode in (
        (PurePosixPath("include", HEADER.name), HEADER.read_bytes(), 0o644),
        (PurePosixPath("include", TEXTS.name), TEXTS.read_bytes(), 0o644),
        (libdir / SHARED, (built / SHARED).read_bytes(), 0o755),
        (libdir / ARCHIVE, (built / ARCHIVE).read_bytes(), 0o644),
        (libdir / "pkgconfig" / "fact_graph.pc", filled("fact_graph.pc", words), 0o644),
        (cmake / "fact_graph-config.cmake", filled("fact_graph-config.cmake", words), 0o644),
        (cmake / "fact_graph-config-version.cmake", filled("fact_graph-config-version.cmake", words), 0o644),
        (PurePosixPath("share", "licenses", "fact_graph", "LICENSE"), (TOP / "LICENSE").read_bytes(), 0o644),
    ):
        put(root / place, data, mode)
        yield root / place
    for link in (SONAME, LINK):
        put_link(root / libdir / link, SHARED)
        yield root / libdir / link


def a_prefix(text: str) -> PurePosixPath:
    """A place from the root on, for argparse."""
    path = PurePosixPath(text)
    if not path.is_absolute():
        raise argparse.ArgumentTypeError(f"{text} isn't an absolute path")
    return path


def a_folder_below(text: str) -> PurePosixPath:
    """A place below the prefix, for argparse."""
    path = PurePosixPath(text)
    if path.is_absolute() or ".." in path.parts:
        raise argparse.ArgumentTypeError(f"{text} isn't a folder below the prefix")
    return path


def main(argv: list[str]) -> int:
    """Installs as the words say."""
    words = argparse.ArgumentParser(description=__doc__, formatter_class=argparse.RawDescriptionHelpFormatter)
    words.add_argument("--prefix", type=a_prefix, required=True)
    words.add_argument("--destdir", type=Path, metavar="FOLDER")
    words.add_argument("--libdir", type=a_folder_below, default=PurePosixPath("lib"), metavar="NAME")
    words.add_argument("--built", type=Path, default=TOP / "out", metavar="FOLDER")
    given = words.parse_args(argv)
    for name in (SHARED, ARCHIVE):
        if not (given.built / name).is_file():
            words.error(f"no {given.built / name}: tools/build_library.py builds it")
    root = Path(given.prefix) if given.destdir is None else given.destdir / given.prefix.relative_to("/")
    try:
        for path in install(given.built, root, given.prefix, given.libdir):
            print(path)
    except OSError as wrong:
        words.error(str(wrong))
    return 0


if __name__ == "__main__":
    sys.exit(main(sys.argv[1:]))
