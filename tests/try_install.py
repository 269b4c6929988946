#!/usr/bin/python3
"""Installs the C library, and builds hosts against what was installed, away from the repository.

    tests/try_install.py [--library PATH]

The library is taken from the folder of PATH, with its archive. It is installed twice: to a prefix, and to one below --destdir with a
libdir of its own, as a package would be. The hosts are the examples of docs/EMBEDDING.md in C and in C++, as they stand on the page:
each is built by pkg-config and by CMake, with the shared library and with the archive, runs in a folder with the examples, and has to
print what stands below it. So have those in Python, which run over the shared library as it was installed, by ctypes and by the package's
compiled module. Of the installed files it is tested which names they export and need; of the header that it is C11 and C++17 by itself, and
that its numbers are those of docs/FAULTS.md; of the header of texts that C99 and C++17 take it, and what it says of each number. A line is
printed for each part that failed; the exit status is 0 where none did, 1 where one did, and 2 where there is no such library or a tool is
missing.
"""
import os
import re
import shutil
import subprocess
import sys
import tempfile
from collections.abc import Iterator, Mapping
from pathlib import Path
from typing import NamedTuple

import tomllib
from compiled_module import build_compiled
from harness import TOP, Tally, Word, add_library, run, tool, words_of

sys.path.insert(0, str(TOP / "tools"))
from header import ARCHIVE, FUNCTIONS, HEADER, SHARED, SONAME, TEXTS, VERSION  # noqa: E402 # pylint: disable=wrong-import-position # found by the path above

PAGE = TOP / "docs" / "EMBEDDING.md"
BLOCKS = re.compile(r"^```(\w+)\n((?:(?!```).*\n)*)```\n\n```text\n((?:(?!```).*\n)*)```$", re.MULTILINE)
WARNINGS = ["-Wall", "-Wextra", "-Wpedantic", "-Wconversion", "-Werror"]
# What a program in C has beside the library: the C library, its loader, and what GCC takes the place of instructions.
SYSTEM = {"libc.so.6", "ld-linux-x86-64.so.2"}
PROJECT = """cmake_minimum_required(VERSION 3.16)
project(hosts LANGUAGES {languages})
find_package(fact_graph {version} CONFIG REQUIRED)
"""
PROGRAM = """add_executable({way}-{name} {name})
target_link_libraries({way}-{name} PRIVATE fact_graph::{way})
"""
WAYS = ("shared", "static")
TABLES = TOP / "python" / "fact_graph" / "faults" / "texts.toml"
# The numbers whose texts are asked for: those that there are, and more.
MOST = [*range(30), 2**32 - 1]
TELLING = f"""#include <HEADER>
#include <stdio.h>

int main(void) {{
  static const uint32_t numbers[] = {{{", ".join(f"{number}u" for number in MOST)}}};
  for (uint32_t kind = 0; kind < 3; kind += 1) {{
    for (size_t at = 0; at < sizeof numbers / sizeof numbers[0]; at += 1) puts(fact_graph_text(kind, numbers[at]));
  }}
  return 0;
}}
"""
# The functions that weren't in the first version, each with the one that brought it.
SINCE = {name: version for version, name in re.findall(r"Since version (\d+\.\d+)\. \*/\n\w+ (fact_graph_\w+)\(", HEADER.read_text(encoding="utf-8"))}
# The number of the refusal that no session and no desk of the library gives: that of the plain engine.
ELSEWHERE = {15}
# How many examples the page has in each language.
IN_EACH = {"python": 4, "c": 3, "cpp": 2}


class Installed(NamedTuple):
    """Where the library was installed."""

    root: Path
    libdir: str
    environment: Mapping[str, str]

    @property
    def libraries(self) -> Path:
        """The folder of the libraries."""
        return self.root / self.libdir


class Host(NamedTuple):
    """An example of the page."""

    name: str
    compiler: str
    standard: str
    code: str
    text: str


def blocks(language: str) -> list[tuple[str, str]]:
    """The examples in a language, each with what it prints."""
    found = [(code, text) for word, code, text in BLOCKS.findall(PAGE.read_text(encoding="utf-8")) if word == language]
    assert len(found) == IN_EACH[language], f"{PAGE.name} has {len(found)} examples in {language}"
    return found


def hosts() -> Iterator[Host]:
    """The examples in C and C++, with what they print."""
    for at, (code, text) in enumerate(blocks("c")):
        yield Host(f"host{at}.c", tool(os.environ.get("CC", "cc")), "-std=c11", code, text)
    for at, (code, text) in enumerate(blocks("cpp")):
        yield Host(f"host{at}.cpp", tool(os.environ.get("CXX", "c++"), "g++"), "-std=c++17", code, text)


def said(words: list[Word], folder: Path, environment: Mapping[str, str] | None = None) -> str:
    """What a command says that ends well; else what it says went wrong."""
    try:
        ended = run(words, folder, b"", environment)
    except OSError as wrong:
        return str(wrong)
    return ended.text.decode() if ended.status == 0 else f"{words[0]!r}: status {ended.status}\n{ended.error.decode(errors='replace')}"


def installed(built: Path, prefix: str, destdir: Path | None, libdir: str) -> Installed:
    """Installs the library so."""
    words: list[Word] = [TOP / "tools" / "install_library.py", "--built", built, "--prefix", prefix, "--libdir", libdir]
    subprocess.run(words + (["--destdir", destdir] if destdir else []), check=True, stdout=subprocess.DEVNULL)
    root = destdir / prefix.lstrip("/") if destdir else Path(prefix)
    found = {"PKG_CONFIG_PATH": str(root / libdir / "pkgconfig"), "CMAKE_PREFIX_PATH": str(root)}
    return Installed(root, libdir, found | ({"PKG_CONFIG_SYSROOT_DIR": str(destdir)} if destdir else {}))


# ---- hosts

def by_pkg_config(tally: Tally, where: Installed, host: Host, folder: Path) -> None:
    """Builds a host by pkg-config, with each of the two, and runs it."""
    (folder / host.name).write_text(host.code, encoding="utf-8")
    ask = [tool("pkg-config"), "fact_graph"]
    flags, libraries = (said([*ask, word], folder, where.environment).split() for word in ("--cflags", "--libs"))
    for way, linked in zip(WAYS, (libraries, [str(where.libraries / ARCHIVE)])):
        program = folder / f"{way}-{host.name}"
        made = said([host.compiler, host.standard, *WARNINGS, *flags, host.name, *linked, "-o", program], folder)
        tally.expect(f"{host.name} is built by pkg-config, {way}", made, "")
        tally.expect(f"{host.name} by pkg-config, {way}", said([program], folder, {"LD_LIBRARY_PATH": str(where.libraries)}), host.text)
        tally.expect(f"whether {program.name} asks for the library", SONAME in needed(program), way == "shared")


def by_python(tally: Tally, where: Installed, folder: Path) -> None:
    """Runs the examples in Python over the shared library, in both ways in which the package calls it."""
    package = folder / "package" / "fact_graph"
    shutil.copytree(TOP / "python" / "fact_graph", package, ignore=shutil.ignore_patterns("__pycache__", "*.so"))
    found = {"PYTHONPATH": str(package.parent), "FACT_GRAPH_LIBRARY": str(where.libraries / SONAME)}
    for way in ("ctypes", "compiled"):
        if way == "compiled":
            shutil.copy(build_compiled(folder / "built"), package)
        for at, (code, text) in enumerate(blocks("python")):
            tally.expect(f"the example {at} in Python, {way}", said([sys.executable, "-B", "-c", code], folder, found), text)


def by_cmake(tally: Tally, where: Installed, every: list[Host], folder: Path) -> None:
    """Builds the hosts by CMake, with each of the two, and runs them."""
    text = PROJECT.format(languages="C CXX", version=1)
    for host in every:
        (folder / host.name).write_text(host.code, encoding="utf-8")
        text += "".join(PROGRAM.format(way=way, name=host.name) for way in WAYS)
    (folder / "CMakeLists.txt").write_text(text, encoding="utf-8")
    for words in (["-S", ".", "-B", "made"], ["--build", "made"]):
        ended = run([tool("cmake"), *words], folder, b"", where.environment)
        tally.judge(f"cmake {' '.join(words)}", "" if ended.status == 0 else (ended.text + ended.error).decode(errors="replace"))
    for host in every:
        for way in WAYS:
            tally.expect(f"{host.name} by CMake, {way}", said([f"made/{way}-{host.name}"], folder), host.text)


def versions(tally: Tally, where: Installed, folder: Path) -> None:
    """What pkg-config and CMake say of this version and of others."""
    tally.expect("the version that pkg-config tells", said([tool("pkg-config"), "--modversion", "fact_graph"], folder, where.environment), f"{VERSION}\n")
    found = where.libraries / "cmake" / "fact_graph"  # (without a language CMake knows no folder of the machine's own)
    for asked, is_found in (("1", True), (VERSION, True), (f"{VERSION} EXACT", True), ("1.99", False), ("2", False), ("0.9", False)):
        (folder / "CMakeLists.txt").write_text(PROJECT.format(languages="NONE", version=asked), encoding="utf-8")
        ended = run([tool("cmake"), f"-Dfact_graph_DIR={found}", "-S", ".", "-B", f"made {asked}"], folder, b"")
        tally.expect(f"whether CMake finds version {asked}", ended.status == 0, is_found)


# ---- files

def needed(program: Path) -> set[str]:
    """The shared libraries that a file asks for."""
    return set(re.findall(r"^  NEEDED +(\S+)$", said([tool("objdump"), "-p", program], TOP), re.MULTILINE))


def names(tally: Tally, where: Installed) -> None:
    """What the two libraries are called, export and need."""
    shared, archive = where.libraries / SHARED, where.libraries / ARCHIVE
    headers = said([tool("objdump"), "-p", shared], TOP)
    tally.expect("the soname", re.findall(r"^  SONAME +(\S+)$", headers, re.MULTILINE), [SONAME])
    tally.judge("what the shared library asks for", " ".join(sorted(needed(shared) - SYSTEM)))
    defined = said([tool("nm"), "-D", "--defined-only", "--with-symbol-versions", "--format=posix", shared], TOP)
    exported = [line.split()[0] for line in defined.splitlines() if " A " not in line]
    tally.expect("what the shared library exports", sorted(exported), [f"{name}@@FACT_GRAPH_{SINCE.get(name, '1.0')}" for name in FUNCTIONS])
    kept = said([tool("nm"), "-g", "--defined-only", "--format=posix", archive], TOP)
    tally.expect("what the archive has", sorted(re.findall(r"^(\w+) \w ", kept, re.MULTILINE)), FUNCTIONS)
    for link in (where.libraries / SONAME, where.libraries / "libfact_graph.so"):
        tally.expect(f"where {link.name} leads", os.readlink(link), SHARED)


def header(tally: Tally, where: Installed, folder: Path) -> None:
    """Whether the header is whole in both languages, and its numbers are those of the page on faults."""
    for name, compiler, standard in (("alone.c", "cc", "-std=c11"), ("alone.cpp", "c++", "-std=c++17")):
        (folder / name).write_text('#include <fact_graph.h>\nstatic_assert(sizeof(struct fact_graph) == sizeof(void *), "");\n'.replace(
            "static_assert", "_Static_assert" if name.endswith(".c") else "static_assert"), encoding="utf-8")
        tally.expect(f"the header by itself, {standard}", said([tool(compiler), standard, *WARNINGS, f"-I{where.root / 'include'}", "-c", name], folder), "")
    page = (TOP / "docs" / "FAULTS.md").read_text(encoding="utf-8")
    rows = {(kind or "dictionary", int(number), name) for kind, number, name in re.findall(r"^\| \d+ \| `(refused )?(\d+) (\w+)", page, re.MULTILINE)}
    due = {(kind, number, name) for kind, number, name in rows if kind == "dictionary" or number not in ELSEWHERE}
    constants = re.findall(r"^#define FACT_GRAPH_(FAULT|REFUSED)_(\w+) (\d+)u$", HEADER.read_text(encoding="utf-8"), re.MULTILINE)
    came = {("dictionary" if kind == "FAULT" else "refused ", int(number), name.title().replace("_", "")) for kind, name, number in constants}
    tally.expect("the numbers of the header", came, due)


def texts(tally: Tally, where: Installed, folder: Path) -> None:
    """What the header of texts says of each number, and of some that there aren't, in both languages."""
    for name, compiler, standard in (("texts.c", "cc", "-std=c99"), ("texts.cpp", "c++", "-std=c++17")):
        (folder / name).write_text(TELLING.replace("HEADER", TEXTS.name), encoding="utf-8")
        words: list[Word] = [tool(compiler), standard, *WARNINGS, f"-I{where.root / 'include'}", name, "-o", name + ".out"]
        tally.expect(f"the texts by themselves, {standard}", said(words, folder), "")
        came = said([folder / f"{name}.out"], folder)
        tally.expect(f"the texts, {standard}", came, "".join(f"{text}\n" for text in due_texts()))


def due_texts() -> Iterator[str]:
    """What TELLING has to print, by the rows of the tables."""
    tables = tomllib.loads(TABLES.read_text(encoding="utf-8"))
    for rows in (tables["dictionary"] + tables["library"], tables["command"], []):
        for number in MOST:
            of_it = [row for row in rows if row["number"] == number]
            parts = [(f"`{row['line']}`: " if len(of_it) > 1 else "") + row["says"] for row in of_it]
            yield " ".join(parts) or "There is no text for this number."


def main(argv: list[str]) -> int:
    """Tries each part."""
    words = words_of(__doc__)
    add_library(words)
    built = words.parse_args(argv).library.parent
    tally = Tally()
    with tempfile.TemporaryDirectory(prefix="try_install.") as name:
        top = Path(name)
        places = [
            installed(built, str(top / "prefix"), None, "lib"),
            installed(built, "/srv/fact_graph", top / "destdir", "lib/x86_64-linux-gnu"),
        ]
        every = list(hosts())
        for k, where in enumerate(places):
            folder = top / f"hosts {k}"
            shutil.copytree(TOP / "examples", folder / "examples")
            for host in every:
                by_pkg_config(tally, where, host, folder)
            by_python(tally, where, folder)
            by_cmake(tally, where, every, folder)
            names(tally, where)
            header(tally, where, folder)
            texts(tally, where, folder)
            versions(tally, where, folder)
    return tally.end()


if __name__ == "__main__":
    sys.exit(main(sys.argv[1:]))
