#!/usr/bin/env python3
"""Tests the engine of pages and of Node, javascript/, over the module of the C library that tools/build_library.py keeps.

    tests/test_javascript.py [--program PATH] [--library PATH] [PART..]

- steps: what each step of javascript/wasm meets and refuses, and the runtime in C under the sanitizers, by pytest
- types: the package's types, those of the engine of a page that needs no server, and those of what bench/webassembly.py times, by tsc
- names: each public name of the Python package stands in this one, or README.md says what stands in its place
- comments: a script that such a page ships has the code that it was written with, and no comments
- same: two builds have the same bytes; the first is the module of the parts below
- node: the package's own tests, and those of the runtime as WebAssembly, where each allocation fails in turn, by node --test
- cases: the stored cases of a session that a library serves, in Node; and once more over the module as binaryen lowers it, without vectors
- random: 100,000 random lines beside the program
- trees: those of `why` and `missing` behind random lines, beside the Python package
- chromium, firefox-esr: the stored cases on a page, of at most 64 KiB, and in a worker, all of them
- package: the packed package, installed away from here, in a program of its own

All parts are run where none is named. The exit status is 0 where all passed, 1 where one failed, and 2 where a tool, the program, the
library or its module is wanting.
"""
import json
import os
import re
import shutil
import subprocess
import sys
import tempfile
from collections.abc import Iterator
from functools import cached_property
from pathlib import Path

from harness import DICTIONARIES, EXAMPLES, TOP, Tally, add_library, add_program, run, tool, words_of
from javascript.browsers import BROWSERS, judge_in_browser
from javascript.cases import Given, given, judge_in_node, stored
from javascript.names import of_javascript, of_python, wanting
from javascript.random_lines import Script
from javascript.trees import RUNNER, tree_cases

JAVASCRIPT = TOP / "javascript"
WASM = JAVASCRIPT / "wasm"
PAGE = TOP / "service" / "fact_graph_service" / "page"
SAME_CODE = TOP / "tests" / "javascript" / "same_code.cjs"
# Where Debian has the packages of Node.
NODE_PATH = "/usr/share/nodejs"
sys.path.insert(0, str(WASM))
sys.path.insert(0, str(TOP / "python"))
# pylint: disable=wrong-import-position,wrong-import-order # found by the paths above
from fact_graph import __all__ as EXPORTED  # noqa: E402
from fact_graph.uncommented import uncommented  # noqa: E402

from build_wasm import LOWERED_BY_BINARYEN, SHIPPED, TESTING, Builder, kept_module, words_of_module  # noqa: E402

SMALL = 65_536
SCRIPTS, LINES = 100, 1_000
# What random lines are said over.
FILES = sorted([*DICTIONARIES.glob("*.json"), *EXAMPLES.glob("*.json")])


class Parts:
    """The parts, each a method of its name, and the modules that they share."""

    def __init__(self, tally: Tally, program: Path, folder: Path) -> None:
        self.tally, self.program, self.folder = tally, program, folder

    @cached_property
    def builder(self) -> Builder:
        """What builds the variants of the module."""
        module = kept_module(TOP / "crates" / "fact_graph_c" / "out" / "fact_graph_c.bc")
        if isinstance(module, int):
            sys.exit(2)
        return Builder(module, words_of_module(module), self.folder / "build")

    @cached_property
    def shipped(self) -> Path:
        """The module as it is shipped, where the package has it."""
        made = JAVASCRIPT / "src" / "fact_graph.wasm"
        self.builder.build(SHIPPED, made)
        return made

    def ends_well(self, what: str, words: list[str | Path], folder: Path = JAVASCRIPT, **env: str | Path) -> None:
        """Runs a program, whose words are shown where it fails."""
        given_env = {**os.environ, **{name: str(value) for name, value in env.items()}}
        ended = subprocess.run(words, cwd=folder, stdout=subprocess.PIPE, stderr=subprocess.STDOUT, text=True, check=False, env=given_env)
        self.tally.judge(what, "" if ended.returncode == 0 else f"status {ended.returncode}\n{ended.stdout}")

    def steps(self) -> None:
        """The steps of the build, and the runtime on this machine."""
        self.ends_well("steps", ["/usr/bin/python3", "-m", "pytest", "-q", "-p", "no:cacheprovider", "tests"], WASM)

    def types(self) -> None:
        """The package's types, those of the page's engine, where it stands in a page, and those of what is timed."""
        self.ends_well("types", [tool("tsc"), "-p", "."])
        page = self.folder / "page"
        shutil.copytree(PAGE, page / "page")
        shutil.copytree(JAVASCRIPT / "page", page / "page", dirs_exist_ok=True)
        shutil.copytree(JAVASCRIPT / "src", page / "engine")
        words = ["--allowJs", "--checkJs", "--noEmit", "--strict", "--target", "ES2022", "--module", "ES2022", "--moduleResolution", "node"]
        self.ends_well("types of the page's engine", [tool("tsc"), *words, "page/browser_engine.js"], page)
        self.ends_well("types of what is timed", [tool("tsc"), *words, "bench/webassembly/page.js"], TOP)

    def names(self) -> None:
        """What the Python package exports, beside what this one declares."""
        types = self.folder / "types"
        self.ends_well("declarations", [tool("tsc"), "-p", ".", "--noEmit", "false", "--declaration", "--emitDeclarationOnly", "--outDir", types])
        beside = (JAVASCRIPT / "README.md").read_text(encoding="utf-8").partition("\n## Beside the Python package\n")[2].partition("\n## ")[0]
        unsaid = [name for name in wanting(of_python(TOP / "python" / "fact_graph", EXPORTED), of_javascript(types)) if f"`{name}`" not in beside]
        self.tally.expect("names of the Python package that README.md doesn't speak of", unsaid, [])

    def comments(self) -> None:
        """The scripts of a page, as they are written and as they are shipped."""
        bare = self.folder / "bare"
        pairs: list[Path] = []
        for script in sorted(path for folder in (PAGE, JAVASCRIPT / "src", JAVASCRIPT / "page") for path in folder.glob("*.js")):
            shipped = bare / script.parent.name / script.name
            shipped.parent.mkdir(parents=True, exist_ok=True)
            shipped.write_text(uncommented(script.read_text(encoding="utf-8")), encoding="utf-8")
            pairs += [script, shipped]
            left = re.search(r"^ *(//|/\*)|/\*\*", shipped.read_text(encoding="utf-8"), re.MULTILINE)
            self.tally.judge(f"comments of {script.name}", f"it has {left[0]}" if left else "")
        differing = subprocess.run([tool("node"), SAME_CODE, *pairs], env={**os.environ, "NODE_PATH": NODE_PATH}, stdout=subprocess.PIPE, text=True, check=True)
        self.tally.expect("scripts whose code differs", differing.stdout, "")

    def same(self) -> None:
        """Two builds."""
        again = self.folder / "again.wasm"
        Builder(self.builder.module, words_of_module(self.builder.module), self.folder / "again").build(SHIPPED, again)
        self.tally.judge("two builds", "" if again.read_bytes() == self.shipped.read_bytes() else "other bytes")

    def node(self) -> None:
        """The tests of the package and of the runtime."""
        testing = self.folder / "testing.wasm"
        self.builder.build(TESTING, testing)
        assert self.shipped
        self.ends_well("node", [tool("node"), "--test", "tests/"])
        self.ends_well("runtime in node", [tool("node"), "--test", "wasm/tests/"], TESTING_MODULE=testing)

    def cases(self) -> None:
        """The stored cases, over two lowerings."""
        other = self.folder / "binaryen.wasm"
        self.builder.build(LOWERED_BY_BINARYEN, other)
        for name, module in (("node", self.shipped), ("node, lowered by binaryen", other)):
            judge_in_node(self.tally, tool("node"), module, stored(), name)

    def random(self) -> None:
        """Random lines, whose replies are the program's."""
        judge_in_node(self.tally, tool("node"), self.shipped, self.random_cases(), "node")

    def random_cases(self) -> Iterator[Given]:
        """Scripts over the dictionaries of tests and examples, in turn."""
        for seed in range(SCRIPTS):
            file = FILES[seed % len(FILES)]
            dictionary = file.read_bytes()
            script = Script(seed, dictionary).lines(LINES)
            ended = run([self.program, "run", file], TOP, script)
            assert ended.status is not None, "the program ends"
            yield given(f"seed {seed} of {file.name}", "run", (dictionary, b"", script), ended.status, ended.text)

    def trees(self) -> None:
        """The trees of random answers, which the Python package has too."""
        judge_in_node(self.tally, tool("node"), self.shipped, tree_cases(FILES), "node", RUNNER)

    def browser(self, name: str) -> None:
        """The stored cases in a browser."""
        small = (case for case in stored() if len(case.sent) + len(case.due) <= SMALL)
        judge_in_browser(self.tally, name, self.shipped, {"page": small, "worker": stored()})

    def package(self) -> None:
        """The packed package, installed in a folder of its own by its file alone."""
        assert self.shipped
        packed = self.folder / "packed"
        packed.mkdir()
        self.ends_well("npm pack", [tool("npm"), "pack", "--pack-destination", packed])
        user = self.folder / "user"
        shutil.copytree(JAVASCRIPT / "tests" / "user", user)
        files = [str(path) for path in packed.glob("*.tgz")]
        self.ends_well("npm install", [tool("npm"), "install", "--offline", "--no-audit", "--no-fund", *files], user)
        self.ends_well("a program over the package", [tool("node"), "household.js"], user)
        self.ends_well("a typed program over the package", [tool("tsc"), "-p", "."], user)
        names = sorted(path.name for path in (user / "node_modules" / "fact-graph" / "src").iterdir())
        due = sorted([*(path.name for path in (JAVASCRIPT / "src").glob("*.js")), "fact_graph.wasm"])
        self.tally.expect("the files of the package", json.dumps(names), json.dumps(due))


PARTS = ("steps", "types", "names", "comments", "same", "node", "cases", "random", "trees", *BROWSERS, "package")


def main(argv: list[str]) -> int:
    """Runs the parts."""
    words = words_of(__doc__)
    add_program(words)
    add_library(words)
    words.add_argument("parts", nargs="*", metavar="PART")
    asked = words.parse_args(argv)
    unknown = set(asked.parts) - set(PARTS)
    if unknown:
        words.error(f"no part is called {min(unknown)}")
    os.environ["FACT_GRAPH_LIBRARY"] = str(asked.library)  # where the Python package looks for it
    tally = Tally()
    with tempfile.TemporaryDirectory(prefix="test_javascript.") as folder:
        parts = Parts(tally, asked.program, Path(folder))
        for name in asked.parts or PARTS:
            if name in BROWSERS:
                parts.browser(name)
            else:
                getattr(parts, name)()
    return tally.end()


if __name__ == "__main__":
    sys.exit(main(sys.argv[1:]))
