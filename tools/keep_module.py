"""The LLVM module of the C library, which is kept beside the static library while that is compiled.

rattle hands clang the module in a folder of its own, which it then removes, and the name of clang is in the toolchain's folder that it is
given. So it is given a folder whose clang keeps a copy of the module, and the words that came with it, and goes on as the kit's.
"""

import subprocess
import tempfile
from collections.abc import Iterator
from contextlib import contextmanager
from pathlib import Path

from kit import KIT

TOOLCHAIN = Path(KIT, "toolchain")
CLANG, ARCHIVER = TOOLCHAIN / "bin" / "clang", TOOLCHAIN / "bin" / "llvm-ar"

# rattle starts clang with no environment, so all places are written into it
KEEPER = """#!/bin/sh
for word in "$@"; do
  printf '%s\\n' "$word"
  case "$word" in *.bc) /bin/cp "$word" '{module}' ;; esac
done > '{words}'
exec '{clang}' "$@"
"""


def words_beside(module: Path) -> Path:
    """The file of the words with which clang compiled a kept module, one a line."""
    return module.with_suffix(".words")


@contextmanager
def keeping(module: Path) -> Iterator[Path]:
    """A toolchain's folder by which the module that is compiled is kept at a place."""
    with tempfile.TemporaryDirectory(prefix="toolchain.") as made:
        folder = Path(made)
        folder.joinpath("bin").mkdir()
        folder.joinpath("lib").symlink_to(TOOLCHAIN / "lib")
        for tool in TOOLCHAIN.joinpath("bin").iterdir():
            if tool.name != "clang":
                folder.joinpath("bin", tool.name).symlink_to(tool)
        keeper = folder / "bin" / "clang"
        keeper.write_text(KEEPER.format(module=module.resolve(), words=words_beside(module).resolve(), clang=CLANG), encoding="utf-8")
        keeper.chmod(0o755)
        yield folder


def is_of(archive: Path, module: Path) -> bool:
    """Whether the module, compiled again by the same words, is the object file of the static library to the byte."""
    words = words_beside(module).read_text(encoding="utf-8").splitlines()
    member = f"{archive.stem.removeprefix('lib')}.o"
    compiled = subprocess.run([ARCHIVER, "p", archive.resolve(), member], stdout=subprocess.PIPE, check=True).stdout
    with tempfile.TemporaryDirectory(prefix="again.") as made:
        folder = Path(made)
        folder.joinpath("module.bc").write_bytes(module.read_bytes())
        subprocess.run([CLANG, *words], cwd=folder, check=True)
        return folder.joinpath("module.o").read_bytes() == compiled
