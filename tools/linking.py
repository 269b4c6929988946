"""Links the C library from the crate's static library.

In a folder stand then libfact_graph.so.1.2.0, the shared library; libfact_graph.so.1, which a program asks for that was linked with
it, and libfact_graph.so, by which it is linked, as links; and libfact_graph.a, one object that links alone.
"""
import os
import subprocess
import tempfile
from collections.abc import Sequence
from pathlib import Path

from header import ARCHIVE, FUNCTIONS, LINK, SHARED, SONAME, TOP
from kit import KIT

# It calls malloc, realloc and free.
HEAP = Path(KIT, "c", "liblibc_c.a")
MAP = TOP / "tools" / "package" / "libfact_graph.map"


def _run(words: Sequence[str | Path]) -> bool:
    return subprocess.run(words, check=False).returncode == 0


def _compiler() -> str:
    return os.environ.get("CC", "cc")


def link_shared(static: Path, folder: Path) -> bool:
    """The shared library and its two links. Of the symbols the functions of the header alone are exported."""
    whole: list[str | Path] = ["-Wl,--whole-archive", static, "-Wl,--no-whole-archive", HEAP]
    flags = ["-shared", "-fPIC", "-Wl,-z,defs", f"-Wl,-soname,{SONAME}", f"-Wl,--version-script={MAP}"]
    if not _run([_compiler(), *flags, "-o", folder / SHARED, *whole]):
        return False
    for name in (SONAME, LINK):
        (folder / name).unlink(missing_ok=True)
        (folder / name).symlink_to(SHARED)
    return True


def link_static(static: Path, folder: Path) -> bool:
    """The archive. Its one object has no names but those of the functions, so it stands beside any other library."""
    with tempfile.TemporaryDirectory() as made:
        whole, names = Path(made, "fact_graph.o"), Path(made, "names")
        names.write_text("\n".join(FUNCTIONS) + "\n", encoding="utf-8")
        joined: list[str | Path] = [_compiler(), "-r", "-nostdlib", "-o", whole, "-Wl,--whole-archive", static, "-Wl,--no-whole-archive", HEAP]
        if not (_run(joined) and _run(["objcopy", f"--keep-global-symbols={names}", whole])):
            return False
        (folder / ARCHIVE).unlink(missing_ok=True)
        return _run(["ar", "rcsD", folder / ARCHIVE, whole])


def link(static: Path, folder: Path) -> bool:
    """Links both from the crate's static library."""
    folder.mkdir(parents=True, exist_ok=True)
    return link_shared(static, folder) and link_static(static, folder)
