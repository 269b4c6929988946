"""The kit that `rt` belongs to: its folder, and the module that rt itself works with."""
import importlib.machinery
import importlib.util
import shutil
import sys
from collections.abc import Callable
from functools import cache
from pathlib import Path
from typing import Any

TOP = Path(__file__).resolve().parent.parent
# (nothing is written beside the toolchain)
sys.dont_write_bytecode = True


def binaries() -> Path:
    """The folder of rt and its tools. Without it the status is 2."""
    found = shutil.which("rt")
    if found is None:
        print(f"{Path(sys.argv[0]).name}: rt isn't on the path", file=sys.stderr)
        sys.exit(2)
    return Path(found).resolve().parent


BINARIES = binaries()
KIT = BINARIES.parent


def once_a_look(stamp: Callable[[Any], str]) -> Callable[[Any], str]:
    """A crate's stamp of its texts and of those below it, for which each text is read once, and not once for each way to it."""
    seen: dict[str, str] = {}
    depth = 0

    def looked(crate: Any) -> str:
        nonlocal depth
        if depth == 0:
            seen.clear()
        if crate.folder not in seen:
            depth += 1
            try:
                seen[crate.folder] = stamp(crate)
            finally:
                depth -= 1
        return seen[crate.folder]

    return looked


@cache
def load_rt() -> Any:
    """The module of rt that knows crates, their libraries and the words of a check."""
    loader = importlib.machinery.SourceFileLoader("rtlib", str(BINARIES / "rtlib.py"))
    spec = importlib.util.spec_from_loader("rtlib", loader)
    assert spec is not None
    module = importlib.util.module_from_spec(spec)
    sys.modules["rtlib"] = module
    loader.exec_module(module)
    module.Crate.stamp = once_a_look(module.Crate.stamp)
    return module
