"""The compiled module of the Python package, beside a package that isn't installed: built as its wheel has it, from python/compiled.c."""
import importlib.util
import os
import subprocess
import sys
from pathlib import Path

TOP = Path(__file__).resolve().parent.parent
NAME = "fact_graph._compiled"


def build_compiled(folder: Path) -> Path:
    """Builds the module into a folder of its own, below its package's name. Where it can't be built the status is 2: nothing is passed over."""
    words: list[str | Path] = [sys.executable, "setup.py", "-q", "build_ext", "--build-lib", folder, "--build-temp", folder / "made"]
    built = subprocess.run(words, cwd=TOP / "python", stdout=subprocess.PIPE, stderr=subprocess.STDOUT, text=True, check=False)
    module = folder / f"{NAME.replace('.', os.sep)}.abi3.so"
    if not module.is_file():
        print(f"{built.stdout}{Path(sys.argv[0]).name}: the compiled module of python/ isn't built", file=sys.stderr)
        sys.exit(2)
    return module


def load_compiled(module: Path) -> None:
    """Has the package find this module, before it is imported."""
    spec = importlib.util.spec_from_file_location(NAME, module)
    assert spec and spec.loader and "fact_graph" not in sys.modules
    sys.modules[NAME] = importlib.util.module_from_spec(spec)
    spec.loader.exec_module(sys.modules[NAME])


def hide_compiled() -> None:
    """Has the package find no such module, before it is imported."""
    assert "fact_graph" not in sys.modules
    sys.modules[NAME] = None  # type: ignore[assignment] # as the import system has it for a module that isn't to be found
