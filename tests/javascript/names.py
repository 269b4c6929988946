"""The public names of the Python package, and which of them the package in JavaScript doesn't declare under the same name in camelCase."""

import ast
import re
from collections.abc import Iterator
from pathlib import Path

# What a package's public classes and types have, by their names; nothing for a function or a type without members.
Names = dict[str, set[str]]

DECLARED = re.compile(r"^export (?:declare )?(?:class|type) (\w+)\b(?:[^{;]*\{(.*?)^\})?", re.MULTILINE | re.DOTALL)
MEMBER = re.compile(r"^ {4}(?:(?:static|readonly|get|set) )*(\w+)\??[(:<]", re.MULTILINE)
EXPORTED = re.compile(r"^export \{(.*?)\}", re.MULTILINE | re.DOTALL)


def of_python(package: Path, exported: list[str]) -> Names:
    """Those of the Python package's modules that it exports."""
    found: Names = {name: set() for name in exported}
    for path in package.glob("*.py"):
        for node in ast.parse(path.read_text(encoding="utf-8")).body:
            if isinstance(node, ast.ClassDef) and node.name in found:
                found[node.name] |= {name for name in members(node) if not name.startswith("_")}
    return found


def members(node: ast.ClassDef) -> Iterator[str]:
    """The functions of a class, and what each of it has."""
    for part in node.body:
        if isinstance(part, ast.FunctionDef):
            yield part.name
        if isinstance(part, ast.AnnAssign) and isinstance(part.target, ast.Name):
            yield part.target.id
        if isinstance(part, ast.FunctionDef) and part.name == "__init__":
            yield from (it.attr for it in ast.walk(part) if isinstance(it, ast.Attribute) and isinstance(it.ctx, ast.Store))


def of_javascript(types: Path) -> Names:
    """Those of the types that tsc writes of the package in JavaScript, as far as its index exports them."""
    declared: Names = {}
    for path in types.glob("*.d.ts"):
        for name, body in DECLARED.findall(path.read_text(encoding="utf-8")):
            declared.setdefault(name, set()).update(MEMBER.findall(body))
    index = (types / "index.d.ts").read_text(encoding="utf-8")
    exported = [*(name for names in EXPORTED.findall(index) for name in re.findall(r"\w+", names)), *(name for name, _ in DECLARED.findall(index))]
    return {name: declared.get(name, set()) for name in exported}


def wanting(python: Names, javascript: Names) -> Iterator[str]:
    """The names of Python that JavaScript has none for, once each."""
    yield from sorted(set(python) - set(javascript))
    yield from sorted({member for name in set(python) & set(javascript) for member in python[name] if camel(member) not in javascript[name]})


def camel(name: str) -> str:
    """A name as JavaScript spells it.

    >>> camel("is_final")
    'isFinal'
    """
    first, *others = name.split("_")
    return first + "".join(map(str.capitalize, others))
