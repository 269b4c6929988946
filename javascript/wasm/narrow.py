"""The functions of the library's header for a caller whose numbers have 32 bits, as a page's have: a C file that exports each under
its own name.

    >>> print(narrowed("void fact_graph_close(fact_graph graph);"), end="")
    void fact_graph_close(u64);
    __attribute__((export_name("fact_graph_close"))) void narrow_fact_graph_close(u32 graph) { fact_graph_close(graph); }

An address, a size and a session, which is one address, have 64 bits in the library. A parameter of any other type is refused, so that a
new one isn't passed by a guess. The functions of desks are left out: a page has one party.
"""

from __future__ import annotations

import re

from binary import Refused

TYPES = "#include \"types.h\"\n\n"
FUNCTION = re.compile(r"^(\w+) (fact_graph_(?!desk_)\w+)\(([^()]*)\);", re.MULTILINE)
COMMENT = re.compile(r"/\*.*?\*/", re.DOTALL)
PARAMETER = re.compile(r"(?:const )?(\w+) (\*?)(\w+)")

# How a type of the header is passed: in the library, and between it and a page.
IN_THE_LIBRARY = {"void": "void", "uint32_t": "u32", "size_t": "u64", "fact_graph": "u64"}
RETURNED = {"void": "void", "uint32_t": "u32", "size_t": "u32"}


def narrowed(header: str) -> str:
    """The C of all functions that the text of a header declares."""
    return "".join(map(function, FUNCTION.findall(COMMENT.sub("", header))))


def function(found: tuple[str, str, str]) -> str:
    """The C of one function: what it returns, its name and its parameters."""
    returned, name, listed = found
    if returned not in RETURNED:
        raise Refused(f"the header has {name}, which returns {returned}")
    parameters = [] if listed.strip() in ("", "void") else [parameter(name, it) for it in listed.split(",")]
    wide = ", ".join(kind for kind, _ in parameters) or "void"
    narrow = ", ".join(f"u32 {it}" for _, it in parameters) or "void"
    call = f"{name}({', '.join(passed(kind, it) for kind, it in parameters)})"
    answer = f"{call};" if returned == "void" else f"return ({RETURNED[returned]}){call};"
    return (
        f"{IN_THE_LIBRARY[returned]} {name}({wide});\n"
        f"__attribute__((export_name(\"{name}\"))) {RETURNED[returned]} narrow_{name}({narrow}) {{ {answer} }}\n"
    )


def parameter(name: str, text: str) -> tuple[str, str]:
    """The type of a parameter in the library, and its name."""
    found = PARAMETER.fullmatch(" ".join(text.split()))
    if found and found[2]:
        return "void *", found[3]
    if found and found[1] in IN_THE_LIBRARY:
        return IN_THE_LIBRARY[found[1]], found[3]
    raise Refused(f"the header has {name}, which takes {text.strip()}")


def passed(kind: str, name: str) -> str:
    """A number of 32 bits as an argument of the type."""
    return f"(void *)(u64){name}" if kind == "void *" else name


def file_of(header: str) -> str:
    """The whole C file."""
    return TYPES + narrowed(header)
