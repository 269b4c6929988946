"""What the C library's header says: its version, its functions, and the names of the files that follow from them."""
import re
from pathlib import Path

TOP = Path(__file__).resolve().parent.parent
HEADER = TOP / "crates" / "fact_graph_c" / "fact_graph.h"
# What the numbers of the header mean, in words. It is no part of the library.
TEXTS = HEADER.with_name("fact_graph_text.h")

_text = HEADER.read_text(encoding="utf-8")
MAJOR, MINOR, PATCH = (int(re.findall(rf"#define FACT_GRAPH_VERSION_{part} (\d+)\n", _text)[0]) for part in ("MAJOR", "MINOR", "PATCH"))
VERSION = f"{MAJOR}.{MINOR}.{PATCH}"
# What the library exports: what is declared, and not what is defined in the header.
FUNCTIONS = sorted(re.findall(r"^\w+ (fact_graph_\w+)\([^{}()]*\);$", _text, re.MULTILINE))

ARCHIVE = "libfact_graph.a"
# By this name a program is linked with the shared library, by the next one it asks for it, and by the last it stands there.
LINK = "libfact_graph.so"
SONAME = f"{LINK}.{MAJOR}"
SHARED = f"{LINK}.{VERSION}"
