"""Makes the text of an LLVM module for x86-64 that of one for WebAssembly with addresses of 64 bits.

Sizes, layouts and calls are the same on both, so nothing but what names the processor changes, and the counts of what sessions share, which
threads may change at the same time: a page's memory has one thread, and there they are plain numbers. What the module may have of a
processor and of threads is listed here; anything else of them or of C is refused, since it could mean something else on WebAssembly. What no
line of a session reaches is compiled for size: it runs where a session begins or is saved, and a visitor waits for all of the code. A
table of random bytes that a few lines of C make again (runtime/powers.c) isn't carried along.
"""

from __future__ import annotations

import re

from binary import Refused

TARGET = {
    "target datalayout": (
        "e-m:e-p270:32:32-p271:32:32-p272:64:64-i64:64-i128:128-f80:128-n8:16:32:64-S128",
        "e-m:e-p:64:64-p10:8:8-p20:8:8-i64:64-i128:128-n32:64-S128-ni:1:10:20",
    ),
    "target triple": ("x86_64-unknown-linux-gnu", "wasm64-unknown-unknown"),
}

# Attributes of functions: those of the processor go, and these stay. The signature of a call through a pointer is a number.
OF_THE_PROCESSOR = {"probe-stack", "stack-probe-size", "target-cpu", "target-features", "tune-cpu"}
OF_ANY = {"frame-pointer", "rattle-sig"}

# What the module calls without having it: the heap, and LLVM's functions that mean the same on each processor.
HEAP = {"rattle_alloc", "rattle_realloc", "rattle_dealloc"}
OF_LLVM = re.compile(
    r"llvm\.(?:mem(?:set|move|cpy)\.|trap$|cttz\.|ctlz\.|ctpop\.|bswap\.|abs\.|fsh[lr]\.|[us](?:min|max)\."
    r"|[us](?:add|sub|mul)\.(?:with\.overflow|sat)\.|assume$|expect\.|vector\.reduce\.)"
)

# pshufb takes the low 4 bits of a place, and gives 0 where its high bit is set; swizzle gives 0 from 16 on.
SHUFFLE, SWIZZLE = "llvm.x86.ssse3.pshuf.b.128", {True: "llvm.wasm.swizzle", False: "swizzle"}
AS_SWIZZLE = """
declare <16 x i8> @{swizzle}(<16 x i8>, <16 x i8>)
define internal <16 x i8> @shuffled(<16 x i8> %table, <16 x i8> %places) alwaysinline nounwind {{
  %cut = and <16 x i8> %places, splat (i8 143)
  %found = call <16 x i8> @{swizzle}(<16 x i8> %table, <16 x i8> %cut)
  ret <16 x i8> %found
}}
"""

# The fence keeps LLVM from moving arithmetic over it. WebAssembly has none: a call into another object file is as good.
FENCE, AS_FENCE = "llvm.arithmetic.fence.f64", "fence_of_arithmetic"

# What threads may do at the same time with a count of 64 bits, and the bounds over which LLVM moves nothing of it.
BOUND = re.compile(r'^  call void asm sideeffect "", "~\{memory\}"\(\)\n', re.MULTILINE)
READ = re.compile(r"^  (?P<it>%[\w.]+) = load atomic i64, ptr (?P<at>\S+) seq_cst, align 8$", re.MULTILINE)
TAKEN = re.compile(r"^  (?P<it>%[\w.]+) = atomicrmw sub ptr (?P<at>\S+), i64 (?P<by>\S+) seq_cst, align 8$", re.MULTILINE)
EXCHANGED = re.compile(
    r"^  (?P<it>%[\w.]+) = cmpxchg ptr (?P<at>\S+), i64 (?P<old>\S+), i64 (?P<new>\S+) seq_cst seq_cst, align 8$", re.MULTILINE
)
PLAIN = {
    BOUND: "",
    READ: r"  \g<it> = load i64, ptr \g<at>, align 8",
    TAKEN: r"  \g<it> = load i64, ptr \g<at>, align 8\n  \g<it>.left = sub i64 \g<it>, \g<by>\n  store i64 \g<it>.left, ptr \g<at>, align 8",
    EXCHANGED: r"  \g<it>.was = load i64, ptr \g<at>, align 8\n  \g<it>.same = icmp eq i64 \g<it>.was, \g<old>\n"
    r"  \g<it>.left = select i1 \g<it>.same, i64 \g<new>, i64 \g<it>.was\n  store i64 \g<it>.left, ptr \g<at>, align 8\n"
    r"  \g<it>.pair = insertvalue { i64, i1 } poison, i64 \g<it>.was, 0\n"
    r"  \g<it> = insertvalue { i64, i1 } \g<it>.pair, i1 \g<it>.same, 1",
}

# The runtime's table of the powers of 5, by which fractions of JSON are read.
POWERS, TABLE_OF_POWERS = range(-342, 326), "powers_of_five"

# Words of LLVM's text that mean a processor, threads or C, or what none of the engine's code has.
UNKNOWN = re.compile(
    r"\b(?:x86_\w+|asm|thread_local|atomicrmw|cmpxchg|(?:load|store) atomic|fence|addrspace|callbr|invoke|landingpad|va_arg"
    r"|blockaddress|ifunc|comdat|section|gc|prologue|musttail)\b"
)
TEXT_OF_A_CONSTANT = re.compile(r'(?<= )c"[^"]*"')
NAME = re.compile(r'[@%!](?:"[^"]*"|[\w.$-]+)')

# The functions that a line calls. What they don't reach has attributes of its own, a group whose number begins so.
OF_LINES = {"@fact_graph_answer", "@fact_graph_read"}
SMALL = "77"
GLOBAL = re.compile(r'@(?:"[^"]*"|[\w.$-]+)')
FUNCTION = re.compile(r'^(?P<head>define [^\n]*?(?P<name>@(?:"[^"]*"|[\w.$-]+))\([^\n]*) #(?P<group>\d+) \{(?P<body>\n(?:.*\n)*?\})$', re.MULTILINE)
CONSTANT = re.compile(r'^(?P<name>@(?:"[^"]*"|[\w.$-]+)) = .*$', re.MULTILINE)


def retargeted(text: str, has_vectors: bool) -> str:
    """The module for WebAssembly, whose instructions on vectors are there or not."""
    text = without_powers(without_threads(without_fence(without_shuffle(for_size(without_processor(for_target(text))), has_vectors))))
    refuse_unknown(text, has_vectors)
    return text


def for_target(text: str) -> str:
    """Names the other target."""
    for word, (old, new) in TARGET.items():
        found = re.findall(rf'^{word} = "(.*)"$', text, flags=re.MULTILINE)
        if found != [old]:
            raise Refused(f"the module has {word} {found}, and not {old}")
        text = text.replace(f'{word} = "{old}"', f'{word} = "{new}"')
    return text


def without_processor(text: str) -> str:
    """Takes the attributes of the processor away."""

    def change(line: re.Match[str]) -> str:
        for name in re.findall(r'"([^"]*)"(?:="[^"]*")?', line[0]):
            if name not in OF_THE_PROCESSOR | OF_ANY:
                raise Refused(f"the module has an attribute {name}")
        return re.sub(rf' "(?:{"|".join(OF_THE_PROCESSOR)})"="[^"]*"', "", line[0])

    return re.sub(r"^attributes #\d+ = .*$", change, text, flags=re.MULTILINE)


def for_size(text: str) -> str:
    """Has LLVM keep each function small that no line reaches."""
    reached = reached_from(OF_LINES, text)

    def change(function: re.Match[str]) -> str:
        return function[0] if function["name"] in reached else f"{function['head']} #{SMALL}{function['group']} {{{function['body']}"

    def doubled(line: re.Match[str]) -> str:
        return f"{line[0]}\nattributes #{SMALL}{line[1]} = {{ optsize{line[2]}"

    return re.sub(r"^attributes #(\d+) = \{(.*)$", doubled, FUNCTION.sub(change, text), flags=re.MULTILINE)


def reached_from(names: set[str], text: str) -> set[str]:
    """The names that functions and constants name, from these on."""
    parts = {found["name"]: found[0] for pattern in (FUNCTION, CONSTANT) for found in pattern.finditer(text)}
    reached, left = set(names), list(names)
    while left:
        named = set(GLOBAL.findall(TEXT_OF_A_CONSTANT.sub("", parts.get(left.pop(), "")))) - reached
        reached |= named
        left += named
    return reached


def without_declaration(text: str, name: str) -> str:
    """Takes a declared function away."""
    return re.sub(rf"^declare [^\n]*@{re.escape(name)}\(.*$", "", text, flags=re.MULTILINE)


def without_shuffle(text: str, has_vectors: bool) -> str:
    """Writes x86's shuffle as WebAssembly's, or as a call of the runtime's function."""
    if f"@{SHUFFLE}" not in text:
        return text
    text = without_declaration(text, SHUFFLE).replace(f"@{SHUFFLE}", "@shuffled")
    return text + AS_SWIZZLE.format(swizzle=SWIZZLE[has_vectors])


def without_fence(text: str) -> str:
    """Writes the fence of arithmetic as a call of the runtime's function."""
    if f"@{FENCE}" not in text:
        return text
    text = without_declaration(text, FENCE).replace(f"@{FENCE}", f"@{AS_FENCE}")
    return text + f"\ndeclare double @{AS_FENCE}(double) nounwind\n"


def without_threads(text: str) -> str:
    """Writes as plain steps what threads may do at the same time with a count: a page's memory has one thread.

    >>> print(without_threads("  %n = load atomic i64, ptr %at seq_cst, align 8"))
      %n = load i64, ptr %at, align 8
    """
    for pattern, plain in PLAIN.items():
        text = pattern.sub(plain, text)
    return text


def highest_bits(power: int) -> int:
    """The highest 128 bits of a power of 5, those below them cut off.

    >>> hex(highest_bits(1)), hex(highest_bits(-1))
    ('0xa0000000000000000000000000000000', '0xcccccccccccccccccccccccccccccccc')
    """
    five: int = 5 ** abs(power)
    number = five << 128 if power >= 0 else (1 << 1024) // five
    return number >> (number.bit_length() - 128)


def bytes_of_powers() -> bytes:
    """The table as it stands in the memory."""
    return b"".join(highest_bits(power).to_bytes(16, "little") for power in POWERS)


def as_constant(data: bytes) -> str:
    r"""Bytes as LLVM writes them in its text.

    >>> print(as_constant(b'a"\\\n'))
    [4 x i8] c"a\22\\\0A"
    """
    written = ("\\\\" if byte == 0x5C else chr(byte) if 32 <= byte < 127 and byte != 0x22 else f"\\{byte:02X}" for byte in data)
    return f'[{len(data)} x i8] c"{"".join(written)}"'


def without_powers(text: str) -> str:
    """Has the engine read the runtime's table in place of a constant with the same bytes."""
    table = as_constant(bytes_of_powers())
    found = re.search(rf"^(@[\w.$-]+) = private unnamed_addr constant {re.escape(table)}(?=, align 16$)", text, flags=re.MULTILINE)
    if not found:
        return text
    text = text.replace(found[0], f"@{TABLE_OF_POWERS} = external constant {table.partition(' c')[0]}")
    return re.sub(rf"{re.escape(found[1])}(?![\w.$-])", f"@{TABLE_OF_POWERS}", text)


def refuse_unknown(text: str, has_vectors: bool) -> None:
    """Stops at what isn't known."""
    known = HEAP | {AS_FENCE, SWIZZLE[has_vectors]}
    for name in re.findall(r"^declare [^\n]*?@([\w.]+)\(", text, flags=re.MULTILINE):
        if name not in known and not OF_LLVM.match(name):
            raise Refused(f"the module declares {name}")
    found = UNKNOWN.search(NAME.sub("", TEXT_OF_A_CONSTANT.sub("c", text)))
    if found:
        raise Refused(f"the module has {found[0]}")
