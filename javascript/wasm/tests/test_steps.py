"""What each step of the build may meet, and what it refuses."""

import re

import pytest
from hypothesis import given
from hypothesis import strategies as some

from binary import Reader, Refused, signed, unsigned
from lower import HEADER, lowered
from narrow import narrowed
from reorder import reordered
from retarget import TARGET, as_constant, bytes_of_powers, retargeted

HEAD = "".join(f'{word} = "{old}"\n' for word, (old, _) in TARGET.items())


# ---- numbers

@given(some.integers(0, 2**64 - 1))
def test_a_number_is_read_as_it_was_written(number: int) -> None:
    """Without a sign."""
    assert Reader(unsigned(number)).unsigned() == number


@given(some.integers(-(2**63), 2**63 - 1))
def test_a_number_with_a_sign_is_read_as_it_was_written(number: int) -> None:
    """With one."""
    assert Reader(signed(number)).signed() == number


# ---- the module's text

def test_the_target_is_the_other_one() -> None:
    """And nothing else changes."""
    assert retargeted(HEAD + "define i64 @f() {\n}\n", True) == HEAD.replace(TARGET["target triple"][0], TARGET["target triple"][1]).replace(
        TARGET["target datalayout"][0], TARGET["target datalayout"][1]
    ) + "define i64 @f() {\n}\n"


def test_attributes_of_the_processor_go() -> None:
    """The others stay."""
    text = retargeted(HEAD + 'attributes #0 = { nounwind "frame-pointer"="all" "target-cpu"="x86-64-v2" "probe-stack"="inline-asm" }\n', True)
    assert 'attributes #0 = { nounwind "frame-pointer"="all" }\n' in text


def test_what_no_line_reaches_is_compiled_for_size() -> None:
    """What a line calls, or finds in a table of its own, isn't."""
    text = retargeted(
        HEAD
        + '@table = private constant { ptr, [2 x i8] } { ptr @"in a table", [2 x i8] c"@s" }\n'
        + 'define i32 @fact_graph_answer() #0 {\n  call void @"called (by a line) c"()\n}\n\n'
        + 'define internal void @"called (by a line) c"() #1 {\n  store ptr @table, ptr %p\n}\n\n'
        + 'define internal void @"in a table"() #0 {\n}\n\n'
        + 'define i32 @fact_graph_open() #0 {\n  call void @"called (by a line) c"()\n  call void @s()\n}\n\n'
        + "define internal void @s() #1 {\n}\n\n"
        + 'attributes #0 = { nounwind }\nattributes #1 = { nounwind "rattle-sig"="1" }\n',
        True,
    )
    groups = re.findall(r'^define .*?@"?(.*?)"?\(\) (#\d+) \{$', text, re.MULTILINE)
    assert groups == [("fact_graph_answer", "#0"), ("called (by a line) c", "#1"), ("in a table", "#0"), ("fact_graph_open", "#770"), ("s", "#771")]
    assert "attributes #770 = { optsize nounwind }\n" in text
    assert 'attributes #771 = { optsize nounwind "rattle-sig"="1" }\n' in text


def test_the_shuffle_of_x86_is_the_one_of_webassembly() -> None:
    """By an instruction, or by a function of the runtime."""
    shuffle = "<16 x i8> @llvm.x86.ssse3.pshuf.b.128"
    text = f"{HEAD}declare {shuffle}(<16 x i8>, <16 x i8>) #1\n%a = call {shuffle}(<16 x i8> %b, <16 x i8> %c)\n"
    assert "x86.ssse3" not in retargeted(text, True)
    assert "@llvm.wasm.swizzle(" in retargeted(text, True)
    assert "@swizzle(" in retargeted(text, False)
    assert "llvm.wasm" not in retargeted(text, False)


def test_the_fence_of_arithmetic_is_a_call() -> None:
    """Of a function that LLVM can't see through."""
    text = retargeted(HEAD + "declare double @llvm.arithmetic.fence.f64(double)\n%a = call double @llvm.arithmetic.fence.f64(double %b)\n", True)
    assert "call double @fence_of_arithmetic(double %b)" in text
    assert "llvm.arithmetic" not in text


def test_a_count_of_threads_is_one_of_a_page() -> None:
    """What is read, taken and exchanged is the same, by plain steps; the bounds between them go."""
    bound = '  call void asm sideeffect "", "~{memory}"()\n'
    steps = [
        "  %r5 = load atomic i64, ptr %a0 seq_cst, align 8\n",
        "  %r1 = atomicrmw sub ptr %a0, i64 %a1 seq_cst, align 8\n",
        "  %r15 = cmpxchg ptr %a0, i64 %r13, i64 %r14 seq_cst seq_cst, align 8\n",
    ]
    text = retargeted(HEAD + "define void @f() {\n" + "".join(bound + step + bound for step in steps) + "}\n", True)
    assert text.endswith(
        "define void @f() {\n"
        "  %r5 = load i64, ptr %a0, align 8\n"
        "  %r1 = load i64, ptr %a0, align 8\n  %r1.left = sub i64 %r1, %a1\n  store i64 %r1.left, ptr %a0, align 8\n"
        "  %r15.was = load i64, ptr %a0, align 8\n  %r15.same = icmp eq i64 %r15.was, %r13\n"
        "  %r15.left = select i1 %r15.same, i64 %r14, i64 %r15.was\n  store i64 %r15.left, ptr %a0, align 8\n"
        "  %r15.pair = insertvalue { i64, i1 } poison, i64 %r15.was, 0\n"
        "  %r15 = insertvalue { i64, i1 } %r15.pair, i1 %r15.same, 1\n"
        "}\n"
    )


def test_the_table_of_powers_is_the_runtime_s() -> None:
    """Where a constant has all of its bytes; each other constant stays."""
    def table(data: bytes) -> str:
        return f"@t.1 = private unnamed_addr constant {as_constant(data)}, align 16\n@t.10 = private constant i8 0\n"

    use = "define ptr @f() {\n  store ptr @t.1, ptr @t.10\n}\n"
    due = "@powers_of_five = external constant [10688 x i8], align 16\n@t.10 = private constant i8 0\n"
    assert retargeted(HEAD + table(bytes_of_powers()) + use, True).endswith(due + use.replace("@t.1,", "@powers_of_five,"))
    other = table(bytes_of_powers()[:-1] + b"\0") + use
    assert retargeted(HEAD + other, True).endswith(other)


@pytest.mark.parametrize(
    "line",
    [
        "declare i32 @puts(ptr)",
        "declare <4 x float> @llvm.x86.sse.rcp.ps(<4 x float>)",
        "declare ptr @llvm.thread.pointer()",
        'attributes #0 = { "strange"="yes" }',
        'module asm "nop"',
        "%a = call i32 asm \"nop\", \"\"()",
        "@x = thread_local global i32 0",
        "%a = load atomic i32, ptr %p seq_cst, align 4",
        "%a = cmpxchg ptr %p, i32 0, i32 1 seq_cst seq_cst",
        "%a = fadd x86_fp80 %b, %c",
        "%a = load ptr, ptr addrspace(256) %p",
        "fence seq_cst",
    ],
)
def test_what_is_of_a_processor_or_of_threads_is_refused(line: str) -> None:
    """Each where it stands alone."""
    with pytest.raises(Refused):
        retargeted(f"{HEAD}{line}\n", True)


def test_another_target_is_refused() -> None:
    """Since its sizes may be others."""
    with pytest.raises(Refused):
        retargeted(HEAD.replace("x86_64", "aarch64"), True)
    with pytest.raises(Refused):
        retargeted(HEAD.replace("i128:128", "i128:64"), True)


def test_names_and_constants_may_have_any_words() -> None:
    """They are no instructions."""
    retargeted(HEAD + '@section = private constant [8 x i8] c"asm gc \\00"\ndefine void @"cmpxchg"(i64 %fence) {\n}\n', True)


# ---- the module's addresses

def section(kind: int, content: bytes) -> bytes:
    """A section of a module."""
    return bytes([kind]) + unsigned(len(content)) + content


def module(code: bytes, *before: bytes, memory: bytes = b"\x01\x04\x01", table: bytes = b"\x01\x70\x04\x01") -> bytes:
    """A module of one function (i64, i64) with this code, a table and a memory of 64 bits."""
    body = b"\0" + code + b"\x0b"
    parts = [section(1, b"\x01\x60\x02\x7e\x7e\0"), section(3, b"\x01\0"), section(4, table), section(5, memory), *before]
    return HEADER + b"".join(parts) + section(10, b"\x01" + unsigned(len(body)) + body)


def test_addresses_lose_their_upper_half() -> None:
    """Before a load; below the value of a store, which a local holds."""
    assert lowered(module(b"\x20\0\x29\x03\x08\x1a")).endswith(b"\x20\0\xa7\x29\x03\x08\x1a\x0b")
    stored = lowered(module(b"\x20\0\x20\x01\x37\x03\0"))
    assert stored.endswith(b"\x01\x01\x7e\x20\0\x20\x01\x21\x02\xa7\x20\x02\x37\x03\0\x0b")


def test_copies_and_fills_lose_all_three() -> None:
    """Two addresses and a size; of a fill the byte stays."""
    copied = lowered(module(b"\x20\0\x20\x01\x20\x01\xfc\x0a\0\0"))
    assert copied.endswith(b"\x21\x02\x21\x03\xa7\x20\x03\xa7\x20\x02\xa7\xfc\x0a\0\0\x0b")
    filled = lowered(module(b"\x20\0\x41\0\x20\x01\xfc\x0b\0"))
    assert filled.endswith(b"\x21\x02\x21\x03\xa7\x20\x03\x20\x02\xa7\xfc\x0b\0\x0b")


def test_the_size_of_memory_has_64_bits_outside() -> None:
    """And -1 stays -1."""
    assert lowered(module(b"\x3f\0\x1a")).endswith(b"\x3f\0\xad\x1a\x0b")
    assert lowered(module(b"\x42\x01\x40\0\x1a")).endswith(b"\x42\x01\xa7\x40\0\xac\x1a\x0b")


def test_memory_and_tables_have_32_bits() -> None:
    """With as many pages and places as before."""
    small = lowered(module(b"", memory=b"\x01\x05\x02\x80\x80\x04", table=b"\x01\x70\x05\x07\x07"))
    assert section(5, b"\x01\x01\x02\x80\x80\x04") in small
    assert section(4, b"\x01\x70\x01\x07\x07") in small


def test_the_start_is_no_export() -> None:
    """A section of its own names it, behind that of the exports; a memory of that name is one."""
    exports = section(7, b"\x03\x05start\0\0\x01f\0\0\x05start\x02\0")
    small = lowered(module(b"", exports))
    assert section(7, b"\x02\x01f\0\0\x05start\x02\0") + section(8, b"\0") in small
    assert section(7, b"\x01\x01f\0\0") + section(10, b"\x01\x02\0\x0b") in lowered(module(b"", section(7, b"\x01\x01f\0\0")))


def test_tables_alone() -> None:
    """The memory and its addresses stay."""
    small = lowered(module(b"\x20\0\x29\x03\x08\x1a\x20\0\x11\0\0"), with_memory=False)
    assert small.endswith(b"\x20\0\x29\x03\x08\x1a\x20\0\xa7\x11\0\0\x0b")
    assert section(5, b"\x01\x04\x01") in small
    assert section(4, b"\x01\x70\0\x01") in small


@pytest.mark.parametrize(
    "data",
    [
        b"\0asm\2\0\0\0",
        HEADER + section(2, b"\x01\x01e\x01f\0\0"),
        HEADER + section(0, b"\x04name"),
        HEADER + section(8, b"\0"),
        module(b"\x06\x40\x0b"),
        module(b"\xfe\0\0\0\0"),
        module(b"\xfc\x08\0\0"),
        module(b"\xfd\x80\x02"),
        module(b"\x20\0\x28\x02\x80\x80\x80\x80\x10\x1a"),
        module(b"\x20\0\x28\x42\0\0\x1a"),
        module(b"", memory=b"\x01\x01\x01"),
        module(b"", memory=b"\x01\x05\x01\x81\x80\x04"),
        module(b"", memory=b"\x02\x04\x01\x04\x01"),
        module(b"")[:-1],
        HEADER + section(11, b"\x01\0\x42\x80\x80\x80\x80\x08\x0b\x01x"),
        HEADER + section(11, b"\x01\x01\x01x"),
    ],
)
def test_what_isnt_known_of_a_module_is_refused(data: bytes) -> None:
    """Another version, an import, a custom section, a start, exceptions, threads, data dropped, relaxed vectors, a far offset, a second
    memory, a memory of 32 bits, one beyond 4 GiB, an end within, data that lies far or nowhere."""
    with pytest.raises(Refused):
        lowered(data)


# ---- the order of functions

def of_three(calls: bytes, order: bytes, first: int) -> bytes:
    """A module of three functions in an order, whose types, calls and names are those of these numbers."""
    parts = {0: b"\0" + bytes([1]) * 20, 1: b"\0" + b"\x41\x07\x1a" * 5, 2: b"\0" + bytes([1]) * 19}
    codes = [parts[it] + bytes([0x10, calls[it], 0x0B]) for it in order]
    types = section(1, b"\x03" + b"\x60\0\0" * 3) + section(3, b"\x03" + order)
    named = section(7, b"\x02\x01f\0" + calls[0:1] + b"\x01m\x02\0") + section(8, bytes([first])) + section(9, b"\x01\0\x41\x01\x0b\x03" + calls)
    return HEADER + types + named + section(10, b"\x03" + b"".join(unsigned(len(it)) + it for it in codes)) + section(11, b"\0")


def test_calls_follow_functions_that_move() -> None:
    """So do exports, the start and the table; the memory that is exported stays."""
    assert reordered(of_three(b"\x01\x02\0", b"\0\x01\x02", 2)) == of_three(b"\x02\x01\0", b"\0\x02\x01", 1)


def test_what_isnt_known_isnt_ordered() -> None:
    """A section of names."""
    with pytest.raises(Refused):
        reordered(of_three(b"\0\0\0", b"\0\x01\x02", 0) + section(0, b"\x04name"))


# ---- the header

@pytest.mark.parametrize(
    "header",
    ["float fact_graph_share(fact_graph graph);", "void fact_graph_tell(int64_t number);", "void fact_graph_tell(char **names);"],
)
def test_a_new_type_in_the_header_is_refused(header: str) -> None:
    """It isn't passed by a guess."""
    with pytest.raises(Refused):
        narrowed(header)


def test_a_comment_declares_nothing() -> None:
    """Neither does a macro."""
    assert narrowed("/*\nvoid fact_graph_close(fact_graph graph);\n*/\n#define fact_graph_x 1\n") == ""
