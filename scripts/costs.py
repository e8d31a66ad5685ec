"""Loads whose cost is counted: turns of programs, and builds of a megabyte of one kind of source.

`scripts/limits PROP --cost` prints the two tables of docs/SPEED.md that are made of them.
"""

from itertools import count

MEGABYTE = 1_048_576
METHOD = "PUB main | a, b\n"


def until_full(lines, head="", end="\n", size=MEGABYTE):
    """A head, and then lines until they have so many bytes."""
    text, held = [head], len(head)
    for line in lines:
        if held + len(line) + len(end) > size:
            return "".join(text)
        text += [line, end]
        held += len(line) + len(end)


def pasm_with_labels():
    def lines():
        for i in count():
            if i % 400 == 0:
                yield "        org 0"
            yield f"l{i}  mov l{i}, #{i % 500}"

    return until_full(lines(), "PUB main\nDAT\n")


def variables():
    return until_full((f"  long v{i}" for i in count()), "PUB main\nVAR\n")


def chain_of_constants():
    return until_full((f"  c{i} = c{i - 1} + 1" for i in count(1)), "PUB main\nCON\n  c0 = 1\n")


def bytes_on_one_line():
    return until_full(("1," for _ in count()), "PUB main\nDAT\n  byte ", "")[:-1] + "\n"


def deep_expressions():
    line = "  a := " + "(" * 20 + "a" + " + b)" * 20
    return until_full((line for _ in count()), METHOD)


def ifs_in_one_another():
    nested = "\n".join(f"{' ' * (i + 2)}if a > {i}" for i in range(20)) + f"\n{' ' * 22}a := b"
    return until_full((nested for _ in count()), METHOD)


def methods_and_calls():
    return until_full((f"PUB m{i}\n  m{i - 1}" for i in count(1)), "PUB m0\n")


def lookups():
    return until_full(("  a := lookup(a: 1, 22, 333, b)" for _ in count()), METHOD)


def assignments():
    return until_full(("  a := b + 1" for _ in count()), METHOD)


def arms_of_a_case():
    return until_full((f"    {i}: b := 1" for i in count()), METHOD + "  case a\n")


BUILDS = [
    ("`DAT` with PASM and labels", pasm_with_labels),
    ("variables", variables),
    ("constants in a chain", chain_of_constants),
    ("`DAT` bytes of one digit on one line", bytes_on_one_line),
    ("deep expressions", deep_expressions),
    ("IFs in one another", ifs_in_one_another),
    ("methods and calls", methods_and_calls),
    ("LOOKUPs", lookups),
    ("assignments", assignments),
    ("arms of a CASE", arms_of_a_case),
]


def pasm(code, others=""):
    """A program whose cog 0 becomes one of Propeller Assembly, and seven others where there is code for them."""
    starts = "".join(f"  coginit({i}, @others, 0)\n" for i in range(1, 8)) if others else ""
    data = f"        org 0\nothers{others}\n" if others else ""
    return (
        f"PUB main\n{starts}  coginit(0, @code, 0)\nDAT\n        org 0\ncode{code}\n"
        f"x       long 0\na       long 0\n{data}"
    )


def loop(*lines):
    return "\n".join(["", "again", *(f"        {it}" for it in lines), "        jmp #again"])


WRITES = "\n        mov $1F0, #0\nagain_b wrlong $1F0, #0\n        jmp #again_b"
WAITS = "\n        mov $1F0, #1\n        waitpne $1F0, $1F0\n        jmp #others"

TURNS = [
    ("WRLONG, JMP in one cog", pasm(loop("wrlong x, a"))),
    ("the same in eight cogs", pasm(loop("wrlong x, a"), WRITES)),
    ("RDLONG, ADD, WRLONG, JMP", pasm(loop("rdlong x, a", "add x, #1", "wrlong x, a"))),
    ("MOV from CNT, ADD, WAITCNT, JMP", pasm(loop("mov x, cnt", "add x, #50", "waitcnt x, #0"))),
    ("OUTA toggled (XOR, JMP)", pasm(loop("xor outa, #1"))),
    ("the same with seven cogs that wait", pasm(loop("xor outa, #1"), WAITS)),
    ("INA read (MOV, JMP)", pasm(loop("mov x, ina"))),
    ("Spin: a local is counted", "PUB main | i\n  repeat\n    i++\n"),
    ("Spin: `!outa[0]`, `waitcnt(cnt + 1000)`", "PUB main\n  repeat\n    !outa[0]\n    waitcnt(cnt + 1000)\n"),
    (
        "Spin: eight longs of an array summed",
        "VAR\n  long a[8]\nPUB main | i, s\n  repeat\n    s := 0\n    repeat i from 0 to 7\n      s += a[i]\n",
    ),
    ("Spin: `a := f(a)`", "VAR\n  long a\nPUB main\n  repeat\n    a := f(a)\nPUB f(x)\n  return x + 1\n"),
    ("Spin: `bytefill`", "VAR\n  byte a[256]\nPUB main\n  repeat\n    bytefill(@a, 0, 256)\n"),
]
