"""Code for reading, as docs/FORMATS.md and docs/MACHINE.md ("Bytecodes") have it, made once more in Python: of an image, and what is
left of a project's code where all that its listing doesn't have is taken away."""

import re

PLAIN = """
FRAME_CALL_RETURN FRAME_CALL_NORETURN FRAME_CALL_ABORT FRAME_CALL_TRASHABORT BRANCH CALL OBJCALL OBJCALL_INDEXED LOOP_START LOOP_CONTINUE
JUMP_IF_FALSE JUMP_IF_TRUE JUMP_FROM_STACK COMPARE_CASE COMPARE_CASE_RANGE LOOK_ABORT LOOKUP_COMPARE LOOKDOWN_COMPARE LOOKUPRANGE_COMPARE
LOOKDOWNRANGE_COMPARE QUIT MARK_INTERPRETED STRSIZE STRCOMP BYTEFILL WORDFILL LONGFILL WAITPEQ BYTEMOVE WORDMOVE LONGMOVE WAITPNE - COGSTOP
LOCKRET WAITCNT - - - - COGINIT_RETURNS LOCKNEW_RETURNS LOCKSET_RETURNS LOCKCLR_RETURNS COGINIT LOCKNEW LOCKSET LOCKCLR ABORT
ABORT_WITH_RETURN RETURN POP_RETURN PUSH_NEG1 PUSH_0 PUSH_1 PUSH_PACKED_LIT PUSH_BYTE_LIT PUSH_WORD_LIT PUSH_MID_LIT PUSH_LONG_LIT -
INDEXED_MEM_OP INDEXED_RANGE_MEM_OP MEMORY_OP
""".split()
OPERATORS = """
ROTATE_RIGHT ROTATE_LEFT SHIFT_RIGHT SHIFT_LEFT LIMIT_MIN LIMIT_MAX NEGATE COMPLEMENT BIT_AND ABSOLUTE_VALUE BIT_OR BIT_XOR ADD SUBTRACT
ARITH_SHIFT_RIGHT BIT_REVERSE LOGICAL_AND ENCODE LOGICAL_OR DECODE MULTIPLY MULTIPLY_HI DIVIDE MODULO SQUARE_ROOT LESS GREATER NOT_EQUAL
EQUAL LESS_EQUAL GREATER_EQUAL LOGICAL_NOT
""".split()
REGISTERS = """
PAR CNT INA INB OUTA OUTB DIRA DIRB CTRA CTRB FRQA FRQB PHSA PHSB VCFG VSCL
""".split()
BASES = ("MAIN", "OBJECT", "VARIABLE", "LOCAL")
SIZES = ("BYTE", "WORD", "LONG")
EFFECTS = {0x00: "COPY", 0x10: "EXTEND_8", 0x14: "EXTEND_16", 0x18: "BIT_CLEAR", 0x1C: "BIT_SET"}
STEPS = {0x02: "REPEAT_COMPARE", 0x06: "REPEAT_COMPARE_STEP"}
COUNTS = ("PRE_INCREMENT", "POST_INCREMENT", "PRE_DECREMENT", "POST_DECREMENT")
# How many bytes follow these bytecodes, and by which text they are told.
CALLED = {0x05: "{0}", 0x06: "{0}.{1}", 0x07: "{0}.{2} of {1}", 0x15: "{0} {1}"}
CONSTANT_SIZES = {0x38: 1, 0x39: 2, 0x3A: 3, 0x3B: 4}
JUMPS = {0x04, *range(0x08, 0x0C), 0x0D, 0x0E, *range(0x10, 0x14)}


def word(content, at):
    return int.from_bytes(content[at : at + 2], "little")


def offset_at(code, at):
    """The offset of a jump as a signed number, and where it ends; None where the code ends before."""
    if at < len(code) and code[at] < 0x80:
        return (code[at] ^ 0x40) - 0x40, at + 1
    if at + 1 < len(code):
        return ((int.from_bytes(code[at : at + 2], "big") & 0x7FFF) ^ 0x4000) - 0x4000, at + 2
    return None


def jump_at(code, at, place, name):
    """A name with the address to which a jump leads, where that ends, and how far it leads; `place` is the address of the code."""
    read = offset_at(code, at)
    return read and (f"{name} {(place + read[1] + read[0]) % 65536:04X}", read[1], read[0])


def effect_name(code):
    if 0x20 <= code < 0x40:
        return COUNTS[(code - 0x20) // 8]
    return OPERATORS[code - 0x40] if 0x40 <= code < 0x60 else EFFECTS.get(code)


def effect_at(code, at, place):
    """An effect, where it ends, and how far it leads."""
    if at >= len(code):
        return None
    if code[at] in STEPS:
        return jump_at(code, at + 1, place, STEPS[code[at]])
    name = effect_name(code[at] & 127)
    return name and (name + " PUSH" * (code[at] >= 128), at + 1, 0)


def changed(text, code, at, place):
    """A text with the effect that follows."""
    read = effect_at(code, at, place)
    return read and (f"{text} {read[0]}", *read[1:])


def memory_at(code, place):
    """A bytecode of memory, 40 to DF."""
    first, at = code[0], 1
    name = ("PUSH", "POP", "EFFECT", "REFERENCE")[first % 4]
    if first < 0x80:
        name += f"_{'LOCAL' if first & 32 else 'VAR'}MEM_LONG {(first >> 2 & 7) * 4:04X}"
    else:
        base = first >> 2 & 3
        name += f"_{'INDEXED_' * (first >> 4 & 1)}{BASES[base]}MEM_{SIZES[(first >> 5) - 4]}"
        if base:
            at = 2 if code[1:2] < b"\x80" else 3
            if len(code) < at:
                return None
            name += f" {int.from_bytes(code[1:at], 'big') & 0x7FFF:04X}"
    return changed(name, code, at, place) if first % 4 == 2 else (name, at, 0)


def register_at(code, place):
    """A bytecode of registers, 3D to 3F."""
    name = PLAIN[code[0]]
    if len(code) < 2:
        return None
    if code[0] == 0x3F and code[1] == 0x89:
        return name + " PUSH COGID", 2, 0
    act = {0x90: "PUSH", 0xB0: "POP", 0xD0: "EFFECT"}.get(code[1] & 0xF0)
    if act is None:
        return None
    text = f"{name} {act} {REGISTERS[code[1] & 15]}"
    return changed(text, code, 2, place) if act == "EFFECT" else (text, 2, 0)


def packed(code):
    """The constant that a byte packs: a power of two, one less, or the bits that such a one doesn't have."""
    value = (1 << (code + 1) % 32) - (code >> 5 & 1)
    return 0xFFFFFFFF - value if code & 64 else value


def plain_at(code, place):
    """A bytecode below 40."""
    first, name = code[0], PLAIN[code[0]]
    if name == "-":
        return None
    if first in JUMPS:
        return jump_at(code, 1, place, name)
    if first >= 0x3D:
        return register_at(code, place)
    if first == 0x37:
        return (f"{name} {packed(code[1])}", 2, 0) if code[1:2] and code[1] < 128 else None
    if first in CONSTANT_SIZES:
        end = 1 + CONSTANT_SIZES[first]
        return (f"{name} {int.from_bytes(code[1:end], 'big')}", end, 0) if len(code) >= end else None
    if first in CALLED:
        end = 1 + CALLED[first].count("{")
        return (f"{name} {CALLED[first].format(*code[1:end])}", end, 0) if len(code) >= end else None
    return name, 1, 0


def op_at(code, place):
    """The bytecode at the head of a code, which stands at an address: its text, its size, how far it leads; None where none is whole."""
    if code[0] >= 0xE0:
        return OPERATORS[code[0] - 0xE0], 1, 0
    return (memory_at if code[0] >= 0x40 else plain_at)(code, place)


def items(content):
    """A text as the items of a STRING."""
    pieces = re.findall(rb'[^\x00-\x1f"\x7f]+|[\x00-\x1f"\x7f]', content)
    return ", ".join(str(it[0]) if it[0] < 32 or it in (b'"', b"\x7f") else f'"{it.decode("latin-1")}"' for it in pieces)


def longs(content, place):
    content = content + bytes(-len(content) % 4)
    return [f"{(place + at) % 65536:04X} {int.from_bytes(content[at : at + 4], 'little'):08X}" for at in range(0, len(content), 4)]


def method_lines(code, place):
    """The bytecodes of a method, by the bytes up to the next one: up to the first RETURN behind which none before it leads; then a text."""
    lines, at, ahead, is_done = [], 0, 0, False
    while at < len(code) and not is_done:
        read = op_at(code[at:], place + at)
        size, lead = read[1:] if read else (1, 0)
        line = f"{(place + at) % 65536:04X}" + "".join(f" {it:02X}" for it in code[at : at + size])
        lines.append(f"{line:24}{read[0]}" if read else line)
        is_done = code[at] == 0x32 and ahead < size
        ahead, at = max(ahead - size, lead), at + size
    return lines + [f"{(place + at) % 65536:04X} string {items(code[at:])}"] * (at < len(code))


def object_lines(content, base):
    """An object that begins at an address."""
    methods, inner = max(content[2] - 1, 0), content[3]
    lines = [f"object {base:04X}"]
    for number in range(methods + 1, methods + inner + 1):
        at = 4 * number
        lines.append(f"{base + at:04X} child {number} {(base + word(content, at)) % 65536:04X} +{word(content, at + 2):04X}")
    entries = [*(word(content, 4 * number) for number in range(1, methods + 1)), len(content)]
    table = 4 + 4 * (methods + inner)
    lines += longs(content[table : entries[0]], base + table)
    for number, (begin, end) in enumerate(zip(entries, entries[1:]), 1):
        place = (base + begin) % 65536
        lines += [f"method {number} {place:04X}", *method_lines(content[begin : max(begin, end)], place)]
    return lines


def image_code(image):
    """The code of an image by the bytes of its `.binary` file, without the texts of its longs."""
    lines, base = [], 16
    while base < len(image):
        size = word(image, base)
        if not 4 <= size <= len(image) - base:
            lines += longs(image[base:], base)
            break
        lines += object_lines(image[base : base + size], base)
        base += size
    return "".join(line + "\n" for line in lines)


def without_texts(code):
    """A code without the texts of its longs."""
    return re.sub(r"(?m)^([0-9A-F]{4} [0-9A-F]{8}) .*$", r"\1", code)


# What a line of a listing has of a line of a code: of a bytecode, of a method, of a long.
KEPT = re.compile(r"[0-9A-F]{4}(?: [0-9A-F]{2})+(?=  +[A-Z])|method \d+ [0-9A-F]{4}(?= )|[0-9A-F]{4} [0-9A-F]{8} .*?(?= ' )")


def listed(code):
    """A project's code without what its listing doesn't have."""
    lines = [line for line in code.split("\n") if not line.startswith("  ")]
    return "\n".join((KEPT.match(line) or [line])[0] for line in lines)
