"""What docs/FORMATS.md and docs/LANGUAGE.md say of inputs, texts and operators, written once more in Python, so that
the program is compared with something else than itself."""

import bisect
import math
import re
import struct

SCRIPT_BYTES, SCRIPT_LINES, HUB_BYTES = 1_048_576, 100_000, 32_768


# Explanations


def shown_line(content, number):
    """What a terminal shows of a line of a source: its characters, in Latin-1 or as UTF-16 says, with tabs as spaces."""
    if content.startswith(b"\xff\xfe"):
        body = content[2:]
        units = [one for (one,) in struct.iter_unpack("<H", body[: len(body) // 2 * 2])]
        characters = units + ([body[-1]] if len(body) % 2 else [])
    else:
        characters = list(content.removeprefix(b"\xef\xbb\xbf"))
    line, shown, before = 1, "", None
    for one in characters:
        if before == 13 and one != 10 or before == 10:
            line += 1
            if line > number:
                break
        before = one
        if line != number or one in (10, 13):
            continue
        shown += " " * (8 - len(shown) % 8) if one == 9 else chr(one) if 32 <= one <= 126 else "?"
    return shown if line >= number else ""


def marked(content, line, column):
    """The line of a source that an explanation shows, at most 100 columns of it, and the line with the mark."""
    left = 0 if column <= 80 else column - 50
    return f"{shown_line(content, line)[left : left + 100]}\n{' ' * (column - 1 - left)}^\n".encode()


SCRIPT_TOLD = b"A pin script is told by prop help run: it has a line for each change, as 9000 00000001, a clock and 8 hexadecimal digits for the pins.\n"


def begins_with_clock(content):
    """Whether a file whose name doesn't end in `.spin` is most likely a pin script."""
    return bool(re.match(rb"(?:[ \r\n]|#[^\n]*\n)*[0-9]", content))


# Pin scripts


def script_levels(content):
    """The clocks and levels of a pin script, or the number of its first bad line."""
    if len(content) > SCRIPT_BYTES:
        return 0
    found = []
    for number, line in enumerate(content.split(b"\n"), 1):
        # The last line may lack its end, and then it has no carriage return that belongs to one.
        is_ended = number <= content.count(b"\n")
        line = line[:-1] if is_ended and line.endswith(b"\r") else line
        if not line or line.startswith(b"#"):
            continue
        good = re.fullmatch(rb"(\d{1,10}) ([0-9A-Fa-f]{8})", line)
        if not good or (found and int(good[1]) <= found[-1][0]) or len(found) == SCRIPT_LINES:
            return number
        found.append((int(good[1]), int(good[2], 16)))
    return found


def typed(content, pin, bits, start):
    """The script that sends the bytes of a file on a pin."""
    changes = [(0, 1)]
    for place, byte in enumerate(content):
        frame = [0, *(byte >> bit & 1 for bit in range(8)), 1]
        for bit, level in enumerate(frame):
            if level != changes[-1][1]:
                changes.append((start + 10 * bits * place + bits * bit, level))
    return "".join(f"{clock} {level << pin:08X}\n" for clock, level in changes).encode()


# Images


def word(content, at):
    return struct.unpack_from("<H", content, at)[0]


def image_fault(content, is_eeprom):
    """The first fault of a file as an image, or None."""
    length, rest = len(content), sum(content) % 256
    if length != HUB_BYTES if is_eeprom else not 16 <= length <= HUB_BYTES or length % 4:
        return f"length {length}"
    if rest != (0 if is_eeprom else 0x14):
        return f"sum {rest:02X}"
    pbase, vbase, dbase, pcurr, dcurr = (word(content, at) for at in range(6, 16, 2))
    if pbase != 16:
        return "header pbase"
    if vbase < 16 or vbase % 4 if is_eeprom else vbase != length:
        return "header vbase"
    if not vbase + 8 <= dbase <= 32_764 or dbase % 4:
        return "header dbase"
    if not 24 <= pcurr < vbase:
        return "header pcurr"
    if not dbase + 4 <= dcurr <= HUB_BYTES or dcurr % 4:
        return "header dcurr"
    return None


def boot_of(image):
    """The memory that a run of a good `.binary` file begins with."""
    memory = bytearray(image) + bytes(HUB_BYTES - len(image))
    dbase = word(image, 10)
    memory[dbase - 8 : dbase] = bytes.fromhex("FFFFF9FF") * 2
    return bytes(memory)


def binary_of(memory):
    """What a `.binary` file has of a good `.eeprom` file."""
    return mend_sum(memory[: word(memory, 8)], False)


def mend_sum(content, is_eeprom):
    """The file with the checksum that its bytes ask for, where it is long enough to have one."""
    if len(content) < 6:
        return content
    changed = bytearray(content)
    changed[5] = 0
    changed[5] = ((0 if is_eeprom else 0x14) - sum(changed)) % 256
    return bytes(changed)


# Traces


class Trace:
    """The turns of a trace, and its limits."""

    def __init__(self, text, clocks, most):
        self.turns = []
        for line in text.decode().split("\n"):
            if line.startswith("ended"):
                break
            clock, cog, *words = line.split(" ")
            self.turns.append((int(clock), int(cog), words))
        self.last = self.turns[-1][0] if self.turns else 0
        self.is_full = len(self.turns) == most
        self.clocks = clocks
        self.end = self.last if self.is_full else clocks

    def ended(self):
        """What ended it, below a picture and in a wave."""
        made = f"{len(self.turns)} turns are made, the last at clock {self.last}"
        if self.is_full:
            return f"{made} of {self.clocks}: no more are asked for; --turns gives more"
        return f"{made}: no cog makes another before clock {self.clocks}"

    def keys(self):
        return [(clock, cog) for clock, cog, _ in self.turns]


def dump_of(text):
    """The bytes of the dump at the end of a trace."""
    rows = re.findall(rb"^[0-9A-F]{4}:((?: [0-9A-F]{2})+)$", text, re.M)
    return bytes.fromhex(b"".join(rows).decode())


def drives(trace):
    """The pins that are outputs and of those the ones that are high, at clock 0 and behind each turn that may change them."""
    outputs, directions = [0] * 8, [0] * 8
    found = [(0, 0, 0)]
    for clock, cog, (access, *rest) in trace.turns:
        if access == "outa":
            outputs[cog] = int(rest[0], 16)
        elif access == "dira":
            directions[cog] = int(rest[0], 16)
        elif access in ("cogstop", "coginit", "halt"):
            cleared = cog if access == "halt" else 8 if rest[0] == "none" else int(rest[0])
            if cleared < 8:
                outputs[cleared] = directions[cleared] = 0
        else:
            continue
        made = high = 0
        for out, direction in zip(outputs, directions):
            made |= direction
            high |= out & direction
        found.append((clock, made, high))
    return found


def all_levels(trace, script):
    """The 32 pins at clock 0, and at each later clock at which one changes."""
    driven = {clock: (made, high) for clock, made, high in drives(trace)}
    given = dict(script)
    found, outside, (made, high) = [], 0, driven[0]
    for clock in sorted({*driven, *given}):
        outside = given.get(clock, outside)
        made, high = driven.get(clock, (made, high))
        pins = high | outside & ~made
        if not found or pins != found[-1][1]:
            found.append((clock, pins))
    return found


def levels(pins, pin):
    """The level of one of all pins at clock 0, and each later clock at which it changes."""
    found = []
    for clock, all_pins in pins:
        level = all_pins >> pin & 1
        if not found or level != found[-1][1]:
            found.append((clock, level))
    return found


def serial_text(trace, script, pin, bits):
    """The bytes that stand on a pin."""
    changes = levels(all_levels(trace, script), pin)
    clocks = [clock for clock, _ in changes]
    edges = [clock for clock, level in changes[1:] if level == 0]
    half, begin, lines, good = bits // 2, 0, [], 0

    def level_at(clock):
        return changes[bisect.bisect_right(clocks, clock) - 1][1]

    while True:
        at = bisect.bisect_left(edges, begin)
        if at == len(edges) or edges[at] + 9 * bits + half >= trace.end:
            break
        start = edges[at]
        stop = start + 9 * bits + half
        byte = sum(level_at(start + (bit + 1) * bits + half) << bit for bit in range(8))
        is_good = level_at(stop)
        good += is_good
        lines.append(f"{start} {byte:02X}\n" if is_good else f"{start} framing\n")
        begin = stop + 1
    return ("".join(lines) + f"bytes {good}\n").encode()


def wave_of_pins(text):
    """The changes of each pin in a wave, as time and level, and the time at which the wave ends."""
    head, _, body = text.decode().partition("$enddefinitions $end\n")
    pins = {mark: int(pin) for mark, pin in re.findall(r"^\$var wire 1 (\S) P(\d+) \$end$", head, re.M)}
    found, time = {pin: [] for pin in pins.values()}, 0
    for line in body.splitlines():
        if line.startswith("#"):
            time = int(line[1:])
        elif line[0] in "01" and line[1:] in pins:
            found[pins[line[1:]]].append((time, int(line[0])))
    return found, time


# Pictures of pins

MARKS = "▁▔╳", "_-X"
COLUMNS = 101


def axis(label, texts):
    """What is told of each column, at each tenth of them, or each twentieth where one has more than nine characters."""
    step = 20 if max(map(len, texts)) > 9 else 10
    return label.ljust(4) + "".join(text.ljust(step) for text in texts[::step]).rstrip()


def times(starts, shown, frequency):
    """The axis of times where so many clocks are shown: in microseconds below 10 milliseconds."""
    unit, parts = ("us", 10**9) if 100 * shown < frequency else ("ms", 10**6)
    ticks = [start * parts // frequency for start in starts]
    return axis(unit, [f"{tick // 1000}.{tick % 1000:03}" for tick in ticks])


def picture(trace, script, view, frequency=0):
    """The pins of a view, which is pins, the first clock, the clock after the last one, the columns, and the marks, as text; with times where a
    frequency is told."""
    pins, first, last, columns, (low, high, changing) = view
    end = min(last, trace.end)
    width = max(1, -(-(end - first) // columns))
    starts = list(range(first, end, width))
    lines, shown = [], all_levels(trace, script)
    for pin in sorted(pins):
        changes = levels(shown, pin)
        clocks = [clock for clock, _ in changes]
        row = f"P{pin}".ljust(4)
        for start in starts:
            at = bisect.bisect_right(clocks, start)
            is_constant = at == len(clocks) or clocks[at] >= min(start + width, end)
            row += (high if changes[at - 1][1] else low) if is_constant else changing
        lines.append(row)
    if starts:
        lines.append("    " + "".join("|".ljust(10) for _ in starts[::10]).rstrip())
        lines.append(axis("", [str(start) for start in starts]))
        lines += [times(starts, end - first, frequency)] if frequency else []
    lines.append(trace.ended())
    return "".join(line + "\n" for line in lines).encode()


# Pages

BLOCK = re.compile(rb'<script type="text/plain" class="([a-z]+)">([ -;=-~\n]*)</script>\n')


def blocks_of(page):
    """The blocks of a page, a kind and the bytes of each; None where it isn't a head, blocks and a tail."""
    found = list(BLOCK.finditer(page))
    follow = all(a.end() == b.start() for a, b in zip(found, found[1:]))
    if not found or not follow or not page.startswith(b"<!DOCTYPE html>\n") or not page.endswith(b"</html>\n"):
        return None
    return [(it[1].decode(), re.sub(rb"%([0-9A-F]{2})", lambda byte: bytes([int(byte[1], 16)]), it[2])) for it in found]


def page_pins(trace, script):
    """Each clock of a run at which a pin isn't what it was before, with the 32 pins from it on, as a page has them; before clock 0 all are low."""
    changes = [(clock, pins) for clock, pins in all_levels(trace, script) if clock < trace.end]
    return "".join(f"{clock} {pins:08X}\n" for clock, pins in changes if clock > 0 or pins).encode()


def page_windows(first):
    """Of each cog the first clock from one on at which the hub serves it."""
    return "".join(f"{first + (2 * cog - first) % 16}\n" for cog in range(8)).encode()


# History files

# For each kind of access: the numbers that its further byte may be, and what a, b and c stay below.
SMALL, WORD, LONG = 8, 1 << 16, 1 << 32
FORMS = {
    0: ([0], 1, 1, 1), 1: ([0], 1, 1, 1), 2: (range(3), WORD, 1, 1), 3: (range(3), WORD, LONG, 1), 4: ([0], 1, 1, 1),
    5: ([*range(8), 255], LONG, LONG, 2 * WORD), 6: ([0], SMALL, 1, 1), 7: ([0], 1, 1, 1), 8: ([0], SMALL, 1, 1),
    9: ([0], SMALL, 1, 1),
    10: ([0], SMALL, 1, 1), 11: ([0], 256, 1, 1), 12: ([0], 1, 1, 1), 13: ([0], LONG, 1, 1), 14: ([0], LONG, 1, 1),
    15: (range(3), LONG, LONG, 1), 16: ([0], 1, 1, 1), 17: (range(10), LONG, 1, 1),
}  # fmt: skip
ANSWERS = {0: 1, 1: LONG, 2: SMALL, 3: 1, 4: 1, 5: 1}
HALT_NUMBERS = {0: LONG, 1: 512, 2: WORD, 3: WORD}
TURN = struct.Struct("<IBBBBIIII")


def is_turn(turn):
    """Whether 24 bytes are those of some turn."""
    _, cog, kind, answer, further, a, b, c, value = turn
    if cog > 7 or kind not in FORMS or answer not in ANSWERS or value >= ANSWERS[answer]:
        return False
    allowed, most_a, most_b, most_c = FORMS[kind]
    if further not in allowed or a >= most_a or b >= most_b or c >= most_c:
        return False
    if kind == 5:
        return b == 0 if c == 0 else c >= WORD
    if kind == 15:
        return b == 0 or further != 0
    if kind == 17:
        return a < HALT_NUMBERS.get(further, 1)
    return True


def form_fault(content):
    """The turn at which a file has no form of a history, or None."""
    if len(content) < 16 or content[:4] != b"P8H1":
        return 0
    clocks, most, count = struct.unpack_from("<III", content, 4)
    if clocks > 100_000_000 or most > 40_000 or count > 40_000:
        return 0
    for turn in range(count):
        at = 16 + TURN.size * turn
        if at + TURN.size > len(content) or not is_turn(TURN.unpack_from(content, at)):
            return turn + 1
    return count + 1 if len(content) > 16 + TURN.size * count else None


def change_of(old, new):
    """The first turn in which two files of one head differ, and the cause that a check of the new one tells."""
    for place, (was, now) in enumerate(zip(TURN.iter_unpack(old[16:]), TURN.iter_unpack(new[16:])), 1):
        if was != now:
            cause = "key" if was[:2] != now[:2] else "answer" if (was[2], *was[4:8]) == (
                now[2], *now[4:8]
            ) else "access"
            return place, cause
    return None


# Operators

WORDS = 1 << 32


def signed(value):
    return value - WORDS if value >> 31 else value


def truth(is_true):
    return WORDS - 1 if is_true else 0


def rotate_left(value, count):
    return value << count % 32 | value >> (32 - count % 32)


def reverse(value, count):
    return int(f"{value:032b}"[::-1], 2) >> (32 - count) % 32


def quotient(value, by):
    size = abs(signed(value)) // abs(signed(by))
    return size if (signed(value) < 0) == (signed(by) < 0) else -size


# What an operator makes of two words; its value counts mod 2^32. Nothing is asked of a divisor of 0.
BINARY = {
    "->": lambda a, b: rotate_left(a, -b % 32), "<-": rotate_left, ">>": lambda a, b: a >> b % 32, "<<": lambda a,
    b: a << b % 32,
    "#>": lambda a, b: max(signed(a), signed(b)), "<#": lambda a, b: min(signed(a), signed(b)), "&": lambda a, b: a & b,
    "|": lambda a, b: a | b,
    "^": lambda a, b: a ^ b, "+": lambda a, b: a + b, "-": lambda a, b: a - b, "~>": lambda a, b: signed(a) >> b % 32,
    "><": reverse,
    "AND": lambda a, b: truth(a and b), "OR": lambda a, b: truth(a or b), "*": lambda a, b: a * b, "**": lambda a,
    b: signed(a) * signed(b) >> 32,
    "/": quotient, "//": lambda a, b: signed(a) - quotient(a, b) * signed(b), "<": lambda a,
    b: truth(signed(a) < signed(b)),
    ">": lambda a, b: truth(signed(a) > signed(b)), "<>": lambda a, b: truth(a != b), "==": lambda a, b: truth(a == b),
    "=<": lambda a, b: truth(signed(a) <= signed(b)), "=>": lambda a, b: truth(signed(a) >= signed(b)),
}  # fmt: skip
UNARY = {
    "-": lambda a: -a, "!": lambda a: ~a, "||": lambda a: abs(signed(a)), ">|": int.bit_length,
    "|<": lambda a: 1 << a % 32, "^^": math.isqrt,
    "NOT ": lambda a: truth(not a), "+": lambda a: a,
}  # fmt: skip


# Command lines

NUMBER = re.compile(r"[0-9]{1,10}")


def number(least, most):
    return lambda text: bool(NUMBER.fullmatch(text)) and least <= int(text) <= most


def is_dump(text):
    good = re.fullmatch(r"([0-9A-Fa-f]{4}):([0-9]{1,5})", text)
    return bool(good) and int(good[2]) >= 1 and int(good[1], 16) + int(good[2]) <= HUB_BYTES


def anything(_):
    return True


def is_image(text):
    return text.endswith((".binary", ".eeprom"))


def is_drawn(text):
    """Whether a text names pins to draw."""
    parts = [re.fullmatch(r"([0-9]{1,10})(?:-([0-9]{1,10}))?", part) for part in text.split(",")]
    return all(part and int(part[1]) <= int(part[2] or part[1]) <= 31 for part in parts)


CLOCKS, SHOWN_CLOCKS = number(0, 100_000_000), number(0, 4_000_000_000)
TURNS, KEPT, PAGED = number(0, 1_000_000), number(0, 40_000), number(0, 20_000)
PIN, WIDTH, BITS, START, SEED = number(0, 31), number(20, 400), number(2, 10_000), number(1, 100_000_000), number(0, 0xFFFFFFFF)
RUN = {"--pins": anything, "--turns": TURNS}
COMMANDS = {
    "build": ([anything], {}), "list": ([anything], {}), "code": ([anything], {}), "raw": ([anything, CLOCKS], {**RUN, "--dump": is_dump}),
    "run": ([anything, CLOCKS], {**RUN, "--dump": is_dump, "--alone": None}),
    "save": ([anything, CLOCKS], {**RUN, "--turns": KEPT, "--raw": None}),
    "check": ([anything, anything], {"--pins": anything, "--raw": None}),
    "serial": ([anything, CLOCKS, PIN, BITS], {**RUN, "--raw": None}),
    "type": ([anything, PIN, BITS, START], {}),
    "wave": ([anything, SHOWN_CLOCKS], {**RUN, "--raw": None, "--all": None, "--pins-only": None, "--alone": None}),
    "convert": ([is_image], {}), "make": ([SEED], {"--alone": None}), "map": ([anything], {}), "explain": ([anything], {}), "hint": ([anything], {}),
    "plot": ([anything, SHOWN_CLOCKS, is_drawn], {**RUN, "--raw": None, "--ascii": None, "--width": WIDTH, "--alone": None}),
    "view": ([anything, SHOWN_CLOCKS], {
        **RUN, "--alone": None, "--raw": None, "--cog": number(0, 7), "--from": SHOWN_CLOCKS, "--to": SHOWN_CLOCKS, "--pins-only": None, "--quiet": None,
        "--dump": anything,
    }),
    "page": ([anything, SHOWN_CLOCKS], {**RUN, "--turns": PAGED, "--raw": None, "--from": SHOWN_CLOCKS, "--to": SHOWN_CLOCKS}),
}  # fmt: skip


def are_clocks(first, last, clocks):
    """Whether the clocks that a picture, a view or a page shows are in order, and within those of the run."""
    return int(first) <= int(last) <= int(clocks)


def agree(command, found):
    """Whether operands and options that are good by themselves go together."""
    operands, given = found.operands, found.given
    if command == "explain":
        # A word of digits alone is the number of a refusal.
        return not re.fullmatch("[0-9]+", operands[0]) or len(operands[0]) < 3 and 1 <= int(operands[0]) <= 31
    if command in ("view", "page"):
        return len(given.get("--cog", "0")) == 1 and are_clocks(given.get("--from", "0"), given.get("--to", operands[1]), operands[1])
    if command == "plot" and len(operands) == 4:
        span = re.fullmatch(r"([0-9]{1,10}):([0-9]{1,10})", operands[3])
        return bool(span) and are_clocks(span[1], span[2], operands[1])
    return "--short" not in given or has_short(command, operands)


def has_short(command, operands):
    return command in ("build", "list") or not is_image(operands[0])


class Words:
    """How the words after a command fall to its operands and options."""

    def __init__(self, options):
        self.options, self.operands, self.given, self.is_good = options, [], {}, True

    def take(self, words):
        words = list(words)
        while words and self.is_good:
            word = words.pop(0)
            if word == "--":
                self.operands += words
                return
            if word == "-" or not word.startswith("-"):
                self.operands.append(word)
                continue
            name, equals, value = word.partition("=")
            if name not in self.options or name in self.given:
                self.is_good = False
            elif self.options[name] is None:
                self.is_good = not equals
                self.given[name] = ""
            else:
                if not equals:
                    self.is_good = bool(words) and (words[0] == "-" or not words[0].startswith("-"))
                    value = words.pop(0) if words else ""
                self.is_good = self.is_good and self.options[name](value)
                self.given[name] = value


def is_command(words, knows_short):
    """Whether words are a command."""
    if not words or any("\udc80" <= letter <= "\udcff" for word in words for letter in word):
        return False
    command, *rest = words
    if command == "help":
        found = Words({})
        found.take(rest)
        return found.is_good and (
            not found.operands or len(found.operands) == 1 and found.operands[0] in (*COMMANDS, "help")
        )
    if command not in COMMANDS:
        return False
    operands, options = COMMANDS[command]
    if knows_short and command in ("build", "list", "code", "run"):
        options = {**options, "--short": None}
    found = Words(options)
    found.take(rest)
    # What is to be drawn may have its clocks behind it.
    most = len(operands) + (command == "plot")
    if not found.is_good or not len(operands) <= len(found.operands) <= most:
        return False
    return all(fits(text) for fits, text in zip(operands, found.operands)) and agree(command, found)
