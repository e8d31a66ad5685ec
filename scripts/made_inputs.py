"""Inputs for the program that are made up from a seed: projects of Spin, hub memory with PASM, pin scripts, histories
and command lines, well formed or damaged."""

import re
import struct
from random import Random

import expected

CHIP_CLOCKS = ("rcfast", "rcslow", "xtal1", "xtal1 + pll16x", "xinput", "xtal3 + pll2x", "xtal2 + pll1x")
ASSIGNED = "+= -= *= /= //= &= |= ^= <<= >>= ~>= ->= <-= #>= <#= >= <= <>= ===".split()
UNARY, BINARY = list(expected.UNARY), list(expected.BINARY)
MNEMONICS = (
    "ror rol shr shl rcr rcl sar rev mins maxs min max movs movd movi and andn or xor muxc muxnc muxz muxnz add sub "
    "addabs subabs sumc sumnc sumz sumnz mov neg abs absneg negc negnc negz negnz cmps cmpsx addx subx adds subs addsx "
    "subsx cmpsub test testn cmp cmpx"
).split()
OF_THE_HUB = [
    "wrlong t, u", "rdlong t, u", "rdbyte t, #4", "locknew t", "cogid t", "lockset t", "mov outa, t", "mov dira, t"
]
CONDITIONS = "if_z if_nz if_c if_nc if_c_and_z if_nc_or_z if_always if_c_eq_z if_a if_be".split()
PLAIN, SHORT = re.compile(r"[\w$%]+"), re.compile(r"[a-z]\w?")
TOKEN = re.compile(r"[A-Za-z_]\w*|[$%]*\d\w*|\"[^\"\n]*\"|\r\n|\s+|.", re.S)
ODD_BYTES = b"\0\t\n\r\x1a !\"#$%'()*,.:;=?@[\\]{|}~\x80\xfe\xff09azAZ_"


class Draws(Random):
    """Gives what `Random` gives of a seed, with less between a call and the generator."""

    def randrange(self, first, behind=None):
        if behind is None:
            first, behind = 0, first
        most = behind - first
        if most < 1:
            raise ValueError(f"nothing is from {first} to {behind}")
        bits = most.bit_length()
        found = self.getrandbits(bits)
        while found >= most:
            found = self.getrandbits(bits)
        return first + found

    def choice(self, some):
        most = len(some)
        if most == 0:
            raise IndexError("nothing is there to choose from")
        bits = most.bit_length()
        found = self.getrandbits(bits)
        while found >= most:
            found = self.getrandbits(bits)
        return some[found]


class Names:
    """What a method sees: variables with their numbers of elements, constants, labels, methods with their numbers of
    parameters, and objects."""

    def __init__(self):
        self.variables, self.constants, self.labels, self.methods = [], [], [], []
        self.objects, self.strings = [], True


class Spin:
    """Writes one file of Spin."""

    def __init__(self, random, children):
        self.random, self.children = random, children
        self.names = Names()
        self.lines = []
        self.open_loops = 0
        self.locals = []

    def chance(self, of):
        return self.random.random() < of

    def text(self):
        self.declare()
        self.name_methods()
        self.write_data()
        for place, (name, count) in enumerate(self.names.methods):
            self.write_method(place, name, count)
        return "\n".join(self.lines) + "\n"

    def declare(self):
        random, names = self.random, self.names
        if self.chance(0.5):
            self.lines.append("CON")
            if self.chance(0.5):
                mode = random.choice(CHIP_CLOCKS)
                self.lines.append(f"  _clkmode = {mode}")
                if "x" in mode.partition("l")[0]:
                    self.lines.append("  _xinfreq = 5_000_000")
            for number in range(random.randrange(4)):
                names.constants.append(f"k{number}")
                self.lines.append(
                    random.choice(
                        [f"  k{number} = {self.number()}", f"  #{random.randrange(99)}, k{number}", f"  k{number}"]
                    )
                )
        self.lines.append("VAR")
        for number in range(random.randrange(1, 5)):
            count = random.choice([1, 1, 2, 5, 16])
            names.variables.append((f"v{number}", count))
            self.lines.append(
                f"  {random.choice(['long', 'word', 'byte'])} v{number}" + (f"[{count}]" if count > 1 else "")
            )
        self.lines.append("  long stack[40]")
        if self.children:
            self.lines.append("OBJ")
            for number, (file, methods) in enumerate(self.children):
                count = random.choice([1, 1, 2])
                names.objects.append((f"o{number}", count, methods))
                self.lines.append(f"  o{number}" + (f"[{count}]" if count > 1 else "") + f' : "{file}"')

    def name_methods(self):
        self.names.methods = [("main", 0)]
        for number in range(self.random.randrange(4)):
            self.names.methods.append((f"m{number}", self.random.randrange(3)))

    def write_data(self):
        if self.chance(0.6):
            return
        random = self.random
        self.lines.append("DAT")
        self.names.labels.append("code")
        self.lines.append("code mov t, #1")
        local = random.choice(["loop", "next", "add", "file", "repeat", "if_z"])
        if self.chance(0.3):
            self.lines.append(f":{local} djnz t, #:{local}")
        for _ in range(random.randrange(6)):
            self.lines.append("  " + self.instruction())
        self.lines += random.choice([["  jmp #code"], ["  cogid t", "  cogstop t"], []])
        self.lines += [
            "t long 0",
            f"u long {self.number()}, {self.number()}[{random.randrange(4)}]",
            f"w byte \"abc\", {random.randrange(256)}",
        ]
        self.names.labels += ["u", "w"]

    def instruction(self):
        random = self.random
        condition = random.choice(CONDITIONS) + " " if self.chance(0.3) else ""
        if self.chance(0.25):
            return condition + random.choice(OF_THE_HUB)
        effects = random.choice(["", "", " wz", " wc", " wz, wc", " nr"])
        operand = random.choice(["u", f"#{random.randrange(512)}", "t", "ina", "cnt"])
        return f"{condition}{random.choice(MNEMONICS)} t, {operand}{effects}"

    def write_method(self, place, name, count):
        random = self.random
        arguments = [f"p{number}" for number in range(count)]
        result = f" : r{place}" if self.chance(0.3) else ""
        own = [f"i{number}" for number in range(random.randrange(3))]
        head = "PUB" if place == 0 or self.chance(0.5) else "PRI"
        self.locals = arguments + own + ([f"r{place}"] if result else []) + ["result"]
        self.lines.append(
            f"{head} {name}" + (f"({', '.join(arguments)})" if arguments else "") + result + (
                f" | {', '.join(own)}" if own else ""
            )
        )
        self.body(2, random.randrange(1, 7))

    def body(self, column, most):
        before = len(self.lines)
        for _ in range(most):
            self.statement(column)
        if len(self.lines) == before:
            self.lines.append(" " * column + "return")

    def number(self):
        random = self.random
        value = random.choice([random.randrange(1 << random.choice([4, 8, 32])), 1 << random.randrange(32), 0xFFFFFFFF])
        return random.choice([str(value), f"${value:X}", f"%{value:b}"])

    def variable(self):
        """Something that can be assigned to."""
        random = self.random
        pick = random.random()
        if pick < 0.4:
            return random.choice(self.locals)
        if pick < 0.8:
            name, count = random.choice(self.names.variables)
            return f"{name}[{self.expression(1)} & {count - 1}]" if count in (2, 16) else name
        if pick < 0.9:
            return random.choice(
                [
                    "outa",
                    "dira",
                    f"outa[{random.randrange(32)}]",
                    f"dira[{random.randrange(32)}..{random.randrange(32)}]",
                ]
            )
        return random.choice(
            [
                f"{random.choice(self.locals)}.byte[{random.randrange(4)}]",
                f"byte[@{self.names.variables[0][0]}]",
                f"long[$7F00 + {random.randrange(64)}]",
            ]
        )

    def value(self, depth):
        random = self.random
        pick = random.random()
        if pick < 0.35:
            return self.number()
        if pick < 0.7:
            return random.choice(self.locals)
        if pick < 0.8:
            return random.choice(
                [
                    *self.names.constants,
                    *self.names.labels,
                    *(f"@{it}" for it in self.names.labels),
                    self.names.variables[0][0],
                ]
            )
        if pick < 0.9:
            return random.choice(
                ["ina", "cnt", "par", "cogid", "clkfreq", "clkmode", "outa", "ina[3..0]", "posx", "true", '"A"', "@v0"]
            )
        if depth < 1:
            return "result"
        return random.choice(
            [
                lambda: f"lookup({self.expression(0)}: {self.number()}, {self.expression(depth - 1)}..{self.number()})",
                lambda: f"lookdownz({self.expression(depth - 1)}: {self.number()}, {self.number()})",
                lambda: 'strsize(string("some text"))',
                lambda: f"strsize(string({self.characters()}))",
                lambda: f'lookup({self.expression(depth - 1)}: "xyz", {self.number()}, "!?")',
                lambda: f'lookdown({self.expression(depth - 1)}: {self.number()}, "some text")',
                lambda: f"constant({self.random.randrange(99)} + {self.random.randrange(99)})",
                lambda: self.call(depth - 1),
                lambda: f"{self.variable()} := {self.expression(depth - 1)}",
                lambda: f"lockset({self.number()})",
                lambda: random.choice(self.locals) + random.choice(["++", "--", "~", "~~"]),
            ]
        )()

    def characters(self):
        """The items of a text: texts, characters and numbers from 1 to 255."""
        random = self.random
        items = ['"some text"', '"A"', '"a" + 1', "13", "10", "$FF", str(random.randrange(1, 256))]
        return ", ".join(random.choice(items) for _ in range(random.choice([1, 2, 2, 3, 9])))

    def call(self, depth):
        """A call of a method with arguments, by a way that an expression allows."""
        random = self.random
        calls = [("\\" + name, count) for name, count in self.names.methods[1:]]
        for name, count, methods in self.names.objects:
            of = f"{name}[{random.randrange(count)}]" if count > 1 else name
            calls += [(f"{of}.{method}", arguments) for method, arguments in methods]
        if not calls:
            return "locknew"
        name, count = random.choice(calls)
        arguments = ", ".join(self.expression(depth) for _ in range(count))
        return f"{name}({arguments})" if count else name

    def expression(self, depth):
        pick = self.random.random()
        if depth < 1 or pick < 0.3:
            text = self.value(depth)
            return f"({text})" if ":=" in text else text
        if pick < 0.45:
            return f"({self.random.choice(UNARY)}{self.operand(depth - 1)})"
        return f"({self.operand(depth - 1)} {self.random.choice(BINARY)} {self.operand(depth - 1)})"

    def operand(self, depth):
        text = self.expression(depth)
        return text if text[0] == "(" or PLAIN.fullmatch(text) else f"({text})"

    def statement(self, column):
        random, before = self.random, " " * column
        pick = random.random()
        if column < 10 and pick < 0.25:
            self.block(column)
        elif pick < 0.5:
            self.lines.append(
                f"{before}{self.variable()} {random.choice([':=', ':=', random.choice(ASSIGNED)])} {self.expression(3)}"
            )
        elif pick < 0.6:
            self.lines.append(f"{before}{self.variable()}{random.choice(['++', '--', '~', '~~'])}")
        elif pick < 0.7 and self.names.objects + self.names.methods[1:]:
            self.lines.append(before + self.call(1))
        elif pick < 0.75 and self.open_loops:
            self.lines.append(before + random.choice(["next", "quit"]))
        elif pick < 0.95:
            self.lines.append(before + self.built_in())
        else:
            self.lines.append(
                before + random.choice(
                    ["return", f"return {self.expression(1)}", "abort", f"abort {self.expression(1)}"]
                )
            )

    def built_in(self):
        random = self.random
        method, count = random.choice(self.names.methods)
        started = f"{method}({', '.join(self.number() for _ in range(count))})" if count else method
        code = f"@{self.names.labels[0]}" if self.names.labels else "$7000"
        return random.choice(
            [
                f"waitcnt(cnt + {random.randrange(1, 4000)})",
                f"cognew({started}, @stack[{random.choice([0, 0, 10, 20])}])",
                f"coginit({random.randrange(9)}, {started}, @stack)",
                f"cognew({code}, @v0)",
                f"cogstop({random.randrange(1, 9)})",
                "locknew",
                f"lockret({random.randrange(8)})",
                f"lockclr({random.randrange(8)})",
                f"{random.choice(['byte', 'word', 'long'])}fill(@stack, {self.number()}, {random.randrange(9)})",
                f"{random.choice(['byte', 'word', 'long'])}move(@stack, @v0, {random.randrange(9)})",
                f"waitpeq({random.randrange(2)}, 1, 0)",
                f"waitpne({self.expression(1)}, {self.expression(1)}, 0)",
                f"{random.choice('!-')}{random.choice(self.locals)}",
            ]
        )

    def block(self, column):
        random, before = self.random, " " * column
        kind = random.choice(["if", "if", "count", "while", "until", "from", "case", "after"])
        few = random.randrange(1, 3)
        if kind == "if":
            self.lines.append(f"{before}{random.choice(['if', 'ifnot'])} {self.expression(2)}")
            self.body(column + 2, few)
            if self.chance(0.4):
                self.lines.append(f"{before}elseif {self.expression(1)}")
                self.body(column + 1, few)
            if self.chance(0.4):
                self.lines.append(before + "else")
                self.body(column + 3, few)
        elif kind == "case":
            self.lines.append(f"{before}case {self.expression(2)}")
            self.lines.append(f"{before}  {random.randrange(9)}, {random.randrange(9)}..{random.randrange(300)}:")
            self.body(column + 4, few)
            if self.chance(0.5):
                self.lines.append(f"{before}  other:")
                self.body(column + 4, few)
        else:
            self.loop(kind, column, few)

    def loop(self, kind, column, few):
        before = " " * column
        counter = self.random.choice(self.locals)
        tail = f"from {self.expression(1)} to {self.random.randrange(12)}" + self.random.choice(
            ["", f" step {self.random.randrange(4)}"]
        )
        heads = {
            "count": f"repeat {self.random.randrange(6)}",
            "while": f"repeat while {self.expression(2)}",
            "until": f"repeat until {self.expression(2)}",
            "from": f"repeat {counter} {tail}",
            "after": "repeat",
        }
        self.lines.append(before + heads[kind])
        self.open_loops += 1
        self.body(column + 2, few)
        self.open_loops -= 1
        if kind == "after":
            self.lines.append(f"{before}{self.random.choice(['while', 'until'])} {self.expression(2)}")


def constant(random, depth):
    """An expression of numbers alone, each operation in parentheses, and its value."""
    pick = random.random()
    if depth < 1 or pick < 0.2:
        some = [random.randrange(40), random.randrange(1 << 32), 1 << random.randrange(32)]
        value = random.choice([*some, 0xFFFFFFFF, 0x80000000, 0x7FFFFFFF])
        return str(value), value
    if pick < 0.4:
        operator = random.choice(UNARY)
        text, value = constant(random, depth - 1)
        return f"({operator}{text})", expected.UNARY[operator](value) % expected.WORDS
    operator = random.choice(BINARY)
    left, one = constant(random, depth - 1)
    right, other = constant(random, depth - 1)
    if operator in ("/", "//") and other == 0:
        return left, one
    return f"({left} {operator} {right})", expected.BINARY[operator](one, other) % expected.WORDS


def methods_of(text):
    """The PUBs of a file of Spin that this module wrote, with their numbers of parameters."""
    heads = re.findall(r"^PUB (\w+)(?:\(([^)]*)\))?", text, re.M)
    return [(name, len(arguments.split(",")) if arguments else 0) for name, arguments in heads]


def project(random):
    """A project: its files by their names, the top file `main.spin` first."""
    files, children = {}, []
    for number in range(random.choice([0, 0, 0, 1, 2])):
        text = Spin(random, children[: random.randrange(2)]).text()
        name = f"part{number}"
        files[f"{name}.spin"] = text
        children.append((name, methods_of(text)))
    return {"main.spin": Spin(random, children).text(), **files}


def damage_names(random, text):
    """The text with some of its words put in the place of others, so that mostly it still is read."""
    tokens = TOKEN.findall(text)
    words = [at for at, token in enumerate(tokens) if SHORT.fullmatch(token)]
    for _ in range(random.choice([1, 1, 2, 3])):
        if words:
            tokens[random.choice(words)] = random.choice(
                [tokens[random.choice(words)], "main", "nosuch", "k0", "v0", "t", "result"]
            )
    return "".join(tokens)


def damage_tokens(random, text):
    tokens = TOKEN.findall(text)
    for _ in range(random.choice([1, 1, 1, 2, 5])):
        at = random.randrange(len(tokens))
        other = random.choice(tokens)
        tokens[at] = random.choice(
            [
                lambda: "",
                lambda: tokens[at] * 2,
                lambda: other,
                lambda: tokens[at] + " " + other,
                lambda: tokens[at][1:],
            ]
        )()
    return "".join(tokens)


def damage_bytes(random, content):
    changed = bytearray(content)
    for _ in range(random.choice([1, 1, 2, 8])):
        at = random.randrange(len(changed) + 1)
        byte = random.choice([random.randrange(256), random.choice(ODD_BYTES)])
        if random.random() < 0.5:
            changed[at : at + 1] = bytes([byte])
        else:
            changed[at:at] = bytes([byte] * random.choice([1, 1, 3]))
    return bytes(changed)


def cut(random, content):
    return content[: random.randrange(len(content) + 1)]


def damaged(random, text):
    """The text as a damaged file."""
    kind = random.randrange(8)
    if kind == 0:
        return cut(random, text.encode("latin-1"))
    if kind == 1:
        return damage_bytes(random, text.encode("latin-1"))
    if kind < 5:
        return damage_names(random, text).encode("latin-1")
    return damage_tokens(random, text).encode("latin-1")


def long_of(opcode, flags, condition, destination, source):
    return opcode << 26 | flags << 22 | condition << 18 | destination << 9 | source


def instruction(random, registers):
    """A long that is mostly an instruction of those that a cog carries out, on some of its first registers."""
    pick = random.random()
    if pick < 0.05:
        return random.randrange(1 << 32)
    special = random.random() < 0.1
    destination = random.randrange(0x1F0, 0x200) if special else random.randrange(registers)
    source = random.choice([random.randrange(registers), random.randrange(0x1F0, 0x1F8), random.randrange(512)])
    flags, condition = random.randrange(16), random.choice([15, 15, 15, random.randrange(16)])
    if pick < 0.3:
        opcode = random.choice([0, 1, 2, 2])
    elif pick < 0.45:
        opcode, flags, source = 3, flags | 1, random.randrange(8)
    elif pick < 0.5:
        opcode = random.choice([60, 61, 62, 57, 58, 59, 23])
    else:
        opcode = random.randrange(8, 60)
    return long_of(opcode, flags, condition, destination, source)


def memory(random):
    """Hub memory with PASM: instructions, and data that they use."""
    count = random.choice([1, 4, 16, 40])
    longs = [instruction(random, count + 8) for _ in range(count)]
    longs += [
        random.choice([random.randrange(1 << 32), random.randrange(0x8000), random.randrange(16), 0]) for _ in range(8)
    ]
    if random.random() < 0.7:
        # Starts of new cogs with the code from 001C on, and then of cog 0 itself, or its stop.
        last = random.choice([0x0C7C0C02, 0x0C7C0C03])
        longs = [0x0C7C0802, 0xE4FC0A00, last, 0, 0x78, random.randrange(1, 8), 0x70, *longs]
    return b"".join(it.to_bytes(4, "little") for it in longs)


def script(random):
    """A pin script, mostly a good one."""
    clock, lines = 0, []
    for _ in range(random.choice([0, 1, 3, 20])):
        clock += random.choice([0 if random.random() < 0.03 else 1, random.randrange(1, 3000), 16])
        lines.append(
            random.choice(
                [f"{clock} {random.randrange(1 << 32):08X}", f"{clock} {1 << random.randrange(4):08x}", "# a line", ""]
            )
        )
    text = random.choice(["\n", "\r\n"]).join(lines) + random.choice(["", "\n"])
    return damage_bytes(random, text.encode()) if random.random() < 0.3 else text.encode()


COMMANDS = "build list code raw run save check serial type wave convert make help map explain hint plot view page".split()
ODD_WORDS = [
    # The last of these is a byte that isn't UTF-8.
    *("", " 1", "-1", "+1", "1e3", "0x10", "99999999999", "-", "--", "a\nb", "é", "\udcff"),
    *("-h", "--help", "--alone", "--raw", "--all", "--turns", "--dump=0000:1", "--pins=", "--pins"),
]


def words(random):
    """A command line over the files of a case, mostly with the operands that its command takes."""
    numbers = "0 1 7 17 0017 31 32 5000 20000 40000 40001 1000000 1000001 100000001".split()
    pins = "0 31 32 0,4-7 4-7 7-4 0,, 1-".split()
    spans = "0:0 0:17 17:0 5:20000 1:100000001 :5".split()
    files = "w.spin w.binary w.eeprom w.bin w.history w.pins w.txt none.spin none.binary .".split()
    command = random.choice(COMMANDS)
    operands = {
        "raw": "fn", "run": "fn", "save": "fn", "check": "ff", "serial": "fnnn", "type": "fnnn", "wave": "fn",
        "make": "n", "help": "c", "plot": random.choice(["fnp", "fnps"]), "view": "fn", "page": "fn", "explain": random.choice("fffn"),
    }.get(command, "f")
    line = [random.choice({"f": files, "n": numbers, "c": COMMANDS, "p": pins, "s": spans}[kind]) for kind in operands]
    if command == "make" and random.random() < 0.9:
        # Its turns are dear by threads.
        line.append("--alone")
    for _ in range(random.choice([0, 0, 1, 1, 2, 3])):
        option = random.choice(
            [
                ["--pins", "w.pins"], ["--pins=w.pins"], ["--turns", random.choice(numbers)],
                [f"--turns={random.choice(numbers)}"], ["--alone"], ["--raw"],
                ["--all"], ["--quiet"], ["--pins-only"], ["--ascii"], ["--cog", random.choice("07890")], ["--from", random.choice(numbers)],
                [f"--to={random.choice(numbers)}"], ["--dump", "0010:4"], ["--dump=7fff:1"], ["--dump=7fff:2"], ["--short"],
                ["--width", random.choice("19 20 400 401 0101".split())],
                [random.choice(ODD_WORDS)],
            ]
        )
        at = random.randrange(len(line) + 1)
        line[at:at] = option
    if random.random() < 0.1 and line:
        line.pop(random.randrange(len(line)))
    return [command, *line]


def changed_history(random, history):
    """A history file that is changed so that its cause is known: the file, the turn and the cause that a check tells."""
    clocks, most, count = struct.unpack_from("<III", history, 4)
    turns = [history[at : at + 24] for at in range(16, len(history), 24)]
    place = random.randrange(count)
    kind = random.choice(["form", "extra", "key", "access", "answer", "more"])
    if kind == "form":
        return form_changed(random, history, turns, place)
    if kind == "extra":
        # Within less the history has ended before.
        if random.random() < 0.5:
            most = place
        else:
            clocks = int.from_bytes(turns[place][:4], "little")
            place = next(at for at, turn in enumerate(turns) if int.from_bytes(turn[:4], "little") >= clocks)
    elif kind == "more":
        turns = turns[:place]
    else:
        turns[place] = turn_changed(random, turns[place], kind)
    head = history[:4] + struct.pack("<III", clocks, most, len(turns))
    return head + b"".join(turns), place + 1, kind


def form_changed(random, history, turns, place):
    """A history without the form of one."""
    way = random.randrange(6)
    if way == 0:
        return b"P8H2" + history[4:], 0, "form"
    if way == 1:
        at, most = random.choice([(4, 100_000_000), (8, 40_000), (12, 40_000)])
        return history[:at] + struct.pack("<I", most + 1) + history[at + 4 :], 0, "form"
    if way == 2:
        return history + bytes(random.choice([1, 24])), len(turns) + 1, "form"
    if way == 3:
        return history[: 16 + 24 * place + random.randrange(24)], place + 1, "form"
    # A cog, a kind of access, a kind of answer that there isn't, or a further byte that no access has.
    at, value = random.choice([(4, 8), (5, 18), (6, 6), (7, 200)])
    turn = turns[place][:at] + bytes([value]) + turns[place][at + 1 :]
    return history[: 16 + 24 * place] + turn + history[16 + 24 * (place + 1) :], place + 1, "form"


def turn_changed(random, turn, kind):
    """A turn with another key, another access or another answer, of good form."""
    clock, cog, access, answer, further, a, b, c, value = expected.TURN.unpack(turn)
    if kind == "key":
        clock, cog = random.choice([(clock + 1, cog), (clock ^ 16, cog), (clock, (cog + 1) % 8)])
    elif kind == "access":
        # A cog asks for its number where it asks something else, or takes a lock.
        access, further, a, b, c = (7 if access == 4 else 4), 0, 0, 0, 0
    else:
        answer, value = (0, 0) if answer != 0 else (1, random.randrange(1 << 32))
    return expected.TURN.pack(clock, cog, access, answer, further, a, b, c, value)
