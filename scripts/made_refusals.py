"""Sources that are refused by a number and at a place that are known: a project of made_inputs.py that is accepted, with a fault put
into one of its files. Most of these refusals damage seldom comes to."""

import re

NAMES = {
    12: "NotConstant", 13: "ZeroDivisor", 14: "Duplicate", 15: "Unknown", 16: "WrongKind", 17: "WrongArity", 18: "NoPub", 19: "Cycle",
    20: "TooManyObjects", 21: "OperandRange", 22: "FitExceeded", 23: "OrgRange", 24: "NoRetLabel", 25: "JumpTooFar", 26: "FrameTooLarge",
    27: "TooManyMethods", 28: "ImageTooLarge", 29: "BadClock", 31: "NotCharacter",
}  # fmt: skip

# Stands before what is refused, and is left out.
MARK = "¤"

# Blocks with one fault each, to stand behind those of a file in which `v0` is a variable.
BLOCKS = {
    12: [
        "CON\n  zc = ¤v0\n", "CON\n  zc = 2 * (¤zc + 1)\n", "CON\n  zc = ¤cogid\n", "CON\n  za = ¤zb\n  zb = za\n",
        "VAR\n  long zv[¤v0]\n", "DAT\n  long 1, ¤v0\n", "DAT\n  org 1 + ¤v0\n", "PRI zm | zl[¤v0]\n",
        "PRI zm\n  return constant(1 + ¤v0)\n", "PRI zm(p)\n  return constant(¤p)\n",
        'PRI zm\n  return string("ab", ¤v0)\n', 'CON\n  zc = ¤string("a", 13)\n', 'DAT\n  byte 1, ¤string("a", 13)\n',
    ],
    13: [
        "CON\n  zc = 1 ¤/ 0\n", "CON\n  zc = 7 ¤// (3 - 3)\n", "DAT\n  long 5 ¤/ 0\n", "VAR\n  long zv[4 ¤/ 0]\n",
        "PRI zm\n  return constant(1 ¤// 0)\n", "CON\n  #3 ¤/ 0, zc\n",
    ],
    14: ["CON\n  zc = 1\n  ¤zc = 2\n", "VAR\n  long za, ¤za\n", "PRI zm(p, ¤p)\n", "PRI zm\nPRI ¤zm\n", "PRI zm | ¤v0\n"],
    15: ["PRI zm\n  ¤nosuch\n", "PRI zm\n  result := 1 + ¤nosuch\n", "CON\n  zc = ¤nosuch\n", "DAT\n  mov zt, ¤nosuch\nzt long 0\n"],
    16: [
        "PRI zm\n  ¤v0\n", "PRI zm\n  ¤zm := 1\n", "PRI zm\n  ¤v0(1)\n", "PRI zm\n  repeat ¤zm from 1 to 2\n",
        "PRI zm\n  result := ¤v0#zc\n", "PRI zm\n  return @¤zm\n", "PRI zm\n  ¤v0.start\n", "CON\n  zc = ¤v0#zb\n", "PRI zm\n  ¤zm++\n",
    ],
    17: ["PRI zm\n  ¤zn(1, 2)\nPRI zn(p)\n", "PRI zm\n  ¤zn\nPRI zn(p)\n", "PRI zm\n  ¤waitcnt(1, 2)\n"],
    21: ["DAT\n  mov zt, #¤512\nzt long 0\n", "DAT\n  mov ¤zt, #1\n  byte 0\nzt byte 0\n", "DAT\nzt mov zt, ¤-1\n"],
    22: ["DAT\n  org 0\n  long 1, 2\n  ¤fit 1\n", "DAT\n  org 100\n  byte 0\n  ¤fit 100\n", "DAT\n  org 496\n  long 0\n  ¤fit\n"],
    23: ["DAT\n  ¤org 497\n", "DAT\n  ¤org -1\n", "CON\n  zc = 1000\nDAT\n  ¤org zc\n"],
    24: [
        "DAT\nzl nop\n  ¤call #zl\n", "CON\n  zl_ret = 1\nDAT\nzl nop\n  ¤call #zl\n", "DAT\nzl nop\n:in nop\n  if_z ¤call #:in\n",
        "DAT\nzl nop\nzm_ret ret\n  ¤call #zl\n", "DAT\nzl nop\n:next nop\n  ¤call #:next\n",
    ],
    26: ["PRI ¤zm | za[2048]\n", "PRI ¤zm(p) | za[2000], zb[47]\n"],
    31: [
        'PRI zm\n  return string("ab", ¤0)\n', "PRI zm\n  return string(¤256)\n", 'PRI zm\n  return string(13, ¤-1, "x", 0)\n',
        'CON\n  zc = 300\nPRI zm\n  return string("a", 10, ¤zc)\n',
    ],
}  # fmt: skip

# How many assignments make a body whose end is too far from its begin.
FAR = 3000


def far(random):
    opener = random.choice(["repeat", "repeat while v0", "if v0", "repeat until v0"])
    return f"PRI zm\n  ¤{opener}\n" + "    v0 := $12345678\n" * FAR


def cycle(random):
    return random.choice(['OBJ\n  zo : ¤"main"\n', 'OBJ\n  zo[2] : ¤"main.spin"\n'])


def too_many_objects(random, text):
    kind = random.randrange(3)
    if kind == 0:
        return 'OBJ\n  ¤zo[0] : "leaf"\n'
    if "\nOBJ" in text:
        # Its own objects and these are too many.
        return 'OBJ\n  ¤zo[255] : "leaf"\n'
    if kind == 1:
        return 'OBJ\n  zo[200] : "leaf"\n  ¤zp[56] : "leaf"\n'
    items = "".join(f'  z{number} : "leaf"\n' for number in range(255))
    return f'OBJ\n{items}  ¤zo : "leaf"\n'


def too_many_methods(text):
    """As many methods as there may be beside the objects of the file, and one more."""
    instances = sum(int(count or 1) for count in re.findall(r"^  o\d+(?:\[(\d+)\])? :", text, re.M))
    methods = len(re.findall(r"^(?:PUB|PRI) ", text, re.M))
    last = min(255, 256 - instances)
    return "".join(f"PRI {MARK if number == last else ''}z{number}\n" for number in range(methods + 1, last + 2))


def fault(random, number, name, text):
    """A file with a fault of this number, and the line and the column at which it is refused; None where the file can't have it."""
    if number == 18:
        return re.sub(r"^PUB", "PRI", text, flags=re.M), 1, 1
    if number == 28:
        return text + random.choice(["DAT\n  long 0[9000]\n", "VAR\n  long zv[9000]\n", "VAR\n  byte zv[40_000]\n"]), 1, 1
    if number == 29:
        return None if "_clkmode" in text else (text + "CON\n  _clkmode = " + random.choice(["xtal1", "3", "xinput + rcfast"]) + "\n", 1, 1)
    if number == 19:
        block = cycle(random)
    elif number == 20:
        block = too_many_objects(random, text)
    elif number == 25:
        block = far(random)
    elif number == 27:
        block = too_many_methods(text)
    else:
        block = random.choice(BLOCKS[number])
    before, _, after = block.partition(MARK)
    line = text.count("\n") + before.count("\n") + 1
    return text + before + after, line, len(before) - before.rfind("\n")


# Those that damage seldom comes to are made most often; the bodies of 25 are long.
NUMBERS = [12, 13, 16, 19, 20, 23, 24, 27, 31] * 3 + [14, 15, 17, 18, 21, 22, 25, 26, 28, 29]
OF_THE_TOP_FILE = (18, 28, 29)


def refused(random, files):
    """A project with a fault: its files, the number of the refusal, and the line that tells it. None where there is none."""
    number = random.choice(NUMBERS)
    name = "main.spin" if number in OF_THE_TOP_FILE else random.choice(list(files))
    made = fault(random, number, name, files[name])
    if made is None:
        return None
    text, line, column = made
    told = f"prop: {name}:{line}:{column}: {number} {NAMES[number]}\n"
    return {**files, name: text, "leaf.spin": "PUB zleaf\n"}, number, told.encode()
