"""Maps, views and the waves of cogs and locks, as docs/FORMATS.md has them, made once more in Python: from a trace, and from what `map`
and `list` say of the program."""

import functools
import itertools
import re

SIZES = {"byte": 1, "word": 2, "long": 4}
WORDS = {"rd": "read", "wr": "write"}
ADDRESSES = 1 << 16


def lines_in(text):
    """The lines of a text; in a string of a map may stand what `splitlines` takes for the end of one."""
    return text.removesuffix("\n").split("\n") if text else []


# Maps


ITEM = re.compile(r'"[^"]+"|\d+')


def text_of_items(items):
    """The bytes of a text that is told as the items of a STRING; None where it isn't told so."""
    if items == '""':
        return b""
    found = ITEM.findall(items)
    if ", ".join(found) != items:
        return None
    return b"".join(it[1:-1].encode("latin-1") if it[0] == '"' else bytes([int(it)]) for it in found)


def map_rows(text):
    """The lines of a map, each with its address, its kind and its further words; those of frames have the offset as text."""
    rows = []
    for line in text.decode("latin-1").split("\n")[:-1]:
        place, kind, rest = (line + " ").split(" ", 2)
        rows.append((place if place.startswith("+") else int(place, 16), kind, rest.strip(" ") if kind != "string" else rest[:-1]))
    return rows


def code_ends(listing):
    """Where the codes of each object end, or its `DAT` where it has no methods, by its file, as the listing has it."""
    ends, file = {}, None
    for line in lines_in(listing.decode("latin-1")):
        words = line.split(" ")
        if words[0] == "object":
            file = words[1]
            ends[file] = int(words[2], 16)
        elif words[0] != "method":
            ends[file] = int(words[0], 16) + (len(words) - 1 if len(words[1]) == 2 else 4)
    return ends


def locals_of(rows):
    """What stands in the frames of the methods of a map, as METHOD.NAME; a result without a name of its own is METHOD.result."""
    method = ""
    for place, kind, rest in rows:
        if kind == "method":
            method = rest.split(" ")[1]
        elif isinstance(place, str):
            name = rest.split(" ")[0]
            yield f"{method}.{'result' if (kind, name) == ('result', 'RESULT') else name}"


class Names:
    """The ranges of the hub that have a name, in the order in which they are looked for."""

    def __init__(self, rows, ends):
        self.ranges = []
        self.locals = set(locals_of(rows))
        self.objects(rows, ends)
        for place, kind, rest in rows:
            if kind == "variable":
                name, size, count = rest.split(" ")
                self.add(place, place + SIZES[size] * int(count), name)

    def add(self, begin, end, name):
        last = self.ranges[-1][1] if self.ranges else 0
        if last <= begin < end:
            self.ranges.append((begin, end, name))

    def objects(self, rows, ends):
        file, inside, paths = None, {}, {}
        for _, kind, rest in rows:
            if kind == "object":
                file = rest
                inside[file] = []
            elif kind == "child":
                inside[file].append(rest.split(" "))
        for number, file in enumerate(inside):
            # The first object that has this one inside it has a path already, or gets one by those before it.
            paths[file] = "" if number == 0 else self.path(file, inside)
        parts = [(place, kind, rest) for place, kind, rest in rows if kind in ("object", "label", "method")]
        for at, (place, kind, rest) in enumerate(parts):
            if kind == "object":
                file = rest
                continue
            following = parts[at + 1] if at + 1 < len(parts) else (0, "object", "")
            end = ends[file] if following[1] == "object" else following[0]
            name = rest.split(" ")[0 if kind == "label" else 1]
            self.add(place, end, paths[file] + name)

    def path(self, file, inside):
        top = next(iter(inside))
        for holder, children in inside.items():
            for name, of in children:
                if of == file:
                    return ("" if holder == top else self.path(holder, inside)) + name + "."
        return ""

    def text(self, address):
        for begin, end, name in self.ranges:
            if begin <= address < end:
                return name + (f"+{address - begin}" if address > begin else "")
        return f"{address:04X}"

    def find(self, name):
        """The first range with a name, in letters of either case, as its address and its bytes."""
        found = [(begin, end - begin) for begin, end, text in self.ranges if text.lower() == name.lower()]
        return found[0] if found else None


def map_faults(rows, image, listing):
    """What a map says otherwise than the image and the listing do."""
    faults, file, base, end, bases, expected_offset = [], None, 0, 0, {}, 0
    for place, kind, rest in rows:
        if kind == "object":
            bases[rest] = place
    instances = {rest.split("* ")[0]: place for place, kind, rest in rows if kind == "instance"}
    variables_at = int.from_bytes(image[8:10], "little")
    lines = {int(line[:4], 16): line for line in lines_in(listing.decode("latin-1")) if re.match(r"[0-9A-F]{4} ", line)}
    ends = code_ends(listing)
    for place, kind, rest in rows:
        if kind == "object":
            # Behind its head and its table it has nothing where it has no methods and no bytes.
            file, base, end = rest, place, max(ends[rest], place + 4)
        elif kind == "child":
            name, of = rest.split(" ")
            end = max(end, place + 4)
            way, to_variables = (int.from_bytes(image[place + at : place + at + 2], "little") for at in (0, 2))
            if (base + way) % ADDRESSES != bases[of]:
                faults.append(f"child {name} of {file} leads to {(base + way) % ADDRESSES:04X}")
            if base == 0x10 and name + "." in instances and (variables_at + to_variables) % ADDRESSES != instances[name + "."]:
                faults.append(f"variables of {name} at {(variables_at + to_variables) % ADDRESSES:04X}")
        elif kind == "label":
            is_inside = base < place <= end
            has_line = place % 4 or place in lines or place == end
            if not (is_inside and (has_line or rest.endswith((" byte", " word")))) and not any(
                kind == "method" and at == place for at, kind, _ in rows
            ):
                faults.append(f"label {rest} at {place:04X}, where the listing has nothing")
        elif kind == "method":
            expected_offset = 0
        elif kind in ("result", "parameter", "local"):
            if int(place[1:], 16) != expected_offset % ADDRESSES:
                faults.append(f"{kind} {rest} at {place}")
            expected_offset += 4 * int(rest.split(" ")[1])
        elif kind == "string":
            text = text_of_items(rest)
            if text is None or image[place : place + len(text) + 1] != text + b"\0":
                faults.append(f"string {rest} at {place:04X}")
    return faults


# Views


class Cogs:
    """The pins and the states of the cogs after some turns of a trace."""

    def __init__(self):
        self.outputs, self.directions, self.loading = [0] * 8, [0] * 8, [0] * 8
        self.doings, self.last, self.is_pasm = [("starts", 0), *[("idle", 0)] * 7], [0] * 8, [False] * 8

    def drives(self):
        made = high = 0
        for out, direction in zip(self.outputs, self.directions):
            made |= direction
            high |= out & direction
        return made, high

    def leave(self, cog, doing):
        self.outputs[cog] = self.directions[cog] = 0
        self.doings[cog] = doing

    def take(self, turn):
        """Takes a turn, and gives whether it is a read of a load."""
        clock, cog, (access, *rest) = turn
        is_loaded = self.loading[cog] > 0 and access.startswith("rd")
        self.loading[cog] = 496 if access == "load" else 0 if access == "begin" else max(self.loading[cog] - 1, 0)
        self.last[cog] = clock
        if access == "outa":
            self.outputs[cog] = int(rest[0], 16)
        elif access == "dira":
            self.directions[cog] = int(rest[0], 16)
        elif access == "coginit" and rest[0] != "none":
            self.leave(int(rest[0]), ("starts", clock))
        elif access == "cogstop":
            self.leave(int(rest[0]), ("stops", clock))
        elif access == "halt":
            self.leave(cog, ("halts", clock, " ".join(rest)))
        elif access in ("load", "begin"):
            self.doings[cog], self.is_pasm[cog] = ("runs", clock), access == "load"
        return is_loaded


def turn_text(names, access, rest):
    """A turn in the words of a view, with its answer."""
    if access == "begin":
        return f"begin of spin {' '.join(names.text(int(it, 16)) for it in rest)}"
    if access == "load":
        return f"load of {names.text(int(rest[0], 16))}, 496 longs"
    if access[:2] in WORDS:
        return f"{WORDS[access[:2]]} {access[2:]} {names.text(int(rest[0], 16))} = {rest[1]}"
    if access == "coginit":
        return f"coginit {rest[0]} {rest[1]} {' '.join(names.text(int(it, 16)) for it in rest[2:])}"
    if access == "waitcnt":
        return f"waitcnt until {int(rest[0], 16)}"
    return " ".join([access, *rest])


def asked_text(names, access, rest):
    """An access in the words of a view, without its answer."""
    if access[:2] == "rd":
        return f"read {access[2:]} {names.text(int(rest[0], 16))}"
    if access == "coginit":
        return turn_text(names, access, rest).replace(f" {rest[0]}", "", 1)
    if access in ("begin", "load", "cogid", "locknew", "ina", "cnt"):
        return access
    return turn_text(names, access, rest[:1] if access in ("lockset", "lockclr") else rest)


# The accesses that may change what the cogs drive.
CHANGING = "outa", "dira", "coginit", "cogstop", "halt"


def pins_text(before, after):
    """The pins that change, and what they are then."""
    text = ""
    if before == after:
        return text
    for pin in range(32):
        was, now = ([it >> pin & 1 for it in drives] for drives in (before, after))
        if was != now:
            text += f", {pin} {('low', 'high')[now[1]] if now[0] else 'input'}"
    return text


def time_text(clock, frequency):
    nanoseconds = clock * 10**9 // frequency if frequency else 0
    return f"{nanoseconds // 1000}.{nanoseconds % 1000:03} us " if frequency else ""


def view_lines(trace, names, frequency):
    """For each turn that a view shows its clock, its cog, whether it changes pins, what asks it, and its line without the place; and the cogs
    at the end."""
    cogs, lines = Cogs(), []
    drives = cogs.drives()
    for turn in trace.turns:
        clock, cog, (access, *rest) = turn
        if cogs.take(turn):
            continue
        before = drives
        if access in CHANGING:
            drives = cogs.drives()
        changes = pins_text(before, drives)
        text = f"{clock} {time_text(clock, frequency)}cog {cog} {turn_text(names, access, rest)}{changes}"
        lines.append((clock, cog, bool(changes), (cogs.is_pasm[cog], access), text))
    return lines, cogs


def end_text(cogs, cog):
    """What a view says of a cog in the end; where it runs, what stands before its next access."""
    kind, clock, *reason = cogs.doings[cog]
    if kind == "idle":
        return f"cog {cog} is idle"
    if kind == "starts":
        return f"cog {cog} is started at clock {clock} and has had no turn yet"
    if kind == "stops":
        return f"cog {cog} is stopped at clock {clock}"
    if kind == "halts":
        return f"cog {cog} halts at clock {clock}: {reason[0]}"
    return f"cog {cog} runs since clock {clock}, its last turn is at clock {cogs.last[cog]}, "


def next_turn(trace, done, cog):
    """The next turn of a cog after so many of a trace, or None where there is none, or it is started or stopped before."""
    for clock, number, (access, *rest) in itertools.islice(trace.turns, done, None):
        if number == cog:
            return clock, access, rest
        if access in ("coginit", "cogstop") and rest[0] == str(cog):
            return None
    return None


def next_fault(told, turn, names, place):
    """Whether what a view says of a cog's next access, in front of this place, is otherwise than its next turn."""
    clock, access, rest = turn
    does = re.fullmatch(r"does next at clock (\d+): (.*)", told)
    if does:
        return (int(does[1]), does[2]) != (clock, with_local(does[2] + place, asked_text(names, access, rest), names))
    waits = re.match(r"waits since clock (\d+) for the (counter|pins) ", told)
    if waits:
        return access[:4] != "wait" or int(waits[1]) > clock or (waits[2] == "counter") != (access == "waitcnt")
    nothing = re.fullmatch(r"asks nothing before clock (\d+)", told)
    return not nothing or int(nothing[1]) > clock


@functools.lru_cache(8)
def lines_of(content):
    return re.split(rb"\r\n|\r|\n", content)


@functools.lru_cache(8)
def heads_of(content):
    """The heads of the methods of a source, as line and name."""
    found = [(at, re.match(rb"(?i)(?:pub|pri)\b[ \t]*(\w*)", line)) for at, line in enumerate(lines_of(content), 1)]
    return [(at, head[1].decode("latin-1")) for at, head in found if head]


def with_local(line, text, names):
    """What is due of a line of a view that tells a local of the method in its place; else that. The stack of cog 0 lies behind all names, or is
    called so; that of another cog lies in a variable of any name."""
    if line.startswith(text) and line[len(text) : len(text) + 1] in ("", " ", ","):
        return text
    place = r"(?:[0-9A-F]{4}|(?:\S+\.)?stack(?:\+\d+)?)" if re.match(r"\d+ (?:[\d.]+ us )?cog 0 ", text) else r"\S+"
    due = re.fullmatch(rf"((?:.* )?(?:read|write) (?:byte|word|long) ){place}((?: = .*)?)", text)
    told = re.fullmatch(r"(?:.* )?(?:read|write) (?:byte|word|long) (\w+\.\w+)((?:\+\d+)?)(?: .*)? (\w+)", line)
    if not due or not told or told[1] not in names.locals or told[1].split(".")[0] != told[3]:
        return text
    return due[1] + told[1] + told[2] + due[2]


def parted(text, files):
    """A text, and the place of one of these files behind it: ` FILE:LINE`, with a method or without one; that may be empty."""
    found = re.fullmatch(r"(.*?)( ([^ :]+):\d+(?: \w+)?)", text)
    return (found[1], found[2]) if found and found[3] in files else (text, "")


def may_ask(line, access):
    """Whether a line of DAT may have an instruction of PASM that asks an access: the instruction of that name, or a long that stands for it."""
    names = {access}
    if access[2:] in SIZES:
        names = {f"{word}{access[2:]}" for word in WORDS}
    elif access in ("outa", "dira", "ina", "cnt", "halt"):
        return bool(line.strip())
    elif access[:4] != "wait":
        names.add("hubop")
    return bool({*names, *SIZES} & set(re.findall(r"\w+", line.decode("latin-1").lower())))


def is_place(text, files, asks):
    """Whether a text is a place where it isn't empty: file, line and method of a bytecode, and file and line of an instruction that may ask
    this."""
    place = re.fullmatch(r" ([^ :]+):(\d+)((?: \w+)?)", text)
    if not text or not place or place[1] not in files:
        return not text
    is_pasm, access = asks
    if access in ("load", "begin"):
        return False
    if is_pasm:
        lines = lines_of(files[place[1]])
        return not place[3] and 1 <= int(place[2]) <= len(lines) and may_ask(lines[int(place[2]) - 1], access)
    before = [name for line, name in heads_of(files[place[1]]) if line <= int(place[2])]
    return bool(before) and before[-1] == place[3][1:]


# Waves


def wave_of(text):
    """The changes of each variable of a wave, by its scope and name, as time and value, and the time at which it ends."""
    head, _, body = text.decode().partition("$enddefinitions $end\n")
    scope, names = "", {}
    for line in head.splitlines():
        words = line.split(" ")
        if words[0] == "$scope":
            scope = words[2]
        elif words[0] == "$var":
            names[words[3]] = f"{scope}.{words[4]}"
    found, time = {name: [] for name in names.values()}, 0
    for line in body.splitlines():
        if line.startswith("#"):
            time = int(line[1:])
        elif line[0] in "01" and line[1:] in names:
            found[names[line[1:]]].append((time, int(line[0])))
        elif line[0] == "b":
            value, mark = line[1:].split(" ")
            found[names[mark]].append((time, int(value, 2)))
    return found, time


STATES = {"starts": 1, "runs": 2, "halts": 3, "stops": 0, "idle": 0}


def cog_changes(trace):
    """The registers and states of the cogs and the locks: for each its value at clock 0, and each later clock at which it changes."""
    cogs, taken, is_set = Cogs(), [0] * 8, [0] * 8
    names = "cog{}.outa", "cog{}.dira", "cog{}.state", "locks.lock{}", "locks.taken{}"
    found = {name.format(cog): [] for name in names for cog in range(8)}
    before = [None] * len(found)

    def note(clock):
        values = [
            *cogs.outputs, *cogs.directions, *(STATES[doing[0]] for doing in cogs.doings), *is_set, *taken,
        ]  # fmt: skip
        for (name, changes), value, was in zip(found.items(), values, before):
            if value == was:
                continue
            if changes and changes[-1][0] == clock:
                changes.pop()
            if not changes or changes[-1][1] != value:
                changes.append((clock, value))
        before[:] = values

    note(0)
    for turn in trace.turns:
        clock, _, (access, *rest) = turn
        cogs.take(turn)
        if access == "locknew" and rest[0] != "none":
            taken[int(rest[0])] = 1
        elif access == "lockret":
            taken[int(rest[0])] = 0
        elif access in ("lockset", "lockclr"):
            is_set[int(rest[0])] = int(access == "lockset")
        if access in ("outa", "dira", "coginit", "cogstop", "halt", "load", "begin") or access.startswith("lock"):
            note(clock)
    return found
