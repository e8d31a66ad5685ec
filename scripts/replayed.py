"""The hub of docs/MACHINE.md, written once more in Python: it takes the turns of a trace and tells where it would have
answered otherwise."""

import bisect

HUB_BYTES = 32_768
WIDTHS = {"byte": 1, "word": 2, "long": 4}
LOCK_LETTERS = {(False, False): ".", (False, True): "s", (True, False): "N", (True, True): "S"}
# What a cog asks by itself, at any clock.
PRIVATE = {"ina", "outa", "dira", "cnt", "waitcnt", "waitpeq", "waitpne", "halt"}


class Hub:
    """Memory, cogs, locks and pins after some turns. `kind` is what cog 0 begins as, `pasm` or `spin`."""

    def __init__(self, memory, kind, script):
        self.memory = bytearray(memory) + bytes(HUB_BYTES - len(memory))
        self.cogs = [f"starting {kind}", *["stopped"] * 7]
        self.locks = [(False, False)] * 8
        self.outputs, self.directions = [0] * 8, [0] * 8
        self.clocks, self.levels = [clock for clock, _ in script], [level for _, level in script]
        self.last = -1, -1

    def driven(self):
        """The pins that are outputs, and of those the ones that are high."""
        made, high = 0, 0
        for out, direction in zip(self.outputs, self.directions):
            made |= direction
            high |= out & direction
        return made, high

    def pins(self, clock):
        made, high = self.driven()
        at = bisect.bisect_right(self.clocks, clock)
        return high | (self.levels[at - 1] if at else 0) & ~made

    def leave(self, cog, state):
        """A cog begins anew or stops, and lets its pins go."""
        self.cogs[cog] = state
        self.outputs[cog] = self.directions[cog] = 0

    def take(self, clock, cog, access, words):
        """Whether a turn is as it must be; it is done to the hub."""
        is_asked = (clock, cog) > self.last and (access in PRIVATE or clock % 16 == 2 * cog)
        self.last = clock, cog
        is_first = access in ("load", "begin") or access == "halt" and words[0] == "rom"
        if self.cogs[cog].startswith("starting") and is_first:
            self.cogs[cog] = self.cogs[cog].replace("starting", "running")
        is_asked = is_asked and self.cogs[cog].startswith("running")
        return is_asked and self.answers(clock, cog, access, words)

    def answers(self, clock, cog, access, words):
        if access[:2] in ("rd", "wr"):
            return self.touch(access[:2] == "rd", WIDTHS[access[2:]], int(words[0], 16), int(words[1], 16))
        if access.startswith("lock"):
            return self.lock(access, words)
        if access in ("coginit", "cogstop", "halt"):
            return self.start_or_stop(cog, access, words)
        if access in ("outa", "dira"):
            (self.outputs if access == "outa" else self.directions)[cog] = int(words[0], 16)
            return True
        numbers = [int(word, 16) for word in words]
        if access in ("cnt", "waitcnt"):
            return numbers[0] == clock % (1 << 32)
        if access == "ina":
            return numbers[0] == self.pins(clock)
        if access in ("waitpeq", "waitpne"):
            return (self.pins(clock) & numbers[1] == numbers[0]) == (access == "waitpeq")
        return numbers[0] == cog if access == "cogid" else access in ("load", "begin", "clkset")

    def touch(self, is_read, width, address, value):
        if is_read:
            return address < HUB_BYTES and int.from_bytes(self.memory[address : address + width], "little") == value
        if address < HUB_BYTES:
            self.memory[address : address + width] = value.to_bytes(width, "little")
        return address % width == 0

    def lock(self, access, words):
        if access == "locknew":
            free = [place for place, (taken, _) in enumerate(self.locks) if not taken]
            if free:
                self.locks[free[0]] = True, self.locks[free[0]][1]
            return words[0] == (str(free[0]) if free else "none")
        number = int(words[0])
        taken, was_set = self.locks[number]
        if access == "lockret":
            self.locks[number] = False, was_set
            return True
        self.locks[number] = taken, access == "lockset"
        return words[1] == str(int(was_set))

    def start_or_stop(self, cog, access, words):
        if access == "coginit":
            if words[0] == "none":
                return "stopped" not in self.cogs
            self.leave(int(words[0]), f"starting {words[1]}")
        else:
            self.leave(cog if access == "halt" else int(words[0]), "stopped")
        return True

    def tail(self, count, is_by_turns):
        """What a trace ends with, without its dump."""
        made, high = self.driven()
        lines = [
            f"ended {'turns' if is_by_turns else 'clocks'} {count}",
            f"locks {''.join(LOCK_LETTERS[it] for it in self.locks)}",
            f"pins {made:08X} {high:08X}",
        ]
        return "\n".join([*lines, *(f"cog {number} {state}" for number, state in enumerate(self.cogs)), ""])


def first_wrong(text, hub, most):
    """The first line of a trace that the hub would have written otherwise, or None."""
    turns, _, _ = text.decode().partition("ended ")
    lines = turns.splitlines()
    for line in lines:
        clock, cog, access, *words = line.split(" ")
        if not hub.take(int(clock), int(cog), access, words):
            return line
    tail = hub.tail(len(lines), len(lines) == most)
    rest = text.decode()[len(turns) :]
    if not rest.startswith(tail):
        return rest
    for line in rest[len(tail) :].splitlines():
        address, _, digits = line.partition(": ")
        count = len(digits.split())
        if bytes.fromhex(digits) != hub.memory[int(address, 16) :][:count]:
            return line
    return None
