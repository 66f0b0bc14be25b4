#!/usr/bin/env python3
"""The rules of docs/RULES.md once more, apart from the proved code, to check what the programs print.

    simulate.py lines [CELLS] < TAPE    what `play` prints of a tape, on a heap of so many cells (1,024)
    simulate.py tape                    the tape in crates/replay/stdin, for a heap of 40 cells
    simulate.py tape long               the same calls and more, up to the last byte that a program reads
    simulate.py random SEED             a tape of random calls, most of them granted

The expected output of crates/replay is that of `simulate.py lines 40` on its tape.
"""

import random
import sys

ROOTS, LIST, PENDING, PLACES, LIMIT = 16, 256, 4096, 4096, 65536

# A value is None (nil), an int (a number's pattern) or a Place.


class Place(int):
    pass


class Cell:
    def __init__(self, mark=False, flag=False, parts=(None, None)):
        self.mark, self.flag, self.waiting = mark, flag, False
        self.parts = list(parts)

    def kind(self):
        return {(0, 0): "plain", (1, 0): "accessible", (0, 1): "moved", (1, 1): "free"}[self.mark, self.flag]


class Refused(Exception):
    def __init__(self, number):
        self.number = number


def refuse(number, when):
    if when:
        raise Refused(number)


def is_place(value):
    return isinstance(value, Place)


def same(a, b):
    return type(a) is type(b) and a == b


def canonical(pattern):
    not_a_number = pattern & 0x7F800000 == 0x7F800000 and pattern & 0x007FFFFF
    return 0x7FC00000 if not_a_number else pattern


class Heap:
    """Each call returns what the program prints of its answer, or raises Refused."""

    def __init__(self, count):
        self.size = min(PLACES, count)
        self.cells = [self.free_cell(p + 1 if p + 1 < self.size else None) for p in range(self.size)]
        self.first, self.last = (0, self.size - 1) if self.size else (None, None)
        self.roots = [None] * ROOTS
        self.list, self.pending = [], []
        self.phase, self.moving = "rest", False

    @staticmethod
    def free_cell(following):
        return Cell(True, True, (None if following is None else Place(following), None))

    # -- places and values

    def at(self, place):
        return self.cells[place] if place < self.size else Cell()

    def normal(self, value):
        if is_place(value) and self.at(value).kind() == "moved":
            return self.at(value).parts[0]
        return value

    def offer(self, value):
        if self.phase != "mark" or not is_place(value) or value >= self.size:
            return
        cell = self.cells[value]
        if cell.kind() == "plain" and not cell.waiting and len(self.pending) < PENDING:
            cell.waiting = True
            self.pending.append(value)

    def written(self, value):
        value = self.normal(value)
        self.offer(value)
        return value

    def push(self, value):
        self.list.append(self.written(value))

    # -- the list calls

    def nil(self):
        refuse(3, len(self.list) == LIST)
        self.push(None)

    def number(self, pattern):
        refuse(3, len(self.list) == LIST)
        self.push(canonical(pattern))

    def load(self, root):
        refuse(1, root >= ROOTS)
        refuse(3, len(self.list) == LIST)
        self.push(self.roots[root])

    def store(self, root):
        refuse(1, root >= ROOTS)
        refuse(2, not self.list)
        self.roots[root] = self.written(self.list.pop())

    def create(self):
        refuse(2, len(self.list) < 2)
        refuse(5, self.first is None)
        second, first = self.normal(self.list.pop()), self.normal(self.list.pop())
        self.offer(first)
        self.offer(second)
        place = self.first
        self.first = self.cells[place].parts[0]
        if not is_place(self.first):
            self.first = self.last = None
        marked = self.phase in ("mark", "relocate", "update") or self.phase == "reclaim" and place >= self.sweep
        self.cells[place] = Cell(marked, False, (first, second))
        self.list.append(Place(place))

    def select(self, component):
        refuse(1, component not in (1, 2))
        refuse(2, not self.list)
        refuse(4, not is_place(self.list[-1]))
        self.push(self.at(self.normal(self.list.pop())).parts[component - 1])

    def clobber(self, component):
        refuse(1, component not in (1, 2))
        refuse(2, len(self.list) < 2)
        refuse(4, not is_place(self.list[-2]))
        value = self.written(self.list.pop())
        self.at(self.normal(self.list.pop())).parts[component - 1] = value

    def identical(self):
        refuse(2, len(self.list) < 2)
        a, b = self.normal(self.list.pop()), self.normal(self.list.pop())
        return "yes" if same(a, b) else "no"

    def look(self):
        refuse(2, not self.list)
        top = self.list[-1]
        return "nil" if top is None else "cell" if is_place(top) else f"number {top:08x}"

    def popitem(self):
        refuse(2, not self.list)
        self.list.pop()

    def pdlget(self, depth):
        refuse(2, depth >= len(self.list))
        refuse(3, len(self.list) == LIST)
        self.push(self.list[-1 - depth])

    def pdlput(self, depth):
        refuse(1, depth == 0)
        refuse(2, depth >= len(self.list))
        slot = len(self.list) - 1 - depth
        self.list[slot] = self.written(self.list.pop())

    # -- the collector

    def begin(self, moving):
        refuse(1, moving > 1)
        refuse(6, self.phase != "rest")
        self.phase, self.moving, self.root, self.slot = "mark", moving == 1, 0, 0

    def step(self):
        refuse(7, self.phase == "rest")
        returned = getattr(self, "step_in_" + self.phase)()
        return f"{self.phase} {1 if returned else 0}"

    def census(self):
        return str(sum(cell.kind() != "free" for cell in self.cells))

    def step_in_mark(self):
        if self.pending:
            cell = self.cells[self.pending.pop()]
            cell.waiting, cell.mark = False, True
            for part in cell.parts:
                self.offer(part)
        elif self.root < ROOTS:
            self.offer(self.roots[self.root])
            self.root += 1
        elif self.slot < len(self.list):
            self.offer(self.list[self.slot])
            self.slot += 1
        elif self.moving:
            self.phase, self.low, self.high = "relocate", 0, self.size
        else:
            self.phase, self.sweep = "reclaim", 0

    def step_in_relocate(self):
        if self.low >= self.high:
            self.phase, self.root, self.place, self.slot = "update", 0, 0, 0
        elif self.cells[self.low].kind() != "plain":
            self.low += 1
        elif self.cells[self.high - 1].kind() != "accessible":
            self.high -= 1
        else:
            old = self.cells[self.high - 1]
            self.cells[self.low] = Cell(True, False, old.parts)
            old.mark, old.flag, old.parts[0] = False, True, Place(self.low)
            self.low += 1
            self.high -= 1

    def step_in_update(self):
        if self.root < ROOTS:
            self.roots[self.root] = self.normal(self.roots[self.root])
            self.root += 1
        elif self.place < self.size:
            cell = self.cells[self.place]
            if cell.kind() == "accessible":
                cell.parts = [self.normal(part) for part in cell.parts]
            self.place += 1
        elif self.slot < len(self.list):
            self.list[self.slot] = self.normal(self.list[self.slot])
            self.slot += 1
        else:
            self.phase, self.sweep = "reclaim", 0

    def step_in_reclaim(self):
        if self.sweep >= self.size:
            self.phase = "rest"
            return False
        place, cell = self.sweep, self.cells[self.sweep]
        self.sweep += 1
        if cell.mark:
            cell.mark = cell.kind() == "free"
            return False
        self.cells[place] = self.free_cell(None)
        if self.first is None:
            self.first = place
        else:
            self.cells[self.last].parts[0] = Place(place)
        self.last = place
        return True


# -- the tape

KINDS = [
    ("nil", 0), ("number", 4), ("load", 1), ("store", 1), ("create", 0), ("select", 1), ("clobber", 1), ("identical", 0),
    ("look", 0), ("popitem", 0), ("pdlget", 1), ("pdlput", 1), ("begin", 1), ("step", 0), ("census", 0), ("note", 12),
]


def play(heap, name, body):
    if name == "note":
        return body.hex()
    return getattr(heap, name)(*([int.from_bytes(body, "big")] if body else []))


def lines(heap, tape):
    place, count = 0, 0
    while place < len(tape):
        kind = tape[place]
        if not 1 <= kind <= len(KINDS):
            yield f"{place} {kind} bad 8"
            break
        name, size = KINDS[kind - 1]
        if len(tape) - place < 1 + size:
            yield f"{place} {kind} bad 9"
            break
        try:
            answer = play(heap, name, tape[place + 1 : place + 1 + size])
            yield f"{place} {kind} ok" + (f" {answer}" if answer else "")
        except Refused as refused:
            yield f"{place} {kind} no {refused.number}"
        place, count = place + 1 + size, count + 1
    yield f"end {count}"


# -- the tape of crates/replay


class Script:
    """Writes a tape, and plays it as it goes, so that the script can follow the collector's phases."""

    def __init__(self, cells):
        self.heap, self.tape = Heap(cells), bytearray()

    def do(self, text):
        """Calls by name, each with its argument: 'load 0 nil create'; a note's text follows it up to the end."""
        words = iter(text.split())
        for word in words:
            size = dict(KINDS)[word]
            body = b""
            if word == "note":
                body = " ".join(words).ljust(size).encode()
            elif size:
                body = int(next(words), 0).to_bytes(size, "big")
            self.tape += bytes([[name for name, _ in KINDS].index(word) + 1]) + body
            try:
                play(self.heap, word, body)
            except Refused:
                pass

    def cycle(self, moving, edits):
        """A whole cycle, with one of the edits after every third step."""
        self.do(f"begin {moving}")
        steps = 0
        while self.heap.phase != "rest":
            self.do("step")
            steps += 1
            if steps % 3 == 0:
                self.do(edits[steps // 3 % len(edits)])


# Changes of what the roots lead to; each leaves the list as high as before, unless memory is short.
EDITS = [
    "load 0 load 2 create store 1",
    "load 1 load 0 clobber 1",
    "load 1 select 2 store 2",
    "load 3 number 0x40490fdb clobber 2 load 3 select 2 look popitem",
    "load 0 pdlget 1 create pdlput 1",
    "load 4 load 4 clobber 1",
    "nil load 4 create store 4",
    "load 5 select 1 store 5",
    "load 1 select 1 load 0 identical",
    "load 2 popitem census",
]


def replay_script():
    script = Script(40)
    do = script.do
    do("note replay")
    # nothing to take, out of range, at rest
    do("popitem look identical create step load 16 store 16 store 3 select 0 select 1 clobber 3 clobber 1 pdlget 0 pdlput 0 pdlput 1 begin 2")
    # numbers and what is not one; values that are no cells
    do("number 0 number 0x80000000 identical number 0x7fc00000 number 0xffc00001 identical number 0x7f800001 look")
    do("select 1 nil clobber 2 popitem popitem nil look nil identical")
    # a chain in root 0, shared by a cell in root 1; cells that lead to themselves in roots 3 and 4; a longer chain in root 5
    do("number 0x3f800000 nil create store 0 number 0x40000000 load 0 create store 0 load 0 load 0 create store 1")
    do("nil nil create store 3 load 3 load 3 clobber 1 nil nil create store 4 load 0 load 3 identical load 3 load 3 identical")
    do("nil store 5" + " load 5 nil create store 5" * 9)
    # cells that nothing leads to
    do("nil nil create popitem " * 8)
    # a list for the collector to go over
    do("load 0 load 1 select 1 nil number 0x41200000 load 5 pdlget 1 pdlget 4 census")
    do("note still cycle")
    script.cycle(0, EDITS)
    do("begin 3 census")
    do("note cells move")
    script.cycle(1, EDITS)
    do("census load 0 select 2 look popitem load 3 select 1 load 3 identical load 4 load 0 identical")
    do("note no space")
    do("nil" + " nil create" * 4 + " census")
    script.cycle(1, ["begin 0", "load 0 store 6", "popitem", "load 3 load 3 clobber 2"])
    do("census")
    do("note list full")
    do("nil " * 257 + "number 1 load 0 pdlget 255 pdlput 255 popitem")
    return script


def replay_tape():
    # a record cut short
    return bytes(replay_script().tape) + b"\x02\x3f\x80"


def long_tape():
    script = replay_script()
    do = script.do
    # leading zeros
    do("popitem number 1 look note \x01\x0f")
    # refused calls up to the last byte but one that a program reads, and a record whose body lies after it
    while len(script.tape) < LIMIT - 5:
        do("number 1")
    do("nil " * (LIMIT - 1 - len(script.tape)))
    return bytes(script.tape) + b"\x03\x00"


# -- random tapes


def random_tape(seed):
    """Random calls, with their arguments in range but for one in twenty; a cycle is begun and stepped through among them."""
    rng = random.Random(seed)
    script = Script(1024)
    ranges = {"load": 16, "store": 16, "select": 3, "clobber": 3, "pdlget": 6, "pdlput": 6, "begin": 2}
    calls = [name for name, _ in KINDS if name not in ("note", "number", "step", "census")]
    while len(script.tape) < 8000:
        name = rng.choice(calls + ["create", "load", "store", "clobber"])
        if name in ranges:
            top = 256 if rng.randrange(20) == 0 else ranges[name]
            script.do(f"{name} {rng.randrange(top)}")
        else:
            script.do(name)
        if rng.randrange(4) == 0:
            script.do(rng.choice(["nil", f"number {rng.randrange(1 << 32)}", "census", "look", "pdlget 0"]))
        script.do("step " * rng.choice([0, 0, 0, 1, 2, 12]))
    return bytes(script.tape) + bytes(rng.randrange(256) for _ in range(rng.randrange(20)))


def main():
    if sys.argv[1:] == ["tape", "long"]:
        sys.stdout.buffer.write(long_tape())
    elif sys.argv[1:] == ["tape"]:
        sys.stdout.buffer.write(replay_tape())
    elif sys.argv[1:2] == ["random"]:
        sys.stdout.buffer.write(random_tape(int(sys.argv[2])))
    elif sys.argv[1:2] == ["lines"]:
        cells = int(sys.argv[2]) if len(sys.argv) > 2 else 1024
        print("\n".join(lines(Heap(cells), sys.stdin.buffer.read(LIMIT))))
    else:
        sys.exit(__doc__)


if __name__ == "__main__":
    main()
