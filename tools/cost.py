#!/usr/bin/env python3
"""Counts what a call costs, in instructions; docs/PERFORMANCE.md has what it printed.

    cost.py PROGRAM..         the tables, for `tally` and programs that take the same input
    cost.py play PROGRAM      the table for `play`
    cost.py tape NAME CELLS   one of the tapes below, for a heap of so many cells

`rt run < stdin` in crates/tally proves and builds crates/tally/out/tally, and in crates/play crates/play/out/play.

`valgrind --tool=lackey --trace-mem=yes` lists every instruction that a program executes. A log of calls is gone through in a loop,
so a call costs the instructions from one visit of the loop's first instruction to the next. That includes the loop, the choice of the call
and the answer's way into the log; a call that does nothing is counted too, to tell how much that is.
"""

import subprocess
import sys
import tempfile
from collections import Counter

sys.dont_write_bytecode = True
from simulate import KINDS, Heap, Script, lines

SIZES = {64: b"s", 4096: b"l"}
STORES = {"table": b"t", "packed": b"p"}
PHASES = ["mark", "relocate", "update", "reclaim"]

# -- the tapes


def refused(script, cells):
    """Calls that are refused at once: popitem on an empty list, and step at rest."""
    script.do("popitem " * 50 + "step " * 50)


def lists(script, cells):
    """Rounds of twenty list calls at rest, one of them a create."""
    for _ in range(min(cells, 300)):
        script.do("nil load 0 create store 0 load 0 select 1 popitem load 0 number 0x40000000 clobber 1")
        script.do("load 0 look load 0 identical load 0 nil pdlget 1 pdlput 1 popitem popitem")


def chain(script, cells):
    """A moving cycle over a chain of a quarter of the cells, among as many that are dropped; the other half is free."""
    script.do("nil nil create popitem nil load 0 create store 0 " * (cells // 4))
    script.cycle(1, [""])


def full(script, cells, part="number 0x40000000"):
    """A moving cycle over a full heap, of which the last three cells are kept, one that holds the other two."""
    script.do(f"{part} {part} create popitem " * (cells - 3))
    script.do(f"{part} {part} create " * 2 + "create store 0")
    script.cycle(1, [""])


def full_of_nil(script, cells):
    """The same with nil in place of numbers."""
    full(script, cells, "nil")


def taken(script, cells):
    """After some refused calls, a create in the mark phase, of two cells that nothing has offered yet."""
    script.do("popitem " * 200 + "number 0x40000000 number 0x40000000 create " * 2 + "begin 1 create")


def loads(script, cells):
    """Loads and stores of a cell, for `play`."""
    script.do("nil nil create store 0 nil store 1" + " load 0 store 2" * 1000)


def nil_loads(script, cells):
    """The same lines, but it is nil that is loaded and stored."""
    script.do("nil nil create store 1 nil store 0" + " load 0 store 2" * 1000)


def pops(script, cells):
    """A chain of 250 cells, and 250 steps of the mark phase: a root, and 249 places of the chain."""
    script.do("nil load 0 create store 0 " * 250 + "nil " * 250 + "load 0 store 0 begin 1 " + "step " * 250)


def slots(script, cells):
    """The same lines, but the chain is dropped: the steps look at sixteen roots and 234 slots, all nil."""
    script.do("nil load 0 create store 0 " * 250 + "nil " * 250 + "load 1 store 0 begin 1 " + "step " * 250)


TAPES = [refused, lists, chain, full, full_of_nil, taken, loads, nil_loads, pops, slots]


def tape_of(make, cells):
    script = Script(cells)
    make(script, cells)
    return bytes(script.tape)


def calls_of(tape, cells):
    """Each call's name, and the phase in which it is made."""
    heap, phase, calls = Heap(cells), "rest", []
    for line in lines(heap, tape):
        place, kind = line.split()[:2]
        if place != "end":
            calls.append((KINDS[int(kind) - 1][0], phase))
        phase = heap.phase
    return calls


# -- the counting


def trace(program, given):
    """The addresses of the instructions that a run executes."""
    with tempfile.TemporaryFile() as stdin:
        stdin.write(given)
        stdin.seek(0)
        words = ["valgrind", "--tool=lackey", "--trace-mem=yes", program]
        run = subprocess.Popen(words, stdin=stdin, stdout=subprocess.DEVNULL, stderr=subprocess.PIPE)
        addresses = [int(line[3 : line.index(b",")], 16) for line in run.stderr if line.startswith(b"I ")]
        if run.wait() != 0:
            sys.exit(f"{program} failed")
    return addresses


def turns(executed, count, elsewhere):
    """What each turn but the last costs of the first loop of so many turns that is not executed elsewhere."""
    visits = Counter(executed)
    for first in executed:
        if visits[first] == count and first not in elsewhere:
            at = [i for i, address in enumerate(executed) if address == first]
            return [after - before for before, after in zip(at, at[1:])]
    sys.exit("no instruction is executed once for each call")


def costs(program, make, cells, stores):
    """For each store, the calls of a tape with what each costs. A refused call at the end is left out."""
    tape = tape_of(make, cells) + tape_of(refused, cells)[:1]
    calls = calls_of(tape, cells)
    idle = set(trace(program, b"n" + SIZES[cells] + tape))
    for store in stores:
        run = trace(program, STORES[store] + SIZES[cells] + tape)
        yield store, list(zip(calls, turns(run, len(calls), idle)))


def mean(numbers):
    return sum(numbers) / len(numbers)


def table(program):
    print(program)
    nothing, means = {}, {}
    for store, counted in costs(program, refused, 4096, STORES):
        nothing[store] = {name: cost for (name, _), cost in counted}
    for store, counted in costs(program, lists, 4096, STORES):
        # the first round finds nil in the root
        means[store] = [("list call", "popitem", mean([cost for _, cost in counted[20:]]))]
    for store, counted in costs(program, chain, 4096, STORES):
        means[store].append(("step", "step", mean([cost for (name, _), cost in counted if name == "step"])))
    for store in STORES:
        for what, idle, cost in means[store]:
            print(f"  {store:6} 4096  mean {what:9} {cost:6.1f}, refused {nothing[store][idle]:3}, net {cost - nothing[store][idle]:6.1f}")
    for cells in SIZES:
        worst = {}
        for store, counted in costs(program, full, cells, STORES):
            worst[store] = [max(cost for call, cost in counted if call == ("step", phase)) for phase in PHASES]
        for store, counted in costs(program, taken, cells, STORES):
            worst[store].append(max(cost for (name, _), cost in counted if name == "create"))
        for store in STORES:
            print(f"  {store:6} {cells:4}  worst", *(f"{phase} {cost}," for phase, cost in zip(PHASES + ["create"], worst[store])))


def played(program):
    for make in [loads, nil_loads, pops, slots]:
        tape = tape_of(make, 1024)
        calls = calls_of(tape, 1024)
        # the reader goes another way at the last byte of a tape, so the last few are left out
        counted = list(zip(calls, turns(trace(program, tape), len(calls), ())))[-210:-10]
        for name in sorted({name for (name, _), _ in counted}):
            print(f"  {make.__name__:9} mean {name:5} {mean([cost for call, cost in counted if call[0] == name]):6.1f}")


def main(words):
    if words[:1] == ["tape"]:
        name, cells = words[1:]
        sys.stdout.buffer.write(tape_of({make.__name__: make for make in TAPES}[name], int(cells)))
    elif words[:1] == ["play"]:
        played(words[1])
    else:
        for program in words:
            table(program)


main(sys.argv[1:])
