"""The mistakes that tools/plant-code plants, one at a time."""


class Plant:
    """A mistake: its label, its crate, its edits as (file of src/, old, new), and the programs that are run besides.

    `runs` names the programs whose stored output tells what no contract can speak of; `survives` says why nothing tells
    the mistake, if nothing can.
    """

    def __init__(self, label, crate, *edits, runs=(), survives=None):
        self.label = label
        self.crate = crate
        self.edits = edits
        self.runs = runs
        self.survives = survives


# A store that passes every call on to the one below, with no promises but the interface's: it is proved as it stands,
# and each mistake in it shows what the interface's promises say by themselves.
PASSING_CRATE = {
    "src/lib.rt": """// A store that passes every call on to the store below it.
#![tactic(auto)]

use store::CellStore;
use values::Cell;

#[derive(Drop)]
pub struct Passing<S> {
    pub below: S,
}

impl<S: CellStore> CellStore for Passing<S> {
    ghost meaning = { λ s. S.meaning s.below };

    fn count(&self) -> usize {
        self.below.count()
    }

    fn read(&mut self, place: u32) -> Cell {
        self.below.read(place)
    }

    fn write(&mut self, place: u32, cell: Cell) {
        self.below.write(place, cell);
    }
}
""",
}

LIB = "lib.rt"
OFFER = "offer(top, regs, s, normal);\n"

# how a session's answers are compared, and the same with one pair of answers compared otherwise
COMPARED = "given.answer == wanted.answer"


def but_for(arm):
    arm = arm.replace("Answer::", "model::Answer::").replace("Looked::", "model::Looked::")
    return f"match (given.answer, wanted.answer) {{\n        {arm},\n        _ => {COMPARED},\n    }}"


def one(label, crate, file, old, new, runs=(), survives=None):
    return Plant(label, crate, (file, old, new), runs=runs, survives=survives)


PLANTS = [
    # ---- what the interface of a store says by itself
    one("store-forgets-a-write", "passing", LIB, "        self.below.write(place, cell);\n", ""),
    one("store-writes-another-place", "passing", LIB, "self.below.write(place, cell);", "self.below.write(place / 2, cell);"),
    one("store-writes-a-second-place", "passing", LIB, "self.below.write(place, cell);", "self.below.write(place, cell);\n        self.below.write(0, cell);"),
    one("store-writes-a-blank-cell", "passing", LIB, "self.below.write(place, cell);", "self.below.write(place, Cell::blank());"),
    one("store-reads-another-place", "passing", LIB, "self.below.read(place)", "self.below.read(place / 2)"),
    one("store-reads-blank", "passing", LIB, "self.below.read(place)", "Cell::blank()"),
    one("store-changes-a-cell-on-read", "passing", LIB, "self.below.read(place)", "let cell = self.below.read(place);\n        self.below.write(place, Cell::blank());\n        cell"),
    one("store-counts-half", "passing", LIB, "self.below.count()", "self.below.count() / 2"),
    # ---- values
    one("kind-moved-as-free", "values", "cells.rt", "(false, true) => Kind::Moved", "(false, true) => Kind::Free"),
    one("blank-waits", "values", "cells.rt", "waiting: false,\n            parts: [Value::Nil; 2],", "waiting: true,\n            parts: [Value::Nil; 2],"),
    one("value-place-as-nil", "values", "records.rt", "PlainValue::Cell(place) => Value::Cell(place)", "PlainValue::Cell(_) => Value::Nil"),
    one("plain-parts-swapped", "values", "records.rt", "c.parts.map(PlainValue::from)", "[c.parts[1].into(), c.parts[0].into()]"),
    one("value-parts-first-twice", "values", "records.rt", "r.parts.map(Value::from)", "[r.parts[0].into(), r.parts[0].into()]"),
    one("record-mark-from-waiting", "values", "records.rt", "mark: c.mark,", "mark: c.waiting,"),
    one("opening-second-part", "values", "cells.rt", "parts: [next, Value::Nil],", "parts: [Value::Nil, next],"),
    one("number-sign-turned", "values", "numbers.rt", "f32_from_bits_with_nan(pattern)", "f32_from_bits_with_nan(pattern ^ 0x8000_0000)"),
    # ---- the table store
    one("table-forgets-a-write", "table", LIB, "            self.cells[at] = cell.into();\n", ""),
    one("table-writes-the-last", "table", LIB, "self.cells[at] = ", "self.cells[self.cells.len() - 1] = "),
    one("table-last-place-past", "table", LIB, "        self.cells\n            .get(", "        self.cells[..self.cells.len().saturating_sub(1)]\n            .get("),
    one("table-one-place-more", "table", LIB, "if at < self.cells.len()", "if at <= self.cells.len()"),
    # ---- the packed store
    one("masks-lowest-bit-first", "packed", "bits.rt", "[128, 64, 32, 16, 8, 4, 2, 1]", "[1, 2, 4, 8, 16, 32, 64, 128]"),
    one("bit-never-cleared", "packed", "bits.rt", "        *b &= !mask(place);\n", ""),
    Plant("flag-bit-of-the-waiting-byte", "packed", ("groups.rt", " bit(Row::Flags)", " bit(Row::Waiting)"), ("groups.rt", "put_bit(Row::Flags,", "put_bit(Row::Waiting,")),
    one("part-four-bytes-on", "packed", "groups.rt", "+ 5 * i", "+ 4 * i"),
    one("group-one-byte-more", "packed", "groups.rt", "const GROUP_SIZE: usize = 3 + 8 * CELL_SIZE;", "const GROUP_SIZE: usize = 4 + 8 * CELL_SIZE;"),
    one("second-part-as-the-first", "packed", "groups.rt", "put_value(bytes, part_place(place, i), *value);", "put_value(bytes, part_place(place, i), cell.parts[0]);"),
    one("second-part-not-written", "packed", "groups.rt", "cell.parts.iter().enumerate()", "cell.parts[..1].iter().enumerate()"),
    one("other-kinds-as-cells", "packed", "words.rt", "_ => Value::Nil,", "_ => Value::Cell(word),"),
    one("kind-of-a-number-3", "packed", "words.rt", "const NUMBER: u8 = 1;", "const NUMBER: u8 = 3;"),
    one("nil-with-a-word", "packed", "words.rt", "Value::Nil => five_of(NIL, 0)", "Value::Nil => five_of(NIL, 1)"),
    one("part-of-a-group-counts", "packed", "groups.rt", "8 * (len / GROUP_SIZE)", "len / (GROUP_SIZE / 8)"),
    # ---- the pushdown list
    one("push-one-past-the-end", "stack", LIB, "if used(slots, *height) == slots.len() {", "if used(slots, *height) > slots.len() {"),
    one("push-raises-twice", "stack", LIB, "*height += 1;", "*height += 2;"),
    one("push-writes-nothing", "stack", LIB, "    slots[*height] = x;\n", ""),
    one("pop-answers-the-second", "stack", LIB, "let top = peek(slots, *height, 0);", "let top = peek(slots, *height, 1);"),
    one("peek-from-the-bottom", "stack", LIB, "Some(slots[used - 1 - depth])", "Some(slots[depth])"),
    one("discard-from-the-given-height", "stack", LIB, "    let used = used(slots, *height);\n", "    let used = *height;\n"),
    one("last-two-of-one", "stack", LIB, "let below = peek(slots, height, 1)?;", "let below = peek(slots, height, 0)?;"),
    # ---- the tape
    one("clobber-read-as-select", "tape", "reader.rt", "Record::Clobber(*part)", "Record::Select(*part)"),
    one("cut-begin-as-unknown", "tape", "reader.rt", "[1..=15, ..]", "[1..=12, ..]"),
    one("empty-tape-as-cut", "tape", "reader.rt", "[] => Ok(None)", "[] => Err(FaultKind::CutShort)"),
    one("kind-17-as-cut", "tape", "reader.rt", "[1..=15, ..]", "[1..=17, ..]"),
    one("fault-at-the-start", "tape", "reader.rt", "Err(TapeFault { what, rest: from })", "Err(TapeFault { what, rest: Rest::start(from.tape) })"),
    one("place-one-short", "tape", "reader.rt", "from.place.saturating_add(size)", "from.place.saturating_add(size).saturating_sub(1)"),
    one("unknown-kind-as-9", "tape", "faults.rt", "self as u8", "FaultKind::CutShort as u8"),
    one("fault-forgotten", "tape", "whole.rt", "Err(fault) => break Some(fault)", "Err(_) => break None"),
    one("record-after-its-place", "tape", "whole.rt", "place: rest.place,", "place: taken.rest.place,"),
    one("number-of-load-as-store", "tape", "records.rt", "Record::Load(_) => 3", "Record::Load(_) => 4"),
    # ---- numbers and words of answers
    one("at-rest-as-6", "model", "answers.rt", "self as u8", "(self as u8).min(6)"),
    one("mark-printed-as-rest", "model", "answers.rt", 'PhaseName::Mark => "mark"', 'PhaseName::Mark => "rest"'),
    one("pattern-with-few-digits", "model", "answers.rt", "{pattern:08x}", "{pattern:x}"),
    one("returned-turned", "model", "answers.rt", "u8::from(self.returned)", "u8::from(!self.returned)"),
    one("census-not-printed", "model", "answers.rt", 'Answer::Census(count) => write!(f, "{count}")', "Answer::Census(_) => Ok(())"),
    one("look-of-a-cell-nil", "model", "answers.rt", "Value::Cell(_) => Looked::Cell", "Value::Cell(_) => Looked::Nil"),
    one("update-named-relocate", "model", "answers.rt", "Phase::Update { .. } => PhaseName::Update", "Phase::Update { .. } => PhaseName::Relocate"),
    # ---- places, normalise and offer
    one("place-4096-written", "barrier", "access.rt", "if place < MOST_PLACES {\n        s.write", "if place <= MOST_PLACES {\n        s.write"),
    one("4095-places", "barrier", "access.rt", "const MOST_PLACES: u32 = 4096;", "const MOST_PLACES: u32 = 4095;"),
    one("offers-in-relocate", "barrier", "offers.rt", "let Phase::Mark { .. } = regs.phase", "let Phase::Relocate { .. } = regs.phase"),
    one("offer-tests-the-mark", "barrier", "offers.rt", "|| cell.waiting {", "|| cell.mark {"),
    one("offer-of-place-n", "barrier", "offers.rt", "place >= places(s)", "place > places(s)"),
    one("offer-not-written", "barrier", "offers.rt", "        write_place(s, place, waiting);\n", ""),
    one("offer-all-but-the-first", "barrier", "offers.rt", "for part in parts {", "for part in [parts[1]] {"),
    one("normalise-a-free-place", "barrier", "normal.rt", "if cell.kind() == Kind::Moved {", "if cell.kind() == Kind::Moved || cell.kind() == Kind::Free {"),
    one("push-offers-as-given", "barrier", "pushes.rt", "offer(top, regs, s, normal);", "offer(top, regs, s, v);"),
    one("push-offers-nothing", "barrier", "pushes.rt", "    offer(top, regs, s, normal);\n", ""),
    one("full-list-as-too-few", "barrier", "pushes.rt", "|_| Refusal::ListFull", "|_| Refusal::TooFew"),
    # ---- the calls on the list and the roots
    one("store-drops-two", "lists", "pops.rt", "stack::discard(&regs.list, &mut top.height, 1);\n    regs", "stack::discard(&regs.list, &mut top.height, 2);\n    regs"),
    one("store-offers-nothing", "lists", "pops.rt", f"= normal;\n    {OFFER}", "= normal;\n"),
    one("store-root-16", "lists", "pops.rt", "root as usize >= regs.roots.len()", "root as usize > regs.roots.len()"),
    one("pdlput-at-depth-1", "lists", "pops.rt", "top.height, depth as usize, normal)", "top.height, 1, normal)"),
    one("pdlput-keeps-the-top", "lists", "pops.rt", f"    stack::discard(&regs.list, &mut top.height, 1);\n    {OFFER}", f"    {OFFER}"),
    one("pdlput-as-given", "lists", "pops.rt", "top.height, depth as usize, normal)", "top.height, depth as usize, v)"),
    one("popitem-of-nothing-granted", "lists", "pops.rt", "stack::pop(&regs.list, &mut top.height).ok_or(Refusal::TooFew)?;", "let _ = stack::pop(&regs.list, &mut top.height);"),
    one("load-16-as-too-few", "lists", "pushes.rt", "ok_or(Refusal::OutOfRange)?", "ok_or(Refusal::TooFew)?"),
    one("numbers-as-numbers", "lists", "questions.rt", "pattern_of(x) == pattern_of(y)", "x == y"),
    one("other-kinds-identical", "lists", "questions.rt", "_ => false,", "_ => true,"),
    one("identical-drops-one", "lists", "questions.rt", "&mut top.height, 2)", "&mut top.height, 1)"),
    one("identical-as-given", "lists", "questions.rt", "let above = normalise(s, two[1]);", "let above = two[1];"),
    # ---- the calls on cells
    one("component-3", "components", "parts.rt", "(1..=2)", "(1..=3)"),
    one("component-0", "components", "parts.rt", "(1..=2)", "(0..=2)"),
    one("select-offers-nothing", "components", "selects.rt", "    offer(top, regs, s, part);\n", ""),
    one("select-as-given", "components", "selects.rt", "normalise(s, cell.parts[index])", "cell.parts[index]"),
    one("select-pushes-the-cell", "components", "selects.rt", "top.height, 0, part)", "top.height, 0, v)"),
    one(
        "clobber-reads-before-its-offer", "components", "clobbers.rt",
        "    offer(top, regs, s, part);\n    let mut cell = read_place(s, place);\n", "    let mut cell = read_place(s, place);\n    offer(top, regs, s, part);\n",
    ),
    one("clobber-swaps", "components", "clobbers.rt", "normalise(s, two[0]) else", "normalise(s, two[1]) else"),
    one("clobber-offers-nothing", "components", "clobbers.rt", "    offer(top, regs, s, part);\n", ""),
    one("clobber-not-written", "components", "clobbers.rt", "    write_place(s, place, cell);\n", ""),
    one("new-cell-plain-at-the-sweep", "components", "creates.rt", "sweep <= place", "sweep < place"),
    one("new-cell-marked-at-rest", "components", "creates.rt", "Phase::Rest => false", "Phase::Rest => true"),
    one("new-cell-waits", "components", "creates.rt", "..Cell::blank()", "waiting: true,\n        ..Cell::blank()"),
    one("create-offers-nothing", "components", "creates.rt", "    offer_all(top, regs, s, parts);\n", ""),
    one("create-as-given", "components", "creates.rt", "        parts,\n", "        parts: two,\n"),
    one("create-drops-two", "components", "creates.rt", "&mut top.height, 1)", "&mut top.height, 2)"),
    one("free-list-kept", "components", "creates.rt", "regs.free = shortened(vacant.parts[0], free);", "regs.free = Some(free);"),
    one("free-list-ends-at-its-first", "components", "creates.rt", "FreeList { first, ..free }", "FreeList { first, last: first }"),
    # ---- what a step does to a place
    one("popped-place-still-waits", "steps", "marks.rt", "    cell.waiting = false;\n", ""),
    one("popped-place-not-written", "steps", "marks.rt", "    cell.mark = true;\n    write_place(s, place, cell);\n", "    cell.mark = true;\n"),
    one("source-still-marked", "steps", "moves.rt", "    cell.mark = false;\n", ""),
    one("copy-over-the-source", "steps", "moves.rt", "write_place(s, to, cell);", "write_place(s, from, cell);"),
    one("update-not-written", "steps", "moves.rt", "        write_place(s, place, cell);\n", ""),
    one("returned-place-not-linked", "steps", "returns.rt", "            write_place(s, ends.last, cell);\n", ""),
    one("returned-place-waits", "steps", "returns.rt", "Cell::free(Value::Nil)", "Cell {\n        waiting: true,\n        ..Cell::free(Value::Nil)\n    }"),
    one("first-returned-not-last", "steps", "returns.rt", "                last: place,\n", "                last: 0,\n"),
    # ---- begin and step
    one("begin-2-granted", "collector", "begins.rt", "moving > 1", "moving > 2"),
    one("begin-in-reclaim", "collector", "begins.rt", "let Phase::Rest = regs.phase", "let Phase::Reclaim { .. } = regs.phase"),
    one("root-cursor-raised-twice", "collector", "stepping.rt", "*root += 1;\n                offer(top, regs, s, v);", "*root += 2;\n                offer(top, regs, s, v);"),
    one("mark-slot-not-offered", "collector", "stepping.rt", "                offer(top, regs, s, entry);\n", ""),
    one("components-not-offered", "collector", "stepping.rt", "                offer_all(top, regs, s, parts);\n", ""),
    one("relocate-from-1", "collector", "stepping.rt", "Phase::Relocate { low: 0, high }", "Phase::Relocate { low: 1, high }"),
    one("relocate-one-more", "collector", "stepping.rt", "if *low >= *high {", "if *low > *high {"),
    one("plain-cells-move", "collector", "stepping.rt", "if read_place(s, *high).kind() == Kind::Accessible {", "if read_place(s, *high).kind() == Kind::Plain {"),
    one("low-not-raised", "collector", "stepping.rt", "*low);\n                *low += 1;\n", "*low);\n"),
    one("update-root-as-given", "collector", "stepping.rt", "regs.roots[*root] = normalise(s, v);", "regs.roots[*root] = v;"),
    one("update-place-raised-twice", "collector", "stepping.rt", "*place += 1;", "*place += 2;"),
    one("update-slot-not-written", "collector", "stepping.rt", "                stack::replace_slot(&mut regs.list, top.height, *slot, normal);\n", ""),
    one("return-not-reported", "collector", "stepping.rt", "return done(regs, true);", "return done(regs, false);"),
    one("moved-places-not-returned", "collector", "stepping.rt", "Kind::Plain | Kind::Moved => {", "Kind::Moved => {}\n                Kind::Plain => {"),
    # ---- the opening and the census
    one("opening-names-one-more", "scan", "opening.rt", "let first = if next < n {", "let first = if next <= n {"),
    one("opening-ends-one-early", "scan", "opening.rt", "for place in 0..n {", "for place in 1..n {"),
    one("opening-first-1", "scan", "opening.rt", "first: 0,", "first: 1,"),
    one("opening-in-mark", "scan", "opening.rt", "phase: Phase::Rest,", "phase: Phase::Reclaim { sweep: 0 },"),
    one("opening-height-1", "scan", "opening.rt", "top: Top { height: 0 },", "top: Top { height: 1 },"),
    one("census-counts-free", "scan", "counts.rt", "usize::from(kind != Kind::Free)", "usize::from(kind != Kind::Free).max(1)"),
    one("census-from-1", "scan", "counts.rt", "for place in 0..places(s) {", "for place in 1..places(s) {"),
    # ---- every call, and runs
    one("load-as-store", "heap", "every.rt", "lists::load(top, regs, s, root)?", "lists::store(top, regs, s, root)?"),
    one("pdlget-with-another-depth", "heap", "every.rt", "lists::pdlget(top, regs, s, depth)?", "lists::pdlget(top, regs, s, 0)?"),
    one("identical-answers-done", "heap", "every.rt", "return Ok(Answer::Same(lists::identical(top, regs, s)?))", "{\n                let _ = lists::identical(top, regs, s)?;\n            }"),
    one("first-call-not-made", "heap", "runs.rt", "log.iter_mut()", "log.iter_mut().skip(1)"),
    Plant(
        "answer-at-another-call", "heap",
        ("runs.rt", "    for event in log.iter_mut() {\n", "    let mut before = Err(model::Refusal::AtRest);\n    for event in log.iter_mut() {\n"),
        ("runs.rt", "event.call);\n", "event.call);\n        std::mem::swap(&mut event.answer, &mut before);\n"),
    ),
    # ---- the player
    one("load-and-store-exchanged", "player", "calls.rt", "Record::Load(root) => ListCall::Load(root)", "Record::Load(root) => ListCall::Store(root)"),
    one("note-as-a-call", "player", "calls.rt", "Record::Note(_) => return None", "Record::Note(_) => return Some(Call::Census)"),
    one("report-of-place-0", "player", "faults.rt", "place: call.placed.place,", "place: 0,"),
    one("report-without-its-number", "player", "faults.rt", "number: fault.what.number(),", "number: fault.kind(),"),
    one("refusal-at-the-next-place", "player", "outcomes.rt", "RefusedCall { placed, refusal }", "RefusedCall { placed: Placed { place: placed.place.saturating_add(1), ..placed }, refusal }"),
    one("refusal-as-no-answer", "player", "outcomes.rt", "Ok(answer) => Ok(answer)", "Ok(answer) => Ok(answer.or(Some(Answer::Done)))"),
    one("played-after-its-place", "player", "plays.rt", "place: rest.place,", "place: taken.rest.place,"),
    one("played-count-one-less", "player", "plays.rt", "Ok(played.len())", "Ok(played.len().saturating_sub(1))"),
    one("former-records-kept", "player", "plays.rt", "    played.clear();\n", ""),
    # ---- lines, and what the programs print
    one("bad-and-no-exchanged", "lines", "faults.rt", 'Layer::Tape => "bad"', 'Layer::Tape => "no"'),
    one("line-of-the-next-place", "lines", "granted.rt", "placed: played.placed,", "placed: Placed { place: played.placed.place.saturating_add(1), ..played.placed },"),
    one("kind-before-place", "lines", "granted.rt", '"{place} {kind} ok"', '"{kind} {place} ok"'),
    one("text-with-short-bytes", "tape", "records.rt", "{byte:02x}", "{byte:x}"),
    one("fault-line-left-out", "lines", "listing.rt", "        write_fault(out, fault)?;\n    }\n    let count", "        let _ = fault;\n    }\n    let count"),
    one("last-line-one-more", "lines", "listing.rt", 'writeln!(out, "end {count}")?;', 'let more = count.saturating_add(1);\n    writeln!(out, "end {more}")?;'),
    one("table-of-1023-cells", "play", "main.rt", "[BLANK; 1024]", "[BLANK; 1023]"),
    one("half-of-the-table", "play", "main.rt", "TableStore { cells: &mut cells }", "TableStore { cells: &mut cells[..512] }"),
    one("four-groups", "replay", "main.rt", "5 * 83", "4 * 83"),
    # ---- what the programs read
    one("tape-of-one-byte-less", "input", LIB, "const TAPE_LIMIT: usize = 65_536;", "const TAPE_LIMIT: usize = 65_535;", runs=["taken"]),
    one("tape-of-one-byte-more", "input", LIB, "const TAPE_LIMIT: usize = 65_536;", "const TAPE_LIMIT: usize = 65_537;"),
    one("one-byte-less-read", "input", LIB, "take(LIMIT as u64)", "take((LIMIT as u64).saturating_sub(1))", runs=["taken"]),
    # ---- the other programs
    one("dump-name-before-kind", "dump", "main.rt", '"{place} {kind} {record}"', '"{place} {record} {kind}"'),
    one("dump-pattern-with-few-digits", "tape", "records.rt", "{pattern:08x}", "{pattern:x}"),
    one("dump-begin-without-argument", "tape", "records.rt", "            | Record::Pdlput(n)\n            | Record::Begin(n) =>", "            | Record::Pdlput(n) =>"),
    one("dump-fault-left-out", "dump", "main.rt", "        let line = BadLine(fault);\n        writeln!(out, \"{line}\")?;\n", "        let _ = fault;\n"),
    one("sessions-compare-no-census", "sessions", "compare.rt", COMPARED, but_for("(Ok(Answer::Census(_)), Ok(Answer::Census(_))) => true")),
    one("sessions-compare-no-phase", "sessions", "compare.rt", COMPARED, but_for("(Ok(Answer::Step(x)), Ok(Answer::Step(y))) => x.returned == y.returned")),
    one("sessions-compare-no-return", "sessions", "compare.rt", COMPARED, but_for("(Ok(Answer::Step(x)), Ok(Answer::Step(y))) => x.phase == y.phase")),
    one("sessions-compare-no-number", "sessions", "compare.rt", COMPARED, but_for("(Ok(Answer::Look(Looked::Number(_))), Ok(Answer::Look(Looked::Number(_)))) => true")),
    one("sessions-compare-no-refusal", "sessions", "compare.rt", COMPARED, but_for("(Err(_), Err(_)) => true")),
    one("sessions-compare-not-at-all", "sessions", "compare.rt", "!is_as_expected(given, wanted)", "!is_as_expected(given, wanted) && false"),
    one("tally-grants-all", "tally", "calls.rt", "event.answer.is_ok()", "event.answer.is_ok() || true"),
]
