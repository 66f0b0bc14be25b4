//! The rules of docs/RULES.md in plain Rust, with nothing proved, to compare what a call costs.
//! It takes the same input as the program `tally`; docs/PERFORMANCE.md says how to use it.
//!
//!     rustc --edition 2021 -C opt-level=3 -A warnings -o plain tools/plain.rs
use std::io::Read;
#[derive(Clone, Copy)]
enum Value {
    Nil,
    Number(f32),
    Cell(u32),
}
#[derive(Clone, Copy)]
struct Cell {
    mark: bool,
    flag: bool,
    waiting: bool,
    parts: [Value; 2],
}
#[derive(Clone, Copy)]
enum Stored {
    Nil,
    Number(u32),
    Cell(u32),
}
#[derive(Clone, Copy)]
struct CellRecord {
    mark: bool,
    flag: bool,
    waiting: bool,
    parts: [Stored; 2],
}
const BLANK: Cell = Cell {
    mark: false,
    flag: false,
    waiting: false,
    parts: [Value::Nil; 2],
};
fn pattern_of(x: f32) -> u32 {
    if x.is_nan() {
        0x7fc00000
    } else {
        x.to_bits()
    }
}
fn number_of(p: u32) -> f32 {
    if p & 0x7fffffff > 0x7f800000 {
        f32::NAN
    } else {
        f32::from_bits(p)
    }
}
fn value_of(p: Stored) -> Value {
    match p {
        Stored::Nil => Value::Nil,
        Stored::Number(n) => Value::Number(number_of(n)),
        Stored::Cell(c) => Value::Cell(c),
    }
}
fn stored_of(v: Value) -> Stored {
    match v {
        Value::Nil => Stored::Nil,
        Value::Number(n) => Stored::Number(pattern_of(n)),
        Value::Cell(c) => Stored::Cell(c),
    }
}
trait CellStore {
    fn count(&self) -> usize;
    fn read(&mut self, p: u32) -> Cell;
    fn write(&mut self, p: u32, c: Cell);
}
struct TableStore<'a> {
    cells: &'a mut [CellRecord],
}
impl CellStore for TableStore<'_> {
    fn count(&self) -> usize {
        self.cells.len()
    }
    fn read(&mut self, p: u32) -> Cell {
        match self.cells.get(p as usize) {
            Some(r) => Cell {
                mark: r.mark,
                flag: r.flag,
                waiting: r.waiting,
                parts: [value_of(r.parts[0]), value_of(r.parts[1])],
            },
            None => BLANK,
        }
    }
    fn write(&mut self, p: u32, c: Cell) {
        if let Some(r) = self.cells.get_mut(p as usize) {
            *r = CellRecord {
                mark: c.mark,
                flag: c.flag,
                waiting: c.waiting,
                parts: [stored_of(c.parts[0]), stored_of(c.parts[1])],
            }
        }
    }
}
const MASKS: [u8; 8] = [128, 64, 32, 16, 8, 4, 2, 1];
struct PackedStore<'a> {
    bytes: &'a mut [u8],
}
fn read_value(b: &[u8]) -> Value {
    let w = u32::from_be_bytes([b[1], b[2], b[3], b[4]]);
    match b[0] {
        1 => Value::Number(number_of(w)),
        2 => Value::Cell(w),
        _ => Value::Nil,
    }
}
fn write_value(b: &mut [u8], v: Value) {
    let (k, w) = match v {
        Value::Nil => (0, 0),
        Value::Number(x) => (1, pattern_of(x)),
        Value::Cell(p) => (2, p),
    };
    b[0] = k;
    b[1..5].copy_from_slice(&w.to_be_bytes());
}
impl CellStore for PackedStore<'_> {
    fn count(&self) -> usize {
        8 * (self.bytes.len() / 83)
    }
    fn read(&mut self, p: u32) -> Cell {
        let p = p as usize;
        if p >= self.count() {
            return BLANK;
        }
        let g = 83 * (p / 8);
        let r = p % 8;
        let m = MASKS[r];
        let a = g + 3 + 10 * r;
        let b = &self.bytes;
        Cell {
            mark: b[g] & m != 0,
            flag: b[g + 1] & m != 0,
            waiting: b[g + 2] & m != 0,
            parts: [read_value(&b[a..a + 5]), read_value(&b[a + 5..a + 10])],
        }
    }
    fn write(&mut self, p: u32, c: Cell) {
        let p = p as usize;
        if p >= self.count() {
            return;
        }
        let g = 83 * (p / 8);
        let r = p % 8;
        let m = MASKS[r];
        let a = g + 3 + 10 * r;
        let b = &mut self.bytes;
        for (i, on) in [c.mark, c.flag, c.waiting].into_iter().enumerate() {
            if on {
                b[g + i] |= m
            } else {
                b[g + i] &= !m
            }
        }
        write_value(&mut b[a..a + 5], c.parts[0]);
        write_value(&mut b[a + 5..a + 10], c.parts[1]);
    }
}
#[derive(Clone, Copy)]
enum Phase {
    Rest,
    Mark {
        root: usize,
        slot: usize,
        moving: bool,
    },
    Relocate {
        low: u32,
        high: u32,
    },
    Update {
        root: usize,
        place: u32,
        slot: usize,
    },
    Reclaim {
        sweep: u32,
    },
}
struct Heap<'a, S: CellStore> {
    s: &'a mut S,
    phase: Phase,
    roots: [Value; 16],
    list: [Value; 256],
    height: usize,
    pending: [u16; 4096],
    pending_height: usize,
    free: Option<(u32, u32)>,
}
#[derive(Clone, Copy)]
enum Looked {
    Nil,
    Number(f32),
    Cell,
}
#[derive(Clone, Copy)]
enum Answer {
    Done,
    Same(bool),
    Look(Looked),
    Step(u8, bool),
    Census(usize),
}
#[derive(Clone, Copy)]
enum ListCall {
    Nil,
    Number(f32),
    Load(u8),
    Store(u8),
    Create,
    Select(u8),
    Clobber(u8),
    Identical,
    Look,
    Popitem,
    Pdlget(u8),
    Pdlput(u8),
}
#[derive(Clone, Copy)]
enum Call {
    List(ListCall),
    Begin(u8),
    Step,
    Census,
}
#[derive(Clone, Copy)]
struct Event {
    call: Call,
    answer: Result<Answer, u8>,
}
#[derive(PartialEq)]
enum Kind {
    Plain,
    Accessible,
    Moved,
    Free,
}
fn kind(c: &Cell) -> Kind {
    match (c.mark, c.flag) {
        (false, false) => Kind::Plain,
        (true, false) => Kind::Accessible,
        (false, true) => Kind::Moved,
        _ => Kind::Free,
    }
}
impl<S: CellStore> Heap<'_, S> {
    fn places(&self) -> u32 {
        self.s.count().min(4096) as u32
    }
    fn read_place(&mut self, p: u32) -> Cell {
        if p < 4096 {
            self.s.read(p)
        } else {
            BLANK
        }
    }
    fn write_place(&mut self, p: u32, c: Cell) {
        if p < 4096 {
            self.s.write(p, c)
        }
    }
    fn normalise(&mut self, v: Value) -> Value {
        if let Value::Cell(p) = v {
            let c = self.read_place(p);
            if kind(&c) == Kind::Moved {
                return c.parts[0];
            }
        }
        v
    }
    fn offer(&mut self, v: Value) {
        if let Phase::Mark { .. } = self.phase {
            if let Value::Cell(p) = v {
                if p < self.places() {
                    let mut c = self.read_place(p);
                    if kind(&c) == Kind::Plain && !c.waiting && self.pending_height < 4096 {
                        self.pending[self.pending_height] = p as u16;
                        self.pending_height += 1;
                        c.waiting = true;
                        self.write_place(p, c)
                    }
                }
            }
        }
    }
    fn push(&mut self, v: Value) -> Result<(), u8> {
        if self.height >= 256 {
            return Err(3);
        }
        let w = self.normalise(v);
        self.list[self.height] = w;
        self.height += 1;
        self.offer(w);
        Ok(())
    }
    fn peek(&self, d: usize) -> Option<Value> {
        if d < self.height {
            Some(self.list[self.height - 1 - d])
        } else {
            None
        }
    }
    fn listcall(&mut self, c: ListCall) -> Result<Answer, u8> {
        match c {
            ListCall::Nil => self.push(Value::Nil)?,
            ListCall::Number(x) => self.push(Value::Number(x))?,
            ListCall::Load(r) => {
                let v = *self.roots.get(r as usize).ok_or(1)?;
                self.push(v)?
            }
            ListCall::Store(r) => {
                if r > 15 {
                    return Err(1);
                }
                let v = self.peek(0).ok_or(2)?;
                let w = self.normalise(v);
                self.height -= 1;
                self.roots[r as usize] = w;
                self.offer(w)
            }
            ListCall::Create => {
                if self.height < 2 {
                    return Err(2);
                }
                let (f, l) = self.free.ok_or(5)?;
                let a = self.list[self.height - 2];
                let b = self.list[self.height - 1];
                let a = self.normalise(a);
                let b = self.normalise(b);
                self.height -= 1;
                self.list[self.height - 1] = Value::Cell(f);
                self.offer(a);
                self.offer(b);
                let old = self.read_place(f);
                self.free = if let Value::Cell(q) = old.parts[0] {
                    Some((q, l))
                } else {
                    None
                };
                let mark = match self.phase {
                    Phase::Rest => false,
                    Phase::Reclaim { sweep } => sweep <= f,
                    _ => true,
                };
                self.write_place(
                    f,
                    Cell {
                        mark,
                        flag: false,
                        waiting: false,
                        parts: [a, b],
                    },
                )
            }
            ListCall::Select(j) => {
                if j < 1 || j > 2 {
                    return Err(1);
                }
                let v = self.peek(0).ok_or(2)?;
                if let Value::Cell(p) = self.normalise(v) {
                    let c = self.read_place(p);
                    let w = self.normalise(c.parts[(j - 1) as usize]);
                    self.list[self.height - 1] = w;
                    self.offer(w)
                } else {
                    return Err(4);
                }
            }
            ListCall::Clobber(j) => {
                if j < 1 || j > 2 {
                    return Err(1);
                }
                if self.height < 2 {
                    return Err(2);
                }
                let c = self.list[self.height - 2];
                let v = self.list[self.height - 1];
                if let Value::Cell(p) = self.normalise(c) {
                    let w = self.normalise(v);
                    self.height -= 2;
                    self.offer(w);
                    let mut c = self.read_place(p);
                    c.parts[(j - 1) as usize] = w;
                    self.write_place(p, c)
                } else {
                    return Err(4);
                }
            }
            ListCall::Identical => {
                if self.height < 2 {
                    return Err(2);
                }
                let a = self.list[self.height - 2];
                let b = self.list[self.height - 1];
                let a = self.normalise(a);
                let b = self.normalise(b);
                self.height -= 2;
                return Ok(Answer::Same(match (a, b) {
                    (Value::Nil, Value::Nil) => true,
                    (Value::Number(x), Value::Number(y)) => pattern_of(x) == pattern_of(y),
                    (Value::Cell(p), Value::Cell(q)) => p == q,
                    _ => false,
                }));
            }
            ListCall::Look => {
                let v = self.peek(0).ok_or(2)?;
                return Ok(Answer::Look(match v {
                    Value::Nil => Looked::Nil,
                    Value::Number(x) => Looked::Number(x),
                    _ => Looked::Cell,
                }));
            }
            ListCall::Popitem => {
                if self.height == 0 {
                    return Err(2);
                }
                self.height -= 1
            }
            ListCall::Pdlget(d) => {
                let v = self.peek(d as usize).ok_or(2)?;
                self.push(v)?
            }
            ListCall::Pdlput(d) => {
                if d == 0 {
                    return Err(1);
                }
                if d as usize >= self.height {
                    return Err(2);
                }
                let v = self.list[self.height - 1];
                let w = self.normalise(v);
                self.list[self.height - 1 - d as usize] = w;
                self.height -= 1;
                self.offer(w)
            }
        }
        Ok(Answer::Done)
    }
    fn name(&self) -> u8 {
        match self.phase {
            Phase::Rest => 0,
            Phase::Mark { .. } => 1,
            Phase::Relocate { .. } => 2,
            Phase::Update { .. } => 3,
            _ => 4,
        }
    }
    fn step(&mut self) -> Result<Answer, u8> {
        let n = self.places();
        let mut ret = false;
        match self.phase {
            Phase::Rest => return Err(7),
            Phase::Mark { root, slot, moving } => {
                if self.pending_height > 0 {
                    self.pending_height -= 1;
                    let p = self.pending[self.pending_height] as u32;
                    let mut c = self.read_place(p);
                    c.waiting = false;
                    c.mark = true;
                    self.write_place(p, c);
                    self.offer(c.parts[0]);
                    self.offer(c.parts[1])
                } else if root < 16 {
                    self.phase = Phase::Mark {
                        root: root + 1,
                        slot,
                        moving,
                    };
                    let v = self.roots[root];
                    self.offer(v)
                } else if slot < self.height {
                    self.phase = Phase::Mark {
                        root,
                        slot: slot + 1,
                        moving,
                    };
                    let v = self.list[slot];
                    self.offer(v)
                } else if moving {
                    self.phase = Phase::Relocate { low: 0, high: n }
                } else {
                    self.phase = Phase::Reclaim { sweep: 0 }
                }
            }
            Phase::Relocate { low, high } => {
                if low >= high {
                    self.phase = Phase::Update {
                        root: 0,
                        place: 0,
                        slot: 0,
                    }
                } else if kind(&self.read_place(low)) != Kind::Plain {
                    self.phase = Phase::Relocate { low: low + 1, high }
                } else {
                    let mut c = self.read_place(high - 1);
                    if kind(&c) == Kind::Accessible {
                        self.write_place(low, c);
                        c.mark = false;
                        c.flag = true;
                        c.parts[0] = Value::Cell(low);
                        self.write_place(high - 1, c);
                        self.phase = Phase::Relocate {
                            low: low + 1,
                            high: high - 1,
                        }
                    } else {
                        self.phase = Phase::Relocate {
                            low,
                            high: high - 1,
                        }
                    }
                }
            }
            Phase::Update { root, place, slot } => {
                if root < 16 {
                    let v = self.roots[root];
                    self.roots[root] = self.normalise(v);
                    self.phase = Phase::Update {
                        root: root + 1,
                        place,
                        slot,
                    }
                } else if place < n {
                    let mut c = self.read_place(place);
                    if kind(&c) == Kind::Accessible {
                        c.parts[0] = self.normalise(c.parts[0]);
                        c.parts[1] = self.normalise(c.parts[1]);
                        self.write_place(place, c)
                    }
                    self.phase = Phase::Update {
                        root,
                        place: place + 1,
                        slot,
                    }
                } else if slot < self.height {
                    let v = self.list[slot];
                    self.list[slot] = self.normalise(v);
                    self.phase = Phase::Update {
                        root,
                        place,
                        slot: slot + 1,
                    }
                } else {
                    self.phase = Phase::Reclaim { sweep: 0 }
                }
            }
            Phase::Reclaim { sweep } => {
                if sweep >= n {
                    self.phase = Phase::Rest
                } else {
                    let mut c = self.read_place(sweep);
                    match kind(&c) {
                        Kind::Plain | Kind::Moved => {
                            self.write_place(
                                sweep,
                                Cell {
                                    mark: true,
                                    flag: true,
                                    waiting: false,
                                    parts: [Value::Nil; 2],
                                },
                            );
                            match self.free {
                                None => self.free = Some((sweep, sweep)),
                                Some((f, l)) => {
                                    let mut x = self.read_place(l);
                                    x.parts[0] = Value::Cell(sweep);
                                    self.write_place(l, x);
                                    self.free = Some((f, sweep))
                                }
                            }
                            ret = true
                        }
                        Kind::Accessible => {
                            c.mark = false;
                            self.write_place(sweep, c)
                        }
                        Kind::Free => {}
                    }
                    self.phase = Phase::Reclaim { sweep: sweep + 1 }
                }
            }
        }
        Ok(Answer::Step(self.name(), ret))
    }
    fn census(&mut self) -> usize {
        let mut k = 0;
        for p in 0..self.places() {
            if kind(&self.read_place(p)) != Kind::Free {
                k += 1
            }
        }
        k
    }
    fn perform(&mut self, c: Call) -> Result<Answer, u8> {
        match c {
            Call::List(l) => self.listcall(l),
            Call::Begin(p) => {
                if p > 1 {
                    return Err(1);
                }
                if let Phase::Rest = self.phase {
                    self.phase = Phase::Mark {
                        root: 0,
                        slot: 0,
                        moving: p == 1,
                    };
                    Ok(Answer::Done)
                } else {
                    Err(6)
                }
            }
            Call::Step => self.step(),
            Call::Census => Ok(Answer::Census(self.census())),
        }
    }
}
fn run<S: CellStore>(s: &mut S, log: &mut [Event]) {
    let n = s.count().min(4096) as u32;
    for p in 0..n {
        s.write(
            p,
            Cell {
                mark: true,
                flag: true,
                waiting: false,
                parts: [
                    if p + 1 < n {
                        Value::Cell(p + 1)
                    } else {
                        Value::Nil
                    },
                    Value::Nil,
                ],
            },
        )
    }
    let mut h = Heap {
        s,
        phase: Phase::Rest,
        roots: [Value::Nil; 16],
        list: [Value::Nil; 256],
        height: 0,
        pending: [0; 4096],
        pending_height: 0,
        free: if n > 0 { Some((0, n - 1)) } else { None },
    };
    for e in log.iter_mut() {
        e.answer = h.perform(e.call)
    }
}
// The calls of a tape, as far as it can be read; a note is no call.
fn calls(mut tape: &[u8]) -> Vec<Event> {
    let mut log = vec![];
    loop {
        let list = |call, rest| (Some(Call::List(call)), rest);
        let (call, rest) = match tape {
            [1, rest @ ..] => list(ListCall::Nil, rest),
            [2, a, b, c, d, rest @ ..] => {
                let pattern = u32::from_be_bytes([*a, *b, *c, *d]);
                list(ListCall::Number(number_of(pattern)), rest)
            }
            [3, root, rest @ ..] => list(ListCall::Load(*root), rest),
            [4, root, rest @ ..] => list(ListCall::Store(*root), rest),
            [5, rest @ ..] => list(ListCall::Create, rest),
            [6, part, rest @ ..] => list(ListCall::Select(*part), rest),
            [7, part, rest @ ..] => list(ListCall::Clobber(*part), rest),
            [8, rest @ ..] => list(ListCall::Identical, rest),
            [9, rest @ ..] => list(ListCall::Look, rest),
            [10, rest @ ..] => list(ListCall::Popitem, rest),
            [11, depth, rest @ ..] => list(ListCall::Pdlget(*depth), rest),
            [12, depth, rest @ ..] => list(ListCall::Pdlput(*depth), rest),
            [13, moving, rest @ ..] => (Some(Call::Begin(*moving)), rest),
            [14, rest @ ..] => (Some(Call::Step), rest),
            [15, rest @ ..] => (Some(Call::Census), rest),
            [16, text @ ..] if text.len() >= 12 => (None, &text[12..]),
            _ => return log,
        };
        if let Some(call) = call {
            log.push(Event {
                call,
                answer: Err(7),
            });
        }
        tape = rest;
    }
}
fn main() {
    let mut input = vec![];
    std::io::stdin()
        .take(1_048_576)
        .read_to_end(&mut input)
        .unwrap();
    let (store, size, tape) = match &input[..] {
        [store, size, tape @ ..] => (*store, *size, tape),
        tape => (b'n', b's', tape),
    };
    let groups = if size == b'l' { 512 } else { 8 };
    let mut log = calls(tape);
    match store {
        b't' => {
            let blank = CellRecord {
                mark: false,
                flag: false,
                waiting: false,
                parts: [Stored::Nil; 2],
            };
            let mut cells = vec![blank; 8 * groups];
            run(&mut TableStore { cells: &mut cells }, &mut log)
        }
        b'p' => {
            let mut bytes = vec![0; 83 * groups];
            run(&mut PackedStore { bytes: &mut bytes }, &mut log)
        }
        _ => {}
    }
    let granted = log.iter().filter(|e| e.answer.is_ok()).count();
    println!("{} calls, {} granted", log.len(), granted);
}
