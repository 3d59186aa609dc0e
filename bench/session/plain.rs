// The session program in plain Rust, as one would write it by hand: the state in place behind &mut, every question asked
// at every action, question 6 of the whole state included. It prints what target/bin/session prints.
// Built with --cfg lean it leaves question 6 out at begins, steps and drops, and looks alone ask it.
use std::io::{self, Read, Write};

const NONE: u32 = u32::MAX;
// X where no task has written it.
const NO_TASK: u32 = 255;
const MOST_BYTES: usize = 65_536;
const MOST_DEPTH: u32 = 8;
const MOST_ACTIONS: u64 = 65_535;
const MOST_BLOCKS: u32 = 128;
const LEAN: bool = cfg!(lean);

#[derive(Clone, Copy)]
enum Action {
    Read { task: u32, cell: u32 },
    Swap { task: u32, cell: u32, expected: u32, new: u32 },
    Step { task: u32 },
    Drop { task: u32 },
}

struct Opening {
    tasks: u32,
    cells: u32,
    blocks: u32,
    values: Vec<u32>,
}

// Reads a well bracketed file: each form once, and the actions as numbers of forms. What is no form is None.
struct Reader<'a> {
    rest: &'a [u8],
    forms: Vec<Action>,
    actions: Vec<u16>,
}

#[derive(Clone, Copy, Default, PartialEq)]
enum Kind {
    #[default]
    Read,
    Swap,
}

// Idle where the next line is 0.
#[derive(Clone, Copy, Default)]
struct Record {
    line: u32,
    wanted: u32,
    kind: Kind,
    cell: u32,
    expected: u32,
    new: u32,
    held: u32,
    taken: u32,
    loaded: u32,
    steps: u32,
    won: u32,
    lost: u32,
}

#[derive(Clone, Copy, Default)]
struct Block {
    x: u32,
    y: u32,
    c: u32,
    v: u32,
    d: u32,
}

struct Cells {
    tasks: u32,
    cells: u32,
    blocks: u32,
    last: u32,
    current: [u32; 16],
    records: [Record; 32],
    counts: [u8; 128],
    pool: Vec<Block>,
}

enum Answer {
    Value(u32),
    Yes,
    No,
}

struct Finished {
    task: u32,
    kind: Kind,
    cell: u32,
    answer: Answer,
    steps: u32,
    won: u32,
    lost: u32,
}

// A question's number, where the answer is no.
fn ask(yes: bool, number: u32) -> Result<(), u32> {
    if yes { Ok(()) } else { Err(number) }
}

// Question 13. At depth 0 there stands only a line end or a closing bracket before.
fn well_bracketed(file: &[u8]) -> bool {
    let mut depth = 0;
    let mut before = b'\n';
    for &byte in file {
        let allowed = match byte {
            b'(' => depth < MOST_DEPTH && matches!(before, b'(' | b' ' | b'\n'),
            b')' => depth > 0 && before != b' ',
            b' ' => depth > 0 && !matches!(before, b'(' | b' '),
            b'\n' => depth == 0 && before == b')',
            _ => depth > 0 && before != b')',
        };
        if !allowed {
            return false;
        }
        depth += u32::from(byte == b'(');
        depth -= u32::from(byte == b')');
        before = byte;
    }
    before == b'\n'
}

impl Reader<'_> {
    fn expect(&mut self, word: &[u8]) -> Option<()> {
        self.rest = self.rest.strip_prefix(word)?;
        Some(())
    }

    fn skip(&mut self, word: &[u8]) -> bool {
        self.expect(word).is_some()
    }

    fn number(&mut self) -> Option<u32> {
        let length = self.rest.iter().take_while(|byte| byte.is_ascii_digit()).count();
        let (digits, rest) = self.rest.split_at(length);
        if length == 0 || length > 10 || length > 1 && digits[0] == b'0' {
            return None;
        }
        self.rest = rest;
        let value = digits.iter().fold(0, |n, digit| 10 * n + u64::from(digit - b'0'));
        u32::try_from(value).ok()
    }

    // Numbers, each after a space.
    fn numbers<const K: usize>(&mut self) -> Option<[u32; K]> {
        let mut found = [0; K];
        for n in &mut found {
            self.expect(b" ")?;
            *n = self.number()?;
        }
        Some(found)
    }

    fn open(&mut self) -> Option<Opening> {
        self.expect(b"(open")?;
        let [tasks, cells, blocks] = self.numbers()?;
        self.expect(b" (")?;
        let mut values = Vec::new();
        while !self.skip(b")") {
            if !values.is_empty() {
                self.expect(b" ")?;
            }
            values.push(self.number()?);
        }
        self.expect(b")\n")?;
        Some(Opening { tasks, cells, blocks, values })
    }

    // How many actions a form is, whether or not there is room to keep them.
    fn form(&mut self) -> Option<u64> {
        let action = if self.skip(b"(step") {
            let [task] = self.numbers()?;
            Action::Step { task }
        } else if self.skip(b"(swap") {
            let [task, cell, expected, new] = self.numbers()?;
            Action::Swap { task, cell, expected, new }
        } else if self.skip(b"(read") {
            let [task, cell] = self.numbers()?;
            Action::Read { task, cell }
        } else if self.skip(b"(drop") {
            let [task] = self.numbers()?;
            Action::Drop { task }
        } else {
            return self.again();
        };
        self.expect(b")")?;
        // A form has 8 bytes at least, so its number is below 8,192.
        self.actions.push(self.forms.len() as u16);
        self.forms.push(action);
        Some(1)
    }

    fn again(&mut self) -> Option<u64> {
        self.expect(b"(again")?;
        let [times] = self.numbers()?;
        let start = self.actions.len();
        let mut once: u64 = 0;
        while self.skip(b" ") {
            once = once.saturating_add(self.form()?);
        }
        self.expect(b")")?;
        let total = once.saturating_mul(u64::from(times));
        let end = self.actions.len();
        if total == 0 {
            self.actions.truncate(start);
        } else if total <= MOST_ACTIONS.saturating_sub(start as u64) {
            for _ in 1..times {
                self.actions.extend_from_within(start..end);
            }
        }
        Some(total)
    }

    // How many actions the lines after the first are.
    fn lines(&mut self) -> Option<u64> {
        let mut total: u64 = 0;
        while !self.rest.is_empty() {
            total = total.saturating_add(self.form()?);
            self.expect(b"\n")?;
        }
        Some(total)
    }
}

// Questions 12 to 15, each of the whole file.
fn read_session(file: &[u8]) -> Result<(Opening, Vec<Action>, Vec<u16>), u32> {
    ask(file.len() <= MOST_BYTES, 12)?;
    ask(well_bracketed(file), 13)?;
    let mut reader = Reader { rest: file, forms: Vec::new(), actions: Vec::with_capacity(MOST_ACTIONS as usize) };
    let opening = reader.open().ok_or(14u32)?;
    let total = reader.lines().ok_or(14u32)?;
    ask(total <= MOST_ACTIONS, 15)?;
    Ok((opening, reader.forms, reader.actions))
}

impl Record {
    fn runs_read_lines(&self) -> bool {
        self.kind == Kind::Read || self.expected == self.new
    }

    fn holds(&self) -> bool {
        !matches!(self.line, 0 | 10 | 15)
    }

    fn has_taken(&self) -> bool {
        matches!(self.line, 5..=8 | 30)
    }

    fn read_line_fits(&self) -> bool {
        match self.line {
            1..=3 => self.wanted == 13,
            line => matches!(line, 10..=12),
        }
    }

    fn swap_line_fits(&self) -> bool {
        match self.line {
            1..=3 => self.wanted == 28 || self.wanted == 25,
            line => matches!(line, 4..=8 | 15..=24 | 26 | 27 | 30),
        }
    }

    fn call_fits(&self) -> bool {
        match self.kind {
            Kind::Read => self.read_line_fits(),
            Kind::Swap if self.expected == NONE || self.new == NONE => false,
            Kind::Swap if self.expected == self.new => self.read_line_fits(),
            Kind::Swap => self.swap_line_fits(),
        }
    }

    // An idle record leaves first; of two tests, the one that mostly decides stands first.
    fn fits(&self, cells: u32, blocks: u32) -> bool {
        self.line == 0
            || self.steps <= 20
                && u64::from(self.won) + u64::from(self.lost) <= 3
                && self.cell < cells
                && (self.held < blocks || !self.holds())
                && (self.taken < blocks || !self.has_taken())
                && self.call_fits()
    }

    fn want_decision(&mut self, wanted: u32) {
        (self.line, self.wanted) = (1, wanted);
    }

    // A swap of equal values ends as a read does.
    fn read_answer(&self, value: u32) -> Answer {
        match self.kind {
            Kind::Read => Answer::Value(value),
            Kind::Swap if value == self.expected => Answer::Yes,
            Kind::Swap => Answer::No,
        }
    }

    // What lines 13, 25 and 28 make of the decided value.
    fn test_decision(&mut self, decided: u32) -> Option<Answer> {
        match self.wanted {
            13 => return Some(self.read_answer(decided)),
            25 if decided == self.new => return Some(Answer::Yes),
            25 => self.want_decision(28),
            _ if decided != self.expected => return Some(Answer::No),
            _ => self.line = 4,
        }
        None
    }

    // A line on the taken block.
    fn fill_line(&mut self, block: &mut Block) {
        match self.line {
            5 => (block.y, self.line) = (0, 6),
            6 => (block.c, self.line) = (0, 7),
            7 => (block.d, self.line) = (NONE, 8),
            _ => (block.v, self.line) = (self.new, 30),
        }
    }

    // A line on the held block: all but 4 to 8, 10, 15 and 30.
    fn do_line(&mut self, task: u32, block: &mut Block) -> Option<Answer> {
        match self.line {
            1 | 11 | 20 => (self.loaded, self.line) = (block.v, self.line + 1),
            2 => {
                if block.d == NONE {
                    block.d = self.loaded;
                    self.won += 1;
                } else {
                    self.lost += 1;
                }
                self.line = 3;
            }
            3 => return self.test_decision(block.d),
            12 if block.c == 0 => return Some(self.read_answer(self.loaded)),
            12 => self.want_decision(13),
            16 => (block.x, self.line) = (task, 17),
            17 => self.line = if block.y == 0 { 18 } else { 27 },
            18 => (block.y, self.line) = (1, 19),
            19 => self.line = if block.x == task { 20 } else { 27 },
            21 if block.c != 0 => self.want_decision(28),
            21 => self.line = if self.loaded == self.expected { 23 } else { 22 },
            22 | 26 => {
                block.y = 0;
                return Some(if self.line == 26 { Answer::Yes } else { Answer::No });
            }
            23 => (block.v, self.line) = (self.new, 24),
            24 if block.c != 0 => self.want_decision(25),
            24 => self.line = 26,
            _ => {
                block.c = 1;
                self.want_decision(28);
            }
        }
        None
    }
}

impl Block {
    fn fresh(value: u32) -> Block {
        Block { x: NO_TASK, y: 0, c: 0, v: value, d: NONE }
    }

    fn shown(&self) -> u32 {
        if self.c == 0 || self.d == NONE { self.v } else { self.d }
    }
}

impl Cells {
    fn open(o: &Opening) -> Result<Cells, u32> {
        let mut cells = Cells {
            tasks: o.tasks,
            cells: o.cells,
            blocks: o.blocks,
            last: o.cells.wrapping_sub(1),
            current: std::array::from_fn(|k| k as u32),
            records: [Record::default(); 32],
            counts: std::array::from_fn(|block| u8::from(block < o.cells as usize)),
            pool: vec![Block::default(); o.blocks.min(MOST_BLOCKS) as usize],
        };
        cells.ask_sizes()?;
        ask(o.values.len() == o.cells as usize, 4)?;
        ask(!o.values.contains(&NONE), 5)?;
        for (block, &value) in cells.pool.iter_mut().zip(&o.values) {
            *block = Block::fresh(value);
        }
        Ok(cells)
    }

    // Questions 1 to 3.
    fn ask_sizes(&self) -> Result<(), u32> {
        ask((1..=32).contains(&self.tasks), 1)?;
        ask((1..=16).contains(&self.cells), 2)?;
        let enough = self.cells + 2 * self.tasks <= self.blocks + 1;
        ask(enough && self.blocks <= MOST_BLOCKS && self.pool.len() == self.blocks as usize, 3)
    }

    // Question 6.
    fn fits(&self) -> bool {
        self.ask_sizes().is_ok()
            && self.last < self.blocks
            && self.current[..self.cells as usize].iter().all(|&block| block < self.blocks)
            && self.records[..self.tasks as usize].iter().all(|record| record.fits(self.cells, self.blocks))
            && self.counts[..self.blocks as usize] == self.uses()[..self.blocks as usize]
    }

    // How many times each block is used, read off the table.
    fn uses(&self) -> [u8; 128] {
        let mut uses = [0; 128];
        for &block in &self.current[..self.cells as usize] {
            uses[block as usize] += 1;
        }
        for record in &self.records[..self.tasks as usize] {
            if record.holds() {
                uses[record.held as usize] += 1;
            }
            if record.has_taken() {
                uses[record.taken as usize] += 1;
            }
        }
        uses
    }

    fn begin(&mut self, task: u32, kind: Kind, cell: u32, expected: u32, new: u32) -> Result<(), u32> {
        ask(LEAN || self.fits(), 6)?;
        ask(task < self.tasks, 7)?;
        ask(cell < self.cells, 8)?;
        let record = &mut self.records[task as usize];
        ask(record.line == 0, 9)?;
        ask(kind == Kind::Read || expected != NONE && new != NONE, 10)?;
        *record = Record { kind, cell, expected, new, ..Record::default() };
        record.line = if record.runs_read_lines() { 10 } else { 15 };
        Ok(())
    }

    // The first unused block after the last one taken, for line 4: question 20.
    fn unused_block(&self, line: u32) -> Result<u32, u32> {
        if line != 4 {
            return Ok(NONE);
        }
        let mut onward = (self.last + 1..self.blocks).chain(0..=self.last);
        onward.find(|&block| self.counts[block as usize] == 0).ok_or(20)
    }

    fn do_line(&mut self, task: u32, free: u32) -> Option<Answer> {
        let record = &mut self.records[task as usize];
        let current = &mut self.current[record.cell as usize];
        record.steps += 1;
        match record.line {
            10 | 15 => {
                (record.held, record.line) = (*current, record.line + 1);
                self.counts[record.held as usize] += 1;
            }
            4 => {
                self.last = free;
                self.pool[self.last as usize].x = NO_TASK;
                self.counts[self.last as usize] += 1;
                (record.taken, record.line) = (self.last, 5);
            }
            5..=8 => record.fill_line(&mut self.pool[record.taken as usize]),
            30 => {
                if *current != record.held {
                    record.lost += 1;
                    self.counts[record.taken as usize] -= 1;
                    return Some(Answer::No);
                }
                record.won += 1;
                *current = record.taken;
                self.counts[record.held as usize] -= 1;
                return Some(Answer::Yes);
            }
            _ => return record.do_line(task, &mut self.pool[record.held as usize]),
        }
        None
    }

    fn step(&mut self, task: u32) -> Result<Option<Finished>, u32> {
        ask(LEAN || self.fits(), 6)?;
        ask(task < self.tasks, 7)?;
        let line = self.records[task as usize].line;
        ask(line != 0, 11)?;
        let free = self.unused_block(line)?;
        Ok(self.do_line(task, free).map(|answer| {
            let Record { kind, cell, held, steps, won, lost, .. } = std::mem::take(&mut self.records[task as usize]);
            self.counts[held as usize] -= 1;
            Finished { task, kind, cell, answer, steps, won, lost }
        }))
    }

    fn drop(&mut self, task: u32) -> Result<(), u32> {
        ask(LEAN || self.fits(), 6)?;
        ask(task < self.tasks, 7)?;
        ask(self.records[task as usize].line != 0, 11)?;
        let record = std::mem::take(&mut self.records[task as usize]);
        if record.holds() {
            self.counts[record.held as usize] -= 1;
        }
        if record.has_taken() {
            self.counts[record.taken as usize] -= 1;
        }
        Ok(())
    }

    fn look(&self, cell: u32) -> Result<u32, u32> {
        ask(self.fits(), 6)?;
        ask(cell < self.cells, 8)?;
        Ok(self.pool[self.current[cell as usize] as usize].shown())
    }

    fn act(&mut self, action: Action) -> Result<Option<Finished>, u32> {
        match action {
            Action::Step { task } => return self.step(task),
            Action::Read { task, cell } => self.begin(task, Kind::Read, cell, 0, 0)?,
            Action::Swap { task, cell, expected, new } => self.begin(task, Kind::Swap, cell, expected, new)?,
            Action::Drop { task } => self.drop(task)?,
        }
        Ok(None)
    }
}

fn put_number(out: &mut Vec<u8>, mut n: u64) {
    let mut digits = [0; 20];
    let mut at = digits.len();
    loop {
        at -= 1;
        digits[at] = b'0' + (n % 10) as u8;
        n /= 10;
        if n == 0 {
            break;
        }
    }
    out.extend_from_slice(&digits[at..]);
}

// A line's start, its numbers and its end.
fn put_line(out: &mut Vec<u8>, start: &[u8], numbers: &[u64]) {
    out.extend_from_slice(start);
    for &n in numbers {
        out.push(b' ');
        put_number(out, n);
    }
    out.extend_from_slice(b")\n");
}

fn put_done(out: &mut Vec<u8>, f: &Finished) {
    out.extend_from_slice(b"(done ");
    put_number(out, f.task.into());
    out.extend_from_slice(if f.kind == Kind::Read { b" read " } else { b" swap " });
    put_number(out, f.cell.into());
    match f.answer {
        Answer::Value(value) => put_line(out, b"", &[value.into(), f.steps.into(), f.won.into(), f.lost.into()]),
        Answer::Yes => put_line(out, b" yes", &[f.steps.into(), f.won.into(), f.lost.into()]),
        Answer::No => put_line(out, b" no", &[f.steps.into(), f.won.into(), f.lost.into()]),
    }
}

// To the nearest whole number, an exact half to the even neighbour.
fn rate(hard: u64, finished: u64) -> u64 {
    if finished == 0 {
        return 0;
    }
    let (whole, rest) = (hard * 1000 / finished, hard * 1000 % finished);
    let up = 2 * rest > finished || 2 * rest == finished && whole % 2 == 1;
    whole + u64::from(up)
}

fn put_end(out: &mut Vec<u8>, cells: &Cells, finished: u64, hard: u64) {
    for k in 0..cells.cells {
        if let Ok(value) = cells.look(k) {
            put_line(out, b"(cell", &[k.into(), value.into()]);
        }
    }
    let unfinished = cells.records.iter().filter(|record| record.line != 0).count() as u64;
    put_line(out, b"(end", &[finished, unfinished, hard, rate(hard, finished)]);
}

fn play(out: &mut Vec<u8>, opening: &Opening, forms: &[Action], actions: &[u16]) -> Result<(), u32> {
    let mut cells = Cells::open(opening)?;
    let (mut finished, mut hard) = (0, 0);
    for (i, &form) in actions.iter().enumerate() {
        match cells.act(forms[form as usize]) {
            Ok(None) => {}
            Ok(Some(call)) => {
                finished += 1;
                hard += u64::from(call.won + call.lost);
                put_done(out, &call);
            }
            Err(number) => put_line(out, b"(no", &[i as u64, number.into()]),
        }
    }
    put_end(out, &cells, finished, hard);
    Ok(())
}

fn main() -> io::Result<()> {
    // One byte more than question 12 allows is enough to answer it.
    let mut file = Vec::with_capacity(MOST_BYTES + 1);
    io::stdin().lock().take(MOST_BYTES as u64 + 1).read_to_end(&mut file)?;
    let mut out = Vec::new();
    match read_session(&file) {
        Err(number) => put_line(&mut out, b"(bad", &[number.into()]),
        Ok((opening, forms, actions)) => {
            if let Err(number) = play(&mut out, &opening, &forms, &actions) {
                put_line(&mut out, b"(no", &[0, number.into()]);
            }
        }
    }
    io::stdout().lock().write_all(&out)
}
