// The cells in plain Rust, as one would write them by hand: state and pool behind references, every question asked at
// every entry. It runs the same schedule as crates/bench_cells and prints the same line.
const NONE: u32 = u32::MAX;

#[derive(Clone, Copy, Default)]
struct Record {
    line: u32,
    wanted: u32,
    kind: u32,
    cell: u32,
    expected: u32,
    new: u32,
    held: u32,
    taken: u32,
    loaded: u32,
    steps: u32,
    won: u32,
    lost: u32,
}

struct State {
    tasks: u32,
    cells: u32,
    blocks: u32,
    last: u32,
    current: [u32; 16],
    records: [Record; 32],
    counts: [u8; 128],
}

enum Answer {
    Value(u32),
    Yes,
    No,
}

enum Outcome {
    Refused(u32),
    Acted,
    Ended(Answer, u32, u32, u32),
}

const X: usize = 0;
const Y: usize = 1;
const C: usize = 2;
const V: usize = 3;
const D: usize = 4;

impl Record {
    fn fit(&self, cells: u32, blocks: u32) -> bool {
        if self.line == 0 {
            return true;
        }
        let reads = self.kind == 1 || self.kind == 2 && self.expected == self.new;
        let swaps = self.kind == 2 && self.expected != self.new;
        let line = match self.line {
            1..=3 => match self.wanted {
                13 => reads,
                25 | 28 => swaps,
                _ => false,
            },
            10..=12 => reads,
            4..=8 | 15..=24 | 26 | 27 | 30 => swaps,
            _ => false,
        };
        line && self.cell < cells
            && (self.line == 10 || self.line == 15 || self.held < blocks)
            && (!self.has_taken() || self.taken < blocks)
            && (self.kind == 1 || self.expected != NONE && self.new != NONE)
            && self.steps <= 20
            && u64::from(self.won) + u64::from(self.lost) <= 3
    }

    fn has_taken(&self) -> bool {
        matches!(self.line, 5..=8 | 30)
    }

    fn holds(&self) -> bool {
        !matches!(self.line, 0 | 10 | 15)
    }
}

impl State {
    fn open(pool: &mut [u32], tasks: u32, cells: u32, blocks: u32, values: &[u32]) -> State {
        pool.fill(0);
        for (k, v) in values.iter().enumerate() {
            pool[5 * k..5 * k + 5].copy_from_slice(&[255, 0, 0, *v, NONE]);
        }
        let mut current = [0; 16];
        for (k, c) in current.iter_mut().enumerate() {
            *c = k as u32;
        }
        let mut counts = [0; 128];
        counts[..cells as usize].fill(1);
        State { tasks, cells, blocks, last: cells - 1, current, records: [Record::default(); 32], counts }
    }

    fn fit(&self, pool: &[u32]) -> bool {
        (1..=32).contains(&self.tasks)
            && (1..=16).contains(&self.cells)
            && self.cells + 2 * self.tasks <= self.blocks + 1
            && self.blocks <= 128
            && pool.len() == 5 * self.blocks as usize
            && self.last < self.blocks
            && self.current[..self.cells as usize].iter().all(|b| *b < self.blocks)
            && self.records[..self.tasks as usize].iter().all(|r| r.fit(self.cells, self.blocks))
            && self.counts[..self.blocks as usize] == self.uses()[..self.blocks as usize]
    }

    // How many times each block is used.
    fn uses(&self) -> [u8; 128] {
        let mut uses = [0; 128];
        for c in &self.current[..self.cells as usize] {
            uses[*c as usize] += 1;
        }
        for r in &self.records[..self.tasks as usize] {
            if r.holds() {
                uses[r.held as usize] += 1;
            }
            if r.has_taken() {
                uses[r.taken as usize] += 1;
            }
        }
        uses
    }

    fn begin(&mut self, pool: &[u32], task: u32, cell: u32, kind: u32, expected: u32, new: u32) -> Outcome {
        if !self.fit(pool) {
            return Outcome::Refused(6);
        }
        if task >= self.tasks {
            return Outcome::Refused(7);
        }
        if cell >= self.cells {
            return Outcome::Refused(8);
        }
        let r = &mut self.records[task as usize];
        if r.line != 0 {
            return Outcome::Refused(9);
        }
        if kind == 2 && (expected == NONE || new == NONE) {
            return Outcome::Refused(10);
        }
        let line = if kind == 2 && expected != new { 15 } else { 10 };
        *r = Record { line, kind, cell, expected, new, ..Record::default() };
        Outcome::Acted
    }

    fn unused(&self) -> u32 {
        let mut b = self.last;
        for _ in 0..self.blocks {
            b = if b + 1 == self.blocks { 0 } else { b + 1 };
            if self.counts[b as usize] == 0 {
                return b;
            }
        }
        NONE
    }

    fn step(&mut self, pool: &mut [u32], task: u32) -> Outcome {
        if !self.fit(pool) {
            return Outcome::Refused(6);
        }
        if task >= self.tasks {
            return Outcome::Refused(7);
        }
        let mut r = self.records[task as usize];
        if r.line == 0 {
            return Outcome::Refused(11);
        }
        let free = if r.line == 4 { self.unused() } else { NONE };
        if r.line == 4 && free == NONE {
            return Outcome::Refused(20);
        }
        r.steps += 1;
        let at = 5 * r.held as usize;
        let to = 5 * r.taken as usize;
        let mut ended = None;
        let read = |r: &Record, v: u32| match r.kind {
            2 if v == r.expected => Answer::Yes,
            2 => Answer::No,
            _ => Answer::Value(v),
        };
        match r.line {
            1 => (r.loaded, r.line) = (pool[at + V], 2),
            2 => {
                if pool[at + D] == NONE {
                    pool[at + D] = r.loaded;
                    r.won += 1;
                } else {
                    r.lost += 1;
                }
                r.line = 3;
            }
            3 => {
                let d = pool[at + D];
                match r.wanted {
                    13 => ended = Some(read(&r, d)),
                    25 if d == r.new => ended = Some(Answer::Yes),
                    25 => (r.line, r.wanted) = (1, 28),
                    _ if d == r.expected => r.line = 4,
                    _ => ended = Some(Answer::No),
                }
            }
            4 => {
                pool[5 * free as usize + X] = 255;
                self.last = free;
                self.counts[free as usize] += 1;
                (r.taken, r.line) = (free, 5);
            }
            5 => (pool[to + Y], r.line) = (0, 6),
            6 => (pool[to + C], r.line) = (0, 7),
            7 => (pool[to + D], r.line) = (NONE, 8),
            8 => (pool[to + V], r.line) = (r.new, 30),
            10 | 15 => {
                (r.held, r.line) = (self.current[r.cell as usize], r.line + 1);
                self.counts[r.held as usize] += 1;
            }
            11 | 20 => (r.loaded, r.line) = (pool[at + V], r.line + 1),
            12 if pool[at + C] == 0 => ended = Some(read(&r, r.loaded)),
            12 => (r.line, r.wanted) = (1, 13),
            16 => {
                pool[at + X] = task;
                r.line = 17;
            }
            17 => r.line = if pool[at + Y] == 0 { 18 } else { 27 },
            18 => {
                pool[at + Y] = 1;
                r.line = 19;
            }
            19 => r.line = if pool[at + X] == task { 20 } else { 27 },
            21 if pool[at + C] != 0 => (r.line, r.wanted) = (1, 28),
            21 => r.line = if r.loaded == r.expected { 23 } else { 22 },
            22 | 26 => {
                pool[at + Y] = 0;
                ended = Some(if r.line == 26 { Answer::Yes } else { Answer::No });
            }
            23 => {
                pool[at + V] = r.new;
                r.line = 24;
            }
            24 if pool[at + C] == 0 => r.line = 26,
            24 => (r.line, r.wanted) = (1, 25),
            27 => {
                pool[at + C] = 1;
                (r.line, r.wanted) = (1, 28);
            }
            _ => {
                let won = self.current[r.cell as usize] == r.held;
                r.won += u32::from(won);
                r.lost += u32::from(!won);
                if won {
                    self.current[r.cell as usize] = r.taken;
                    self.counts[r.held as usize] -= 1;
                } else {
                    self.counts[r.taken as usize] -= 1;
                }
                ended = Some(if won { Answer::Yes } else { Answer::No });
            }
        }
        match ended {
            None => {
                self.records[task as usize] = r;
                Outcome::Acted
            }
            Some(a) => {
                self.counts[r.held as usize] -= 1;
                self.records[task as usize] = Record::default();
                Outcome::Ended(a, r.steps, r.won, r.lost)
            }
        }
    }
}

fn main() {
    let mut pool = [0u32; 400];
    let values: [u32; 16] = [0; 16];
    let mut s = State::open(&mut pool, 32, 16, 80, &values);
    let mut seed: u32 = 1;
    let mut draw = || {
        seed = seed.wrapping_mul(1664525).wrapping_add(1013904223);
        seed / 65536
    };
    let (mut finished, mut yes, mut steps, mut won, mut lost, mut refused, mut sum) = (0u32, 0u32, 0u32, 0u32, 0u32, 0u32, 0u32);
    for _ in 0..60000 {
        let task = draw() % 32;
        let idle = s.records[task as usize].line == 0;
        let outcome = if !idle {
            s.step(&mut pool, task)
        } else if draw() % 2 == 0 {
            s.begin(&pool, task, draw() % 16, 1, 0, 0)
        } else {
            let (cell, expected, new) = (draw() % 16, draw() % 4, draw() % 4);
            s.begin(&pool, task, cell, 2, expected, new)
        };
        match outcome {
            Outcome::Refused(_) => refused += 1,
            Outcome::Acted => {}
            Outcome::Ended(a, n, w, l) => {
                finished += 1;
                steps += n;
                won += w;
                lost += l;
                match a {
                    Answer::Value(v) => sum += v,
                    Answer::Yes => yes += 1,
                    Answer::No => {}
                }
            }
        }
    }
    println!("{finished} {yes} {steps} {won} {lost} {sum} {refused}");
}
