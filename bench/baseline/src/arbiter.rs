//! The library's own algorithm in Rust, in place: one request for each processor, conflict rows, masks.

/// Trusts its state: no request outside the plan, every entry below 64. The measure of the library's calls.
pub const LEAN: u8 = 0;
/// Does what the library does: a call first drops what does not count, so that any state value is taken.
pub const PLAIN: u8 = 1;
/// Lean, and as the library's settling first was: a set of entries for each write in line, and no early exit.
pub const FIRST: u8 = 2;

/// How many processors a state holds.
pub const SLOTS: usize = 32;

#[derive(Clone, Copy)]
pub struct Entry {
    pub write: bool,
    pub set: u64,
    pub length: u16,
}

pub struct Board {
    pub processors: u8,
    pub count: u8,
    pub writes: u64,
    lengths: [u16; 64],
    pub rows: [u64; 64],
}

pub struct State {
    pub last: u64,
    pub waiting: u32,
    pub entitled: u32,
    pub holding: u32,
    pub entry: [u8; SLOTS],
    pub since: [u64; SLOTS],
    pub earlier: [u32; SLOTS],
}

#[derive(Clone, Copy)]
pub struct Done {
    pub granted: u32,
    pub entitled: u32,
    pub late: u8,
}

fn widened(entries: &[Entry], e: Entry) -> u64 {
    let mut set = e.set;
    if e.write {
        for r in entries.iter().filter(|r| !r.write && r.set & e.set != 0) {
            set |= r.set;
        }
    }
    set
}

pub fn board_of(processors: u8, entries: &[Entry]) -> Board {
    let mut board = Board { processors, count: entries.len() as u8, writes: 0, lengths: [0; 64], rows: [0; 64] };
    for (i, &e) in entries.iter().enumerate() {
        board.lengths[i] = e.length;
        if e.write {
            board.writes |= 1 << i;
        }
        for (j, &f) in entries.iter().enumerate() {
            let conflict = match (e.write, f.write) {
                (false, false) => false,
                (true, true) => widened(entries, e) & widened(entries, f) != 0,
                _ => e.set & f.set != 0,
            };
            if conflict {
                board.rows[i] |= 1 << j;
            }
        }
    }
    board
}

pub struct Bits(pub u32);

impl Iterator for Bits {
    type Item = usize;
    fn next(&mut self) -> Option<usize> {
        if self.0 == 0 {
            return None;
        }
        let p = self.0.trailing_zeros() as usize;
        self.0 &= self.0 - 1;
        Some(p)
    }
}

/// The first so many places.
pub fn first(processors: u8) -> u32 {
    if processors < 32 { (1 << processors) - 1 } else { u32::MAX }
}

/// Those among the processors whose entries are below the count; the largest is looked at first.
pub fn below(entry: [u8; SLOTS], count: u8, among: u32) -> u32 {
    let largest = entry.iter().fold(0, |most, &e| if most < e { e } else { most });
    if largest < count { among } else { Bits(among).fold(0, |out, p| out | ((entry[p] < count) as u32) << p) }
}

impl State {
    /// Drops the requests of entries and processors that the plan does not have, and keeps one phase of each processor.
    fn clean(&mut self, board: &Board) {
        let counted = below(self.entry, board.count, first(board.processors));
        self.holding &= counted;
        self.entitled &= counted & !self.holding;
        self.waiting &= counted & !(self.entitled | self.holding);
    }

    pub fn fresh() -> State {
        State { last: 0, waiting: 0, entitled: 0, holding: 0, entry: [0; SLOTS], since: [0; SLOTS], earlier: [0; SLOTS] }
    }

    fn row<const KIND: u8>(&self, board: &Board, p: usize) -> u64 {
        if KIND != PLAIN {
            board.rows[self.entry[p] as usize & 63]
        } else {
            board.rows.get(self.entry[p] as usize).copied().unwrap_or(0)
        }
    }

    /// The place of processor p's entry in a set of entries; past the width there is none.
    fn place<const KIND: u8>(&self, p: usize) -> u64 {
        if KIND != PLAIN {
            1 << (self.entry[p] & 63)
        } else {
            1u64.checked_shl(self.entry[p] as u32).unwrap_or(0)
        }
    }

    fn entries_of<const KIND: u8>(&self, among: u32) -> u64 {
        Bits(among).fold(0, |set, p| set | self.place::<KIND>(p))
    }

    fn conflicts_in_line<const KIND: u8>(&self, row: u64, among: u32) -> bool {
        if KIND == FIRST {
            row & self.entries_of::<KIND>(among) != 0
        } else {
            Bits(among).any(|q| row & self.place::<KIND>(q) != 0)
        }
    }

    fn settle<const KIND: u8>(&mut self, board: &Board) {
        if KIND != FIRST && self.waiting | self.entitled == 0 {
            return;
        }
        let active = self.waiting | self.entitled | self.holding;
        let w = Bits(active).fold(0u32, |w, p| w | ((board.writes & self.place::<KIND>(p) != 0) as u32) << p);
        // 1
        let mut candidates = self.entitled & !w;
        if self.waiting & !w != 0 {
            let against = self.entries_of::<KIND>(self.entitled & w);
            for p in Bits(self.waiting & !w) {
                candidates |= ((self.row::<KIND>(board, p) & against == 0) as u32) << p;
            }
        }
        if candidates != 0 {
            let against = self.entries_of::<KIND>(self.holding & w);
            for p in Bits(candidates) {
                if self.row::<KIND>(board, p) & against == 0 {
                    self.waiting &= !(1 << p);
                    self.entitled &= !(1 << p);
                    self.holding |= 1 << p;
                }
            }
        }
        // 2
        let candidates = self.waiting & w;
        if candidates != 0 {
            let against = self.entries_of::<KIND>((self.holding & w) | (self.entitled & !w));
            let unsatisfied = (self.waiting | self.entitled) & w;
            for p in Bits(candidates) {
                let row = self.row::<KIND>(board, p);
                if row & against == 0 && !self.conflicts_in_line::<KIND>(row, self.earlier[p] & unsatisfied) {
                    self.waiting &= !(1 << p);
                    self.entitled |= 1 << p;
                }
            }
        }
        // 3
        let candidates = self.entitled & w;
        if candidates != 0 {
            let against = self.entries_of::<KIND>(self.holding & !w);
            for p in Bits(candidates) {
                if self.row::<KIND>(board, p) & against == 0 {
                    self.entitled &= !(1 << p);
                    self.holding |= 1 << p;
                }
            }
        }
        // 4
        let candidates = self.waiting & !w;
        if candidates != 0 {
            let holding = self.entries_of::<KIND>(self.holding & w);
            let entitled = self.entries_of::<KIND>(self.entitled & w);
            for p in Bits(candidates) {
                let row = self.row::<KIND>(board, p);
                if row & holding != 0 && row & entitled == 0 {
                    self.waiting &= !(1 << p);
                    self.entitled |= 1 << p;
                }
            }
        }
    }

    fn answer<const KIND: u8>(&mut self, board: &Board, held: u32, entitled: u32, late: u8) -> Done {
        self.settle::<KIND>(board);
        let granted = self.holding & !held;
        for p in Bits(granted) {
            self.since[p] = self.last;
        }
        Done { granted, entitled: self.entitled & !entitled, late }
    }

    pub fn issue<const KIND: u8>(&mut self, board: &Board, p: u8, e: u8, t: u64) -> Result<Done, u8> {
        if KIND == PLAIN {
            self.clean(board);
        }
        if t < self.last || t > 1_099_511_627_775 {
            return Err(10);
        }
        if p >= board.processors || p as usize >= SLOTS {
            return Err(11);
        }
        if e >= board.count {
            return Err(12);
        }
        let active = self.waiting | self.entitled | self.holding;
        if active >> p & 1 == 1 {
            return Err(13);
        }
        let (held, entitled, p) = (self.holding, self.entitled, p as usize);
        self.last = t;
        self.entry[p] = e;
        self.since[p] = t;
        for q in 0..SLOTS {
            self.earlier[q] &= !(1 << p);
        }
        self.earlier[p] = active;
        if KIND != FIRST && active == 0 {
            self.holding = 1 << p;
            return Ok(Done { granted: 1 << p, entitled: 0, late: 0 });
        }
        self.waiting |= 1 << p;
        Ok(self.answer::<KIND>(board, held, entitled, 0))
    }

    pub fn complete<const KIND: u8>(&mut self, board: &Board, p: u8, t: u64) -> Result<Done, u8> {
        if KIND == PLAIN {
            self.clean(board);
        }
        if t < self.last || t > 1_099_511_627_775 {
            return Err(10);
        }
        if p >= board.processors || p as usize >= SLOTS {
            return Err(11);
        }
        if (self.waiting | self.entitled | self.holding) >> p & 1 == 0 {
            return Err(14);
        }
        if self.holding >> p & 1 == 0 {
            return Err(15);
        }
        let (held, entitled, p) = (self.holding, self.entitled, p as usize);
        let late = (t - self.since[p] > board.lengths[self.entry[p] as usize & 63] as u64) as u8;
        self.last = t;
        self.holding &= !(1 << p);
        Ok(self.answer::<KIND>(board, held, entitled, late))
    }
}
