//! The library's exported functions, and a desk that lends them guarded memory. All that is unsafe
//! in this program stands here.

use crate::calls::rule;
use crate::guarded::{Guarded, Lending};

unsafe extern "C" {
    fn lights_words(lamps: u64) -> i64;

    fn lights_open(
        lamps: u64,
        wires: *mut u64,
        wires_len: usize,
        rows: *mut u64,
        rows_len: usize,
        done: *mut u64,
        done_len: usize,
        pivots: *mut u16,
        pivots_len: usize,
        lit: *mut u64,
        lit_len: usize,
        marks: *mut u64,
        marks_len: usize,
    ) -> i64;

    fn lights_call(
        lamps: u64,
        wires: *mut u64,
        wires_len: usize,
        rows: *mut u64,
        rows_len: usize,
        done: *mut u64,
        done_len: usize,
        pivots: *mut u16,
        pivots_len: usize,
        lit: *mut u64,
        lit_len: usize,
        marks: *mut u64,
        marks_len: usize,
        call: *const u8,
        call_len: usize,
        answer: *mut u8,
        answer_len: usize,
    ) -> i64;
}

/// What is returned where there is no board of so many lamps, and where a slice is too short.
pub const NO_BOARD: i64 = -(3 << 32);
pub const TOO_SHORT: i64 = -((3 << 32) + 1);

/// How many words a table must have.
pub fn words(lamps: u64) -> i64 {
    // It takes a number alone.
    unsafe { lights_words(lamps) }
}

/// The slices that are lent.
#[derive(Clone, Copy, Debug, PartialEq)]
pub enum Slice {
    Wires,
    Rows,
    Done,
    Pivots,
    Lit,
    Marks,
    Answer,
}

impl Slice {
    pub const MEMORY: [Slice; 6] = [
        Slice::Wires,
        Slice::Rows,
        Slice::Done,
        Slice::Pivots,
        Slice::Lit,
        Slice::Marks,
    ];

    /// How long it must be for a board of n lamps.
    pub fn asked(self, n: usize) -> usize {
        match self {
            Slice::Wires | Slice::Rows | Slice::Done => n * n.div_ceil(64),
            Slice::Pivots => n,
            Slice::Lit | Slice::Marks => n.div_ceil(64),
            Slice::Answer => n.div_ceil(8) + 16,
        }
    }
}

/// Memory for a board of `lamps` lamps, and for an answer.
#[derive(Clone)]
pub struct Desk {
    lamps: usize,
    guard: usize,
    pub wires: Guarded<u64>,
    pub rows: Guarded<u64>,
    pub done: Guarded<u64>,
    pub pivots: Guarded<u16>,
    pub lit: Guarded<u64>,
    pub marks: Guarded<u64>,
    answer: Guarded<u8>,
}

impl Desk {
    /// Memory in which no board has been opened.
    pub fn new(lamps: usize, lending: Lending) -> Self {
        Desk {
            lamps,
            guard: lending.guard,
            wires: Guarded::new("wires", Slice::Wires.asked(lamps), lending),
            rows: Guarded::new("rows", Slice::Rows.asked(lamps), lending),
            done: Guarded::new("done", Slice::Done.asked(lamps), lending),
            pivots: Guarded::new("pivots", Slice::Pivots.asked(lamps), lending),
            lit: Guarded::new("lit", Slice::Lit.asked(lamps), lending),
            marks: Guarded::new("marks", Slice::Marks.asked(lamps), lending),
            answer: Guarded::new("answer", Slice::Answer.asked(lamps), lending),
        }
    }

    pub fn lamps(&self) -> usize {
        self.lamps
    }

    /// Lends another length of a slice from now on.
    pub fn lend(&mut self, slice: Slice, length: usize) {
        match slice {
            Slice::Wires => self.wires.lend(length),
            Slice::Rows => self.rows.lend(length),
            Slice::Done => self.done.lend(length),
            Slice::Pivots => self.pivots.lend(length),
            Slice::Lit => self.lit.lend(length),
            Slice::Marks => self.marks.lend(length),
            Slice::Answer => self.answer.lend(length),
        }
    }

    /// The slices of words.
    pub fn words_mut(&mut self) -> [&mut Guarded<u64>; 5] {
        [
            &mut self.wires,
            &mut self.rows,
            &mut self.done,
            &mut self.lit,
            &mut self.marks,
        ]
    }

    /// Every element of every slice, lent or not, is what it was.
    pub fn same_as(&self, before: &Desk) -> Result<(), String> {
        self.memory_same_past(0, before)?;
        self.answer.same_past(0, &before.answer)
    }

    /// The memory is what it was, but for what a board of so many lamps asks for.
    fn memory_same_past(&self, lamps: usize, before: &Desk) -> Result<(), String> {
        let [table, row] = [Slice::Wires.asked(lamps), Slice::Lit.asked(lamps)];
        self.wires.same_past(table, &before.wires)?;
        self.rows.same_past(table, &before.rows)?;
        self.done.same_past(table, &before.done)?;
        self.pivots.same_past(lamps, &before.pivots)?;
        self.lit.same_past(row, &before.lit)?;
        self.marks.same_past(row, &before.marks)
    }

    /// Nothing of the memory has been touched but what is asked for.
    fn guards_stand(&self) -> Result<(), String> {
        self.wires.guards_stand()?;
        self.rows.guards_stand()?;
        self.done.guards_stand()?;
        self.pivots.guards_stand()?;
        self.lit.guards_stand()?;
        self.marks.guards_stand()
    }

    /// Opens a board of any number of lamps, and returns what the library does.
    pub fn open_as(&mut self, lamps: u64) -> i64 {
        let (wires, wires_len) = self.wires.lent();
        let (rows, rows_len) = self.rows.lent();
        let (done, done_len) = self.done.lent();
        let (pivots, pivots_len) = self.pivots.lent();
        let (lit, lit_len) = self.lit.lent();
        let (marks, marks_len) = self.marks.lent();
        // Each pointer and length is that of a part of a vector of its own.
        unsafe {
            lights_open(
                lamps, wires, wires_len, rows, rows_len, done, done_len, pivots, pivots_len, lit,
                lit_len, marks, marks_len,
            )
        }
    }

    /// Makes a call as on a board of any number of lamps, and returns what the library does. The
    /// bytes of the call must stay.
    pub fn call_as(&mut self, lamps: u64, bytes: &[u8]) -> Result<i64, String> {
        let mut lent = Guarded::holding("call", bytes, self.guard);
        let (wires, wires_len) = self.wires.lent();
        let (rows, rows_len) = self.rows.lent();
        let (done, done_len) = self.done.lent();
        let (pivots, pivots_len) = self.pivots.lent();
        let (lit, lit_len) = self.lit.lent();
        let (marks, marks_len) = self.marks.lent();
        let (call, call_len) = lent.lent();
        let (answer, answer_len) = self.answer.lent();
        // Each pointer and length is that of a part of a vector of its own.
        let returned = unsafe {
            lights_call(
                lamps, wires, wires_len, rows, rows_len, done, done_len, pivots, pivots_len, lit,
                lit_len, marks, marks_len, call, call_len, answer, answer_len,
            )
        };
        lent.guards_stand()?;
        if lent.asked() != bytes {
            return Err("the bytes of the call were written".into());
        }
        Ok(returned)
    }

    /// Opens the board.
    pub fn open(&mut self) -> Result<(), String> {
        let returned = self.open_as(self.lamps as u64);
        self.guards_stand()?;
        self.answer.untouched_past(0)?;
        if returned != self.lamps as i64 {
            return Err(format!("open returned {returned}, not {}", self.lamps));
        }
        Ok(())
    }

    /// Makes a call and returns the bytes of the answer.
    pub fn call(&mut self, bytes: &[u8]) -> Result<Vec<u8>, String> {
        self.call_on(self.lamps, bytes)
    }

    /// The same as on a board of fewer lamps than there is memory for. What is past the memory that
    /// it asks for and past the answer must stay, and at a refusal all of the memory.
    pub fn call_on(&mut self, lamps: usize, bytes: &[u8]) -> Result<Vec<u8>, String> {
        let refused = rule(bytes, lamps).is_err();
        let before = (refused || lamps < self.lamps).then(|| self.clone());
        let returned = self.call_as(lamps as u64, bytes)?;
        self.guards_stand()?;
        let length = usize::try_from(returned)
            .ok()
            .filter(|&length| length <= Slice::Answer.asked(lamps))
            .ok_or(format!("{returned} was returned, which is no length"))?;
        self.answer.untouched_past(length)?;
        let answer = self.answer.asked()[..length].to_vec();
        self.answer.wipe(length);
        if let Some(before) = before {
            self.memory_same_past(if refused { 0 } else { lamps }, &before)
                .map_err(|why| {
                    if refused {
                        format!("at a refusal {why}")
                    } else {
                        why
                    }
                })?;
        }
        Ok(answer)
    }
}
