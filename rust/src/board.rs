//! A board, its calls and its queries.
use crate::parts;
use crate::refusal::{unless_refused, Refusal};

/// The lock arbiter of a plan: a plain value with the layout of `struct bittmelon_board` in the C header. The fields that calls
/// change come first, then the fields that calls only read, then the fields that only [`Board::new`] and [`Board::shared`] use.
#[derive(Clone, Debug, PartialEq, Eq)]
#[repr(C)]
pub struct Board {
    last: u64,
    writes: u64,
    phases: [u32; 3],
    processors: u8,
    entries: u8,
    unused: [u8; 2],
    entry: [u8; 32],
    earlier: [u32; 32],
    since: [u64; 32],
    rows: [u64; 64],
    lengths: [u16; 64],
    names: [u64; 64],
    widened: [u64; 64],
}

/// The answer to an accepted call.
#[derive(Clone, Copy, Debug, PartialEq, Eq)]
pub struct Reply {
    /// The mask of the processors that began to hold in this call.
    pub granted: u32,
    /// The mask of the processors that became entitled in this call and still are.
    pub entitled: u32,
    /// Whether this call completed a hold that was longer than its entry's length.
    pub late: bool,
}

impl Reply {
    /// Whether the processor began to hold in this call.
    ///
    /// ```
    /// # let plan = [2, 1, 1, 1, 1, 0, 0, 0, 0, 0, 0, 0, 20, 0];
    /// let mut board = bittmelon::Board::new(&plan)?;
    /// let reply = board.issue(1, 0, 0)?;
    /// assert!(reply.grants(1) && !reply.grants(0) && !reply.grants(200));
    /// # Ok::<(), bittmelon::Refusal>(())
    /// ```
    pub const fn grants(&self, processor: u8) -> bool {
        processor < 32 && self.granted >> processor & 1 == 1
    }
}

/// The state of a processor.
#[derive(Clone, Copy, Debug, PartialEq, Eq)]
pub enum Phase {
    /// It has no request.
    Idle = 0,
    /// Its request is in the queue.
    Waiting = 1,
    /// Its request is next in the queue, waiting for holders to finish.
    Entitled = 2,
    /// Its request is granted.
    Holding = 3,
}

/// What two entries conflict over.
#[derive(Clone, Copy, Debug, PartialEq, Eq)]
pub struct Shared {
    /// The lowest-numbered resource that they conflict over.
    pub lowest: u32,
    /// How many resources they conflict over.
    pub count: u32,
}

fn reply_of(reply: parts::Reply) -> Result<Reply, Refusal> {
    unless_refused(reply.refusal, Reply { granted: reply.granted, entitled: reply.entitled, late: reply.late != 0 })
}

/// A mask has 32 bits. The archive returns it in the low bits of 64.
fn mask_of(answer: parts::Answer) -> Result<u32, Refusal> {
    unless_refused(answer.refusal, answer.value as u32)
}

fn size_of(answer: parts::Answer) -> Result<usize, Refusal> {
    unless_refused(answer.refusal, answer.value as usize)
}

impl Board {
    /// Makes the board of the plan at the start of the bytes. It has no requests, and its last accepted tick is 0. Bytes after
    /// the plan are ignored. Refused as `Short` or `Processors` to `Length`.
    ///
    /// ```
    /// use bittmelon::{Board, Refusal};
    ///
    /// // Two processors, one resource, one entry: it writes resource 0, for at most 20 ticks.
    /// let plan = [2, 1, 1, 1, 1, 0, 0, 0, 0, 0, 0, 0, 20, 0];
    /// assert!(Board::new(&plan).is_ok());
    /// assert_eq!(Board::new(&plan[..13]), Err(Refusal::Short));
    /// assert_eq!(Board::new(&[33, 1, 1]), Err(Refusal::Processors));
    /// ```
    pub fn new(plan: &[u8]) -> Result<Board, Refusal> {
        Board::read(plan).map(|(board, _)| board)
    }

    /// The same as [`Board::new`], and returns the number of bytes that the plan took as well.
    ///
    /// ```
    /// let bytes = [2, 1, 1, 1, 1, 0, 0, 0, 0, 0, 0, 0, 20, 0, 99, 99];
    /// let (_, taken) = bittmelon::Board::read(&bytes)?;
    /// assert_eq!(taken, 14);
    /// # Ok::<(), bittmelon::Refusal>(())
    /// ```
    pub fn read(bytes: &[u8]) -> Result<(Board, usize), Refusal> {
        let mut board = Board {
            last: 0,
            writes: 0,
            phases: [0; 3],
            processors: 0,
            entries: 0,
            unused: [0; 2],
            entry: [0; 32],
            earlier: [0; 32],
            since: [0; 32],
            rows: [0; 64],
            lengths: [0; 64],
            names: [0; 64],
            widened: [0; 64],
        };
        // SAFETY: the function only reads the bytes and writes the fields, which are lent one by one. It keeps no pointer.
        let answer = unsafe {
            parts::bittmelon_fresh_parts(
                bytes.as_ptr(),
                bytes.len(),
                &mut board.processors,
                &mut board.entries,
                &mut board.writes,
                &mut board.lengths,
                &mut board.names,
                &mut board.widened,
                &mut board.rows,
                &mut board.last,
                &mut board.phases,
                &mut board.entry,
                &mut board.since,
                &mut board.earlier,
            )
        };
        size_of(answer).map(|taken| (board, taken))
    }

    /// The processor requests the entry. It holds the entry once a reply grants it, either this one or a later one. Refused as
    /// `Tick`, `Processor`, `Entry` or `Busy`.
    ///
    /// ```
    /// use bittmelon::{Board, Refusal, MAX_TICK};
    /// # let plan = [2, 1, 1, 1, 1, 0, 0, 0, 0, 0, 0, 0, 20, 0];
    /// let mut board = Board::new(&plan)?;
    /// assert!(board.issue(0, 0, 5)?.grants(0));
    /// assert_eq!(board.issue(1, 0, 4), Err(Refusal::Tick));
    /// assert_eq!(board.issue(1, 0, MAX_TICK + 1), Err(Refusal::Tick));
    /// assert_eq!(board.issue(2, 0, 5), Err(Refusal::Processor));
    /// assert_eq!(board.issue(1, 1, 5), Err(Refusal::Entry));
    /// assert_eq!(board.issue(0, 0, 5), Err(Refusal::Busy));
    /// # Ok::<(), Refusal>(())
    /// ```
    #[inline]
    pub fn issue(&mut self, processor: u8, entry: u8, tick: u64) -> Result<Reply, Refusal> {
        reply_of(parts::bittmelon_issue_parts(
            self.processors,
            self.entries,
            self.writes,
            &self.rows,
            &self.lengths,
            &mut self.last,
            &mut self.phases,
            &mut self.entry,
            &mut self.since,
            &mut self.earlier,
            processor,
            entry,
            tick,
        ))
    }

    /// Completes the processor's request, which must hold. Refused as `Tick`, `Processor`, `Idle` or `Unheld`.
    ///
    /// ```
    /// use bittmelon::{Board, Refusal};
    /// # let plan = [2, 1, 1, 1, 1, 0, 0, 0, 0, 0, 0, 0, 20, 0];
    /// let mut board = Board::new(&plan)?;
    /// assert_eq!(board.complete(0, 0), Err(Refusal::Idle));
    /// board.issue(0, 0, 5)?;
    /// board.issue(1, 0, 5)?;
    /// assert_eq!(board.complete(1, 5), Err(Refusal::Unheld));
    /// let reply = board.complete(0, 26)?;
    /// assert!(reply.grants(1) && reply.late);
    /// # Ok::<(), Refusal>(())
    /// ```
    #[inline]
    pub fn complete(&mut self, processor: u8, tick: u64) -> Result<Reply, Refusal> {
        reply_of(parts::bittmelon_complete_parts(
            self.processors,
            self.entries,
            self.writes,
            &self.rows,
            &self.lengths,
            &mut self.last,
            &mut self.phases,
            &self.entry,
            &mut self.since,
            &self.earlier,
            processor,
            tick,
        ))
    }

    /// Withdraws the processor's request, which must not hold: it leaves the queue. Refused as `Tick`, `Processor`, `Idle` or
    /// `Held`.
    ///
    /// ```
    /// use bittmelon::{Board, Phase, Refusal};
    /// # let plan = [2, 1, 1, 1, 1, 0, 0, 0, 0, 0, 0, 0, 20, 0];
    /// let mut board = Board::new(&plan)?;
    /// board.issue(0, 0, 5)?;
    /// board.issue(1, 0, 5)?;
    /// assert_eq!(board.withdraw(0, 6), Err(Refusal::Held));
    /// assert_eq!(board.withdraw(1, 6)?.granted, 0);
    /// assert_eq!(board.state(1)?, Phase::Idle);
    /// # Ok::<(), Refusal>(())
    /// ```
    #[inline]
    pub fn withdraw(&mut self, processor: u8, tick: u64) -> Result<Reply, Refusal> {
        reply_of(parts::bittmelon_withdraw_parts(
            self.processors,
            self.entries,
            self.writes,
            &self.rows,
            &self.lengths,
            &mut self.last,
            &mut self.phases,
            &self.entry,
            &mut self.since,
            &self.earlier,
            processor,
            tick,
        ))
    }

    /// Completes the processor's request and requests the entry in one call: both happen, or neither. Refused as `Tick`,
    /// `Processor`, `Entry`, `Idle` or `Unheld`.
    ///
    /// ```
    /// use bittmelon::{Board, Refusal};
    /// # let plan = [2, 1, 1, 1, 1, 0, 0, 0, 0, 0, 0, 0, 20, 0];
    /// let mut board = Board::new(&plan)?;
    /// board.issue(0, 0, 5)?;
    /// board.issue(1, 0, 5)?;
    /// let reply = board.handover(0, 0, 9)?;
    /// assert!(reply.grants(1) && !reply.grants(0));
    /// # Ok::<(), Refusal>(())
    /// ```
    #[inline]
    pub fn handover(&mut self, processor: u8, entry: u8, tick: u64) -> Result<Reply, Refusal> {
        reply_of(parts::bittmelon_handover_parts(
            self.processors,
            self.entries,
            self.writes,
            &self.rows,
            &self.lengths,
            &mut self.last,
            &mut self.phases,
            &mut self.entry,
            &mut self.since,
            &mut self.earlier,
            processor,
            entry,
            tick,
        ))
    }

    /// The state of the processor. Refused as `Processor`.
    ///
    /// ```
    /// use bittmelon::{Board, Phase, Refusal};
    /// # let plan = [2, 1, 1, 1, 1, 0, 0, 0, 0, 0, 0, 0, 20, 0];
    /// let mut board = Board::new(&plan)?;
    /// assert_eq!(board.state(0), Ok(Phase::Idle));
    /// board.issue(0, 0, 5)?;
    /// assert_eq!(board.state(0), Ok(Phase::Holding));
    /// assert_eq!(board.state(2), Err(Refusal::Processor));
    /// # Ok::<(), Refusal>(())
    /// ```
    pub fn state(&self, processor: u8) -> Result<Phase, Refusal> {
        let answer = parts::bittmelon_state_parts(self.processors, self.entries, &self.phases, &self.entry, processor);
        let phase = match answer.value {
            0 => Phase::Idle,
            1 => Phase::Waiting,
            2 => Phase::Entitled,
            _ => Phase::Holding,
        };
        unless_refused(answer.refusal, phase)
    }

    /// The mask of the processors that this processor waits for directly. Refused as `Processor`.
    ///
    /// ```
    /// # let plan = [2, 1, 1, 1, 1, 0, 0, 0, 0, 0, 0, 0, 20, 0];
    /// let mut board = bittmelon::Board::new(&plan)?;
    /// board.issue(1, 0, 5)?;
    /// board.issue(0, 0, 5)?;
    /// assert_eq!(board.waits(0), Ok(0b10));
    /// # Ok::<(), bittmelon::Refusal>(())
    /// ```
    pub fn waits(&self, processor: u8) -> Result<u32, Refusal> {
        mask_of(parts::bittmelon_waits_parts(
            self.processors,
            self.entries,
            self.writes,
            &self.rows,
            &self.phases,
            &self.entry,
            &self.earlier,
            processor,
        ))
    }

    /// The mask of all processors to which a chain of direct waits leads from this processor. The scratch needs 32 bytes for up
    /// to 16 processors and 128 for more ([`MAX_SCRATCH_BYTES`](crate::MAX_SCRATCH_BYTES)). Refused as `Processor` or `Room`.
    ///
    /// ```
    /// use bittmelon::{Board, Refusal, MAX_SCRATCH_BYTES};
    /// # let plan = [2, 1, 1, 1, 1, 0, 0, 0, 0, 0, 0, 0, 20, 0];
    /// let mut board = Board::new(&plan)?;
    /// board.issue(1, 0, 5)?;
    /// board.issue(0, 0, 5)?;
    /// assert_eq!(board.reach(0, &mut [0; MAX_SCRATCH_BYTES]), Ok(0b10));
    /// assert_eq!(board.reach(0, &mut [0; 31]), Err(Refusal::Room));
    /// # Ok::<(), Refusal>(())
    /// ```
    pub fn reach(&self, processor: u8, scratch: &mut [u8]) -> Result<u32, Refusal> {
        // SAFETY: the function only reads the fields and writes the scratch within its size. It keeps no pointer.
        mask_of(unsafe {
            parts::bittmelon_reach_parts(
                self.processors,
                self.entries,
                self.writes,
                &self.rows,
                &self.phases,
                &self.entry,
                &self.earlier,
                processor,
                scratch.as_mut_ptr(),
                scratch.len(),
            )
        })
    }

    /// Writes the list of the whole board at the start of the buffer, and returns the number of bytes written. Later bytes of
    /// the buffer stay as they were. The list is the number of processors in one byte, then for each processor its state in one
    /// byte, its entry in one byte (255 if it has no request), the ticks that it has waited in four bytes, and its direct waits
    /// in two bytes if there are up to 16 processors and in four if there are more. The low byte of a number comes first.
    /// Refused as `Room` ([`MAX_LIST_BYTES`](crate::MAX_LIST_BYTES)).
    ///
    /// ```
    /// use bittmelon::{Board, Refusal, MAX_LIST_BYTES};
    /// # let plan = [2, 1, 1, 1, 1, 0, 0, 0, 0, 0, 0, 0, 20, 0];
    /// let board = Board::new(&plan)?;
    /// let mut buffer = [0; MAX_LIST_BYTES];
    /// let size = board.list(&mut buffer)?;
    /// assert_eq!(buffer[..size], [2, 0, 255, 0, 0, 0, 0, 0, 0, 0, 255, 0, 0, 0, 0, 0, 0]);
    /// assert_eq!(board.list(&mut buffer[..16]), Err(Refusal::Room));
    /// # Ok::<(), Refusal>(())
    /// ```
    pub fn list(&self, buffer: &mut [u8]) -> Result<usize, Refusal> {
        // SAFETY: the function only reads the fields and writes the buffer within its size. It keeps no pointer.
        size_of(unsafe {
            parts::bittmelon_list_parts(
                self.processors,
                self.entries,
                self.writes,
                &self.rows,
                self.last,
                &self.phases,
                &self.entry,
                &self.since,
                &self.earlier,
                buffer.as_mut_ptr(),
                buffer.len(),
            )
        })
    }

    /// What two entries of the plan conflict over, or `None` if they do not conflict. Refused as `Entry`.
    ///
    /// ```
    /// use bittmelon::{Board, Refusal, Shared};
    /// # let plan = [2, 1, 1, 1, 1, 0, 0, 0, 0, 0, 0, 0, 20, 0];
    /// let board = Board::new(&plan)?;
    /// assert_eq!(board.shared(0, 0), Ok(Some(Shared { lowest: 0, count: 1 })));
    /// assert_eq!(board.shared(0, 1), Err(Refusal::Entry));
    /// # Ok::<(), Refusal>(())
    /// ```
    pub fn shared(&self, first: u8, second: u8) -> Result<Option<Shared>, Refusal> {
        let answer = parts::bittmelon_shared_parts(
            self.processors,
            self.entries,
            self.writes,
            &self.names,
            &self.widened,
            first,
            second,
        );
        let shared = Shared { lowest: answer.lowest, count: answer.count };
        unless_refused(answer.refusal, (answer.conflict != 0).then_some(shared))
    }
}

#[cfg(test)]
mod tests {
    use super::Board;
    use core::mem::{align_of, offset_of, size_of};

    #[test]
    fn a_board_is_laid_out_as_in_c() {
        assert_eq!((size_of::<Board>(), align_of::<Board>()), (2112, 8));
        assert_eq!((offset_of!(Board, phases), offset_of!(Board, processors), offset_of!(Board, entry)), (16, 28, 32));
        assert_eq!((offset_of!(Board, since), offset_of!(Board, rows), offset_of!(Board, widened)), (192, 448, 1600));
    }

    #[test]
    fn a_board_goes_from_thread_to_thread() {
        fn plain<T: Send + Sync + Clone>() {}
        plain::<Board>();
    }
}
