//! Reach as the library works it out: on any state value, rows of masks, one pass for each processor that a chain may
//! lead through, and all rows as words in the scratch.
use crate::arbiter::{board_of, Board, Entry, State, PLAIN, SLOTS};
use crate::list::{mask_size, phases_and_waits};

/// The reach of a processor, or 11 or 16.
pub fn reach(board: &Board, state: &State, processor: u8, scratch: &mut [u8]) -> Result<u32, u8> {
    if processor as usize >= (board.processors as usize).min(SLOTS) {
        return Err(11);
    }
    let size = mask_size(board.processors);
    let scratch = scratch.get_mut(..size * 8 * size).ok_or(16)?;
    let (_, mut rows) = phases_and_waits(board, state);
    for k in 0..SLOTS {
        let row = rows[k];
        for mine in &mut rows {
            *mine = if *mine >> k & 1 == 1 { *mine | row } else { *mine };
        }
    }
    for (word, row) in scratch.chunks_exact_mut(size).zip(rows) {
        word.copy_from_slice(&row.to_le_bytes()[..size]);
    }
    Ok(rows[processor as usize])
}

/// All 16 processors wait in one long line, each for the one before it alone; every turn asks for the reach of one.
pub fn turns(turns: u64) -> u64 {
    let entries: Vec<Entry> = (0..16).map(|i| Entry { write: true, set: 3 << i, length: 1 }).collect();
    let board = board_of(16, &entries);
    let mut state = State::fresh();
    for p in 0..16 {
        state.issue::<PLAIN>(&board, p, p, 0).ok();
    }
    let mut sum = 0u64;
    for tick in 0..turns {
        let mut scratch = [0u8; 32];
        let mask = reach(&board, &state, (tick % 16) as u8, &mut scratch).unwrap_or(0);
        sum = (sum * 31 + mask as u64 * 256 + scratch[(tick % 32) as usize] as u64) % 4_294_967_296;
    }
    sum
}
