//! The list of the whole board, as the library makes it: on any state value, with what is the same for all processors
//! worked out once.
use crate::arbiter::{below, first, Bits, Board, State, SLOTS};

/// The processors of a mask whose entry is in the row; every entry is below 64.
fn in_row(state: &State, among: u32, row: u64) -> u32 {
    Bits(among).fold(0, |mask, q| mask | ((row >> (state.entry[q] & 63) & 1) as u32) << q)
}

/// The phases of the requests that count: waiting, entitled, holding; and the direct waits of every processor.
#[inline(always)]
pub fn phases_and_waits(board: &Board, state: &State) -> ([u32; 3], [u32; SLOTS]) {
    let counted = below(state.entry, board.count, first(board.processors));
    let known = below(state.entry, 64, u32::MAX);
    let holding = state.holding & counted;
    let entitled = state.entitled & counted & !holding;
    let waiting = state.waiting & counted & !(entitled | holding);
    let active = waiting | entitled | holding;
    let w = in_row(state, active & known, board.writes);
    let r = known & !w;
    let mut waits = [0u32; SLOTS];
    let mut join = |candidates: u32, others: u32, in_line: bool| {
        for p in Bits(candidates) {
            let before = if in_line { state.earlier[p] } else { u32::MAX };
            waits[p] |= in_row(state, before & others, board.rows[state.entry[p] as usize & 63]);
        }
    };
    join(entitled & r, holding & w, false);
    join(waiting & r, entitled & w, false);
    join(entitled & w, holding & r, false);
    join(waiting & w, active & w, true);
    ([waiting, entitled, holding], waits)
}

/// The bytes of a mask on a board with so many processors.
pub fn mask_size(processors: u8) -> usize {
    if processors > 16 { 4 } else { 2 }
}

/// Fills the buffer with the list and gives the number of its bytes, or 16 where it has no room.
pub fn list(board: &Board, state: &State, buffer: &mut [u8]) -> Result<usize, u8> {
    let m = (board.processors as usize).min(SLOTS);
    let mask = mask_size(board.processors);
    let size = 1 + (6 + mask) * m;
    let buffer = buffer.get_mut(..size).ok_or(16)?;
    let ([waiting, entitled, holding], waits) = phases_and_waits(board, state);
    let active = waiting | entitled | holding;
    buffer[0] = m as u8;
    for (p, part) in buffer[1..].chunks_exact_mut(6 + mask).enumerate() {
        let is = |mask: u32| mask >> p & 1 == 1;
        let waited = if is(waiting | entitled) { state.last.saturating_sub(state.since[p]).min(4_294_967_295) as u32 } else { 0 };
        part[0] = if is(holding) { 3 } else if is(entitled) { 2 } else { is(waiting) as u8 };
        part[1] = if is(active) { state.entry[p] } else { 255 };
        part[2..6].copy_from_slice(&waited.to_le_bytes());
        part[6..].copy_from_slice(&waits[p].to_le_bytes()[..mask]);
    }
    Ok(size)
}
