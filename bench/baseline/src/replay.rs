//! A log to its listing in plain Rust, with the algorithm of the library.
use crate::arbiter::{board_of, Done, State, LEAN};
use crate::list::mask_size;
use crate::plan::{self, number};
use std::io::{self, Read, Write};

/// The two digits of every byte, and of every number below 100.
const HEX_PAIRS: [[u8; 2]; 256] = pairs(16);
const DECIMAL_PAIRS: [[u8; 2]; 100] = pairs(10);

const fn pairs<const N: usize>(base: usize) -> [[u8; 2]; N] {
    let digits = b"0123456789abcdef";
    let mut table = [[0; 2]; N];
    let mut i = 0;
    while i < N {
        table[i] = [digits[i / base], digits[i % base]];
        i += 1;
    }
    table
}

fn push_decimal(out: &mut Vec<u8>, mut n: u64) {
    let mut digits = [0u8; 20];
    let mut at = 20;
    while n > 99 {
        at -= 2;
        digits[at..at + 2].copy_from_slice(&DECIMAL_PAIRS[(n % 100) as usize]);
        n /= 100;
    }
    if n > 9 {
        at -= 2;
        digits[at..at + 2].copy_from_slice(&DECIMAL_PAIRS[n as usize]);
    } else {
        at -= 1;
        digits[at] = b'0' + n as u8;
    }
    out.extend_from_slice(&digits[at..]);
}

/// The digits of a mask of so many bytes.
fn push_mask(out: &mut Vec<u8>, mask: u32, size: usize) {
    for &byte in &mask.to_be_bytes()[4 - size..] {
        out.extend_from_slice(&HEX_PAIRS[byte as usize]);
    }
}

fn push_answer(out: &mut Vec<u8>, answer: Result<Done, u8>, size: usize) {
    match answer {
        Ok(done) => {
            push_mask(out, done.granted, size);
            out.push(b' ');
            push_mask(out, done.entitled, size);
            out.push(b' ');
            push_decimal(out, done.late as u64);
        }
        Err(refusal) => {
            out.extend_from_slice(b"refused ");
            push_decimal(out, refusal as u64);
        }
    }
    out.push(b'\n');
}

/// Replays a log without faults in its bytes, as the benchmark's are.
pub fn replay() -> io::Result<()> {
    let mut log = Vec::new();
    io::stdin().lock().read_to_end(&mut log)?;
    let (taken, plan) = plan::read(&log).expect("an accepted plan");
    let (processors, count) = (plan.processors, plan.count);
    let entries = &plan.entries[..count as usize];
    let longest = |write| entries.iter().filter(|e| e.write == write).map(|e| e.length as u64).max().unwrap_or(0);
    let read = longest(false) + longest(true);
    let mut out = Vec::with_capacity(65536);
    write!(out, "processors {processors} resources {} entries {count} read {read} write {}\n", plan.resources, (processors as u64 - 1) * read)?;
    let board = board_of(processors, entries);
    let mut state = State::fresh();
    let stdout = io::stdout();
    let mut stdout = stdout.lock();
    for call in log[taken + 2..].chunks(8) {
        let tick = number(&call[3..8]);
        push_decimal(&mut out, tick);
        out.extend_from_slice(if call[0] == 0 { b" i " } else { b" c " });
        push_decimal(&mut out, call[1] as u64);
        out.push(b' ');
        let answer = if call[0] == 0 { state.issue::<LEAN>(&board, call[1], call[2], tick) } else { state.complete::<LEAN>(&board, call[1], tick) };
        push_answer(&mut out, answer, mask_size(processors));
        if out.len() > 60000 {
            stdout.write_all(&out)?;
            out.clear();
        }
    }
    stdout.write_all(&out)
}
