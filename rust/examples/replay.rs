//! Replays logs. For each LOG, writes the listing that lockreplay prints for it to a file of the same name in FOLDER.
//! usage: replay FOLDER LOG...
use bittmelon::{figures, Board, Refusal, Reply};
use std::error::Error;
use std::fmt::Write;
use std::path::Path;
use std::{env, fs};

/// Takes this many bytes off the front, or returns `Short` if there are too few.
fn take<'a>(bytes: &mut &'a [u8], count: usize) -> Result<&'a [u8], Refusal> {
    let (front, rest) = bytes.split_at_checked(count).ok_or(Refusal::Short)?;
    *bytes = rest;
    Ok(front)
}

fn call(board: &mut Board, record: &[u8], tick: u64) -> Result<Result<Reply, Refusal>, Refusal> {
    let (processor, entry) = (record[1], record[2]);
    match (record[0], entry) {
        (0, _) => Ok(board.issue(processor, entry, tick)),
        (1, 0) => Ok(board.complete(processor, tick)),
        (2, 0) => Ok(board.withdraw(processor, tick)),
        (3, _) => Ok(board.handover(processor, entry, tick)),
        _ => Err(Refusal::Verb),
    }
}

/// Appends the listing lines to `out`. A fault in the bytes ends the listing and is returned.
fn replay(mut bytes: &[u8], out: &mut String) -> Result<(), Refusal> {
    let (mut board, taken) = Board::read(bytes)?;
    let counts = take(&mut bytes, taken)?;
    let (m, waits) = (counts[0], figures(counts)?);
    let (resources, entries) = (counts[1], counts[2]);
    writeln!(out, "processors {m} resources {resources} entries {entries} read {} write {}", waits.read, waits.write).unwrap();
    let digits = if m <= 16 { 4 } else { 8 };
    let count = take(&mut bytes, 2)?;
    for _ in 0..u16::from_le_bytes([count[0], count[1]]) {
        let record = take(&mut bytes, 8)?;
        let tick = record[3..].iter().rev().fold(0, |tick, byte| tick << 8 | *byte as u64);
        let answer = call(&mut board, record, tick)?;
        write!(out, "{tick} {} {} ", ["i", "c", "w", "h"][record[0] as usize], record[1]).unwrap();
        match answer {
            Ok(Reply { granted, entitled, late }) => writeln!(out, "{granted:0digits$x} {entitled:0digits$x} {}", late as u8),
            Err(refusal) => writeln!(out, "refused {}", refusal.number()),
        }
        .unwrap();
    }
    if bytes.is_empty() {
        Ok(())
    } else {
        Err(Refusal::Tail)
    }
}

fn main() -> Result<(), Box<dyn Error>> {
    let mut arguments = env::args().skip(1);
    let folder = arguments.next().ok_or("usage: replay FOLDER LOG...")?;
    for log in arguments {
        let mut listing = String::new();
        if let Err(fault) = replay(&fs::read(&log)?, &mut listing) {
            writeln!(listing, "refused {}", fault.number())?;
        }
        let name = Path::new(&log).file_name().ok_or("a log's name")?;
        fs::write(Path::new(&folder).join(name), listing)?;
    }
    Ok(())
}
