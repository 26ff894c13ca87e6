//! Plans in optimised Rust, as the library reads them: each entry is checked as it is met, the first fault ends the reading.
use crate::arbiter::Entry;

pub struct Plan {
    pub processors: u8,
    pub resources: u8,
    pub count: u8,
    pub entries: [Entry; 64],
}

pub fn number(bytes: &[u8]) -> u64 {
    bytes.iter().rev().fold(0, |sum, &b| sum << 8 | b as u64)
}

fn counted(bytes: &[u8], at: usize, most: u8, refusal: u8) -> Result<u8, u8> {
    let count = *bytes.get(at).ok_or(1)?;
    if (1..=most).contains(&count) { Ok(count) } else { Err(refusal) }
}

fn entry_of(bytes: &[u8], resources: u8) -> Result<Entry, u8> {
    let (kind, set, length) = (bytes[0], number(&bytes[1..9]), number(&bytes[9..11]) as u16);
    if kind > 1 {
        return Err(6);
    }
    if set == 0 || (resources < 64 && set >> resources != 0) {
        return Err(7);
    }
    if length == 0 {
        return Err(8);
    }
    Ok(Entry { write: kind == 1, set, length })
}

/// The plan at the start of the bytes and how many bytes it takes, or the refusal.
pub fn read(bytes: &[u8]) -> Result<(usize, Plan), u8> {
    let processors = counted(bytes, 0, 32, 3)?;
    let resources = counted(bytes, 1, 64, 4)?;
    let count = counted(bytes, 2, 64, 5)?;
    let mut entries = [Entry { write: false, set: 0, length: 0 }; 64];
    let mut at = 3;
    for entry in &mut entries[..count as usize] {
        *entry = entry_of(bytes.get(at..at + 11).ok_or(1)?, resources)?;
        at += 11;
    }
    Ok((at, Plan { processors, resources, count, entries }))
}

pub fn bytes_of(processors: u8, resources: u8, entries: &[Entry]) -> Vec<u8> {
    let mut bytes = vec![processors, resources, entries.len() as u8];
    for e in entries {
        bytes.push(e.write as u8);
        bytes.extend(e.set.to_le_bytes());
        bytes.extend(e.length.to_le_bytes());
    }
    bytes
}
