//! Plans: their bytes, what is refused, the two figures.
use std::collections::BTreeSet;

/// A refusal's number: clause 8.1 of the specification.
pub type Refusal = u8;

pub type Resources = BTreeSet<u8>;

#[derive(Clone, PartialEq, Debug)]
pub struct Entry {
    pub write: bool,
    pub names: Resources,
    pub length: u64,
}

#[derive(Clone, PartialEq, Debug)]
pub struct Plan {
    pub processors: u8,
    pub resources: u8,
    pub entries: Vec<Entry>,
}

/// A number of `count` bytes, low byte first, taken off the front; refused by 1 where the bytes end.
pub fn take_number(bytes: &mut &[u8], count: usize) -> Result<u64, Refusal> {
    if bytes.len() < count {
        return Err(1);
    }
    let (number, rest) = bytes.split_at(count);
    *bytes = rest;
    Ok(number.iter().rev().fold(0, |sum, &b| sum * 256 + b as u64))
}

fn take_count(bytes: &mut &[u8], most: u64, refusal: Refusal) -> Result<u8, Refusal> {
    let count = take_number(bytes, 1)?;
    if count < 1 || count > most {
        return Err(refusal);
    }
    Ok(count as u8)
}

fn take_entry(bytes: &mut &[u8], resources: u8) -> Result<Entry, Refusal> {
    if bytes.len() < 11 {
        return Err(1);
    }
    let kind = take_number(bytes, 1)?;
    let set = take_number(bytes, 8)?;
    let length = take_number(bytes, 2)?;
    let names: Resources = (0..64).filter(|r| set >> r & 1 == 1).collect();
    if kind > 1 {
        return Err(6);
    }
    if names.is_empty() || names.iter().any(|&r| r >= resources) {
        return Err(7);
    }
    if length == 0 {
        return Err(8);
    }
    Ok(Entry { write: kind == 1, names, length })
}

impl Plan {
    /// Takes a plan off the front of the bytes.
    pub fn take(bytes: &mut &[u8]) -> Result<Plan, Refusal> {
        let processors = take_count(bytes, 32, 3)?;
        let resources = take_count(bytes, 64, 4)?;
        let count = take_count(bytes, 64, 5)?;
        let entries = (0..count).map(|_| take_entry(bytes, resources)).collect::<Result<_, _>>()?;
        Ok(Plan { processors, resources, entries })
    }

    /// The bytes of a mask of the plan's processors, where it is laid out or printed.
    pub fn mask_bytes(&self) -> usize {
        if self.processors <= 16 { 2 } else { 4 }
    }

    fn longest(&self, write: bool) -> u64 {
        self.entries.iter().filter(|e| e.write == write).map(|e| e.length).max().unwrap_or(0)
    }

    pub fn read_figure(&self) -> u64 {
        self.longest(false) + self.longest(true)
    }

    pub fn write_figure(&self) -> u64 {
        (self.processors as u64 - 1) * self.read_figure()
    }

    /// Clause 3.1: a write's names, joined with those of each read that shares one of them.
    fn widened_of(&self, write: &Entry) -> Resources {
        let mut set = write.names.clone();
        for read in self.entries.iter().filter(|e| !e.write) {
            if !read.names.is_disjoint(&write.names) {
                set.extend(&read.names);
            }
        }
        set
    }

    /// The widened sets of all entries; a read's is not looked at.
    pub fn widened(&self) -> Vec<Resources> {
        self.entries.iter().map(|e| self.widened_of(e)).collect()
    }

    /// Clause 3.2: the resources that stand between two entries, by their places, given the widened sets.
    pub fn shared(&self, widened: &[Resources], e: usize, f: usize) -> Resources {
        let names = |e: usize| &self.entries[e].names;
        match (self.entries[e].write, self.entries[f].write) {
            (false, false) => Resources::new(),
            (true, true) => &widened[e] & &widened[f],
            _ => names(e) & names(f),
        }
    }

    /// Which entries conflict with which.
    pub fn conflicts(&self) -> Vec<Vec<bool>> {
        let widened = self.widened();
        let places = 0..self.entries.len();
        places.clone().map(|e| places.clone().map(|f| !self.shared(&widened, e, f).is_empty()).collect()).collect()
    }
}
