//! The register block of the specification's section 10: named registers over the twin's arbiter, the listing of a stream
//! of reads and writes, and random streams.
use crate::arbiter::{Arbiter, Call, Phase};
use crate::logs;
use crate::plan::{Plan, Refusal};
use crate::random::Random;
use std::collections::BTreeSet;
use std::io::Write;

struct Device {
    arbiter: Arbiter,
    processor: u8,
    entry: u8,
    refusal: u8,
    tick: [u8; 5],
    late: bool,
    granted: u32,
    entitled: u32,
    pending: BTreeSet<u8>,
    enabled: [u8; 4],
}

impl Device {
    fn new(plan: Plan) -> Device {
        Device {
            arbiter: Arbiter::new(plan),
            processor: 0,
            entry: 0,
            refusal: 0,
            tick: [0; 5],
            late: false,
            granted: 0,
            entitled: 0,
            pending: BTreeSet::new(),
            enabled: [0; 4],
        }
    }

    /// Clause 10.3: some processor is both pending and enabled.
    fn line(&self) -> bool {
        self.pending.iter().any(|&p| self.enabled[p as usize / 8] >> (p % 8) & 1 == 1)
    }

    /// The block's bytes, by the table of clause 10.2.
    fn bytes(&self) -> [u8; 32] {
        let mut bytes = [0; 32];
        bytes[1] = self.processor;
        bytes[2] = self.entry;
        bytes[3] = self.refusal;
        bytes[4..9].copy_from_slice(&self.tick);
        bytes[9] = self.late as u8;
        bytes[12..16].copy_from_slice(&self.granted.to_le_bytes());
        bytes[16..20].copy_from_slice(&self.entitled.to_le_bytes());
        for p in &self.pending {
            bytes[20 + *p as usize / 8] |= 1 << (p % 8);
        }
        bytes[24..28].copy_from_slice(&self.enabled);
        bytes[28] = self.line() as u8;
        bytes
    }

    fn read(&self, offset: u8) -> Result<u8, Refusal> {
        match offset {
            10 | 11 | 29.. => Err(18),
            _ => Ok(self.bytes()[offset as usize]),
        }
    }

    fn write(&mut self, offset: u8, value: u8) -> Result<(), Refusal> {
        match offset {
            0 => return self.command(value),
            1 => self.processor = value,
            2 => self.entry = value,
            4..=8 => self.tick[offset as usize - 4] = value,
            20..=23 => self.pending.retain(|p| p / 8 != offset - 20 || value >> (p % 8) & 1 == 0),
            24..=27 => self.enabled[offset as usize - 24] = value,
            _ => return Err(18),
        }
        Ok(())
    }

    fn command(&mut self, command: u8) -> Result<(), Refusal> {
        let tick = self.tick.iter().rev().fold(0, |sum, &b| sum * 256 + b as u64);
        let (processor, entry) = (self.processor, self.entry);
        let call = match command {
            0 => return Ok(()),
            1 => Call::Issue { processor, entry, tick },
            2 => Call::Complete { processor, tick },
            3 => Call::Withdraw { processor, tick },
            4 => Call::Handover { processor, entry, tick },
            _ => return Err(18),
        };
        match self.arbiter.call(call) {
            Err(number) => self.refusal = number,
            Ok(done) => {
                self.refusal = 0;
                self.late = done.late;
                self.granted = done.granted as u32;
                self.entitled = done.entitled as u32;
                self.pending.extend((0..16).filter(|p| done.granted >> p & 1 == 1));
            }
        }
        Ok(())
    }
}

/// What was met on the way, by name: the streams of the comparison are to meet all of it.
pub type Met = BTreeSet<String>;

fn operation(device: &mut Device, kind: u8, offset: u8, value: u8, met: &mut Met) -> String {
    let text = if kind == 0 {
        match device.read(offset) {
            Ok(value) => format!("r {offset} {value}"),
            Err(number) => format!("r {offset} refused {number}"),
        }
    } else {
        let before = (device.pending.len(), device.line());
        let outcome = device.write(offset, value);
        met.insert(format!("line from {} to {}", before.1, device.line()));
        if device.pending.len() < before.0 {
            met.insert("a bit cleared".into());
        }
        if offset == 0 {
            met.insert(format!("command {value}, last refusal {}, late {}", device.refusal, device.late));
        }
        match outcome {
            Ok(()) => format!("w {offset} {value}"),
            Err(number) => format!("w {offset} {value} refused {number}"),
        }
    };
    met.insert(format!("{} {offset}", &text[..1]));
    let digits: String = device.bytes().iter().map(|byte| format!("{byte:02x}")).collect();
    format!("{text} {digits}\n")
}

/// The listing of a plan and the operations behind it. What is no operation ends it.
fn lines(mut bytes: &[u8], met: &mut Met, out: &mut impl Write) -> Result<(), Refusal> {
    let mut device = Device::new(Plan::take(&mut bytes)?);
    for triple in bytes.chunks_exact(3) {
        let [kind, offset, value] = *triple else { unreachable!() };
        if kind > 1 || kind == 0 && value > 0 {
            return Ok(());
        }
        out.write_all(operation(&mut device, kind, offset, value, met).as_bytes()).unwrap();
    }
    Ok(())
}

pub fn listing(bytes: &[u8], out: &mut impl Write) -> Met {
    let mut met = Met::new();
    if let Err(number) = lines(bytes, &mut met, out) {
        met.insert("a refused plan".into());
        out.write_all(format!("refused {number}\n").as_bytes()).unwrap();
    }
    met
}

fn anywhere(r: &mut Random) -> u8 {
    if r.once_in(20) { r.within(41, 255) as u8 } else { r.below(41) as u8 }
}

/// One thing that a driver does: a command with its registers, or a read or a write of its own.
fn act(r: &mut Random, device: &Device, tick: &mut u64, stream: &mut Vec<[u8; 3]>) {
    let plan = &device.arbiter.plan;
    match r.below(10) {
        0 => stream.push([0, anywhere(r), 0]),
        1 => stream.push([0, r.pick(&[0, 3, 9, 12, 16, 20, 28]), 0]),
        2 => stream.push([1, anywhere(r), r.below(256) as u8]),
        3 => stream.push([1, r.within(24, 27) as u8, r.pick(&[0, 1, 15, 255])]),
        4 => stream.push([1, r.within(20, 23) as u8, r.pick(&[0, 1, 2, 15, 255])]),
        5 => stream.push([1, 0, r.pick(&[0, 5, 6, 255])]),
        _ => {
            *tick += r.pick(&[0, 0, 1, 2, 9, 40]);
            let at = if r.once_in(20) { tick.saturating_sub(r.within(1, 3)) } else { *tick };
            let processor = if r.once_in(20) { r.below(256) as u8 } else { r.below(plan.processors as u64) as u8 };
            let entry = if r.once_in(20) { r.below(256) as u8 } else { r.below(plan.entries.len() as u64) as u8 };
            let phase = device.arbiter.requests.iter().find(|q| q.processor == processor).map(|q| q.phase);
            let fits: &[u8] = match phase {
                None => &[1],
                Some(Phase::Holding) => &[2, 2, 4],
                Some(_) => &[3, 0],
            };
            let command = if r.once_in(6) { r.within(1, 4) as u8 } else { r.pick(fits) };
            stream.extend([[1, 1, processor], [1, 2, entry]]);
            stream.extend((0..5).map(|i| [1, 4 + i, (at >> (8 * i)) as u8]));
            stream.push([1, 0, command]);
        }
    }
}

/// Stream number `seed`, of at least so many operations.
pub fn stream_of(seed: u64, count: usize) -> Vec<u8> {
    let r = &mut Random::new(seed);
    let m = r.within(1, 16) as u8;
    let reads = r.pick(&[0, 5, 7, 10]);
    let plan = logs::plan(r, m, reads);
    let mut device = Device::new(plan.clone());
    let (mut tick, mut stream) = (0, Vec::new());
    while stream.len() < count {
        let from = stream.len();
        act(r, &device, &mut tick, &mut stream);
        for [kind, offset, value] in &stream[from..] {
            if *kind == 1 {
                device.write(*offset, *value).ok();
            }
        }
    }
    let mut bytes = logs::plan_bytes(&plan);
    bytes.extend(stream.concat());
    bytes
}

/// Stream number `seed`: some are damaged or cut, and one in fifty is longer than any buffer.
pub fn stream(seed: u64) -> Vec<u8> {
    let r = &mut Random::new(seed);
    let bytes = stream_of(seed, if seed % 50 == 7 { 3000 } else { r.pick(&[0, 5, 40, 120]) });
    match seed % 8 {
        0 => logs::damaged(r, bytes),
        1 => {
            let end = r.below(bytes.len() as u64 + 1) as usize;
            bytes[..end].to_vec()
        }
        _ => bytes,
    }
}

/// What some streams do not meet, of all that they are to meet.
pub fn missing(from: u64, count: u64) -> Vec<String> {
    let mut met = Met::new();
    for seed in from..from + count {
        met.append(&mut listing(&stream(seed), &mut std::io::sink()));
    }
    let offsets = (0..=40).chain([255]);
    let mut due: Vec<String> = offsets.flat_map(|o| [format!("r {o}"), format!("w {o}")]).collect();
    for (command, refusals) in [(1, &[0u8, 10, 11, 12, 13][..]), (2, &[0, 10, 11, 14, 15]), (3, &[0, 10, 11, 14, 17]), (4, &[0, 10, 11, 12, 14, 15])] {
        due.extend(refusals.iter().map(|n| format!("command {command}, last refusal {n}, late false")));
    }
    due.extend([2, 4].map(|c| format!("command {c}, last refusal 0, late true")));
    due.extend([0, 5, 6].map(|c| format!("command {c}, last refusal 0, late true")));
    for (before, after) in [(false, false), (false, true), (true, false), (true, true)] {
        due.push(format!("line from {before} to {after}"));
    }
    due.extend(["a bit cleared".into(), "a refused plan".into()]);
    due.retain(|name| !met.contains(name));
    due
}
