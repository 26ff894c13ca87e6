//! Logs for the comparison: random, saturated, hostile, damaged and cut, with every refusal mixed in.
use crate::arbiter::{Arbiter, Call, Phase};
use crate::plan::{Entry, Plan};
use crate::random::Random;

pub fn plan_bytes(plan: &Plan) -> Vec<u8> {
    let mut bytes = vec![plan.processors, plan.resources, plan.entries.len() as u8];
    for e in &plan.entries {
        bytes.push(e.write as u8);
        bytes.extend(e.names.iter().fold(0u64, |set, r| set | 1 << r).to_le_bytes());
        bytes.extend((e.length as u16).to_le_bytes());
    }
    bytes
}

pub fn log_bytes(plan: &Plan, calls: &[Call]) -> Vec<u8> {
    let mut bytes = plan_bytes(plan);
    bytes.extend((calls.len() as u16).to_le_bytes());
    for call in calls {
        let (verb, processor, entry, tick) = match *call {
            Call::Issue { processor, entry, tick } => (0, processor, entry, tick),
            Call::Complete { processor, tick } => (1, processor, 0, tick),
            Call::Withdraw { processor, tick } => (2, processor, 0, tick),
            Call::Handover { processor, entry, tick } => (3, processor, entry, tick),
        };
        bytes.extend([verb, processor, entry]);
        bytes.extend(&tick.to_le_bytes()[..5]);
    }
    bytes
}

/// A plan with m processors. Few resources make much conflict. `reads` of ten entries read.
pub fn plan(r: &mut Random, m: u8, reads: u64) -> Plan {
    let resources = r.pick(&[1, 2, 3, 5, 8, 20, 64]);
    let most = r.pick(&[1, 2, 3, 6]).min(resources as u64);
    let longest = r.pick(&[1, 4, 30, 65535]);
    let entries = (0..r.pick(&[1, 2, 5, 12, 64]))
        .map(|_| Entry {
            write: r.below(10) >= reads,
            names: (0..r.within(1, most)).map(|_| r.below(resources as u64) as u8).collect(),
            length: r.within(1, longest),
        })
        .collect();
    Plan { processors: m, resources, entries }
}

/// A count of processors: half of them up to 16, and often one beside the edge.
pub fn processors(r: &mut Random) -> u8 {
    match r.below(8) {
        0 => r.pick(&[1, 16, 17, 32]),
        1..=4 => r.within(1, 16) as u8,
        _ => r.within(17, 32) as u8,
    }
}

/// Which calls a log has beside issues and completions: withdrawals, handovers.
#[derive(Clone, Copy)]
pub struct Also {
    pub leaving: bool,
    pub handing: bool,
}

fn also(r: &mut Random) -> Also {
    Also { leaving: r.once_in(3), handing: r.once_in(2) }
}

/// A handover, most by a processor that holds; with faults so often that each comes together with each other.
fn handover(r: &mut Random, arbiter: &Arbiter, tick: u64) -> Call {
    let plan = &arbiter.plan;
    let holders: Vec<u8> = arbiter.requests.iter().filter(|q| q.phase == Phase::Holding).map(|q| q.processor).collect();
    let processor = match r.below(8) {
        0 => r.within(plan.processors as u64, 255) as u8,
        1 | 2 => r.below(plan.processors as u64) as u8,
        _ if holders.is_empty() => r.below(plan.processors as u64) as u8,
        _ => r.pick(&holders),
    };
    let count = plan.entries.len() as u64;
    let entry = if r.once_in(6) { r.within(count, 255) as u8 } else { r.below(count) as u8 };
    let tick = if r.once_in(8) { tick.saturating_sub(1) } else { tick };
    Call::Handover { processor, entry, tick }
}

/// Calls of any kind, most of them ones that fit what the processor does. Where `leaving`, a fifth are withdrawals, most of
/// them by a processor that is in line. Where `handing`, a third of the others are handovers.
pub fn mixed(r: &mut Random, plan: &Plan, count: usize, also: Also) -> Vec<Call> {
    let mut arbiter = Arbiter::new(plan.clone());
    let (mut tick, mut calls) = (0u64, Vec::new());
    for _ in 0..count {
        // Now and then a wait gets as long as the list of the board can show, or longer.
        tick += if r.once_in(60) { 4_294_967_200 } else { r.pick(&[0, 0, 1, 2, 9, 40]) };
        let at = if r.once_in(30) { tick.saturating_sub(r.within(1, 3)) } else { tick };
        let processor = if r.once_in(30) { r.below(256) as u8 } else { r.below(plan.processors as u64) as u8 };
        let entry = if r.once_in(30) { r.below(256) as u8 } else { r.below(plan.entries.len() as u64) as u8 };
        if also.leaving && r.once_in(5) {
            let line: Vec<u8> = arbiter.requests.iter().filter(|q| q.phase != Phase::Holding).map(|q| q.processor).collect();
            let processor = if line.is_empty() || r.once_in(4) { processor } else { line[r.below(line.len() as u64) as usize] };
            let call = Call::Withdraw { processor, tick: at };
            arbiter.call(call).ok();
            calls.push(call);
            continue;
        }
        if also.handing && r.once_in(3) {
            let call = handover(r, &arbiter, tick);
            arbiter.call(call).ok();
            calls.push(call);
            continue;
        }
        let holds = arbiter.requests.iter().any(|q| q.processor == processor && q.phase == Phase::Holding);
        let call = if holds != r.once_in(8) {
            Call::Complete { processor, tick: at }
        } else {
            Call::Issue { processor, entry, tick: at }
        };
        arbiter.call(call).ok();
        calls.push(call);
    }
    calls
}

/// Every holder holds exactly its length and issues again at once, so that the others wait as long as they can. Where
/// `leaving`, one in line withdraws now and then, and asks for something else. Where `handing`, most holders hand over.
pub fn hostile(r: &mut Random, plan: &Plan, count: usize, also: Also) -> Vec<Call> {
    let mut arbiter = Arbiter::new(plan.clone());
    let mut calls = Vec::new();
    let mut call = |arbiter: &mut Arbiter, call: Call| {
        arbiter.call(call).expect("a call that fits");
        calls.push(call);
        calls.len()
    };
    for processor in 0..plan.processors {
        let entry = r.below(plan.entries.len() as u64) as u8;
        call(&mut arbiter, Call::Issue { processor, entry, tick: 0 });
    }
    loop {
        let ends = |q: &crate::arbiter::Request| q.granted_at + plan.entries[q.entry as usize].length;
        let next = arbiter.requests.iter().filter(|q| q.phase == Phase::Holding).min_by_key(|q| (ends(q), q.processor));
        let Some(next) = next else { return calls };
        let (processor, tick) = (next.processor, ends(next));
        let entry = r.below(plan.entries.len() as u64) as u8;
        if tick > 1_000_000_000_000 {
            return calls;
        }
        let full = if also.handing && !r.once_in(4) {
            call(&mut arbiter, Call::Handover { processor, entry, tick }) >= count
        } else {
            call(&mut arbiter, Call::Complete { processor, tick }) >= count
                || call(&mut arbiter, Call::Issue { processor, entry, tick }) >= count
        };
        if full {
            return calls;
        }
        let line: Vec<u8> = arbiter.requests.iter().filter(|q| q.phase != Phase::Holding).map(|q| q.processor).collect();
        if also.leaving && !line.is_empty() && r.once_in(2) {
            let processor = line[r.below(line.len() as u64) as usize];
            let entry = r.below(plan.entries.len() as u64) as u8;
            if call(&mut arbiter, Call::Withdraw { processor, tick }) >= count || call(&mut arbiter, Call::Issue { processor, entry, tick }) >= count {
                return calls;
            }
        }
    }
}

pub fn damaged(r: &mut Random, mut bytes: Vec<u8>) -> Vec<u8> {
    for _ in 0..r.within(1, 4) {
        if bytes.is_empty() {
            break;
        }
        let at = r.below(bytes.len() as u64) as usize;
        match r.below(4) {
            0 => bytes[at] = r.below(256) as u8,
            1 => bytes[at] ^= 1 << r.below(8),
            2 => bytes.truncate(at),
            _ => bytes.insert(at, r.pick(&[0, 1, 2, 3, 255])),
        }
    }
    bytes
}

/// Log number `seed`: one in ten is long.
pub fn log(seed: u64) -> Vec<u8> {
    if seed % 10 == 3 { long(seed) } else { short(seed) }
}

/// A log of 500 to 1,500 calls, which lockreplay takes in two to four blocks of 512. Most have one fault, and it stands after
/// the first block: a tail, a record that is short, a bad verb, or a completion or a withdrawal with an entry.
fn long(seed: u64) -> Vec<u8> {
    let r = &mut Random::new(seed);
    let m = processors(r);
    let reads = r.pick(&[0, 5, 7, 10]);
    let plan = plan(r, m, reads);
    let count = r.within(500, 1500) as usize;
    let also = also(r);
    let calls = if r.once_in(3) { hostile(r, &plan, count, also) } else { mixed(r, &plan, count, also) };
    let mut bytes = log_bytes(&plan, &calls);
    let last = calls.len() as u64 - 1;
    let record = plan_bytes(&plan).len() + 2 + 8 * r.within(last.min(512), last) as usize;
    match r.below(5) {
        0 => bytes.extend((0..r.within(1, 9)).map(|_| r.below(256) as u8)),
        1 => bytes.truncate(record + r.below(8) as usize),
        2 => bytes[record] = if r.once_in(2) { 4 } else { r.within(4, 255) as u8 },
        3 => {
            bytes[record] = r.within(1, 2) as u8;
            bytes[record + 2] = r.within(1, 255) as u8;
        }
        _ => {}
    }
    bytes
}

/// Log number `seed`, of at most 200 calls.
pub fn short(seed: u64) -> Vec<u8> {
    let r = &mut Random::new(seed);
    let m = processors(r);
    let reads = r.pick(&[0, 5, 7, 10]);
    let plan = plan(r, m, reads);
    let count = r.pick(&[0, 3, 20, 60, 200]);
    let also = also(r);
    let bytes = match seed % 4 {
        0 => log_bytes(&plan, &hostile(r, &plan, count, also)),
        _ => log_bytes(&plan, &mixed(r, &plan, count, also)),
    };
    match seed % 5 {
        0 => damaged(r, bytes),
        1 if r.once_in(3) => {
            let end = r.below(bytes.len() as u64 + 1) as usize;
            bytes[..end].to_vec()
        }
        _ => bytes,
    }
}
