//! The benchmarks' workloads on the twin: prints the same checksums as the library's program.
use crate::arbiter::{Arbiter, Call, Phase};
use crate::plan::Plan;

/// The benchmark's plan: 64 resources and 64 entries, every third a write.
fn plan_bytes(processors: u8) -> Vec<u8> {
    let mut bytes = vec![processors, 64, 64];
    for i in 0..64u64 {
        let set: u64 = 1 << (i * 7 % 64) | 1 << (i * 11 % 64) | 1 << (i * 5 % 16);
        bytes.push((i % 3 == 0) as u8);
        bytes.extend(set.to_le_bytes());
        bytes.extend(((i % 20 + 1) as u16).to_le_bytes());
    }
    bytes
}

/// The lowest holder at or above a place, round the board.
fn holder_from(arbiter: &Arbiter, place: u8) -> u8 {
    let holders = || arbiter.requests.iter().filter(|r| r.phase == Phase::Holding).map(|r| r.processor);
    holders().filter(|&p| p >= place).min().or(holders().min()).expect("a holder")
}

/// Each turn completes a holder and issues again at once, on a board with so many busy processors: two calls, or one
/// where `handing`. The plan has 16 processors for up to 16 busy ones, else 32.
pub fn calls(busy: u8, turns: u64, handing: bool) -> u64 {
    let processors = if busy > 16 { 32 } else { 16 };
    let mut arbiter = Arbiter::new(Plan::take(&mut &plan_bytes(processors)[..]).expect("an accepted plan"));
    let (mut seed, mut sum) = (1u64, 0u64);
    for p in 0..busy {
        arbiter.call(Call::Issue { processor: p, entry: p * 3 % 64, tick: 0 }).expect("accepted");
    }
    for tick in 1..=turns {
        seed = (seed * 1_103_515_245 + 12_345) % 2_147_483_648;
        let processor = holder_from(&arbiter, (seed % 1_048_576 * processors as u64 / 1_048_576) as u8);
        let entry = (seed / 1_048_576 % 64) as u8;
        let two = [Call::Complete { processor, tick }, Call::Issue { processor, entry, tick }];
        let one = [Call::Handover { processor, entry, tick }];
        for &call in if handing { &one[..] } else { &two[..] } {
            let done = arbiter.call(call).expect("accepted");
            sum = (sum * 31 + done.granted as u64 * 65_536 + done.entitled as u64 * 2 + done.late as u64) % 4_294_967_296;
        }
    }
    sum
}

/// Reads the plan's bytes, the length of one entry another at each turn.
pub fn plans(turns: u64) -> u64 {
    let mut bytes = plan_bytes(16);
    let mut sum = 0u64;
    for turn in 0..turns {
        let i = (turn % 64) as usize;
        bytes[12 + 11 * i] = (turn / 64 % 255 + 1) as u8;
        let mut rest = &bytes[..];
        let plan = Plan::take(&mut rest).expect("an accepted plan");
        let taken = (bytes.len() - rest.len()) as u64;
        sum = (sum * 31 + taken % 65_536 * 65_536 + plan.entries[i].length) % 4_294_967_296;
    }
    sum
}
