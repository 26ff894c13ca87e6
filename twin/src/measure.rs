//! Whole runs measured, from a log's calls and the answers of a listing alone. Specification, section 6.
use crate::arbiter::Call;
use crate::listing::take_call;
use crate::plan::{take_number, Plan};

struct Counted {
    processor: u8,
    entry: u8,
    issued: u64,
    granted: Option<u64>,
    ended: Option<u64>,
}

/// The longest waits of reads and of writes, and how many holders overran their length.
#[derive(Default, Debug, Clone, Copy)]
pub struct Measured {
    pub requests: u64,
    pub read: u64,
    pub write: u64,
    pub overran: u64,
}

pub fn measure(mut log: &[u8], listing: &str) -> Result<(Plan, Measured), String> {
    let plan = Plan::take(&mut log).map_err(|n| format!("the plan is refused by {n}"))?;
    let count = take_number(&mut log, 2).map_err(|_| "no call count")?;
    let mut requests: Vec<Counted> = Vec::new();
    let mut last = 0;
    for (_, line) in (0..count).zip(listing.lines().skip(1)) {
        let Ok(call) = take_call(&mut log) else { break };
        let fields: Vec<&str> = line.split(' ').collect();
        if fields.get(3) == Some(&"refused") {
            continue;
        }
        let granted = u32::from_str_radix(fields.get(3).unwrap_or(&""), 16).map_err(|_| format!("no mask in: {line}"))?;
        // Who ends its request, and who makes one for which entry. A handover does both, in this order.
        let (tick, ends, makes) = match call {
            Call::Issue { processor, entry, tick } => (tick, None, Some((processor, entry))),
            Call::Complete { processor, tick } | Call::Withdraw { processor, tick } => (tick, Some(processor), None),
            Call::Handover { processor, entry, tick } => (tick, Some(processor), Some((processor, entry))),
        };
        last = tick;
        for r in requests.iter_mut().filter(|r| Some(r.processor) == ends && r.ended.is_none()) {
            r.ended = Some(tick);
        }
        if let Some((processor, entry)) = makes {
            requests.push(Counted { processor, entry, issued: tick, granted: None, ended: None });
        }
        for r in requests.iter_mut().filter(|r| r.granted.is_none() && r.ended.is_none() && granted >> r.processor & 1 == 1) {
            r.granted = Some(last);
        }
    }
    let mut measured = Measured { requests: requests.len() as u64, ..Measured::default() };
    for r in &requests {
        let entry = &plan.entries[r.entry as usize];
        let wait = r.granted.or(r.ended).unwrap_or(last) - r.issued;
        let longest = if entry.write { &mut measured.write } else { &mut measured.read };
        *longest = wait.max(*longest);
        if let Some(granted) = r.granted {
            measured.overran += (r.ended.unwrap_or(last) - granted > entry.length) as u64;
        }
    }
    Ok((plan, measured))
}
