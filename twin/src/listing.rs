//! A log and its listing, and the answers to all queries after each call.
use crate::arbiter::{Arbiter, Call, Done};
use crate::plan::{take_number, Plan, Refusal};
use std::io::Write;

pub fn take_call(bytes: &mut &[u8]) -> Result<Call, Refusal> {
    if bytes.len() < 8 {
        return Err(1);
    }
    let verb = take_number(bytes, 1)?;
    let processor = take_number(bytes, 1)? as u8;
    let entry = take_number(bytes, 1)? as u8;
    let tick = take_number(bytes, 5)?;
    match (verb, entry) {
        (0, _) => Ok(Call::Issue { processor, entry, tick }),
        (1, 0) => Ok(Call::Complete { processor, tick }),
        (2, 0) => Ok(Call::Withdraw { processor, tick }),
        (3, _) => Ok(Call::Handover { processor, entry, tick }),
        _ => Err(9),
    }
}

/// A mask of a plan's processors: two hexadecimal digits for each of its bytes.
fn mask_digits(plan: &Plan, mask: u32) -> String {
    format!("{mask:0width$x}", width = 2 * plan.mask_bytes())
}

fn call_line(plan: &Plan, call: Call, answer: Result<Done, Refusal>) -> String {
    let head = match call {
        Call::Issue { processor, tick, .. } => format!("{tick} i {processor}"),
        Call::Complete { processor, tick } => format!("{tick} c {processor}"),
        Call::Withdraw { processor, tick } => format!("{tick} w {processor}"),
        Call::Handover { processor, tick, .. } => format!("{tick} h {processor}"),
    };
    match answer {
        Ok(done) => {
            let (granted, entitled) = (mask_digits(plan, done.granted), mask_digits(plan, done.entitled));
            format!("{head} {granted} {entitled} {}\n", done.late as u8)
        }
        Err(number) => format!("{head} refused {number}\n"),
    }
}

/// What each processor's queries answer: state, direct waits, reach.
fn query_lines(arbiter: &Arbiter) -> String {
    let digits = |mask| mask_digits(&arbiter.plan, mask);
    (0..33)
        .map(|p| match (arbiter.state(p), arbiter.direct(p), arbiter.reach(p)) {
            (Ok(state), Ok(direct), Ok(reach)) => format!("{p} {state} {} {}\n", digits(direct), digits(reach)),
            (Err(number), _, _) | (_, Err(number), _) | (_, _, Err(number)) => format!("{p} refused {number}\n"),
        })
        .collect()
}

/// The whole board: the bytes of its list, written into a buffer of 170s that is 16 bytes longer.
fn board_line(arbiter: &Arbiter) -> String {
    let list = arbiter.list();
    format!("board {}\n", digits_behind(&list))
}

/// The scratch after processor 0's reach: its words, written over 170s likewise.
fn scratch_line(arbiter: &Arbiter) -> String {
    format!("scratch {}\n", digits_behind(&arbiter.words()))
}

/// The digits of bytes that were written into a buffer of 170s that is 16 bytes longer.
fn digits_behind(bytes: &[u8]) -> String {
    bytes.iter().chain(&[170u8; 16]).map(|byte| format!("{byte:02x}")).collect()
}

fn replay(bytes: &mut &[u8], queries: bool, out: &mut impl Write) -> Result<(), Refusal> {
    let plan = Plan::take(bytes)?;
    let head = format!(
        "processors {} resources {} entries {} read {} write {}\n",
        plan.processors,
        plan.resources,
        plan.entries.len(),
        plan.read_figure(),
        plan.write_figure()
    );
    out.write_all(head.as_bytes()).unwrap();
    let mut arbiter = Arbiter::new(plan);
    for _ in 0..take_number(bytes, 2)? {
        let call = take_call(bytes)?;
        let answer = arbiter.call(call);
        out.write_all(call_line(&arbiter.plan, call, answer).as_bytes()).unwrap();
        if queries {
            out.write_all(query_lines(&arbiter).as_bytes()).unwrap();
            out.write_all(board_line(&arbiter).as_bytes()).unwrap();
            out.write_all(scratch_line(&arbiter).as_bytes()).unwrap();
        }
    }
    if bytes.is_empty() { Ok(()) } else { Err(2) }
}

/// The whole listing of a log's bytes, with the queries after each call where they are asked for.
pub fn listing(mut bytes: &[u8], queries: bool, out: &mut impl Write) {
    if let Err(number) = replay(&mut bytes, queries, out) {
        out.write_all(format!("refused {number}\n").as_bytes()).unwrap();
    }
}
