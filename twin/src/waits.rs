//! Whole runs through a program: no wait passes its figure, and how near the longest come.
use crate::arbiter::Call;
use crate::compare::Runner;
use crate::logs;
use crate::measure::measure;
use crate::plan::{Entry, Plan};
use crate::random::Random;

/// The nearest that a wait came to its figure, in hundredths: reads, writes where there are no reads, other writes.
type Nearest = [u64; 3];

fn entry(write: bool, length: u64) -> Entry {
    Entry { write, names: [0].into(), length }
}

/// A read holds, a write is entitled behind it, and a read waits for both: Lr + Lw.
fn longest_read(m: u8) -> Vec<u8> {
    let plan = Plan { processors: m, resources: 1, entries: vec![entry(false, 30), entry(true, 20)] };
    let issues = [0, 1, 0].iter().zip(0..).map(|(&entry, processor)| Call::Issue { processor, entry, tick: 0 });
    let ends = [30, 50].iter().zip(0..).map(|(&tick, processor)| Call::Complete { processor, tick });
    logs::log_bytes(&plan, &issues.chain(ends).collect::<Vec<_>>())
}

/// Every processor writes, and the last in line waits for all the others: (m - 1) * Lw.
fn longest_write(m: u8) -> Vec<u8> {
    let plan = Plan { processors: m, resources: 1, entries: vec![entry(true, 20)] };
    let issues = (0..m).map(|processor| Call::Issue { processor, entry: 0, tick: 0 });
    let ends = (0..m).map(|processor| Call::Complete { processor, tick: 20 * (processor as u64 + 1) });
    logs::log_bytes(&plan, &issues.chain(ends).collect::<Vec<_>>())
}

fn hostile(seed: u64) -> Vec<u8> {
    let r = &mut Random::new(seed + 1_000_000);
    let m = logs::processors(r);
    let reads = r.pick(&[0, 3, 5, 8]);
    let plan = logs::plan(r, m, reads);
    let also = logs::Also { leaving: seed % 3 == 0, handing: seed % 2 == 0 };
    logs::log_bytes(&plan, &logs::hostile(r, &plan, 400, also))
}

/// Replays a log and notes how near its waits come. False where a wait passes its figure or a holder overran.
fn within_figures(runner: &mut Runner, name: &str, log: &[u8], nearest: &mut [Nearest; 33]) -> bool {
    let text = String::from_utf8(runner.output_of(log).expect("the program runs")).expect("a listing");
    let (plan, measured) = measure(log, &text).expect("a listing that fits its log");
    let (read, write) = (plan.read_figure(), plan.write_figure());
    let column = if plan.entries.iter().all(|e| e.write) { 1 } else { 2 };
    let row = &mut nearest[plan.processors as usize];
    row[0] = row[0].max((100 * measured.read).checked_div(read).unwrap_or(0));
    row[column] = row[column].max((100 * measured.write).checked_div(write).unwrap_or(0));
    let fine = measured.overran == 0 && measured.read <= read && measured.write <= write;
    if !fine {
        println!("{name}: {measured:?} against {read} and {write}");
    }
    fine
}

/// So many hostile logs, and the logs in which a read and a write wait their longest. Those must reach the figure.
pub fn waits(program: &str, count: u64) -> bool {
    let (mut passed, mut failed) = (0, 0);
    let mut runner = Runner::new(program).expect("a place for two files");
    let mut nearest = [[0; 3]; 33];
    let mut note = |fine: bool| if fine { passed += 1 } else { failed += 1 };
    for seed in 0..count {
        note(within_figures(&mut runner, &format!("hostile log {seed}"), &hostile(seed), &mut nearest));
    }
    for m in 2..=32 {
        let mut own = [[0; 3]; 33];
        let fine = within_figures(&mut runner, &format!("longest write of {m}"), &longest_write(m), &mut own);
        note(fine && own[m as usize][1] == 100);
        if m >= 3 {
            let fine = within_figures(&mut runner, &format!("longest read of {m}"), &longest_read(m), &mut own);
            note(fine && own[m as usize][0] == 100);
        }
        let row = &mut nearest[m as usize];
        (0..3).for_each(|i| row[i] = row[i].max(own[m as usize][i]));
    }
    println!("The longest waits, in hundredths of their figures");
    println!("processors  reads  writes where there are no reads  other writes");
    for (m, row) in nearest.iter().enumerate().skip(1) {
        println!("{m:>10}  {:>5}  {:>31}  {:>12}", row[0], row[1], row[2]);
    }
    println!("{passed} passed, {failed} failed");
    failed == 0
}
