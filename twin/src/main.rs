//! A second implementation of the specification, as plain as can be: requests are a list in order of issue, and
//! resources are sets. It shares no code or table with the library.
//!
//! twin replay | queries | viewer | conflicts | registers    a log, a plan, or a plan and operations on standard input
//! twin measure LOG LISTING                  the longest waits of a listing against the plan's figures
//! twin compare PROGRAM FROM COUNT DIR       seeded logs through a program and the twin, byte for byte
//! twin compare-queries PROGRAM FROM COUNT DIR
//! twin compare-conflicts PROGRAM FROM COUNT DIR
//! twin compare-registers PROGRAM FROM COUNT DIR
//! twin covered FROM COUNT                   whether these streams of register operations meet every case
//! twin stream SEED COUNT                    writes a stream of so many register operations
//! twin waits PROGRAM COUNT                  hostile logs through a program: no wait passes its figure, and how near they come
//! twin log SEED                             writes one of the seeded logs
//! twin logs KIND FROM COUNT DIR             writes those of a comparison, `replay`, `queries` or `conflicts`, as DIR/SEED
//! twin calls BUSY TURNS | handovers BUSY TURNS | plans TURNS
//!                                           the benchmarks' workloads, to a checksum
mod arbiter;
mod compare;
mod conflicts;
mod listing;
mod logs;
mod measure;
mod plan;
mod random;
mod registers;
mod speed;
mod waits;

use std::fs;
use std::io::{self, BufWriter, Read, Write};

fn stdin_bytes() -> Vec<u8> {
    let mut bytes = Vec::new();
    io::stdin().read_to_end(&mut bytes).expect("standard input");
    bytes
}

fn print_viewer(out: &mut impl Write) -> io::Result<()> {
    match plan::Plan::take(&mut &stdin_bytes()[..]) {
        Ok(plan) => writeln!(out, "0 {} {}", plan.read_figure(), plan.write_figure()),
        Err(number) => writeln!(out, "{number} 0 0"),
    }
}

fn print_measured(log: &str, listing: &str) -> bool {
    let log = fs::read(log).expect("the log");
    let listing = fs::read_to_string(listing).expect("the listing");
    match measure::measure(&log, &listing) {
        Ok((plan, m)) => {
            println!("requests {} overran {}", m.requests, m.overran);
            println!("longest read wait {} of {}", m.read, plan.read_figure());
            println!("longest write wait {} of {}", m.write, plan.write_figure());
            m.overran > 0 || (m.read <= plan.read_figure() && m.write <= plan.write_figure())
        }
        Err(why) => {
            println!("{why}");
            false
        }
    }
}

fn main() -> io::Result<()> {
    let args: Vec<String> = std::env::args().skip(1).collect();
    let words: Vec<&str> = args.iter().map(String::as_str).collect();
    let number = |word: &str| word.parse::<u64>().expect("a number");
    let mut out = BufWriter::new(io::stdout());
    let fine = match words[..] {
        ["replay"] => {
            listing::listing(&stdin_bytes(), false, &mut out);
            true
        }
        ["queries"] => {
            listing::listing(&stdin_bytes(), true, &mut out);
            true
        }
        ["viewer"] => print_viewer(&mut out).is_ok(),
        ["conflicts"] => {
            conflicts::listing(&stdin_bytes(), &mut out);
            true
        }
        ["registers"] => {
            registers::listing(&stdin_bytes(), &mut out);
            true
        }
        ["covered", from, count] => {
            let missing = registers::missing(number(from), number(count));
            missing.iter().for_each(|name| println!("no stream has: {name}"));
            missing.is_empty()
        }
        ["stream", seed, count] => out.write_all(&registers::stream_of(number(seed), number(count) as usize)).is_ok(),
        ["calls", busy, turns] => writeln!(out, "{}", speed::calls(number(busy) as u8, number(turns), false)).is_ok(),
        ["handovers", busy, turns] => writeln!(out, "{}", speed::calls(number(busy) as u8, number(turns), true)).is_ok(),
        ["plans", turns] => writeln!(out, "{}", speed::plans(number(turns))).is_ok(),
        ["log", seed] => out.write_all(&logs::log(number(seed))).is_ok(),
        ["logs", kind, from, count, dir] => compare::write_logs(kind, number(from), number(count), dir),
        ["measure", log, listing] => print_measured(log, listing),
        ["compare", program, from, count, dir] => compare::compare(program, "replay", number(from), number(count), dir),
        ["compare-queries", program, from, count, dir] => compare::compare(program, "queries", number(from), number(count), dir),
        ["compare-conflicts", program, from, count, dir] => compare::compare(program, "conflicts", number(from), number(count), dir),
        ["compare-registers", program, from, count, dir] => compare::compare(program, "registers", number(from), number(count), dir),
        ["waits", program, count] => waits::waits(program, number(count)),
        _ => {
            eprintln!("usage: see the head of twin/src/main.rs");
            false
        }
    };
    out.flush()?;
    std::process::exit(if fine { 0 } else { 1 })
}
