//! The library's own algorithms in optimised Rust, on the benchmarks' workloads. Prints the same checksums and the same
//! listing as the library's programs.
//!
//! baseline calls KIND BUSY TURNS    lean, plain or first: see arbiter.rs
//! baseline plans TURNS              reads a plan of 64 entries
//! baseline list TURNS               plain calls with 16 busy processors, and the list of the whole board after each two
//! baseline reach TURNS              the reach of a processor, where all 16 wait in one long line
//! baseline replay                   a log on standard input to its listing, lean
mod arbiter;
mod list;
mod plan;
mod reach;
mod replay;

use arbiter::{board_of, Entry, State, FIRST, LEAN, PLAIN};

/// The benchmark's plan: 64 entries, every third a write, over 64 resources, two or three to an entry.
fn entries() -> Vec<Entry> {
    (0..64u64)
        .map(|i| Entry {
            write: i % 3 == 0,
            set: 1 << (i * 7 % 64) | 1 << (i * 11 % 64) | 1 << (i * 5 % 16),
            length: (i % 20 + 1) as u16,
        })
        .collect()
}

/// The lowest holder at or above a place, round the board.
fn holder_from(holding: u32, from: u32) -> u32 {
    let above = holding >> from << from;
    if above != 0 { above.trailing_zeros() } else { holding.trailing_zeros() }
}

/// The plan has 16 processors for up to 16 busy ones, else 32.
fn processors_for(busy: u8) -> u8 {
    if busy > 16 { 32 } else { 16 }
}

/// A place on the board: the seed's digits below the twentieth, as a part of all places.
fn place(seed: u64, processors: u8) -> u32 {
    (seed % 1_048_576 * processors as u64 / 1_048_576) as u32
}

/// Each turn completes a holder and issues again at once, on a board with so many busy processors. After it the whole
/// board is listed, where that is asked for.
fn calls<const KIND: u8>(busy: u8, listed: bool, turns: u64) -> u64 {
    let processors = processors_for(busy);
    let board = board_of(processors, &entries());
    let mut state = State::fresh();
    let (mut seed, mut sum) = (1u64, 0u64);
    for p in 0..busy {
        state.issue::<KIND>(&board, p, p * 3 % 64, 0).ok();
    }
    for tick in 1..=turns {
        seed = (seed * 1_103_515_245 + 12_345) % 2_147_483_648;
        let p = holder_from(state.holding, place(seed, processors)) as u8;
        let e = (seed / 1_048_576 % 64) as u8;
        for done in [state.complete::<KIND>(&board, p, tick), state.issue::<KIND>(&board, p, e, tick)].into_iter().flatten() {
            sum = (sum * 31 + (done.granted as u64) * 65_536 + (done.entitled as u64) * 2 + done.late as u64) % 4_294_967_296;
        }
        if listed {
            let mut bytes = [0u8; 129];
            list::list(&board, &state, &mut bytes).ok();
            sum = (sum * 31 + bytes[(tick % 129) as usize] as u64) % 4_294_967_296;
        }
    }
    sum
}

/// Reads the plan's bytes, the length of one entry another at each turn.
fn plans(turns: u64) -> u64 {
    let mut bytes = plan::bytes_of(16, 64, &entries());
    let mut sum = 0u64;
    for turn in 0..turns {
        let i = (turn % 64) as usize;
        bytes[12 + 11 * i] = (turn / 64 % 255 + 1) as u8;
        let (taken, length) = match plan::read(&bytes) {
            Ok((taken, plan)) => (taken as u64, plan.entries[i].length as u64),
            Err(_) => (0, 0),
        };
        sum = (sum * 31 + taken % 65_536 * 65_536 + length) % 4_294_967_296;
    }
    sum
}

fn main() {
    let args: Vec<String> = std::env::args().skip(1).collect();
    let words: Vec<&str> = args.iter().map(String::as_str).collect();
    let number = |word: &str| word.parse::<u64>().expect("a number");
    match words[..] {
        ["calls", "lean", busy, turns] => println!("{}", calls::<LEAN>(number(busy) as u8, false, number(turns))),
        ["calls", "plain", busy, turns] => println!("{}", calls::<PLAIN>(number(busy) as u8, false, number(turns))),
        ["calls", "first", busy, turns] => println!("{}", calls::<FIRST>(number(busy) as u8, false, number(turns))),
        ["list", turns] => println!("{}", calls::<PLAIN>(16, true, number(turns))),
        ["reach", turns] => println!("{}", reach::turns(number(turns))),
        ["plans", turns] => println!("{}", plans(number(turns))),
        ["replay"] => replay::replay().expect("a log on standard input"),
        _ => eprintln!("usage: see the head of bench/baseline/src/main.rs"),
    }
}
