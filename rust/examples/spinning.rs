//! Six threads share a board, as cores do. Each thread requests entries of a plan and spins until its request is granted.
//! usage: spinning [SECONDS [LOG LISTING]]
//!
//! Calls are made one at a time, under a spin lock. The thread that makes a call publishes who began to hold in it, by setting
//! a flag for each such thread. A waiting thread spins on its own flag only. Now and then a waiting thread withdraws, and some
//! holders hand over. While a thread holds, it checks that no conflicting thread holds too. Ticks are microseconds since the
//! start.
//!
//! LOG receives the plan and the first calls as they were made, at most 65,535. LISTING receives the answers to them, as
//! lockreplay prints them for that log. Exit status: 0, or 1 if a conflicting holder was seen or a call was refused that should
//! not have been.
use bittmelon::{figures, Board, Refusal, Reply};
use std::cell::UnsafeCell;
use std::error::Error;
use std::fmt::Write;
use std::process::ExitCode;
use std::sync::atomic::{AtomicBool, AtomicU32, AtomicU64, Ordering};
use std::time::{Duration, Instant};
use std::{env, fs, thread};

const THREADS: u8 = 6;
const RESOURCES: u8 = 4;
const LOGGED: usize = 65_535;
/// What a writer adds to a resource's count of holders; a reader adds 1.
const WRITER: u32 = 0x10000;

struct Entry {
    writes: bool,
    /// Bit r is resource r.
    names: u8,
    /// In ticks.
    length: u16,
}

const fn entry(writes: bool, names: u8, length: u16) -> Entry {
    Entry { writes, names, length }
}

const PLAN: [Entry; 8] = [
    entry(false, 0x1, 60),
    entry(false, 0x3, 60),
    entry(false, 0xc, 60),
    entry(false, 0xf, 80),
    entry(true, 0x1, 40),
    entry(true, 0x6, 40),
    entry(true, 0x8, 50),
    entry(true, 0x5, 50),
];

fn plan_bytes() -> Vec<u8> {
    let mut bytes = vec![THREADS, RESOURCES, PLAN.len() as u8];
    for entry in &PLAN {
        bytes.push(entry.writes as u8);
        bytes.extend((entry.names as u64).to_le_bytes());
        bytes.extend(entry.length.to_le_bytes());
    }
    bytes
}

#[derive(Clone, Copy)]
enum Verb {
    Issue = 0,
    Complete = 1,
    Withdraw = 2,
    Handover = 3,
}

/// What the spin lock protects: the board, and the log of its calls.
struct Turns {
    board: Board,
    last: u64,
    made: u64,
    late: u64,
    refused: u64,
    log: Vec<u8>,
    lines: String,
}

/// A value that a spin lock protects.
struct Spinning<T> {
    taken: AtomicBool,
    value: UnsafeCell<T>,
}

// SAFETY: only `with` accesses the value, and only for one thread at a time.
unsafe impl<T: Send> Sync for Spinning<T> {}

impl<T> Spinning<T> {
    fn new(value: T) -> Spinning<T> {
        Spinning { taken: AtomicBool::new(false), value: UnsafeCell::new(value) }
    }

    fn with<R>(&self, act: impl FnOnce(&mut T) -> R) -> R {
        while self.taken.swap(true, Ordering::Acquire) {
            thread::yield_now();
        }
        // SAFETY: the thread that set the flag is the only one here.
        let result = act(unsafe { &mut *self.value.get() });
        self.taken.store(false, Ordering::Release);
        result
    }
}

struct Shared {
    start: Instant,
    stop: AtomicBool,
    turns: Spinning<Turns>,
    /// The thread that makes the granting call sets it, and the granted thread clears it.
    granted: [AtomicBool; THREADS as usize],
    holders: [AtomicU32; RESOURCES as usize],
    violations: AtomicU64,
    holds: AtomicU64,
    withdrawn: AtomicU64,
    handed_over: AtomicU64,
}

impl Shared {
    fn now(&self) -> u64 {
        self.start.elapsed().as_micros() as u64
    }

    /// Makes a call and publishes which threads it granted.
    fn call(&self, verb: Verb, processor: u8, entry: u8) -> Result<Reply, Refusal> {
        self.turns.with(|turns| {
            let tick = self.now().max(turns.last);
            turns.last = tick;
            let answer = match verb {
                Verb::Issue => turns.board.issue(processor, entry, tick),
                Verb::Complete => turns.board.complete(processor, tick),
                Verb::Withdraw => turns.board.withdraw(processor, tick),
                Verb::Handover => turns.board.handover(processor, entry, tick),
            };
            if let Ok(reply) = answer {
                (0..THREADS)
                    .filter(|who| reply.grants(*who))
                    .for_each(|who| self.granted[who as usize].store(true, Ordering::Release));
            }
            turns.note(verb, processor, entry, tick, answer);
            answer
        })
    }

    fn count(&self, what: &AtomicU64) {
        what.fetch_add(1, Ordering::Relaxed);
    }

    /// Holds for this many microseconds, and checks for a conflicting holder: a writer together with anybody else.
    fn hold(&self, entry: &Entry, ticks: u64) {
        let named = || (0..RESOURCES).filter(|r| entry.names >> r & 1 == 1).map(|r| &self.holders[r as usize]);
        let mine = if entry.writes { WRITER } else { 1 };
        for holders in named() {
            let others = holders.fetch_add(mine, Ordering::SeqCst);
            if if entry.writes { others != 0 } else { others >= WRITER } {
                self.count(&self.violations);
            }
        }
        let until = self.now() + ticks;
        while self.now() < until {
            std::hint::spin_loop();
        }
        for holders in named() {
            holders.fetch_sub(mine, Ordering::SeqCst);
        }
        self.count(&self.holds);
    }

    /// Spins until the thread's request is granted, and returns whether it holds. If `looks` is given, withdraws after that many
    /// looks.
    fn wait_for_grant(&self, processor: u8, looks: Option<u32>) -> bool {
        let mut looked = 0;
        while !self.granted[processor as usize].load(Ordering::Acquire) {
            if Some(looked) == looks {
                match self.call(Verb::Withdraw, processor, 0) {
                    Ok(_) => {
                        self.count(&self.withdrawn);
                        return false;
                    }
                    Err(Refusal::Held) => {} // granted in the meantime
                    Err(_) => self.count(&self.violations),
                }
            }
            looked = looked.saturating_add(1);
            thread::yield_now();
        }
        true
    }

    fn must(&self, verb: Verb, processor: u8, entry: u8) {
        self.granted[processor as usize].store(false, Ordering::Relaxed);
        if self.call(verb, processor, entry).is_err() {
            self.count(&self.violations);
        }
    }

    fn run(&self, processor: u8) {
        let mut seed = processor as u32 + 1;
        let mut next = |below: u32| {
            seed = seed.wrapping_mul(1_103_515_245).wrapping_add(12_345);
            (seed >> 8) % below
        };
        let stopped = || self.stop.load(Ordering::Relaxed);
        while !stopped() {
            let mut entry = next(PLAN.len() as u32) as u8;
            self.must(Verb::Issue, processor, entry);
            loop {
                let looks = (next(4) == 0).then(|| 1 + next(20));
                if !self.wait_for_grant(processor, looks) {
                    break;
                }
                self.hold(&PLAN[entry as usize], next(30) as u64);
                if stopped() || next(3) != 0 {
                    self.must(Verb::Complete, processor, 0);
                    break;
                }
                entry = next(PLAN.len() as u32) as u8;
                self.must(Verb::Handover, processor, entry);
                self.count(&self.handed_over);
            }
        }
    }
}

impl Turns {
    /// Records the call in the log and in the listing, while there is room.
    fn note(&mut self, verb: Verb, processor: u8, entry: u8, tick: u64, answer: Result<Reply, Refusal>) {
        self.made += 1;
        self.refused += answer.is_err() as u64;
        self.late += answer.is_ok_and(|reply| reply.late) as u64;
        if self.log.len() == 8 * LOGGED {
            return;
        }
        self.log.extend([verb as u8, processor, entry]);
        self.log.extend(&tick.to_le_bytes()[..5]);
        write!(self.lines, "{tick} {} {processor} ", ["i", "c", "w", "h"][verb as usize]).unwrap();
        match answer {
            Ok(Reply { granted, entitled, late }) => writeln!(self.lines, "{granted:04x} {entitled:04x} {}", late as u8),
            Err(refusal) => writeln!(self.lines, "refused {}", refusal.number()),
        }
        .unwrap();
    }

    fn write(&self, log: &str, listing: &str) -> Result<(), Box<dyn Error>> {
        let plan = plan_bytes();
        let count = (self.log.len() / 8) as u16;
        fs::write(log, [&plan[..], &count.to_le_bytes(), &self.log].concat())?;
        let waits = figures(&plan)?;
        let (entries, lines) = (PLAN.len(), &self.lines);
        let head =
            format!("processors {THREADS} resources {RESOURCES} entries {entries} read {} write {}", waits.read, waits.write);
        fs::write(listing, format!("{head}\n{lines}"))?;
        Ok(())
    }
}

fn main() -> Result<ExitCode, Box<dyn Error>> {
    let arguments: Vec<String> = env::args().skip(1).collect();
    let seconds = arguments.first().map_or(Ok(3.0), |text| text.parse())?;
    let lines = String::with_capacity(40 * LOGGED);
    let board = Board::new(&plan_bytes())?;
    let shared = Shared {
        start: Instant::now(),
        stop: AtomicBool::new(false),
        turns: Spinning::new(Turns {
            board,
            last: 0,
            made: 0,
            late: 0,
            refused: 0,
            log: Vec::with_capacity(8 * LOGGED),
            lines,
        }),
        granted: Default::default(),
        holders: Default::default(),
        violations: AtomicU64::new(0),
        holds: AtomicU64::new(0),
        withdrawn: AtomicU64::new(0),
        handed_over: AtomicU64::new(0),
    };
    thread::scope(|scope| {
        for processor in 0..THREADS {
            let shared = &shared;
            scope.spawn(move || shared.run(processor));
        }
        thread::sleep(Duration::from_secs_f64(seconds));
        shared.stop.store(true, Ordering::Relaxed);
    });
    let Shared { turns, violations, holds, withdrawn, handed_over, .. } = shared;
    let turns = turns.value.into_inner();
    let [violations, holds, withdrawn, handed_over] = [violations, holds, withdrawn, handed_over].map(AtomicU64::into_inner);
    println!(
        "calls {} logged {} holds {holds} withdrawn {withdrawn} handed over {handed_over} refused {} late {} violations {violations}",
        turns.made,
        turns.log.len() / 8,
        turns.refused,
        turns.late
    );
    if let [_, log, listing] = &arguments[..] {
        turns.write(log, listing)?;
    }
    Ok(if violations == 0 { ExitCode::SUCCESS } else { ExitCode::FAILURE })
}
