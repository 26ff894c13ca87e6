//! The library's programs against the twin, byte for byte, on many logs.
use crate::conflicts;
use crate::listing::listing;
use crate::logs;
use crate::registers;
use std::fs::{self, File};
use std::io::{self, Read, Seek, Write};
use std::process::{self, Command};
use std::thread;

/// A program with its standard input and output: two files without a name, used again for each run. A pipe would wake the twin
/// for every piece that the program writes.
pub struct Runner<'a> {
    program: &'a str,
    input: File,
    output: File,
}

impl Runner<'_> {
    pub fn new(program: &str) -> io::Result<Runner<'_>> {
        let file = |name: &str| {
            let path = std::env::temp_dir().join(format!("twin-{}-{:?}-{name}", process::id(), thread::current().id()));
            let file = File::options().read(true).write(true).create_new(true).open(&path);
            fs::remove_file(&path).and(file)
        };
        Ok(Runner { program, input: file("input")?, output: file("output")? })
    }

    /// What the program writes to standard output for the bytes on its standard input.
    pub fn output_of(&mut self, input: &[u8]) -> io::Result<Vec<u8>> {
        for file in [&mut self.input, &mut self.output] {
            file.set_len(0)?;
            file.rewind()?;
        }
        self.input.write_all(input)?;
        self.input.rewind()?;
        Command::new(self.program).stdin(self.input.try_clone()?).stdout(self.output.try_clone()?).status()?;
        let mut bytes = Vec::new();
        self.output.rewind()?;
        self.output.read_to_end(&mut bytes)?;
        Ok(bytes)
    }
}

/// Where the outputs for a seed differ, its input is written to the folder, for a replay.
fn differs(runner: &mut Runner, kind: &str, seed: u64, folder: &str) -> bool {
    let (input, mut want) = (input_of(kind, seed), Vec::new());
    match kind {
        "conflicts" => conflicts::listing(&input, &mut want),
        "registers" => drop(registers::listing(&input, &mut want)),
        _ => listing(&input, kind == "queries", &mut want),
    }
    let fine = runner.output_of(&input).expect("the program runs") == want;
    if !fine {
        let path = format!("{folder}/failed_{seed}.log");
        fs::write(&path, &input).expect("a place for the failing input");
        println!("{kind} {seed} differs: replay {path}");
    }
    !fine
}

/// A log; with all queries after each call a short one; for the conflicts of a plan what the log begins with, damaged or not;
/// for registers a plan and operations.
fn input_of(kind: &str, seed: u64) -> Vec<u8> {
    match kind {
        "replay" => logs::log(seed),
        "registers" => registers::stream(seed),
        _ => logs::short(seed),
    }
}

/// Writes the inputs of a comparison as files of a folder, each named by its seed.
pub fn write_logs(kind: &str, from: u64, count: u64, folder: &str) -> bool {
    (from..from + count).all(|seed| fs::write(format!("{folder}/{seed}"), input_of(kind, seed)).is_ok())
}

/// Compares the outputs for the seeds `from` to `from + count`, in two threads.
pub fn compare(program: &str, kind: &str, from: u64, count: u64, folder: &str) -> bool {
    let part = |odd: u64| {
        let mut runner = Runner::new(program).expect("a place for two files");
        (from..from + count).filter(|seed| seed % 2 == odd && differs(&mut runner, kind, *seed, folder)).count() as u64
    };
    let failed = thread::scope(|scope| {
        let other = scope.spawn(|| part(1));
        part(0) + other.join().expect("the other thread ends")
    });
    println!("{} passed, {failed} failed", count - failed);
    failed == 0
}
