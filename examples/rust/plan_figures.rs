//! Prints the two figures of a plan file, or the number of its refusal.
//! usage: plan_figures FILE
//! Exit status: 0 for an accepted plan, 1 for a refused plan, 2 if there is no file.
//! The figures are guaranteed if every holder keeps to its entry's declared length. If even one hold is longer, they promise
//! nothing.
use std::process::ExitCode;

/// The viewer's functions, as include/bittmelon.h declares them. Nothing checks these declarations against the library.
mod viewer {
    unsafe extern "C" {
        fn bittmelon_plan_refusal(bytes: *const u8, count: usize) -> u32;
        fn bittmelon_read_figure(bytes: *const u8, count: usize) -> u32;
        fn bittmelon_write_figure(bytes: *const u8, count: usize) -> u32;
    }

    /// The two figures of the plan at the start of the bytes, or the number of its refusal.
    pub fn figures(plan: &[u8]) -> Result<(u32, u32), u32> {
        // The library accepts any bytes and only reads them.
        unsafe {
            match bittmelon_plan_refusal(plan.as_ptr(), plan.len()) {
                0 => Ok((bittmelon_read_figure(plan.as_ptr(), plan.len()), bittmelon_write_figure(plan.as_ptr(), plan.len()))),
                number => Err(number),
            }
        }
    }
}

fn main() -> ExitCode {
    let Some(Ok(plan)) = std::env::args().nth(1).map(std::fs::read) else {
        eprintln!("usage: plan_figures FILE");
        return ExitCode::from(2);
    };
    match viewer::figures(&plan) {
        Ok((read, write)) => {
            println!("read {read} write {write}");
            ExitCode::SUCCESS
        }
        Err(number) => {
            println!("refused {number}");
            ExitCode::FAILURE
        }
    }
}
