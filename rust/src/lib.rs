//! Bittmelon: the lock arbiter of a board, for Rust. Proved functions do the work. This crate lends them the fields of a
//! [`Board`] and turns the numbers that they return into values.
//!
//! A board is a plain value: it uses no heap, and nothing is kept elsewhere. Make a board from the bytes of a plan, call it
//! and query it. A call takes `&mut self`, so a board has one caller at a time. Cores that share a board must take turns, for
//! instance with a spin lock; `examples/spinning.rs` shows how.
//!
//! Ticks come from a clock of the caller's, in any unit, but the same unit as the plan's lengths. Nothing here reads a clock.
//! Ticks never go back, and they range from 0 to [`MAX_TICK`]. A mask is a set of processors: bit p is processor p.
//!
//! ```
//! use bittmelon::{Board, Phase, Refusal};
//!
//! // Two processors, one resource, one entry: it writes resource 0, for at most 20 ticks.
//! let plan = [2, 1, 1, 1, 1, 0, 0, 0, 0, 0, 0, 0, 20, 0];
//! let mut board = Board::new(&plan)?;
//! assert!(board.issue(0, 0, 100)?.grants(0));
//! assert_eq!(board.issue(1, 0, 105)?.granted, 0);
//! assert_eq!(board.state(1)?, Phase::Waiting);
//! let reply = board.complete(0, 115)?;
//! assert!(reply.grants(1) && !reply.late);
//! assert_eq!(board.complete(0, 120), Err(Refusal::Idle));
//! # Ok::<(), Refusal>(())
//! ```
//!
//! The archive `libbittmelon.a` is linked from the folder that the environment variable `BITTMELON_LIB` names. If the variable
//! is not set, it is linked from `../target/staticlib`, or, if this crate is installed, from `../../../lib`. Both paths are
//! relative to this crate's folder.
#![no_std]
#![warn(missing_docs)]
#![deny(unsafe_op_in_unsafe_fn)]

mod board;
mod parts;
mod plans;
mod refusal;

pub use board::{Board, Phase, Reply, Shared};
pub use plans::{figures, version, Figures};
pub use refusal::Refusal;

/// The version of this crate. [`version`] returns the version of the archive.
pub const VERSION: &str = env!("CARGO_PKG_VERSION");

/// The most processors of a plan.
pub const MAX_PROCESSORS: usize = 32;

/// The most resources of a plan.
pub const MAX_RESOURCES: usize = 64;

/// The most entries of a plan.
pub const MAX_ENTRIES: usize = 64;

/// The most bytes that a plan takes: 3, and 11 for each entry.
pub const MAX_PLAN_BYTES: usize = 3 + 11 * MAX_ENTRIES;

/// The most bytes that the scratch of a [`Board::reach`] needs. For up to 16 processors, 32 bytes are enough.
pub const MAX_SCRATCH_BYTES: usize = 128;

/// The most bytes that a [`Board::list`] takes. A list takes 1 byte, and for each processor 8 bytes if there are up to 16
/// processors and 10 if there are more.
pub const MAX_LIST_BYTES: usize = 1 + 10 * MAX_PROCESSORS;

/// The largest tick, 1,099,511,627,775: 40 bits.
pub const MAX_TICK: u64 = (1 << 40) - 1;

/// The former name of [`MAX_PLAN_BYTES`], kept for one version.
#[deprecated(since = "3.2.0", note = "use MAX_PLAN_BYTES")]
pub const PLAN_ROOM: usize = MAX_PLAN_BYTES;

/// The former name of [`MAX_SCRATCH_BYTES`], kept for one version.
#[deprecated(since = "3.2.0", note = "use MAX_SCRATCH_BYTES")]
pub const SCRATCH_ROOM: usize = MAX_SCRATCH_BYTES;

/// The former name of [`MAX_LIST_BYTES`], kept for one version.
#[deprecated(since = "3.2.0", note = "use MAX_LIST_BYTES")]
pub const LIST_ROOM: usize = MAX_LIST_BYTES;

/// The former name of [`MAX_TICK`], kept for one version.
#[deprecated(since = "3.2.0", note = "use MAX_TICK")]
pub const LAST_TICK: u64 = MAX_TICK;
