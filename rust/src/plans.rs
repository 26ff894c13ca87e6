//! The figures of a plan, from its bytes alone, and the version of the archive.
use crate::parts;
use crate::refusal::{unless_refused, Refusal};

/// The longest times that requests of a plan wait, in ticks. The figures are guaranteed if every holder keeps to its entry's
/// declared length. If even one hold is longer, they promise nothing.
#[derive(Clone, Copy, Debug, PartialEq, Eq)]
pub struct Figures {
    /// The longest time that a read waits: Lr + Lw.
    pub read: u32,
    /// The longest time that a write waits: (m - 1) x (Lr + Lw).
    pub write: u32,
}

/// The figures of the plan at the start of the bytes. Bytes after the plan are ignored.
///
/// ```
/// use bittmelon::{figures, Figures, Refusal};
///
/// // Three processors, one resource; entry 0 reads it for at most 5 ticks, and entry 1 writes it for at most 20.
/// let plan = [3, 1, 2, 0, 1, 0, 0, 0, 0, 0, 0, 0, 5, 0, 1, 1, 0, 0, 0, 0, 0, 0, 0, 20, 0];
/// assert_eq!(figures(&plan), Ok(Figures { read: 25, write: 50 }));
/// assert_eq!(figures(&plan[..20]), Err(Refusal::Short));
/// ```
pub fn figures(plan: &[u8]) -> Result<Figures, Refusal> {
    let (bytes, count) = (plan.as_ptr(), plan.len());
    // SAFETY: the functions only read these bytes. They keep no pointer.
    let (refusal, read, write) = unsafe {
        (
            parts::bittmelon_plan_refusal(bytes, count),
            parts::bittmelon_read_figure(bytes, count),
            parts::bittmelon_write_figure(bytes, count),
        )
    };
    unless_refused(refusal, Figures { read, write })
}

/// The version of the archive: 10000 x major + 100 x minor + patch.
///
/// ```
/// assert_eq!(bittmelon::version(), 30200);
/// ```
pub fn version() -> u32 {
    parts::bittmelon_version_number()
}
