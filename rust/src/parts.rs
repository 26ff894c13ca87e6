//! The functions that the archive exports, as include/bittmelon.h declares them. A reference is a pointer that is not null. An
//! array is lent whole. The functions accept any content, touch only what they are lent, and always return.

#[repr(C)]
pub struct Reply {
    pub refusal: u32,
    pub granted: u32,
    pub entitled: u32,
    pub late: u32,
}

#[repr(C)]
pub struct Answer {
    pub refusal: u32,
    pub value: u64,
}

#[repr(C)]
pub struct Conflict {
    pub refusal: u32,
    pub conflict: u32,
    pub lowest: u32,
    pub count: u32,
}

unsafe extern "C" {
    pub safe fn bittmelon_version_number() -> u32;
    pub fn bittmelon_plan_refusal(bytes: *const u8, count: usize) -> u32;
    pub fn bittmelon_read_figure(bytes: *const u8, count: usize) -> u32;
    pub fn bittmelon_write_figure(bytes: *const u8, count: usize) -> u32;
    pub fn bittmelon_fresh_parts(
        plan: *const u8,
        size: usize,
        processors: &mut u8,
        entries: &mut u8,
        writes: &mut u64,
        lengths: &mut [u16; 64],
        names: &mut [u64; 64],
        widened: &mut [u64; 64],
        rows: &mut [u64; 64],
        last: &mut u64,
        phases: &mut [u32; 3],
        entry: &mut [u8; 32],
        since: &mut [u64; 32],
        earlier: &mut [u32; 32],
    ) -> Answer;
    pub safe fn bittmelon_issue_parts(
        processors: u8,
        entries: u8,
        writes: u64,
        rows: &[u64; 64],
        lengths: &[u16; 64],
        last: &mut u64,
        phases: &mut [u32; 3],
        entry: &mut [u8; 32],
        since: &mut [u64; 32],
        earlier: &mut [u32; 32],
        processor: u8,
        requested: u8,
        tick: u64,
    ) -> Reply;
    pub safe fn bittmelon_complete_parts(
        processors: u8,
        entries: u8,
        writes: u64,
        rows: &[u64; 64],
        lengths: &[u16; 64],
        last: &mut u64,
        phases: &mut [u32; 3],
        entry: &[u8; 32],
        since: &mut [u64; 32],
        earlier: &[u32; 32],
        processor: u8,
        tick: u64,
    ) -> Reply;
    pub safe fn bittmelon_withdraw_parts(
        processors: u8,
        entries: u8,
        writes: u64,
        rows: &[u64; 64],
        lengths: &[u16; 64],
        last: &mut u64,
        phases: &mut [u32; 3],
        entry: &[u8; 32],
        since: &mut [u64; 32],
        earlier: &[u32; 32],
        processor: u8,
        tick: u64,
    ) -> Reply;
    pub safe fn bittmelon_handover_parts(
        processors: u8,
        entries: u8,
        writes: u64,
        rows: &[u64; 64],
        lengths: &[u16; 64],
        last: &mut u64,
        phases: &mut [u32; 3],
        entry: &mut [u8; 32],
        since: &mut [u64; 32],
        earlier: &mut [u32; 32],
        processor: u8,
        requested: u8,
        tick: u64,
    ) -> Reply;
    pub safe fn bittmelon_state_parts(
        processors: u8,
        entries: u8,
        phases: &[u32; 3],
        entry: &[u8; 32],
        processor: u8,
    ) -> Answer;
    pub safe fn bittmelon_waits_parts(
        processors: u8,
        entries: u8,
        writes: u64,
        rows: &[u64; 64],
        phases: &[u32; 3],
        entry: &[u8; 32],
        earlier: &[u32; 32],
        processor: u8,
    ) -> Answer;
    pub fn bittmelon_reach_parts(
        processors: u8,
        entries: u8,
        writes: u64,
        rows: &[u64; 64],
        phases: &[u32; 3],
        entry: &[u8; 32],
        earlier: &[u32; 32],
        processor: u8,
        scratch: *mut u8,
        size: usize,
    ) -> Answer;
    pub fn bittmelon_list_parts(
        processors: u8,
        entries: u8,
        writes: u64,
        rows: &[u64; 64],
        last: u64,
        phases: &[u32; 3],
        entry: &[u8; 32],
        since: &[u64; 32],
        earlier: &[u32; 32],
        buffer: *mut u8,
        size: usize,
    ) -> Answer;
    pub safe fn bittmelon_shared_parts(
        processors: u8,
        entries: u8,
        writes: u64,
        names: &[u64; 64],
        widened: &[u64; 64],
        first: u8,
        second: u8,
    ) -> Conflict;
}

#[cfg(test)]
mod tests {
    use super::*;
    use core::mem::{align_of, offset_of, size_of};

    #[test]
    fn answers_are_laid_out_as_in_c() {
        assert_eq!((size_of::<Reply>(), align_of::<Reply>()), (16, 4));
        assert_eq!((size_of::<Conflict>(), align_of::<Conflict>()), (16, 4));
        assert_eq!((size_of::<Answer>(), align_of::<Answer>()), (16, 8));
        assert_eq!((offset_of!(Answer, refusal), offset_of!(Answer, value)), (0, 8));
    }
}
