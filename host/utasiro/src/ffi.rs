//! The calls as the library exports them. include/utasiro.h says what is lent and
//! what comes back; these declarations must say the same.

/// What goes in and comes back by value with every call. A host that kept its fields sets
/// them in `Head::default()`.
#[repr(C)]
#[non_exhaustive]
#[derive(Clone, Copy, Debug, Default, PartialEq, Eq)]
pub struct Head {
    /// B, the blocks of the device.
    pub blocks: u32,
    /// N, the pages of a block.
    pub pages: u32,
    /// L, the logical pages.
    pub logical: u32,
    /// M, the extent slots.
    pub slots: u32,
    /// Extents in use.
    pub used: u32,
    /// The reserve block.
    pub reserve: u32,
    /// The last accepted request number.
    pub last: u64,
}

/// An extent record: the three words of a slot, in their order.
#[repr(C)]
#[derive(Clone, Copy, Debug, Default, PartialEq, Eq)]
pub struct Extent {
    /// Logical start.
    pub logical: u32,
    /// Physical start.
    pub physical: u32,
    /// Page count.
    pub count: u32,
}

/// What fresh, write, trim, the reads and reclaim return.
#[repr(C)]
#[derive(Clone, Copy, Debug, PartialEq, Eq)]
pub struct Outcome {
    /// 0 is accepted.
    pub refusal: u32,
    /// Pieces of a write or a read, copied pages of a reclaim, 0 for fresh and trim.
    pub count: u32,
    pub head: Head,
}

/// What report returns.
#[repr(C)]
#[derive(Clone, Copy, Debug, PartialEq, Eq)]
pub struct Counts {
    /// 0 is accepted.
    pub refusal: u32,
    pub free: u32,
    pub live: u32,
    pub stale: u32,
    pub head: Head,
}

// Safety, for each: no pointer is null, each is aligned, so many words, or records,
// from it on may be read and, but for `*const` ones, written, and no two buffers
// overlap.
extern "C" {
    /// May be called from anywhere: it takes nothing.
    pub fn utasiro_version() -> u32;

    pub fn utasiro_fresh(
        blocks: u32,
        pages: u32,
        logical: u32,
        slots: u32,
        extents: *mut u32,
        extents_len: usize,
        blocks_words: *mut u32,
        blocks_len: usize,
        spare: *mut u32,
        spare_len: usize,
    ) -> Outcome;

    pub fn utasiro_write(
        head: Head,
        extents: *mut u32,
        extents_len: usize,
        blocks: *mut u32,
        blocks_len: usize,
        spare: *mut u32,
        spare_len: usize,
        number: u64,
        start: u32,
        count: u32,
        answer: *mut u32,
        answer_len: usize,
    ) -> Outcome;

    pub fn utasiro_trim(
        head: Head,
        extents: *mut u32,
        extents_len: usize,
        blocks: *mut u32,
        blocks_len: usize,
        spare: *const u32,
        spare_len: usize,
        number: u64,
        start: u32,
        count: u32,
    ) -> Outcome;

    pub fn utasiro_read(
        head: Head,
        extents: *const u32,
        extents_len: usize,
        blocks: *const u32,
        blocks_len: usize,
        spare: *const u32,
        spare_len: usize,
        start: u32,
        count: u32,
        answer: *mut u32,
        answer_len: usize,
    ) -> Outcome;

    /// `extents_len` is in records.
    pub fn utasiro_read_records(
        head: Head,
        extents: *const Extent,
        extents_len: usize,
        blocks: *const u32,
        blocks_len: usize,
        spare: *const u32,
        spare_len: usize,
        start: u32,
        count: u32,
        answer: *mut u32,
        answer_len: usize,
    ) -> Outcome;

    pub fn utasiro_reclaim(
        head: Head,
        extents: *mut u32,
        extents_len: usize,
        blocks: *mut u32,
        blocks_len: usize,
        spare: *mut u32,
        spare_len: usize,
        answer: *mut u32,
        answer_len: usize,
    ) -> Outcome;

    pub fn utasiro_report(
        head: Head,
        extents: *const u32,
        extents_len: usize,
        blocks: *const u32,
        blocks_len: usize,
        spare: *const u32,
        spare_len: usize,
    ) -> Counts;
}
