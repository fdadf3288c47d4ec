//! Each call as a safe function over slices. An accepted one answers the head to go on with.

use crate::ffi::{self, Extent, Head, Outcome};
use crate::{Moves, Pieces, Refusal, Report, Sizes};

// Safety of each call: the buffers are slices with their own lengths, so they are neither null
// nor misaligned, and those that are written overlap no other.

pub(crate) fn fresh(
    sizes: Sizes,
    extents: &mut [u32],
    blocks: &mut [u32],
    spare: &mut [u32],
) -> Result<Head, Refusal> {
    let Sizes { blocks: b, pages: n, logical: l, slots: m } = sizes;
    let (e, el) = (extents.as_mut_ptr(), extents.len());
    let (k, kl) = (blocks.as_mut_ptr(), blocks.len());
    let (s, sl) = (spare.as_mut_ptr(), spare.len());
    accepted(unsafe { ffi::utasiro_fresh(b, n, l, m, e, el, k, kl, s, sl) }).map(|(head, _)| head)
}

#[allow(clippy::too_many_arguments)]
pub(crate) fn write<'a>(
    head: Head,
    extents: &mut [u32],
    blocks: &mut [u32],
    spare: &mut [u32],
    number: u64,
    start: u32,
    count: u32,
    answer: &'a mut [u32],
) -> Result<(Head, Pieces<'a>), Refusal> {
    let (e, el) = (extents.as_mut_ptr(), extents.len());
    let (k, kl) = (blocks.as_mut_ptr(), blocks.len());
    let (s, sl) = (spare.as_mut_ptr(), spare.len());
    let (a, al) = (answer.as_mut_ptr(), answer.len());
    let outcome = unsafe { ffi::utasiro_write(head, e, el, k, kl, s, sl, number, start, count, a, al) };
    let (head, pieces) = accepted(outcome)?;
    Ok((head, Pieces::of(answer, pieces)))
}

pub(crate) fn trim(
    head: Head,
    extents: &mut [u32],
    blocks: &mut [u32],
    spare: &[u32],
    number: u64,
    start: u32,
    count: u32,
) -> Result<Head, Refusal> {
    let (e, el) = (extents.as_mut_ptr(), extents.len());
    let (k, kl) = (blocks.as_mut_ptr(), blocks.len());
    let (s, sl) = (spare.as_ptr(), spare.len());
    let outcome = unsafe { ffi::utasiro_trim(head, e, el, k, kl, s, sl, number, start, count) };
    accepted(outcome).map(|(head, _)| head)
}

pub(crate) fn read<'a>(
    head: Head,
    extents: &[u32],
    blocks: &[u32],
    spare: &[u32],
    start: u32,
    count: u32,
    answer: &'a mut [u32],
) -> Result<Pieces<'a>, Refusal> {
    let (e, el) = (extents.as_ptr(), extents.len());
    let (k, kl) = (blocks.as_ptr(), blocks.len());
    let (s, sl) = (spare.as_ptr(), spare.len());
    let (a, al) = (answer.as_mut_ptr(), answer.len());
    let outcome = unsafe { ffi::utasiro_read(head, e, el, k, kl, s, sl, start, count, a, al) };
    let (_, pieces) = accepted(outcome)?;
    Ok(Pieces::of(answer, pieces))
}

/// Where `count` logical pages from `start` on are, as [`Borrowed::read`](crate::Borrowed::read) says
/// it, for a host that keeps its extents as records: exactly M of them, one for each slot. It needs
/// 98,304 bytes of stack more than a read over words.
pub fn read_records_into<'a>(
    head: Head,
    extents: &[Extent],
    blocks: &[u32],
    spare: &[u32],
    start: u32,
    count: u32,
    answer: &'a mut [u32],
) -> Result<Pieces<'a>, Refusal> {
    let (e, el) = (extents.as_ptr(), extents.len());
    let (k, kl) = (blocks.as_ptr(), blocks.len());
    let (s, sl) = (spare.as_ptr(), spare.len());
    let (a, al) = (answer.as_mut_ptr(), answer.len());
    let outcome = unsafe { ffi::utasiro_read_records(head, e, el, k, kl, s, sl, start, count, a, al) };
    let (_, pieces) = accepted(outcome)?;
    Ok(Pieces::of(answer, pieces))
}

pub(crate) fn reclaim<'a>(
    head: Head,
    extents: &mut [u32],
    blocks: &mut [u32],
    spare: &mut [u32],
    answer: &'a mut [u32],
) -> Result<(Head, Moves<'a>), Refusal> {
    let (e, el) = (extents.as_mut_ptr(), extents.len());
    let (k, kl) = (blocks.as_mut_ptr(), blocks.len());
    let (s, sl) = (spare.as_mut_ptr(), spare.len());
    let (a, al) = (answer.as_mut_ptr(), answer.len());
    let (after, copied) = accepted(unsafe { ffi::utasiro_reclaim(head, e, el, k, kl, s, sl, a, al) })?;
    // Of a sound state, as an accepted one is: its reserve is a block, so the product is a page.
    let target = head.reserve.wrapping_mul(head.pages);
    Ok((after, Moves { sources: &answer[..copied as usize], target, erase: after.reserve }))
}

pub(crate) fn report(head: Head, extents: &[u32], blocks: &[u32], spare: &[u32]) -> Result<Report, Refusal> {
    let (e, el) = (extents.as_ptr(), extents.len());
    let (k, kl) = (blocks.as_ptr(), blocks.len());
    let (s, sl) = (spare.as_ptr(), spare.len());
    let counts = unsafe { ffi::utasiro_report(head, e, el, k, kl, s, sl) };
    match refusal(counts.refusal) {
        Some(refusal) => Err(refusal),
        None => Ok(Report { free: counts.free, live: counts.live, stale: counts.stale }),
    }
}

/// The head and the count of an accepted call.
fn accepted(outcome: Outcome) -> Result<(Head, u32), Refusal> {
    match refusal(outcome.refusal) {
        Some(refusal) => Err(refusal),
        None => Ok((outcome.head, outcome.count)),
    }
}

/// The refusal of a number, none for 0.
fn refusal(number: u32) -> Option<Refusal> {
    if number == 0 {
        return None;
    }
    let refusal = Refusal::of_number(number);
    Some(refusal.expect("the library is of this crate's version, and gives no other refusal"))
}
