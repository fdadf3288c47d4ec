//! A flash translation layer, proved: it keeps which physical page holds each
//! logical page, and lists what the host must program, copy and erase. It does not
//! touch page contents.
//!
//! A device has B blocks of N pages; L logical pages; and M extent slots, an extent being a run of
//! logical pages that lie one after the other in one block. One block is in reserve. Its state is a
//! [`Head`] and three buffers of words: of the extents, of the [`Block`] records, and of the spare labels.
//!
//! Four layers, from the bottom:
//! - [`ffi`]: the calls as the library exports them;
//! - [`Borrowed`]: a safe device over words that are lent to it. It needs neither `std` nor an
//!   allocator: `default-features = false` leaves the rest out;
//! - [`Device`]: a device that owns its words, and answers with lists;
//! - [`Store`]: a device on a [`Board`], in the order that outlives a crash. [`SimulatedBoard`] is one
//!   for trying things out.
//!
//! [`read_records`] and [`read_records_into`] are for a host that keeps its extents as records.
//!
//! # When the device is full
//!
//! A write that is refused [`NoPages`](Refusal::NoPages) fits after some reclaims: reclaim, do as it lists, and write
//! again, as [`Store::write_making_room`] does. It takes at most B-1 reclaims, each accepted, and then the write is
//! accepted, where it is in range and its number is new, and the extents in use plus its pages plus 1 are at most M or
//! M is at least L. With fewer slots it may be refused [`NoNodes`](Refusal::NoNodes), and reclaiming does not help. So M
//! is L where that is at most 8,192, and otherwise as many runs as the map may break into: a write of n pages adds at
//! most n + 1 extents, a trim at most 1.
//!
//! # What a call costs
//!
//! Every call but fresh tests the whole state, so it reads every word of it ([`Sizes`] counts them). On Arm, with the
//! library recompiled, a report, which is hardly more than the test, took as long on the largest device as one sum over
//! these words with few extents in use, and 2.1 to 4.1 times as long with 8,192, by how they lie. A read, a trim and a
//! write of 48 pages took up to 1.1 times as long as a report there, a read of all pages up to 1.5 times and a reclaim
//! up to 1.1 times. 8 KB of stack do for any of them but a read over records, which takes 98,304 bytes more.
//!
//! # A request sent again
//!
//! Every write and trim has a number. A request that is sent again is refused:
//!
//! ```
//! use utasiro::{Device, Piece, Refusal, Sizes};
//!
//! let mut device = Device::fresh(Sizes { blocks: 4, pages: 16, logical: 32, slots: 16 })?;
//! let pieces = device.write(1, 0, 2)?;
//! assert_eq!(pieces, [Piece { logical: 0, physical: 0, count: 2 }]);
//!
//! let before = device.clone();
//! assert_eq!(device.write(1, 0, 2), Err(Refusal::Applied));
//! assert_eq!(device, before);
//! # Ok::<(), Refusal>(())
//! ```

#![no_std]

#[cfg(feature = "std")]
extern crate std;

mod answer;
mod block;
#[cfg(feature = "std")]
mod board;
mod borrowed;
mod calls;
#[cfg(feature = "std")]
mod device;
pub mod ffi;
#[cfg(feature = "std")]
mod flash;
mod refusal;
#[cfg(feature = "std")]
mod store;

pub use answer::{Moves, Piece, Pieces, Report, Sizes};
pub use block::Block;
#[cfg(feature = "std")]
pub use board::{Board, Saved, SimulatedBoard};
pub use borrowed::Borrowed;
pub use calls::read_records_into;
#[cfg(feature = "std")]
pub use device::{read_records, Device, Reclaimed};
pub use ffi::{Extent, Head};
#[cfg(feature = "std")]
pub use flash::{Fault, Flash};
pub use refusal::Refusal;
#[cfg(feature = "std")]
pub use store::{Failure, Store};

/// The physical start of a hole in a read.
pub const HOLE: u32 = 4_294_967_295;

/// The label of an erased page.
pub const ERASED: u32 = 4_294_967_295;

/// The version that this crate was written for, 0.2.0 as 200.
pub const VERSION: u32 = 200;

/// The version of the library that is linked.
///
/// ```
/// assert_eq!(utasiro::version(), utasiro::VERSION);
/// ```
pub fn version() -> u32 {
    // Safety: it takes nothing and changes nothing.
    unsafe { ffi::utasiro_version() }
}
