//! BitTorrent version 2 hash trees, checked by proved code: a safe layer over `libbtcheck`.
//!
//! ```no_run
//! let torrent = std::fs::read("a.torrent").unwrap();
//! let mut session = btcheck::Session::open(torrent, true).unwrap();
//! # let (index, begin, data) = (0, 0, &[0; 16384]);
//! match session.take_block(index, begin, data) {
//!     Ok(place) => println!("block {} of file {}", place.block, place.file),
//!     Err(refused) => println!("{refused}"),
//! }
//! ```
//!
//! A call that is refused has changed nothing. Names are those of `btcheck.h` in Rust's style.
#![warn(missing_docs)]

// The code of the crates' page is compiled with that of this one.
#[cfg(doctest)]
#[doc = include_str!("../../README.md")]
struct Page;

mod check;
mod create;
mod drafting;
mod error;
mod files;
mod frames;
mod holdings;
mod keeping;
mod messages;
mod places;
mod refusals;
mod root;
mod session;

pub use btcheck_sys::btcheck_ask as Ask;
pub use btcheck_sys::btcheck_piece as Piece;
pub use btcheck_sys::btcheck_piece_range as PieceRange;
pub use check::Check;
pub use create::create;
pub use drafting::{Draft, DraftFile};
pub use error::Error;
pub use files::{File, Files, InfoHashes};
pub use frames::{reject_frame, request_frame, Taken};
pub use holdings::{HeldBlocks, Holdings, Run, Settled};
pub use keeping::Cursor;
pub use messages::{Blocks, Verdict};
pub use places::FileCounts;
pub use refusals::{BlockRefusal, Fault, FaultKind, HashRefusal, Key, TorrentRefusal};
pub use root::{FileRoot, Root};
pub use session::{Counts, Place, Session};

/// A digest of SHA-256.
pub type Hash = [u8; HASH];

/// Bytes of a block that is not its file's last.
pub const BLOCK: usize = btcheck_sys::BTCHECK_BLOCK;
/// Bytes of a hash.
pub const HASH: usize = btcheck_sys::BTCHECK_HASH;

/// The version of the library that is linked as text, `1.1.0` say.
pub fn version_text() -> String {
    let [major, minor, patch] = version();
    format!("{major}.{minor}.{patch}")
}

/// The three numbers of the version of the library that is linked.
pub fn version() -> [u8; 3] {
    // SAFETY: a call without parameters.
    let version = unsafe { btcheck_sys::btcheck_version() };
    [(version >> 16) as u8, (version >> 8) as u8, version as u8]
}
