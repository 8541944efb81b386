//! `strftime` into a buffer that the caller lends: the library Groatsaddle, which is written in
//! Rattle and proved, in the shape of the crate strftime-ruby.
//!
//! A program that uses `strftime::buffered::strftime` changes the crate's name:
//!
//! ```
//! use groatsaddle::{buffered::strftime, Time};
//!
//! struct Sale;
//!
//! impl Time for Sale {
//!     fn year(&self) -> i32 { 2024 }
//!     fn month(&self) -> u8 { 12 }
//!     fn day(&self) -> u8 { 30 }
//!     fn hour(&self) -> u8 { 17 }
//!     fn minute(&self) -> u8 { 5 }
//!     fn second(&self) -> u8 { 9 }
//!     fn nanoseconds(&self) -> u32 { 123_456_789 }
//!     fn day_of_week(&self) -> u8 { 1 }
//!     fn day_of_year(&self) -> u16 { 365 }
//!     fn to_int(&self) -> i64 { 1_735_574_709 }
//!     fn is_utc(&self) -> bool { false }
//!     fn utc_offset(&self) -> i32 { 3600 }
//!     fn time_zone(&self) -> &str { "CET" }
//! }
//!
//! let mut line = [0; 64];
//! let text = strftime(&Sale, b"%F %T %z, week %V", &mut line)?;
//! assert_eq!(text, b"2024-12-30 17:05:09 +0100, week 01");
//! # Ok::<(), groatsaddle::Error>(())
//! ```
//!
//! A [`Record`] is such a time too, and is made from a count of seconds. [`Runs`] takes a format that
//! arrives in parts, and [`Compiled`] reads one once and runs it many times.
//!
//! Text and errors are the original's, but for these: an error changes no byte of the buffer, every
//! method of [`Time`] is called once whatever the format reads, day 366 of a common year and a zone
//! name with a byte below 32 or above 126 are [`Error::InvalidTime`] where a directive reads them, and
//! longer inputs than [`LONGEST_FORMAT`], [`LONGEST_ZONE`] and [`LONGEST_BUFFER`] are
//! [`Error::InputTooLong`]. The errors of the original's other writers (`FmtError`, `OutOfMemory`,
//! `IoError`) are not there.

#![no_std]

mod abi;
pub mod buffered;
mod compiled;
mod error;
mod record;
mod runs;
mod size;
mod time;

pub use compiled::Compiled;
pub use error::Error;
pub use record::Record;
pub use runs::Runs;
pub use size::size;
pub use time::Time;

/// The longest format, in bytes.
pub const LONGEST_FORMAT: usize = 4096;
/// The longest zone name, in bytes.
pub const LONGEST_ZONE: usize = 64;
/// The longest buffer, in bytes.
pub const LONGEST_BUFFER: usize = 65_536;
/// The longest run of a format, in bytes.
pub const LONGEST_RUN: usize = 32;
/// The longest stored form of a format, in bytes.
pub const LONGEST_STORED: usize = 22_534;

/// Format string used by Ruby's `Time#asctime`.
pub const ASCTIME_FORMAT_STRING: &str = "%c";
