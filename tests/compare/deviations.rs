//! Where the library is meant to answer otherwise than the original as it stands.
//! `deviations/NAME.edit` makes the judge of the original, `deviations/NAME.rs` says which cases that touches.

#[path = "deviations/day_366.rs"]
mod day_366;
#[path = "deviations/zone_bytes.rs"]
mod zone_bytes;

use crate::judge::Case;
use crate::reading::ends_inside;

pub const DEVIATIONS: [Deviation; 2] = [day_366::DEVIATION, zone_bytes::DEVIATION];

pub struct Deviation {
    /// The cases that may be answered otherwise.
    pub touched: Cases,
    /// Their neighbours, which are answered as before.
    pub beside: Cases,
}

pub struct Cases {
    pub what: &'static str,
    pub hold: fn(&Case) -> bool,
}

/// Whether the format has a directive of one of these letters.
fn reads(format: &[u8], letters: &[u8]) -> bool {
    let mut read = false;
    ends_inside(format, |letter| read |= letters.contains(&letter));
    read
}
