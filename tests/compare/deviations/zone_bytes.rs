//! 02, request 5: a zone byte is 32 to 126, else `Z` is InvalidTime. From 128 on it is so in the original too.

use super::{reads, Cases, Deviation};

pub const DEVIATION: Deviation = Deviation {
    touched: Cases {
        what: "a zone byte below 32 or of 127 is read, and none from 128 on",
        hold: |case| case.zone.is_ascii() && !printable(case.zone) && reads(case.format, b"Z"),
    },
    beside: Cases {
        what: "a zone byte of 32 or 126 is read, and none outside of them",
        hold: |case| {
            let at_the_ends = case.zone.contains(&32) || case.zone.contains(&126);
            at_the_ends && printable(case.zone) && reads(case.format, b"Z")
        },
    },
};

fn printable(zone: &[u8]) -> bool {
    zone.iter().all(|byte| matches!(byte, 32..=126))
}
