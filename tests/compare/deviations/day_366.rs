//! 02, request 2: day 366 of a common year is InvalidTime for `j U W V G g`.

use super::{reads, Cases, Deviation};
use crate::judge::Case;
use crate::records::leap;

pub const DEVIATION: Deviation = Deviation {
    touched: Cases {
        what: "day 366 of a common year is read",
        hold: |case| !leap(case.record.year) && day_366_is_read(case),
    },
    beside: Cases {
        what: "day 366 of a leap year is read",
        hold: |case| leap(case.record.year) && day_366_is_read(case),
    },
};

fn day_366_is_read(case: &Case) -> bool {
    case.record.day_of_year == 366 && reads(case.format, b"jUWVGg")
}
