//! Cases drawn by lot.

use crate::formats::any_format;
use crate::judge::{Case, Judge};
use crate::library::{LONGEST_BUFFER, LONGEST_ZONE};
use crate::lot::Lot;
use crate::records::{any_record, other_zone, printable_zone};

const ROOMS: u64 = 3;

pub fn try_random(judge: &mut Judge, seed: u64, count: u64) {
    let mut lot = Lot::new(seed);
    let mut tried = 0;
    while tried < count {
        let format = any_format(&mut lot);
        let zone = any_zone(&mut lot);
        let record = any_record(&mut lot, 40);
        let reach = judge.reach(&format, &zone, &record);
        for _ in 0..ROOMS.min(count - tried) {
            judge.try_case(&Case {
                format: &format,
                zone: &zone,
                record,
                room: any_room(&mut lot, reach),
            });
            tried += 1;
        }
    }
}

pub fn any_zone(lot: &mut Lot) -> Vec<u8> {
    match lot.below(16) {
        0..=1 => other_zone(lot, LONGEST_ZONE),
        2 if lot.once_in(8) => printable_zone(lot, LONGEST_ZONE + 2),
        _ => printable_zone(lot, LONGEST_ZONE),
    }
}

/// Mostly near the length that the text needs, or comes to before it is refused.
pub fn any_room(lot: &mut Lot, reach: usize) -> usize {
    let room = match lot.below(16) {
        0..=8 => (reach + lot.below(5)).saturating_sub(2),
        9..=11 => lot.below(reach + 1),
        12 => lot.below(4),
        13..=14 => reach + lot.below(200),
        _ if lot.once_in(16) => return LONGEST_BUFFER + 1,
        _ => LONGEST_BUFFER - lot.below(2),
    };
    room.min(LONGEST_BUFFER)
}
