//! The two entries of a count, beside the C library's gmtime_r and timegm.

use crate::library::FlatRecord;
use crate::Times;
use std::hint::black_box;

#[repr(C)]
struct Dated {
    refusal: u32,
    record: FlatRecord,
}

#[repr(C)]
struct Counted {
    refusal: u32,
    count: i64,
}

/// The C library's `struct tm`, which is shorter.
#[repr(C)]
#[derive(Clone, Copy)]
struct Tm([u64; 16]);

extern "C" {
    fn gs_record_from_count(count: i64, offset: i32, nanoseconds: u32, is_utc: u8) -> Dated;
    fn gs_count_from_record(record: FlatRecord) -> Counted;
    fn gmtime_r(count: *const i64, tm: *mut Tm) -> *mut Tm;
    fn timegm(tm: *mut Tm) -> i64;
}

fn record(count: i64) -> FlatRecord {
    // SAFETY: it takes numbers.
    let dated = unsafe { gs_record_from_count(count, 0, 0, 1) };
    assert_eq!(dated.refusal, 0);
    dated.record
}

fn count(record: FlatRecord) -> i64 {
    // SAFETY: it takes numbers.
    let counted = unsafe { gs_count_from_record(record) };
    assert_eq!(counted.refusal, 0);
    counted.count
}

fn broken_down(count: i64) -> Tm {
    let mut tm = Tm([0; 16]);
    // SAFETY: both are there for the call.
    unsafe { gmtime_r(&count, &mut tm) };
    tm
}

fn joined(mut tm: Tm) -> i64 {
    // SAFETY: it is there for the call.
    unsafe { timegm(&mut tm) }
}

fn calls<A: Copy, B>(times: &mut Times, inputs: &[A], call: impl Fn(A) -> B) {
    times.window(|| {
        for &input in inputs {
            black_box(call(black_box(input)));
        }
    });
}

/// Library and C library in turn, window by window, to a record and back.
pub fn race(counts: &[i64], windows: usize) -> [Times; 4] {
    let records: Vec<FlatRecord> = counts.iter().map(|&at| record(at)).collect();
    let tms: Vec<Tm> = counts.iter().map(|&at| broken_down(at)).collect();
    for (at, &expected) in counts.iter().enumerate() {
        assert_eq!(count(records[at]), expected);
        assert_eq!(joined(tms[at]), expected);
    }
    let mut all = [0; 4].map(|_| Times::new());
    let [to, their_to, back, their_back] = &mut all;
    for _ in 0..windows {
        calls(to, counts, record);
        calls(their_to, counts, broken_down);
        calls(back, &records, count);
        calls(their_back, &tms, joined);
    }
    all
}

pub fn print_times([to, their_to, back, their_back]: &[Times; 4]) {
    println!("a count, in ns a call");
    for (who, times) in [
        ("to a record", to),
        ("gmtime_r", their_to),
        ("and back", back),
        ("timegm", their_back),
    ] {
        println!(
            "    {who:<16} {:8.1} {:8.1} {:8.1}",
            times.best(),
            times.median(),
            times.mean()
        );
    }
}
