//! Years and offsets that are gone through one by one.

/// Two spans of 400 years, and twenty years at each end of the type.
pub fn every_year() -> impl Iterator<Item = i32> {
    (-400..0)
        .chain(1800..2200)
        .chain(i32::MIN..i32::MIN + 20)
        .chain(i32::MAX - 19..=i32::MAX)
}

/// Every half hour of a day either way, every second around zero, and the neighbours of
/// the tenth hour, of the hundredth and of the ends of the type.
pub fn every_offset() -> impl Iterator<Item = i32> {
    let around = |n: i32| (n - 70..=n + 70).chain(-n - 70..=-n + 70);
    (-48..=48)
        .map(|n| n * 1800)
        .chain(-3700..=3700)
        .chain(around(36_000))
        .chain(around(360_000))
        .chain(i32::MIN..=i32::MIN + 70)
        .chain(i32::MAX - 70..=i32::MAX)
}
