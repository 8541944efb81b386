//! A compiled format, which the original does not have.

mod sale;

use groatsaddle::buffered::strftime;
use groatsaddle::{
    Compiled, Error, Record, LONGEST_BUFFER, LONGEST_FORMAT, LONGEST_STORED, LONGEST_ZONE,
};
use sale::{MONTH_13, SALE};

#[test]
fn as_its_format() {
    let formats: [&[u8]; 9] = [
        b"",
        b"plain",
        b"%A, %-d %B %Y, %T.%L %Z (%:z), week %G-W%V",
        b"a%:z%::z%:::z%::::z%E%EY%OdE%5%%Q%2147483648Yx%:",
        b"%-_0^#0000000000000000000000000000000000000000000000000000000012d",
        b"%X|%x|%h|%-12D|%_20z|%12N",
        b"%9999999A",
        b"ab%20Dx",
        b"%80A%80B%80a",
    ];
    for format in formats {
        let compiled: Compiled<256> = Compiled::new(format).expect("it is short");
        let again: Compiled<256> =
            Compiled::from_stored(compiled.stored(), compiled.format_length())
                .expect("it was compiled");
        assert_eq!(compiled.format_length(), format.len());
        for time in [&SALE, &MONTH_13] {
            for room in 0..260 {
                let mut buffer = vec![b'.'; room];
                let direct = strftime(time, format, &mut buffer).map(|text| text.to_vec());
                for form in [&compiled, &again] {
                    let mut other = vec![b'.'; room];
                    let text = form.strftime(time, &mut other).map(|text| text.to_vec());
                    assert_eq!((text, other), (direct.clone(), buffer.clone()));
                }
            }
        }
    }
}

#[test]
fn stored_bytes() {
    let stored =
        b"\x01\0 \x02\0F\0\0\0\0\0\0\0d\0\x01\x01\x0c\0\0\0\x03\0\x01\0\0\0\x01\0\x01\x01\0";
    let compiled: Compiled<32> = Compiled::new(b"%F %-12d").expect("it has just this length");
    assert_eq!(compiled.stored(), stored);
    assert_eq!(compiled.clone().stored(), stored);
    let shorter = Compiled::<31>::new(b"%F %-12d");
    assert_eq!(shorter.err(), Some(Error::WriteZero));
    let longest: Compiled = Compiled::new(&b"%Y".repeat(2048)).expect("this is the longest");
    assert_eq!(longest.stored().len(), LONGEST_STORED);
}

#[test]
fn errors_of_compiling() {
    let refused = |format: &[u8]| Compiled::<8>::new(format).err();
    assert_eq!(refused(b""), None);
    assert_eq!(refused(b"x"), Some(Error::WriteZero));
    assert_eq!(refused(b"%F%"), Some(Error::InvalidFormatString));
    assert_eq!(
        refused(&[b'%'; LONGEST_FORMAT + 1]),
        Some(Error::InputTooLong)
    );
    let too_much_room = Compiled::<{ LONGEST_BUFFER + 1 }>::new(b"%");
    assert_eq!(too_much_room.err(), Some(Error::InputTooLong));
}

#[test]
fn forms_that_are_taken_back() {
    let stored = b"\0\0\x01\0Y\0\0\0\0\0\0\0\x01\0\x01\0\0";
    let refused = |at: usize, byte: u8, length: usize| {
        let mut stored = *stored;
        stored[at] = byte;
        Compiled::<17>::from_stored(&stored, length).err()
    };
    assert_eq!(refused(4, b'X', 2), None);
    assert_eq!(refused(4, b'Q', 2), Some(Error::BadStored));
    assert_eq!(refused(2, 2, 2), Some(Error::BadStored));
    assert_eq!(refused(5, 3, 2), Some(Error::BadStored));
    assert_eq!(refused(14, 2, 2), Some(Error::BadStored));
    assert_eq!(refused(15, 1, 2), Some(Error::BadStored));
    assert_eq!(refused(15, 1, LONGEST_FORMAT), Some(Error::BadStored));
    assert_eq!(
        refused(15, 1, LONGEST_FORMAT + 1),
        Some(Error::InputTooLong)
    );
    let shorter = Compiled::<16>::from_stored(stored, 2);
    assert_eq!(shorter.err(), Some(Error::WriteZero));
    assert_eq!(Error::BadStored.to_string(), "no stored form");
}

#[test]
fn the_limit_goes_by_the_length_passed() {
    let compiled: Compiled<64> = Compiled::new(b"%9999999A").expect("it is short");
    let limited = |length| {
        let form: Compiled<64> =
            Compiled::from_stored(compiled.stored(), length).expect("it was compiled");
        form.strftime(&SALE, &mut []).err()
    };
    assert_eq!(limited(0), Some(Error::FormattedStringTooLarge));
    assert_eq!(limited(19), Some(Error::FormattedStringTooLarge));
    assert_eq!(limited(20), Some(Error::WriteZero));
}

#[test]
fn longest_inputs() {
    let compiled: Compiled<64> = Compiled::new(b"%F").expect("it is short");
    let mut buffer = vec![0; LONGEST_BUFFER + 1];
    assert_eq!(
        compiled.strftime(&SALE, &mut buffer),
        Err(Error::InputTooLong)
    );
    let zone = "x".repeat(LONGEST_ZONE + 1);
    let named = Record {
        time_zone: &zone,
        ..SALE
    };
    assert_eq!(compiled.strftime(&named, &mut []), Err(Error::InputTooLong));
    let text = compiled.strftime(&SALE, &mut buffer[..LONGEST_BUFFER]);
    assert_eq!(text.map(|text| &*text), Ok(&b"2024-02-29"[..]));
}
