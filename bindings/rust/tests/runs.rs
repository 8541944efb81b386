//! A format in runs, which the original does not have.

mod sale;

use groatsaddle::buffered::strftime;
use groatsaddle::{Error, Record, Runs, LONGEST_BUFFER, LONGEST_FORMAT, LONGEST_RUN, LONGEST_ZONE};
use sale::{MONTH_13, SALE};

/// The answer, the text that is left, and the buffer, which was all dots.
fn by_runs(
    time: &Record,
    format: &[u8],
    cut: usize,
    room: usize,
) -> (Result<Vec<u8>, Error>, Vec<u8>, Vec<u8>) {
    let mut buffer = vec![b'.'; room];
    let mut runs: Runs<100> = Runs::start(time, format.len(), &mut buffer).expect("it starts");
    for run in format.chunks(cut) {
        let pushed = runs.push(run);
        assert_eq!(runs.push(b""), pushed);
        if pushed.is_err() {
            break;
        }
    }
    let answer = runs.finish().map(|text| text.to_vec());
    assert_eq!(runs.finish().map(|text| text.to_vec()), answer);
    assert_eq!(
        runs.push(b"x"),
        answer.as_ref().map(|_| ()).map_err(|error| *error)
    );
    let text = runs.text().to_vec();
    (answer, text, buffer)
}

#[test]
fn however_it_is_cut() {
    let formats: [&[u8]; 6] = [
        b"",
        b"plain",
        b"%A, %-d %B %Y, %T.%L %Z (%:z), week %G-W%V",
        b"a%:z%::z%:::z%::::z%E%EY%OdE%5%%Q%2147483648Yx%:",
        b"%-_0^#0000000000000000000000000000000000000000000000000000000012d",
        b"abc%-5",
    ];
    for format in formats {
        for room in 0..100 {
            let mut buffer = vec![b'.'; room];
            let whole = strftime(&SALE, format, &mut buffer).map(|text| text.to_vec());
            for cut in 1..=LONGEST_RUN {
                let (answer, text, after) = by_runs(&SALE, format, cut, room);
                assert_eq!(answer, whole);
                if whole.is_ok() {
                    assert_eq!(after, buffer);
                }
                assert_eq!(text, after[..text.len()]);
                assert!(after[text.len()..].iter().all(|&byte| byte == b'.'));
            }
        }
    }
}

#[track_caller]
fn leaves(time: &Record, format: &[u8], room: usize, error: Error, left: &[u8]) {
    for cut in 1..=LONGEST_RUN {
        let (answer, text, _) = by_runs(time, format, cut, room);
        assert_eq!((answer, text), (Err(error), left.to_vec()));
    }
}

#[test]
fn text_after_an_error() {
    leaves(&MONTH_13, b"abc%Bdef", 20, Error::InvalidTime, b"abc");
    leaves(&MONTH_13, b"ab%12Dx", 20, Error::InvalidTime, b"ab    ");
    leaves(&SALE, b"abc%-5", 20, Error::InvalidFormatString, b"abc");
    leaves(
        &SALE,
        b"ab%9999999A",
        20,
        Error::FormattedStringTooLarge,
        b"ab",
    );
    leaves(&SALE, b"%F %T", 18, Error::WriteZero, b"2024-02-29 13:05:0");
    leaves(&SALE, b"ab%20A", 8, Error::WriteZero, b"ab      ");
}

#[test]
fn output_starts_early() {
    let mut line = *b"............";
    let mut runs: Runs<16> = Runs::start(&SALE, 9, &mut line).expect("it starts");
    assert_eq!(runs.text(), b"");
    for (run, text) in [("ab%", "ab"), ("-", "ab"), ("m%", "ab2"), ("Q%E", "ab2%Q")] {
        runs.push(run.as_bytes()).expect(run);
        assert_eq!(runs.text(), text.as_bytes());
    }
    let text = runs.finish().expect("there is room");
    assert_eq!(text, b"ab2%Q%E");
    text[0] = b'x';
    assert_eq!(line, *b"xb2%Q%E.....");
}

#[test]
fn wrong_lengths() {
    let mut line = [b'.'; 64];
    let mut runs: Runs = Runs::start(&SALE, 4, &mut line).expect("it starts");
    runs.push(b"ab").expect("it is short");
    assert_eq!(runs.push(b"%Yz"), Err(Error::LengthMismatch));
    assert_eq!(runs.text(), b"ab");
    assert_eq!(runs.finish(), Err(Error::LengthMismatch));
    let mut runs: Runs = Runs::start(&SALE, 4, &mut line).expect("it starts");
    runs.push(b"ab%").expect("it is short");
    assert_eq!(runs.finish(), Err(Error::LengthMismatch));
    assert_eq!(runs.text(), b"ab");
    let mut runs: Runs = Runs::start(&SALE, 4, &mut line).expect("it starts");
    assert_eq!(
        runs.push(&[b'x'; LONGEST_RUN + 1]),
        Err(Error::InputTooLong)
    );
    assert_eq!(Error::LengthMismatch.to_string(), "length mismatch");
}

#[test]
fn longest_inputs() {
    let mut buffer = vec![0; LONGEST_BUFFER + 1];
    let longest = &mut buffer[..LONGEST_BUFFER];
    assert!(Runs::<LONGEST_FORMAT>::start(&SALE, LONGEST_FORMAT, longest).is_ok());
    let too_long = |total, time: &Record, buffer: &mut [u8]| {
        Runs::<16>::start(time, total, buffer).err() == Some(Error::InputTooLong)
    };
    assert!(too_long(LONGEST_FORMAT + 1, &SALE, &mut []));
    assert!(too_long(0, &SALE, &mut buffer));
    let zone = "x".repeat(LONGEST_ZONE + 1);
    let named = Record {
        time_zone: &zone,
        ..SALE
    };
    assert!(too_long(0, &named, &mut []));
    let started = Runs::<16>::start(&SALE, 17, &mut []);
    assert_eq!(started.err(), Some(Error::WriteZero));
}
