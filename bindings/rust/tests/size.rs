//! The sizing entry, which the original does not have.

use groatsaddle::{size, Error, LONGEST_FORMAT, LONGEST_ZONE};

#[test]
fn sizes_and_errors() {
    assert_eq!(size(b"", 0), Ok(0));
    assert_eq!(size(b"%B%-m%-m", 0), Ok(12));
    assert_eq!(size(b"%10Z", 0), Ok(0));
    assert_eq!(size(b"%10Z", 1), Ok(10));
    assert_eq!(size(b"%65536Y", 0), Ok(65_536));
    assert_eq!(size(b"%65537Y", 0), Err(Error::NoBuffer));
    assert_eq!(size(b"%65537Y%", 0), Err(Error::InvalidFormatString));
    assert_eq!(size(b"%", LONGEST_ZONE + 1), Err(Error::InputTooLong));
    assert_eq!(
        size(&[b'x'; LONGEST_FORMAT + 1], 0),
        Err(Error::InputTooLong)
    );
}
