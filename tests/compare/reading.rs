//! The directives of a format and where it ends, by 01's five steps of reading a directive.

/// Hands over the byte that stands for each directive's letter. True if the format ends inside a directive.
pub fn ends_inside(format: &[u8], mut letter: impl FnMut(u8)) -> bool {
    let mut rest = format;
    while let Some(at) = rest.iter().position(|&byte| byte == b'%') {
        let Some((read, behind)) = directive(&rest[at + 1..]) else {
            return true;
        };
        read.into_iter().for_each(&mut letter);
        rest = behind;
    }
    false
}

/// The letter of a directive, from behind its `%`, and what follows. An echo may have none. Nothing if the format ends inside it.
pub fn directive(rest: &[u8]) -> Option<(Option<u8>, &[u8])> {
    let rest = behind(rest, |byte| b"-_0^#".contains(&byte));
    if rest.first().is_some_and(|byte| !byte.is_ascii()) {
        return Some((None, rest));
    }
    let after_width = behind(rest, |byte| byte.is_ascii_digit());
    if too_wide(&rest[..rest.len() - after_width.len()]) {
        return Some((None, after_width));
    }
    let rest = behind_modifier(after_width);
    let after_colons = behind(rest, |byte| byte == b':');
    if after_colons.len() < rest.len() {
        return Some(match after_colons.strip_prefix(b"z") {
            Some(after) => (Some(b'z'), after),
            None => (None, after_colons),
        });
    }
    let (&first, after) = rest.split_first()?;
    Some(if first.is_ascii() {
        (Some(first), after)
    } else {
        (None, rest)
    })
}

fn behind(bytes: &[u8], skipped: impl Fn(u8) -> bool) -> &[u8] {
    let count = bytes.iter().take_while(|&&byte| skipped(byte)).count();
    &bytes[count..]
}

fn too_wide(digits: &[u8]) -> bool {
    let value = digits.iter().fold(0_u64, |value, digit| {
        (value * 10 + u64::from(digit - b'0')).min(u64::from(u32::MAX))
    });
    value > 2_147_483_647
}

fn behind_modifier(rest: &[u8]) -> &[u8] {
    match rest {
        [b'E', letter, ..] if b"CXYcxy".contains(letter) => &rest[1..],
        [b'O', letter, ..] if b"HIMSUVWdeklmuwy".contains(letter) => &rest[1..],
        _ => rest,
    }
}
