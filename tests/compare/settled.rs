//! What of a format's front stays as it is read, whatever comes behind it.

use crate::reading::directive;

/// How many bytes are settled. What is left is a directive, from its `%` on.
pub fn settled(bytes: &[u8]) -> usize {
    let mut end = 0;
    while let Some(at) = bytes[end..].iter().position(|&byte| byte == b'%') {
        let sign = end + at;
        let text = &bytes[sign + 1..];
        match directive(text) {
            Some((_, [])) if goes_on(text) => return sign,
            Some((_, rest)) => end = bytes.len() - rest.len(),
            None => return sign,
        }
    }
    bytes.len()
}

/// Whether some byte behind a directive that could end here would belong to it.
fn goes_on(text: &[u8]) -> bool {
    let mut longer = text.to_vec();
    (0..=255).any(|byte| {
        longer.push(byte);
        let ends_before = directive(&longer).is_some_and(|(_, rest)| rest.len() == 1);
        longer.pop();
        !ends_before
    })
}
