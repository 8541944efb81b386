//! Byte strings as README.md writes them in a line.

/// Runs of at least this many equal bytes are written with their count.
const SHORTEST_RUN: usize = 8;

pub fn encoded(bytes: &[u8]) -> String {
    if bytes.is_empty() {
        return String::from("\\-");
    }
    let mut field = String::new();
    for run in bytes.chunk_by(|a, b| a == b) {
        let byte = match run[0] {
            b'\\' => String::from("\\5c"),
            graphic @ 33..=126 => char::from(graphic).to_string(),
            other => format!("\\{other:02x}"),
        };
        if run.len() >= SHORTEST_RUN {
            field.push_str(&format!("{byte}\\*{};", run.len()));
        } else {
            field.push_str(&byte.repeat(run.len()));
        }
    }
    field
}
