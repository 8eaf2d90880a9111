//! Names of files as text: any name is one line, and no two names are written alike.

use std::fmt::Write;
use std::path::Path;

/// The name with its control characters, backslashes and bytes that are no UTF-8 written out.
pub fn shown_name(path: &Path) -> String {
    if path.as_os_str().is_empty() {
        return "''".to_string();
    }
    let mut text = String::new();
    for chunk in path.as_os_str().as_encoded_bytes().utf8_chunks() {
        for c in chunk.valid().chars() {
            match c {
                '\\' => text.push_str("\\\\"),
                '\n' => text.push_str("\\n"),
                '\t' => text.push_str("\\t"),
                c if c.is_control() => push(&mut text, c.to_string().as_bytes()),
                c => text.push(c),
            }
        }
        push(&mut text, chunk.invalid());
    }
    text
}

fn push(text: &mut String, bytes: &[u8]) {
    for byte in bytes {
        write!(text, "\\x{byte:02x}").expect("a string takes everything");
    }
}
