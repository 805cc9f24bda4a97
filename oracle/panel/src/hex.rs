//! Bytes as the panel writes them: lowercase hex digits, or `-` for none.
use std::fmt::Write;

const MOST: usize = 4_096;

pub fn print(bytes: &[u8]) -> String {
    if bytes.is_empty() {
        return "-".to_string();
    }
    let mut text = String::with_capacity(2 * bytes.len());
    for byte in bytes {
        write!(text, "{byte:02x}").unwrap();
    }
    text
}

fn digit(byte: u8) -> Option<u8> {
    match byte {
        b'0'..=b'9' => Some(byte - b'0'),
        b'a'..=b'f' => Some(byte - b'a' + 10),
        _ => None,
    }
}

pub fn read(text: &str) -> Option<Vec<u8>> {
    if text == "-" {
        return Some(Vec::new());
    }
    let digits = text.as_bytes();
    if digits.is_empty() || digits.len() % 2 != 0 || 2 * MOST < digits.len() {
        return None;
    }
    digits.chunks(2).map(|pair| Some(16 * digit(pair[0])? + digit(pair[1])?)).collect()
}
