//! Little-endian numbers in bytes, and hexadecimal text for the probe.

pub fn get(bytes: &[u8], at: usize, length: usize) -> u64 {
    let mut number = 0;
    for i in (0..length).rev() {
        number = number * 256 + u64::from(bytes[at + i]);
    }
    number
}

pub fn put(bytes: &mut [u8], at: usize, length: usize, number: u64) {
    let mut rest = number;
    for i in 0..length {
        bytes[at + i] = (rest % 256) as u8;
        rest /= 256;
    }
}

/// No byte at all is written as `-`, so that a field is never empty.
pub fn to_hex(bytes: &[u8]) -> String {
    if bytes.is_empty() {
        return "-".to_string();
    }
    let digits = b"0123456789abcdef";
    let digit = |number: u8| char::from(digits[usize::from(number)]);
    let mut text = String::new();
    for byte in bytes {
        text.push(digit(byte / 16));
        text.push(digit(byte % 16));
    }
    text
}

pub fn from_hex(text: &str) -> Option<Vec<u8>> {
    if text == "-" {
        return Some(Vec::new());
    }
    let digits: Option<Vec<u32>> = text.chars().map(|c| c.to_digit(16)).collect();
    let digits = digits?;
    if digits.len() % 2 == 1 {
        return None;
    }
    Some(
        digits
            .chunks(2)
            .map(|pair| (pair[0] * 16 + pair[1]) as u8)
            .collect(),
    )
}
