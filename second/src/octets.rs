//! What each of the 256 bytes may be, and whole numbers in digits.

pub const DIGIT: u8 = 1;
pub const CAPITAL: u8 = 2;
/// A byte of a field name: letter, digit or `-`.
pub const NAME: u8 = 4;
/// A byte of a field value: 32 to 126, tab, 128 to 255.
pub const VALUE: u8 = 8;
pub const BLANK: u8 = 16;

/// "What each of the 256 bytes may be ... is one table."
pub const CLASSES: [u8; 256] = classes();

const fn classes() -> [u8; 256] {
    let mut table = [0; 256];
    let mut at = 0;
    while at < 256 {
        table[at] = class(at as u8);
        at += 1;
    }
    table
}

const fn class(byte: u8) -> u8 {
    let mut found = 0;
    if byte.is_ascii_digit() {
        found |= DIGIT;
    }
    if byte.is_ascii_uppercase() {
        found |= CAPITAL;
    }
    if byte.is_ascii_alphanumeric() || byte == b'-' {
        found |= NAME;
    }
    if (byte >= 32 && byte <= 126) || byte == b'\t' || byte >= 128 {
        found |= VALUE;
    }
    if byte == b' ' || byte == b'\t' {
        found |= BLANK;
    }
    found
}

/// Whether the byte is of one of the given classes.
#[inline]
pub fn is(byte: u8, wanted: u8) -> bool {
    CLASSES[byte as usize] & wanted != 0
}

/// The number written in 1 to `most` digits (at most 19, so it fits), leading zeros allowed.
pub fn decimal(digits: &[u8], most: usize) -> Option<u64> {
    if digits.is_empty() || digits.len() > most {
        return None;
    }
    let mut number = 0;
    for &byte in digits {
        if !is(byte, DIGIT) {
            return None;
        }
        number = number * 10 + u64::from(byte - b'0');
    }
    Some(number)
}

/// "A request-id is 1 to 10 digits within range": 0 to 4,294,967,295.
pub fn request_id(digits: &[u8]) -> Option<u32> {
    decimal(digits, 10).and_then(|number| u32::try_from(number).ok())
}

/// The place of the first CRLF.
pub fn line_end(bytes: &[u8]) -> Option<usize> {
    bytes.windows(2).position(|pair| pair == b"\r\n")
}

/// "Spaces and tabs at both ends are dropped."
pub fn without_blanks(mut value: &[u8]) -> &[u8] {
    while let [first, rest @ ..] = value {
        if !is(*first, BLANK) {
            break;
        }
        value = rest;
    }
    while let [rest @ .., last] = value {
        if !is(*last, BLANK) {
            break;
        }
        value = rest;
    }
    value
}
