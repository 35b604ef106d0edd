//! Framing: cutting lent bytes into messages.

use crate::octets::{is, DIGIT};
use crate::refusal::Refusal;

/// "Message: at most 16,384 bytes."
pub const LONGEST_MESSAGE: u64 = 16_384;
const VERSION_DIGITS: usize = 2;
const LENGTH_DIGITS: usize = 19;

#[derive(Clone, Copy, Debug, PartialEq, Eq)]
pub struct Version {
    pub major: u8,
    pub minor: u8,
}

/// One frame: exactly the stated number of the lent bytes, from the first on.
#[derive(Clone, Copy, Debug, PartialEq, Eq)]
pub struct Frame<'a> {
    pub version: Version,
    /// How many bytes the opening has, as written.
    pub opening: usize,
    pub bytes: &'a [u8],
}

impl Frame<'_> {
    /// The stated length, which is what gets consumed.
    pub fn length(&self) -> usize {
        self.bytes.len()
    }
}

pub struct Opening {
    pub version: Version,
    pub stated: u64,
    /// How many bytes it has, as written.
    pub length: usize,
}

/// "With an opening: 3, then 4, then 1 if fewer than the stated bytes are there."
pub fn frame(lent: &[u8]) -> Result<Frame<'_>, Refusal> {
    let opening = opening(lent)?;
    if opening.stated > LONGEST_MESSAGE {
        return Err(Refusal::TooLong);
    }
    let stated = opening.stated as usize;
    if stated < opening.length {
        return Err(Refusal::TooShort);
    }
    // Nothing past the frame is looked at.
    let bytes = lent.get(..stated).ok_or(Refusal::MoreNeeded)?;
    Ok(Frame {
        version: opening.version,
        opening: opening.length,
        bytes,
    })
}

/// `MRCP/`, 1 or 2 digits, `.`, 1 or 2 digits, one space, 1 to 19 digits, one space.
///
/// Every beginning that has fitted so far can be completed, so bytes that run
/// out are 1 and a byte that does not fit is 2.
pub fn opening(lent: &[u8]) -> Result<Opening, Refusal> {
    let at = literal(lent, 0, b"MRCP/")?;
    let (major, at) = digits(lent, at, VERSION_DIGITS)?;
    let at = literal(lent, at, b".")?;
    let (minor, at) = digits(lent, at, VERSION_DIGITS)?;
    let at = literal(lent, at, b" ")?;
    let (stated, at) = digits(lent, at, LENGTH_DIGITS)?;
    let length = literal(lent, at, b" ")?;
    // At most two digits each, so both parts of the version fit a byte.
    let version = Version {
        major: major as u8,
        minor: minor as u8,
    };
    Ok(Opening {
        version,
        stated,
        length,
    })
}

/// The place after the wanted bytes.
fn literal(lent: &[u8], mut at: usize, wanted: &[u8]) -> Result<usize, Refusal> {
    for &byte in wanted {
        match lent.get(at) {
            None => return Err(Refusal::MoreNeeded),
            Some(&found) if found != byte => return Err(Refusal::NoMessage),
            Some(_) => at += 1,
        }
    }
    Ok(at)
}

/// The number in 1 to `most` digits, and the place after it. Further digits
/// are left for whoever wants the next byte to be something else.
fn digits(lent: &[u8], begin: usize, most: usize) -> Result<(u64, usize), Refusal> {
    let mut number = 0;
    let mut at = begin;
    while at < begin + most {
        let byte = *lent.get(at).ok_or(Refusal::MoreNeeded)?;
        if !is(byte, DIGIT) {
            break;
        }
        number = number * 10 + u64::from(byte - b'0');
        at += 1;
    }
    if at == begin {
        return Err(Refusal::NoMessage);
    }
    Ok((number, at))
}
