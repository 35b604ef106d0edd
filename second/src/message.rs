//! A message read alone, of any of the three kinds.

use crate::fields::{self, Fields};
use crate::framing::{frame, Frame, Version};
use crate::octets::line_end;
use crate::refusal::Refusal;
use crate::start_line::{self, StartLine};

#[derive(Clone, Copy, Debug)]
pub struct Message<'a> {
    pub version: Version,
    pub start: StartLine<'a>,
    /// None is the "bad fields" mark: no fields and no body.
    pub fields: Option<Fields<'a>>,
    /// The stated length.
    pub length: usize,
}

/// "Refusals 1 to 5 apply, 6 does not."
pub fn read(lent: &[u8]) -> Result<Message<'_>, Refusal> {
    let frame = frame(lent)?;
    let (start, rest) = start(&frame).ok_or(Refusal::StartLine)?;
    let method = match start {
        StartLine::Request { name, .. } => Some(name),
        _ => None,
    };
    Ok(Message {
        version: frame.version,
        start,
        fields: fields::read(rest, method),
        length: frame.length(),
    })
}

/// The start line of a frame and the bytes that follow it. None: malformed.
pub fn start<'a>(frame: &Frame<'a>) -> Option<(StartLine<'a>, &'a [u8])> {
    // "The line ends at the first CRLF in the frame": the opening holds neither
    // CR nor LF, so it comes after it.
    let rest = &frame.bytes[frame.opening..];
    let end = line_end(rest)?;
    let start = start_line::read(&rest[..end])?;
    Some((start, &rest[end + 2..]))
}
