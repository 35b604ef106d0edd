//! Fields: the lines between start line and body, each with those that continue it.

use std::borrow::Cow;

use crate::octets::{decimal, is, line_end, without_blanks, BLANK, NAME, VALUE};

/// "Fields in a message: at most 32."
pub const MOST_FIELDS: usize = 32;
/// "Field name: 1 to 64 bytes."
const LONGEST_NAME: usize = 64;
const LENGTH_DIGITS: usize = 19;

/// "Seven names are known", and Confidence-Threshold "becomes known on both
/// kinds"; the last three are so in SET-PARAMS and GET-PARAMS alone. The number
/// of each is its bit in the mask.
#[derive(Clone, Copy, Debug, PartialEq, Eq)]
pub enum Known {
    ChannelIdentifier,
    ContentLength,
    ContentType,
    ActiveRequestIdList,
    KillOnBargeIn,
    ProxySyncId,
    LoggingTag,
    ConfidenceThreshold,
    FetchTimeout,
    NoInputTimeout,
    SensitivityLevel,
}

/// A known name as the paper spells it.
type Name = (Known, &'static [u8]);

const KNOWN: [Name; 11] = [
    (Known::ChannelIdentifier, b"Channel-Identifier"),
    (Known::ContentLength, b"Content-Length"),
    (Known::ContentType, b"Content-Type"),
    (Known::ActiveRequestIdList, b"Active-Request-Id-List"),
    (Known::KillOnBargeIn, b"Kill-On-Barge-In"),
    (Known::ProxySyncId, b"Proxy-Sync-Id"),
    (Known::LoggingTag, b"Logging-Tag"),
    (Known::ConfidenceThreshold, b"Confidence-Threshold"),
    (Known::FetchTimeout, b"Fetch-Timeout"),
    (Known::NoInputTimeout, b"No-Input-Timeout"),
    (Known::SensitivityLevel, b"Sensitivity-Level"),
];
/// How many of them, from the first on, are known in every message.
const KNOWN_EVERYWHERE: usize = 8;

/// "In SET-PARAMS and GET-PARAMS all five names count as known, on either kind."
fn known_in(method: Option<&[u8]>) -> &'static [Name] {
    match method {
        Some(b"SET-PARAMS" | b"GET-PARAMS") => &KNOWN,
        _ => &KNOWN[..KNOWN_EVERYWHERE],
    }
}

impl Known {
    /// As the paper spells it.
    pub fn spelling(self) -> &'static [u8] {
        KNOWN[self as usize].1
    }

    fn bit(self) -> u32 {
        1 << (self as u32)
    }
}

#[derive(Clone, Copy, Debug, PartialEq, Eq)]
pub struct Field<'a> {
    /// As written in the message.
    pub name: &'a [u8],
    /// As handed back: raw, "blanks and folds off its ends".
    pub raw: &'a [u8],
    pub known: Option<Known>,
}

impl<'a> Field<'a> {
    /// "Values are judged as joined."
    pub fn value(&self) -> Cow<'a, [u8]> {
        joined(self.raw)
    }
}

const NO_FIELD: Field = Field {
    name: b"",
    raw: b"",
    known: None,
};

/// All fields of a message and its body, as parts of the caller's bytes.
#[derive(Clone, Copy, Debug)]
pub struct Fields<'a> {
    list: [Field<'a>; MOST_FIELDS],
    count: usize,
    /// Which of the known names have been seen.
    seen: u32,
    pub body: &'a [u8],
}

impl<'a> Fields<'a> {
    pub fn all(&self) -> &[Field<'a>] {
        &self.list[..self.count]
    }

    /// The value of a known field, as joined; none stands twice.
    pub fn value(&self, wanted: Known) -> Option<Cow<'a, [u8]>> {
        if self.seen & wanted.bit() == 0 {
            return None;
        }
        self.all()
            .iter()
            .find(|field| field.known == Some(wanted))
            .map(Field::value)
    }

    /// None: more than 32, or a known name twice.
    fn add(&mut self, field: Field<'a>) -> Option<()> {
        if self.count == MOST_FIELDS {
            return None;
        }
        if let Some(known) = field.known {
            if self.seen & known.bit() != 0 {
                return None;
            }
            self.seen |= known.bit();
        }
        self.list[self.count] = field;
        self.count += 1;
        Some(())
    }

    /// "Content-Length (1 to 19 digits; absent means 0) different from the body's length."
    fn length_agrees(&self) -> bool {
        let stated = match self.value(Known::ContentLength) {
            None => Some(0),
            Some(value) => decimal(&value, LENGTH_DIGITS),
        };
        stated == Some(self.body.len() as u64)
    }
}

/// Reads what follows the start line, of a request with its method. None:
/// judgement 2 fails it.
pub fn read<'a>(block: &'a [u8], method: Option<&[u8]>) -> Option<Fields<'a>> {
    let names = known_in(method);
    let mut fields = Fields {
        list: [NO_FIELD; MOST_FIELDS],
        count: 0,
        seen: 0,
        body: b"",
    };
    let mut rest = block;
    // "The block still ends at the first empty line."
    while !rest.starts_with(b"\r\n") {
        let (field, after) = field(rest, names)?;
        fields.add(field)?;
        rest = after;
    }
    fields.body = &rest[2..];
    fields.length_agrees().then_some(fields)
}

/// One `name:value` and CRLF with the lines that continue it, and what comes
/// after. A continued line before any field has no name; a fold in the name or
/// behind it comes before the colon; a lone CR or LF is no value byte; no CRLF
/// is no line.
fn field<'a>(rest: &'a [u8], names: &[Name]) -> Option<(Field<'a>, &'a [u8])> {
    let colon = rest.iter().position(|&byte| !is(byte, NAME))?;
    if rest[colon] != b':' || colon == 0 || colon > LONGEST_NAME {
        return None;
    }
    let (name, after) = (&rest[..colon], &rest[colon + 1..]);
    let end = value_end(after)?;
    let written = &after[..end];
    if !joined(written).iter().all(|&byte| is(byte, VALUE)) {
        return None;
    }
    let field = Field {
        name,
        raw: without_folds(written),
        known: known(names, name),
    };
    Some((field, &after[end + 2..]))
}

/// Which of the names it is, "compared without regard to case".
fn known(names: &[Name], name: &[u8]) -> Option<Known> {
    let mut names = names.iter();
    let found = names.find(|(_, spelling)| name.eq_ignore_ascii_case(spelling));
    found.map(|(known, _)| *known)
}

/// The place of the first CRLF that no blank follows: a field may "go on in a
/// line that begins with a blank".
fn value_end(bytes: &[u8]) -> Option<usize> {
    let mut at = line_end(bytes)?;
    while matches!(bytes.get(at + 2), Some(&byte) if is(byte, BLANK)) {
        at += 2;
        at += line_end(&bytes[at..])?;
    }
    Some(at)
}

/// "Each CRLF with the blanks on both sides reads as one space"; what stands at
/// the ends is dropped.
fn joined(written: &[u8]) -> Cow<'_, [u8]> {
    if !written.contains(&b'\n') {
        return Cow::Borrowed(without_blanks(written));
    }
    let mut text = Vec::new();
    let mut rest = written;
    while let Some(end) = line_end(rest) {
        text.extend_from_slice(without_blanks(&rest[..end]));
        text.push(b' ');
        rest = &rest[end + 2..];
    }
    text.extend_from_slice(without_blanks(rest));
    Cow::Owned(without_blanks(&text).to_vec())
}

/// "Blanks and folds off its ends", where CR and LF stand in folds alone.
fn without_folds(written: &[u8]) -> &[u8] {
    let is_text = |byte: &u8| !is(*byte, BLANK) && !b"\r\n".contains(byte);
    let first = written.iter().position(is_text);
    let last = written.iter().rposition(is_text);
    match (first, last) {
        (Some(first), Some(last)) => &written[first..=last],
        _ => &written[..0],
    }
}
