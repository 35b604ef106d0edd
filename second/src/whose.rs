//! Whose request is it: the request-id, from the start line alone.

use crate::framing::opening;
use crate::octets::line_end;
use crate::refusal::Refusal;
use crate::start_line;

/// "As soon as its CRLF is in the first 128 bytes lent."
const LOOKED_AT: u64 = 128;

/// "2 and 4 as in 01 first"; "no 3 or 6 here; nothing is consumed".
pub fn whose(lent: &[u8]) -> Result<u32, Refusal> {
    let opening = opening(lent)?;
    if opening.stated < opening.length as u64 {
        return Err(Refusal::TooShort);
    }
    // "In the first 128 bytes lent and inside the stated length."
    let most = opening.stated.min(LOOKED_AT) as usize;
    let looked_at = &lent[..most.min(lent.len())];
    let Some(end) = line_end(looked_at) else {
        // "None there: 1 while fewer bytes than 128 and than stated are lent, else 5."
        return Err(match lent.len() < most {
            true => Refusal::MoreNeeded,
            false => Refusal::StartLine,
        });
    };
    let start = start_line::read(&looked_at[opening.length..end]);
    start.map(|start| start.id()).ok_or(Refusal::StartLine)
}
