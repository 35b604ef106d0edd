//! The cases of the benchmark: the same messages as the other program's, many
//! times over, for a tool that counts instructions.

use std::hint::black_box;
use std::ops::RangeInclusive;

use crate::kept::{self, Kept};
use crate::start_line::RequestState;
use crate::writing::{with_own_digits, Answer, Ids, Outgoing, NOTHING_TOLD};

const NAME: &str = "7f3a@speechsynth";
const RECOGNIZER: &str = "7f3a@speechrecog";
const LONGEST_RECOGNIZER: &str = "0123456789abcdef0123456789abcdef@speechrecog";
/// What no answer is longer than.
const ROOM: usize = 305;
/// What no report is longer than.
const REPORT_ROOM: usize = 1250;
/// Grammar-compilation-failure, the longest cause: it ends all.
const LONGEST_CAUSE: u32 = 5;

fn speak_of(fields: &str, size: &str, body: &str) -> Vec<u8> {
    let mut message = format!(
        "MRCP/2.0 {size} SPEAK 7\r\nChannel-Identifier:7f3a@speechsynth\r\nContent-Type:text/plain\r\n\
         {fields}Content-Length:{body}\r\n\r\n"
    )
    .into_bytes();
    message.resize(size.parse().expect("a number"), b'H');
    message
}

fn seventeen() -> String {
    ('A'..='Q')
        .map(|letter| {
            format!(
                "Vendor-Specific-{letter}:{}\r\n",
                letter.to_ascii_lowercase()
            )
        })
        .collect()
}

/// The SPEAK of T8, each value in a second line.
const FOLDED: &str = "MRCP/2.0 115 SPEAK 7\r\nChannel-Identifier:\r\n 7f3a@speechsynth\r\n\
     Content-Type:\r\n text/plain\r\nContent-Length:\r\n 2\r\n\r\nHi";

fn message_of(case: &str) -> Option<Vec<u8>> {
    Some(match case {
        "frame-31" => b"MRCP/02.00 0000000000000000031 ".to_vec(),
        "frame-16384" => {
            let mut message = b"MRCP/2.0 16384 SPEAK 7\r\n\r\n".to_vec();
            message.resize(16384, b'H');
            message
        }
        "read-3" => speak_of("", "106", "2"),
        "read-folds" => FOLDED.into(),
        "read-20" => speak_of(&seventeen(), "463", "2"),
        "read-2" => speak_of("", "00112", "00002"),
        "read-16000" => speak_of("", "16110", "16000"),
        _ => return None,
    })
}

/// The answer of T8, and the longest one.
fn answer_of(case: &str) -> Option<(Vec<u8>, Answer)> {
    let mut list = Ids::NONE;
    let (name, id, state) = match case {
        "write-t8" => ("7f3a@speechsynth", 7, RequestState::InProgress),
        "write-305" => {
            (0..16).for_each(|place| list.add(u32::MAX - 16 + place));
            let name = "0123456789abcdef0123456789abcdef@speechsynth";
            (name, u32::MAX, RequestState::Complete)
        }
        _ => return None,
    };
    let answer = Answer {
        id,
        status: 200,
        state,
        list,
        told: NOTHING_TOLD,
    };
    Some((name.as_bytes().to_vec(), answer))
}

fn write(name: &[u8], answer: Answer, count: usize) -> Option<usize> {
    let mut output = [0; ROOM];
    let mut sum = 0;
    for _ in 0..count {
        let message = black_box(Outgoing::Answer(answer));
        sum += message.write(black_box(name), black_box(&mut output[..]))?;
    }
    Some(sum)
}

/// A request with what follows its id, and the stated length that fits.
fn request(name: &str, method: &str, id: u32, rest: &str) -> Vec<u8> {
    let line = format!("{method} {id}\r\nChannel-Identifier:{name}\r\n{rest}");
    let size = with_own_digits("MRCP/2.0  ".len() + line.len());
    format!("MRCP/2.0 {size} {line}").into_bytes()
}

fn speak(id: u32) -> Vec<u8> {
    let rest = "Content-Type:text/plain\r\nContent-Length:2\r\n\r\nHi";
    request(NAME, "SPEAK", id, rest)
}

fn recognize(name: &str, id: u32) -> Vec<u8> {
    let rest = "Content-Type:application/srgs+xml\r\nConfidence-Threshold:0.5\r\n\
                Content-Length:2\r\n\r\nHi";
    request(name, "RECOGNIZE", id, rest)
}

/// SET-PARAMS of all settings of a kind.
fn set_params(name: &str, id: u32) -> Vec<u8> {
    let settings = match name {
        NAME => "Kill-On-Barge-In:false\r\nFetch-Timeout:2500\r\n\r\n",
        _ => {
            "No-Input-Timeout:5000\r\nConfidence-Threshold:0.5\r\n\
             Sensitivity-Level:0.75\r\n\r\n"
        }
    };
    request(name, "SET-PARAMS", id, settings)
}

/// What is called: with a client's message, the engine's cause, or the number
/// of an edition.
enum Call {
    Message(Vec<u8>),
    Report(u32),
    Back(u32),
}

/// One call; how many bytes it wrote, or, since going back writes none, how many
/// editions are kept.
fn call(channel: &mut Kept, what: &Call, output: &mut [u8]) -> Option<usize> {
    let outcome = match what {
        Call::Message(input) => channel.handle(input, output),
        Call::Report(cause) => channel.report(*cause, 0.0, output),
        Call::Back(number) => channel.back(*number),
    };
    let gives = match what {
        Call::Back(_) => channel.0[kept::KEPT] as usize,
        _ => outcome.written,
    };
    (outcome.number == 0).then_some(gives)
}

/// A channel after these calls.
fn prepared_by(name: &str, calls: impl Iterator<Item = Call>) -> Option<Kept> {
    let mut channel = Kept::open(name.as_bytes()).0;
    for what in calls {
        call(&mut channel, &what, &mut [0; ROOM])?;
    }
    Some(channel)
}

/// A synthesizer with this many outstanding, from this id on.
fn prepared_from(first: u32, outstanding: u32) -> Option<Kept> {
    let speaks = (first..first + outstanding).map(|id| Call::Message(speak(id)));
    prepared_by(NAME, speaks)
}

fn prepared(outstanding: u32) -> Option<Kept> {
    prepared_from(1, outstanding)
}

/// STOP that lists sixteen, the last first.
fn stop_list(first: u32) -> Option<(Kept, Call)> {
    let ids: Vec<String> = (first..first + 16).rev().map(|id| id.to_string()).collect();
    let list = format!("Active-Request-Id-List:{}\r\n\r\n", ids.join(","));
    let stop = request(NAME, "STOP", first + 16, &list);
    Some((prepared_from(first, 16)?, Call::Message(stop)))
}

/// A recognizer with eight outstanding, from this id on.
fn prepared_recognizer(name: &str, first: u32) -> Option<Kept> {
    let recognizes = (0..8).map(|place| Call::Message(recognize(name, first + place)));
    prepared_by(name, recognizes)
}

/// A channel with one outstanding after so many calls: a SPEAK, and then
/// SPEAK, CONTROL and a report in turn. The ids have one width.
fn prepared_after(calls: u32) -> Option<Kept> {
    let turns = (0..calls)
        .zip(1_000_000..)
        .map(|(turn, id)| match turn % 3 {
            0 if turn > 0 => Call::Report(0),
            2 => Call::Message(request(NAME, "CONTROL", id, "\r\n")),
            _ => Call::Message(speak(id)),
        });
    prepared_by(NAME, turns)
}

/// A channel after SET-PARAMS of all settings, with each of these ids.
fn prepared_settings(name: &str, ids: RangeInclusive<u32>) -> Option<Kept> {
    prepared_by(name, ids.map(|id| Call::Message(set_params(name, id))))
}

/// The calls about settings.
fn settings_call_of(case: &str) -> Option<(Kept, Call)> {
    let set = |name: &str| (Kept::open(name.as_bytes()).0, set_params(name, 7));
    let get = |name| {
        Some((
            prepared_settings(name, 7..=7)?,
            request(name, "GET-PARAMS", 8, "\r\n"),
        ))
    };
    let (channel, message) = match case {
        "call-set-params" => set(NAME),
        "call-set-params-r" => set(RECOGNIZER),
        "call-get-params" => get(NAME)?,
        "call-get-params-r" => get(RECOGNIZER)?,
        "call-speak-4" => (prepared_settings(NAME, 10..=13)?, speak(14)),
        "call-back" => return Some((prepared_settings(NAME, 10..=13)?, Call::Back(2))),
        _ => return None,
    };
    Some((channel, Call::Message(message)))
}

/// The channel before the call, and the call.
fn call_of(case: &str) -> Option<(Kept, Call)> {
    let message = |name, method, id, rest| Call::Message(request(name, method, id, rest));
    Some(match case {
        "call-speak" => (prepared(0)?, Call::Message(message_of("read-3")?)),
        "call-folds" => (prepared(0)?, Call::Message(FOLDED.into())),
        "call-stop-16" => (prepared(16)?, message(NAME, "STOP", 17, "\r\n")),
        "call-stop-list-16" => stop_list(1)?,
        "call-stop-list-10" => stop_list(4_000_000_000)?,
        "call-report-1" => (prepared(1)?, Call::Report(0)),
        "call-report-16" => (prepared(16)?, Call::Report(0)),
        "call-recognize" => (
            Kept::open(RECOGNIZER.as_bytes()).0,
            Call::Message(recognize(RECOGNIZER, 7)),
        ),
        "call-stop-8" => (
            prepared_recognizer(RECOGNIZER, 1)?,
            message(RECOGNIZER, "STOP", 9, "\r\n"),
        ),
        "call-report-8" => (
            prepared_recognizer(LONGEST_RECOGNIZER, u32::MAX - 8)?,
            Call::Report(LONGEST_CAUSE),
        ),
        "call-after-0001" => (prepared_after(1)?, Call::Message(speak(2_000_000))),
        "call-after-1000" => (prepared_after(1000)?, Call::Message(speak(2_000_000))),
        _ => return settings_call_of(case),
    })
}

/// Each call is made on a copy of the channel that was prepared.
fn calls(prepared: &Kept, what: &Call, count: usize) -> Option<usize> {
    let mut output = [0; REPORT_ROOM];
    let mut sum = 0;
    for _ in 0..count {
        let mut channel = *black_box(prepared);
        sum += call(&mut channel, black_box(what), black_box(&mut output))?;
        black_box(&channel);
    }
    Some(sum)
}

fn reads(case: &str, message: &[u8], count: usize) -> Option<usize> {
    let mut sum = 0;
    for _ in 0..count {
        let lent = black_box(message);
        sum += if case.starts_with("frame") {
            black_box(crate::frame(lent)).ok()?.length()
        } else {
            black_box(crate::read(lent)).ok()?.length
        };
    }
    Some(sum)
}

/// Asking whose request it is, of a message whose fields have not all come; the id.
fn asks_whose(count: usize) -> Option<usize> {
    let message = message_of("read-3")?;
    let mut sum = 0;
    for _ in 0..count {
        sum += black_box(crate::whose(black_box(&message[..40]))).ok()? as usize;
    }
    Some(sum)
}

/// A message of 100 bytes with a run of so many digits in it, or of letters: the
/// call ends behind the digits, or in front of the letters.
fn run_of(case: &str) -> Option<Vec<u8>> {
    let mut words = case.split('-');
    let (front, behind) = match words.next()? {
        "id" => ("MRCP/2.0 100 SPEAK ", "x\r\n\r\n"),
        "length" => ("MRCP/2.0 ", "x"),
        "content" => ("MRCP/2.0 100 SPEAK 7\r\nContent-Length:", "\r\n\r\n"),
        _ => return None,
    };
    let many: usize = words.next()?.parse().ok()?;
    let run = match words.next()? {
        "digits" => "1234567890123456789",
        _ => "xxxxxxxxxxxxxxxxxxx",
    };
    let mut message = format!("{front}{}{behind}", run.get(..many)?).into_bytes();
    message.resize(100, b'H');
    Some(message)
}

/// The sum of the numbers of the refusals.
fn refusals(case: &str, message: &[u8], count: usize) -> usize {
    let mut sum = 0;
    for _ in 0..count {
        let lent = black_box(message);
        let refused = if case.starts_with("length") {
            black_box(crate::frame(lent)).err()
        } else {
            black_box(crate::read(lent)).err()
        };
        sum += refused.map_or(0, |refusal| refusal.number() as usize);
    }
    sum
}

/// Opening a channel; the length of its name.
fn opens(count: usize) -> usize {
    let mut sum = 0;
    for _ in 0..count {
        let (channel, number) = black_box(Kept::open(black_box(NAME.as_bytes())));
        sum += channel.0[kept::SIZE] as usize + number as usize;
    }
    sum
}

/// Asking for the ids of sixteen; how many there are.
fn helds(count: usize) -> Option<usize> {
    let channel = prepared(16)?;
    let mut sum = 0;
    for _ in 0..count {
        sum += black_box(black_box(&channel).held())?.len();
    }
    Some(sum)
}

/// Makes the calls and gives the sum of the lengths, ids or counts; None for a case that there is not.
pub fn run(case: &str, count: usize) -> Option<usize> {
    match case {
        "whose" => return asks_whose(count),
        "call-open" => return Some(opens(count)),
        "call-held-16" => return helds(count),
        _ => {}
    }
    if let Some(message) = run_of(case) {
        return Some(refusals(case, &message, count));
    }
    if let Some((name, answer)) = answer_of(case) {
        return write(&name, answer, count);
    }
    if let Some((channel, what)) = call_of(case) {
        return calls(&channel, &what, count);
    }
    reads(case, &message_of(case)?, count)
}
