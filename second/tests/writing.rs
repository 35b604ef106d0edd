//! Bytes written: the length with its own digits, and reading back.

mod common;

use common::*;
use second::fields::Known;
use second::read;
use second::start_line::StartLine;
use second::writing::with_own_digits;

/// Against a search for the smallest number that fits.
#[test]
fn the_length_is_the_smallest_that_fits() {
    for without in 0..=20_000usize {
        let fits = |number: &usize| *number == without + number.to_string().len();
        let smallest = (without..without + 20).find(fits);
        assert_eq!(Some(with_own_digits(without)), smallest, "{without}");
    }
    assert_eq!(with_own_digits(97), 99);
    assert_eq!(with_own_digits(98), 101);
}

/// A few numbers that look random.
struct Draw(u64);

impl Draw {
    fn below(&mut self, limit: u64) -> u64 {
        self.0 = self
            .0
            .wrapping_mul(6364136223846793005)
            .wrapping_add(1442695040888963407);
        (self.0 >> 33) % limit
    }
}

/// Random queues: the answer to STOP is read back as it was meant.
#[test]
fn answers_are_read_back() {
    let mut draw = Draw(7);
    for _ in 0..3000 {
        let length = 1 + draw.below(32) as usize;
        let name = format!(
            "{}@speechsynth",
            &"0123456789abcdefghijABCDEFGHIJKL"[..length]
        );
        let count = draw.below(17);
        let scale = [1, 10, 1000, 200_000_000][draw.below(4) as usize];
        let mut ids = Vec::new();
        let mut id = draw.below(scale);
        for _ in 0..count {
            ids.push(id);
            id += 1 + draw.below(scale);
        }
        let state = if count == 0 { "idle" } else { "speaking" };
        let queue: Vec<String> = ids.iter().map(|id| format!("{id}+")).collect();
        let queue = if count == 0 {
            "-".to_string()
        } else {
            queue.join(",")
        };
        let words = format!("{state} {id} {queue}");
        let mut channel = given_name(name.as_bytes(), &words);
        assert!(channel.is_sound(), "{words}");
        let stop = id + 1;
        let input = request(&format!("STOP {stop}|Channel-Identifier:{name}||"));
        let (outcome, written) = handle_in(&mut channel, &input, 305);
        assert_eq!(outcome.number, 0);
        let list: Vec<String> = ids.iter().map(u64::to_string).collect();
        check_answer(&written, &name, stop as u32, &list.join(","));
    }
}

fn check_answer(written: &[u8], name: &str, id: u32, list: &str) {
    let message = read(written).unwrap();
    assert_eq!(message.length, written.len());
    assert_eq!((message.version.major, message.version.minor), (2, 0));
    match message.start {
        StartLine::Response {
            id: got, status, ..
        } => assert_eq!((got, status), (id, 200)),
        other => panic!("{other:?}"),
    }
    let fields = message.fields.unwrap();
    let identifier = fields.value(Known::ChannelIdentifier);
    assert_eq!(identifier.as_deref(), Some(name.as_bytes()));
    let expected = (!list.is_empty()).then_some(list.as_bytes());
    let listed = fields.value(Known::ActiveRequestIdList);
    assert_eq!(listed.as_deref(), expected);
    assert!(fields.body.is_empty());
}
