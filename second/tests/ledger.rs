//! The ledger: what enters it, and that it finds planted violations.

mod common;

use common::*;
use second::ledger::{entry_of_message, entry_of_report, Entry, Ledger, Violation};

fn answered(status: &str, list: &str) -> Vec<u8> {
    let list = match list {
        "" => String::new(),
        ids => format!("Active-Request-Id-List:{ids}|"),
    };
    wire(&format!("MRCP/2.0 {{L}} 9 {status}|{{C}}{list}|"))
}

#[test]
fn entries_by_table() {
    let rows = [
        (
            speak(9, ""),
            0,
            answered("200 IN-PROGRESS", ""),
            Entry::Accepted(9),
        ),
        (
            speak(9, ""),
            0,
            answered("201 PENDING", ""),
            Entry::Accepted(9),
        ),
        (
            speak(9, ""),
            0,
            answered("407 COMPLETE", ""),
            Entry::Nothing,
        ),
        (speak(9, ""), 7, Vec::new(), Entry::Nothing),
        (
            request("STOP 9|{C}|"),
            0,
            answered("200 COMPLETE", ""),
            Entry::Nothing,
        ),
        (
            request("STOP 9|{C}|"),
            0,
            answered("200 COMPLETE", "3,1"),
            Entry::Closed(vec![3, 1]),
        ),
        (
            request("STOP 9|{C}|"),
            0,
            answered("410 COMPLETE", "3,1"),
            Entry::Nothing,
        ),
        (
            request("BARGE-IN-OCCURRED 9|{C}|"),
            0,
            answered("201 COMPLETE", "1"),
            Entry::Closed(vec![1]),
        ),
        (
            request("PAUSE 9|{C}|"),
            0,
            answered("200 COMPLETE", "1"),
            Entry::Nothing,
        ),
        (
            request("CONTROL 9|{C}|"),
            0,
            answered("200 COMPLETE", "1"),
            Entry::Nothing,
        ),
        (b"x".to_vec(), 2, Vec::new(), Entry::Nothing),
    ];
    for (input, number, written, expected) in rows {
        let entry = entry_of_message(&input, number, &written);
        assert_eq!(entry, Ok(expected), "{}", input.escape_ascii());
    }
}

#[test]
fn bytes_that_no_reader_understands() {
    let good = answered("200 PENDING", "");
    let cut = &good[..good.len() - 1];
    let twice = [&good[..], &good[..]].concat();
    let request_back = request("STOP 9|{C}|");
    for written in [&b""[..], b"x", cut, &twice, &request_back] {
        let entry = entry_of_message(&speak(9, ""), 0, written);
        assert!(matches!(entry, Err(Violation::Unreadable(_))));
    }
    let entry = entry_of_report(0, &good);
    assert!(matches!(entry, Err(Violation::Unreadable(_))));
    let entry = entry_of_message(b"x", 0, &good);
    assert!(matches!(entry, Err(Violation::Unreadable(_))));
    assert_eq!(entry_of_report(8, b""), Ok(Entry::Nothing));
}

/// Enters all, then balances against what is held.
fn balance(entries: &[Entry], held: &[u32]) -> Result<(), Violation> {
    let mut ledger = Ledger::default();
    for entry in entries {
        ledger.enter(entry)?;
    }
    ledger.balance(held.to_vec())
}

#[test]
fn planted_violations() {
    use Entry::{Accepted, Closed};
    let out = |open: &[u32], held: &[u32]| {
        Err(Violation::OutOfBalance {
            open: open.to_vec(),
            held: held.to_vec(),
        })
    };
    type Row = (Vec<Entry>, Vec<u32>, Result<(), Violation>);
    let rows: Vec<Row> = vec![
        (vec![], vec![], Ok(())),
        (vec![Accepted(1), Accepted(2)], vec![1, 2], Ok(())),
        (
            vec![Accepted(1), Accepted(2), Closed(vec![1])],
            vec![2],
            Ok(()),
        ),
        (vec![Accepted(1), Closed(vec![1])], vec![], Ok(())),
        (
            vec![Accepted(1), Accepted(1)],
            vec![1, 1],
            Err(Violation::AcceptedTwice(1)),
        ),
        (
            vec![Accepted(1), Closed(vec![1]), Accepted(1)],
            vec![1],
            Err(Violation::AcceptedTwice(1)),
        ),
        (
            vec![Accepted(1), Closed(vec![1, 1])],
            vec![],
            Err(Violation::ClosedTwice(1)),
        ),
        (
            vec![Accepted(1), Closed(vec![1]), Closed(vec![1])],
            vec![],
            Err(Violation::ClosedTwice(1)),
        ),
        (
            vec![Closed(vec![1]), Accepted(1)],
            vec![],
            Err(Violation::ClosedBeforeAccepted(1)),
        ),
        (
            vec![Accepted(1), Closed(vec![2])],
            vec![1],
            Err(Violation::ClosedBeforeAccepted(2)),
        ),
        (vec![Accepted(1)], vec![], out(&[1], &[])),
        (vec![], vec![1], out(&[], &[1])),
        (
            vec![Accepted(1), Accepted(2)],
            vec![2, 1],
            out(&[1, 2], &[2, 1]),
        ),
        (vec![Accepted(1), Closed(vec![1])], vec![1], out(&[], &[1])),
    ];
    for (entries, held, expected) in rows {
        assert_eq!(balance(&entries, &held), expected, "{entries:?} {held:?}");
    }
}

/// The quick checks agree with the two lists, over a long conversation.
#[test]
fn the_lists_and_the_quick_checks_agree() {
    let mut channel = opened();
    let mut ledger = Ledger::default();
    for id in 1..600u32 {
        let input = match id % 7 {
            5 => request(&format!(
                "STOP {id}|{{C}}Active-Request-Id-List:{}||",
                id - 2
            )),
            6 if id % 5 == 0 => request(&format!("BARGE-IN-OCCURRED {id}|{{C}}|")),
            _ => speak(id, ""),
        };
        let (outcome, written) = handle(&mut channel, &input);
        let entry = entry_of_message(&input, outcome.number, &written).unwrap();
        ledger.enter(&entry).unwrap();
        if id % 3 == 0 {
            let (outcome, written) = report_in(&mut channel, 0, 305);
            let entry = entry_of_report(outcome.number, &written).unwrap();
            ledger.enter(&entry).unwrap();
        }
        ledger.balance(channel.held().unwrap()).unwrap();
        let (accepted, closed) = (ledger.accepted(), ledger.closed());
        let open: Vec<u32> = accepted
            .iter()
            .copied()
            .filter(|id| !closed.contains(id))
            .collect();
        assert_eq!(open, ledger.open());
    }
    assert!(ledger.closed().len() > 100);
}

/// A channel that loses a prompt behind the ledger's back is found at the next call.
#[test]
fn the_board_finds_a_lost_prompt() {
    let mut board = second::play::Board::new();
    assert_eq!(board.open(NAME), 0);
    assert!(board.message(305, &speak(7, "")).entry.is_ok());
    assert!(board.message(305, &speak(8, "")).entry.is_ok());
    let kept = board.channel;
    board.channel.0[second::kept::COUNT] = 1;
    let entry = board.message(305, &request("PAUSE 9|{C}|")).entry;
    let (open, held) = (vec![7, 8], vec![7]);
    assert_eq!(entry, Err(Violation::OutOfBalance { open, held }));
    // A channel that the script sets is not checked until the next opening.
    board.set(kept);
    board.channel.0[second::kept::COUNT] = 1;
    assert!(board.message(305, &request("PAUSE 9|{C}|")).entry.is_ok());
    assert_eq!(board.open(NAME), 0);
    assert!(board.message(305, &speak(7, "")).entry.is_ok());
}
