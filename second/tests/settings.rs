//! Settings with editions: request K5 of document 02.

mod common;

use common::*;
use second::kept::{self, Kept};
use second::script::{put_settings, Command};

/// The editions as `settings` prints them.
fn settings(channel: &Kept) -> String {
    let mut text = Vec::new();
    put_settings(&mut text, channel);
    let text = String::from_utf8(text).unwrap();
    text.strip_prefix("settings ").unwrap().to_string()
}

/// The channel with editions from the words of a `settings` line.
fn with(mut channel: Kept, words: &str) -> Kept {
    match second::script::command(format!("settings {words}").as_bytes()) {
        Ok(Some(Command::SetSettings { editions, count })) => {
            channel.put_editions(&editions, count);
        }
        other => panic!("{words}: {other:?}"),
    }
    channel
}

fn recognizer(words: &str) -> Kept {
    given_name(RECOGNIZER, words)
}

/// What a handled message is answered after its channel's name: status, and each field.
fn told(channel: &mut Kept, input: &[u8]) -> String {
    let (outcome, written) = handle(channel, input);
    assert_eq!(outcome.number, 0);
    let text = String::from_utf8(written).unwrap();
    let mut lines = text.split("\r\n");
    let words: Vec<&str> = lines.next().unwrap().split(' ').collect();
    assert_eq!(words[1], text.len().to_string());
    assert!(lines.next().unwrap().starts_with("Channel-Identifier:"));
    let rest: Vec<&str> = lines.filter(|line| !line.is_empty()).collect();
    [words[3..].join(" "), rest.join(" ")]
        .join(" ")
        .trim_end()
        .to_string()
}

/// On `-/-`, or on a recognizer `-/-/-`: what follows the method, the answer, and the editions.
type Row = (&'static str, &'static str, &'static str);

const SYNTHESIZER: &[Row] = &[
    ("SET-PARAMS 9|{C}|", "200 COMPLETE", "-/-,-/-"),
    (
        "SET-PARAMS 9|{C}Logging-Tag:x|Proxy-Sync-Id:||",
        "200 COMPLETE",
        "-/-,-/-",
    ),
    (
        "SET-PARAMS 9|{C}Content-Length:2||Hi",
        "200 COMPLETE",
        "-/-,-/-",
    ),
    (
        "SET-PARAMS 9|{C}Kill-On-Barge-In:false||",
        "200 COMPLETE",
        "false/-,-/-",
    ),
    (
        "SET-PARAMS 9|{C}KILL-ON-barge-in:\t tRuE ||",
        "200 COMPLETE",
        "true/-,-/-",
    ),
    (
        "SET-PARAMS 9|{C}Fetch-Timeout:|\t 0||",
        "200 COMPLETE",
        "-/0,-/-",
    ),
    (
        "SET-PARAMS 9|Fetch-Timeout:007|{C}Kill-On-Barge-In:true||",
        "200 COMPLETE",
        "true/7,-/-",
    ),
    (
        "SET-PARAMS 9|{C}fetch-timeout:9999999999999999999||",
        "200 COMPLETE",
        "-/9999999999999999999,-/-",
    ),
    (
        "SET-PARAMS 9|{C}Fetch-Timeout:0000000000000000001||",
        "200 COMPLETE",
        "-/1,-/-",
    ),
    // 404, and none takes effect
    ("SET-PARAMS 9|{C}Fetch-Timeout:||", "404 COMPLETE", "-/-"),
    ("SET-PARAMS 9|{C}Kill-On-Barge-In:||", "404 COMPLETE", "-/-"),
    (
        "SET-PARAMS 9|{C}Fetch-Timeout:00000000000000000001||",
        "404 COMPLETE",
        "-/-",
    ),
    (
        "SET-PARAMS 9|{C}Fetch-Timeout:10000000000000000000||",
        "404 COMPLETE",
        "-/-",
    ),
    (
        "SET-PARAMS 9|{C}Fetch-Timeout:1| 0||",
        "404 COMPLETE",
        "-/-",
    ),
    ("SET-PARAMS 9|{C}Fetch-Timeout:-1||", "404 COMPLETE", "-/-"),
    (
        "SET-PARAMS 9|{C}Kill-On-Barge-In:true|Fetch-Timeout:x||",
        "404 COMPLETE",
        "-/-",
    ),
    // 403 before it
    (
        "SET-PARAMS 9|{C}Content-Type:text/plain||",
        "403 COMPLETE",
        "-/-",
    ),
    (
        "SET-PARAMS 9|{C}Active-Request-Id-List:1||",
        "403 COMPLETE",
        "-/-",
    ),
    ("SET-PARAMS 9|{C}X:||", "403 COMPLETE", "-/-"),
    ("SET-PARAMS 9|{C}X:|X:||", "403 COMPLETE", "-/-"),
    (
        "SET-PARAMS 9|{C}Confidence-Threshold:0.5||",
        "403 COMPLETE",
        "-/-",
    ),
    (
        "SET-PARAMS 9|{C}No-Input-Timeout:5||",
        "403 COMPLETE",
        "-/-",
    ),
    (
        "SET-PARAMS 9|{C}Sensitivity-Level:1||",
        "403 COMPLETE",
        "-/-",
    ),
    (
        "SET-PARAMS 9|{C}Fetch-Timeout:x|Voice-Gender:y||",
        "403 COMPLETE",
        "-/-",
    ),
    (
        "GET-PARAMS 9|{C}Cancel-If-Queue:true||",
        "403 COMPLETE",
        "-/-",
    ),
    (
        "GET-PARAMS 9|{C}Sensitivity-Level:||",
        "403 COMPLETE",
        "-/-",
    ),
    // any of the five twice is 404 at judgement 2
    (
        "SET-PARAMS 9|{C}Fetch-Timeout:1|FETCH-TIMEOUT:1||",
        "404 COMPLETE",
        "-/-",
    ),
    (
        "SET-PARAMS 9|{C}No-Input-Timeout:1|No-Input-Timeout:1||",
        "404 COMPLETE",
        "-/-",
    ),
    (
        "GET-PARAMS 9|{C}Sensitivity-Level:|Sensitivity-Level:||",
        "404 COMPLETE",
        "-/-",
    ),
    ("GET-PARAMS 9|{C}Content-Length:1||", "404 COMPLETE", "-/-"),
    // no value is judged
    (
        "GET-PARAMS 9|{C}|",
        "200 COMPLETE Kill-On-Barge-In: Fetch-Timeout:",
        "-/-",
    ),
    (
        "GET-PARAMS 9|{C}Logging-Tag:||",
        "200 COMPLETE Kill-On-Barge-In: Fetch-Timeout:",
        "-/-",
    ),
    (
        "GET-PARAMS 9|{C}fetch-timeout:x y||",
        "200 COMPLETE Fetch-Timeout:",
        "-/-",
    ),
];

const RECOGNITION: &[Row] = &[
    ("SET-PARAMS 9|{R}|", "200 COMPLETE", "-/-/-,-/-/-"),
    (
        "SET-PARAMS 9|{R}Sensitivity-Level:1.000000|No-Input-Timeout:5000|Confidence-Threshold:0||",
        "200 COMPLETE",
        "5000/:00000000/:3f800000,-/-/-",
    ),
    (
        "SET-PARAMS 9|{R}Confidence-Threshold:0.50||",
        "200 COMPLETE",
        "-/:3f000000/-,-/-/-",
    ),
    (
        "SET-PARAMS 9|{R}Sensitivity-Level:0.000001||",
        "200 COMPLETE",
        "-/-/:358637bd,-/-/-",
    ),
    (
        "SET-PARAMS 9|{R}Sensitivity-Level:1.000001||",
        "404 COMPLETE",
        "-/-/-",
    ),
    (
        "SET-PARAMS 9|{R}Sensitivity-Level:.5||",
        "404 COMPLETE",
        "-/-/-",
    ),
    (
        "SET-PARAMS 9|{R}Confidence-Threshold:0.||",
        "404 COMPLETE",
        "-/-/-",
    ),
    (
        "SET-PARAMS 9|{R}Confidence-Threshold:0.1234567||",
        "404 COMPLETE",
        "-/-/-",
    ),
    (
        "SET-PARAMS 9|{R}No-Input-Timeout:1|Sensitivity-Level:||",
        "404 COMPLETE",
        "-/-/-",
    ),
    (
        "SET-PARAMS 9|{R}Kill-On-Barge-In:true||",
        "403 COMPLETE",
        "-/-/-",
    ),
    ("SET-PARAMS 9|{R}Fetch-Timeout:5||", "403 COMPLETE", "-/-/-"),
    (
        "SET-PARAMS 9|{R}Fetch-Timeout:5|fetch-timeout:5||",
        "404 COMPLETE",
        "-/-/-",
    ),
    (
        "GET-PARAMS 9|{R}|",
        "200 COMPLETE No-Input-Timeout: Confidence-Threshold: Sensitivity-Level:",
        "-/-/-",
    ),
    (
        "GET-PARAMS 9|{R}Sensitivity-Level:x|No-Input-Timeout:||",
        "200 COMPLETE No-Input-Timeout: Sensitivity-Level:",
        "-/-/-",
    ),
];

#[test]
fn params_by_table() {
    let tables = [
        (
            SYNTHESIZER,
            ["idle - -", "speaking 5 1+", "paused 5 1-,3+"],
            NAME,
        ),
        (
            RECOGNITION,
            ["idle 5 -", "recognizing 5 1:3f000000", "recognized 5 -"],
            RECOGNIZER,
        ),
    ];
    for (rows, states, name) in tables {
        for (text, expected, after) in rows {
            for state in states {
                let mut channel = given_name(name, state);
                assert_eq!(
                    told(&mut channel, &request(text)),
                    *expected,
                    "{state}: {text}"
                );
                assert_eq!(settings(&channel), *after, "{state}: {text}");
                assert!(channel.is_sound(), "{state}: {text}");
                // State and queue stay; the id counts where judgement 2 passed.
                let before: Vec<&str> = state.split(' ').collect();
                let shown = shown(&channel);
                let now: Vec<&str> = shown.split(' ').collect();
                assert_eq!((now[0], now[2]), (before[0], before[2]), "{text}");
            }
        }
    }
}

/// The earlier judgements come first, and a value moves nothing but the last id.
#[test]
fn the_order_of_judgement() {
    let rows = [
        ("MRCP/2.1 {L} SET-PARAMS 6|{C}X:||", "502 COMPLETE", 6),
        ("MRCP/2.0 {L} SET-PARAMS 6|{C}X:|", "404 COMPLETE", 6),
        ("MRCP/2.0 {L} SET-PARAMS 6|X:||", "406 COMPLETE", 6),
        ("MRCP/2.0 {L} GET-PARAMS 6|{R}X:||", "405 COMPLETE", 6),
        ("MRCP/2.0 {L} SET-PARAMS 5|{C}X:||", "410 COMPLETE", 6),
        ("MRCP/2.0 {L} SET-PARAMS 6|{C}X:||", "403 COMPLETE", 7),
        (
            "MRCP/2.0 {L} SET-PARAMS 6|{C}Fetch-Timeout:||",
            "404 COMPLETE",
            7,
        ),
        (
            "MRCP/2.0 {L} GET-PARAM 6|{C}Fetch-Timeout:||",
            "401 COMPLETE",
            7,
        ),
        ("MRCP/2.0 {L} SET-PARAMS 6|{C}|", "200 COMPLETE", 7),
    ];
    for (text, expected, last) in rows {
        let mut channel = given("speaking 5 1+");
        assert_eq!(answer(&mut channel, &wire(text)), expected, "{text}");
        assert_eq!(channel.0[kept::LAST], last, "{text}");
    }
}

/// Outside the two methods three of the five names are unknown.
#[test]
fn the_names_elsewhere() {
    let rows = [
        (
            "CONTROL 9|{C}Fetch-Timeout:|Fetch-Timeout:||",
            "201 COMPLETE 1",
        ),
        ("STOP 9|{C}No-Input-Timeout:x||", "201 COMPLETE 1"),
        (
            "STOP 9|{C}Sensitivity-Level:1|sensitivity-level:2||",
            "201 COMPLETE 1",
        ),
        (
            "STOP 9|{C}Confidence-Threshold:1|confidence-threshold:1||",
            "404 COMPLETE",
        ),
        (
            "STOP 9|{C}Kill-On-Barge-In:1|kill-on-barge-in:1||",
            "404 COMPLETE",
        ),
        (
            "GET-PARAM 9|{C}Fetch-Timeout:|Fetch-Timeout:||",
            "401 COMPLETE",
        ),
    ];
    for (text, expected) in rows {
        let mut channel = given("speaking 5 1+");
        assert_eq!(answer(&mut channel, &request(text)), expected, "{text}");
    }
}

/// Reading alone knows all five in requests of these two methods.
#[test]
fn read_alone() {
    let names = ["Fetch-Timeout", "No-Input-Timeout", "Sensitivity-Level"];
    for name in names {
        let twice = format!("|{name}:1|{}:2||", name.to_uppercase());
        let rows = [
            ("SET-PARAMS 9", false),
            ("GET-PARAMS 9", false),
            ("SPEAK 9", true),
            ("SET-PARAMSX 9", true),
            ("9 200 COMPLETE", true),
            // An event of that name is no request.
            ("SET-PARAMS 9 COMPLETE", true),
        ];
        for (line, is_good) in rows {
            let message = request(&format!("{line}{twice}"));
            let fields = second::read(&message).unwrap().fields;
            assert_eq!(fields.is_some(), is_good, "{line}{twice}");
        }
        let message = request(&format!("SET-PARAMS 9|{name}:1||"));
        assert!(second::read(&message).unwrap().fields.is_some());
    }
}

#[test]
fn what_is_told() {
    let full = "MRCP/2.0 {L} 9 200 COMPLETE|{R}No-Input-Timeout:5000|\
                Confidence-Threshold:0.500000|Sensitivity-Level:1.000000||";
    let rows = [
        ("5000/:3f000000/:3f800000", "", full),
        (
            "0/:00000000/:358637bd",
            "",
            "MRCP/2.0 {L} 9 200 COMPLETE|{R}No-Input-Timeout:0|\
             Confidence-Threshold:0.000000|Sensitivity-Level:0.000001||",
        ),
        (
            "9999999999999999999/-/-,1/-/-",
            "No-Input-Timeout:|",
            "MRCP/2.0 {L} 9 200 COMPLETE|{R}No-Input-Timeout:9999999999999999999||",
        ),
    ];
    for (words, named, expected) in rows {
        let mut channel = with(recognizer("idle 5 -"), words);
        let get = request(&format!("GET-PARAMS 9|{{R}}{named}|"));
        let (_, written) = handle(&mut channel, &get);
        assert_eq!(written, wire(expected), "{words}");
        let mut channel = with(recognizer("idle 5 -"), words);
        let before = channel;
        let (outcome, _) = handle_in(&mut channel, &get, written.len() - 1);
        assert_eq!((outcome.number, outcome.consumed), (7, 0));
        assert_eq!(channel, before);
        assert_eq!(handle_in(&mut channel, &get, written.len()).0.number, 0);
    }
    let mut channel = with(given("idle 5 -"), "true/2500,-/-");
    let get = request("GET-PARAMS 9|{C}|");
    let expected = "200 COMPLETE Kill-On-Barge-In:true Fetch-Timeout:2500";
    assert_eq!(told(&mut channel, &get), expected);
    assert_eq!(settings(&channel), "true/2500,-/-");
}

/// Each SET-PARAMS makes one, what it doesn't name as before; the last four are kept.
#[test]
fn editions_are_made_and_gone_back_to() {
    let mut channel = opened();
    let mut id = 0;
    let mut set = |channel: &mut Kept, fields: &str| {
        id += 1;
        let input = request(&format!("SET-PARAMS {id}|{{C}}{fields}|"));
        assert_eq!(answer(channel, &input), "200 COMPLETE");
    };
    set(&mut channel, "Fetch-Timeout:1|");
    set(&mut channel, "Kill-On-Barge-In:false|");
    assert_eq!(settings(&channel), "false/1,-/1,-/-");
    set(&mut channel, "");
    assert_eq!(settings(&channel), "false/1,false/1,-/1,-/-");
    set(&mut channel, "Fetch-Timeout:2|");
    assert_eq!(settings(&channel), "false/2,false/1,false/1,-/1");
    for number in [0, 5, 257, u32::MAX] {
        let before = channel;
        let outcome = channel.back(number);
        assert_eq!(
            (outcome.number, outcome.consumed, outcome.written),
            (12, 0, 0)
        );
        assert_eq!(channel, before);
    }
    assert_eq!(channel.back(4).number, 0);
    assert_eq!(settings(&channel), "-/1,false/2,false/1,false/1");
    assert_eq!(channel.back(1).number, 0);
    assert_eq!(settings(&channel), "-/1,-/1,false/2,false/1");
    set(&mut channel, "Kill-On-Barge-In:true|");
    assert_eq!(settings(&channel), "true/1,-/1,-/1,false/2");
    // What else the channel holds is as it was.
    assert_eq!(shown(&channel), "idle 5 -");
    let mut fresh = opened();
    assert_eq!(fresh.back(2).number, 12);
    assert_eq!(fresh.back(1).number, 0);
    assert_eq!(settings(&fresh), "-/-,-/-");
    assert_eq!(Kept::open(b"x").0.back(1).number, 21);
}

/// A request without a field of its own takes the setting at acceptance, for good.
#[test]
fn the_setting_of_the_moment() {
    let mut channel = opened();
    handle(&mut channel, &speak(1, ""));
    handle(
        &mut channel,
        &request("SET-PARAMS 2|{C}Kill-On-Barge-In:false||"),
    );
    handle(&mut channel, &speak(3, ""));
    handle(&mut channel, &speak(4, "Kill-On-Barge-In:true|"));
    assert_eq!(channel.back(2).number, 0);
    handle(&mut channel, &speak(5, ""));
    handle(
        &mut channel,
        &request("SET-PARAMS 6|{C}Kill-On-Barge-In:true||"),
    );
    handle(&mut channel, &speak(7, "Kill-On-Barge-In:FALSE|"));
    assert_eq!(shown(&channel), "speaking 7 1+,3-,4+,5+,7-");
    let (mut channel, _) = Kept::open(RECOGNIZER);
    let recognize = |id: u32, fields: &str| {
        request(&format!(
            "RECOGNIZE {id}|{{R}}Content-Type:text/uri-list|Content-Length:2|{fields}|Hi"
        ))
    };
    handle(&mut channel, &recognize(1, ""));
    handle(
        &mut channel,
        &request("SET-PARAMS 2|{R}Confidence-Threshold:0.5||"),
    );
    handle(&mut channel, &recognize(3, ""));
    handle(&mut channel, &recognize(4, "Confidence-Threshold:1|"));
    handle(
        &mut channel,
        &request("SET-PARAMS 5|{R}Sensitivity-Level:0.25||"),
    );
    handle(&mut channel, &recognize(6, ""));
    assert_eq!(channel.back(3).number, 0);
    handle(&mut channel, &recognize(7, ""));
    let queue = "1:00000000,3:3f000000,4:3f800000,6:3f000000,7:00000000";
    assert_eq!(shown(&channel), format!("recognizing 7 {queue}"));
    // An entry's last bit is set, as it always was.
    assert!(channel.0[kept::QUEUE..][..5]
        .iter()
        .all(|entry| entry % 2 == 1));
}

/// Of which sort, how large, and how many.
#[test]
fn soundness_by_table() {
    let rows: &[(&str, bool)] = &[
        ("-/-", true),
        ("true/0,false/9999999999999999999,-/-,-/1", true),
        ("- 1", true),
        ("- 4", true),
        ("-", false),
        ("true/0 0", false),
        ("- 5", false),
        ("true/0 4294967297", false),
        ("true/0 18446744073709551615", false),
        ("1/0", false),
        ("0/0", false),
        (":00000000/0", false),
        ("true/true", false),
        ("true/:3f000000", false),
        ("true/10000000000000000000", false),
        ("true/18446744073709551615", false),
        ("-/-,-/-,-/-,-/true", false),
        ("-/-,-/true 1", true),
    ];
    for (words, is_sound) in rows {
        check_soundness(with(given("idle 5 -"), words), *is_sound, words);
    }
    let rows: &[(&str, bool)] = &[
        ("-/-/-", true),
        ("0/:00000000/:3f800000,5000/-/:358637bd", true),
        ("true/-/-", false),
        (":3f000000/-/-", false),
        ("10000000000000000000/-/-", false),
        ("-/true/-", false),
        ("-/0/-", false),
        ("-/1/-", false),
        ("-/-/500000", false),
        ("-/-/false", false),
        ("-/:80000000/-", false),
        ("-/-/:80000000", false),
        ("-/-/:7fc00000", false),
        ("-/:ffffffff/-", false),
        ("-/:3f800001/-", false),
        ("-/:bf000000/-", false),
        ("-/:3eaaaaab/-", false),
        ("-/-/:00000001", false),
        ("-/-/-,-/-/:7f800000", false),
    ];
    for (words, is_sound) in rows {
        check_soundness(with(recognizer("idle 5 -"), words), *is_sound, words);
    }
}

/// Every call gives 21 exactly where the channel is not sound, and then changes nothing.
fn check_soundness(before: Kept, is_sound: bool, words: &str) {
    assert_eq!(before.is_sound(), is_sound, "{words}");
    assert_eq!(before.held().is_some(), is_sound, "{words}");
    let number = |sound: u32| if is_sound { sound } else { 21 };
    let mut channel = before;
    let (outcome, _) = handle_in(&mut channel, b"", 0);
    assert_eq!(outcome.number, number(1), "{words}");
    assert_eq!(
        report_in(&mut channel, 99, 0).0.number,
        number(9),
        "{words}"
    );
    assert_eq!(channel.back(0).number, number(12), "{words}");
    assert_eq!(channel, before, "{words}");
    assert_eq!(channel.back(1).number, number(0), "{words}");
    assert_eq!(channel.is_sound(), is_sound, "{words}");
    if !is_sound {
        assert_eq!(channel, before, "{words}");
    }
}

/// 64 is the count, from 65 on six numbers for each edition: sort and value of each setting.
#[test]
fn the_places() {
    let mut channel = with(recognizer("idle 5 -"), "5000/:3f000000/-,-/-/:3f800000");
    let editions = [2, 2, 5000, 3, 500_000, 0, 0, 0, 0, 0, 0, 3, 1_000_000, 0, 0];
    assert_eq!(channel.0[64..79], editions);
    let set = request("SET-PARAMS 9|{R}No-Input-Timeout:7||");
    assert_eq!(answer(&mut channel, &set), "200 COMPLETE");
    assert_eq!(channel.0[64..73], [3, 2, 7, 3, 500_000, 0, 0, 2, 5000]);
    let mut channel = with(given("idle 5 -"), "false/3,true/-");
    assert_eq!(channel.0[64..77], [2, 1, 0, 2, 3, 0, 0, 1, 1, 0, 0, 0, 0]);
    // A synthesizer's third pair is not looked at, nor is a value that is unset.
    (channel.0[69], channel.0[70], channel.0[74]) = (9, 9, 9);
    assert!(channel.is_sound());
    assert_eq!(channel.back(2).number, 0);
    assert_eq!(channel, with(given("idle 5 -"), "true/-,false/3,true/-"));
    // Flags and sorts beyond their range.
    for (place, value) in [
        (65, 4),
        (65, 257),
        (66, 2),
        (66, u64::MAX),
        (67, 1 << 32 | 2),
    ] {
        let mut channel = with(given("idle 5 -"), "false/3");
        channel.0[place] = value;
        assert!(!channel.is_sound(), "{place} {value}");
    }
    let (refused, _) = Kept::open(b"x");
    let ones: Vec<usize> = (0..89).filter(|&place| refused.0[place] != 0).collect();
    assert_eq!((ones, refused.0[64]), (vec![64], 1));
}

/// What is shown where the numbers are no editions.
#[test]
fn what_is_shown() {
    let mut channel = with(recognizer("idle 5 -"), "true/:80000000/9 200");
    assert_eq!(settings(&channel), "true/:80000000/9,-/-/-,-/-/-,-/-/- 200");
    assert_eq!(channel.0[68], (1 << 32) + 0x8000_0000);
    (channel.0[64], channel.0[65], channel.0[66]) = (1, 4, 7);
    assert_eq!(settings(&channel), "-/:80000000/9");
    (channel.0[65], channel.0[66]) = (1, 7);
    channel.0[68] = 1_000_001;
    assert_eq!(settings(&channel), "true/:000f4241/9");
}

/// Going back is one of the calls that the ledger is checked after.
#[test]
fn the_ledger_and_going_back() {
    use second::ledger::{Entry, Violation};
    let mut board = second::play::Board::new();
    assert_eq!(board.open(NAME), 0);
    assert_eq!(
        board.message(305, &speak(7, "")).entry,
        Ok(Entry::Accepted(7))
    );
    assert_eq!(board.back(1).entry, Ok(Entry::Nothing));
    assert_eq!(board.back(9).entry, Ok(Entry::Nothing));
    let set = request("SET-PARAMS 8|{C}Kill-On-Barge-In:false||");
    assert_eq!(board.message(305, &set).entry, Ok(Entry::Nothing));
    board.channel.0[kept::COUNT] = 0;
    board.channel.0[kept::STATE] = 0;
    let (open, held) = (vec![7], vec![]);
    assert_eq!(
        board.back(1).entry,
        Err(Violation::OutOfBalance { open, held })
    );
    // Editions that the script sets suspend the check until the next opening.
    assert!(board.set_settings(&[], 1).is_ok());
    assert_eq!(board.back(1).entry, Ok(Entry::Nothing));
}

/// 305 bytes do for every answer about settings too.
#[test]
fn the_longest_answer() {
    let name = format!("{}@speechrecog", "a".repeat(32));
    let mut channel = with(
        given_name(name.as_bytes(), "idle 5 -"),
        "9999999999999999999/:3f000000/:3f800000",
    );
    let get = request(&format!(
        "GET-PARAMS 4294967295|Channel-Identifier:{name}||"
    ));
    let (outcome, written) = handle_in(&mut channel, &get, 305);
    assert_eq!(outcome.number, 0);
    assert_eq!(written.len(), 202);
}
