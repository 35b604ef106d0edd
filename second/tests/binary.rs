//! The program as it is run: scripts in, lines out, exit statuses.

use std::io::Write;
use std::process::{Command, Output, Stdio};

fn second(words: &[&str], input: &[u8]) -> Output {
    let mut child = Command::new(env!("CARGO_BIN_EXE_second"))
        .args(words)
        .stdin(Stdio::piped())
        .stdout(Stdio::piped())
        .stderr(Stdio::piped())
        .spawn()
        .expect("the program starts");
    let mut stdin = child.stdin.take().expect("a pipe");
    let input = input.to_vec();
    let feeder = std::thread::spawn(move || {
        // A program that stops early does not read to the end.
        let _ = stdin.write_all(&input);
    });
    let output = child.wait_with_output().expect("the program ends");
    feeder.join().expect("the feeder ends");
    output
}

fn text(bytes: &[u8]) -> String {
    String::from_utf8_lossy(bytes).into_owned()
}

fn hex(text: &str) -> String {
    text.replace('|', "\r\n")
        .bytes()
        .map(|byte| format!("{byte:02x}"))
        .collect()
}

fn played(script: &str) -> String {
    let output = second(&["play"], script.as_bytes());
    assert_eq!(output.status.code(), Some(0), "{}", text(&output.stderr));
    text(&output.stdout)
}

#[test]
fn the_lines_of_each_command() {
    let name = hex("7f3a@speechsynth");
    let speak = hex("MRCP/2.0 106 SPEAK 7|Channel-Identifier:7f3a@speechsynth|\
         Content-Type:text/plain|Content-Length:2||Hi");
    let answer = hex("MRCP/2.0 70 7 200 IN-PROGRESS|Channel-Identifier:7f3a@speechsynth||");
    let event = hex(
        "MRCP/2.0 108 SPEAK-COMPLETE 7 COMPLETE|Channel-Identifier:7f3a@speechsynth|\
         Completion-Cause:000 normal||",
    );
    let rows = [
        ("# a comment".to_string(), String::new()),
        (String::new(), String::new()),
        ("frame -".to_string(), "frame 1 0\n".to_string()),
        (format!("frame {} # more", hex("MRCP/2.0 12 x")), "frame 0 12\n".to_string()),
        ("read 78".to_string(), "read 2\n".to_string()),
        (
            format!("read {speak}"),
            format!(
                "read 0 106 request 2 0 SPEAK 7\nfield {} {name}\nfield {} {}\nfield {} {}\nbody {}\n",
                hex("Channel-Identifier"),
                hex("Content-Type"),
                hex("text/plain"),
                hex("Content-Length"),
                hex("2"),
                hex("Hi"),
            ),
        ),
        (
            format!("read {}", hex("MRCP/02.07 39 007 099 COMPLETE|A: ||")),
            format!("read 0 39 response 2 7 7 099 COMPLETE\nfield {} -\nbody -\n", hex("A")),
        ),
        (
            format!("read {}", hex("MRCP/2.0 28 E 9 PENDING|x|")),
            "read 0 28 event 2 0 E 9 PENDING\nbad\n".to_string(),
        ),
        (format!("whose {speak}"), "whose 0 7\n".to_string()),
        (format!("whose {}", hex("MRCP/2.0 99999 STOP 7|")), "whose 0 7\n".to_string()),
        ("whose -".to_string(), "whose 1\n".to_string()),
        ("show".to_string(), "channel - idle - -\n".to_string()),
        (format!("message 305 {speak}"), "message 21 0 -\n".to_string()),
        ("open 78".to_string(), "open 10\n".to_string()),
        (format!("open {name}"), "open 0\n".to_string()),
        (format!("message 69 {speak}"), "message 7 0 -\n".to_string()),
        (format!("message 0070 {speak}"), format!("message 0 106 {answer}\n")),
        ("show".to_string(), format!("channel {name} speaking 7 7+\n")),
        ("report 8 305".to_string(), "report 9 -\n".to_string()),
        ("report 0 305".to_string(), format!("report 0 {event}\n")),
        ("report 0 305".to_string(), "report 8 -\n".to_string()),
        (format!("channel {name} 7 - 3+,2- 200"), String::new()),
        ("show".to_string(), {
            let unset = ",0-".repeat(14);
            format!("channel {name} 7 - 3+,2-{unset} 200\n")
        }),
        ("report 0 305".to_string(), "report 21 -\n".to_string()),
        (format!("channel {name} 2 9 3+,4-,5+ 2"), String::new()),
        ("show".to_string(), format!("channel {name} paused 9 3+,4-\n")),
        ("channel 6162 2 9 3+,4-,5+ 2".to_string(), String::new()),
        ("number 4 18".to_string(), String::new()),
        ("number 21 353".to_string(), String::new()),
        ("numbers".to_string(), {
            let rest = " 0".repeat(13);
            let name = " 0".repeat(42);
            let editions = " 0".repeat(24);
            format!("numbers 2 10 2 2 18 8 11{rest} 97 353{name} 1{editions}\n")
        }),
        ("show".to_string(), "channel 6161 paused 9 9-,4-\n".to_string()),
        ("back 1".to_string(), "back 21\n".to_string()),
        (format!("open {name}"), "open 0\n".to_string()),
        ("settings".to_string(), "settings -/-\n".to_string()),
        ("back 0".to_string(), "back 12\n".to_string()),
        ("back 2".to_string(), "back 12\n".to_string()),
        ("back 1".to_string(), "back 0\n".to_string()),
        ("settings".to_string(), "settings -/-,-/-\n".to_string()),
        ("settings true/250,:3f000000/false".to_string(), String::new()),
        ("settings".to_string(), "settings true/250,:3f000000/false\n".to_string()),
        ("back 4294967295".to_string(), "back 21\n".to_string()),
        ("settings - 5".to_string(), String::new()),
        ("settings".to_string(), "settings -/-,-/-,-/-,-/- 5\n".to_string()),
        ("settings -".to_string(), String::new()),
        ("settings".to_string(), "settings -\n".to_string()),
        ("channel 61407370656563687265636f67 idle - -".to_string(), String::new()),
        ("settings".to_string(), "settings -/-/-\n".to_string()),
        ("settings 5000/:3f000000/-,-/-/-".to_string(), String::new()),
        ("back 2".to_string(), "back 0\n".to_string()),
        ("settings".to_string(), "settings -/-/-,5000/:3f000000/-,-/-/-\n".to_string()),
    ];
    let script: String = rows.iter().map(|(line, _)| format!("{line}\n")).collect();
    let expected: String = rows.iter().map(|(_, lines)| lines.as_str()).collect();
    assert_eq!(played(&script), expected);
    // A last line without its end is fine.
    assert_eq!(played(script.trim_end()), expected);
}

const UNREADABLE: &[&str] = &[
    "nothing",
    "frame",
    "frame ",
    "frame  4d",
    " frame 4d",
    "frame 4d ",
    "frame\t4d",
    "frame 4D",
    "frame 4",
    "frame 4g",
    "frame 4d 4d",
    "frame --",
    "frame 4d\r",
    " ",
    "Frame 4d",
    "read",
    "whose",
    "whose 4D",
    "whose 4",
    "whose 4d 4d",
    "open",
    "open 1",
    "message 305",
    "message -1 4d",
    "message +1 4d",
    "message 1000001 4d",
    "message x 4d",
    "message 4d",
    "message 99999999999999999999999999 4d",
    "report 0",
    "report 4294967296 0",
    "report 0 1000001",
    "report - 0",
    "report 0 0 0",
    "report 0 0 3f00000",
    "report 0 0 3f0000000",
    "report 0 0 3F000000",
    "report 0 0 0x000000",
    "report 0 0 -",
    "report 0 0 +3f00000",
    "report 0 0 3f000000 0",
    "report 0 0 ",
    "respond PENDING 200 7 61 -",
    "respond pending 200 7 61 - 305",
    "respond PENDING 1000 7 61 - 305",
    "respond PENDING 200 4294967296 61 - 305",
    "respond PENDING 200 7 6 - 305",
    "respond PENDING 200 7 61 1, 305",
    "respond PENDING 200 7 61 4294967296 305",
    "respond PENDING 200 7 61 - 1000001",
    "complete 0 7 61",
    "complete x 7 61 305",
    "complete 0 7 61 -1",
    "show 1",
    "channel - idle -",
    "channel - idle - - - -",
    "channel - busy - -",
    "channel - 18446744073709551616 - -",
    "channel - -1 - -",
    "channel - idle 18446744073709551615 -",
    "channel - idle x -",
    "channel - idle - 1",
    "channel - idle - +",
    "channel - idle - 1+,",
    "channel - idle - ,1+",
    "channel - idle - 1+ 2-",
    "channel - idle - 9223372036854775808+",
    "channel - idle - - 18446744073709551616",
    // Each kind has its own form of an entry.
    "channel - idle - 1:3f000000",
    "channel 61407370656563687265636f67 recognizing 1 1+",
    "channel 61407370656563687265636f67 recognizing 1 1",
    "channel 61407370656563687265636f67 recognizing 1 1:",
    "channel 61407370656563687265636f67 recognizing 1 :3f000000",
    "channel 61407370656563687265636f67 recognizing 1 1:3f00000",
    "channel 61407370656563687265636f67 recognizing 1 1:3F000000",
    "channel 61407370656563687265636f67 recognizing 1 1:3f000000:",
    "channel 61407370656563687265636f67 recognizing 1 1:3f000000,",
    "channel 61407370656563687265636f67 recognizing 1 1:3f000000+",
    "channel 61407370656563687265636f67 recognizing 1 9223372036854775808:3f000000",
    "number 0",
    "number 89 0",
    "number 0 -",
    "number 0 18446744073709551616",
    "number 0 1 2",
    "numbers 0",
    "back",
    "back -",
    "back 4294967296",
    "back 1 1",
    "settings true/250 1 1",
    "settings true/250 -",
    "settings true/250 18446744073709551616",
    "settings true/250,",
    "settings ,true/250",
    "settings true/",
    "settings /250",
    "settings True/250",
    "settings yes/250",
    "settings -1/250",
    "settings true/18446744073709551616",
    "settings true/:3f00000",
    "settings true/:3F000000",
    "settings true/:",
    "settings true/3f000000",
    "settings -/-,-/-,-/-,-/-,-/-",
    // As many values as the kind has settings, and the channel is a synthesizer's.
    "settings true",
    "settings true/250/-",
    "settings -/-,-/-/-",
];

#[test]
fn unreadable_lines() {
    let many = format!("channel - idle - {}", vec!["1+"; 17].join(","));
    let nine = ["1:00000000"; 9].join(",");
    let nine = format!("channel 61407370656563687265636f67 idle - {nine}");
    let huge = format!("frame {}", "00".repeat(1_000_001));
    let listed = format!("respond PENDING 200 7 61 {} 305", vec!["1"; 17].join(","));
    let longer = [&many[..], &nine, &huge, &listed];
    for &line in UNREADABLE.iter().chain(&longer) {
        let script = format!("# first\nframe -\n\n{line}\nframe -\n");
        for act in ["play", "tell"] {
            let output = second(&[act], script.as_bytes());
            let shown = &line[..line.len().min(60)];
            assert_eq!(output.status.code(), Some(2), "{act} {shown}");
            let error = text(&output.stderr);
            assert!(error.contains("line 4:"), "{act} {shown}: {error}");
            if act == "play" {
                assert_eq!(text(&output.stdout), "frame 1 0\n", "{shown}");
            }
        }
    }
}

#[test]
fn messages_written_outside_a_channel() {
    let answer = "MRCP/2.0 51 7 200 PENDING\r\nChannel-Identifier:a\r\n\r\n";
    let hex = |text: &str| -> String { text.bytes().map(|byte| format!("{byte:02x}")).collect() };
    let length = answer.len();
    assert_eq!(length, 51);
    let shown = played(&format!("respond PENDING 200 7 61 - {length}\n"));
    assert_eq!(shown, format!("respond 0 {}\n", hex(answer)));
    let short = played(&format!("respond PENDING 200 7 61 - {}\n", length - 1));
    assert_eq!(short, "respond 7 -\n");
    assert_eq!(played("complete 8 7 61 305\n"), "complete 9 -\n");
    assert_eq!(played("complete 8 7 61 0\n"), "complete 9 -\n");
    let written = played("complete 0 7 61 305\n");
    let begin = hex("MRCP/2.0 92 SPEAK-COMPLETE 7 COMPLETE\r\n");
    assert!(
        written.starts_with(&format!("complete 0 {begin}")),
        "{written}"
    );
}

#[test]
fn the_ends_of_the_ranges_are_readable() {
    let most = format!("frame {}", "00".repeat(1_000_000));
    let lines = [
        "message 1000000 -",
        "message 000000000000000000000000000007 -",
        "report 4294967295 1000000",
        "channel - 255 4294967295 4294967295+,0- 4294967295",
        "channel - 18446744073709551615 18446744073709551614 9223372036854775807+ 18446744073709551615",
        "number 88 18446744073709551615",
        "back 4294967295",
        "settings - 18446744073709551615",
        "settings true/18446744073709551615,:ffffffff/:00000000,-/-,false/0007 4",
        "number 0 000000000000000000000000000007",
        "   # a comment after blanks",
        "show   # a comment after blanks",
        "show# a comment",
        "# \u{e9} any bytes",
        &most,
    ];
    for line in lines {
        played(line);
    }
    // Of a longer name as many bytes as fit are kept.
    let shown = played(&format!("channel {} idle - -\nshow", "61".repeat(45)));
    assert_eq!(shown, format!("channel {} idle - -\n", "61".repeat(44)));
    let queue = vec!["1+"; 16].join(",");
    played(&format!("channel - idle - {queue}\nshow"));
}

#[test]
fn anything_else_is_usage() {
    let rows: [&[&str]; 9] = [
        &[],
        &["help"],
        &["play", "a", "b"],
        &["gen"],
        &["gen", "1"],
        &["gen", "x", "1"],
        &["gen", "1", "1", "none"],
        &["gen", "1", "1", "all", "more"],
        &["play", "no such file"],
    ];
    for words in rows {
        let output = second(words, b"");
        assert_eq!(output.status.code(), Some(2), "{words:?}");
        assert!(!output.stderr.is_empty(), "{words:?}");
        assert!(output.stdout.is_empty(), "{words:?}");
    }
}

#[test]
fn help_is_usage_on_standard_output() {
    let all = second(&["--help"], b"");
    assert_eq!(all.status.code(), Some(0));
    assert!(all.stderr.is_empty());
    for command in ["play", "gen", "tell", "bench"] {
        assert!(text(&all.stdout).contains(&format!("second {command} ")));
        let one = second(&[command, "--help"], b"");
        assert_eq!(one.status.code(), Some(0), "{command}");
        assert!(one.stderr.is_empty(), "{command}");
        let usage = format!("usage: second {command} ");
        assert!(text(&one.stdout).starts_with(&usage), "{command}");
    }
    assert_eq!(second(&["none", "--help"], b"").status.code(), Some(2));
}

#[test]
fn an_unreadable_word_is_shown_escaped_and_cut() {
    let long = "x".repeat(1_000_000);
    let cut = format!("second: line 1: no command `{}...`\n", "x".repeat(80));
    let rows: [(&[u8], &str); 6] = [
        (
            b"\x1b[2Jno\xff",
            "second: line 1: no command `\\x1b[2Jno\\xff`\n",
        ),
        (
            b"report \x00 1",
            "second: line 1: cause `\\x00` is no number\n",
        ),
        (
            b"respond \xc3\xa9 200 7 61 - 9",
            "second: line 1: no request state `\\xc3\\xa9`\n",
        ),
        (&[b'x'; 80], &cut.replace("...", "")),
        (long.as_bytes(), &cut),
        // An escape is shown whole or not at all: 19 of four characters, and two more bytes.
        (
            &[&[0; 19][..], b"abc\x00"].concat(),
            &format!(
                "second: line 1: no command `{}abc...`\n",
                "\\x00".repeat(19)
            ),
        ),
    ];
    for (line, expected) in rows {
        let output = second(&["play"], line);
        assert_eq!(output.status.code(), Some(2));
        assert_eq!(text(&output.stderr), expected);
    }
}

/// How many of the script's commands are calls.
fn calls(script: &str) -> usize {
    const NO_CALLS: [&str; 5] = ["channel", "number", "numbers", "show", "settings"];
    let words = script.lines().filter_map(|line| line.split(' ').next());
    words.filter(|word| !NO_CALLS.contains(word)).count()
}

#[test]
fn what_is_made_is_the_same_each_time_and_plays() {
    let kinds = [
        "frame", "read", "calls", "recog", "folds", "whose", "settings", "all",
    ];
    for kind in kinds {
        for seed in ["0", "1", "2", "77", "18446744073709551615"] {
            let words = ["gen", seed, "3000", kind];
            let made = second(&words, b"");
            assert_eq!(made.status.code(), Some(0));
            assert_eq!(made.stdout, second(&words, b"").stdout, "{kind} {seed}");
            assert_eq!(calls(&text(&made.stdout)), 3000);
            for act in ["play", "tell"] {
                let output = second(&[act], &made.stdout);
                let error = text(&output.stderr);
                assert_eq!(output.status.code(), Some(0), "{kind} {seed} {error}");
                assert!(error.is_empty(), "{error}");
            }
        }
    }
    let one = second(&["gen", "1", "100"], b"");
    let other = second(&["gen", "2", "100"], b"");
    assert_ne!(one.stdout, other.stdout);
    assert!(second(&["gen", "1", "0"], b"").stdout.is_empty());
}

#[test]
fn what_became_of_each_recognition() {
    let channel = "Channel-Identifier:7f3a@speechrecog|";
    let recognize = |id: u32, level: &str| {
        let rest = format!(
            "RECOGNIZE {id}|{channel}Content-Type:text/uri-list|\
             Confidence-Threshold:{level}|Content-Length:2||Hi"
        );
        let length = "MRCP/2.0 135 ".len() + rest.replace('|', "..").len();
        format!(
            "message 305 {}\n",
            hex(&format!("MRCP/2.0 {length} {rest}"))
        )
    };
    let script = format!(
        "open {}\n{}{}{}{}report 0 1250 3f000001\nreport 8 1250 3f800000\nreport 2 9 7fc00000\n",
        hex("7f3a@speechrecog"),
        recognize(1, "0.5"),
        recognize(2, "1.0"),
        recognize(3, "0.0"),
        recognize(4, "2.0"),
    );
    let output = second(&["tell"], script.as_bytes());
    assert_eq!(output.status.code(), Some(0), "{}", text(&output.stderr));
    let told = text(&output.stdout);
    let (story, recognitions) = told
        .split_once("What became of each prompt and recognition\n")
        .unwrap();
    let lines = [
        "** the engine reports 000 success, score 0.500000060\n<- MRCP/2.0 115 RECOGNITION-COMPLETE 1 ",
        "** the engine reports 008 success-maxtime, score 1.000000000\n<- MRCP/2.0 116 ",
        "   Completion-Cause:001 no-match\n\n<- MRCP/2.0 117 RECOGNITION-COMPLETE 3 COMPLETE\n",
        "** the engine reports 002 no-input-timeout, score no number\n\
         \x20  refused 11: engine score that is no number\n",
    ];
    for line in lines {
        assert!(story.contains(line), "{line}: {story}");
    }
    let lines: Vec<&str> = recognitions.lines().map(str::trim).collect();
    let expected = [
        "",
        "channel 7f3a@speechrecog",
        "1  completed, 000 success",
        "2  completed, 001 no-match",
        "3  completed, 011 cancelled",
        "4  not accepted, 404",
    ];
    assert_eq!(lines, expected, "{told}");
}

#[test]
fn what_is_told_of_settings() {
    let channel = "Channel-Identifier:7f3a@speechsynth|";
    let set = hex(&format!(
        "MRCP/2.0 85 SET-PARAMS 7|{channel}Fetch-Timeout:2500||"
    ));
    let get = hex(&format!("MRCP/2.0 65 GET-PARAMS 8|{channel}|"));
    let script = format!(
        "open {}\nmessage 305 {set}\nmessage 305 {get}\nback 2\nback 9\n\
         settings :3f000000/true 5\nsettings -\n",
        hex("7f3a@speechsynth"),
    );
    let output = second(&["tell"], script.as_bytes());
    assert_eq!(output.status.code(), Some(0), "{}", text(&output.stderr));
    let told = text(&output.stdout);
    let lines = [
        "== settings now: Kill-On-Barge-In unset, Fetch-Timeout 2500 ms\n",
        "== told: Kill-On-Barge-In unset, Fetch-Timeout 2500 ms\n",
        "** going back to edition 2\n== settings now: Kill-On-Barge-In unset, Fetch-Timeout unset\n",
        "** going back to edition 9\n   refused 12: no edition of that number is kept\n",
        "== set by the script: settings: 1. Kill-On-Barge-In 0.500000, Fetch-Timeout true; 2. ",
        "; 4. Kill-On-Barge-In unset, Fetch-Timeout unset; count 5\n",
        "== set by the script: settings: count 0\n",
    ];
    for line in lines {
        assert!(told.contains(line), "{line}: {told}");
    }
}

/// What ten calls of each case about settings sum up to.
#[test]
fn the_benchmark_of_settings() {
    let rows = [
        ("call-set-params", 670),
        ("call-set-params-r", 670),
        ("call-get-params", 1120),
        ("call-get-params-r", 1500),
        ("call-speak-4", 710),
        ("call-back", 40),
    ];
    for (case, sum) in rows {
        let output = second(&["bench", case, "10"], b"");
        assert_eq!(text(&output.stdout), format!("{sum}\n"), "{case}");
    }
}

#[test]
fn what_became_of_each_prompt() {
    let channel = "Channel-Identifier:7f3a@speechsynth|";
    let speak = |id: u32, length: u32, kind: &str| {
        let rest = format!("SPEAK {id}|{channel}Content-Type:{kind}|Content-Length:2||Hi");
        format!(
            "message 305 {}\n",
            hex(&format!("MRCP/2.0 {length} {rest}"))
        )
    };
    let stop = hex(&format!(
        "MRCP/2.0 85 STOP 5|{channel}Active-Request-Id-List:2||"
    ));
    let script = format!(
        "open {}\n{}{}{}{}report 4 305\nmessage 305 {stop}\nreport 9 10\n",
        hex("7f3a@speechsynth"),
        speak(1, 106, "text/plain"),
        speak(2, 106, "text/plain"),
        speak(3, 106, "text/plain"),
        speak(4, 105, "text/html"),
    );
    let output = second(&["tell"], script.as_bytes());
    assert_eq!(output.status.code(), Some(0));
    let told = text(&output.stdout);
    let (story, prompts) = told
        .split_once("What became of each prompt and recognition\n")
        .unwrap();
    assert!(
        story.contains("-> MRCP/2.0 106 SPEAK 1\n   Channel-Identifier:"),
        "{story}"
    );
    assert!(
        story.contains("<- MRCP/2.0 70 1 200 IN-PROGRESS\n"),
        "{story}"
    );
    assert!(
        story.contains("refused 9: engine cause above 7, on a recognizer above 15\n"),
        "{story}"
    );
    let lines: Vec<&str> = prompts.lines().map(str::trim).collect();
    let expected = [
        "",
        "channel 7f3a@speechsynth",
        "1  spoken, 004 error",
        "2  stopped by STOP 5",
        "3  still held",
        "4  not accepted, 409",
    ];
    assert_eq!(lines, expected, "{told}");
}
