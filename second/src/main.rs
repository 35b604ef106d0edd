//! The second program: plays, makes and tells scripts of calls.

use std::env;
use std::fs::File;
use std::io::{self, BufRead, BufReader, BufWriter, Write};
use std::process::ExitCode;

use second::bench;
use second::gen::{self, Kind};
use second::play::play;
use second::script::Trouble;
use second::tell::tell;

/// Each command, the words after it, and what it does.
const COMMANDS: [(&str, &str, &str); 4] = [
    ("play", "[FILE]", "plays a script and writes its lines"),
    (
        "gen",
        "SEED COUNT [frame|read|calls|recog|folds|whose|settings|write|all]",
        "writes a script with COUNT calls",
    ),
    ("tell", "[FILE]", "plays a script and prints it for people"),
    (
        "bench",
        "CASE COUNT",
        "makes COUNT calls of one case of the benchmark",
    ),
];

/// Unreadable lines, and arguments that are none of the above.
const UNREADABLE: u8 = 2;
/// The ledger is out of balance.
const VIOLATION: u8 = 3;

type Act = fn(&mut dyn BufRead, &mut dyn Write) -> Result<(), Trouble>;

fn main() -> ExitCode {
    let words: Vec<String> = env::args().skip(1).collect();
    let words: Vec<&str> = words.iter().map(String::as_str).collect();
    match words[..] {
        ["--help"] => help(usage_of_all()),
        [command, "--help"] => usage_of(command).map_or_else(usage, help),
        ["play"] => run(play, None),
        ["play", file] => run(play, Some(file)),
        ["tell"] => run(tell, None),
        ["tell", file] => run(tell, Some(file)),
        ["gen", seed, count] => generate(seed, count, "all"),
        ["gen", seed, count, kind] => generate(seed, count, kind),
        ["bench", case, count] => measured(case, count),
        _ => usage(),
    }
}

fn measured(case: &str, count: &str) -> ExitCode {
    match count.parse().ok().and_then(|count| bench::run(case, count)) {
        None => usage(),
        Some(sum) => {
            println!("{sum}");
            ExitCode::SUCCESS
        }
    }
}

/// The usage of all commands, a line each.
fn usage_of_all() -> String {
    let lines = COMMANDS.map(|(command, words, _)| format!("second {command} {words}"));
    format!("usage: {}", lines.join("\n       "))
}

/// The usage of one command; none where there is no such command.
fn usage_of(command: &str) -> Option<String> {
    let mut commands = COMMANDS.iter();
    let (command, words, does) = commands.find(|(name, _, _)| *name == command)?;
    Some(format!("usage: second {command} {words}\n{does}"))
}

fn help(text: String) -> ExitCode {
    let written = writeln!(io::stdout(), "{text}");
    finish(written.map_err(Trouble::Output))
}

fn usage() -> ExitCode {
    eprintln!("{}", usage_of_all());
    ExitCode::from(UNREADABLE)
}

fn run(act: Act, file: Option<&str>) -> ExitCode {
    let mut script: Box<dyn BufRead> = match file {
        None => Box::new(io::stdin().lock()),
        Some(path) => match File::open(path) {
            Ok(file) => Box::new(BufReader::new(file)),
            Err(error) => {
                eprintln!("second: {path}: {error}");
                return ExitCode::from(UNREADABLE);
            }
        },
    };
    let mut out = BufWriter::new(io::stdout().lock());
    let played = act(&mut script, &mut out);
    // What earlier lines wrote comes before the word about this one.
    let flushed = out.flush().map_err(Trouble::Output);
    finish(played.and(flushed))
}

fn generate(seed: &str, count: &str, kind: &str) -> ExitCode {
    let (Ok(seed), Ok(count), Some(kind)) = (seed.parse(), count.parse(), Kind::of_word(kind))
    else {
        return usage();
    };
    let mut out = BufWriter::new(io::stdout().lock());
    let made = gen::script(seed, count, kind, &mut out);
    finish(made.and_then(|()| out.flush()).map_err(Trouble::Output))
}

fn finish(result: Result<(), Trouble>) -> ExitCode {
    match result {
        Ok(()) => ExitCode::SUCCESS,
        // Whoever read the lines has gone.
        Err(Trouble::Output(error)) if error.kind() == io::ErrorKind::BrokenPipe => {
            ExitCode::FAILURE
        }
        Err(Trouble::Output(error)) => {
            eprintln!("second: output: {error}");
            ExitCode::FAILURE
        }
        Err(Trouble::Script(error)) => {
            eprintln!("second: script: {error}");
            ExitCode::from(UNREADABLE)
        }
        Err(Trouble::Unreadable { line, wrong }) => {
            eprintln!("second: line {line}: {wrong}");
            ExitCode::from(UNREADABLE)
        }
        Err(Trouble::Ledger { line, violation }) => {
            eprintln!("second: line {line}: ledger: {violation}");
            ExitCode::from(VIOLATION)
        }
    }
}
