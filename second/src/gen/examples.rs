//! The messages of the examples, to be changed.

use std::sync::LazyLock;

use super::batch::Batch;
use super::draft::Draft;
use super::random::Random;
use crate::script::{command, Command};

/// How a message is changed.
type Change = fn(&mut Draft, &mut Random);

/// The RFC's, which are read alone.
static RFC: LazyLock<Vec<Draft>> = LazyLock::new(|| {
    let commands = commands(include_str!("../../../examples/rfc6787.script"));
    let drafts = commands.into_iter().filter_map(|command| match command {
        Command::Read(bytes) => Draft::of(&bytes),
        _ => None,
    });
    drafts.collect()
});

/// Our own, which are conversations.
static OWN: LazyLock<Vec<Vec<Command>>> = LazyLock::new(|| {
    let scripts = [
        include_str!("../../../examples/transfer.script"),
        include_str!("../../../examples/confirmation.script"),
    ];
    scripts.into_iter().map(commands).collect()
});

fn commands(script: &str) -> Vec<Command> {
    let lines = script.lines();
    let commands =
        lines.filter_map(|line| command(line.as_bytes()).expect("an example is readable"));
    commands.collect()
}

/// One of the RFC's.
pub fn draft(random: &mut Random) -> Draft {
    RFC[random.below(RFC.len())].clone()
}

/// One of the RFC's, changed.
pub fn read(random: &mut Random, change: Change) -> Vec<u8> {
    let mut draft = draft(random);
    change(&mut draft, random);
    draft.bytes()
}

/// One of our own, each message changed.
pub fn conversation(batch: &mut Batch, random: &mut Random, change: Change) {
    for command in &OWN[random.below(OWN.len())] {
        match command {
            Command::Open(name) => batch.open(name),
            Command::Message { room, input } => {
                let draft = Draft::of(input).map(|mut draft| {
                    change(&mut draft, random);
                    draft.bytes()
                });
                batch.message(*room, &draft.unwrap_or_else(|| input.clone()));
            }
            Command::Report { cause, room, score } => batch.report(*cause, *room, Some(*score)),
            Command::Show => batch.show(),
            _ => {}
        }
    }
}
