//! How sizes and commands are spelled.

use crate::command::Command;
use crate::sizes::Sizes;

/// The first line.
pub fn first_line(sizes: &Sizes) -> Vec<u8> {
    let mut line = Vec::new();
    push_named(&mut line, "sites ", sizes.n);
    push_named(&mut line, " commit ", sizes.commit_quorum);
    push_named(&mut line, " abort ", sizes.abort_quorum);
    push_named(&mut line, " willing ", sizes.willing.into());
    line.push(b'\n');
    line
}

/// Adds a command's line.
pub fn push_line(text: &mut Vec<u8>, command: Command) {
    match command {
        Command::Start => text.extend(b"start"),
        Command::Deliver { row, site } => {
            push_named(text, "deliver ", row);
            push_named(text, " ", site);
        }
        Command::Timeout(site) => push_named(text, "timeout ", site),
        Command::Crash(site) => push_named(text, "crash ", site),
        Command::Recover(site) => push_named(text, "recover ", site),
    }
    text.push(b'\n');
}

/// Adds a word with its blanks, and a number.
fn push_named(text: &mut Vec<u8>, name: &str, number: usize) {
    text.extend(name.as_bytes());
    push_decimal(text, number);
}

/// Adds a number, its high digits first.
fn push_decimal(text: &mut Vec<u8>, number: usize) {
    if number >= 10 {
        push_decimal(text, number / 10);
    }
    text.push(b'0' + (number % 10) as u8);
}
