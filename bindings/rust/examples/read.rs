//! Prints what went into the program `panelrun` and what came out, one line for each event and each action:
//!
//! ```text
//! cargo run --example read -- INPUT OUTPUT
//! ```
//!
//! The input is records of now, length, event; the output is answer byte, length, actions for each of them. An event's line begins with its
//! time. Below it, indented, stand its actions, or why it was refused.
use std::env;
use std::fs;
use std::process::ExitCode;

use plumtree::{read_number, Action, Error, Event};

/// "an event over 16,384 bytes" ends the program as a cut record does.
const LONGEST_EVENT: u64 = 16_384;

/// The lines of an input and its output.
fn read(mut input: &[u8], mut output: &[u8]) -> Vec<String> {
    let mut lines = Vec::new();
    while !input.is_empty() {
        match record(input) {
            Ok((at, event, rest)) => {
                lines.push(format!("{at} {}", event_text(event)));
                input = rest;
            }
            Err(e) => {
                lines.push(format!("no record, and the end: {} byte(s) from here on: {e}", input.len()));
                input = &[];
            }
        }
        match answer(output) {
            Ok((number, actions, rest)) => {
                answer_lines(number, actions, &mut lines);
                output = rest;
            }
            Err(_) => {
                lines.push(format!("    no answer: the output has {} byte(s) left", output.len()));
                return lines;
            }
        }
    }
    if !output.is_empty() {
        lines.push(format!("the input ends here, and the output has {} byte(s) more", output.len()));
    }
    lines
}

/// So many bytes from the left, and the rest.
fn part(bytes: &[u8], length: u64) -> Result<(&[u8], &[u8]), Error> {
    let length = usize::try_from(length).map_err(|_| Error::EventCut)?;
    bytes.split_at_checked(length).ok_or(Error::EventCut)
}

/// A record's time and event, and the bytes after it.
fn record(bytes: &[u8]) -> Result<(u64, &[u8], &[u8]), Error> {
    let (at, bytes) = read_number(bytes)?;
    let (length, bytes) = read_number(bytes)?;
    if length > LONGEST_EVENT {
        return Err(Error::EventCut);
    }
    let (event, rest) = part(bytes, length)?;
    Ok((at, event, rest))
}

/// An answer's number and actions, and the bytes after it.
fn answer(bytes: &[u8]) -> Result<(u8, &[u8], &[u8]), Error> {
    let (number, bytes) = bytes.split_first().ok_or(Error::EventCut)?;
    let (length, bytes) = read_number(bytes)?;
    let (actions, rest) = part(bytes, length)?;
    Ok((*number, actions, rest))
}

/// An event, or its bytes where they are none.
fn event_text(event: &[u8]) -> String {
    match Event::read(event) {
        Ok(event) => event.to_string(),
        Err(_) => format!("no event: {}", hex(event)),
    }
}

/// The actions, or why there are none. An event is answered by no number over 14 but 23.
fn answer_lines(number: u8, mut actions: &[u8], lines: &mut Vec<String>) {
    match (number, Error::from_number(number)) {
        (0, _) => {}
        (_, Some(e)) if e <= Error::OutputTooShort || e == Error::NeighborsBroadcast => lines.push(format!("    refused: {e}")),
        (n, _) => lines.push(format!("    {n} is no answer")),
    }
    while !actions.is_empty() {
        match Action::read(actions) {
            Ok((action, rest)) => {
                lines.push(format!("    {action}"));
                actions = rest;
            }
            Err(_) => {
                lines.push(format!("    no action: {}", hex(actions)));
                return;
            }
        }
    }
}

fn hex(bytes: &[u8]) -> String {
    bytes.iter().map(|b| format!("{b:02x}")).collect()
}

fn main() -> ExitCode {
    let args: Vec<String> = env::args().skip(1).collect();
    let [input, output] = &args[..] else {
        eprintln!("usage: read INPUT OUTPUT");
        return ExitCode::FAILURE;
    };
    let file = |name: &String| fs::read(name).map_err(|e| eprintln!("read: {name}: {e}"));
    let (Ok(input), Ok(output)) = (file(input), file(output)) else {
        return ExitCode::FAILURE;
    };
    for line in read(&input, &output) {
        println!("{line}");
    }
    ExitCode::SUCCESS
}

#[cfg(test)]
mod tests {
    use super::read;

    /// The specification: "up 2, dispatch tick, Prune from 5".
    #[test]
    fn the_worked_call() {
        let input = [0x00, 0x02, 0x03, 0x02, 0x00, 0x02, 0x02, 0x01, 0x00, 0x03, 0x00, 0x05, 0x01];
        let output = [0x00, 0x00, 0x00, 0x04, 0x02, 0xe8, 0x07, 0x02, 0x00, 0x00];
        let lines = ["0 2 is up", "0 DispatchLazyPush fires", "    schedule EvictCache in 1000", "0 from 5: Prune"];
        assert_eq!(read(&input, &output), lines);
    }

    /// A tick that tells a forgotten message before it schedules itself.
    #[test]
    fn forgotten() {
        let input = [0xb0, 0xea, 0x01, 0x02, 0x02, 0x02];
        let output = [&[0x00, 0x25, 0x04][..], &[0xe5; 32], &[0x02, 0xe8, 0x07, 0x02]].concat();
        let lines = ["30000 EvictCache fires", "    forgotten e5e5e5e5..", "    schedule EvictCache in 1000"];
        assert_eq!(read(&input, &output), lines);
    }

    /// Padded numbers in a message that came: the kind, then the round.
    #[test]
    fn a_padded_message() {
        let input = [0x00, 0x07, 0x00, 0x02, 0x82, 0x00, 0x00, 0x80, 0x00];
        assert_eq!(read(&input, &[0x00, 0x00]), ["0 from 2: Graft, round 0"]);
    }

    #[test]
    fn refused_and_cut() {
        // An empty event, an unknown kind, a peer that is cut; then a record that is cut.
        let input = [0, 0, 7, 1, 9, 7, 2, 3, 0x80, 8, 2, 3];
        let output = [7, 0, 8, 0, 7, 0, 7, 0];
        let lines = [
            "0 no event: ",
            "    refused: the bytes end within a field (question 7: \"Does each field end within the bytes?\")",
            "7 no event: 09",
            "    refused: a kind is unknown, or a number is too wide or not shortest (question 8: \"Is each kind known, each number in its width and shortest?\")",
            "7 no event: 0380",
            "    refused: the bytes end within a field (question 7: \"Does each field end within the bytes?\")",
            "no record, and the end: 3 byte(s) from here on: the bytes end within a field (question 7: \"Does each field end within the bytes?\")",
            "    refused: the bytes end within a field (question 7: \"Does each field end within the bytes?\")",
        ];
        assert_eq!(read(&input, &output), lines);
    }

    /// A broadcast for neighbours alone is refused, and the program goes on with the next record.
    #[test]
    fn for_neighbours_alone() {
        let input = [0, 4, 1, 1, b'A', 1, 0, 2, 3, 2];
        let lines = [
            "0 no event: 01014101",
            "    refused: neighbours-only broadcasts are retired (question 23: \"Is it anything but a Neighbors broadcast?\")",
            "0 2 is up",
        ];
        assert_eq!(read(&input, &[23, 0, 0, 0]), lines);
    }

    #[test]
    fn files_that_do_not_belong_together() {
        assert_eq!(read(&[0, 2, 3, 2], &[]), ["0 2 is up", "    no answer: the output has 0 byte(s) left"]);
        assert_eq!(read(&[], &[0, 0]), ["the input ends here, and the output has 2 byte(s) more"]);
        let lines = ["0 2 is up", "    15 is no answer", "    no action: 09"];
        assert_eq!(read(&[0, 2, 3, 2], &[15, 1, 9]), lines);
        // A length of 16,385 ends the program, whatever follows.
        let lines = read(&[0, 0x81, 0x80, 0x01], &[7, 0]);
        assert_eq!(
            lines[0],
            "no record, and the end: 4 byte(s) from here on: the bytes end within a field (question 7: \"Does each field end within the bytes?\")"
        );
    }
}
