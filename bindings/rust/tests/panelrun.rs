//! The library on the inputs of tests/runs, as the program panelrun runs it: what it answers is the stored output.
use std::fs;
use std::path::Path;

use plumtree::{raw, read_number, write_number, Error, Limits, Panel, Settings};

/// "records of now, length, event": the next one, and the bytes after it.
fn record(bytes: &[u8]) -> Result<(u64, &[u8], &[u8]), Error> {
    let (at, bytes) = read_number(bytes)?;
    let (length, bytes) = read_number(bytes)?;
    if length > 16_384 {
        return Err(Error::EventCut);
    }
    let (event, rest) = bytes.split_at_checked(length as usize).ok_or(Error::EventCut)?;
    Ok((at, event, rest))
}

/// "panel 1, default settings, M 4,094, link room unbounded; [..] output 40,960"
fn panelrun(mut input: &[u8]) -> Vec<u8> {
    let (mut block, mut stats) = Panel::new(Settings::of_panel(1), Limits::SMALL).unwrap().into_parts();
    let mut output = vec![0; 40_960];
    let mut written = Vec::new();
    while !input.is_empty() {
        let Ok((at, event, rest)) = record(input) else {
            written.extend([7, 0]);
            break;
        };
        let answer = raw::event(&mut block, &mut stats, at, event, &[], &mut output);
        written.push(answer.number);
        write_number(&mut written, answer.length as u64);
        written.extend(&output[..answer.length]);
        input = rest;
    }
    written
}

#[test]
fn stored_runs() {
    let dir = Path::new(env!("CARGO_MANIFEST_DIR")).join("tests/runs");
    for name in ["worked", "forgotten", "quiet", "longer"] {
        let file = |end: &str| fs::read(dir.join(name).with_extension(end)).unwrap();
        assert!(!file("output").is_empty());
        assert_eq!(panelrun(&file("input")), file("output"), "{name}");
    }
}
