//! The programs certify and explain at the edges of what they can be handed.

use epm_agreement::{Program, BUFFER};
use epm_reference::generator::large::{larger_than_any_buffer, largest_accepted};
use epm_reference::generator::stations::stations;
use epm_reference::program::answer_line;
use epm_reference::{explain, run};
use std::fs::{self, File};
use std::io::{BufRead, BufReader, Write};
use std::os::fd::OwnedFd;
use std::os::unix::net::{UnixDatagram, UnixStream};
use std::path::Path;
use std::process::{Child, Stdio};
use std::time::Duration;

/// The inputs that the repository has for a reader to run.
const EXAMPLES: &str = concat!(env!("CARGO_MANIFEST_DIR"), "/../../examples");

/// The bytes that a pipe of Linux takes before anything is read.
const PIPE: usize = 1 << 16;

/// Longer than any answer takes, however busy the machine is.
const PATIENCE: Duration = Duration::from_secs(60);

const BOTH: [Program; 2] = [Program::Certify, Program::Explain];

/// What the second implementation has a program print.
fn expected(program: Program, input: &[u8]) -> String {
    match program {
        Program::Certify => run(input),
        Program::Explain => String::from_utf8(explain(input)).expect("ASCII"),
    }
}

fn printed(program: Program, input: &[u8]) -> String {
    program.run(input).expect("an answer")
}

#[test]
fn the_ten_stations_print_their_lines() {
    for (case, station) in stations().iter().enumerate() {
        let line = printed(Program::Certify, &station.text());
        assert_eq!(line, answer_line(station.certified), "case {case}");
        let lines = printed(Program::Explain, &station.text());
        let expected = expected(Program::Explain, &station.text());
        assert_eq!(lines, expected, "case {case}");
    }
}

#[test]
fn the_example_is_the_first_station() {
    let example = fs::read(Path::new(EXAMPLES).join("station.txt")).expect("the example");
    assert_eq!(example, stations()[0].text());
    assert_eq!(printed(Program::Certify, &example), "A 40000000000 0\n");
}

#[test]
fn every_example_is_accepted() {
    let mut texts = 0;
    for file in fs::read_dir(EXAMPLES).expect("the examples") {
        let file = file.expect("an example").path();
        if file.extension().is_none_or(|end| end != "txt") {
            continue; // a program in C or Rust
        }
        texts += 1;
        let example = fs::read(&file).expect("an example");
        for program in BOTH {
            let lines = printed(program, &example);
            let expected = expected(program, &example);
            assert_eq!(lines, expected, "{}", file.display());
            assert!(lines.starts_with("A "), "{}: {lines}", file.display());
        }
    }
    assert!(texts >= 2, "{texts} examples");
}

/// Once, whole, and nothing beside it, on standard error or behind it.
#[test]
fn the_answer_stands_on_standard_output_alone() {
    for program in BOTH {
        for station in stations() {
            let text = station.text();
            let output = program.output(&text).expect("an end");
            let lines = String::from_utf8_lossy(&output.stdout);
            assert_eq!(lines, expected(program, &text));
            assert_eq!(String::from_utf8_lossy(&output.stderr), "");
            assert!(output.status.success(), "{}", output.status);
        }
    }
}

#[test]
fn an_answer_that_cannot_be_written_is_told() {
    for program in BOTH {
        let full = File::create("/dev/full").expect("a device");
        let mut command = program.over(Stdio::null());
        let output = command.stdout(full).output().expect("an end");
        let why = format!("{}: the answer cannot be written\n", program.name());
        assert_eq!(String::from_utf8_lossy(&output.stderr), why);
    }
}

/// Nothing on standard output, and on standard error why.
fn is_not_answered(program: Program, input: Stdio) {
    let output = program.over(input).output().expect("an end");
    assert_eq!(String::from_utf8_lossy(&output.stdout), "");
    let why = format!("{}: standard input cannot be read\n", program.name());
    assert_eq!(String::from_utf8_lossy(&output.stderr), why);
}

/// A folder can be opened and not read.
#[test]
fn an_input_that_cannot_be_read_is_not_answered() {
    for program in BOTH {
        let folder = File::open(EXAMPLES).expect("a folder");
        is_not_answered(program, Stdio::from(folder));
    }
}

/// What came before a read failed is a whole input here, and still no input: its
/// writer may have had more to say. A socket fails so where the other end is closed
/// with something unread.
#[test]
fn an_input_that_breaks_off_is_not_answered() {
    for program in BOTH {
        let (mut writer, mut input) = UnixStream::pair().expect("a socket");
        input.write_all(b"unread").expect("room");
        writer.write_all(&stations()[0].text()).expect("room");
        drop(writer);
        is_not_answered(program, Stdio::from(OwnedFd::from(input)));
    }
}

#[test]
fn an_empty_input_is_refused_by_its_length() {
    assert_eq!(printed(Program::Certify, &[]), "R 2 7\n");
    let words = "Data length: DATA has 0 numbers and must have 7";
    let scale = "the scale N is 1000, the default where there is no SCAL line";
    let lines = printed(Program::Explain, &[]);
    assert_eq!(lines, format!("R 2 7\n{words}; {scale}\n"));
}

/// What a program prints for an input of which each read gives one piece: a socket
/// hands over one message at a time, and an empty one as the end.
fn printed_in_pieces(program: Program, pieces: &[&[u8]]) -> String {
    let (writer, input) = UnixDatagram::pair().expect("a socket");
    let child = program.over(Stdio::from(OwnedFd::from(input))).spawn();
    for piece in pieces.iter().chain([&&b""[..]]) {
        writer.send(piece).expect("a reader");
    }
    let output = child.and_then(Child::wait_with_output).expect("an end");
    String::from_utf8(output.stdout).expect("ASCII")
}

#[test]
fn input_in_pieces_is_read_to_its_end() {
    let mut inputs = vec![(stations()[4].text(), 1)];
    let largest = largest_accepted().into_iter();
    inputs.extend(largest.map(|(_, text)| (text, 4999)));
    for program in BOTH {
        for (text, length) in &inputs {
            let pieces: Vec<&[u8]> = text.chunks(*length).collect();
            let lines = printed_in_pieces(program, &pieces);
            assert_eq!(lines, expected(program, text));
        }
    }
}

/// The buffer holds every input that can be accepted.
#[test]
fn the_largest_inputs_are_accepted() {
    for program in BOTH {
        let mut accepted = 0;
        for (_, text) in largest_accepted() {
            let lines = printed(program, &text);
            assert_eq!(lines, expected(program, &text));
            accepted += usize::from(lines.starts_with("A "));
        }
        assert!(accepted > 0);
    }
}

/// Inputs of good lines up to every limit and longer: the buffer holds what decides,
/// and the rest is read as well, so that whoever writes it is not cut off.
#[test]
fn an_input_longer_than_the_buffer_is_read_to_its_end() {
    let inputs = larger_than_any_buffer();
    let longest = inputs.iter().map(|(_, text)| text.len()).max();
    assert!(longest > Some(BUFFER + PIPE), "no writer would be cut off");
    for program in BOTH {
        for (_, text) in &inputs {
            let output = program.output(text).expect("every byte is read");
            let lines = String::from_utf8_lossy(&output.stdout);
            assert_eq!(lines, expected(program, text));
        }
    }
}

/// The answer is there as soon as the buffer is full: the input may have no end.
#[test]
fn an_input_without_end_is_answered() {
    let text = b"\n".repeat(BUFFER);
    for program in BOTH {
        let (lines, output) = UnixStream::pair().expect("a socket");
        let mut command = program.over(Stdio::piped());
        command.stdout(OwnedFd::from(output));
        let mut child = command.spawn().expect("the program");
        let mut input = child.stdin.take().expect("a pipe");
        input.write_all(&text).expect("a reader");
        lines.set_read_timeout(Some(PATIENCE)).expect("a timeout");
        let mut line = String::new();
        BufReader::new(&lines).read_line(&mut line).expect("a line");
        assert_eq!(line, "R 15 1\n");
        drop(input);
        child.wait().expect("an end");
    }
}
