//! The proved programs certify and explain against the second implementation.

use epm_reference::coverage::text;
use epm_reference::default_count::DefaultCount;
use epm_reference::explain;
use epm_reference::generator::anything::{any_contents, steep};
use epm_reference::generator::bytes::{one_byte_damages, Labelled};
use epm_reference::generator::draft::Case;
use epm_reference::generator::frames::{self, LINE_DAMAGES};
use epm_reference::generator::large::{larger_than_any_buffer, largest_accepted, of_lengths};
use epm_reference::generator::random::Random;
use epm_reference::generator::stations::stations;
use epm_reference::generator::{
    case, extremes, multiplier_edges, products, range_edges, thousandths, twice_damaged_case,
};
use epm_reference::met::{absent, Met};
use epm_reference::program::{answer, answer_line, read_lines};
use epm_reference::refusal::{BROKEN, ENTRY, FRAME, OF_ALL_CALLS, OF_CERTIFY, PLACED, UNDERPRICED};
use std::collections::BTreeMap;
use std::fmt;
use std::io::{self, Write};
use std::path::Path;
use std::process::{Command, Output, Stdio};
use std::thread;

/// What `commands/build certify explain` and ./test leave.
const PROGRAMS: &str = concat!(env!("CARGO_MANIFEST_DIR"), "/../../target/bin");

/// The bytes of standard input that a program keeps (`crates/standard_input`).
pub const BUFFER: usize = 180_224;

/// Refusals that the programs can give, in the order of their tests: those of certify
/// after Frame.
fn refusals() -> Vec<u32> {
    [&[FRAME], &OF_ALL_CALLS[..], &OF_CERTIFY].concat()
}

/// The proved programs.
#[derive(Clone, Copy, Debug, PartialEq, Eq)]
pub enum Program {
    Certify,
    Explain,
}

impl Program {
    pub fn name(self) -> &'static str {
        match self {
            Program::Certify => "certify",
            Program::Explain => "explain",
        }
    }

    /// The program over a standard input, its standard output and error kept.
    pub fn over(self, input: Stdio) -> Command {
        let mut command = Command::new(Path::new(PROGRAMS).join(self.name()));
        command
            .stdin(input)
            .stdout(Stdio::piped())
            .stderr(Stdio::piped());
        command
    }

    /// What the program leaves after an input that it is handed by a pipe. An error
    /// where it ended before it had read all of it.
    pub fn output(self, input: &[u8]) -> io::Result<Output> {
        let mut child = self.over(Stdio::piped()).spawn()?;
        let mut pipe = child.stdin.take().expect("a pipe");
        // The program writes less than a pipe holds, and reads its input to the end, so
        // neither waits for the other.
        let written = pipe.write_all(input);
        drop(pipe);
        let output = child.wait_with_output()?;
        written.map(|()| output)
    }

    /// What the program prints for an input; an error where it does anything else.
    pub fn run(self, input: &[u8]) -> io::Result<String> {
        let output = self.output(input)?;
        if !output.status.success() || !output.stderr.is_empty() {
            return Err(io::Error::other(format!("{output:?}")));
        }
        String::from_utf8(output.stdout).map_err(io::Error::other)
    }
}

/// What the two programs print for one input.
struct Printed {
    certify: io::Result<String>,
    explain: io::Result<String>,
}

fn printed(input: &[u8]) -> Printed {
    Printed {
        certify: Program::Certify.run(input),
        explain: Program::Explain.run(input),
    }
}

/// What was met, and where the two differed.
#[derive(Default)]
pub struct ProgramAgreement {
    pub inputs: u64,
    pub accepted: u64,
    pub larger_than_buffer: u64,
    /// Inputs by the way they were made.
    pub labels: BTreeMap<String, u64>,
    /// Refusals that certify gave.
    pub met: Met,
    /// Refusals that explain said in the words expected.
    pub explained: Met,
    /// Answers to inputs without a SCAL line.
    pub defaults: DefaultCount,
    pub differences: Vec<String>,
}

/// The texts of seeds 0..inputs, half of them damaged, and a quarter as many put
/// together at random; cases with two faults, of any content and with steep
/// multipliers; entries and multipliers at the ends of their ranges; the cases at
/// the limit of the sums, and of one seed the products about their edges; the ten
/// stations, and one of them byte by byte; the largest inputs and larger ones; texts
/// without a SCAL line, and those whose SCAL line is worked out by hand.
pub fn measure_program(inputs: u64) -> ProgramAgreement {
    let mut texts: Vec<Labelled> = vec![];
    for seed in 0..inputs {
        if let Some(text) = text(seed, &case(seed).case) {
            texts.push((text.label, text.bytes));
        }
    }
    let mut random = Random::new(inputs);
    for _ in 0..inputs / 4 {
        texts.push(("noise".to_string(), frames::noise(&mut random)));
    }
    for _ in 0..inputs / 10 {
        texts.extend(plain("two faults", &twice_damaged_case(&mut random)));
        texts.extend(plain("any contents", &any_contents(&mut random)));
        texts.extend(plain("steep", &steep(&mut random)));
    }
    for seed in 0..inputs / 200 {
        let entries = range_edges(seed);
        let multipliers = multiplier_edges(seed);
        texts.extend(entries.iter().flat_map(|case| plain("entry edge", case)));
        let edges = multipliers.iter();
        texts.extend(edges.flat_map(|case| plain("multiplier edge", case)));
    }
    for extreme in extremes::all() {
        texts.extend(plain("sums about their limit", &extreme.case));
    }
    for edge in products::edges(inputs) {
        texts.extend(plain("products about their edges", &edge.case));
    }
    for station in stations() {
        texts.push(("one-plant station".to_string(), station.text()));
    }
    // The fifth case has a scale that is not 1.
    texts.extend(one_byte_damages(&stations()[4].text()));
    texts.extend(larger_than_any_buffer());
    texts.extend(of_lengths(&[BUFFER - 1, BUFFER, BUFFER + 1, 2 * BUFFER]));
    texts.extend(largest_accepted());
    texts.extend(without_scale_lines(&texts));
    let mut random = Random::new(inputs);
    texts.extend(thousandths::texts_without_scale_line(
        &mut random,
        inputs / 4,
    ));
    for worked in thousandths::all() {
        texts.push(("scale worked out by hand".to_string(), worked.text));
    }
    let mut agreement = ProgramAgreement::default();
    agreement.compare(&texts);
    agreement
}

/// Of every tenth text that has a SCAL line, the text without it. They come from all over
/// the list.
fn without_scale_lines(texts: &[Labelled]) -> Vec<Labelled> {
    let with = texts
        .iter()
        .filter(|(_, text)| frames::has_scale_line(text));
    let without = |(_, text): &Labelled| {
        let label = "its SCAL line left out".to_string();
        (label, frames::without_scale_line(text))
    };
    with.step_by(10).map(without).collect()
}

/// A case as plain lines, where it is small enough for the programs.
fn plain(label: &str, case: &Case) -> Option<Labelled> {
    let text = || frames::join(&frames::plain_lines(case, 64));
    frames::fits(case).then(|| (label.to_string(), text()))
}

impl ProgramAgreement {
    /// The programs on each input, as many at a time as there are processors.
    pub fn compare(&mut self, inputs: &[Labelled]) {
        let workers = thread::available_parallelism().map_or(1, usize::from);
        let part = inputs.len().div_ceil(workers).max(1);
        let run = |inputs: &[Labelled]| -> Vec<Printed> {
            inputs.iter().map(|(_, bytes)| printed(bytes)).collect()
        };
        let answers: Vec<Printed> = thread::scope(|scope| {
            let parts: Vec<_> = inputs
                .chunks(part)
                .map(|part| scope.spawn(move || run(part)))
                .collect();
            let join = |part: thread::ScopedJoinHandle<'_, _>| part.join().expect("a worker");
            parts.into_iter().flat_map(join).collect()
        });
        for ((label, bytes), printed) in inputs.iter().zip(answers) {
            self.count(label, bytes, printed);
        }
    }

    fn count(&mut self, label: &str, input: &[u8], printed: Printed) {
        self.inputs += 1;
        *self.labels.entry(label.to_string()).or_default() += 1;
        self.larger_than_buffer += u64::from(input.len() > BUFFER);
        let differences = self.differences.len();
        self.hold_explain(label, input, &printed);
        let explained = self.differences.len() == differences;
        let expected = answer(input);
        self.defaults.count(input, expected);
        match expected {
            Ok(_) => self.accepted += 1,
            Err(refusal) => {
                let read = read_lines(input).unwrap_or_default();
                self.met.count(&read.data, refusal);
                if explained {
                    self.explained.count(&read.data, refusal);
                }
            }
        }
        let line = answer_line(expected);
        self.hold(label, Program::Certify, input, &printed.certify, &line);
    }

    /// The two lines of explain, and the first of them beside that of certify, whatever
    /// the second implementation says.
    fn hold_explain(&mut self, label: &str, input: &[u8], printed: &Printed) {
        let lines = String::from_utf8(explain(input)).expect("ASCII");
        self.hold(label, Program::Explain, input, &printed.explain, &lines);
        if let (Ok(line), Ok(lines)) = (&printed.certify, &printed.explain) {
            if lines.split_inclusive('\n').next() != Some(line) {
                self.differences.push(format!(
                    "{label}: certify wrote {line:?}, explain {lines:?}"
                ));
            }
        }
    }

    fn hold(
        &mut self,
        label: &str,
        program: Program,
        input: &[u8],
        printed: &io::Result<String>,
        expected: &str,
    ) {
        if !printed.as_ref().is_ok_and(|printed| printed == expected) {
            let name = program.name();
            let start = String::from_utf8_lossy(&input[..input.len().min(120)]).into_owned();
            self.differences.push(format!(
                "{label}: {name} wrote {printed:?}, expected {expected:?}, on {start:?}.."
            ));
        }
    }

    /// What was not met, and every difference.
    pub fn failures(&self) -> Vec<String> {
        let mut failures = self.differences.clone();
        let mut missing = self.met.missing(&refusals());
        let damages = LINE_DAMAGES.map(|damage| format!("{damage:?}"));
        let without = damages
            .into_iter()
            .filter(|label| !self.labels.contains_key(label));
        missing.extend(without);
        missing.extend(absent(&[
            (self.accepted, "an accepted input"),
            (self.larger_than_buffer, "an input larger than the buffer"),
        ]));
        missing.extend(self.defaults.missing());
        failures.extend(missing.iter().map(|word| format!("not met: {word}")));
        let mut unsaid = self.explained.missing(&refusals());
        unsaid.extend(self.explained.missing_places(&PLACED));
        failures.extend(unsaid.iter().map(|word| format!("not explained: {word}")));
        failures
    }
}

impl fmt::Display for ProgramAgreement {
    fn fmt(&self, f: &mut fmt::Formatter<'_>) -> fmt::Result {
        writeln!(
            f,
            "certify and explain on {} inputs: {} accepted, {} larger than the buffer, {} differences",
            self.inputs,
            self.accepted,
            self.larger_than_buffer,
            self.differences.len()
        )?;
        write!(f, "{}", self.met.table(&refusals()))?;
        write!(f, "{}", self.defaults)?;
        writeln!(f, "explained: {}", self.explained.line(&refusals()))?;
        let named = [
            (BROKEN, "families"),
            (UNDERPRICED, "tables of columns"),
            (ENTRY, "tables of the data that have a range"),
        ];
        for (number, words) in named {
            let (met, of) = self.explained.named(number);
            writeln!(f, "  {met} of {of} {words} named by refusal {number}")?;
        }
        writeln!(f, "inputs by the way they were made:")?;
        for (label, count) in &self.labels {
            writeln!(f, "  {label:32} {count:7}")?;
        }
        Ok(())
    }
}
