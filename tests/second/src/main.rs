//! The program: one call on a raw description from standard input, answered
//! in plain text, or the self-test.

mod handed;
mod selftest;
mod vectors;

use second::{Fields, Report, WORK_WORDS};
use std::io::{Read, Write};
use std::process::ExitCode;

const USAGE: &str = "usage: second CALL, with a raw description on standard input:
  listing | refusal | write | report
  outputs T W0 W1 W2 W3 W4 W5 W6 W7
  question T L
  basis T L
without input:
  value Y L
  selftest [SEED]
  published | asked | handed     what those programs of the build must print
  published-input | asked-input | handed-input
numbers are decimal, or hexadecimal after 0x";

fn main() -> ExitCode {
    let arguments: Vec<String> = std::env::args().skip(1).collect();
    let bytes = raw(&arguments).or_else(|| answer(&arguments).map(String::into_bytes));
    match bytes {
        Some(bytes) => {
            let written = std::io::stdout().write_all(&bytes);
            ExitCode::from(u8::from(written.is_err()))
        }
        None => {
            eprintln!("{USAGE}");
            ExitCode::from(2)
        }
    }
}

/// Answers that are bytes and not text.
fn raw(arguments: &[String]) -> Option<Vec<u8>> {
    match arguments {
        [call] if call == "published-input" => Some(vectors::published_input()),
        [call] if call == "asked-input" => Some(vectors::asked_input()),
        [call] if call == "handed-input" => Some(handed::input()),
        _ => None,
    }
}

/// The text of the answer, or none if the arguments are not understood.
fn answer(arguments: &[String]) -> Option<String> {
    let call = arguments.first()?.as_str();
    let numbers: Vec<u64> =
        arguments[1..].iter().map(|text| number(text)).collect::<Option<_>>()?;
    match (call, numbers.as_slice()) {
        ("listing", []) => String::from_utf8(second::listing(&input())).ok(),
        ("refusal", []) => Some(format!("{}\n", second::read(&input()).err().unwrap_or(0))),
        ("write", []) => Some(on_description(write_text)),
        ("report", []) => Some(on_description(report_text)),
        ("outputs", [t, state @ ..]) => {
            let state: [u64; 8] = state.try_into().ok()?;
            Some(on_description(|fields| outputs_text(fields, *t, &state)))
        }
        ("question", &[t, l]) => Some(on_description(|fields| question_text(fields, t, l))),
        ("basis", &[t, l]) => Some(on_description(|fields| basis_text(fields, t, l))),
        ("value", &[y, l]) => Some(value_text(y, l)),
        ("published", []) => Some(vectors::published_text()),
        ("asked", []) => Some(vectors::asked_text()),
        ("handed", []) => Some(handed::text()),
        ("selftest", []) => Some(selftest::run(selftest::USUAL_SEED)),
        ("selftest", &[seed]) => Some(selftest::run(seed)),
        _ => None,
    }
}

/// A number, decimal or hexadecimal after 0x.
fn number(text: &str) -> Option<u64> {
    match text.strip_prefix("0x") {
        Some(digits) => u64::from_str_radix(digits, 16).ok(),
        None => text.parse().ok(),
    }
}

/// All of standard input; what cannot be read ends the program.
fn input() -> Vec<u8> {
    let mut bytes = Vec::new();
    if let Err(error) = std::io::stdin().read_to_end(&mut bytes) {
        eprintln!("standard input: {error}");
        std::process::exit(2);
    }
    bytes
}

/// The answer for the description on standard input, or its refusal.
fn on_description(answer: impl FnOnce(&Fields) -> String) -> String {
    match second::read(&input()) {
        Ok(fields) => answer(&fields),
        Err(number) => refused(number),
    }
}

fn refused(number: u32) -> String {
    format!("refused {number}\n")
}

/// Words in hexadecimal, between blanks.
fn words(words: &[u64]) -> String {
    let texts: Vec<String> = words.iter().map(|word| format!("{word:x}")).collect();
    texts.join(" ")
}

fn write_text(fields: &Fields) -> String {
    let length = second::description::whole_length(fields.kind).unwrap_or(0);
    let mut bytes = vec![0; length];
    match second::write(fields, &mut bytes) {
        0 => bytes.iter().map(|byte| format!("{byte:02x}")).collect::<String>() + "\n",
        number => refused(number),
    }
}

fn outputs_text(fields: &Fields, t: u64, state: &[u64; 8]) -> String {
    let mut out = vec![0; t.min(480) as usize];
    match second::outputs(fields, t, state, &mut out) {
        0 => out.iter().map(|y| format!("{y}\n")).collect(),
        number => refused(number),
    }
}

fn question_text(fields: &Fields, t: u64, l: u64) -> String {
    let answer = second::question(fields, t, l, &mut [0; WORK_WORDS]);
    match answer.refusal {
        0 if answer.yes => "yes\n".to_string(),
        0 => format!("no d {} set {}\n", answer.d, words(&answer.set)),
        number => refused(number),
    }
}

fn basis_text(fields: &Fields, t: u64, l: u64) -> String {
    let mut work = [0; WORK_WORDS];
    match second::basis(fields, t, l, &mut work) {
        (0, length) => {
            let rows: String = work[..length].chunks(8).map(|row| words(row) + "\n").collect();
            format!("rank {}\n{rows}", length / 8)
        }
        (number, _) => refused(number),
    }
}

fn report_text(fields: &Fields) -> String {
    let report = second::report(fields, &mut [0; WORK_WORDS]);
    if report.refusal != 0 {
        return refused(report.refusal);
    }
    let Report { k, l, sum_lambda, sum_delta, me, .. } = report;
    let row = |numbers: &[u32]| -> String { numbers.iter().map(|n| format!(" {n}")).collect() };
    let resolutions = row(&report.resolutions);
    let dimensions = row(&report.dimensions);
    format!(
        "k {k} L {l}\nresolutions{resolutions}\ndimensions{dimensions}\n\
         sum_lambda {sum_lambda} sum_delta {sum_delta} me {}\n",
        u32::from(me)
    )
}

fn value_text(y: u64, l: u64) -> String {
    match second::value(y, l) {
        (0, bits) => format!("bits {bits:x} value {}\n", f64::from_bits(bits)),
        (number, _) => refused(number),
    }
}
