//! data/run.txt: two lines a case, what the program reads and what it prints. And the program itself, where one is named.

use crate::boundary::{engine, Answer, Run, MOST_CODE_WORDS, WORK_WORDS};
use crate::generate;
use crate::spec;
use crate::spec::program::{line, Input};
use std::io::Write;
use std::process::{Command, Stdio};

const LINES: &str = include_str!("../data/run.txt");

/// What does not come out as the file says; and how many lines were tried.
pub fn hold() -> (usize, Vec<String>) {
    let mut failures = Vec::new();
    let mut tried = 0;
    let lines: Vec<&str> = LINES.lines().collect();
    for (index, pair) in lines.chunks(2).enumerate() {
        let (input, expected) = (plain(pair[0]), plain(pair[1]));
        let by_document = line(&input, |input| run(spec::run, input));
        let by_engine = line(&input, |input| run(engine::run, input));
        for (who, printed) in [("the plain reading", by_document), ("the engine", by_engine)] {
            tried += 1;
            if printed.as_bytes() != expected {
                failures.push(format!("run.txt line {}: expected {}, {who} prints {printed:?}", 2 * index + 1, pair[1]));
            }
        }
    }
    (tried, failures)
}

/// The program at a path, on the inputs of run.txt and on 1,000 generated ones.
pub fn hold_program(path: &str, seed: u64) -> (usize, Vec<String>) {
    let vectors = LINES.lines().step_by(2).map(plain);
    let inputs: Vec<Vec<u8>> = vectors.chain((0..1000).map(|number| generate::input(seed, number))).collect();
    let wrong = |input: &Vec<u8>| {
        let (expected, printed) = (line(input, |input| run(spec::run, input)), printed(path, input));
        (printed != expected.as_bytes())
            .then(|| format!("input {}: the documents print {expected:?}, the program {:?}", escaped(input), escaped(&printed)))
    };
    (inputs.len(), inputs.iter().filter_map(wrong).collect())
}

/// What the program at a path prints.
pub fn printed(path: &str, input: &[u8]) -> Vec<u8> {
    let mut program = Command::new(path).stdin(Stdio::piped()).stdout(Stdio::piped()).spawn().expect("the program");
    // A program may answer before it has read all of its input.
    let _ = program.stdin.take().expect("its input").write_all(input);
    program.wait_with_output().expect("its output").stdout
}

/// An engine's answer to the program's input, with as much lent as the program lends.
pub fn run(run: Run, input: &Input) -> Answer {
    run(input.text, &input.args, input.limit, &mut [0; MOST_CODE_WORDS], &mut [0; WORK_WORDS])
}

/// The bytes behind `\t`, `\n`, `\\` and `\xHH`.
pub fn plain(escaped: &str) -> Vec<u8> {
    let mut bytes = Vec::new();
    let mut rest = escaped.as_bytes();
    while let [first, after @ ..] = rest {
        let (byte, taken) = match (first, after) {
            (b'\\', [b't', ..]) => (9, 2),
            (b'\\', [b'n', ..]) => (10, 2),
            (b'\\', [b'\\', ..]) => (b'\\', 2),
            (b'\\', [b'x', high, low, ..]) => (16 * hex(*high) + hex(*low), 4),
            _ => (*first, 1),
        };
        bytes.push(byte);
        rest = &rest[taken..];
    }
    bytes
}

fn hex(digit: u8) -> u8 {
    (digit as char).to_digit(16).expect("a hexadecimal digit") as u8
}

/// Bytes as such a file writes them.
pub fn escaped(bytes: &[u8]) -> String {
    let escape = |byte: &u8| match byte {
        9 => "\\t".to_string(),
        10 => "\\n".to_string(),
        b'\\' => "\\\\".to_string(),
        32..=126 => (*byte as char).to_string(),
        _ => format!("\\x{byte:02x}"),
    };
    bytes.iter().map(escape).collect()
}
