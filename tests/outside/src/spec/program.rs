//! The program: one input, one line.

use super::text::decimal;
use crate::boundary::{Answer, ARGS};

/// A first line that is well-formed: the limit, the arguments; and the text after it.
pub struct Input<'a> {
    pub limit: u32,
    pub args: Vec<u32>,
    pub text: &'a [u8],
}

/// None where the first line is malformed.
pub fn read_input(input: &[u8]) -> Option<Input<'_>> {
    let end = input.iter().position(|byte| *byte == 10)?;
    if end > 128 {
        return None;
    }
    let mut numbers = Vec::new();
    for field in input[..end].split(|byte| *byte == 9) {
        numbers.push(decimal(field)?);
    }
    if numbers.len() > 9 {
        return None;
    }
    Some(Input { limit: numbers[0], args: numbers[1..].to_vec(), text: &input[end + 1..] })
}

/// What the program prints when `run` is its engine.
pub fn line(input: &[u8], run: impl FnOnce(&Input) -> Answer) -> String {
    let answer = match read_input(input) {
        Some(input) => run(&input),
        None => Answer { number: ARGS, ..Answer::default() },
    };
    let Answer { number, value, line, field, steps, rewrites } = answer;
    format!("{number}\t{value}\t{line}\t{field}\t{steps}\t{rewrites}\n")
}
