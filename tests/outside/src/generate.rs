//! Inputs for the comparison: a seed and a case number give one input, always the same.

use crate::boundary::{FUEL, INSTRUCTION_WORDS, MOST_CODE_WORDS, WORK_WORDS};
use crate::dice::Dice;
use crate::families::draft;
use crate::spec::text::{self, Function, Sort};
use crate::spec::{arguments_fit, code, machine};
use crate::spoil;
use crate::writer::{number, value};

/// One input: a text, arguments, the limits to run it at, and what is lent.
pub struct Case {
    pub family: &'static str,
    pub text: Vec<u8>,
    pub args: Vec<u32>,
    pub limits: Vec<u32>,
    pub heads_len: usize,
    pub code_len: usize,
    pub work_len: usize,
    pub noise: u64,
}

pub fn case(seed: u64, number: u64) -> Case {
    let dice = &mut Dice::new(seed, number);
    let (family, draft) = draft(dice);
    let functions = text::read(&draft.text).ok();
    let args = arguments(dice, functions.as_deref(), draft.args);
    let limits = limits(dice, family, functions.as_deref(), &args);
    let (heads_len, code_len, work_len) = lengths(dice, functions.as_deref());
    Case { family, text: draft.text, args, limits, heads_len, code_len, work_len, noise: dice.throw() }
}

/// What the program may read on its standard input: a case with one of its limits, the first line spoilt at times.
pub fn input(seed: u64, number: u64) -> Vec<u8> {
    let case = case(seed, number);
    let dice = &mut Dice::new(!seed, number);
    let numbers = [&case.limits[..1], &case.args].concat();
    let numbers: Vec<String> = numbers.iter().map(u32::to_string).collect();
    let mut first_line = numbers.join("\t").into_bytes();
    if dice.once_in(3) {
        spoil_first_line(dice, &mut first_line);
    }
    [&first_line[..], b"\n", &case.text].concat()
}

fn spoil_first_line(dice: &mut Dice, line: &mut Vec<u8>) {
    match dice.below(8) {
        0 => line.extend(b"\t0\t1\t2\t3\t4\t5\t6\t7\t8"),
        1 => line.extend(vec![b'0'; dice.range(120, 130)]),
        2 => line.insert(0, b'0'),
        3 => line.clear(),
        4 => line.extend(dice.pick(&["\t", "\t4294967295", "\t4294967296", "\r", " ", "\t-1", "\t00"]).bytes()),
        _ => spoil::text(dice, line),
    }
}

fn arguments(dice: &mut Dice, functions: Option<&[Function]>, wished: Option<Vec<u32>>) -> Vec<u32> {
    let Some(functions) = functions else {
        return (0..dice.below(10)).map(|_| number(dice)).collect();
    };
    let sorts = &functions[0].sorts;
    let fitting = wished.filter(|args| arguments_fit(&functions[0], args));
    let mut args = fitting.unwrap_or_else(|| sorts.iter().map(|sort| value(dice, *sort)).collect());
    if dice.once_in(14) {
        spoil_arguments(dice, sorts, &mut args);
    }
    args
}

fn spoil_arguments(dice: &mut Dice, sorts: &[Sort], args: &mut Vec<u32>) {
    match dice.below(4) {
        0 => {
            args.pop();
        }
        1 => args.push(number(dice)),
        2 => args.clear(),
        _ => {
            let position = dice.below(args.len());
            args[position] = if sorts[position] == Sort::YesNo { dice.pick(&[2, 3, 256, u32::MAX]) } else { number(dice) };
        }
    }
}

/// Limits of a text that runs: one at or above its end if that is near, and one below; at times every limit up to the end.
fn limits(dice: &mut Dice, family: &str, functions: Option<&[Function]>, args: &[u32]) -> Vec<u32> {
    let any = dice.pick(&[0, 1, 5, 100, 5000, u32::MAX]);
    let Some(functions) = functions.filter(|functions| arguments_fit(&functions[0], args)) else {
        return vec![any];
    };
    let granted = match family {
        _ if dice.once_in(60) => 300_000,
        "calling" | "handing" | "dividing" => 20_000,
        _ => 2_500,
    };
    let probe = machine::run(&code::translate(functions), args, granted);
    if probe.number == FUEL {
        return vec![granted, dice.below(granted as usize) as u32];
    }
    let end = probe.steps;
    if end <= 60 && dice.once_in(25) {
        return (0..=end + 1).collect();
    }
    let near_end = [end, end, end + 1, u32::MAX, u32::MAX - 1, 1 << 31, 1_000_000];
    let before = [end.saturating_sub(1), end.saturating_sub(1), 0, 1, dice.below(end as usize + 1) as u32];
    vec![dice.pick(&near_end), dice.pick(&before)]
}

/// Lengths of heads, code and work: mostly enough, at times exact, one short or none.
fn lengths(dice: &mut Dice, functions: Option<&[Function]>) -> (usize, usize, usize) {
    let (heads, instructions) = match functions {
        Some(functions) => (functions.len(), code::instruction_count(functions)),
        None => (dice.below(66), dice.below(100)),
    };
    let words = INSTRUCTION_WORDS * instructions;
    let heads_len = around(dice, heads);
    let code_len = if dice.once_in(12) { MOST_CODE_WORDS + dice.below(40) } else { around(dice, words) };
    let work_len = around(dice, WORK_WORDS);
    (heads_len, code_len, work_len)
}

fn around(dice: &mut Dice, needed: usize) -> usize {
    match dice.below(40) {
        0 | 1 => needed.saturating_sub(1),
        2 => needed.saturating_sub(12),
        3 => dice.below(needed + 1),
        4 if dice.once_in(4) => 0,
        5..=20 => needed,
        _ => needed + dice.below(30),
    }
}
