//! An engine held against the documents on one input: every answer field, every head, every code word, every work word.

use crate::boundary::{Answer, Checked, Engine, Head};
use crate::dice::Dice;
use crate::edge::Edge;
use crate::generate::Case;
use crate::spec;
use std::cell::RefCell;
use std::fmt::Debug;

/// Elements on either side of a lent slice; the engine may not touch them.
const GUARD: usize = 16;

/// What the two sides answered alike, and in what they differ.
pub struct Comparison {
    pub checked: Checked,
    pub answers: Vec<Answer>,
    pub differences: Vec<String>,
}

thread_local! {
    /// Where the engine finds text and arguments.
    static EDGES: RefCell<(Edge, Edge)> = RefCell::default();
}

pub fn compare(engine: &Engine, case: &Case) -> Comparison {
    EDGES.with_borrow_mut(|(text, args)| {
        let read = Read { text: text.put(&case.text), args: args.put(&case.args) };
        compare_at_the_edge(engine, case, read)
    })
}

/// What the engine reads: copies of the case's text and arguments.
#[derive(Clone, Copy)]
struct Read<'a> {
    text: &'a [u8],
    args: &'a [u32],
}

fn compare_at_the_edge(engine: &Engine, case: &Case, read: Read) -> Comparison {
    let noise = &mut Dice::new(case.noise, 0);
    let mut differences = Vec::new();
    let checked = compare_check(engine, case, read, noise, &mut differences);
    compare_translate(engine, case, read, noise, &mut differences);
    let answers = case.limits.iter().map(|limit| compare_run(engine, case, read, *limit, noise, &mut differences)).collect();
    Comparison { checked, answers, differences }
}

fn compare_check(engine: &Engine, case: &Case, read: Read, noise: &mut Dice, differences: &mut Vec<String>) -> Checked {
    let head = |noise: &mut Dice| {
        let (left, right) = (noise.throw(), noise.throw());
        Head { args: left as u32, strict: (left >> 32) as u32, result: right as u32, body: (right >> 32) as u32 }
    };
    let mut expected: Vec<Head> = (0..case.heads_len + 2 * GUARD).map(|_| head(noise)).collect();
    let mut found = expected.clone();
    let answer = spec::check(&case.text, lent(&mut expected));
    differ(differences, "Check's answer", &answer, &(engine.check)(read.text, lent(&mut found)));
    differ_in_slice(differences, "Check's heads", &expected, &found);
    answer
}

fn compare_translate(engine: &Engine, case: &Case, read: Read, noise: &mut Dice, differences: &mut Vec<String>) {
    let mut expected = noisy_words(case.code_len, noise);
    let mut found = expected.clone();
    let answer = spec::translate(&case.text, lent(&mut expected));
    differ(differences, "Translate's answer", &answer, &(engine.translate)(read.text, lent(&mut found)));
    differ_in_slice(differences, "Translate's code", &expected, &found);
}

fn compare_run(engine: &Engine, case: &Case, read: Read, limit: u32, noise: &mut Dice, differences: &mut Vec<String>) -> Answer {
    let (mut expected_code, mut expected_work) = (noisy_words(case.code_len, noise), noisy_words(case.work_len, noise));
    let (mut code, mut work) = (expected_code.clone(), expected_work.clone());
    let answer = spec::run(&case.text, &case.args, limit, lent(&mut expected_code), lent(&mut expected_work));
    let found = (engine.run)(read.text, read.args, limit, lent(&mut code), lent(&mut work));
    differ(differences, &format!("Run's answer at limit {limit}"), &answer, &found);
    differ_in_slice(differences, &format!("Run's code at limit {limit}"), &expected_code, &code);
    differ_in_slice(differences, &format!("Run's work at limit {limit}"), &expected_work, &work);
    answer
}

fn noisy_words(len: usize, noise: &mut Dice) -> Vec<u32> {
    (0..len + 2 * GUARD).map(|_| noise.throw() as u32).collect()
}

/// The part between the guards.
fn lent<T>(guarded: &mut [T]) -> &mut [T] {
    let end = guarded.len() - GUARD;
    &mut guarded[GUARD..end]
}

fn differ<T: PartialEq + Debug>(differences: &mut Vec<String>, what: &str, expected: &T, found: &T) {
    if expected != found {
        differences.push(format!("{what}: the documents give {expected:?}, the engine {found:?}"));
    }
}

fn differ_in_slice<T: PartialEq + Debug>(differences: &mut Vec<String>, what: &str, expected: &[T], found: &[T]) {
    let Some(index) = (0..expected.len()).find(|index| expected[*index] != found[*index]) else { return };
    let place = index as isize - GUARD as isize;
    let count = (0..expected.len()).filter(|index| expected[*index] != found[*index]).count();
    let (expected, found) = (&expected[index], &found[index]);
    differences.push(format!("{what}: first of {count} at index {place}: the documents give {expected:?}, the engine {found:?}"));
}
