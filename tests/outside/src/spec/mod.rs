//! The documents in the plainest way: explicit lists and terms, written from the documents alone.

pub mod code;
pub mod machine;
pub mod program;
pub mod rewriting;
pub mod text;

use crate::boundary::{Answer, Checked, Head, ARGS, HALT, INSTRUCTION_WORDS, ROOM, WORK_WORDS};
use text::{Function, Refusal, Sort};

/// Check: the first `functions` heads are written, or none.
pub fn check(text: &[u8], heads: &mut [Head]) -> Checked {
    let functions = match text::read(text) {
        Ok(functions) => functions,
        Err(refusal) => return refused(refusal),
    };
    if heads.len() < functions.len() {
        return refused(Refusal::without_place(ROOM));
    }
    for (head, written) in heads.iter_mut().zip(code::heads(&functions)) {
        *head = written;
    }
    accepted(&functions)
}

/// Translate: the first 12 words an instruction are written, or none.
pub fn translate(text: &[u8], code: &mut [u32]) -> Checked {
    let functions = match text::read(text) {
        Ok(functions) => functions,
        Err(refusal) => return refused(refusal),
    };
    if code.len() < code_words(&functions) {
        return refused(Refusal::without_place(ROOM));
    }
    write_code(&functions, code);
    accepted(&functions)
}

/// Run: refusals 1 to 8 and 13 to 15 leave both slices as they are; after a run the code stands and the work is clear.
pub fn run(text: &[u8], args: &[u32], limit: u32, code: &mut [u32], work: &mut [u32]) -> Answer {
    let functions = match text::read(text) {
        Ok(functions) => functions,
        Err(refusal) => return not_run(refusal),
    };
    if !arguments_fit(&functions[0], args) {
        return not_run(Refusal::without_place(ARGS));
    }
    if code.len() < code_words(&functions) || work.len() < WORK_WORDS {
        return not_run(Refusal::without_place(ROOM));
    }
    let outcome = machine::run(&code::translate(&functions), args, limit);
    write_code(&functions, code);
    work[..WORK_WORDS].fill(0);
    Answer { number: outcome.number, value: outcome.value, line: 0, field: 0, steps: outcome.steps, rewrites: outcome.rewrites }
}

/// One value an argument of the entry, a yes/no being 0 or 1.
pub fn arguments_fit(entry: &Function, args: &[u32]) -> bool {
    args.len() == entry.sorts.len() && entry.sorts.iter().zip(args).all(|(sort, value)| *sort == Sort::Number || *value <= 1)
}

fn code_words(functions: &[Function]) -> usize {
    INSTRUCTION_WORDS * code::instruction_count(functions)
}

fn write_code(functions: &[Function], code: &mut [u32]) {
    for (words, instruction) in code.chunks_mut(INSTRUCTION_WORDS).zip(code::translate(functions)) {
        words.copy_from_slice(&instruction.words());
    }
}

fn accepted(functions: &[Function]) -> Checked {
    Checked {
        number: HALT,
        line: 0,
        field: 0,
        functions: functions.len() as u32,
        instructions: code::instruction_count(functions) as u32,
    }
}

fn refused(refusal: Refusal) -> Checked {
    Checked { number: refusal.number, line: refusal.line as u32, field: refusal.field as u32, functions: 0, instructions: 0 }
}

fn not_run(refusal: Refusal) -> Answer {
    Answer { number: refusal.number, value: 0, line: refusal.line as u32, field: refusal.field as u32, steps: 0, rewrites: 0 }
}
