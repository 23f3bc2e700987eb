//! Demands 2 and 3, and request b: what the engine reports is what leftmost rewriting of the entry call does.

use crate::boundary::{engine, Answer, DEEP, FUEL, HALT, MOST_CODE_WORDS, WORK_WORDS, ZERO};
use crate::generate::Case;
use crate::spec::rewriting::{rewrite, Granted, Rewriting};
use crate::spec::text::Function;
use crate::spec::{arguments_fit, code, machine, text};

/// What came of holding one case against rewriting.
pub enum Verdict {
    /// Not accepted, or a case that has not ended and was passed over.
    NotTried,
    /// Rewriting came to no end within the rewrites granted.
    Unfinished,
    /// Rewriting came to a term over the size granted.
    TooLarge,
    /// Rewriting reached a value; the engine halted with it, or went DEEP.
    Halted,
    WentDeep,
    /// Rewriting met a division by 0; the engine stopped there, or went DEEP.
    Stopped,
    WentDeepBeforeZero,
    Broken(String),
}

pub fn hold(case: &Case, answers: &[Answer]) -> Verdict {
    let Some(functions) = text::read(&case.text).ok().filter(|functions| arguments_fit(&functions[0], &case.args)) else {
        return Verdict::NotTried;
    };
    let ended = answers.iter().find(|answer| matches!(answer.number, HALT | ZERO));
    let deep = answers.iter().any(|answer| answer.number == DEEP);
    // Where the engine has not ended, rewriting may take long and seldom ends: some of these cases are enough.
    if ended.is_none() && case.noise & 3 != 0 {
        return Verdict::NotTried;
    }
    let granted = match ended {
        Some(answer) => Granted { rewrites: answer.rewrites.min(6000), size: 8000 },
        None if deep && matches!(case.family, "calling" | "dividing") => Granted { rewrites: 6000, size: 8000 },
        None => Granted { rewrites: 600, size: 2000 },
    };
    match rewrite(&functions, &case.args, granted) {
        Rewriting::Value { value, rewrites } => End { number: HALT, value, rewrites }.hold(case, &functions, ended),
        Rewriting::Zero { rewrites } => End { number: ZERO, value: 0, rewrites }.hold(case, &functions, ended),
        Rewriting::TooLarge => Verdict::TooLarge,
        Rewriting::Unfinished => match ended {
            Some(answer) if answer.rewrites <= granted.rewrites => {
                Verdict::Broken(format!("{answer:?}, but rewriting goes on after so many rewrites"))
            }
            _ => Verdict::Unfinished,
        },
    }
}

/// Where rewriting ends: a value, or a division by 0.
struct End {
    number: u32,
    value: u32,
    rewrites: u32,
}

impl End {
    /// Steps that are always enough to get there, as long as no stack passes 512.
    fn bound(&self) -> u32 {
        let n = self.rewrites as u64;
        let steps = if self.number == HALT { 18 * n * n + 12 * n + 2 } else { 18 * n * n + 1034 * n + 513 };
        u32::try_from(steps).unwrap_or(u32::MAX)
    }

    fn is_reported_by(&self, answer: &Answer) -> bool {
        (answer.number, answer.value, answer.rewrites) == (self.number, self.value, self.rewrites)
    }

    /// Holds it against the runs of the case that ended, and against one with its bound for a limit.
    fn hold(&self, case: &Case, functions: &[Function], ended: Option<&Answer>) -> Verdict {
        let End { number, value, rewrites } = self;
        let end = format!("rewriting ends with number {number}, value {value} after {rewrites} rewrites");
        if let Some(answer) = ended.filter(|answer| !self.is_reported_by(answer)) {
            return Verdict::Broken(format!("{end}, a run {answer:?}"));
        }
        let limit = self.bound();
        let (mut code, mut work) = ([0; MOST_CODE_WORDS], [0; WORK_WORDS]);
        let answer = engine::run(&case.text, &case.args, limit, &mut code, &mut work);
        match (answer.number, self.number) {
            (HALT, HALT) if self.is_reported_by(&answer) => Verdict::Halted,
            (ZERO, ZERO) if self.is_reported_by(&answer) => Verdict::Stopped,
            (DEEP, HALT) if machine_goes_deep(functions, &case.args, &answer) => Verdict::WentDeep,
            (DEEP, ZERO) if machine_goes_deep(functions, &case.args, &answer) => Verdict::WentDeepBeforeZero,
            (FUEL, _) => Verdict::Broken(format!("{end}, the engine has FUEL at the bound {limit}")),
            _ => Verdict::Broken(format!("{end}, the engine at limit {limit} {answer:?}")),
        }
    }
}

fn machine_goes_deep(functions: &[Function], args: &[u32], answer: &Answer) -> bool {
    let outcome = machine::run(&code::translate(functions), args, u32::MAX);
    (outcome.number, outcome.steps, outcome.rewrites) == (DEEP, answer.steps, answer.rewrites)
}
