//! The logic that the engine is proved in has no end of a stack, so what the engine takes of it is tried here: the texts that
//! make it recurse deepest, in a thread that has no more. A thread that runs out of its stack ends the judge.

use crate::boundary::{engine, Head, HALT, MOST_CODE_WORDS, MOST_HEADS, WORK_WORDS};
use crate::writer::text_of;

/// What include/nespralha.h promises to a caller.
const STACK: usize = 64 << 10;

/// 64 functions, whose bodies are read one within the other, and the last body as deep as may be.
fn deepest() -> Vec<u8> {
    let short: String = (1..64).map(|index| format!("F{index} 0 nn n a;")).collect();
    text_of(&format!("{short}LAST 0 nn n {}{}a;", "+ ".repeat(31), "a ".repeat(31)))
}

/// 64 functions of 16 symbols.
fn largest() -> Vec<u8> {
    text_of(&(1..=64).map(|index| format!("F{index} 0 nn n cond < a b {}a;", "+ a ".repeat(5) + "b ")).collect::<String>())
}

pub fn hold() -> (usize, Vec<String>) {
    let texts = [("the deepest text", deepest()), ("the largest text", largest()), ("DIF", text_of("DIF 2 nn n - a b;"))];
    let failures =
        texts.iter().filter(|(_, text)| !comes_back(text.clone())).map(|(what, _)| format!("{what} in {STACK} bytes of stack"));
    (texts.len(), failures.collect())
}

fn comes_back(text: Vec<u8>) -> bool {
    let (mut heads, mut code, mut work) = (vec![Head::default(); MOST_HEADS], vec![0; MOST_CODE_WORDS], vec![0; WORK_WORDS]);
    let body = move || {
        let checked = engine::check(&text, &mut heads).number;
        let translated = engine::translate(&text, &mut code).number;
        let run = engine::run(&text, &[3, 4], 1_000_000, &mut code, &mut work).number;
        [checked, translated, run] == [HALT; 3]
    };
    std::thread::Builder::new().stack_size(STACK).spawn(body).expect("a thread").join().unwrap_or(false)
}
