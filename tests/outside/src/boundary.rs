//! The C boundary of the engine, as include/nespralha.h declares it.

#[repr(C)]
#[derive(Clone, Copy, Debug, Default, PartialEq, Eq)]
pub struct Head {
    pub args: u32,
    pub strict: u32,
    pub result: u32,
    pub body: u32,
}

#[repr(C)]
#[derive(Clone, Copy, Debug, Default, PartialEq, Eq)]
pub struct Checked {
    pub number: u32,
    pub line: u32,
    pub field: u32,
    pub functions: u32,
    pub instructions: u32,
}

#[repr(C)]
#[derive(Clone, Copy, Debug, Default, PartialEq, Eq)]
pub struct Answer {
    pub number: u32,
    pub value: u32,
    pub line: u32,
    pub field: u32,
    pub steps: u32,
    pub rewrites: u32,
}

pub const HALT: u32 = 0;
pub const LONG: u32 = 1;
pub const LINE: u32 = 2;
pub const COUNT: u32 = 3;
pub const NAME: u32 = 4;
pub const TERM: u32 = 5;
pub const NEST: u32 = 6;
pub const ARGS: u32 = 7;
pub const ROOM: u32 = 8;
pub const FUEL: u32 = 9;
pub const DEEP: u32 = 10;
pub const STUCK: u32 = 11;
pub const ZERO: u32 = 12;
pub const UNKNOWN: u32 = 13;
pub const SORT: u32 = 14;
pub const SHORT: u32 = 15;

pub const NUMBERS: usize = 16;
pub const NUMBER_NAMES: [&str; NUMBERS] = [
    "HALT", "LONG", "LINE", "COUNT", "NAME", "TERM", "NEST", "ARGS", "ROOM", "FUEL", "DEEP", "STUCK", "ZERO", "UNKNOWN", "SORT",
    "SHORT",
];

/// Words of one instruction, work words of a run, and the most code words that an accepted text needs.
pub const INSTRUCTION_WORDS: usize = 12;
pub const WORK_WORDS: usize = 8192;
pub const MOST_CODE_WORDS: usize = 12408;
pub const MOST_HEADS: usize = 64;

pub type Check = fn(&[u8], &mut [Head]) -> Checked;
pub type Translate = fn(&[u8], &mut [u32]) -> Checked;
pub type Run = fn(&[u8], &[u32], u32, &mut [u32], &mut [u32]) -> Answer;

/// Anything that claims to be the documents' three functions.
#[derive(Clone, Copy)]
pub struct Engine {
    pub check: Check,
    pub translate: Translate,
    pub run: Run,
}

/// The engine in the archive.
pub const LINKED: Engine = Engine { check: engine::check, translate: engine::translate, run: engine::run };

/// No archive is linked: the plain reading stands in for it, so that the judge itself can be tried.
#[cfg(feature = "alone")]
pub mod engine {
    pub use crate::spec::{check, run, translate};
}

/// The archive's functions, each slice lent as a pointer and a length.
#[cfg(not(feature = "alone"))]
pub mod engine {
    use super::{Answer, Checked, Head};

    extern "C" {
        fn nespralha_check(text: *const u8, text_len: usize, heads: *mut Head, heads_len: usize) -> Checked;
        fn nespralha_translate(text: *const u8, text_len: usize, code: *mut u32, code_len: usize) -> Checked;
        fn nespralha_run(
            text: *const u8,
            text_len: usize,
            args: *const u32,
            args_len: usize,
            limit: u32,
            code: *mut u32,
            code_len: usize,
            work: *mut u32,
            work_len: usize,
        ) -> Answer;
    }

    pub fn check(text: &[u8], heads: &mut [Head]) -> Checked {
        unsafe { nespralha_check(text.as_ptr(), text.len(), heads.as_mut_ptr(), heads.len()) }
    }

    pub fn translate(text: &[u8], code: &mut [u32]) -> Checked {
        unsafe { nespralha_translate(text.as_ptr(), text.len(), code.as_mut_ptr(), code.len()) }
    }

    pub fn run(text: &[u8], args: &[u32], limit: u32, code: &mut [u32], work: &mut [u32]) -> Answer {
        unsafe {
            nespralha_run(
                text.as_ptr(),
                text.len(),
                args.as_ptr(),
                args.len(),
                limit,
                code.as_mut_ptr(),
                code.len(),
                work.as_mut_ptr(),
                work.len(),
            )
        }
    }
}
