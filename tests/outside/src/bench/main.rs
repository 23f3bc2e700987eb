//! The benchmark: the engine, a Rust machine over the same code, and Lua, in one run and interleaved, best of several rounds.

mod fast;
mod lua;
mod plot;

use outside::boundary::{Answer, Engine, Head, HALT, LINKED, MOST_CODE_WORDS, MOST_HEADS, WORK_WORDS};
use outside::compare::compare;
use outside::generate;
use outside::spec;
use outside::writer::text_of;
use plot::{Curve, Panel};
use std::hint::black_box;

const RUST: Engine = Engine { check: fast::check, translate: fast::translate, run: fast::run };

const ROUNDS: usize = 20;
const LUA_ROUNDS: usize = 4;
/// CPU time of one measurement.
const NANOSECONDS: f64 = 4e6;
/// Generated cases that the Rust machine is held against before it serves as a yardstick.
const HELD: u64 = 4000;

struct Row {
    name: &'static str,
    text: Vec<u8>,
    args: Vec<u32>,
}

fn rows() -> Vec<Row> {
    let row = |name, text: &str, args: &[u32]| Row { name, text: text_of(text), args: args.to_vec() };
    vec![
        row("DIF", "DIF 2 nn n - a b;", &[3, 4294967290]),
        row("usage rule, cond and /", "RATE 3 nnn n cond < c 1 0 / * - b a 8 c;", &[4294967000, 1704, 300]),
        row("strict count to the depth", "COUNT 1 n n cond < a 1 0 + 1 COUNT - a 1;", &[510]),
        row("FIB 15", "FIB 1 n n cond < a 2 a + FIB - a 1 FIB - a 2;", &[15]),
        row("waiting, down 60 calls", "TOP 1 nn n HAND a * b b;HAND 1 nn n cond < a 1 b HAND - a 1 b;", &[60, 7]),
        Row { name: "64 functions, 1,024 symbols", text: ring(64), args: vec![7, 5] },
    ]
}

/// Functions of 16 symbols, each calling the next and the last the first; a run from 7 makes 65 calls.
fn ring(count: usize) -> Vec<u8> {
    let line =
        |index: usize| format!("RING{:02} 2 nn n cond < 70 a + * a b 7 RING{:02} + a 1 - b a;", index, (index + 1) % count);
    text_of(&(0..count).map(line).collect::<String>())
}

fn main() {
    let words: Vec<String> = std::env::args().skip(1).collect();
    hold_yardstick();
    print_table();
    if let [option, path] = &words[..] {
        assert_eq!(option, "--svg");
        std::fs::write(path, plot::svg(&[growth_with_text(), growth_with_rewrites()])).expect("the plot");
        println!("\nwritten: {path}");
    }
}

fn hold_yardstick() {
    for number in 0..HELD {
        let differences = compare(&RUST, &generate::case(7, number)).differences;
        assert!(differences.is_empty(), "the Rust machine is wrong in case {number}: {differences:#?}");
    }
}

// Measuring

/// CPU time of this process in nanoseconds.
fn cpu_time() -> f64 {
    #[repr(C)]
    struct Timespec {
        seconds: i64,
        nanoseconds: i64,
    }
    extern "C" {
        fn clock_gettime(clock: i32, time: *mut Timespec) -> i32;
    }
    const PROCESS_CPUTIME: i32 = 2;
    let mut time = Timespec { seconds: 0, nanoseconds: 0 };
    unsafe { clock_gettime(PROCESS_CPUTIME, &mut time) };
    time.seconds as f64 * 1e9 + time.nanoseconds as f64
}

fn nanoseconds_each(count: usize, mut act: impl FnMut()) -> f64 {
    let start = cpu_time();
    for _ in 0..count {
        act();
    }
    (cpu_time() - start) / count as f64
}

/// What one engine takes for a row, in nanoseconds.
#[derive(Clone, Copy)]
struct Times {
    check: f64,
    translate: f64,
    /// A run at limit 0: all of a whole run but its steps.
    idle: f64,
    whole: f64,
}

impl Times {
    const NONE: Times = Times { check: f64::INFINITY, translate: f64::INFINITY, idle: f64::INFINITY, whole: f64::INFINITY };

    fn best(self, other: Times) -> Times {
        Times {
            check: self.check.min(other.check),
            translate: self.translate.min(other.translate),
            idle: self.idle.min(other.idle),
            whole: self.whole.min(other.whole),
        }
    }

    fn step(&self, steps: u32) -> f64 {
        (self.whole - self.idle) / steps as f64
    }
}

/// Lent memory, the same for every engine.
struct Lent {
    heads: Vec<Head>,
    code: Vec<u32>,
    work: Vec<u32>,
}

impl Lent {
    fn new() -> Lent {
        Lent { heads: vec![Head::default(); MOST_HEADS], code: vec![0; MOST_CODE_WORDS], work: vec![0; WORK_WORDS] }
    }

    fn run(&mut self, engine: &Engine, row: &Row, limit: u32) -> Answer {
        (engine.run)(black_box(&row.text), black_box(&row.args), limit, &mut self.code, &mut self.work)
    }

    fn time(&mut self, engine: &Engine, row: &Row) -> Times {
        let once = nanoseconds_each(1, || {
            black_box(self.run(engine, row, u32::MAX));
        });
        let count = (NANOSECONDS / once.max(20.0)).clamp(1.0, 20_000.0) as usize;
        Times {
            check: nanoseconds_each(count, || {
                black_box((engine.check)(black_box(&row.text), &mut self.heads));
            }),
            translate: nanoseconds_each(count, || {
                black_box((engine.translate)(black_box(&row.text), &mut self.code));
            }),
            idle: nanoseconds_each(count, || {
                black_box(self.run(engine, row, 0));
            }),
            whole: nanoseconds_each(count, || {
                black_box(self.run(engine, row, u32::MAX));
            }),
        }
    }
}

/// Rounds go over all engines in turn, so that a slow moment hits all of them.
fn best_times(row: &Row, rounds: usize) -> [Times; 2] {
    let mut lent = Lent::new();
    let mut best = [Times::NONE; 2];
    for _ in 0..rounds {
        for (best, engine) in best.iter_mut().zip([LINKED, RUST]) {
            *best = best.best(lent.time(&engine, row));
        }
    }
    best
}

// The table

fn print_table() {
    println!("nanoseconds of CPU time, best of {ROUNDS} rounds; a step: whole run less a run at limit 0, by its steps");
    println!(
        "{:<28} {:>6} | {:>8} {:>9} {:>9} {:>6} | {:>8} {:>9} {:>9} {:>6} | {:>6} {:>6} | {:>9} {:>9} {:>7}",
        "", "", "engine", "", "", "", "Rust", "", "", "", "engine", "/ Rust", "Lua 5.4", "", "Lua /"
    );
    println!(
        "{:<28} {:>6} | {:>8} {:>9} {:>9} {:>6} | {:>8} {:>9} {:>9} {:>6} | {:>6} {:>6} | {:>9} {:>9} {:>7}",
        "rule",
        "steps",
        "check",
        "translate",
        "whole",
        "step",
        "check",
        "translate",
        "whole",
        "step",
        "whole",
        "step",
        "load+call",
        "call",
        "engine"
    );
    for row in rows() {
        print_row(&row);
    }
}

fn print_row(row: &Row) {
    let answer = agreed(row);
    let mut times = [Times::NONE; 2];
    let mut lua: Option<(f64, f64)> = None;
    for _ in 0..LUA_ROUNDS {
        for (best, now) in times.iter_mut().zip(best_times(row, ROUNDS / LUA_ROUNDS)) {
            *best = best.best(now);
        }
        if let Some(measured) = lua::measure(&row.text, &row.args) {
            assert_eq!(measured.value, answer.value, "Lua's value of {}", row.name);
            let (load_and_call, call) = lua.unwrap_or((f64::INFINITY, f64::INFINITY));
            lua = Some((load_and_call.min(measured.load_and_call), call.min(measured.call)));
        }
    }
    let [engine, rust] = times;
    let side = |times: &Times| {
        format!("{:>8.0} {:>9.0} {:>9.0} {:>6.2}", times.check, times.translate, times.whole, times.step(answer.steps))
    };
    let ratios = format!("{:>6.2} {:>6.2}", engine.whole / rust.whole, engine.step(answer.steps) / rust.step(answer.steps));
    let lua = match lua {
        Some((load_and_call, call)) => format!("{load_and_call:>9.0} {call:>9.0} {:>7.1}", load_and_call / engine.whole),
        None => "not installed".to_string(),
    };
    println!("{:<28} {:>6} | {} | {} | {ratios} | {lua}", row.name, answer.steps, side(&engine), side(&rust));
}

/// The answer that the documents and both machines give.
fn agreed(row: &Row) -> Answer {
    let mut lent = Lent::new();
    let answer = spec::run(&row.text, &row.args, u32::MAX, &mut lent.code, &mut lent.work);
    assert_eq!(answer.number, HALT, "{}", row.name);
    for engine in [LINKED, RUST] {
        assert_eq!(lent.run(&engine, row, u32::MAX), answer, "{}", row.name);
    }
    answer
}

// The plot

fn growth_with_text() -> Panel {
    let names = [("engine", "#b2182b"), ("Rust machine", "#2166ac")];
    let mut curves: Vec<Curve> =
        names.iter().map(|(name, colour)| Curve { name: name.to_string(), colour, points: vec![] }).collect();
    for count in [1, 2, 3, 4, 6, 8, 12, 16, 24, 32, 48, 64] {
        // From 71 on the first function answers at once, so that text is all that grows.
        let row = Row { name: "ring", text: ring(count), args: vec![71, 5] };
        for (curve, times) in curves.iter_mut().zip(best_times(&row, 5)) {
            curve.points.push((row.text.len() as f64, times.whole));
        }
    }
    Panel { title: "Whole run and size of the text".into(), across: "bytes of text".into(), up: "nanoseconds".into(), curves }
}

fn growth_with_rewrites() -> Panel {
    let rules = [
        ("FIB, strict", "#2166ac", "FIB 1 n n cond < a 2 a + FIB - a 1 FIB - a 2;", 20),
        ("count down, strict", "#1b7837", "COUNT 1 n n cond < a 1 0 + 1 COUNT - a 1;", 510),
        ("count down, waiting", "#b2182b", "COUNT 0 n n cond < a 1 0 + 1 COUNT - a 1;", 254),
        ("handed down and looked at", "#e08214", "HAND 1 nn n cond < a 1 b + b HAND - a 1 b;", 250),
    ];
    let mut curves = Vec::new();
    let mut most = 1;
    for (name, colour, text, last) in rules {
        let text = text_of(text);
        let mut points = Vec::new();
        let mut argument = 1;
        while argument <= last {
            let answer = halted(&text, argument);
            points.push((answer.rewrites as f64, answer.steps as f64));
            most = most.max(answer.rewrites);
            argument = (argument + 1).max(argument * 5 / 4);
        }
        curves.push(Curve { name: name.into(), colour, points });
    }
    let bound = |n: f64| (n, 18.0 * n * n + 12.0 * n + 2.0);
    let bound = (0..=20).map(|part| bound((most as f64).powf(part as f64 / 20.0))).collect();
    curves.push(Curve { name: "18 n² + 12 n + 2".into(), colour: "#777", points: bound });
    Panel { title: "Steps and rewrites".into(), across: "n, rewrites".into(), up: "steps".into(), curves }
}

fn halted(text: &[u8], argument: u32) -> Answer {
    let args: Vec<u32> = if text.starts_with(b"HAND") { vec![argument, 1] } else { vec![argument] };
    let row = Row { name: "rule", text: text.to_vec(), args };
    let answer = Lent::new().run(&LINKED, &row, u32::MAX);
    assert_eq!(answer.number, HALT);
    answer
}
