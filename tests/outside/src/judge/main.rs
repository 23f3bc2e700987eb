//! The judge: figures, vectors, examples, pages, the stack and generated cases, then 'N passed, M failed'.

use outside::boundary::{Answer, Checked, DEEP, HALT, LINKED, NUMBERS, NUMBER_NAMES};
use outside::compare::compare;
use outside::demands::{hold, Verdict};
use outside::generate::{self, Case};
use outside::spec::{arguments_fit, code, machine, text};
use outside::{examples, figures, pages, stack, vectors};
use std::collections::BTreeMap;
use std::process::exit;
use std::sync::atomic::{AtomicU64, AtomicUsize, Ordering::Relaxed};
use std::time::{Duration, Instant};

const USAGE: &str = "judge [--seed S] [--cases N] [--threads T]   figures, vectors, examples, pages and N generated cases
judge --seed S --case K                      one generated case, shown in full";

/// Failures of one kind that are shown; the others are only counted.
const SHOWN: usize = 5;
/// From so many cases on, every kind of answer has to have been met.
const ENOUGH_TO_MEET_ALL: u64 = 100_000;
/// A case that takes longer than this has not come back.
const PATIENCE: Duration = Duration::from_secs(60);

struct Options {
    seed: u64,
    cases: u64,
    case: Option<u64>,
    threads: usize,
}

/// What was met on the way; every kind has to be, or the judge has not looked everywhere.
#[derive(Default)]
struct Tally {
    passed: u64,
    failed: u64,
    /// Of the cases that failed, the one with the shortest text: what to look at first.
    shortest: Option<(usize, String)>,
    check_numbers: [u64; NUMBERS],
    run_numbers: [u64; NUMBERS],
    runs: u64,
    families: BTreeMap<&'static str, u64>,
    halted_by_rewriting: u64,
    deep_by_rewriting: u64,
    stopped_by_rewriting: u64,
    deep_before_zero: u64,
    /// Cases that halt past a division by 0 that nobody looks at.
    halted_past_zero: u64,
    too_large: u64,
    unfinished: u64,
    /// Cases that halt, and that rewriting could not follow so far.
    halted_without_rewriting: u64,
    deep_by_returns: u64,
    deep_by_data: u64,
    halted_at_512_returns: u64,
    halted_at_512_data: u64,
}

fn main() {
    let options = options();
    SEED.store(options.seed, Relaxed);
    report_crashes();
    if let Some(number) = options.case {
        exit(show(options.seed, number));
    }
    println!("seed {}, {} cases, {} threads", options.seed, options.cases, options.threads);
    let start = Instant::now();
    let mut tally = Tally::default();
    let program = std::env::var("NESPRALHA_PROGRAM").ok();
    let mut held = vec![
        ("figures", figures::hold()),
        ("lines of run.txt", vectors::hold()),
        ("looks at examples/", examples::hold(program.as_deref())),
        ("looks at the pages", pages::hold()),
        ("texts in a small stack", stack::hold()),
    ];
    if let Some(program) = program {
        held.push(("inputs of the program", vectors::hold_program(&program, options.seed)));
    }
    for (what, (tried, failures)) in held {
        println!("{tried} {what}, {} failed", failures.len());
        tally.passed += (tried - failures.len()) as u64;
        tally.failed += failures.len() as u64;
        for failure in failures.iter().take(SHOWN) {
            println!("FAILED {failure}");
        }
    }
    for part in run_all(&options) {
        tally.add(part);
    }
    report(&mut tally, options.cases, start.elapsed());
    println!("{} passed, {} failed", tally.passed, tally.failed);
    exit((tally.failed > 0) as i32);
}

fn options() -> Options {
    let cores = std::thread::available_parallelism().map_or(1, |cores| cores.get());
    let mut options = Options { seed: 1, cases: 400_000, case: None, threads: cores.min(2) };
    let words: Vec<String> = std::env::args().skip(1).collect();
    for pair in words.chunks(2) {
        let number = pair.get(1).and_then(|word| word.parse::<u64>().ok());
        match (pair[0].as_str(), number) {
            ("--seed", Some(number)) => options.seed = number,
            ("--cases", Some(number)) => options.cases = number,
            ("--case", Some(number)) => options.case = Some(number),
            ("--threads", Some(number)) => options.threads = number.max(1) as usize,
            _ => {
                eprintln!("{USAGE}");
                exit(2);
            }
        }
    }
    options
}

// Running

/// The case each thread is at, for a crash or a case that never comes back.
static AT: [AtomicU64; 64] = [const { AtomicU64::new(u64::MAX) }; 64];
static SEED: AtomicU64 = AtomicU64::new(0);

fn run_all(options: &Options) -> Vec<Tally> {
    let next = AtomicU64::new(0);
    std::thread::scope(|scope| {
        let work = |thread: usize| {
            let next = &next;
            let body = move || run_some(thread, next, options);
            // Explicit terms are dropped and rewritten by recursion.
            std::thread::Builder::new().stack_size(256 << 20).spawn_scoped(scope, body).expect("a thread")
        };
        let threads: Vec<_> = (0..options.threads.min(AT.len())).map(work).collect();
        watch(&threads, |thread| thread.is_finished());
        threads.into_iter().map(|thread| thread.join().expect("a thread that ends")).collect()
    })
}

fn run_some(thread: usize, next: &AtomicU64, options: &Options) -> Tally {
    let mut tally = Tally::default();
    loop {
        let number = next.fetch_add(1, Relaxed);
        if number >= options.cases {
            AT[thread].store(u64::MAX, Relaxed);
            return tally;
        }
        AT[thread].store(number, Relaxed);
        let judged = std::panic::catch_unwind(|| judge(generate::case(options.seed, number)));
        match judged {
            Ok(judged) => tally.count(options.seed, number, judged),
            Err(_) => tally.fail(&format!("  the judge gave up on a case\n{}", reproduce(options.seed, number))),
        }
    }
}

/// Waits for the threads; a case that never comes back is a failure of its own.
fn watch<T>(threads: &[T], finished: impl Fn(&T) -> bool) {
    let mut since = vec![(u64::MAX, Instant::now()); threads.len()];
    while !threads.iter().all(&finished) {
        std::thread::sleep(Duration::from_millis(100));
        for (thread, (case, started)) in since.iter_mut().enumerate() {
            let now_at = AT[thread].load(Relaxed);
            if now_at != *case {
                (*case, *started) = (now_at, Instant::now());
            } else if now_at != u64::MAX && started.elapsed() > PATIENCE {
                give_up("a case has not come back");
            }
        }
    }
}

fn give_up(why: &str) -> ! {
    println!("{why}; generated cases under way:");
    for case in AT.iter().map(|at| at.load(Relaxed)).filter(|case| *case != u64::MAX) {
        println!("{}", reproduce(SEED.load(Relaxed), case));
    }
    println!("0 passed, 1 failed");
    exit(1);
}

extern "C" fn crashed(_signal: i32) {
    give_up("the engine has crashed");
}

fn report_crashes() {
    extern "C" {
        fn signal(number: i32, handler: extern "C" fn(i32)) -> usize;
    }
    const ILL_TRAP_ABRT_BUS_FPE_SEGV: [i32; 6] = [4, 5, 6, 7, 8, 11];
    for number in ILL_TRAP_ABRT_BUS_FPE_SEGV {
        unsafe { signal(number, crashed) };
    }
}

fn reproduce(seed: u64, case: u64) -> String {
    format!("  tests/outside/run --seed {seed} --case {case}")
}

// One case

struct Judged {
    case: Case,
    checked: Checked,
    answers: Vec<Answer>,
    verdict: Verdict,
    differences: Vec<String>,
}

fn judge(case: Case) -> Judged {
    let comparison = compare(&LINKED, &case);
    let mut differences = comparison.differences;
    let verdict = hold(&case, &comparison.answers);
    if let Verdict::Broken(how) = &verdict {
        differences.push(format!("rewriting and the bounds: {how}"));
    }
    Judged { case, checked: comparison.checked, answers: comparison.answers, verdict, differences }
}

fn describe(case: &Case) -> String {
    format!(
        "  family {}\n  text   {}\n  args   {:?}\n  limits {:?}\n  lent   {} heads, {} code words, {} work words",
        case.family,
        vectors::escaped(&case.text),
        case.args,
        case.limits,
        case.heads_len,
        case.code_len,
        case.work_len
    )
}

fn show(seed: u64, number: u64) -> i32 {
    AT[0].store(number, Relaxed);
    let body = move || {
        let case = generate::case(seed, number);
        println!("seed {seed}, case {number}\n{}", describe(&case));
        let judged = judge(case);
        println!("  the documents check it to {:?}", judged.checked);
        for (limit, answer) in judged.case.limits.iter().zip(&judged.answers) {
            println!("  and at limit {limit} runs it to {answer:?}");
        }
        for difference in &judged.differences {
            println!("  DIFFERENT {difference}");
        }
        judged.differences.is_empty()
    };
    let same = std::thread::Builder::new().stack_size(256 << 20).spawn(body).expect("a thread").join().unwrap_or(false);
    println!("{} passed, {} failed", same as u32, !same as u32);
    !same as i32
}

// Counting

impl Tally {
    fn fail(&mut self, failure: &str) {
        static SO_FAR: AtomicUsize = AtomicUsize::new(0);
        self.failed += 1;
        if SO_FAR.fetch_add(1, Relaxed) < SHOWN {
            println!("FAILED\n{failure}");
        }
    }

    fn keep_shortest(&mut self, length: usize, failure: String) {
        if self.shortest.as_ref().is_none_or(|(shortest, _)| length < *shortest) {
            self.shortest = Some((length, failure));
        }
    }

    fn count(&mut self, seed: u64, number: u64, judged: Judged) {
        *self.families.entry(judged.case.family).or_default() += 1;
        self.check_numbers[judged.checked.number as usize] += 1;
        for answer in &judged.answers {
            self.runs += 1;
            self.run_numbers[answer.number as usize] += 1;
        }
        match judged.verdict {
            Verdict::Halted => self.halted_by_rewriting += 1,
            Verdict::WentDeep => self.deep_by_rewriting += 1,
            Verdict::Stopped => self.stopped_by_rewriting += 1,
            Verdict::WentDeepBeforeZero => self.deep_before_zero += 1,
            Verdict::TooLarge => self.too_large += 1,
            Verdict::Unfinished => self.unfinished += 1,
            Verdict::NotTried | Verdict::Broken(_) => {}
        }
        let halts = judged.answers.iter().any(|answer| answer.number == HALT);
        self.halted_past_zero += (halts && judged.case.family == "passed over") as u64;
        self.halted_without_rewriting += (halts && matches!(judged.verdict, Verdict::TooLarge | Verdict::Unfinished)) as u64;
        self.count_heights(&judged.case, &judged.answers);
        if judged.differences.is_empty() {
            self.passed += 1;
        } else {
            let differences = judged.differences.join("\n  ");
            let failure = format!("  {differences}\n{}\n{}", describe(&judged.case), reproduce(seed, number));
            self.fail(&failure);
            self.keep_shortest(judged.case.text.len(), failure);
        }
    }

    /// Which stack went too high, and which runs just fitted.
    fn count_heights(&mut self, case: &Case, answers: &[Answer]) {
        let Some(answer) = answers.iter().find(|answer| matches!(answer.number, HALT | DEEP) && answer.steps > 400) else {
            return;
        };
        let Ok(functions) = text::read(&case.text) else { return };
        if !arguments_fit(&functions[0], &case.args) {
            return;
        }
        let outcome = machine::run(&code::translate(&functions), &case.args, answer.steps);
        let (returns, data) = outcome.highest;
        if answer.number == DEEP {
            self.deep_by_returns += (returns == 512 && data < 512) as u64;
            self.deep_by_data += (data == 512 && returns < 512) as u64;
        } else {
            self.halted_at_512_returns += (returns == 512) as u64;
            self.halted_at_512_data += (data == 512) as u64;
        }
    }

    fn add(&mut self, part: Tally) {
        self.passed += part.passed;
        self.failed += part.failed;
        if let Some((length, failure)) = part.shortest {
            self.keep_shortest(length, failure);
        }
        self.runs += part.runs;
        for number in 0..NUMBERS {
            self.check_numbers[number] += part.check_numbers[number];
            self.run_numbers[number] += part.run_numbers[number];
        }
        for (family, count) in part.families {
            *self.families.entry(family).or_default() += count;
        }
        self.halted_by_rewriting += part.halted_by_rewriting;
        self.deep_by_rewriting += part.deep_by_rewriting;
        self.stopped_by_rewriting += part.stopped_by_rewriting;
        self.deep_before_zero += part.deep_before_zero;
        self.halted_past_zero += part.halted_past_zero;
        self.too_large += part.too_large;
        self.unfinished += part.unfinished;
        self.halted_without_rewriting += part.halted_without_rewriting;
        self.deep_by_returns += part.deep_by_returns;
        self.deep_by_data += part.deep_by_data;
        self.halted_at_512_returns += part.halted_at_512_returns;
        self.halted_at_512_data += part.halted_at_512_data;
    }

    /// What a long comparison has to have met, and how often it did.
    fn to_be_met(&self) -> [(&'static str, Vec<(&'static str, u64)>); 3] {
        let named = |numbers: &[u64; NUMBERS], met: &[u32]| {
            met.iter().map(|n| (NUMBER_NAMES[*n as usize], numbers[*n as usize])).collect()
        };
        let others = vec![
            ("demand 3 with HALT", self.halted_by_rewriting),
            ("demand 3 with DEEP", self.deep_by_rewriting),
            ("ZERO where rewriting meets it", self.stopped_by_rewriting),
            ("DEEP before it", self.deep_before_zero),
            ("HALT past a division nobody looks at", self.halted_past_zero),
            ("return stack of 513", self.deep_by_returns),
            ("data stack of 513", self.deep_by_data),
            ("return stack of 512 and HALT", self.halted_at_512_returns),
            ("data stack of 512 and HALT", self.halted_at_512_data),
        ];
        [
            ("Check", named(&self.check_numbers, &[0, 1, 2, 3, 4, 5, 6, 8, 13, 14, 15])),
            ("Run", named(&self.run_numbers, &[0, 1, 2, 3, 4, 5, 6, 7, 8, 9, 10, 12, 13, 14, 15])),
            ("met", others),
        ]
    }
}

fn report(tally: &mut Tally, cases: u64, elapsed: Duration) {
    if let Some((_, failure)) = tally.shortest.take() {
        println!("THE SHORTEST TEXT THAT FAILED\n{failure}");
    }
    println!("{cases} cases, {} runs, in {:.1} s", tally.runs, elapsed.as_secs_f64());
    let families: Vec<String> = tally.families.iter().map(|(name, count)| format!("{name} {count}")).collect();
    println!("families: {}", families.join(", "));
    let met = tally.to_be_met();
    for (group, counts) in &met {
        let counts: Vec<String> = counts.iter().map(|(what, count)| format!("{what} {count}")).collect();
        println!("{group}: {}", counts.join(", "));
    }
    let Tally { too_large, unfinished, halted_without_rewriting, .. } = tally;
    println!(
        "rewriting came to no end: term too large {too_large}, rewrites used up {unfinished}; {halted_without_rewriting} of these cases halt"
    );
    if cases < ENOUGH_TO_MEET_ALL {
        return;
    }
    for (group, counts) in met {
        for (what, count) in counts {
            match count {
                0 => tally.fail(&format!("  never met: {group}, {what}")),
                _ => tally.passed += 1,
            }
        }
    }
}
