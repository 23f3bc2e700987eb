//! examples/: each rule on its first line prints its line, by the plain reading, by the engine and, where one is named, by the program.
//! It stands among the cases of crates/figures, which the gate runs, and on the page beside it; two are in README.md, too.

use crate::boundary::engine;
use crate::pages::{indented, page, root};
use crate::spec;
use crate::spec::program::line;
use crate::vectors::{escaped, printed, run};
use std::collections::{BTreeMap, BTreeSet};
use std::fs;

/// What an example is made of, by the endings of its files.
const PARTS: [&str; 3] = ["args", "out", "rule"];
/// Explained in README.md.
const FIRST: [&str; 2] = ["refused", "wrap"];
/// Words of code and work lent in the cases of crates/figures.
const LENT: &str = "12408\t8192\t";

struct Example {
    name: String,
    args: String,
    rule: String,
    out: String,
}

/// A failure, if there is one.
type Look = Option<String>;

/// What does not come out as the folder says; and how many things were looked at.
pub fn hold(program: Option<&str>) -> (usize, Vec<String>) {
    let (examples, mut looks) = read();
    let gate = figures();
    for example in &examples {
        looks.extend(lines(example, program, &gate));
        looks.extend(pages(example));
    }
    (looks.len(), looks.into_iter().flatten().collect())
}

/// The examples that have all their parts; the others are failures.
fn read() -> (Vec<Example>, Vec<Look>) {
    let mut parts: BTreeMap<String, BTreeSet<String>> = BTreeMap::new();
    for entry in fs::read_dir(root().join("examples")).expect("examples/") {
        let file = entry.expect("a file").file_name().into_string().expect("a plain name");
        let (name, part) = file.rsplit_once('.').unwrap_or((&file, ""));
        if file != "README.md" {
            parts.entry(name.to_string()).or_default().insert(part.to_string());
        }
    }
    let (whole, broken): (Vec<_>, Vec<_>) = parts.into_iter().partition(|(_, found)| found.iter().eq(PARTS.iter()));
    let failure = |(name, found)| Some(format!("examples/{name} has {found:?} and not {PARTS:?}"));
    (whole.into_iter().map(|(name, _)| example(name)).collect(), broken.into_iter().map(failure).collect())
}

fn example(name: String) -> Example {
    let [args, out, rule] = PARTS.map(|part| page(&format!("examples/{name}.{part}")));
    Example { name, args, rule, out }
}

/// The inputs that the gate runs with enough lent, escaped, and the line of each.
fn figures() -> BTreeMap<String, String> {
    let [inputs, lines] = ["stdin", "stdout"].map(|file| page(&format!("crates/figures/{file}")));
    let cases = inputs.lines().zip(lines.lines());
    cases.filter_map(|(input, line)| Some((input.strip_prefix(LENT)?.to_string(), format!("{line}\n")))).collect()
}

/// The line printed, by everyone who prints it.
fn lines(example: &Example, program: Option<&str>, gate: &BTreeMap<String, String>) -> Vec<Look> {
    let Example { name, args, rule, out } = example;
    let input = [args.as_bytes(), rule.as_bytes()].concat();
    let mut lines = vec![
        ("the plain reading prints", line(&input, |input| run(spec::run, input))),
        ("the engine prints", line(&input, |input| run(engine::run, input))),
        ("crates/figures has", gate.get(&escaped(&input)).cloned().unwrap_or_default()),
    ];
    lines.extend(program.map(|path| ("the program prints", String::from_utf8_lossy(&printed(path, &input)).into_owned())));
    let look = |(who, line): (&str, String)| (line != *out).then(|| format!("examples/{name}.out has {out:?}, {who} {line:?}"));
    lines.into_iter().map(look).collect()
}

/// What is to be read of it, blanks for tabs: its section beside it, and the rule and its answer in README.md.
fn pages(example: &Example) -> Vec<Look> {
    let name = &example.name;
    let [args, rule, out] = [&example.args, &example.rule, &example.out].map(|text| text.trim_end().replace('\t', " "));
    let rule = indented(&rule);
    let mut parts = vec![("examples/README.md", format!("\n## {name}\n\n{rule}\n`{args}` prints `{out}`\n"))];
    if FIRST.contains(&name.as_str()) {
        parts.extend([("README.md", format!("\n\n{rule}\n")), ("README.md", format!("`{out}`"))]);
    }
    let look = |(file, part): (&str, String)| (!page(file).contains(&part)).then(|| format!("{file} does not show {part:?}"));
    parts.into_iter().map(look).collect()
}
