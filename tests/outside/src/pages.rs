//! What a newcomer reads: the links of the pages lead somewhere, the C lines of README.md are those that are compiled, and the
//! header names the documents' numbers.

use crate::boundary::NUMBER_NAMES;
use std::fs;
use std::path::Path;

/// What does not stand as the pages say; and how many things were tried.
pub fn hold() -> (usize, Vec<String>) {
    let mut failures = Vec::new();
    let mut tried = 2;
    failures.extend(header_numbers());
    let example = page("tests/outside/example.c");
    if !page("README.md").contains(&format!("```c\n{example}```\n")) {
        failures.push("README.md does not show the lines of tests/outside/example.c".to_string());
    }
    for name in pages() {
        let text = page(&name);
        for link in links(&text) {
            tried += 1;
            if !root().join(&name).with_file_name(link).exists() {
                failures.push(format!("{name} links to {link}, which is not there"));
            }
        }
    }
    (tried, failures)
}

/// The header names each number of the documents, and no other.
fn header_numbers() -> Option<String> {
    let header = page("include/nespralha.h");
    let (_, rest) = header.split_once("enum nespralha_number {").expect("the header's numbers");
    let (list, _) = rest.split_once('}').expect("the end of the header's numbers");
    let entry = |line: &str| line.split("/*").next().map(|entry| entry.trim().trim_end_matches(',').to_string());
    let found: Vec<String> = list.lines().filter_map(entry).filter(|entry| !entry.is_empty()).collect();
    let named = NUMBER_NAMES.iter().enumerate();
    let expected: Vec<String> = named.map(|(number, name)| format!("NESPRALHA_{name} = {number}")).collect();
    let differ = |(found, expected): (&String, &String)| format!("include/nespralha.h has {found}, not {expected}");
    let first = found.iter().zip(&expected).find(|(found, expected)| found != expected).map(differ);
    let lengths = format!("include/nespralha.h has {} numbers, not {}", found.len(), expected.len());
    first.or((found.len() != expected.len()).then_some(lengths))
}

/// A file of the repository.
pub fn page(name: &str) -> String {
    fs::read_to_string(root().join(name)).unwrap_or_else(|error| panic!("{name}: {error}"))
}

/// Lines as Markdown shows them word for word.
pub fn indented(text: &str) -> String {
    text.lines().map(|line| format!("    {line}\n")).collect()
}

pub fn root() -> &'static Path {
    Path::new(concat!(env!("CARGO_MANIFEST_DIR"), "/../.."))
}

fn pages() -> Vec<String> {
    let docs = fs::read_dir(root().join("docs")).expect("docs/");
    let names = docs.map(|entry| format!("docs/{}", entry.expect("a file").file_name().to_string_lossy()));
    let others = ["README.md", "examples/README.md", "tests/outside/README.md"].map(String::from);
    names.filter(|name| name.ends_with(".md")).chain(others).collect()
}

/// The files and folders that a page links to: what follows `](`, or `]: ` where a line names a link.
fn links(text: &str) -> Vec<&str> {
    let inline = text.split("](").skip(1).filter_map(|rest| rest.split_once(')'));
    let named = text.lines().filter(|line| line.starts_with('[')).filter_map(|line| line.split_once("]: "));
    let targets = inline.map(|(target, _)| target).chain(named.map(|(_, target)| target));
    let files = targets.filter(|target| !target.contains("://")).filter_map(|target| target.split('#').next());
    files.filter(|file| !file.is_empty()).collect()
}
