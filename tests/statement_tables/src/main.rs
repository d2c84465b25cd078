//! The tables from rules to statements. With `--write` it writes docs/STATEMENT-TABLES.md, with `--counts` it says how much there is; else it holds the stored page to what it would write,
//! looks at rules, definitions, functions, edits and links, and ends with 'N passed, M failed'.
mod checks;
mod definitions;
mod edits;
mod functions;
mod laws;
mod links;
mod names;
mod numbers;
mod promises;
mod repository;
mod specification;
mod tables;

use std::path::Path;
use std::process::ExitCode;

const MOST_LINES: usize = 5;

/// The first lines in which two texts differ, each from a little before the difference on.
fn difference(stored: &str, written: &str) -> Vec<String> {
    let lines = stored.lines().count().max(written.lines().count());
    let (mut old, mut new) = (stored.lines(), written.lines());
    let mut shown = Vec::new();
    for i in 1..=lines {
        let (a, b) = (old.next(), new.next());
        if a != b {
            let (a, b) = (a.unwrap_or("nothing"), b.unwrap_or("nothing"));
            let same = a.chars().zip(b.chars()).take_while(|(x, y)| x == y).count();
            shown.push(format!(
                "line {i}\n  stored:  {}\n  written: {}",
                part(a, same),
                part(b, same)
            ));
        }
    }
    let more = shown.len().saturating_sub(MOST_LINES);
    shown.truncate(MOST_LINES);
    if more > 0 {
        shown.push(format!("and {more} lines more"));
    }
    shown
}

/// The part of a line around one of its places.
fn part(line: &str, place: usize) -> String {
    let from = place.saturating_sub(40);
    let front = if from > 0 { ".." } else { "" };
    format!(
        "{front}{}",
        line.chars().skip(from).take(120).collect::<String>()
    )
}

fn main() -> ExitCode {
    let root = Path::new(env!("CARGO_MANIFEST_DIR"))
        .join("../..")
        .canonicalize()
        .expect("the repository");
    let repository = repository::read(&root);
    let page = tables::page(&repository);
    let path = root.join(tables::PAGE);
    if std::env::args().any(|argument| argument == "--counts") {
        println!("{}", tables::counts(&repository));
        return ExitCode::SUCCESS;
    }
    if std::env::args().any(|argument| argument == "--write") {
        std::fs::write(&path, page).expect("the page of tables");
        return ExitCode::SUCCESS;
    }
    let stored = std::fs::read_to_string(&path).unwrap_or_default();
    for line in difference(&stored, &page) {
        println!("{}: {line}", tables::PAGE);
    }
    let mut all = checks::checks(&repository);
    all.extend(checks::of_laws(&repository));
    all.extend(links::links(&root));
    all.push((
        format!("{} is what statement_tables --write makes", tables::PAGE),
        stored == page,
    ));
    let failed: Vec<&String> = all
        .iter()
        .filter(|(_, good)| !good)
        .map(|(name, _)| name)
        .collect();
    for name in &failed {
        println!("FAILED: {name}");
    }
    println!(
        "{} passed, {} failed",
        all.len() - failed.len(),
        failed.len()
    );
    if failed.is_empty() {
        ExitCode::SUCCESS
    } else {
        ExitCode::FAILURE
    }
}

#[cfg(test)]
mod tests {
    use super::*;

    #[test]
    fn the_first_differences_are_shown() {
        assert!(difference("a\nb\n", "a\nb\n").is_empty());
        assert_eq!(
            difference("a\nb\n", "a\nc\n"),
            ["line 2\n  stored:  b\n  written: c"]
        );
        assert_eq!(
            difference("", "1\n2\n3\n4\n5\n6\n7\n").len(),
            MOST_LINES + 1
        );
        let long = "x".repeat(300);
        assert_eq!(part(&format!("{long}a{long}"), 300).len(), 122);
    }
}
