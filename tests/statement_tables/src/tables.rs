//! The page of tables: for each rule its definitions, the functions that promise them, and the edits.
use crate::edits::Edit;
use crate::functions::{is_of_program, Function};
use crate::laws::{exception, laws, Law};
use crate::links::slug;
use crate::names::Key;
use crate::numbers::Number;
use crate::promises::Promises;
use crate::repository::Repository;
use crate::specification::{Rule, Section};

pub const PAGE: &str = "docs/STATEMENT-TABLES.md";

const HEAD: &str = "# Tables: from a rule to its statement

Written by `cd tests && cargo run --offline --release -q -p statement_tables -- --write`; do not change it by hand. `.ci/statements` holds it to
the sources. [STATEMENTS.md](STATEMENTS.md#how-to-read-the-tables) says how to read it.
";
const MOST_FUNCTIONS: usize = 6;
const MOST_TESTS: usize = 3;

/// What was found of one rule.
pub struct Found<'a> {
    pub rule: &'a Rule,
    pub definitions: Vec<&'a Key>,
    pub functions: Vec<&'a Function>,
    pub edits: Vec<&'a Edit>,
    pub tests: Vec<&'a str>,
    pub laws: Vec<&'static Law>,
    /// Why no function promises it.
    pub exception: Option<&'static str>,
}

pub fn found<'a>(repository: &'a Repository, promises: &Promises, rule: &'a Rule) -> Found<'a> {
    let states = |number: &Number| *number == rule.number;
    let definitions: Vec<&Key> = repository
        .definitions
        .iter()
        .filter(|d| d.numbers.iter().any(states))
        .map(|d| &d.key)
        .collect();
    let mut functions: Vec<&Function> = promises
        .of_all(&definitions)
        .into_iter()
        .map(|i| &repository.functions[i])
        .collect();
    // The functions for C promise the same as those that they call, which come first.
    functions.sort_by_key(|function| is_for_c(function));
    Found {
        rule,
        definitions,
        functions,
        edits: repository
            .edits
            .iter()
            .filter(|edit| edit.numbers.iter().flatten().any(states))
            .collect(),
        tests: repository
            .tried
            .iter()
            .filter(|(number, _)| states(number))
            .map(|(_, file)| file.as_str())
            .collect(),
        laws: laws(rule.number),
        exception: exception(rule.number),
    }
}

/// The functions for C have a prefix of their own in place of their crate's name.
fn is_for_c(function: &Function) -> bool {
    function.name.starts_with("thikbromu_")
}

pub fn page(repository: &Repository) -> String {
    let promises = Promises::new(&repository.definitions, &repository.functions);
    let mut page = HEAD.to_string();
    for section in &repository.sections {
        page.push_str(&format!("\n## {}\n\n| rule | begins | definitions | promised by | must-fail edits |\n|---|---|---|---|---|\n", section.title));
        for rule in &section.rules {
            page.push_str(&row(section, &found(repository, &promises, rule)));
        }
    }
    page
}

/// How many rules have what.
pub fn counts(repository: &Repository) -> String {
    let promises = Promises::new(&repository.definitions, &repository.functions);
    let all: Vec<Found> = repository
        .sections
        .iter()
        .flat_map(|section| &section.rules)
        .map(|rule| found(repository, &promises, rule))
        .collect();
    let count = |test: &dyn Fn(&Found) -> bool| all.iter().filter(|found| test(found)).count();
    format!(
        "{} rules: {} with a definition, {} with a promise, {} with a law, {} with an edit, {} only run\n{} definitions, {} of them with a number; {} functions; {} edits",
        all.len(),
        count(&|found| !found.definitions.is_empty()),
        count(&|found| !found.functions.is_empty()),
        count(&|found| !found.laws.is_empty()),
        count(&|found| !found.edits.is_empty()),
        count(&|found| found.rule.run),
        repository.definitions.len(),
        repository.definitions.iter().filter(|definition| !definition.numbers.is_empty()).count(),
        repository.functions.len(),
        repository.edits.len()
    )
}

fn row(section: &Section, found: &Found) -> String {
    format!(
        "| [{}](SPECIFICATION.md#{}) | {} | {} | {} | {} |\n",
        found.rule.number,
        slug(&section.title),
        found.rule.words,
        definitions(&found.definitions),
        promised(found),
        edits(&found.edits)
    )
}

fn definitions(keys: &[&Key]) -> String {
    let mut files: Vec<(String, Vec<String>)> = Vec::new();
    for key in keys {
        let file = format!("{}/specs/{}", key.krate, key.file);
        let name = format!("`{}`", key.name);
        match files.last_mut() {
            Some((last, names)) if *last == file => names.push(name),
            _ => files.push((file, vec![name])),
        }
    }
    files
        .iter()
        .map(|(file, names)| format!("[{file}](../crates/{file}.antt): {}", names.join(", ")))
        .collect::<Vec<_>>()
        .join("; ")
}

fn promised(found: &Found) -> String {
    let functions: Vec<String> = found
        .functions
        .iter()
        .map(|function| shown(function))
        .collect();
    let mut parts = vec![short(&functions, MOST_FUNCTIONS)];
    if found.rule.run {
        let tests: Vec<String> = found
            .tests
            .iter()
            .map(|test| format!("[{test}](../{test})"))
            .collect();
        parts = vec![format!("only run: {}", short(&tests, MOST_TESTS))
            .trim_end_matches(": ")
            .to_string()];
    }
    parts.extend(found.exception.map(str::to_string));
    for (_, file, names) in &found.laws {
        let names: Vec<String> = names.iter().map(|name| format!("`{name}`")).collect();
        parts.push(format!(
            "law: [{file}](../crates/{file}.antt): {}",
            names.join(", ")
        ));
    }
    parts.retain(|part| !part.is_empty());
    parts.join("; ")
}

fn shown(function: &Function) -> String {
    let name = if is_for_c(function) {
        function.name.clone()
    } else {
        format!("{}::{}", function.krate, function.name)
    };
    let program = if is_of_program(&function.krate, &function.name) {
        ", a program"
    } else {
        ""
    };
    format!(
        "[`{name}`](../crates/{}/{}){program}",
        function.krate, function.file
    )
}

fn short(all: &[String], most: usize) -> String {
    let mut text = all[..all.len().min(most)].join(", ");
    if all.len() > most {
        text.push_str(&format!(" and {} more", all.len() - most));
    }
    text
}

fn edits(edits: &[&Edit]) -> String {
    let mut crates: Vec<(&str, Vec<String>)> = Vec::new();
    for edit in edits {
        let name = format!("`{}`", edit.name);
        match crates.last_mut() {
            Some((last, names)) if *last == edit.krate => names.push(name),
            _ => crates.push((&edit.krate, vec![name])),
        }
    }
    crates
        .iter()
        .map(|(krate, names)| format!("{krate}: {}", names.join(", ")))
        .collect::<Vec<_>>()
        .join("; ")
}

#[cfg(test)]
pub mod tests {
    use super::*;
    use crate::definitions;
    use crate::edits::edit;
    use crate::functions;
    use crate::specification::sections;

    /// A small repository with one file of each kind.
    pub fn small(specification: &str, specs: &str, source: &str, edit_text: &str) -> Repository {
        Repository {
            root: ".".into(),
            sections: sections(specification),
            definitions: definitions::definitions("separator", "Rule", specs),
            functions: functions::functions("separator", "src/lib.rt", source),
            edits: vec![Edit {
                applies: true,
                ..edit("separator", "half_window_1001", edit_text, |_| None)
            }],
            cited: definitions::cited(specs)
                .into_iter()
                .map(|number| (number, "separator/specs/Rule".to_string()))
                .collect(),
            tried: vec![(
                Number {
                    section: 3,
                    item: 14,
                },
                "tests/a.rs".to_string(),
            )],
        }
    }

    #[test]
    fn a_row_has_all_of_a_rule() {
        let repository = small(
            "## 3 The separator\n**3.3** A step.\n**3.14** *(run)* An example.\n",
            "-- 3.3: the step\nabbrev pub reading : ℕ\nreading = 1\n\n-- what a step answers\nabbrev pub step_answer : ℕ\nstep_answer = reading\n",
            "ghost use Rattle.separator.specs.Rule.{step_answer};\npub fn step() -> u8\n    ensures { step_answer }\n{\n}\n",
            "rule: 3.3\nfile: src/lib.rt\n",
        );
        let page = page(&repository);
        let rows: Vec<&str> = page
            .lines()
            .filter(|line| line.starts_with("| ["))
            .collect();
        assert_eq!(
            rows[0],
            "| [3.3](SPECIFICATION.md#3-the-separator) | A step | [separator/specs/Rule](../crates/separator/specs/Rule.antt): `reading` | \
             [`separator::step`](../crates/separator/src/lib.rt) | separator: `half_window_1001` |"
        );
        assert_eq!(rows[1], "| [3.14](SPECIFICATION.md#3-the-separator) | An example |  | only run: [tests/a.rs](../tests/a.rs) |  |");
    }

    #[test]
    fn long_lists_are_cut() {
        let all: Vec<String> = ["a", "b", "c"].iter().map(|s| s.to_string()).collect();
        assert_eq!(short(&all, 2), "a, b and 1 more");
        assert_eq!(short(&all, 3), "a, b, c");
    }
}
