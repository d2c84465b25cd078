//! What the repository has: rules, definitions, functions, edits, and the tests that name a rule.
use crate::definitions::{cited, definitions, Definition};
use crate::edits::{edit, Edit};
use crate::functions::{functions, Function};
use crate::numbers::{numbers_in, Number};
use crate::specification::{sections, Section};
use std::fs;
use std::path::{Path, PathBuf};

pub struct Repository {
    pub root: PathBuf,
    pub sections: Vec<Section>,
    pub definitions: Vec<Definition>,
    pub functions: Vec<Function>,
    pub edits: Vec<Edit>,
    /// The numbers that comments of specs/ have, with the file.
    pub cited: Vec<(Number, String)>,
    /// The rules that tests name, with the file.
    pub tried: Vec<(Number, String)>,
}

pub fn text(path: &Path) -> String {
    fs::read_to_string(path).unwrap_or_else(|error| panic!("{}: {error}", path.display()))
}

/// The files of a folder, by name. None where there is no such folder.
pub fn files(folder: &Path) -> Vec<PathBuf> {
    let Ok(entries) = fs::read_dir(folder) else {
        return Vec::new();
    };
    let mut found: Vec<PathBuf> = entries
        .filter_map(|entry| entry.ok().map(|entry| entry.path()))
        .collect();
    found.sort();
    found
}

/// The files of a folder and of the folders in it, but for what is built or fetched.
pub fn all_files(folder: &Path) -> Vec<PathBuf> {
    files(folder)
        .into_iter()
        .filter(|path| {
            !["target", "out", ".git"]
                .iter()
                .any(|name| path.ends_with(name))
        })
        .flat_map(|path| {
            if path.is_dir() {
                all_files(&path)
            } else {
                vec![path]
            }
        })
        .collect()
}

fn stem(path: &Path) -> String {
    path.file_stem().unwrap().to_string_lossy().to_string()
}

fn with_ending(folder: PathBuf, ending: &str) -> Vec<PathBuf> {
    files(&folder)
        .into_iter()
        .filter(|path| path.extension().is_some_and(|e| e == ending))
        .collect()
}

pub fn read(root: &Path) -> Repository {
    let mut repository = Repository {
        root: root.to_path_buf(),
        sections: sections(&text(&root.join("docs/SPECIFICATION.md"))),
        definitions: Vec::new(),
        functions: Vec::new(),
        edits: Vec::new(),
        cited: Vec::new(),
        tried: tried(root),
    };
    for line in text(&root.join("crates.txt"))
        .lines()
        .filter(|line| !line.starts_with('#'))
    {
        // A word such as `staticlib` may stand after the name.
        let krate = line.split([':', ' ']).next().unwrap();
        let folder = root.join("crates").join(krate);
        for path in with_ending(folder.join("specs"), "antt") {
            let text = text(&path);
            repository
                .definitions
                .extend(definitions(krate, &stem(&path), &text));
            repository.cited.extend(
                cited(&text)
                    .into_iter()
                    .map(|number| (number, format!("{krate}/specs/{}", stem(&path)))),
            );
        }
        let first = fs::read_to_string(folder.join("src/lib.rt")).unwrap_or_default();
        for path in with_ending(folder.join("src"), "rt") {
            let module = stem(&path);
            let mut found = functions(krate, &format!("src/{module}.rt"), &text(&path));
            if !["lib", "main"].contains(&module.as_str()) {
                let names = handed_on(&first, &module);
                for function in &mut found {
                    function.outside = names.contains(&function.name.as_str());
                }
            }
            repository.functions.extend(found);
        }
        for path in all_files(&folder) {
            if path.extension().is_some_and(|ending| ending == "edit") {
                let read = |file: &str| fs::read_to_string(folder.join(file)).ok();
                let place = path.with_extension("");
                let name = place
                    .strip_prefix(folder.join("must-fail"))
                    .unwrap_or(&place);
                let name = name.display().to_string();
                repository.edits.push(edit(krate, &name, &text(&path), read));
            }
        }
    }
    repository
}

/// What a crate's first file hands on of one of its modules.
fn handed_on<'a>(first: &'a str, module: &str) -> Vec<&'a str> {
    first
        .split(&format!("pub use {module}::"))
        .skip(1)
        .filter_map(|rest| rest.split(';').next())
        .flat_map(|names| names.split(['{', '}', ',']))
        .map(str::trim)
        .filter(|name| !name.is_empty())
        .collect()
}

/// The rules that tests name, with the file. This program's own fixtures name rules too, and do not count.
fn tried(root: &Path) -> Vec<(Number, String)> {
    let mut found = Vec::new();
    for folder in ["tests", ".ci", "bindings", "samples"] {
        for path in all_files(&root.join(folder)) {
            let name = path
                .strip_prefix(root)
                .unwrap()
                .to_string_lossy()
                .to_string();
            let Ok(text) = fs::read_to_string(&path) else {
                continue;
            };
            if name.starts_with("tests/statement_tables") {
                continue;
            }
            let mut numbers: Vec<Number> = text.lines().flat_map(rules_named).collect();
            numbers.sort();
            numbers.dedup();
            found.extend(numbers.into_iter().map(|number| (number, name.clone())));
        }
    }
    found
}

/// The rules that a line names, in a comment or in a text that is printed: the numbers after the word `rule` or `rules`.
fn rules_named(line: &str) -> Vec<Number> {
    line.find("rule")
        .map_or(Vec::new(), |at| numbers_in(&line[at..]))
}

#[cfg(test)]
mod tests {
    use super::*;

    #[test]
    fn what_is_handed_on() {
        let first = "mod lent;\n\npub use lent::step;\npub use lists::{\n    more, most,\n    one,\n};\npub use other::least;\nuse lent::inner;\n";
        assert_eq!(handed_on(first, "lent"), ["step"]);
        assert_eq!(handed_on(first, "lists"), ["more", "most", "one"]);
        assert!(handed_on(first, "blocks").is_empty());
    }

    #[test]
    fn a_line_names_rules() {
        let named = |line| {
            rules_named(line)
                .iter()
                .map(Number::to_string)
                .collect::<Vec<_>>()
                .join(" ")
        };
        assert_eq!(named("    let x = 1.5; // rules 6.19 and 7.3"), "6.19 7.3");
        assert_eq!(named("Group::new(\"the cells of rule 3.14\");"), "3.14");
        assert_eq!(named("let x = 1.5;"), "");
    }
}
