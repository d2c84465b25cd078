//! The edits of crates/KRATE/must-fail, and the rules whose wrong version they try.
use crate::numbers::{numbers_of_list, Number};
use std::collections::BTreeMap;

pub struct Edit {
    pub krate: String,
    /// With its folder where it does not stand right in must-fail.
    pub name: String,
    /// None where the file has no line `rule: 3.3`, or one that is no list of numbers.
    pub numbers: Option<Vec<Number>>,
    /// Whether what it changes stands in its crate.
    pub applies: bool,
}

/// An edit of a crate, by its text and by the files of the crate.
pub fn edit(
    krate: &str,
    name: &str,
    text: &str,
    read: impl Fn(&str) -> Option<String>,
) -> Edit {
    let line = text.lines().find_map(|line| line.strip_prefix("rule:"));
    Edit {
        krate: krate.to_string(),
        name: name.to_string(),
        numbers: line.and_then(|list| numbers_of_list(list.trim())),
        applies: applies(text, read),
    }
}

/// Whether it changes something, and each text that it changes stands in its file once.
fn applies(text: &str, read: impl Fn(&str) -> Option<String>) -> bool {
    let mut files: BTreeMap<&str, String> = BTreeMap::new();
    let (mut file, mut old, mut pairs) = ("", None, 0);
    for line in text.lines() {
        if let Some(name) = line.strip_prefix("file: ") {
            file = name;
        } else if let Some(words) = line.strip_prefix("old: ") {
            if old.replace(words).is_some() {
                return false;
            }
        } else if let Some(words) = line.strip_prefix("new:") {
            let words = words.strip_prefix(' ').unwrap_or(words);
            let Some(before) = files.remove(file).or_else(|| read(file)) else {
                return false;
            };
            let Some(found) = old.take().filter(|found| *found != words) else {
                return false;
            };
            if before.matches(found).count() != 1 {
                return false;
            }
            files.insert(file, before.replace(found, words));
            pairs += 1;
        }
    }
    pairs > 0 && old.is_none()
}

#[cfg(test)]
mod tests {
    use super::*;

    #[test]
    fn an_edit_names_its_rules() {
        let of = |text| {
            edit("separator", "a", text, |_| None).numbers.map(|numbers| {
                numbers
                    .iter()
                    .map(Number::to_string)
                    .collect::<Vec<_>>()
                    .join(" ")
            })
        };
        assert_eq!(
            of("rule: 3.3, 8.8\nfile: a\nold: b\nnew: c\n").unwrap(),
            "3.3 8.8"
        );
        assert_eq!(of("file: a\nold: b\nnew: c\n"), None);
        assert_eq!(of("rule: the step\nfile: a\n"), None);
    }

    #[test]
    fn an_edit_changes_what_stands_once() {
        let applies = |text| {
            let read = |file: &str| (file == "src/lib.rt").then(|| "a + b - c + b\n".to_string());
            edit("separator", "a", text, read).applies
        };
        assert!(applies("file: src/lib.rt\nold: a +\nnew: a -\n"));
        assert!(applies("file: src/lib.rt\nold: a +\nnew:\nold: - c\nnew: + c\n"));
        assert!(!applies("file: src/lib.rt\nold: + b\nnew: - b\n"));
        assert!(!applies("file: src/lib.rt\nold: a *\nnew: a -\n"));
        assert!(!applies("file: src/other.rt\nold: a +\nnew: a -\n"));
        assert!(!applies("file: src/lib.rt\nnew: a -\n"));
        assert!(!applies("rule: 3.3\n"));
        assert!(!applies("file: src/lib.rt\nold: a +\nnew: a +\n"));
        assert!(!applies("file: src/lib.rt\nold: a +\nold: - c\nnew: + c\n"));
        assert!(!applies("file: src/lib.rt\nold: a +\nnew: a -\nold: - c\n"));
    }
}
