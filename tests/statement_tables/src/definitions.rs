//! The definitions of crates/KRATE/specs/FILE.antt, with the numbers of the comment above them.
use crate::names::{imports, named, Key};
use crate::numbers::{numbers_at_start, numbers_in, Number};

pub struct Definition {
    pub key: Key,
    /// The rules that it states.
    pub numbers: Vec<Number>,
    /// The definitions that its text names.
    pub names: Vec<Key>,
}

/// The name that a line begins to define.
fn head(line: &str) -> Option<&str> {
    let rest = line
        .strip_prefix("unfoldable ")
        .or_else(|| line.strip_prefix("abbrev "))
        .unwrap_or(line);
    let public = rest.strip_prefix("pub ").unwrap_or(rest);
    let kind = public
        .strip_prefix("record ")
        .or_else(|| public.strip_prefix("data "));
    let name = kind.unwrap_or(public).split_whitespace().next()?;
    let begins = kind.is_some()
        || (rest.len() < line.len() || public.len() < rest.len()) && !public.starts_with("mod ");
    begins.then_some(name)
}

/// All definitions of a file, in its order.
pub fn definitions(krate: &str, file: &str, text: &str) -> Vec<Definition> {
    let mut imports = imports(text);
    let key = |name: &str| Key {
        krate: krate.to_string(),
        file: file.to_string(),
        name: name.to_string(),
    };
    let mut found: Vec<(Definition, String)> = Vec::new();
    let mut comment: Option<String> = None;
    let mut numbers: Vec<Number> = Vec::new();
    for line in text.lines() {
        if let Some(words) = line.strip_prefix("--") {
            let words = words.trim();
            comment = Some(comment.map_or(words.to_string(), |before| format!("{before} {words}")));
            continue;
        }
        if let Some(block) = comment.take() {
            numbers = numbers_at_start(&block);
        }
        if line.starts_with("use ") {
            // What stands above these is the head of the file, and says nothing of one definition.
            numbers.clear();
        } else if let Some(name) = head(line) {
            imports.insert(name.to_string(), key(name));
            found.push((
                Definition {
                    key: key(name),
                    numbers: numbers.clone(),
                    names: Vec::new(),
                },
                String::new(),
            ));
        }
        let Some((definition, text)) = found.last_mut() else {
            continue;
        };
        match line.trim().strip_prefix("--") {
            Some(words) => definition.numbers.extend(numbers_at_start(words.trim())),
            None => text.push_str(&format!("{line}\n")),
        }
    }
    for (definition, text) in &mut found {
        definition.names = named(text, &imports);
        let own = definition.key.clone();
        definition.names.retain(|name| *name != own);
    }
    found
        .into_iter()
        .map(|(definition, _)| definition)
        .collect()
}

/// Every number that comments of a file have.
pub fn cited(text: &str) -> Vec<Number> {
    text.lines()
        .filter_map(|line| line.trim().strip_prefix("--"))
        .flat_map(numbers_in)
        .collect()
}

#[cfg(test)]
mod tests {
    use super::*;

    const FILE: &str = "-- 3.1 to 3.9: the whole file.\nuse Rattle.cells.specs.CellsAndBytes.{packed}\n\n\
        -- 3.3: the step.\n-- It goes on.\nunfoldable pub reading : ℕ → ℕ\nreading t = packed t\n\nabbrev pub twice : ℕ → ℕ\ntwice t = reading (reading t)\n\n\
        -- a helper: no rule\nabbrev pub helper : ℕ\nhelper = 1\n\n-- 3.4, 3.5: a record\npub record Window (a : ℕ) : Type 0 where\n  pub cells : ℕ\n  -- 3.6: its offset\n  pub offset : ℕ\n\n\
        -- 3.7: a list\npub data Track : Type 0 where\n  last : Track\n";

    #[test]
    fn a_comment_holds_up_to_the_next() {
        let found = definitions("separator", "Rule", FILE);
        let shown: Vec<String> = found
            .iter()
            .map(|d| {
                format!(
                    "{} {}",
                    d.key.name,
                    d.numbers
                        .iter()
                        .map(Number::to_string)
                        .collect::<Vec<_>>()
                        .join(" ")
                )
            })
            .collect();
        assert_eq!(
            shown,
            [
                "reading 3.3",
                "twice 3.3",
                "helper ",
                "Window 3.4 3.5 3.6",
                "Track 3.7"
            ]
        );
        let names: Vec<&str> = found[1].names.iter().map(|key| key.name.as_str()).collect();
        assert_eq!(names, ["reading"]);
        assert_eq!(found[0].names[0].krate, "cells");
    }

    #[test]
    fn all_numbers_of_comments_are_seen() {
        let cited: Vec<String> = cited(FILE).iter().map(Number::to_string).collect();
        assert_eq!(cited, ["3.1", "3.9", "3.3", "3.4", "3.5", "3.6", "3.7"]);
    }
}
