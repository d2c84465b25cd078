//! The rules of docs/SPECIFICATION.md: `**3.3** ..` lines and rows `| **7.1** | ..` of tables.
use crate::numbers::{number, Number};

pub struct Rule {
    pub number: Number,
    /// The rule is only run: `*(run)*` stands after its number.
    pub run: bool,
    /// Its first words.
    pub words: String,
}

pub struct Section {
    /// As in the page: `3 The separator`.
    pub title: String,
    pub rules: Vec<Rule>,
}

const MOST_WORDS: usize = 8;

/// The sections that have rules, in the page's order.
pub fn sections(page: &str) -> Vec<Section> {
    let mut sections: Vec<Section> = Vec::new();
    let lines: Vec<&str> = page.lines().collect();
    for (i, line) in lines.iter().enumerate() {
        if let Some(title) = line.strip_prefix("## ") {
            sections.push(Section {
                title: title.to_string(),
                rules: Vec::new(),
            });
        }
        let Some(rule) = rule(line, lines.get(i + 1).copied().unwrap_or("")) else {
            continue;
        };
        match sections.last_mut() {
            Some(section) => section.rules.push(rule),
            None => sections.push(Section {
                title: String::new(),
                rules: vec![rule],
            }),
        }
    }
    sections.retain(|section| !section.rules.is_empty());
    sections
}

fn rule(line: &str, next: &str) -> Option<Rule> {
    let row = line.starts_with("| ");
    let rest = line.strip_prefix("| ").unwrap_or(line).strip_prefix("**")?;
    let (word, text) = rest.split_once("**")?;
    let number = number(word)?;
    let text = text.trim();
    let (run, text) = match text.strip_prefix("*(run)*") {
        Some(text) => (true, text.trim()),
        None => (false, text),
    };
    let words = if row {
        of_row(text)
    } else {
        first_words(&format!("{text} {next}"))
    };
    Some(Rule { number, run, words })
}

/// A row's first cell that is no number; where that is a single word, the next one too.
fn of_row(row: &str) -> String {
    let mut words = String::new();
    for cell in row
        .split('|')
        .map(str::trim)
        .filter(|cell| cell.chars().any(char::is_alphabetic))
    {
        if !words.is_empty() {
            words.push_str(": ");
        }
        words.push_str(cell);
        if words.contains(' ') && !words.ends_with(": ") {
            break;
        }
    }
    first_words(&words)
}

/// The first sentence of a text, or as much of it as a table has room for.
fn first_words(text: &str) -> String {
    let sentence = match text.find(". ") {
        Some(end) => &text[..end],
        None => text.trim().trim_end_matches('.'),
    };
    let all: Vec<&str> = sentence.split_whitespace().collect();
    let cut = all.len() > MOST_WORDS;
    let mut words = all[..all.len().min(MOST_WORDS)].join(" ");
    if words.matches('`').count() % 2 == 1 {
        words = words.replace('`', "");
    }
    let words = words.trim_end_matches([',', ';', ':']);
    if cut {
        format!("{words} ..")
    } else {
        words.to_string()
    }
}

#[cfg(test)]
mod tests {
    use super::*;

    #[test]
    fn lines_and_rows_are_rules() {
        let page = "# Page\n## 3 The separator\n\n**3.1** A timing is short. It\ngoes on.\n\n**3.14** *(run)* An example of one two three\nfour five six.\n\n\
                    ## 4 Nothing\ntext with **bold** words\n## 7 Findings\n| rule | name |\n|---|---|\n| **7.1** | LGT | 1 | long track | when |\n\
                    | **8.1** | 1 | T is more than 83, or H is more than 1 | 0 |\n";
        let found = sections(page);
        assert_eq!(found.len(), 2);
        assert_eq!(found[0].title, "3 The separator");
        assert_eq!(found[0].rules[0].words, "A timing is short");
        assert!(found[0].rules[1].run && !found[0].rules[0].run);
        assert_eq!(
            found[0].rules[1].words,
            "An example of one two three four five .."
        );
        assert_eq!(found[1].rules[0].words, "LGT: long track");
        assert_eq!(found[1].rules[1].words, "T is more than 83, or H is ..");
    }
}
