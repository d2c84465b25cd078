//! The subcommand `explain`.

use crate::ending::Ended;
use crate::kinds::{About, KINDS, LEVELS};
use crate::refusals::REFUSALS;

/// The longest line.
const WIDTH: usize = 100;

/// What a term means: the name or the number of a kind, or `refused` and a number. No term stands for all of them.
pub fn explained(term: &str) -> Result<String, Ended> {
    let term = term.trim();
    if term.is_empty() {
        return Ok(all());
    }
    let lower = term.to_lowercase();
    let found = match lower.strip_prefix("refused").map(str::trim) {
        Some(number) => REFUSALS.iter().find(|row| row.0.to_string() == number).map(refusal),
        None => {
            let is_it =
                |about: &&About| about.kind.name().to_lowercase() == lower || about.kind.number().to_string() == lower;
            KINDS.iter().find(is_it).map(kind)
        }
    };
    found.ok_or_else(|| {
        Ended::WrongUse(format!(
            "{term} is no finding and no refusal: thikbromu explain lists them, as NOS, 3 or 'refused 7'"
        ))
    })
}

fn kind(about: &About) -> String {
    let level = about.kind.level();
    let means = LEVELS.iter().find(|row| row.0 == level).map_or("", |row| row.1);
    let head = format!("{} {} {}, level {level}: {means}", about.kind.number(), about.kind, about.name);
    let detail = format!("Detail: {}.", about.detail);
    paragraph(&head, "", "  ")
        + &paragraph(about.when, "  ", "  ")
        + &paragraph(&detail, "  ", "  ")
        + &paragraph(about.copies, "  ", "  ")
}

fn refusal((number, means, advice): &(u32, &str, &str)) -> String {
    paragraph(&format!("refused {number}: {means}"), "", "  ") + &paragraph(advice, "  ", "  ")
}

fn all() -> String {
    let mut text = String::from("Levels\n\n");
    for (level, means) in LEVELS {
        text += &format!("{level} {means}\n");
    }
    text += "\nFindings\n";
    for about in &KINDS {
        text += "\n";
        text += &kind(about);
    }
    text += "\nRefusals\n";
    for row in &REFUSALS {
        text += "\n";
        text += &refusal(row);
    }
    text
}

/// Words in lines that are not too long.
fn paragraph(words: &str, first: &str, others: &str) -> String {
    let mut text = String::new();
    let mut line = first.to_string();
    for word in words.split_whitespace() {
        if !line.trim().is_empty() && line.len() + 1 + word.len() > WIDTH {
            text += &format!("{line}\n");
            line = others.to_string();
        }
        if !line.trim().is_empty() {
            line.push(' ');
        }
        line += word;
    }
    text + &line + "\n"
}

#[cfg(test)]
mod tests {
    use super::*;

    #[test]
    fn terms_in_each_form() {
        let by_name = explained("NOS").expect("a kind");
        assert!(by_name.starts_with("3 NOS number of sectors, level 3: a hint"));
        for term in ["nos", "3", " NOS "] {
            assert_eq!(explained(term).expect("a kind"), by_name);
        }
        for term in ["refused 7", "refused7", "REFUSED  7"] {
            assert!(explained(term).expect("a refusal").starts_with("refused 7: more than 65,536 timings\n"));
        }
        for term in ["0", "23", "XYZ", "refused", "refused 0", "refused 30", "-1"] {
            assert!(explained(term).is_err(), "{term}");
        }
    }

    #[test]
    fn all_of_them_in_short_lines() {
        let text = explained("").expect("all");
        assert!(text.lines().all(|line| line.len() <= WIDTH));
        assert!(text.contains("22 FZD") && text.contains("refused 29"));
    }
}
