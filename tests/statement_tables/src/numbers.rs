//! Numbers of rules, as 4.3, in texts.
use std::fmt;

#[derive(Clone, Copy, Debug, PartialEq, Eq, PartialOrd, Ord, Hash)]
pub struct Number {
    pub section: u32,
    pub item: u32,
}

impl fmt::Display for Number {
    fn fmt(&self, out: &mut fmt::Formatter) -> fmt::Result {
        write!(out, "{}.{}", self.section, self.item)
    }
}

/// A word that is a number of a rule and nothing else.
pub fn number(word: &str) -> Option<Number> {
    let (section, item) = word.split_once('.')?;
    let digits = |part: &str| {
        !part.is_empty() && part.len() <= 3 && part.bytes().all(|b| b.is_ascii_digit())
    };
    if !digits(section) || !digits(item) {
        return None;
    }
    Some(Number {
        section: section.parse().ok()?,
        item: item.parse().ok()?,
    })
}

/// What a list of numbers names: `3.7, 3.8` or `3.7 and 3.8` are two, `4.1 to 4.3` is all from one to the other. None where it has anything else.
pub fn numbers_of_list(list: &str) -> Option<Vec<Number>> {
    let mut found: Vec<Number> = Vec::new();
    let mut range = false;
    for word in list.split([' ', ',']).filter(|word| !word.is_empty()) {
        match word {
            "and" => {}
            "to" if !found.is_empty() => range = true,
            _ => {
                let next = number(word)?;
                if range {
                    let first = *found.last()?;
                    if first.section != next.section || next.item < first.item {
                        return None;
                    }
                    found.extend((first.item + 1..next.item).map(|item| Number {
                        section: first.section,
                        item,
                    }));
                    range = false;
                }
                found.push(next);
            }
        }
    }
    if found.is_empty() || range {
        return None;
    }
    Some(found)
}

/// The numbers with which a comment begins, as `3.7, 3.8: a step ..`. None where it does not begin so.
pub fn numbers_at_start(comment: &str) -> Vec<Number> {
    comment
        .split_once(':')
        .and_then(|(list, _)| numbers_of_list(list.trim()))
        .unwrap_or_default()
}

/// Every number of a rule that a text has. A number of another kind, as 0.1.0, is none.
pub fn numbers_in(text: &str) -> Vec<Number> {
    text.split(|c: char| !(c.is_alphanumeric() || c == '.'))
        .filter_map(|word| number(word.trim_end_matches('.')))
        .collect()
}

#[cfg(test)]
mod tests {
    use super::*;

    fn n(section: u32, item: u32) -> Number {
        Number { section, item }
    }

    #[test]
    fn a_comment_begins_with_its_numbers() {
        assert_eq!(numbers_at_start("3.7, 3.8: a step"), [n(3, 7), n(3, 8)]);
        assert_eq!(
            numbers_at_start("4.1 to 4.3 and 4.6: the premises"),
            [n(4, 1), n(4, 2), n(4, 3), n(4, 6)]
        );
        assert_eq!(numbers_at_start("7.18: see 7.37"), [n(7, 18)]);
        assert_eq!(numbers_at_start("the cells: see 7.37"), []);
        assert_eq!(numbers_at_start("12 bytes: a row"), []);
    }

    #[test]
    fn numbers_stand_in_a_text() {
        assert_eq!(numbers_in("of rules 3.1 and 10.15."), [n(3, 1), n(10, 15)]);
        assert_eq!(numbers_in("version 0.1.0, 12,500 bytes, x1.5"), []);
    }
}
