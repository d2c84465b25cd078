//! Which definitions a text names. A name means what the file's `use` lines say, or a definition of the same file.
use std::collections::BTreeMap;

/// A definition's own name, and where it stands: crates/KRATE/specs/FILE.antt.
#[derive(Clone, Debug, PartialEq, Eq, PartialOrd, Ord)]
pub struct Key {
    pub krate: String,
    pub file: String,
    pub name: String,
}

pub type Imports = BTreeMap<String, Key>;

/// The kit's library, whose definitions are none of the repository's.
pub const STD: &str = "std";

/// What `use` lines of a file bring of the repository's definitions, by the name that it has there. Constructors stand for the type that they make.
pub fn imports(text: &str) -> Imports {
    let mut imports = Imports::new();
    for line in text.lines() {
        let line = line.trim().trim_end_matches(';');
        let Some(rest) = line
            .strip_prefix("ghost ")
            .unwrap_or(line)
            .strip_prefix("use Rattle.")
        else {
            continue;
        };
        let Some((path, names)) = rest.split_once(".{") else {
            continue;
        };
        let parts: Vec<&str> = path.split('.').collect();
        let krate = parts[0];
        if krate == STD || parts.len() < 3 || parts[1] != "specs" || parts[2] == "declared" {
            continue;
        }
        for name in names.trim_end_matches('}').split(',').map(str::trim) {
            let (own, here) = name.split_once(" as ").unwrap_or((name, name));
            let own = if parts.len() > 3 { parts[3] } else { own };
            imports.insert(
                here.to_string(),
                Key {
                    krate: krate.to_string(),
                    file: parts[2].to_string(),
                    name: own.to_string(),
                },
            );
        }
    }
    imports
}

/// The definitions that a text names, each once. What stands before `=` is a field of a record, or a name that is defined there.
pub fn named(text: &str, imports: &Imports) -> Vec<Key> {
    let words: Vec<&str> = text
        .split(|c: char| c.is_whitespace() || "(){}[],;".contains(c))
        .filter(|word| !word.is_empty())
        .collect();
    let mut found: Vec<Key> = words
        .iter()
        .enumerate()
        .filter(|(i, _)| words.get(i + 1) != Some(&"="))
        .filter_map(|(_, word)| imports.get(*word).cloned())
        .collect();
    found.sort();
    found.dedup();
    found
}

#[cfg(test)]
mod tests {
    use super::*;

    #[test]
    fn uses_bring_names() {
        let found = imports(
            "use Rattle.cells.specs.CellsAndBytes.{packed, word as cell_word}\n\
             ghost use Rattle.separator.specs.Rule.{halved};\n\
             use Rattle.refusals.specs.RefusedCalls.Answer.{gives}\n\
             use Rattle.separator.specs.declared.Taken.{Taken}\n\
             use Rattle.std.specs.Prelude.{length, ◌≡◌}\n",
        );
        let place = |name: &str| {
            found
                .get(name)
                .map(|key| format!("{}/{}/{}", key.krate, key.file, key.name))
        };
        assert_eq!(place("packed").unwrap(), "cells/CellsAndBytes/packed");
        assert_eq!(place("cell_word").unwrap(), "cells/CellsAndBytes/word");
        assert_eq!(place("halved").unwrap(), "separator/Rule/halved");
        assert_eq!(place("gives").unwrap(), "refusals/RefusedCalls/Answer");
        assert_eq!(found.len(), 4);
        assert_eq!(named("(halved x.packed) ++ length y", &found).len(), 1);
        assert_eq!(
            named("record { packed = 0; halved = packed 1 }", &found).len(),
            1
        );
    }
}
