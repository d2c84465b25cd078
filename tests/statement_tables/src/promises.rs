//! Which functions promise a definition: those whose `ensures` name it. Where none does, those that come to it by way of other definitions, in
//! the fewest steps.
use crate::definitions::Definition;
use crate::functions::Function;
use crate::names::Key;
use std::collections::{BTreeMap, BTreeSet};

pub struct Promises {
    users: BTreeMap<Key, Vec<Key>>,
    functions: BTreeMap<Key, Vec<usize>>,
}

impl Promises {
    pub fn new(definitions: &[Definition], functions: &[Function]) -> Self {
        let mut users: BTreeMap<Key, Vec<Key>> = BTreeMap::new();
        for definition in definitions {
            for name in &definition.names {
                users
                    .entry(name.clone())
                    .or_default()
                    .push(definition.key.clone());
            }
        }
        let mut by_name: BTreeMap<Key, Vec<usize>> = BTreeMap::new();
        let outside = |(_, function): &(usize, &Function)| function.outside;
        for (i, function) in functions.iter().enumerate().filter(outside) {
            for name in &function.names {
                by_name.entry(name.clone()).or_default().push(i);
            }
        }
        Promises {
            users,
            functions: by_name,
        }
    }

    /// The functions, by their index, that promise one of these definitions: those that name it come before those that come to it by others.
    pub fn of_all(&self, definitions: &[&Key]) -> Vec<usize> {
        let mut found: Vec<(usize, usize)> = Vec::new();
        for (steps, functions) in definitions.iter().map(|definition| self.of(definition)) {
            for function in functions {
                match found.iter_mut().find(|(_, other)| *other == function) {
                    Some((least, _)) => *least = steps.min(*least),
                    None => found.push((steps, function)),
                }
            }
        }
        found.sort();
        found.into_iter().map(|(_, function)| function).collect()
    }

    /// The functions that promise a definition, and the steps that it takes.
    pub fn of(&self, definition: &Key) -> (usize, BTreeSet<usize>) {
        let mut seen: BTreeSet<&Key> = BTreeSet::from([definition]);
        let mut now = seen.clone();
        let mut steps = 0;
        while !now.is_empty() {
            let found: BTreeSet<usize> = now
                .iter()
                .filter_map(|key| self.functions.get(*key))
                .flatten()
                .copied()
                .collect();
            if !found.is_empty() {
                return (steps, found);
            }
            now = now
                .iter()
                .filter_map(|key| self.users.get(*key))
                .flatten()
                .filter(|key| !seen.contains(key))
                .collect();
            seen.extend(now.iter());
            steps += 1;
        }
        (steps, BTreeSet::new())
    }
}

#[cfg(test)]
mod tests {
    use super::*;
    use crate::definitions::definitions;
    use crate::functions::functions;

    #[test]
    fn the_fewest_steps_are_taken() {
        let definitions = definitions("a", "F", "-- x\nabbrev pub low : ℕ\nlow = 1\n\nabbrev pub middle : ℕ\nmiddle = low\n\nabbrev pub high : ℕ\nhigh = middle\n\nabbrev pub alone : ℕ\nalone = 1\n");
        let text = "ghost use Rattle.a.specs.F.{middle, high};\npub fn near() -> u8\n    ensures { middle }\n{\n}\n\npub fn far() -> u8\n    ensures { high }\n{\n}\n";
        let functions = functions("a", "src/lib.rt", text);
        let promises = Promises::new(&definitions, &functions);
        let key = |name: &str| Key {
            krate: "a".into(),
            file: "F".into(),
            name: name.into(),
        };
        let of = |name: &str| promises.of_all(&[&key(name)]);
        assert_eq!(of("low"), [0]);
        assert_eq!(of("middle"), [0]);
        assert_eq!(of("high"), [1]);
        assert!(of("alone").is_empty());
        assert_eq!(promises.of_all(&[&key("low"), &key("high")]), [1, 0]);
    }

    #[test]
    fn a_function_that_no_other_crate_can_call_is_passed_over() {
        let definitions = definitions("a", "F", "-- x\nabbrev pub low : ℕ\nlow = 1\n");
        let text = "ghost use Rattle.a.specs.F.{low};\npub fn inner() -> u8\n    ensures { low }\n{\n}\n\npub fn outer() -> u8\n    ensures { low }\n{\n}\n";
        let mut functions = functions("a", "src/inner.rt", text);
        functions[0].outside = false;
        let low = Key {
            krate: "a".into(),
            file: "F".into(),
            name: "low".into(),
        };
        assert_eq!(Promises::new(&definitions, &functions).of_all(&[&low]), [1]);
    }
}
