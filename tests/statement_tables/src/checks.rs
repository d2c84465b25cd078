//! What has to hold of rules, definitions, functions and edits. Each check has a name and passes or not.
use crate::definitions::Definition;
use crate::functions::is_of_program;
use crate::laws::{exception, parsed, EXCEPTIONS, LAWS};
use crate::numbers::Number;
use crate::promises::Promises;
use crate::repository::{text, Repository};
use crate::tables::{found, Found};
use std::collections::BTreeSet;

pub type Check = (String, bool);

pub fn checks(repository: &Repository) -> Vec<Check> {
    let promises = Promises::new(&repository.definitions, &repository.functions);
    let rules: Vec<Found> = repository
        .sections
        .iter()
        .flat_map(|section| &section.rules)
        .map(|rule| found(repository, &promises, rule))
        .collect();
    let numbers: BTreeSet<Number> = rules.iter().map(|found| found.rule.number).collect();
    let mut checks: Vec<Check> = Vec::new();
    checks.push((
        "each number of the specification is that of one rule".to_string(),
        numbers.len() == rules.len(),
    ));
    checks.extend(rules.iter().map(of_rule));
    checks.extend(
        repository
            .definitions
            .iter()
            .filter(|definition| !definition.numbers.is_empty())
            .map(|definition| of_definition(definition, &promises)),
    );
    for (number, file) in &repository.cited {
        checks.push((
            format!("{file} cites {number}, which the specification has"),
            numbers.contains(number),
        ));
    }
    for edit in &repository.edits {
        let good = edit
            .numbers
            .as_ref()
            .is_some_and(|all| all.iter().all(|number| numbers.contains(number)));
        checks.push((
            format!(
                "the edit {} of {} has a line `rule:` with numbers of the specification",
                edit.name, edit.krate
            ),
            good,
        ));
        checks.push((
            format!(
                "what the edit {} of {} changes stands there once",
                edit.name, edit.krate
            ),
            edit.applies,
        ));
        // rt ci tries no edit that stands elsewhere (D75).
        checks.push((
            format!(
                "the edit {} of {} stands right in must-fail",
                edit.name, edit.krate
            ),
            !edit.name.contains('/'),
        ));
    }
    for function in &repository.functions {
        let good = function.promises
            && !function.proofs
            && (!function.requires || is_of_program(&function.krate, &function.name));
        checks.push((
            format!(
                "{}::{} promises something, has no `requires` and cites no proofs",
                function.krate, function.name
            ),
            good,
        ));
    }
    checks
}

/// A rule is promised, run, or has a reason for being neither.
fn of_rule(found: &Found) -> Check {
    let number = found.rule.number;
    let promised = !found.definitions.is_empty() && !found.functions.is_empty();
    let named = !found.tests.is_empty() || !found.edits.is_empty() || !found.definitions.is_empty();
    let good = if found.rule.run { named } else { promised };
    if found.exception.is_some() {
        return (
            format!("rule {number} needs its place in the list of exceptions"),
            !good,
        );
    }
    if found.rule.run {
        return (
            format!(
                "rule {number}, which is only run, is named by a test, an edit or a definition"
            ),
            good,
        );
    }
    let lacks = if found.definitions.is_empty() {
        "a definition"
    } else {
        "a promise"
    };
    (format!("rule {number} has {lacks}"), good)
}

/// Each definition that states a rule is promised by a function, but for the rules that have a reason.
fn of_definition(definition: &Definition, promises: &Promises) -> Check {
    let excepted = definition
        .numbers
        .iter()
        .all(|number| exception(*number).is_some());
    let key = &definition.key;
    (
        format!(
            "{}/specs/{}: {} is promised by some function",
            key.krate, key.file, key.name
        ),
        excepted || !promises.of(key).1.is_empty(),
    )
}

/// The lists of laws and exceptions name rules and theorems that there are.
pub fn of_laws(repository: &Repository) -> Vec<Check> {
    let mut checks = Vec::new();
    for rule in LAWS
        .iter()
        .map(|law| law.0)
        .chain(EXCEPTIONS.iter().map(|(rule, _)| *rule))
    {
        let known = repository
            .sections
            .iter()
            .flat_map(|section| &section.rules)
            .any(|known| known.number == parsed(rule));
        checks.push((
            format!("{rule}, in the lists of laws and exceptions, is a rule"),
            known,
        ));
    }
    for (_, file, names) in LAWS {
        let path = repository.root.join("crates").join(format!("{file}.antt"));
        for name in *names {
            let states = |line: &str| {
                line.trim_start()
                    .trim_start_matches("pub ")
                    .starts_with(&format!("{name} :"))
            };
            checks.push((
                format!("{file} has the law {name}"),
                path.exists() && text(&path).lines().any(states),
            ));
        }
    }
    checks
}

#[cfg(test)]
mod tests {
    use super::*;
    use crate::tables::tests::small;

    const RULES: &str = "## 3 The separator\n**3.3** A step.\n**3.14** *(run)* An example.\n";
    const SPECS: &str = "-- 3.3: the step\nabbrev pub step_answer : ℕ\nstep_answer = 1\n";
    const SOURCE: &str = "ghost use Rattle.separator.specs.Rule.{step_answer};\npub fn step() -> u8\n    ensures { step_answer }\n{\n}\n";

    fn failed(rules: &str, specs: &str, source: &str, edit: &str) -> Vec<String> {
        checks(&small(rules, specs, source, edit))
            .into_iter()
            .filter(|(_, good)| !good)
            .map(|(name, _)| name)
            .collect()
    }

    #[test]
    fn nothing_fails_where_all_is_there() {
        assert!(failed(RULES, SPECS, SOURCE, "rule: 3.3\n").is_empty());
    }

    #[test]
    fn a_rule_without_a_definition() {
        assert_eq!(
            failed(RULES, "", SOURCE, "rule: 3.3\n"),
            ["rule 3.3 has a definition"]
        );
    }

    #[test]
    fn a_rule_without_a_promise() {
        assert_eq!(
            failed(RULES, SPECS, "", "rule: 3.3\n"),
            [
                "rule 3.3 has a promise",
                "separator/specs/Rule: step_answer is promised by some function"
            ]
        );
    }

    #[test]
    fn a_rule_that_is_run_by_nothing() {
        let rules = format!("{RULES}**3.15** *(run)* Another.\n");
        assert_eq!(
            failed(&rules, SPECS, SOURCE, "rule: 3.3\n"),
            ["rule 3.15, which is only run, is named by a test, an edit or a definition"]
        );
    }

    #[test]
    fn an_edit_that_the_gate_does_not_try() {
        let mut repository = small(RULES, SPECS, SOURCE, "rule: 3.3\n");
        repository.edits[0].name = "more/half_window_1001".to_string();
        let failed: Vec<String> = checks(&repository)
            .into_iter()
            .filter(|(_, good)| !good)
            .map(|(name, _)| name)
            .collect();
        assert_eq!(
            failed,
            ["the edit more/half_window_1001 of separator stands right in must-fail"]
        );
    }

    #[test]
    fn an_exception_that_is_not_needed() {
        let rules = RULES.replace("3.3", "1.17").replace("## 3", "## 1");
        let specs = SPECS.replace("3.3", "1.17");
        assert_eq!(
            failed(&rules, &specs, SOURCE, "rule: 1.17\n"),
            ["rule 1.17 needs its place in the list of exceptions"]
        );
    }

    #[test]
    fn a_number_twice() {
        let rules = format!("{RULES}**3.3** Again.\n");
        assert_eq!(
            failed(&rules, SPECS, SOURCE, "rule: 3.3\n"),
            ["each number of the specification is that of one rule"]
        );
    }

    #[test]
    fn numbers_that_do_not_exist() {
        let specs = format!("{SPECS}-- a helper, see 3.99\nabbrev pub helper : ℕ\nhelper = 1\n");
        assert_eq!(
            failed(RULES, &specs, SOURCE, "rule: 3.3\n"),
            ["separator/specs/Rule cites 3.99, which the specification has"]
        );
        assert_eq!(failed(RULES, SPECS, SOURCE, "rule: 3.98\n").len(), 1);
        assert_eq!(failed(RULES, SPECS, SOURCE, "file: src/lib.rt\n").len(), 1);
    }

    #[test]
    fn a_function_without_a_promise_or_with_a_condition() {
        let source = format!("{SOURCE}pub fn more() -> u8 {{\n}}\n\npub fn less() -> u8\n    requires {{ 1 }}\n    ensures {{ 1 }}\n{{\n}}\n");
        let failed = failed(RULES, SPECS, &source, "rule: 3.3\n");
        assert_eq!(failed.len(), 2);
    }
}
