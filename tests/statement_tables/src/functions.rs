//! The public functions of crates/KRATE/src, and the definitions that their `ensures` name.
use crate::names::{imports, named, Key, STD};

pub struct Function {
    pub krate: String,
    /// Its file, as `src/lib.rt`.
    pub file: String,
    /// As callers write it, without the crate: `step`, `Separator::step`.
    pub name: String,
    pub names: Vec<Key>,
    pub promises: bool,
    pub requires: bool,
    /// Its file takes names from the repository's proofs, which no promise may cite.
    pub proofs: bool,
    /// Other crates can call it: it stands in the crate's first file, or that file hands it on.
    pub outside: bool,
}

/// Programs have no public function. These make their promises.
const OF_PROGRAMS: [(&str, &str); 11] = [
    ("track_listing", "list_input"),
    ("st_track", "image_input"),
    ("disk_listing", "take_file"),
    ("disk_listing", "gather"),
    ("disk_listing", "gather_words"),
    ("disk_listing", "print_page"),
    ("flux_to_cells", "convert_input"),
    ("write_track", "read_place"),
    ("write_track", "write_input"),
    ("scp_track", "read_choice"),
    ("scp_track", "list_input"),
];

pub fn is_of_program(krate: &str, name: &str) -> bool {
    OF_PROGRAMS.contains(&(krate, name))
}

pub fn functions(krate: &str, file: &str, text: &str) -> Vec<Function> {
    let imports = imports(text);
    let mut found = Vec::new();
    let mut of_type = String::new();
    let mut in_trait = false;
    let lines: Vec<&str> = text.lines().collect();
    for (i, line) in lines.iter().enumerate() {
        if let Some(name) = implemented(line) {
            of_type = name.to_string();
        } else if let Some(rest) = line.strip_prefix("pub trait ") {
            of_type = rest
                .split(['<', '{', ' ', ':'])
                .next()
                .unwrap_or(rest)
                .to_string();
            in_trait = true;
        } else if line.starts_with('}') {
            of_type.clear();
            in_trait = false;
        }
        let Some((name, public)) = function(line.trim()) else {
            continue;
        };
        if !public && !in_trait && !is_of_program(krate, name) {
            continue;
        }
        let contract = contract(&lines[i..]);
        let clause = |word: &str| contract.lines().any(|line| line.trim().starts_with(word));
        let promise: String = contract
            .find("ensures")
            .map_or(String::new(), |at| contract[at..].to_string());
        found.push(Function {
            krate: krate.to_string(),
            file: file.to_string(),
            name: if of_type.is_empty() {
                name.to_string()
            } else {
                format!("{of_type}::{name}")
            },
            names: named(&promise, &imports),
            promises: clause("ensures"),
            requires: clause("requires"),
            outside: true,
            proofs: text.lines().any(is_of_proofs),
        });
    }
    found
}

/// Whether a line brings names from proofs/ of a crate of the repository.
fn is_of_proofs(line: &str) -> bool {
    line.strip_prefix("ghost use Rattle.")
        .and_then(|rest| rest.split_once('.'))
        .is_some_and(|(krate, path)| krate != STD && path.starts_with("proofs."))
}

/// The name of the type whose methods a line begins, without its parameters.
fn implemented(line: &str) -> Option<&str> {
    let rest = line.strip_prefix("impl")?;
    let rest = match rest.strip_prefix('<') {
        Some(parameters) => parameters.split_once('>')?.1,
        None => rest,
    };
    rest.strip_prefix(' ')?.split(['<', '{', ' ']).next()
}

/// The name of the function that a line begins, and whether others see it.
fn function(line: &str) -> Option<(&str, bool)> {
    let public = line.strip_prefix("pub ");
    let rest = public.unwrap_or(line);
    let rest = rest
        .strip_prefix("extern \"C\" ")
        .unwrap_or(rest)
        .strip_prefix("fn ")?;
    Some((rest.split(['(', '<']).next()?, public.is_some()))
}

/// From a function's head up to its body, which begins with a brace on a line of its own, or ends the head's line. A function of a trait ends with a
/// semicolon.
fn contract(lines: &[&str]) -> String {
    let mut contract = String::new();
    for line in lines {
        let clause = line.trim().starts_with("ensures") || line.trim().starts_with("requires");
        if line.trim() == "{" {
            break;
        }
        contract.push_str(&format!("{line}\n"));
        if (!clause && line.ends_with('{')) || line.ends_with(';') {
            break;
        }
    }
    contract
}

#[cfg(test)]
mod tests {
    use super::*;

    const FILE: &str = "ghost use Rattle.std.proofs.Math.IntN.{sub_ℕ};\nghost use Rattle.separator.specs.Rule.{step_answer, usable};\n\
        impl Separator {\n    pub fn new() -> Self\n        ensures { result.residual ≡ pos 0 }\n    {\n        Separator { residual: 0 }\n    }\n\n\
        pub fn step(self, timing: u32) -> Stepped\n        requires { usable 1 }\n        ensures answer { result ≡ step_answer self.residual timing }\n    {\n        usable\n    }\n}\n\n\
        fn half(offset: i32) -> i32\n    ensures { usable result }\n{\n    offset / 2\n}\n\n\
        #[unsafe(no_mangle)]\npub extern \"C\" fn thikbromu_step(\n    timing: u32,\n) -> u32\n    ensures { step_answer result }\n{\n    usable\n}\n\nfn main() {\n    usable\n}\n";

    #[test]
    fn promises_name_definitions() {
        let found = functions("separator", "src/lib.rt", FILE);
        let shown: Vec<String> = found
            .iter()
            .map(|f| {
                format!(
                    "{} {} {}",
                    f.name,
                    f.requires,
                    f.names
                        .iter()
                        .map(|key| key.name.clone())
                        .collect::<Vec<_>>()
                        .join(" ")
                )
            })
            .collect();
        assert_eq!(
            shown,
            [
                "Separator::new false ",
                "Separator::step true step_answer",
                "thikbromu_step false step_answer"
            ]
        );
        assert!(found
            .iter()
            .all(|function| function.promises && !function.proofs));
        let with_proofs = format!("ghost use Rattle.cells.proofs.Packing.{{cell-packed}};\n{FILE}");
        assert!(functions("separator", "src/lib.rt", &with_proofs)[0].proofs);
    }

    #[test]
    fn a_method_has_the_name_of_its_type() {
        assert_eq!(implemented("impl Separator {"), Some("Separator"));
        assert_eq!(implemented("impl<'a> Cells<'a> {"), Some("Cells"));
        assert_eq!(implemented("    impl Separator {"), None);
    }

    #[test]
    fn what_a_public_trait_asks_for_is_promised() {
        let found = functions(
            "separator",
            "src/lib.rt",
            "ghost use Rattle.separator.specs.Rule.{limit, half};\npub trait BitWindow {\n    fn pulses(offset: i32) -> u32\n        ensures { limit result };\n\n    ghost is_half: { half };\n}\n\nfn other() {\n}\n",
        );
        assert_eq!(found.len(), 1);
        assert_eq!(found[0].name, "BitWindow::pulses");
        assert_eq!(found[0].names.len(), 1);
    }

    #[test]
    fn a_program_promises_by_one_function() {
        let found = functions(
            "scp_track",
            "src/main.rt",
            "fn list_input<R: Read>(from: &mut R) -> usize\n    ensures { result }\n{\n}\n\nfn main() {\n}\n",
        );
        assert_eq!(found.len(), 1);
        assert_eq!(found[0].name, "list_input");
    }
}
