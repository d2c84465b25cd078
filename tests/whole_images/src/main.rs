//! Runs the command `thikbromu` on whole images that tests/image_writer makes, and holds what it prints and writes to the second program and to
//! the content of the disks.
//!
//! The first argument is the command. `all` behind it runs the long tests too, which the gate does not: large disks of every kind, and images
//! that are cut at 1,000 places. The last line is 'N passed, M failed'; the exit status is 1 where something failed.

mod calls;
mod command;
mod damaged;
mod expected;
mod whole_disks;

use command::Command;
use std::path::PathBuf;
use std::time::Instant;

/// What was tried, and what it came to.
#[derive(Default)]
pub struct Report {
    passed: usize,
    failed: usize,
}

impl Report {
    /// One case.
    pub fn same<T: PartialEq + std::fmt::Debug>(&mut self, name: &str, ours: T, expected: T) {
        if ours == expected {
            self.passed += 1;
            return;
        }
        self.failed += 1;
        println!("{name}: FAILED");
        println!("    the command: {}", short(&ours));
        println!("    expected:    {}", short(&expected));
    }

    /// One case that holds or not.
    pub fn holds(&mut self, name: &str, holds: bool) {
        self.same(name, holds, true);
    }
}

fn short(value: &impl std::fmt::Debug) -> String {
    let text = format!("{value:?}");
    match text.char_indices().nth(600) {
        Some((end, _)) => format!("{} ..", &text[..end]),
        None => text,
    }
}

/// A group of tests.
type Group = fn(&Command, bool, &mut Report);

fn main() {
    let mut arguments = std::env::args_os().skip(1);
    let program = PathBuf::from(arguments.next().expect("the first argument is the command"));
    let all = arguments.next().is_some_and(|word| word == "all");
    let command = Command::new(&program);
    let mut report = Report::default();
    let groups: [(&str, Group); 3] =
        [("whole disks", whole_disks::run), ("damaged images", damaged::run), ("calls", calls::run)];
    for (name, group) in groups {
        let (began, passed, failed) = (Instant::now(), report.passed, report.failed);
        group(&command, all, &mut report);
        let seconds = began.elapsed().as_secs_f64();
        println!("{name}: {} passed, {} differ, {seconds:.1} s", report.passed - passed, report.failed - failed);
    }
    println!("{} passed, {} failed", report.passed, report.failed);
    if report.failed > 0 {
        std::process::exit(1);
    }
}
