//! Runs of the command, in a folder of their own.

use std::ffi::OsStr;
use std::fs;
use std::io::Write;
use std::path::{Path, PathBuf};
use std::process::{self, Stdio};

/// What a run came to.
#[derive(Clone, Debug, PartialEq, Eq)]
pub struct Ran {
    /// The exit status; none where a signal ended it.
    pub status: Option<i32>,
    pub out: String,
    pub err: String,
}

/// The command, and a folder for what it reads and writes, which goes with it.
pub struct Command {
    program: PathBuf,
    folder: PathBuf,
}

impl Command {
    pub fn new(program: &Path) -> Command {
        let program = fs::canonicalize(program).expect("the command is there");
        let folder = std::env::temp_dir().join(format!("whole-images-{}", process::id()));
        fs::create_dir_all(&folder).expect("there is a temporary folder");
        Command { program, folder }
    }

    /// A name in the folder.
    pub fn path(&self, name: &str) -> PathBuf {
        self.folder.join(name)
    }

    /// Puts a file there.
    pub fn put(&self, name: &str, bytes: &[u8]) {
        fs::write(self.path(name), bytes).expect("the temporary folder takes a file");
    }

    /// The bytes of a file there, if it is there.
    pub fn get(&self, name: &str) -> Option<Vec<u8>> {
        fs::read(self.path(name)).ok()
    }

    /// Takes a file away.
    pub fn remove(&self, name: &str) {
        let _ = fs::remove_file(self.path(name));
    }

    /// The names of all files there that a write left behind.
    pub fn left_behind(&self) -> Vec<String> {
        let entries = fs::read_dir(&self.folder).expect("the folder is there");
        let names = entries.map(|entry| entry.expect("its entries too").file_name().to_string_lossy().into_owned());
        names.filter(|name| name.ends_with(".new")).collect()
    }

    fn process(&self, arguments: &[&OsStr]) -> process::Command {
        let mut process = process::Command::new(&self.program);
        process.args(arguments).current_dir(&self.folder).stdin(Stdio::null());
        process
    }

    /// Runs the command in the folder.
    pub fn run(&self, arguments: &[&str]) -> Ran {
        let words: Vec<&OsStr> = arguments.iter().map(OsStr::new).collect();
        let output = self.process(&words).output().expect("the command runs");
        ran(output)
    }

    /// Runs it with so many kilobytes of memory, as the shell limits it. Threads then share one arena, as each would reserve many.
    pub fn run_within(&self, kilobytes: usize, arguments: &[&str]) -> Ran {
        let mut process = process::Command::new("sh");
        process
            .args(["-c", &format!("ulimit -v {kilobytes} && exec \"$0\" \"$@\"")])
            .arg(&self.program)
            .args(arguments);
        process.env("MALLOC_ARENA_MAX", "1").current_dir(&self.folder).stdin(Stdio::null());
        ran(process.output().expect("the shell runs"))
    }

    /// Runs it with this on standard input.
    pub fn run_on(&self, arguments: &[&str], input: &[u8]) -> Ran {
        let words: Vec<&OsStr> = arguments.iter().map(OsStr::new).collect();
        let mut process = self.process(&words);
        process.stdin(Stdio::piped()).stdout(Stdio::piped()).stderr(Stdio::piped());
        let mut child = process.spawn().expect("the command runs");
        let mut pipe = child.stdin.take().expect("it was asked for");
        let input = input.to_vec();
        // The command may end before it has read everything.
        let writer = std::thread::spawn(move || drop(pipe.write_all(&input)));
        let output = child.wait_with_output().expect("it ends");
        writer.join().expect("the writer ends");
        ran(output)
    }

    /// Runs it with standard output going to this.
    pub fn run_to(&self, arguments: &[&str], output: Stdio) -> Ran {
        let words: Vec<&OsStr> = arguments.iter().map(OsStr::new).collect();
        let child = self.process(&words).stdout(output).stderr(Stdio::piped()).spawn().expect("the command runs");
        ran(child.wait_with_output().expect("it ends"))
    }
}

impl Drop for Command {
    fn drop(&mut self) {
        let _ = fs::remove_dir_all(&self.folder);
    }
}

fn ran(output: process::Output) -> Ran {
    Ran {
        status: output.status.code(),
        out: String::from_utf8_lossy(&output.stdout).into_owned(),
        err: String::from_utf8_lossy(&output.stderr).into_owned(),
    }
}
