//! Section 13 of the specification: the program `track_listing` beside the second program, on whole files and on files that come in
//! portions.

use crate::block_program;
use crate::report::{Group, Report};
use second_program::listing::listing;
use second_program::track_block;
use second_program::track_file::at_once;
use std::ffi::OsStr;
use std::fs::File;
use std::io::{ErrorKind, Read, Write};
use std::os::fd::OwnedFd;
use std::os::unix::net::{UnixDatagram, UnixStream};
use std::path::Path;
use std::process::{Child, Command, Output, Stdio};
use std::time::{Duration, Instant};
use test_inputs::file_inputs::{self, FilePlan, NamedFile};
use test_inputs::flux_inputs::timings_of_cells;
use test_inputs::random::Random;
use test_inputs::track_builder::{odd_track, standard_track};

/// A program, as `.ci/programs` builds it.
pub fn built(name: &str) -> Command {
    Command::new(Path::new(env!("CARGO_MANIFEST_DIR")).join("../../target/bin").join(name))
}

/// The program that lists track files.
fn program() -> Command {
    built("track_listing")
}

pub fn started(mut command: Command, input: Stdio) -> Child {
    let child = command.stdin(input).stdout(Stdio::piped()).spawn();
    child.unwrap_or_else(|error| panic!("{command:?}: {error}"))
}

/// Writes a file to a program, which may stop reading before the end.
fn write_to_program(input: &mut impl Write, file: &[u8]) {
    if let Err(error) = input.write_all(file) {
        let kind = error.kind();
        assert!(kind == ErrorKind::BrokenPipe || kind == ErrorKind::ConnectionReset, "{error}");
    }
}

/// What a program leaves for a file that comes through a pipe; of standard error only what the command keeps.
pub fn left_after_pipe(command: Command, file: &[u8]) -> Output {
    let mut child = started(command, Stdio::piped());
    let mut input = child.stdin.take().expect("a pipe");
    write_to_program(&mut input, file);
    drop(input);
    child.wait_with_output().expect("the program's output")
}

/// What a program prints for a file that comes through a pipe.
pub fn through_pipe(command: Command, file: &[u8]) -> Vec<u8> {
    left_after_pipe(command, file).stdout
}

/// How an input through a stream socket ends.
#[derive(Clone, Copy, Debug, PartialEq, Eq)]
pub enum SocketEnd {
    /// All reads after the last byte give the end.
    Ends,
    /// The first read after the last byte fails, the others give the end: so it is where the writer goes away with something unread.
    FailsOnce,
}

/// A socket to write to, and one to read what was written and then this end.
fn sockets(end: SocketEnd) -> (UnixStream, UnixStream) {
    let (writer, mut reader) = UnixStream::pair().expect("a pair of sockets");
    if end == SocketEnd::FailsOnce {
        reader.write_all(&[0]).expect("room for a byte that nobody reads");
    }
    (writer, reader)
}

/// What a program leaves for a file that comes through a stream socket; of standard error only what the command keeps.
pub fn left_after_socket(command: Command, file: &[u8], end: SocketEnd) -> Output {
    let (mut writer, reader) = sockets(end);
    let child = started(command, Stdio::from(OwnedFd::from(reader)));
    write_to_program(&mut writer, file);
    drop(writer);
    child.wait_with_output().expect("the program's output")
}

/// What four reads of a stream socket give: how many bytes, or which failure.
fn four_reads(file: &[u8], end: SocketEnd) -> Vec<Result<usize, ErrorKind>> {
    let (mut writer, mut reader) = sockets(end);
    writer.write_all(file).expect("room for a short file");
    drop(writer);
    let mut buffer = vec![0; file.len() + 1];
    (0..4).map(|_| reader.read(&mut buffer).map_err(|error| error.kind())).collect()
}

/// What a program prints for a file that comes in these portions, none of them empty: each read gets one of them, since a
/// datagram is read whole. An empty datagram is the end of the input; two come, since a program may ask for the end twice.
pub fn in_portions<'a>(command: Command, portions: impl Iterator<Item = &'a [u8]>) -> Vec<u8> {
    let (ours, theirs) = UnixDatagram::pair().expect("a pair of sockets");
    let child = started(command, Stdio::from(OwnedFd::from(theirs)));
    for portion in portions.chain([&[] as &[u8]; 2]) {
        // The program may stop reading before the end.
        if let Err(error) = ours.send(portion) {
            let kind = error.kind();
            assert!(kind == ErrorKind::ConnectionRefused || kind == ErrorKind::ConnectionReset || kind == ErrorKind::BrokenPipe, "{error}");
            break;
        }
    }
    printed(child)
}

fn printed(child: Child) -> Vec<u8> {
    child.wait_with_output().expect("the program's output").stdout
}

/// Whether standard error has one line, and it begins so.
pub fn says_one_line(output: &Output, start: &str) -> bool {
    let error = text(&output.stderr);
    error.starts_with(start) && error.ends_with('\n') && error.lines().count() == 1
}

/// An input that cannot be read to its end, or is too long: nothing is listed, since it is not known, and one line, which begins with the
/// program's name, says why.
pub fn not_listed(group: &mut Group, name: &str, output: &Output, given: impl Fn() -> String) {
    let ours = (text(&output.stdout), says_one_line(output, &format!("{name}: ")), output.status.success());
    group.same(ours, (String::new(), true, true), || format!("{}, which says {:?}", given(), text(&output.stderr)));
}

/// An input that is listed, and nothing said beside it.
pub fn listed_alone(group: &mut Group, output: &Output, listed: &str, given: impl Fn() -> String) {
    group.same((text(&output.stdout), text(&output.stderr)), (listed.to_string(), String::new()), given);
}

/// What the system gives, without which a case of an input that fails would say nothing.
pub fn sockets_as_expected(group: &mut Group) {
    let (ends, fails_once) = (four_reads(b"TRK", SocketEnd::Ends), four_reads(b"TRK", SocketEnd::FailsOnce));
    group.same(ends, vec![Ok(3), Ok(0), Ok(0), Ok(0)], || "a socket that ends".to_string());
    let reset = Err(ErrorKind::ConnectionReset);
    group.same(fails_once, vec![Ok(3), reset, Ok(0), Ok(0)], || "a socket that fails once".to_string());
}

pub fn text(bytes: &[u8]) -> String {
    String::from_utf8_lossy(bytes).into_owned()
}

/// The number of the kind of a finding's line; none of a header or a refusal.
fn kind_of(line: &str) -> Option<usize> {
    line.split(' ').next()?.parse().ok()
}

/// The kinds and the refusals that stand in some listing.
#[derive(Default)]
pub struct Seen {
    kinds: [usize; 22],
    refusals: [usize; 26],
}

impl Seen {
    pub fn note(&mut self, listing: &str) {
        for line in listing.lines() {
            if let Some(kind) = kind_of(line) {
                self.kinds[kind] += 1;
            }
        }
        if let Some(number) = listing.strip_prefix("refused ") {
            self.refusals[number.trim().parse::<usize>().expect("a number")] += 1;
        }
    }

    /// A case for every kind, and for each of these refusals: that it was reached.
    pub fn reached(&self, group: &mut Group, refusals: &[usize]) {
        for kind in 1..=21 {
            group.same(self.kinds[kind] > 0, true, || format!("kind {kind} was reached"));
        }
        for &number in refusals {
            group.same(self.refusals[number] > 0, true, || format!("refusal {number} was reached"));
        }
    }
}

/// Many files, whole: sound and broken ones.
pub fn whole_files(report: &mut Report) {
    let mut group = Group::new("the program on whole files");
    let mut seen = Seen::default();
    for file in file_inputs::files() {
        let expected = text(&listing(&file.bytes));
        seen.note(&expected);
        group.same(text(&through_pipe(program(), &file.bytes)), expected, || file.name.clone());
    }
    // 3 gives way to 15, and there is always room: 5 and 10 do not arise. The others are of other calls.
    seen.reached(&mut group, &[1, 2, 4, 15, 23]);
    group.close(report);
}

/// Ten files for portions: sound, odd and broken ones, and old ones, which are refused at their flux count.
fn ten_files() -> Vec<NamedFile> {
    let mut random = Random::new(61);
    let mut files = Vec::new();
    let mut add = |name: &str, bytes: Vec<u8>| files.push(NamedFile { name: name.to_string(), bytes });
    let standard = standard_track(0, 0, 0xE5);
    let odd = odd_track(&mut random, 33);
    add("standard track", file_inputs::file_of_cells(0, 0, &standard));
    add("standard track as timings", file_inputs::file_of_timings(0, 0, &timings_of_cells(&standard)));
    add("odd track", file_inputs::file_of_cells(33, 1, &odd));
    add("131,069 cells", file_inputs::file_of_cells(82, 0, &vec![1; 131_069]));
    add("65 sectors", file_inputs::file_of_cells(5, 0, &file_inputs::ids_on(65, 25_000, 0)));
    add("19,999 cells", file_inputs::file_of_cells(1, 0, &vec![1; 19_999]));
    add("a timing out of range", file_inputs::file_of_timings(1, 0, &[4_000, 4_000, 10_000_001, 0, 4_000]));
    let mut left_over = file_inputs::file_of_cells(2, 0, &vec![0; 20_001]);
    left_over.extend([0; 70]);
    add("bytes left over", left_over);
    let mut behind_cells = FilePlan::of_cells(3, 0, 20_000, &[0xAA; 2_500]);
    (behind_cells.flux_count, behind_cells.timings) = (1 << 24, vec![4_000; 20]);
    add("timings behind cells", behind_cells.bytes());
    let mut neither = file_inputs::file_of_timings(3, 0, &[]);
    neither.extend([0xAA; 50]);
    add("no cells and no timings, and bytes left over", neither);
    files
}

/// Files that come in portions, and the same files cut short.
pub fn portions(report: &mut Report) {
    let mut group = Group::new("the program on files in portions");
    let mut random = Random::new(62);
    for file in ten_files() {
        let bytes = &file.bytes;
        let expected = text(&listing(bytes));
        for size in [1, 3, 7, 4_096, 65_535, 65_536] {
            let given = || format!("{} in portions of {size}", file.name);
            group.same(text(&in_portions(program(), bytes.chunks(size))), expected.clone(), given);
        }
        let length = bytes.len();
        let ends = (1..=64).chain(length.saturating_sub(64)..length);
        let between = (0..40).map(|_| 1 + random.below(length as u64 - 1) as usize);
        let places: Vec<usize> = ends.chain(between).filter(|&place| 0 < place && place < length).collect();
        for place in places {
            // A datagram holds at most the 65,536 bytes that one read takes.
            let (front, back) = bytes.split_at(place);
            let parts = front.chunks(65_536).chain(back.chunks(65_536));
            group.same(text(&in_portions(program(), parts)), expected.clone(), || format!("{} in two at {place}", file.name));
            let short = text(&listing(front));
            group.same(text(&through_pipe(program(), front)), short, || format!("{} cut short at {place}", file.name));
        }
        for _ in 0..10 {
            let mut parts = Vec::new();
            let mut rest = bytes.as_slice();
            while !rest.is_empty() {
                let most = 1 << random.below(17);
                let size = (1 + random.below(most) as usize).min(rest.len());
                let (part, left) = rest.split_at(size);
                parts.push(part);
                rest = left;
            }
            let given = || format!("{} in {} portions", file.name, parts.len());
            group.same(text(&in_portions(program(), parts.iter().copied())), expected.clone(), given);
        }
    }
    group.close(report);
}

/// The program, its standard error kept.
fn program_that_may_fail() -> Command {
    let mut command = program();
    command.stderr(Stdio::piped());
    command
}

/// Inputs through stream sockets that end, and inputs that fail once and then end: of these nothing is listed, however much was read,
/// unless a count was refused, after which nothing more is read.
pub fn failing_inputs(report: &mut Report) {
    let mut group = Group::new("the program on inputs that fail");
    sockets_as_expected(&mut group);
    let mut random = Random::new(65);
    let refused_by_a_count = [
        ("place count 3", vec![3, 0, 0, 0, 7, 7, 7]),
        ("131,073 cells", vec![2, 0, 0, 0, 5, 0, 1, 0, 2, 0, 7, 7]),
        ("a timing", vec![2, 0, 0, 0, 5, 0, 0, 0, 0, 0, 1, 0, 0, 0, 7]),
        ("timings behind cells", vec![2, 0, 0, 0, 5, 0, 8, 0, 0, 0, 0xAA, 0, 0, 0, 1, 7]),
    ];
    let refused = refused_by_a_count.map(|(name, bytes)| NamedFile { name: name.to_string(), bytes });
    for NamedFile { name, bytes } in ten_files().into_iter().chain(refused) {
        let mut places = vec![0, 1, 3, 4, 5, 6, 9, 10, 14, bytes.len() - 5, bytes.len() - 1, bytes.len()];
        if bytes.len() < 100 {
            places.extend(0..bytes.len());
        } else {
            // Around the room of one read.
            places.extend([4_096, 65_535, 65_536, 65_537, 131_072]);
            places.extend((0..6).map(|_| random.below(bytes.len() as u64) as usize));
        }
        places.retain(|&place| place <= bytes.len());
        places.sort_unstable();
        places.dedup();
        for place in places {
            let front = &bytes[..place];
            let given = || format!("{place} bytes of {name}");
            let output = left_after_socket(program_that_may_fail(), front, SocketEnd::FailsOnce);
            match at_once(front) {
                Some(refusal) => listed_alone(&mut group, &output, &format!("refused {}\n", refusal.number), given),
                None => not_listed(&mut group, "track_listing", &output, || format!("{}, then a failure", given())),
            }
            let output = left_after_socket(program_that_may_fail(), front, SocketEnd::Ends);
            listed_alone(&mut group, &output, &text(&listing(front)), given);
        }
    }
    // No input, or one that cannot be read at all.
    for redirection in ["<&-", "< /", "< /proc/self/mem"] {
        not_listed(&mut group, "track_listing", &in_shell(&program(), redirection), || redirection.to_string());
    }
    group.close(report);
}

/// Waits until a program has ended, for at most so long; whether it has.
pub fn ends_within(child: &mut Child, time: Duration) -> bool {
    let start = Instant::now();
    loop {
        if child.try_wait().expect("the program's state").is_some() {
            return true;
        }
        if start.elapsed() >= time {
            return false;
        }
        std::thread::sleep(Duration::from_millis(2));
    }
}

/// What a program leaves that the shell starts with these arguments and redirections.
pub fn in_shell(command: &Command, redirection: &str) -> Output {
    let line = format!("\"$0\" \"$@\" {redirection}");
    let mut shell = Command::new("sh");
    shell.args(["-c", &line]).arg(command.get_program()).args(command.get_args()).stdin(Stdio::null());
    shell.output().expect("sh")
}

/// When the program stops reading, and outputs that fail.
pub fn system(report: &mut Report) {
    let mut group = Group::new("the program and the system");
    // A refusal that is given at once does not wait for the end of the input; everything else does.
    let place = [2, 0, 0, 0, 5, 0];
    let number = |value: u32| value.to_le_bytes().to_vec();
    let after_place = |more: &[Vec<u8>]| [place.to_vec(), more.concat()].concat();
    let prefixes = [
        ("place count 3", number(3)),
        ("place count 2 to the power of 25", number(1 << 25)),
        ("131,073 cells", after_place(&[number(131_073)])),
        ("one timing", after_place(&[number(0), number(1)])),
        ("2 to the power of 24 timings after cells", after_place(&[number(8), vec![0xAA], number(1 << 24)])),
        ("three bytes", vec![9, 9, 9]),
        ("131,072 cells", after_place(&[number(131_072)])),
        ("a flux count that is cut", after_place(&[number(8), vec![0xAA], vec![1, 0, 0]])),
        ("neither count", after_place(&[number(0), number(0)])),
        ("bytes left over", after_place(&[number(8), vec![0xAA], number(0), vec![0]])),
        ("a track file", after_place(&[number(20_000), vec![0xAA; 2_500], number(0)])),
    ];
    for (name, prefix) in prefixes {
        let mut child = started(program(), Stdio::piped());
        let mut input = child.stdin.take().expect("a pipe");
        input.write_all(&prefix).expect("the program reads");
        let stops = at_once(&prefix).is_some();
        let patience = Duration::from_millis(if stops { 20_000 } else { 100 });
        group.same(ends_within(&mut child, patience), stops, || format!("{name}, the input still open"));
        drop(input);
        group.same(text(&printed(child)), text(&listing(&prefix)), || name.to_string());
    }
    // An output that cannot be written: the program ends all the same.
    for redirection in [">&-", "> /dev/full"] {
        let output = in_shell(&program(), redirection);
        group.same((text(&output.stderr), output.status.success()), (String::new(), true), || redirection.to_string());
    }
    // A reader that goes away before the listing is written: the program is ended by the system, or ends.
    let mut child = started(program(), Stdio::piped());
    drop(child.stdout.take());
    let mut input = child.stdin.take().expect("a pipe");
    input.write_all(&file_inputs::file_of_cells(5, 0, &vec![1; 20_000])).expect("the program reads");
    drop(input);
    group.same(ends_within(&mut child, Duration::from_secs(20)), true, || "the output's reader has gone".to_string());
    // An empty input is a short file; so is a file on the disk, read as such.
    group.same(text(&through_pipe(program(), &[])), "refused 15\n".to_string(), || "no bytes".to_string());
    let mut own = Vec::new();
    let path = std::env::current_exe().expect("a path");
    File::open(&path).and_then(|mut file| file.read_to_end(&mut own)).expect("this program");
    let child = started(program(), Stdio::from(File::open(&path).expect("this program")));
    group.same(text(&printed(child)), text(&listing(&own)), || "a file that is no track file".to_string());
    group.close(report);
}

/// The shipped samples: both programs give the listings beside them. A block's is that of revolution 1 of 2, at track 0 and side 0.
pub fn samples(report: &mut Report) {
    let mut group = Group::new("samples");
    let folder = concat!(env!("CARGO_MANIFEST_DIR"), "/../../samples");
    for entry in std::fs::read_dir(folder).expect("samples") {
        let path = entry.expect("an entry").path();
        // The folder of a disk: its page is held by the tests of list-disk.
        if path.is_dir() {
            continue;
        }
        let file = std::fs::read(&path).expect("a sample");
        let (second, command) = match path.extension().and_then(OsStr::to_str) {
            Some("track") => (listing(&file), program()),
            Some("block") => (track_block::printed(&file, 2, 1, 0, 0), block_program::program(&["2", "1", "0", "0"])),
            _ => continue,
        };
        let expected = text(&std::fs::read(path.with_extension("listing")).expect("the sample's listing"));
        let name = || path.display().to_string();
        group.same(text(&second), expected.clone(), name);
        let child = started(command, Stdio::from(File::open(&path).expect("a sample")));
        group.same(text(&printed(child)), expected, name);
    }
    group.close(report);
}
