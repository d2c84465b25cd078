//! Runs the library beside the second program on many inputs, long and short, and compares what each answers and all memory that a caller
//! passed.
//!
//! The library is called over its Rust crate: over `thikbromu::boundary`, which lends buffers of any length, and where the crate's other
//! types have the call, over these as well.
//!
//! An argument names the groups to run, by their module; without one all run. They run side by side, one on each processor, and are printed
//! in their order. The last line is 'N passed, M failed'; the exit status is 1 where something failed.

mod block_program;
mod blocks;
mod coding;
mod converter;
mod converter_program;
mod densities;
mod disk_page;
mod disk_program;
mod files;
mod findings;
mod flux;
mod image_program;
mod images;
mod program;
mod report;
mod sector_image;
mod sectors;
mod single_density;
mod terms;
mod track_cells;
mod two_reads;
mod writing;
mod writing_program;

use report::Report;
use std::collections::BTreeMap;
use std::sync::mpsc::{channel, Receiver, Sender};
use std::sync::Mutex;
use std::thread;

type Part = fn(&mut Report);

/// The parts, by their modules. The long ones come first, so that no worker is left alone with one at the end.
const PARTS: [(&str, Part); 82] = [
    ("converter", converter::old_files),
    ("files", files::in_memory),
    ("findings", findings::any_tracks),
    ("sectors", sectors::standard),
    ("single_density", single_density::sectors_of_tracks),
    ("single_density", single_density::findings_of_tracks),
    ("program", program::whole_files),
    ("converter_program", converter_program::whole_files),
    ("sectors", sectors::any_tracks),
    ("files", files::from_readers),
    ("block_program", block_program::whole_blocks),
    ("flux", flux::extremes),
    ("single_density", single_density::both_densities),
    ("single_density", single_density::standard),
    ("blocks", blocks::cells),
    ("blocks", blocks::portions),
    ("findings", findings::edges),
    ("findings", findings::size_codes),
    ("findings", findings::borders_of_words),
    ("sectors", sectors::size_codes),
    ("program", program::portions),
    ("converter_program", converter_program::portions),
    ("converter_program", converter_program::small_files),
    ("converter", converter::revolutions),
    ("disk_program", disk_program::few_files),
    ("disk_program", disk_program::many_files),
    ("image_program", image_program::whole_files),
    ("image_program", image_program::portions),
    ("image_program", image_program::failing_inputs),
    ("sector_image", sector_image::tracks),
    ("sector_image", sector_image::planned),
    ("disk_page", disk_page::disks),
    ("disk_page", disk_page::of_tracks),
    ("writing", writing::lists),
    ("writing", writing::read_back),
    ("writing_program", writing_program::whole_lists),
    ("blocks", blocks::timings),
    ("blocks", blocks::short_rooms),
    ("images", images::fronts),
    ("images", images::sums),
    ("images", images::reached),
    ("two_reads", two_reads::pairs),
    ("two_reads", two_reads::data_marks),
    ("sector_image", sector_image::any_tracks),
    ("disk_page", disk_page::counts),
    ("terms", terms::tables),
    ("track_cells", track_cells::reading),
    ("track_cells", track_cells::finding),
    ("track_cells", track_cells::marks),
    ("track_cells", track_cells::packing),
    ("coding", coding::known),
    ("coding", coding::check_words),
    ("coding", coding::coding),
    ("coding", coding::decoding),
    ("coding", coding::round_trip),
    ("flux", flux::known),
    ("flux", flux::steps),
    ("flux", flux::lists),
    ("flux", flux::borders),
    ("flux", flux::limits),
    ("flux", flux::histograms),
    ("sectors", sectors::shapes),
    ("sectors", sectors::phases_and_lengths),
    ("single_density", single_density::lists),
    ("single_density", single_density::distances),
    ("single_density", single_density::refused_tracks),
    ("single_density", single_density::steps),
    ("files", files::short_rooms),
    ("converter", converter::rooms),
    ("blocks", blocks::states),
    ("program", program::samples),
    ("program", program::failing_inputs),
    ("program", program::system),
    ("converter_program", converter_program::failing_inputs),
    ("converter_program", converter_program::system),
    ("block_program", block_program::standard_track),
    ("block_program", block_program::standard_track_from_index),
    ("block_program", block_program::failing_inputs),
    ("block_program", block_program::system),
    ("writing_program", writing_program::portions),
    ("writing_program", writing_program::failing_inputs),
    ("writing_program", writing_program::arguments),
];

fn main() {
    let chosen: Vec<String> = std::env::args().skip(1).collect();
    let parts = PARTS.iter().filter(|(name, _)| chosen.is_empty() || chosen.iter().any(|choice| choice == name));
    let left = Mutex::new(parts.map(|(_, part)| part).enumerate());
    let workers = thread::available_parallelism().map_or(2, |number| number.get());
    let (passed, failed) = thread::scope(|scope| {
        let (sender, reports) = channel();
        for _ in 0..workers {
            let (left, sender) = (&left, sender.clone());
            scope.spawn(move || run_all(left, sender));
        }
        drop(sender);
        print_all(reports)
    });
    println!("{passed} passed, {failed} failed");
    if failed > 0 {
        std::process::exit(1);
    }
}

/// Runs parts as long as some are left. They share nothing, so the workers take them in turn.
fn run_all<'a>(left: &Mutex<impl Iterator<Item = (usize, &'a Part)>>, reports: Sender<(usize, Report)>) {
    loop {
        let next = left.lock().expect("taking a part does not stop").next();
        let Some((index, part)) = next else { return };
        let mut report = Report::default();
        part(&mut report);
        reports.send((index, report)).expect("reports are taken until the last worker ends");
    }
}

/// Prints the reports in the order of the parts, each as soon as those before it are there, and adds them up.
fn print_all(reports: Receiver<(usize, Report)>) -> (usize, usize) {
    let (mut passed, mut failed) = (0, 0);
    let mut waiting = BTreeMap::new();
    let mut next = 0;
    for (index, report) in reports {
        passed += report.passed;
        failed += report.failed;
        waiting.insert(index, report.lines);
        while let Some(lines) = waiting.remove(&next) {
            lines.iter().for_each(|line| println!("{line}"));
            next += 1;
        }
    }
    // There is something left only where a part stopped, which ends this program when all others are done.
    waiting.values().flatten().for_each(|line| println!("{line}"));
    (passed, failed)
}
