//! Disks that another program made: MAME's floptool makes the cells of random disks, and the images that the library gives of their tracks have
//! to be these disks again, byte for byte. The cells come from writers that know nothing of this repository.
//!
//! floptool takes the bytes of a disk as a file of some kind, by which it chooses how to write the tracks. With the kinds below of other
//! computers, which have nine sectors on a track in the order of an .ST file, each track has an image. With its kind `st` it writes IDs of the
//! number 66 besides the sectors, where these are nine or ten, and no data behind them. Such a track is refused with 24 and 0, and has its
//! image as soon as these IDs are gone.
//!
//! The other way round, tracks that Write Track makes of such sectors are held to those that floptool makes (module `written`).
//!
//! The argument is a folder for the files. The last line is 'N passed, M failed'; the exit status is 1 where something failed.

mod mfm_file;
mod written;

use mfm_file::MfmFile;
use std::fs;
use std::path::Path;
use std::process::Command;
use test_inputs::random::Random;
use thikbromu::{Refusal, Sector, Track};

/// A disk: the kind of file that floptool takes it for, its tracks, its sides, and the sectors of each track.
struct Disk {
    kind: &'static str,
    tracks: usize,
    sides: usize,
    sectors: usize,
}

const fn disk(kind: &'static str, tracks: usize, sides: usize, sectors: usize) -> Disk {
    Disk { kind, tracks, sides, sectors }
}

/// The kinds of other computers differ in their gaps. The kind `st` has 80 to 82 tracks and 9 to 11 sectors.
const DISKS: [Disk; 13] = [
    disk("pc", 80, 2, 9),
    disk("ql", 80, 2, 9),
    disk("adam", 80, 2, 9),
    disk("smx", 80, 2, 9),
    disk("pc", 40, 2, 9),
    disk("st", 80, 2, 9),
    disk("st", 80, 1, 9),
    disk("st", 81, 2, 9),
    disk("st", 82, 1, 9),
    disk("st", 82, 2, 9),
    disk("st", 80, 2, 10),
    disk("st", 80, 1, 11),
    disk("st", 82, 2, 11),
];

/// The disks whose sectors Write Track writes too: it gives the standard track, of nine sectors.
const WRITTEN: [Disk; 4] = [disk("pc", 80, 2, 9), disk("ql", 80, 2, 9), disk("adam", 80, 2, 9), disk("smx", 80, 2, 9)];

/// The number of the IDs that floptool writes besides.
const BESIDES: u8 = 66;

const SECTOR: usize = 512;

impl Disk {
    fn track_bytes(&self) -> usize {
        SECTOR * self.sectors
    }

    fn bytes(&self) -> usize {
        self.tracks * self.sides * self.track_bytes()
    }

    fn name(&self) -> String {
        format!("{} of {} tracks, {} sides, {} sectors", self.kind, self.tracks, self.sides, self.sectors)
    }
}

/// At most so many failures of a disk are printed.
const MOST_PRINTED: usize = 5;

/// What passed and what failed of one disk.
#[derive(Default)]
struct Counts {
    passed: usize,
    failed: usize,
}

impl Counts {
    fn expect(&mut self, holds: bool, said: impl FnOnce() -> String) {
        if holds {
            self.passed += 1;
            return;
        }
        self.failed += 1;
        if self.failed <= MOST_PRINTED {
            println!("{}", said());
        }
    }
}

fn main() {
    let Some(folder) = std::env::args_os().nth(1) else {
        eprintln!("usage: floptool_image FOLDER");
        std::process::exit(2);
    };
    let (mut passed, mut failed) = (0, 0);
    let mut random = Random::new(70);
    for disk in DISKS {
        let bytes: Vec<u8> = (0..disk.bytes()).map(|_| random.byte()).collect();
        let mut counts = Counts::default();
        let images = match cells_by_floptool(Path::new(&folder), &disk, &bytes) {
            Ok(file) => compare(&mut counts, &disk, &bytes, &file),
            Err(reason) => {
                counts.expect(false, || format!("{}: {reason}", disk.name()));
                0
            }
        };
        let (good, bad) = (counts.passed, counts.failed);
        println!("{}: {} bytes, {images} images, {good} passed, {bad} failed.", disk.name(), bytes.len());
        passed += good;
        failed += bad;
    }
    for disk in WRITTEN {
        let bytes = written::plain_bytes(&mut random, disk.bytes());
        let mut counts = Counts::default();
        let same = match cells_by_floptool(Path::new(&folder), &disk, &bytes) {
            Ok(file) => written::compare(&mut counts, &disk, &bytes, &file),
            Err(reason) => {
                counts.expect(false, || format!("{}: {reason}", disk.name()));
                0
            }
        };
        let (good, bad) = (counts.passed, counts.failed);
        println!("{}: {same} tracks with the fields that Write Track writes, {good} passed, {bad} failed.", disk.name());
        passed += good;
        failed += bad;
    }
    println!("{passed} passed, {failed} failed");
    if failed > 0 {
        std::process::exit(1);
    }
}

/// The cells that floptool makes of the bytes of a disk.
fn cells_by_floptool(folder: &Path, disk: &Disk, bytes: &[u8]) -> Result<MfmFile, String> {
    let (sectors, cells) = (folder.join("disk.st"), folder.join("disk.mfm"));
    // Where floptool writes nothing, the file of the disk before must not stand for it.
    fs::write(&cells, []).map_err(|error| format!("{}: {error}", cells.display()))?;
    fs::write(&sectors, bytes).map_err(|error| format!("{}: {error}", sectors.display()))?;
    let run = Command::new("floptool").args(["flopconvert", disk.kind, "mfm"]).arg(&sectors).arg(&cells).output();
    let run = run.map_err(|error| format!("floptool: {error}"))?;
    if !run.status.success() {
        return Err(format!("floptool: {}, {}", run.status, String::from_utf8_lossy(&run.stderr)));
    }
    MfmFile::new(fs::read(&cells).map_err(|error| format!("{}: {error}", cells.display()))?)
}

/// Each track beside its part of the disk, and the images in a row beside all of it. Gives how many images there are.
fn compare(counts: &mut Counts, disk: &Disk, bytes: &[u8], file: &MfmFile) -> usize {
    counts.expect((file.tracks(), file.sides()) == (disk.tracks, disk.sides), || {
        format!("{}: floptool made {} tracks and {} sides", disk.name(), file.tracks(), file.sides())
    });
    let mut images = Vec::new();
    let mut parts = bytes.chunks(disk.track_bytes());
    for track in 0..disk.tracks {
        for side in 0..disk.sides {
            let part = parts.next().expect("the disk has a part for each track");
            let held = file.cells(track, side).and_then(|packed| match (disk.kind, disk.sectors) {
                ("st", 9) => image_without_besides(packed, track, side, part),
                ("st", _) => refused(packed, track, side, part).map(|()| Vec::new()),
                _ => image(packed, track, side, part),
            });
            counts.expect(held.is_ok(), || {
                format!("{}, track {track}, side {side}: {}", disk.name(), held.as_ref().unwrap_err())
            });
            images.extend(held.unwrap_or_default());
        }
    }
    let whole = if disk.sectors == 9 { bytes } else { &[] };
    counts.expect(images == whole, || format!("{}: the images in a row are not the disk", disk.name()));
    images.len() / disk.track_bytes()
}

/// The track of packed cells: a .mfm file says only how many bytes they have.
fn typed(packed: &[u8], track: usize, side: usize) -> Track<'_> {
    Track::new(packed, 8 * packed.len(), track as u32, side as u32)
}

/// The image of a track, which has to be its part of the disk.
fn image(packed: &[u8], track: usize, side: usize, part: &[u8]) -> Result<Vec<u8>, String> {
    let image = typed(packed, track, side).sector_image().map_err(|refusal| refusal.to_string())?;
    if image[..] != *part {
        return Err(String::from("the image is not that part of the disk"));
    }
    Ok(image.to_vec())
}

/// A track with numbers besides 1 to 9 has no image, though all of its sectors are whole: each that is read out is its part of the disk.
fn refused(packed: &[u8], track: usize, side: usize, part: &[u8]) -> Result<(), String> {
    let typed = typed(packed, track, side);
    if typed.sector_image() != Err(Refusal::NoPlainImage(0)) {
        return Err(format!("not refused with 24 and 0 but {:?}", typed.sector_image().map(|_| "an image")));
    }
    let mut read = vec![None; part.len() / SECTOR];
    for (index, sector) in typed.sectors().map_err(|refusal| refusal.to_string())?.enumerate() {
        if sector.number == BESIDES && !sector.has_data() {
            continue;
        }
        let data = typed.read_out_to_vec(index).map_err(|refusal| refusal.to_string())?;
        let place = read.get_mut(usize::from(sector.number).wrapping_sub(1));
        let place = place.ok_or_else(|| format!("there is a sector {}", sector.number))?;
        if place.replace(data.bytes).is_some() || !data.check_good {
            return Err(format!("sector {} stands twice, or its check is bad", sector.number));
        }
    }
    let read: Option<Vec<Vec<u8>>> = read.into_iter().collect();
    if read.map(|read| read.concat()).as_deref() != Some(part) {
        return Err(String::from("what is read out is not that part of the disk"));
    }
    Ok(())
}

/// A track that is refused because of the IDs besides, and the image that it has without them.
fn image_without_besides(packed: &[u8], track: usize, side: usize, part: &[u8]) -> Result<Vec<u8>, String> {
    refused(packed, track, side, part)?;
    let sectors: Vec<Sector> = typed(packed, track, side).sectors().map_err(|refusal| refusal.to_string())?.collect();
    let mut without = packed.to_vec();
    for sector in sectors.iter().filter(|sector| sector.number == BESIDES) {
        // The bytes that hold its three syncs.
        let place = sector.place as usize;
        without[place / 8..].iter_mut().take(7).for_each(|byte| *byte = 0xAA);
    }
    image(&without, track, side, part)
}
