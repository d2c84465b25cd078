//! The subcommand `disk`: images one after the other.

use crate::arguments::{DiskWish, Form};
use crate::ending::{say, unreadable, Ended, Output, Status};
use crate::image_file::{self, ImageFile};
use crate::progress::Progress;
use crate::reading::{self, TrackReading};
use crate::{formats, pictures, plain_image, refusals};
use std::path::Path;
use thikbromu::{disk_page, Refusal};

/// An image with all that was read of it.
pub struct DiskReading<'a> {
    pub file: ImageFile<'a>,
    pub revolution: u32,
    pub tracks: Vec<TrackReading>,
    /// The page, which the library makes.
    pub page: String,
}

/// Lists the images. One that is refused or cannot be read does not keep the others from being listed.
pub fn list(wish: &DiskWish, output: &mut Output) -> Result<Status, Ended> {
    let mut status = Status::Listed;
    if wish.form == Form::Csv {
        output.write(formats::CSV_HEAD)?;
    }
    // One buffer for all images, so that memory does not grow with their number.
    let mut buffer = Vec::new();
    for path in &wish.images {
        status = status.max(list_one(wish, path, &mut buffer, output)?);
        output.flush()?;
    }
    Ok(status)
}

fn list_one(wish: &DiskWish, path: &Path, buffer: &mut Vec<u8>, output: &mut Output) -> Result<Status, Ended> {
    let name = path.display().to_string();
    let several = wish.images.len() > 1;
    // What is said of an image has its name where there are others.
    let prefix = if several { format!("{name}: ") } else { String::new() };
    if several && wish.form == Form::Page {
        output.write(&format!("{name}:\n"))?;
    }
    let disk = match image_file::read(path, buffer) {
        Ok(file) => file.and_then(|file| read(wish, &name, file)),
        Err(error) => {
            if wish.form == Form::Json {
                output.write(&formats::json_unreadable(&name, &error))?;
            }
            let ended = unreadable(&name, &error);
            say(&format!("thikbromu: {}", ended.words().unwrap_or_default()));
            return Ok(ended.status());
        }
    };
    let disk = match disk {
        Ok(disk) => disk,
        Err(refusal) => {
            say(&format!("{name}: {}", refusals::in_words(refusal)));
            match wish.form {
                Form::Page => {}
                Form::Json => output.write(&formats::json_refused(&name, refusal))?,
                Form::Csv => output.write(&formats::csv_refused(&name, refusal))?,
            }
            return Ok(Status::Refused);
        }
    };
    let mut status = say_refused(&disk, &prefix);
    match wish.form {
        Form::Page => {
            output.write(&disk.page)?;
            output.write(&formats::weak_lines(&disk))?;
        }
        Form::Json => output.write(&formats::json(&name, &disk))?,
        Form::Csv => output.write(&formats::csv(&name, &disk))?,
    }
    output.flush()?;
    if let Some(out) = &wish.plain_image {
        status = status.max(plain_image::write(&disk, out)?);
    }
    if let Some(folder) = &wish.pictures {
        pictures::write(&name, &disk, folder)?;
    }
    Ok(status)
}

/// Reads the tracks and makes the page.
fn read<'a>(wish: &DiskWish, name: &str, file: ImageFile<'a>) -> Result<DiskReading<'a>, Refusal> {
    let revolutions = u32::from(file.image.header().revolutions);
    let revolution = wish.revolution.unwrap_or(1.min(revolutions - 1));
    // Every block would be refused so, and one revolution has no other to be compared with.
    if revolution >= revolutions || (wish.weak && revolutions == 1) {
        return Err(Refusal::NoSuchRevolution);
    }
    let progress = Progress::new(name.to_string(), file.image.blocks().count());
    let tracks = reading::read_all(&file, wish, revolution, &progress);
    progress.clear();
    let found: Vec<_> = tracks
        .iter()
        .filter_map(|reading| Some((reading.track, reading.side, &reading.read.as_ref().ok()?.findings)))
        .collect();
    let page = disk_page(&found)?;
    Ok(DiskReading { file, revolution, tracks, page })
}

/// Names each track that is refused, and each revolution that could not be compared.
fn say_refused(disk: &DiskReading, prefix: &str) -> Status {
    let mut status = Status::Listed;
    for TrackReading { track, side, read } in &disk.tracks {
        let mut say_of = |what: &str, refusal: Refusal| {
            say(&format!("{prefix}T{track:02} H{side} {what}{}", refusals::in_words(refusal)));
            status = Status::Refused;
        };
        match read {
            Err(refusal) => say_of("", *refusal),
            Ok(read) => {
                for (revolution, refusal) in &read.not_compared {
                    say_of(&format!("revolution {revolution} "), *refusal);
                }
            }
        }
    }
    status
}
