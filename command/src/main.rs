//! The command `thikbromu`: the page of a whole SuperCard Pro image, its plain image, its weak sectors and pictures of it; the listing of a
//! track file or of a track block; and what findings and refusals mean. docs/COMMAND.md tells how it is used.
//!
//! Whatever decides anything of a disk is the library's: here are files, threads, the terminal and exit statuses.
#![forbid(unsafe_code)]

mod arguments;
mod disk;
mod ending;
mod explain;
mod files;
mod formats;
mod histogram_picture;
mod image_file;
mod kinds;
mod listings;
mod pictures;
mod plain_image;
mod progress;
mod reading;
mod refusals;
mod svg;
mod track_picture;
mod weak;

use arguments::{Request, HELP, VERSION};
use ending::{say, Ended, Output, Status};
use std::process::ExitCode;

fn main() -> ExitCode {
    let words = std::env::args_os().skip(1).collect();
    let status = match arguments::request(words).and_then(run) {
        Ok(status) => status,
        Err(ended) => {
            if let Some(words) = ended.words() {
                say(&format!("thikbromu: {words}"));
            }
            ended.status()
        }
    };
    ExitCode::from(status as u8)
}

fn run(request: Request) -> Result<Status, Ended> {
    let mut output = Output::new();
    let status = match request {
        Request::Help => output.write(HELP).map(|()| Status::Listed),
        Request::Version => output.write(VERSION).map(|()| Status::Listed),
        Request::Explain(term) => output.write(&explain::explained(&term)?).map(|()| Status::Listed),
        Request::Track(file) => listings::track(&file, &mut output),
        Request::Block(block) => listings::block(&block, &mut output),
        Request::Disk(wish) => disk::list(&wish, &mut output),
    }?;
    output.flush()?;
    Ok(status)
}
