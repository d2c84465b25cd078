//! The arguments, and what is asked for by them.

use crate::ending::Ended;
use std::ffi::{OsStr, OsString};
use std::path::PathBuf;

pub const VERSION: &str = concat!("thikbromu ", env!("CARGO_PKG_VERSION"), "\n");

pub const HELP: &str = "\
usage: thikbromu disk [OPTION..] IMAGE..
       thikbromu track FILE
       thikbromu block FILE REVOLUTIONS REVOLUTION TRACK SIDE
       thikbromu explain [TERM]
       thikbromu --help | --version

disk IMAGE..       the page of a SuperCard Pro image: all findings, by side and track
  --revolution N   read this revolution, counted from 0; without it 1, or 0 where there is no other
  --weak           compare the other revolutions with it, and list the sectors that differ
  --st OUT         write the plain image of an unprotected disk
  --pictures FOLDER
                   draw the disk, its tracks and the histograms of their timings
  --json, --csv    give the findings for programs
track FILE         the listing of a track file
block FILE ..      the listing of a track block: how many revolutions it has, the one to list,
                   counted from 0, and the track and side of the drive
explain            what findings, levels and refusals mean; of one TERM, as NOS, 3 or 'refused 7'

FILE is - for standard input. A name that begins with - is given as ./-name.

Exit status:
  0  everything was listed
  1  something was refused; standard error tells what, with its number and in words
  2  wrong use
  3  an input cannot be read
  4  an output cannot be written
";

/// What is asked for.
#[derive(Debug)]
pub enum Request {
    Help,
    Version,
    Explain(String),
    Track(OsString),
    Block(BlockWish),
    Disk(DiskWish),
}

/// A track block to list.
#[derive(Debug)]
pub struct BlockWish {
    pub file: OsString,
    pub revolutions: u8,
    pub revolution: u8,
    pub track: u8,
    pub side: u8,
}

/// The form of what is listed of an image.
#[derive(Clone, Copy, Debug, Default, PartialEq, Eq)]
pub enum Form {
    #[default]
    Page,
    Json,
    Csv,
}

/// Images to list, and what else is to be done with them.
#[derive(Debug, Default)]
pub struct DiskWish {
    pub images: Vec<PathBuf>,
    pub revolution: Option<u32>,
    pub form: Form,
    pub weak: bool,
    pub plain_image: Option<PathBuf>,
    pub pictures: Option<PathBuf>,
}

fn wrong(words: impl Into<String>) -> Ended {
    Ended::WrongUse(words.into())
}

/// What the words after the command's name ask for.
pub fn request(words: Vec<OsString>) -> Result<Request, Ended> {
    let mut words = words.into_iter();
    let Some(first) = words.next() else { return Err(wrong("an argument is missing")) };
    let rest: Vec<OsString> = words.collect();
    let asks_for_help = rest.iter().take_while(|word| *word != "--").any(|word| word == "--help" || word == "-h");
    match first.to_str() {
        Some("--help" | "-h" | "help") => Ok(Request::Help),
        Some("--version") => Ok(Request::Version),
        Some("disk" | "track" | "block" | "explain") if asks_for_help => Ok(Request::Help),
        Some("disk") => disk(rest),
        Some("track") => match <[OsString; 1]>::try_from(rest) {
            Ok([file]) => Ok(Request::Track(input(file)?)),
            Err(other) => Err(wrong(format!("track takes one file, and there are {}", other.len()))),
        },
        Some("block") => block(rest),
        Some("explain") => {
            let term: Vec<_> = rest.iter().map(|word| word.to_string_lossy()).collect();
            Ok(Request::Explain(term.join(" ")))
        }
        _ => Err(wrong(format!("there is no {}", first.to_string_lossy()))),
    }
}

/// A file to read, or - for standard input.
fn input(file: OsString) -> Result<OsString, Ended> {
    match file.as_encoded_bytes() {
        [] => Err(wrong("the name of a file is empty")),
        [b'-', _, ..] => {
            let name = file.to_string_lossy();
            Err(wrong(format!("there is no option {name} (a file of that name is given as ./{name})")))
        }
        _ => Ok(file),
    }
}

/// A number in decimal digits, and nothing but these.
fn number<N: std::str::FromStr>(word: &OsStr, what: &str) -> Result<N, Ended> {
    let digits = word.to_str().filter(|text| text.bytes().all(|byte| byte.is_ascii_digit()));
    let parsed = digits.and_then(|digits| digits.parse().ok());
    parsed.ok_or_else(|| wrong(format!("{} is no {what}", word.to_string_lossy())))
}

fn block(words: Vec<OsString>) -> Result<Request, Ended> {
    let [file, numbers @ ..] = <[OsString; 5]>::try_from(words)
        .map_err(|other| wrong(format!("block takes five arguments, and there are {}", other.len())))?;
    let [revolutions, revolution, track, side] = numbers;
    let byte = |word: &OsString| number(word, "number from 0 to 255");
    Ok(Request::Block(BlockWish {
        file: input(file)?,
        revolutions: byte(&revolutions)?,
        revolution: byte(&revolution)?,
        track: byte(&track)?,
        side: byte(&side)?,
    }))
}

fn disk(words: Vec<OsString>) -> Result<Request, Ended> {
    let mut wish = DiskWish::default();
    let mut words = words.into_iter();
    while let Some(word) = words.next() {
        let text = word.to_string_lossy().into_owned();
        if text == "--" {
            wish.images.extend(words.by_ref().map(PathBuf::from));
        } else if text.starts_with('-') {
            option(&mut wish, &text, &mut words)?;
        } else {
            wish.images.push(word.into());
        }
    }
    let single = wish.plain_image.is_some() || wish.pictures.is_some();
    match wish.images.len() {
        0 => Err(wrong("the name of an image is missing")),
        _ if wish.images.iter().any(|name| name.as_os_str().is_empty()) => Err(wrong("the name of an image is empty")),
        number if number > 1 && single => Err(wrong("--st and --pictures go with one image alone")),
        _ => Ok(Request::Disk(wish)),
    }
}

fn option(wish: &mut DiskWish, text: &str, words: &mut impl Iterator<Item = OsString>) -> Result<(), Ended> {
    let value = |words: &mut dyn Iterator<Item = OsString>| {
        let value = words.next().filter(|value| !value.is_empty());
        value.ok_or_else(|| wrong(format!("what belongs to {text} is missing")))
    };
    match text {
        "--weak" => wish.weak = true,
        "--revolution" => wish.revolution = Some(number(&value(words)?, "number of a revolution")?),
        "--st" => wish.plain_image = Some(value(words)?.into()),
        "--pictures" => wish.pictures = Some(value(words)?.into()),
        "--json" | "--csv" => {
            let form = if text == "--json" { Form::Json } else { Form::Csv };
            if wish.form != Form::Page && wish.form != form {
                return Err(wrong("--json and --csv exclude each other"));
            }
            wish.form = form;
        }
        _ => return Err(wrong(format!("there is no option {text} (a file of that name is given as ./{text})"))),
    }
    Ok(())
}
