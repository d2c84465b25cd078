//! Writes images: the sample of samples/, a whole disk with any content, or one with protections.
//!
//!     image_writer sample samples/small.scp
//!     image_writer disk TRACKS REVOLUTIONS SEED OUT.scp OUT.st
//!     image_writer protected TRACKS REVOLUTIONS SEED OUT.scp

use image_writer::disks::{sample, Disk};
use std::{env, fs, io};
use test_inputs::random::Random;

fn main() -> io::Result<()> {
    let words: Vec<String> = env::args().skip(1).collect();
    let words: Vec<&str> = words.iter().map(String::as_str).collect();
    let number = |word: &str| word.parse::<u8>().map_err(io::Error::other);
    match words[..] {
        ["sample", out] => fs::write(out, sample().bytes()),
        ["disk", tracks, revolutions, seed, out, content] => {
            let mut random = Random::new(number(seed)?.into());
            let disk = Disk::plain(&mut random, "any content", number(tracks)?, &[0, 1], number(revolutions)?);
            fs::write(content, disk.content())?;
            fs::write(out, disk.image(&mut random).bytes())
        }
        ["protected", tracks, revolutions, seed, out] => {
            let mut random = Random::new(number(seed)?.into());
            let disk = Disk::protected(&mut random, "protected", number(tracks)?, number(revolutions)?);
            fs::write(out, disk.image(&mut random).bytes())
        }
        _ => {
            eprintln!("usage: image_writer sample OUT.scp");
            eprintln!("       image_writer disk TRACKS REVOLUTIONS SEED OUT.scp OUT.st");
            eprintln!("       image_writer protected TRACKS REVOLUTIONS SEED OUT.scp");
            std::process::exit(2);
        }
    }
}
