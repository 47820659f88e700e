//! Pictures in memory, and as PGM or PNG files.

use crate::error::{refusal_text, Failure};
use crate::numbers::MOST_SIDE;
use crate::{pgm, png_file};
use std::ffi::OsStr;
use std::fmt;
use std::io::{self, BufRead, ErrorKind, Read};

/// A picture of `width` × `height` pixels by rows, none above `maxval`.
#[derive(Clone, Debug, PartialEq, Eq)]
pub struct Picture {
    pub width: u32,
    pub height: u32,
    pub maxval: u16,
    pub pixels: Vec<u16>,
}

/// Where a pixel stands.
#[derive(Clone, Copy, Debug, PartialEq, Eq)]
pub struct Place {
    pub column: usize,
    pub row: usize,
}

impl fmt::Display for Place {
    fn fmt(&self, f: &mut fmt::Formatter<'_>) -> fmt::Result {
        write!(f, "column {}, row {}", self.column, self.row)
    }
}

impl Picture {
    /// Where the pixel after so many others stands.
    pub fn place(&self, before: usize) -> Place {
        let width = self.width as usize;
        Place {
            column: before % width,
            row: before / width,
        }
    }

    /// The bytes of a file of this name: PNG where it ends in .png, else PGM.
    pub fn written(&self, name: &OsStr) -> Result<Vec<u8>, Failure> {
        if name
            .to_string_lossy()
            .to_ascii_lowercase()
            .ends_with(".png")
        {
            self.png().map_err(Failure::Input)
        } else {
            Ok(self.pgm())
        }
    }
}

/// Reads a file that holds one picture and nothing else. Its first byte tells the kind.
pub fn read(input: &mut impl BufRead) -> Result<Picture, String> {
    match next_byte(input)? {
        None => Err("the file is empty".to_owned()),
        Some(b'P') => pgm::read(input),
        Some(png_file::FIRST) => png_file::read(input),
        Some(_) => Err("this is neither a PGM nor a PNG file".to_owned()),
    }
}

/// An error of the system as the text of a message.
pub fn words_of(error: io::Error) -> String {
    error.to_string()
}

/// The next byte of a file, which is still to be taken; none at its end.
pub fn next_byte(input: &mut impl BufRead) -> Result<Option<u8>, String> {
    loop {
        match input.fill_buf() {
            Err(error) if error.kind() == ErrorKind::Interrupted => {}
            found => return found.map(|bytes| bytes.first().copied()).map_err(words_of),
        }
    }
}

/// Refuses sides that the library would refuse, before the pixels that they claim are read.
pub fn check_sides(width: u32, height: u32) -> Result<(), String> {
    if [width, height]
        .iter()
        .all(|side| (1..=MOST_SIDE).contains(side))
    {
        return Ok(());
    }
    let refusal = refusal_text(vokhsaot::Error::SideOutOfRange);
    Err(format!("{width} × {height} pixels: {refusal}"))
}

/// Whether the file ends here. More bytes than these are not counted: there may be no end of them.
pub fn check_end(input: &mut impl Read) -> Result<(), String> {
    const MOST_COUNTED: u64 = 4096;
    let counted = io::copy(&mut input.take(MOST_COUNTED), &mut io::sink());
    match counted.map_err(words_of)? {
        0 => Ok(()),
        MOST_COUNTED => Err(format!(
            "the file goes on after the picture (bytes: {MOST_COUNTED} or more)"
        )),
        extra => Err(format!(
            "the file goes on after the picture (bytes: {extra})"
        )),
    }
}
