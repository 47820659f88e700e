//! The lines of a list: a file's all at once, so that it is understood before the first call; those of standard input,
//! a pipe or a device one by one, as they come.

use crate::error::{say, Failure};
use crate::files;
use std::ffi::OsStr;
use std::fmt::Display;
use std::fs::{self, File};
use std::io::{self, BufRead, BufReader, IsTerminal, Read};

/// No call needs a longer line: a picture of 1024 × 1024 pixels has less than 6.3 million letters.
const LONGEST: u64 = 8 << 20;

pub enum Lines {
    All(String),
    Each(Box<dyn Iterator<Item = Result<String, String>>>),
}

/// What is wrong with a list, with its name.
pub fn fault(name: &OsStr, message: impl Display) -> Failure {
    files::fault(files::input_name(name), message)
}

pub fn of(name: &OsStr) -> Result<Lines, Failure> {
    if files::is_standard(name) {
        if io::stdin().is_terminal() {
            say("calls are read from the terminal, one a line; Ctrl-D ends them");
        }
        return Ok(Lines::Each(Box::new(each(BufReader::new(io::stdin())))));
    }
    let metadata = fs::metadata(name).map_err(|error| fault(name, error))?;
    if metadata.is_file() || metadata.is_dir() {
        let bytes = fs::read(name).map_err(|error| fault(name, error))?;
        let text = String::from_utf8(bytes);
        let text = text.map_err(|error| fault(name, no_text(error.as_bytes())))?;
        return Ok(Lines::All(text));
    }
    let file = File::open(name).map_err(|error| fault(name, error))?;
    Ok(Lines::Each(Box::new(each(BufReader::new(file)))))
}

/// The first line of some bytes that is no text.
fn no_text(bytes: &[u8]) -> String {
    let mut lines = bytes.split(|byte| *byte == b'\n');
    let place = lines.position(|line| std::str::from_utf8(line).is_err());
    format!("line {}: {NO_TEXT}", place.unwrap_or(0) + 1)
}

const NO_TEXT: &str = "this is no UTF-8 text";

fn each(mut input: impl BufRead) -> impl Iterator<Item = Result<String, String>> {
    // What cannot be read once is not tried again.
    let mut has_failed = false;
    std::iter::from_fn(move || {
        if has_failed {
            return None;
        }
        let mut bytes = Vec::new();
        match input.by_ref().take(LONGEST).read_until(b'\n', &mut bytes) {
            Err(error) => {
                has_failed = true;
                Some(Err(error.to_string()))
            }
            Ok(0) => None,
            Ok(count) if count as u64 == LONGEST => Some(Err("the line is too long".to_owned())),
            Ok(_) => {
                let text = String::from_utf8(bytes).map_err(|_| NO_TEXT.to_owned());
                Some(text)
            }
        }
    })
}

#[cfg(test)]
mod tests {
    use super::*;

    /// An input that cannot be read.
    struct Broken;

    impl Read for Broken {
        fn read(&mut self, _: &mut [u8]) -> io::Result<usize> {
            Err(io::Error::other("broken"))
        }
    }

    #[test]
    fn lines_of_a_stream() {
        let found: Vec<Result<String, String>> = each(&b"one\n\ntwo"[..]).collect();
        assert_eq!(
            found,
            [
                Ok("one\n".to_owned()),
                Ok("\n".to_owned()),
                Ok("two".to_owned())
            ]
        );
        let mut bad = each(&b"free\n\xff\n"[..]);
        assert_eq!(bad.next(), Some(Ok("free\n".to_owned())));
        assert_eq!(bad.next(), Some(Err(NO_TEXT.to_owned())));
        let endless = BufReader::new(io::repeat(b'x'));
        assert_eq!(
            each(endless).next(),
            Some(Err("the line is too long".to_owned()))
        );
        assert_eq!(no_text(b"a\nb\n\xff"), "line 3: this is no UTF-8 text");
        let mut broken = each(BufReader::new(Broken));
        assert_eq!(broken.next(), Some(Err("broken".to_owned())));
        assert_eq!(broken.next(), None);
    }
}
