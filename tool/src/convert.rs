//! `convert`: archived job texts to today's format, and back. The library converts; the tool reads and writes, and overwrites
//! nothing.

use crate::archive;
use crate::error::{refusal_text, say, Failure, Outcome};
use crate::files;
use crate::job_text::{first_fault, Format};
use crate::rules::{Difference, Rule};
use std::ffi::OsString;
use std::path::Path;
use vokhsaot::{convert_j_to_n, convert_n_to_j, Error, TEXT_BYTES};

/// Convert archived job texts to today's format, and back
#[derive(clap::Args)]
#[command(
    before_help = "\
Converts archived job texts, which begin with J, to N texts, whose line one names
the choice of f in an eighth field; or N texts with s back to J. All J texts are
from when f was the smallest, so they get s; an N text with b cannot go back. INPUT
is one text or a folder. Of a folder every regular file below it is converted, to
the same name below the folder OUTPUT, which is made if it is not there. Links in it
are not followed.

No file is overwritten: a target that is there is left as it is. Of each text that
is not converted a line says why: its refusal with the first place that is wrong, or
the target that is there. The last line has the numbers. Each text is also converted
back before it is written, and compared. The exit status is 0 only where all texts
were converted, 1 where one was not, and 2 where a file could not be read or written.",
    after_help = "\
Examples:
  $ vokhsaot convert --to n archive new
  $ vokhsaot convert --to j new back
  $ vokhsaot convert --to n old.txt new.txt"
)]
pub struct Options {
    /// The format to convert to, n from J texts or j from N texts with s
    #[arg(long, value_name = "FORMAT", value_enum, ignore_case = true)]
    to: FormatName,
    /// Of a folder print the last line alone
    #[arg(short, long)]
    quiet: bool,
    /// A text, or a folder of texts
    #[arg(default_value = "-")]
    input: OsString,
    /// The converted text, a new file; or the folder that gets the converted texts
    #[arg(default_value = "-")]
    output: OsString,
}

/// A format as it is typed.
#[derive(clap::ValueEnum, Clone, Copy)]
enum FormatName {
    N,
    J,
}

/// So much of a file is read: one byte more than the longest text has, by which the library sees that it is too long.
pub const MOST_READ: usize = TEXT_BYTES + 1;

pub fn command(options: &Options) -> Result<Outcome, Failure> {
    let (input, output) = (&options.input, &options.output);
    let to = match options.to {
        FormatName::N => Format::N,
        FormatName::J => Format::J,
    };
    let [from_standard, to_standard] = [input, output].map(|name| files::is_standard(name));
    let place = Path::new(input);
    if !from_standard && place.is_dir() {
        return archive::convert(input, output, to, options.quiet);
    }
    // A device may well be both.
    let is_file = !from_standard && !to_standard && place.is_file();
    if is_file && files::is_same(place, Path::new(output)) {
        return Err(files::fault(output, "this is the input itself"));
    }
    let text = files::read_text(input, MOST_READ)?;
    match converted(&text, to) {
        Err(kept) => {
            let said = files::fault(files::input_name(input), kept.text(&text, to));
            say(&said.to_string());
            Ok(Outcome::Differs)
        }
        Ok(bytes) => {
            let is_new = files::write_new(output, &bytes)?;
            if !is_new {
                let said = files::fault(output, "this is there already, and is left as it is");
                say(&said.to_string());
            }
            Ok(Outcome::good_if(is_new))
        }
    }
}

/// Why a text is not converted.
#[derive(Debug, PartialEq)]
pub enum Kept {
    Refused(Error),
    /// The library's own way back does not lead to the text, so its way there is not trusted.
    NotBack(Difference),
}

impl Kept {
    /// What is said of it. Of a text that is no job also where.
    pub fn text(&self, text: &[u8], to: Format) -> String {
        match self {
            Kept::Refused(Error::TextIsNoJob) => {
                let sentence = refusal_text(Error::TextIsNoJob);
                let fault = first_fault(text, to.other());
                let fault = fault.unwrap_or_else(|| NO_FAULT.to_owned());
                format!("{}: {fault}", sentence.trim_end_matches('.'))
            }
            Kept::Refused(refusal) => refusal_text(*refusal),
            Kept::NotBack(difference) => difference.to_string(),
        }
    }
}

/// What is said where the library refuses what the tool's reader takes for a job.
const NO_FAULT: &str = "the tool's own reader finds NOTHING WRONG with it, which is worth a report";

fn by_library(text: &[u8], to: Format) -> Result<Vec<u8>, Error> {
    match to {
        Format::N => convert_j_to_n(text),
        Format::J => convert_n_to_j(text),
    }
}

/// A text in the other format, once it is known to go back to the same bytes.
pub fn converted(text: &[u8], to: Format) -> Result<Vec<u8>, Kept> {
    let found = by_library(text, to).map_err(Kept::Refused)?;
    let detail = match by_library(&found, to.other()) {
        Ok(back) if back == text => return Ok(found),
        Ok(back) => {
            let same = back
                .iter()
                .zip(text)
                .take_while(|(one, other)| one == other);
            format!("byte {} is the first that differs", same.count() + 1)
        }
        Err(refusal) => format!(
            "the way back is {}",
            refusal_text(refusal).trim_end_matches('.')
        ),
    };
    Err(Kept::NotBack(Difference::new(Rule::BackToTheSame, detail)))
}
