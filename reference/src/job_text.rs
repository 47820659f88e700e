//! The two formats of a job's text, what the bench program prints for a text,
//! and the converter between the formats.

use crate::error_code::{require, ErrorCode, BAD_LENGTH, CANNOT_GO_BACK, NOT_A_JOB};
use crate::kernel::{kernel_by, Choice, Covariance, Kernel};
use crate::shape::Shape;
use crate::smooth::{run_by, shown};
use std::fmt::Display;
use std::str::FromStr;

/// How a job is written, by the first byte of its text.
#[derive(Clone, Copy, Debug, PartialEq, Eq)]
pub enum Format {
    /// As in the archives: it names no choice, which was the smallest then.
    J,
    /// As from S-4 on: the choice is written down.
    N,
}

impl Format {
    pub const ALL: [Format; 2] = [Format::J, Format::N];

    /// The first field of line one.
    pub fn letter(self) -> &'static str {
        match self {
            Format::J => "J",
            Format::N => "N",
        }
    }

    /// Most bytes of a text.
    pub fn max_text(self) -> usize {
        match self {
            Format::J => 16_384,
            Format::N => 16_386,
        }
    }

    /// The choices that its texts can have.
    pub fn choices(self) -> &'static [Choice] {
        match self {
            Format::J => &[Choice::Smallest],
            Format::N => &Choice::ALL,
        }
    }
}

/// A job as its text gives it: any numbers of the fields' types, and w × h pixels.
#[derive(Clone, Debug, PartialEq, Eq)]
pub struct Job {
    pub covariance: Covariance,
    pub steps: u32,
    pub width: u32,
    pub height: u32,
    pub choice: Choice,
    pub pixels: Vec<u16>,
}

/// One number: digits without a plus, a leading zero or a minus zero, in the
/// range of its type.
fn number<T: FromStr>(field: &[u8]) -> Option<T> {
    let digits = field.strip_prefix(b"-").unwrap_or(field);
    let canonical = match digits {
        [] => false,
        [b'0'] => digits.len() == field.len(),
        [first, ..] => *first != b'0' && digits.iter().all(u8::is_ascii_digit),
    };
    if canonical {
        std::str::from_utf8(field).ok()?.parse().ok()
    } else {
        None
    }
}

fn fields(line: &[u8]) -> Vec<&[u8]> {
    line.split(|byte| *byte == b'\t').collect()
}

/// A choice as the eighth field names it: s for smallest, b for the rule of S-2.
fn named_choice(field: &[u8]) -> Option<Choice> {
    match field {
        b"s" => Some(Choice::Smallest),
        b"b" => Some(Choice::Binomial),
        _ => None,
    }
}

/// The job of a text, if the text is one in this format.
pub fn parse(format: Format, text: &[u8]) -> Option<Job> {
    if text.len() > format.max_text() {
        return None;
    }
    let mut lines = text.strip_suffix(b"\n")?.split(|byte| *byte == b'\n');
    let mut header = fields(lines.next()?);
    let choice = match format {
        Format::J => Choice::Smallest,
        Format::N => named_choice(header.pop()?)?,
    };
    let [letter, xx, xy, yy, steps, width, height] = header[..] else {
        return None;
    };
    if letter != format.letter().as_bytes() {
        return None;
    }
    let covariance = Covariance {
        xx: number(xx)?,
        xy: number(xy)?,
        yy: number(yy)?,
    };
    let steps = number(steps)?;
    let width: u32 = number(width)?;
    let height: u32 = number(height)?;
    let rows: Vec<&[u8]> = lines.collect();
    let rows_wanted = if width == 0 { 0 } else { height };
    if rows.len() as u64 != u64::from(rows_wanted) {
        return None;
    }
    let mut pixels = Vec::new();
    for row in rows {
        let row = fields(row);
        if row.len() as u64 != u64::from(width) {
            return None;
        }
        for field in row {
            pixels.push(number(field)?);
        }
    }
    let job = Job {
        covariance,
        steps,
        width,
        height,
        choice,
        pixels,
    };
    // A job has one text only in each format.
    debug_assert_eq!(print(format, &job), text);
    Some(job)
}

fn line(letter: Option<&str>, fields: &[impl Display]) -> String {
    let fields: Vec<String> = letter
        .map(String::from)
        .into_iter()
        .chain(fields.iter().map(|field| field.to_string()))
        .collect();
    fields.join("\t") + "\n"
}

/// The pixel lines of a picture; none where a side is 0.
fn rows(width: u32, pixels: &[u16]) -> String {
    pixels
        .chunks(width.max(1) as usize)
        .map(|row| line(None, row))
        .collect()
}

/// The text of a job in a format that can name its choice.
pub fn print(format: Format, job: &Job) -> Vec<u8> {
    let Covariance { xx, xy, yy } = job.covariance;
    let mut header: Vec<String> = [
        i64::from(xx),
        i64::from(xy),
        i64::from(yy),
        i64::from(job.steps),
        i64::from(job.width),
        i64::from(job.height),
    ]
    .map(|number| number.to_string())
    .to_vec();
    match (format, job.choice) {
        (Format::J, Choice::Smallest) => {}
        (Format::J, Choice::Binomial) => panic!("a J text has the smallest choice"),
        (Format::N, Choice::Smallest) => header.push("s".to_string()),
        (Format::N, Choice::Binomial) => header.push("b".to_string()),
    }
    (line(Some(format.letter()), &header) + &rows(job.width, &job.pixels)).into_bytes()
}

/// The greatest common divisor, by halving and subtracting: the library takes
/// remainders.
pub fn gcd(mut a: u64, mut b: u64) -> u64 {
    if a == 0 || b == 0 {
        return a | b;
    }
    let twos = (a | b).trailing_zeros();
    a >>= a.trailing_zeros();
    while b != 0 {
        b >>= b.trailing_zeros();
        (a, b) = (a.min(b), a.abs_diff(b));
    }
    a << twos
}

/// The weights' sum and the nine weights, divided by their greatest common divisor.
pub fn reduced(kernel: &Kernel) -> [u64; 10] {
    let mut numbers = [kernel.sum; 10];
    numbers[1..].copy_from_slice(&kernel.weights);
    let divisor = numbers.into_iter().fold(0, gcd);
    numbers.map(|number| number / divisor)
}

/// Runs a job between two pictures by its choice: its kernel and the picture
/// after all steps; refusals 5, 6, 11.
pub fn run_job(job: &Job) -> Result<(Kernel, Vec<u16>), ErrorCode> {
    let mut first = job.pixels.clone();
    let mut second = vec![0; job.pixels.len()];
    run_by(
        job.choice,
        Shape::Matrix(job.covariance),
        job.steps,
        job.width,
        job.height,
        &mut first,
        &mut second,
    )?;
    let kernel = kernel_by(job.choice, job.covariance, job.steps)?;
    Ok((kernel, shown(job.steps, &first, &second).to_vec()))
}

/// What the bench program, which takes N only, prints for the text on its
/// standard input.
pub fn answer(text: &[u8]) -> Vec<u8> {
    let outcome = parse(Format::N, text)
        .ok_or(NOT_A_JOB)
        .and_then(|job| run_job(&job).map(|(kernel, pixels)| (job, kernel, pixels)));
    match outcome {
        Err(refusal) => line(Some("R"), &[refusal]),
        Ok((job, kernel, pixels)) => {
            line(Some("K"), &reduced(&kernel))
                + &line(Some("P"), &[job.width, job.height])
                + &rows(job.width, &pixels)
        }
    }
    .into_bytes()
}

/// The converter from J to N: reads the job and writes it in the other format,
/// where its choice is named; refusals 1, 9.
pub fn convert_j_to_n(text: &[u8], out: &mut [u8]) -> Result<(), ErrorCode> {
    let job = parse(Format::J, text).ok_or(NOT_A_JOB)?;
    require(out.len() == text.len() + 2, BAD_LENGTH)?;
    out.copy_from_slice(&print(Format::N, &job));
    Ok(())
}

/// The converter from N to J, which can name no choice; refusals 1, 14, 9.
pub fn convert_n_to_j(text: &[u8], out: &mut [u8]) -> Result<(), ErrorCode> {
    let job = parse(Format::N, text).ok_or(NOT_A_JOB)?;
    require(job.choice == Choice::Smallest, CANNOT_GO_BACK)?;
    require(out.len() + 2 == text.len(), BAD_LENGTH)?;
    out.copy_from_slice(&print(Format::J, &job));
    Ok(())
}
