//! `show`: a picture, or two side by side, as characters on a terminal or as a PNG picture for the eye; or one as numbers.

use crate::error::{Failure, Outcome};
use crate::files;
use crate::numbers::{rows, whole};
use crate::pictures::Picture;
use std::ffi::OsString;
use terminal_size::{terminal_size, Width};

/// Show a picture on the terminal, or two side by side
#[derive(clap::Args)]
#[command(
    before_help = "\
Prints a picture as characters from . (dark) to @ (bright), scaled from the
smallest to the largest that is shown; the last line tells the scale. A picture
that fits has two characters for each pixel, a larger one a character for the
average of 1 × 2 pixels, of 2 × 4, of 3 × 6 and so on: characters are about
twice as high as wide. Two pictures stand side by side on one scale.

With --png the view goes to a file instead, as 8-bit greyscale: the smallest
pixel is 0 and the largest 255. It is enlarged by the largest whole factor with
which it has at most 512 pixels a side; between two pictures stands a grey gap.

With --numbers the pixels of one picture are printed as numbers, a row a line with
tabs between, as the program bench prints them; there is no line with a scale.",
    after_help = "\
Examples:
  $ vokhsaot show spot.pgm smooth.pgm
  $ vokhsaot show horizon.pgm --columns 40
  $ vokhsaot show horizon.pgm --png view.png
  $ vokhsaot show --numbers smooth.pgm"
)]
pub struct Options {
    /// The most columns, 10 to 1000; without it those of the terminal, or 80
    #[arg(long, value_name = "N", value_parser = columns, allow_hyphen_values = true)]
    columns: Option<usize>,
    /// Write the view as a PNG picture instead
    #[arg(long, value_name = "FILE", conflicts_with = "columns")]
    png: Option<OsString>,
    /// Print the pixels of one picture as numbers instead
    #[arg(long, conflicts_with_all = ["columns", "png", "other"])]
    numbers: bool,
    /// The picture; - is standard input
    #[arg(default_value = "-")]
    picture: OsString,
    /// Another one, to stand on its right
    other: Option<OsString>,
}

const FEWEST_COLUMNS: usize = 10;

fn columns(text: &str) -> Result<usize, String> {
    whole(text, FEWEST_COLUMNS as i128..=1000)
}

pub fn command(options: &Options) -> Result<Outcome, Failure> {
    let pictures = options.pictures()?;
    if options.numbers {
        for picture in &pictures {
            files::print(rows(&picture.pixels, picture.width).as_bytes())?;
        }
        return Ok(Outcome::Good);
    }
    match &options.png {
        Some(name) => {
            let view = view(&pictures).png().map_err(Failure::Input)?;
            files::write_all(&[(name, view)])?;
        }
        None => files::print(characters(&pictures, options.columns()).as_bytes())?,
    }
    Ok(Outcome::Good)
}

impl Options {
    /// The pictures from left to right.
    fn pictures(&self) -> Result<Vec<Picture>, Failure> {
        let names: Vec<&OsString> = [&self.picture].into_iter().chain(&self.other).collect();
        if names.iter().filter(|name| files::is_standard(name)).count() > 1 {
            return Err(Failure::Usage {
                command: Some("show"),
                message: "PICTURE and OTHER are both standard input".to_owned(),
            });
        }
        names
            .into_iter()
            .map(|name| files::read_picture(name))
            .collect()
    }

    fn columns(&self) -> usize {
        let terminal = || terminal_size().map(|(Width(columns), _)| columns.into());
        let found = self.columns.or_else(terminal).unwrap_or(80);
        found.max(FEWEST_COLUMNS)
    }
}

/// From dark to bright. None is a blank, so that the pictures' edges are seen.
const RAMP: &[u8; 10] = b".:-=+x*#%@";

/// Blanks between two pictures.
const GAP: usize = 2;

/// Whole levels from 0 for the lowest grey to `most` for the highest.
#[derive(Clone, Copy)]
struct Scale {
    low: u16,
    high: u16,
    most: u32,
}

impl Scale {
    fn of<'a>(greys: impl Iterator<Item = &'a u16> + Clone, most: u32) -> Scale {
        Scale {
            low: greys.clone().copied().min().unwrap_or(0),
            high: greys.copied().max().unwrap_or(0),
            most,
        }
    }

    /// Nearest, halves up. Where all is equal it is the lowest level.
    fn level(&self, grey: u16) -> usize {
        let span = u32::from(self.high - self.low).max(1);
        let above = u32::from(grey - self.low);
        ((2 * above * self.most + span) / (2 * span)) as usize
    }
}

/// How large pixels are shown as characters.
#[derive(Clone, Copy, Debug, PartialEq)]
enum Zoom {
    /// Each pixel is two characters, side by side.
    Doubled,
    /// Each character is so many pixels wide, and twice as many high.
    Reduced(usize),
}

impl Zoom {
    /// The largest with which pictures of these widths, and the gaps between them, fit into the columns.
    fn fitting(pictures: &[Picture], columns: usize) -> Zoom {
        let gaps = GAP * (pictures.len() - 1);
        let fits = |zoom: &Zoom| {
            let widths = pictures.iter().map(|picture| zoom.width(picture));
            widths.sum::<usize>() + gaps <= columns
        };
        let reduced = (1..).map(Zoom::Reduced);
        let mut zooms = [Zoom::Doubled].into_iter().chain(reduced);
        // A character for a whole picture fits at the latest.
        zooms.find(fits).unwrap_or(Zoom::Doubled)
    }

    /// The columns and rows of pixels that one average is taken of.
    fn pixels(self) -> (usize, usize) {
        match self {
            Zoom::Doubled => (1, 1),
            Zoom::Reduced(pixels) => (pixels, 2 * pixels),
        }
    }

    /// The characters for each average.
    fn characters(self) -> usize {
        match self {
            Zoom::Doubled => 2,
            Zoom::Reduced(_) => 1,
        }
    }

    /// The characters that a picture is wide.
    fn width(self, picture: &Picture) -> usize {
        (picture.width as usize).div_ceil(self.pixels().0) * self.characters()
    }

    fn text(self) -> String {
        match (self, self.pixels()) {
            (Zoom::Doubled, _) => "a pixel is 2 characters wide".to_owned(),
            (_, (columns, rows)) => {
                format!("a character is {columns} × {rows} pixels")
            }
        }
    }

    /// The averages that a picture is shown as, by rows.
    fn averages(self, picture: &Picture) -> Vec<Vec<u16>> {
        let width = picture.width as usize;
        let (columns, rows) = self.pixels();
        let bands = picture.pixels.chunks(width * rows);
        bands
            .map(|band| {
                let starts = (0..width).step_by(columns);
                starts
                    .map(|start| average(band, width, start, width.min(start + columns)))
                    .collect()
            })
            .collect()
    }
}

/// The average of some columns of some whole rows, nearest, halves up.
fn average(rows: &[u16], width: usize, start: usize, end: usize) -> u16 {
    let (mut sum, mut count) = (0, 0);
    for row in rows.chunks(width) {
        sum += row[start..end]
            .iter()
            .map(|pixel| u64::from(*pixel))
            .sum::<u64>();
        count += (end - start) as u64;
    }
    ((2 * sum + count) / (2 * count)) as u16
}

/// The lines of one picture or two, and that of their scale.
fn characters(pictures: &[Picture], columns: usize) -> String {
    let zoom = Zoom::fitting(pictures, columns);
    let shown: Vec<Vec<Vec<u16>>> = pictures
        .iter()
        .map(|picture| zoom.averages(picture))
        .collect();
    let scale = Scale::of(shown.iter().flatten().flatten(), RAMP.len() as u32 - 1);
    let lines = shown.iter().map(Vec::len).max().unwrap_or(0);
    let mut text = String::new();
    for line in 0..lines {
        let parts = shown.iter().zip(pictures).map(|(rows, picture)| {
            let row = rows.get(line).map(|row| row_text(row, zoom, scale));
            // Below a picture that is less high than the other there are blanks.
            row.unwrap_or_else(|| " ".repeat(zoom.width(picture)))
        });
        let line = parts.collect::<Vec<String>>().join(&" ".repeat(GAP));
        text += line.trim_end();
        text.push('\n');
    }
    text + &scale_text(scale, zoom)
}

fn row_text(row: &[u16], zoom: Zoom, scale: Scale) -> String {
    let characters = row.iter().map(|grey| char::from(RAMP[scale.level(*grey)]));
    characters
        .flat_map(|character| std::iter::repeat(character).take(zoom.characters()))
        .collect()
}

fn scale_text(scale: Scale, zoom: Zoom) -> String {
    let Scale { low, high, .. } = scale;
    let ramp = String::from_utf8_lossy(RAMP);
    let greys = if low == high {
        format!("{} is {low} everywhere", char::from(RAMP[0]))
    } else {
        format!("{ramp} from {low} to {high}")
    };
    format!("scale: {greys}; {}\n", zoom.text())
}

/// The most pixels a side that small pictures are enlarged to for the eye.
const VIEW: usize = 512;
/// The pixels between two pictures, and their grey, which neither dark nor bright ones hide.
const VIEW_GAP: usize = 8;
const VIEW_GREY: u16 = 128;

/// The largest whole factor with which the view keeps to its most.
fn factor(pictures: &[Picture]) -> usize {
    let gaps = VIEW_GAP * (pictures.len() - 1);
    let width: usize = pictures.iter().map(|picture| picture.width as usize).sum();
    let height = pictures.iter().map(|picture| picture.height as usize).max();
    let across = (VIEW - gaps) / width;
    let down = VIEW / height.unwrap_or(1);
    across.min(down).max(1)
}

/// The pictures side by side, enlarged, from 0 for the smallest pixel to 255 for the largest.
fn view(pictures: &[Picture]) -> Picture {
    let factor = factor(pictures);
    let scale = Scale::of(pictures.iter().flat_map(|picture| &picture.pixels), 255);
    let height = pictures.iter().map(|picture| picture.height as usize).max();
    let mut pixels = Vec::new();
    for row in 0..height.unwrap_or(0) {
        let line = view_row(pictures, row, factor, scale);
        for _ in 0..factor {
            pixels.extend_from_slice(&line);
        }
    }
    let height = height.unwrap_or(0) * factor;
    Picture {
        width: (pixels.len() / height.max(1)) as u32,
        height: height as u32,
        maxval: 255,
        pixels,
    }
}

/// A row of all pictures, each pixel enlarged.
fn view_row(pictures: &[Picture], row: usize, factor: usize, scale: Scale) -> Vec<u16> {
    let mut line = Vec::new();
    for (place, picture) in pictures.iter().enumerate() {
        if place > 0 {
            line.extend([VIEW_GREY; VIEW_GAP]);
        }
        let width = picture.width as usize;
        match picture.pixels.chunks(width).nth(row) {
            None => line.resize(line.len() + width * factor, VIEW_GREY),
            Some(pixels) => {
                let levels = pixels.iter().map(|pixel| scale.level(*pixel) as u16);
                line.extend(levels.flat_map(|level| std::iter::repeat(level).take(factor)));
            }
        }
    }
    line
}
