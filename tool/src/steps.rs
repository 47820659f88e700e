//! `steps`: the height of one pixel after each step of a run, with a bar beside it, and whether it is a peak or a hollow
//! there. The library's run leaves only its last two steps. The others are ticks of its service where a job has the run's
//! kernel: a tick is one step, and the store belongs to the caller. Elsewhere they are the independent program's.

use crate::error::{Failure, Outcome};
use crate::exact::near;
use crate::files;
use crate::kernel::explained;
use crate::numbers::unsigned;
use crate::pictures::Picture;
use crate::shape::{RunOptions, Work};
use std::ffi::OsString;
use std::ops::Range;
use vokhsaot::{shown, Service, BUFFER_PIXELS, SEATS};

/// Print the height of a pixel after each step of a run
#[derive(clap::Args)]
#[command(
    before_help = "\
Prints the height of the pixel at column X and row Y (both from 0) of a picture
after 0, 1, .. K steps of one run: the kernel is that of K steps for all of
them. Beside each height stands a bar (the longest for the largest height
printed, none for 0), and a word for the pixel at that step:
  peak      at least as large as each of its up to eight neighbours inside the
            picture: it does not rise in the next step
  hollow    at most as large as each of them: it does not fall
  flat      both
No word stands where it is neither. A promise that is broken is written in
capitals and gives exit status 1.",
    after_help = "\
Examples:
  $ vokhsaot steps --matrix 4096,0,0 --steps 2 --at 0,0 row.pgm
  $ vokhsaot steps --oval 4,1,30 --steps 8 --at 26,4 horizon.pgm"
)]
pub struct Options {
    #[command(flatten)]
    run: RunOptions,
    /// The pixel's column and row
    #[arg(long, value_name = "X,Y", value_parser = Place::read, allow_hyphen_values = true)]
    at: Place,
    /// The picture before the first step; - is standard input
    #[arg(default_value = "-")]
    input: OsString,
}

/// The longest bar, so that a line with a word has less than 80 characters.
const BAR: usize = 50;

/// The longest side of a tile: a job's picture has at most 1024 pixels.
const TILE: usize = 32;
const _: () = assert!(TILE * TILE <= BUFFER_PIXELS);

pub fn command(options: &Options) -> Result<Outcome, Failure> {
    let work = options.run.read("steps")?;
    let picture = files::read_picture(&options.input)?;
    let (text, broken) = table(&readings(work, options.at, picture)?);
    files::print(text.as_bytes())?;
    Ok(Outcome::good_if(broken == 0))
}

/// A column and a row, from 0.
#[derive(Clone, Copy)]
pub struct Place {
    x: usize,
    y: usize,
}

impl Place {
    fn read(text: &str) -> Result<Place, String> {
        let (x, y) = text
            .split_once(',')
            .ok_or_else(|| format!("\"{text}\" is not a column and a row"))?;
        Ok(Place {
            x: unsigned(x)? as usize,
            y: unsigned(y)? as usize,
        })
    }
}

/// The pixel after 0, 1, .. all steps.
fn readings(work: Work, place: Place, picture: Picture) -> Result<Vec<Reading>, Failure> {
    let (width, height, steps) = (picture.width, picture.height, work.steps);
    let mut whole = Part {
        columns: 0..width as usize,
        rows: 0..height as usize,
        pixels: picture.pixels,
    };
    // Before the run writes over it. Each step takes a pixel's neighbours, and so does the word beside the last height.
    let start = whole.around(place, steps as usize + 1);
    let mut second = vec![0; whole.pixels.len()];
    let first = &mut whole.pixels;
    work.run(width, height, first, &mut second)
        .map_err(|refusal| explained(refusal, work))?;
    let Place { x, y } = place;
    let start = start.ok_or_else(|| {
        Failure::Input(format!(
            "{x},{y} lies outside the picture: it has {width} × {height} pixels, counted from 0"
        ))
    })?;
    let stepper = Stepper {
        work,
        width: width as usize,
        height: height as usize,
        service: Service::new(),
    };
    let mut readings = stepper.readings(start, place)?;
    // Of the run the last two steps are left: the last one is shown, the one before it stands in the other picture.
    let (before, last) = (shown(steps, &second, first)?, shown(steps, first, &second)?);
    for (step, run) in [(steps - 1, before), (steps, last)] {
        readings[step as usize].run = Some(run[y * width as usize + x]);
    }
    Ok(readings)
}

/// Columns or rows in a row of tiles, none of which is longer than [`TILE`] with its margin.
fn tiles(range: Range<usize>, side: usize) -> Vec<Range<usize>> {
    let mut tiles = Vec::new();
    let mut start = range.start;
    while start < range.end {
        let whole = start.saturating_sub(1) + TILE;
        // A picture that ends here has no margin.
        let end = if whole < side { whole - 1 } else { side };
        let end = end.min(range.end);
        tiles.push(start..end);
        start = end;
    }
    tiles
}

/// One more column or row on each side where the picture goes on.
fn with_margin(range: &Range<usize>, side: usize) -> Range<usize> {
    range.start.saturating_sub(1)..side.min(range.end + 1)
}

/// Some columns and rows of a picture, with their pixels by rows.
struct Part {
    columns: Range<usize>,
    rows: Range<usize>,
    pixels: Vec<u16>,
}

impl Part {
    /// Where the pixels of a row stand that are in these columns.
    fn places(&self, row: usize, columns: &Range<usize>) -> Range<usize> {
        let start = (row - self.rows.start) * self.columns.len();
        let column = |x| start + x - self.columns.start;
        column(columns.start)..column(columns.end)
    }

    /// What is at most `reach` away from a place of a whole picture; nothing where the place is outside.
    fn around(&self, place: Place, reach: usize) -> Option<Part> {
        let (Place { x, y }, width, height) = (place, self.columns.end, self.rows.end);
        (x < width && y < height).then(|| self.cut(near(x, reach, width), near(y, reach, height)))
    }

    /// Fewer columns and rows.
    fn cut(&self, columns: Range<usize>, rows: Range<usize>) -> Part {
        let mut pixels = Vec::with_capacity(columns.len() * rows.len());
        for row in rows.clone() {
            pixels.extend_from_slice(&self.pixels[self.places(row, &columns)]);
        }
        Part {
            columns,
            rows,
            pixels,
        }
    }

    /// Takes these columns and rows over from another part.
    fn take(&mut self, other: &Part, columns: &Range<usize>, rows: &Range<usize>) {
        for row in rows.clone() {
            let (to, from) = (self.places(row, columns), other.places(row, columns));
            self.pixels[to].copy_from_slice(&other.pixels[from]);
        }
    }
}

/// One run's steps over parts of its picture, one at a time.
struct Stepper {
    work: Work,
    /// The sides of the whole picture.
    width: usize,
    height: usize,
    /// Its ticks are the steps; it is empty between two of them.
    service: Service,
}

impl Stepper {
    /// The pixel at a place at each step, from what is at most one pixel further away than there are steps. After each
    /// step there is one less on every side that the next one needs.
    fn readings(mut self, start: Part, place: Place) -> Result<Vec<Reading>, Failure> {
        let mut readings = vec![self.reading(&start, place)];
        let mut part = start;
        for reach in (1..=self.work.steps as usize).rev() {
            let columns = near(place.x, reach, self.width);
            part = self.step(&part, columns, near(place.y, reach, self.height))?;
            readings.push(self.reading(&part, place));
        }
        Ok(readings)
    }

    /// Columns and rows after a step, out of a part that has their margin too. They are made in tiles, each with its own
    /// margin: where that is missing the picture itself ends, and the nearest pixel is the same in both.
    fn step(
        &mut self,
        part: &Part,
        columns: Range<usize>,
        rows: Range<usize>,
    ) -> Result<Part, Failure> {
        let mut next = Part {
            pixels: vec![0; columns.len() * rows.len()],
            columns,
            rows,
        };
        for rows in tiles(next.rows.clone(), self.height) {
            for columns in tiles(next.columns.clone(), self.width) {
                let (wide, high) = (
                    with_margin(&columns, self.width),
                    with_margin(&rows, self.height),
                );
                let mut tile = part.cut(wide, high);
                self.step_tile(&mut tile)?;
                next.take(&tile, &columns, &rows);
            }
        }
        Ok(next)
    }

    /// One step of a tile, as a picture of its own.
    fn step_tile(&mut self, tile: &mut Part) -> Result<(), Failure> {
        let (width, height) = (tile.columns.len() as u32, tile.rows.len() as u32);
        let Stepper { work, service, .. } = self;
        tick(service, *work, width, height, &mut tile.pixels)
    }

    /// The pixel at a place among its neighbours, of a part that has them all.
    fn reading(&self, part: &Part, place: Place) -> Reading {
        let Place { x, y } = place;
        let around = part.cut(near(x, 1, self.width), near(y, 1, self.height));
        let height = around.pixels[around.places(y, &(x..x + 1)).start];
        Reading {
            height,
            is_peak: around.pixels.iter().all(|other| height >= *other),
            is_hollow: around.pixels.iter().all(|other| height <= *other),
            run: None,
        }
    }
}

/// One step of a picture: the first tick of a job with the run's choice, its shape and all its steps, so with its kernel.
fn tick(
    service: &mut Service,
    work: Work,
    width: u32,
    height: u32,
    pixels: &mut [u16],
) -> Result<(), Failure> {
    let Work {
        choice,
        shape,
        steps,
    } = work;
    let number = service.submit_by(choice, shape, steps, width, height, pixels)?;
    if service.tick()? != Some(number) {
        return Err(Failure::Input(
            "a tick did NOT serve the only job".to_owned(),
        ));
    }
    // No other seat is filled, so they take turns. After an odd number of steps the second buffer has the picture.
    let seat = (number - 1) as usize % SEATS;
    let buffer = (2 * seat + 1) * BUFFER_PIXELS;
    pixels.copy_from_slice(&service.store()[buffer..buffer + pixels.len()]);
    service.withdraw(number)?;
    Ok(())
}

/// The pixel after some step.
struct Reading {
    height: u16,
    /// At least as large as each neighbour inside the picture.
    is_peak: bool,
    /// At most as large as each of them.
    is_hollow: bool,
    /// What the library's run over the whole picture has there, where it leaves that step.
    run: Option<u16>,
}

impl Reading {
    fn word(&self) -> &'static str {
        match (self.is_peak, self.is_hollow) {
            (true, true) => "flat",
            (true, false) => "peak",
            (false, true) => "hollow",
            (false, false) => "",
        }
    }

    /// The promises that are broken here, with the height of the next step.
    fn broken(&self, next: Option<u16>) -> Vec<String> {
        let mut broken = Vec::new();
        if self.is_peak && next.is_some_and(|next| next > self.height) {
            broken.push("RISES in the next step".to_owned());
        }
        if self.is_hollow && next.is_some_and(|next| next < self.height) {
            broken.push("FALLS in the next step".to_owned());
        }
        if let Some(run) = self.run.filter(|run| *run != self.height) {
            broken.push(format!("DIFFERS from the run's {run}"));
        }
        broken
    }
}

/// A line for each step, and how many of them tell of a broken promise.
fn table(readings: &[Reading]) -> (String, usize) {
    let largest = readings.iter().map(|reading| reading.height).max();
    let largest = usize::from(largest.unwrap_or(0));
    let digits = |number: usize| number.to_string().len();
    let (step_digits, height_digits) = (digits(readings.len() - 1), digits(largest));
    let mut text = String::new();
    let mut lines_broken = 0;
    for (step, reading) in readings.iter().enumerate() {
        let height = reading.height;
        let broken = reading.broken(readings.get(step + 1).map(|next| next.height));
        lines_broken += usize::from(!broken.is_empty());
        let mut words = broken;
        words.insert(0, reading.word().to_owned());
        words.retain(|word| !word.is_empty());
        let line = format!(
            "step {step:>step_digits$}  {height:>height_digits$}  {:<BAR$}  {}",
            bar(height.into(), largest),
            words.join(", ")
        );
        text += line.trim_end();
        text.push('\n');
    }
    (text, lines_broken)
}

/// The bar of a height, rounded up: every height but 0 has one.
pub fn bar(height: usize, largest: usize) -> String {
    "#".repeat((BAR * height).div_ceil(largest.max(1)))
}

#[cfg(test)]
mod tests {
    use super::*;

    #[test]
    fn tiles_fill_a_range_and_fit_a_job() {
        for side in 1..=140 {
            for start in 0..side {
                for end in start + 1..=side {
                    let mut next = start;
                    for tile in tiles(start..end, side) {
                        assert!(tile.start == next && tile.start < tile.end);
                        assert!(with_margin(&tile, side).len() <= TILE);
                        next = tile.end;
                    }
                    assert_eq!(next, end, "{start}..{end} of {side}");
                }
            }
        }
        // A small picture is one tile; a middle tile has a margin on both sides.
        assert_eq!(tiles(0..32, 32).len(), 1);
        assert_eq!(tiles(0..64, 64), [0..31, 31..61, 61..64]);
        assert_eq!(tiles(4..35, 64), [4..34, 34..35]);
    }

    #[test]
    fn columns_near_a_place() {
        assert_eq!(near(5, 2, 20), 3..8);
        assert_eq!(near(1, 2, 3), 0..3);
        assert_eq!(near(0, u32::MAX as usize + 1, 7), 0..7);
    }

    #[test]
    fn parts_by_columns_and_rows() {
        // Rows 20 and 21, columns 10 to 12.
        let part = Part {
            columns: 10..13,
            rows: 20..22,
            pixels: vec![1, 2, 3, 4, 5, 6],
        };
        let right = part.cut(11..13, 20..22);
        assert_eq!(right.pixels, [2, 3, 5, 6]);
        assert_eq!(right.cut(12..13, 21..22).pixels, [6]);
        let mut dark = Part {
            columns: 9..14,
            rows: 21..22,
            pixels: vec![0; 5],
        };
        dark.take(&right, &(11..12), &(21..22));
        assert_eq!(dark.pixels, [0, 0, 5, 0, 0]);
    }

    #[test]
    fn bars_are_scaled_to_the_largest() {
        for (height, largest, length) in [
            (65535, 65535, 50),
            (1, 65535, 1),
            (1310, 65535, 1),
            (1311, 65535, 2),
            (7, 7, 50),
            (3, 7, 22),
            (0, 7, 0),
            (0, 0, 0),
        ] {
            assert_eq!(bar(height, largest).len(), length, "{height} {largest}");
        }
    }

    /// Heights with a word each, as the table takes them: p is a peak, h a hollow, f both.
    fn lines(heights: &[(u16, &str)], run: [Option<u16>; 2]) -> (Vec<String>, usize) {
        let mut readings: Vec<Reading> = heights
            .iter()
            .map(|(height, word)| Reading {
                height: *height,
                is_peak: ["p", "f"].contains(word),
                is_hollow: ["h", "f"].contains(word),
                run: None,
            })
            .collect();
        for (reading, run) in readings.iter_mut().rev().zip(run) {
            reading.run = run;
        }
        let (text, broken) = table(&readings);
        // Without the bars, which have a test of their own.
        let lines = text.lines().map(|line| line.replace(['#'], ""));
        let lines = lines.map(|line| line.split_whitespace().collect::<Vec<&str>>().join(" "));
        (lines.collect(), broken)
    }

    #[test]
    fn promises_that_are_kept() {
        let heights = [(8, "p"), (6, ""), (9, ""), (7, "h"), (7, "f"), (7, "p")];
        let (text, broken) = lines(&heights, [Some(7), Some(7)]);
        let expected = [
            "step 0 8 peak",
            "step 1 6",
            "step 2 9",
            "step 3 7 hollow",
            "step 4 7 flat",
            "step 5 7 peak",
        ];
        assert_eq!((text, broken), (expected.map(str::to_owned).to_vec(), 0));
    }

    #[test]
    fn promises_that_are_broken() {
        for (heights, expected) in [
            ([(8, "p"), (9, "")], "step 0 8 peak, RISES in the next step"),
            (
                [(8, "h"), (7, "")],
                "step 0 8 hollow, FALLS in the next step",
            ),
            ([(8, "f"), (9, "")], "step 0 8 flat, RISES in the next step"),
            ([(8, "f"), (7, "")], "step 0 8 flat, FALLS in the next step"),
        ] {
            let (text, broken) = lines(&heights, [None, None]);
            assert_eq!((text[0].as_str(), broken), (expected, 1));
        }
        let heights = [(8, "p"), (6, ""), (9, "")];
        let (text, broken) = lines(&heights, [Some(10), Some(5)]);
        assert_eq!(text[1], "step 1 6 DIFFERS from the run's 5");
        assert_eq!(text[2], "step 2 9 DIFFERS from the run's 10");
        assert_eq!(broken, 2);
        // Both on one line count once.
        let (text, broken) = lines(&[(1, "p"), (2, "")], [Some(2), Some(3)]);
        let expected = "step 0 1 peak, RISES in the next step, DIFFERS from the run's 3";
        assert_eq!((text[0].as_str(), broken), (expected, 1));
    }

    #[test]
    fn lines_are_aligned() {
        let reading = |height, is_peak| Reading {
            height,
            is_peak,
            is_hollow: false,
            run: None,
        };
        let (text, _) = table(&[reading(65535, true), reading(0, false), reading(4, true)]);
        let expected = format!(
            "step 0  65535  {}  peak\nstep 1      0\nstep 2      4  #{}  peak\n",
            "#".repeat(50),
            " ".repeat(49)
        );
        assert_eq!(text, expected);
    }
}
