//! `compare`: how two pictures differ, and whether the other one is what a run makes of the one.

use crate::error::{Failure, Outcome};
use crate::exact::Run;
use crate::files::{self, input_name};
use crate::kernel::explained;
use crate::model::{choice_of, refusal, shape_of};
use crate::pictures::Picture;
use crate::shape::{
    choice_name, other_choice, step_count, ChoiceOption, ShapeOptions, StepCount, Work,
};
use crate::stats::mean;
use reference::shape::shape_kernel_by;
use std::ffi::OsString;
use vokhsaot::Choice;

/// Compare two pictures, or one with a run of another
#[derive(clap::Args)]
#[command(
    before_help = "\
Prints how many pixels of two pictures of equal sides differ, the largest
difference with its first place (column and row, both from 0) and both pixels,
and the mean difference, without signs and with them (OTHER less ONE). Pixels
are taken as they stand; the maxvals do not count. The exit status is 1 where
any pixel differs.

With a shape and --steps OTHER is also compared with a run of ONE: the largest
distance from the exact run, which keeps fractions, is at most K/2, and every
pixel is that of the library's run, here the one between two pictures (that of
smooth works within one). What is not so is written in capitals; then, and only
then, the exit status is 1. Where OTHER is the library's run by the other choice
of f, that is told.",
    after_help = "\
Examples:
  $ vokhsaot compare spot.pgm smooth.pgm
  $ vokhsaot compare --round 0.5 --steps 2 spot.pgm smooth.pgm"
)]
pub struct Options {
    #[command(flatten)]
    shape: ShapeOptions,
    /// The number of steps of the run, 1 to 64, or auto: the fewest with which the shape has a kernel
    #[arg(long, value_name = "K", value_parser = step_count, allow_hyphen_values = true)]
    steps: Option<StepCount>,
    #[command(flatten)]
    choice: ChoiceOption,
    /// The one picture: with a shape that before the run
    one: OsString,
    /// The other one: with a shape that after the run
    #[arg(default_value = "-")]
    other: OsString,
}

pub fn command(options: &Options) -> Result<Outcome, Failure> {
    let asked = options.run()?;
    let (one, other) = options.pictures()?;
    let differences = Differences::of(&one, &other);
    let mut text = differences.text(&one, &other);
    let good = match asked {
        None => differences.count == 0,
        Some(work) => {
            let made = Made::of(work, &one, &other)?;
            text += &made.text(&other);
            made.is_good()
        }
    };
    files::print(text.as_bytes())?;
    Ok(Outcome::good_if(good))
}

impl Options {
    /// The run to compare with, where one is asked for.
    fn run(&self) -> Result<Option<Work>, Failure> {
        match (self.shape.optional("compare")?, self.steps) {
            (None, None) => Ok(None),
            (Some(shape), Some(steps)) => Ok(Some(Work {
                choice: self.choice.read(),
                shape,
                steps: steps.of(shape)?,
            })),
            _ => Err(wrong("a shape and --steps are wanted together, or neither")),
        }
    }

    /// Both pictures, of equal sides.
    fn pictures(&self) -> Result<(Picture, Picture), Failure> {
        if files::is_standard(&self.one) && files::is_standard(&self.other) {
            return Err(wrong("ONE and OTHER are both standard input"));
        }
        let one = files::read_picture(&self.one)?;
        let other = files::read_picture(&self.other)?;
        if (one.width, one.height) == (other.width, other.height) {
            return Ok((one, other));
        }
        Err(Failure::Input(format!(
            "{} has {} × {} pixels, and {} has {} × {}",
            input_name(&self.one).to_string_lossy(),
            one.width,
            one.height,
            input_name(&self.other).to_string_lossy(),
            other.width,
            other.height
        )))
    }
}

fn wrong(message: &str) -> Failure {
    Failure::Usage {
        command: Some("compare"),
        message: message.to_owned(),
    }
}

/// How two pictures differ.
#[derive(Default)]
struct Differences {
    /// The number of pixels that differ, and the first of them among the pixels.
    count: usize,
    first: usize,
    largest: u16,
    /// The first pixel with the largest difference.
    place: usize,
    /// The sum without signs, and with them.
    total: i128,
    signed: i128,
}

impl Differences {
    /// Of pictures of equal sides.
    fn of(one: &Picture, other: &Picture) -> Differences {
        let mut found = Differences::default();
        for (place, (one, other)) in one.pixels.iter().zip(&other.pixels).enumerate() {
            let size = one.abs_diff(*other);
            if size > 0 && found.count == 0 {
                found.first = place;
            }
            found.count += usize::from(size > 0);
            if size > found.largest {
                (found.largest, found.place) = (size, place);
            }
            found.total += i128::from(size);
            found.signed += i128::from(*other) - i128::from(*one);
        }
        found
    }

    fn text(&self, one: &Picture, other: &Picture) -> String {
        let pixels = one.pixels.len();
        format!(
            "{} of {pixels} pixels differ\n\
             largest difference {} in {}: {} and {}\n\
             mean difference {}, with signs {}\n",
            self.count,
            self.largest,
            one.place(self.place),
            one.pixels[self.place],
            other.pixels[self.place],
            mean(self.total, pixels),
            mean(self.signed, pixels)
        )
    }
}

/// How a picture stands to a run of another.
struct Made {
    steps: u32,
    /// The largest distance from the exact run, the first place of it, and whether it is at most k/2.
    distance: f64,
    place: usize,
    is_near: bool,
    /// From the library's run.
    differences: Differences,
    /// The other choice of f, where the library's run by that one is the picture.
    is_by: Option<Choice>,
}

impl Made {
    fn of(work: Work, one: &Picture, other: &Picture) -> Result<Made, Failure> {
        let Work {
            choice,
            shape,
            steps,
        } = work;
        let differences = Differences::of(&after(work, one)?, other);
        let kernel = shape_kernel_by(choice_of(choice), shape_of(shape), steps).map_err(refusal)?;
        let exact = Run {
            kernel,
            start: &one.pixels,
            width: one.width,
            height: one.height,
            steps,
        };
        let farthest = exact.farthest(&other.pixels);
        let is_by = match differences.count {
            0 => None,
            _ => other_maker(work, one, other)?,
        };
        Ok(Made {
            steps,
            distance: farthest.distance,
            place: farthest.place,
            is_near: farthest.is_near,
            differences,
            is_by,
        })
    }

    fn is_good(&self) -> bool {
        self.is_near && self.differences.count == 0
    }

    fn text(&self, other: &Picture) -> String {
        let steps = self.steps;
        let half = f64::from(steps) / 2.0;
        let verdict = if self.is_near {
            format!("at most {half:.1}: within")
        } else {
            format!("MORE than {half:.1}")
        };
        format!(
            "exact run, steps {steps}: largest distance {:.3} in {} ({verdict})\n\
             library's run, steps {steps}: {}\n",
            self.distance,
            other.place(self.place),
            self.equality(other)
        )
    }

    /// How the picture stands to the library's run.
    fn equality(&self, other: &Picture) -> String {
        let count = self.differences.count;
        if count == 0 {
            return "equal".to_owned();
        }
        let by_other = match self.is_by {
            Some(choice) => format!("; equal with --choice {}", choice_name(choice)),
            None => String::new(),
        };
        format!(
            "{count} of {} pixels DIFFER, first in {}{by_other}",
            other.pixels.len(),
            other.place(self.differences.first)
        )
    }
}

/// The other choice of f, where the library's run by that one makes the other picture of the one.
fn other_maker(work: Work, one: &Picture, other: &Picture) -> Result<Option<Choice>, Failure> {
    let choice = other_choice(work.choice);
    let is_made = after(work.by(choice), one)?.pixels == other.pixels;
    Ok(is_made.then_some(choice))
}

/// What the library's run between two pictures makes of a picture: `smooth` has the one within one picture, so that each of the
/// two judges the other.
fn after(work: Work, picture: &Picture) -> Result<Picture, Failure> {
    let pixels = work
        .run_of(picture.width, picture.height, &picture.pixels)
        .map_err(|refusal| explained(refusal, work))?;
    Ok(Picture { pixels, ..*picture })
}
