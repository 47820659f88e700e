//! `smooth`: a picture in, the picture after k steps out; and warnings where the picture is hardly what was wanted.

use crate::error::{say, Failure, Outcome};
use crate::files;
use crate::kernel::{explained, fewest_with_centre, has_centre, held_difference};
use crate::shape::{steps_text, RunOptions, Work, UNITS};
use std::ffi::OsString;
use vokhsaot::{Choice, Kernel};

/// Smooth a picture
#[derive(clap::Args)]
#[command(
    before_help = "\
Smooths a PGM or PNG picture in K steps and writes it with the same maxval. Its
sides are 1 to 1024. Without names the picture comes from standard input and goes
to standard output, as with netpbm; so does a file named -. The run works within
that one picture; compare makes the one between two, which has the same pixels.

Warns where no pixel changed, where rounding held many (each step rounds to whole
units, so many steps keep small differences) and where the kernel has no weight at
its centre. The picture is written all the same, and the exit status is 0.",
    after_help = "\
Examples:
  $ vokhsaot smooth --round 0.5 --steps 2 spot.pgm smooth.pgm
  $ vokhsaot smooth --round 0.5 --steps 1 --choice smallest spot.pgm hollow.pgm
  $ vokhsaot smooth --oval 4,1,30 --steps auto < horizon.pgm > oval.pgm"
)]
pub struct Options {
    #[command(flatten)]
    run: RunOptions,
    /// Say nothing but errors: no warnings, and not the steps of auto
    #[arg(long, short)]
    quiet: bool,
    /// The picture to smooth
    #[arg(default_value = "-")]
    input: OsString,
    /// Where the smoothed picture goes; a name that ends in .png makes it PNG
    #[arg(default_value = "-")]
    output: OsString,
}

pub fn command(options: &Options) -> Result<Outcome, Failure> {
    let work = options.run.read("smooth")?;
    let mut picture = files::read_picture(&options.input)?;
    let (width, height) = (picture.width, picture.height);
    // The run needs no second picture. The warnings do: they are about what it changed.
    let before = (!options.quiet).then(|| picture.pixels.clone());
    // An average is at most the largest pixel, so the maxval still holds.
    work.run_in_place(width, height, &mut picture.pixels)
        .map_err(|refusal| explained(refusal, work))?;
    files::write_picture(&options.output, &picture)?;
    let Some(before) = before else {
        return Ok(Outcome::Good);
    };
    if options.run.is_auto() {
        let steps = steps_text(work.steps);
        say(&format!("{steps}, the fewest with a kernel"));
    }
    let seen = Seen {
        work,
        kernel: work.kernel()?,
        width: width as usize,
        maxval: picture.maxval,
        before: &before,
        after: &picture.pixels,
    };
    for warning in seen.warnings() {
        say(&format!("warning: {warning}"));
    }
    Ok(Outcome::Good)
}

fn units_text(units: u64) -> String {
    match units {
        1 => "1 unit".to_owned(),
        _ => format!("{units} units"),
    }
}

/// Rounding is told where it held at least one of so many pixels that an exact step would change.
const CONSIDERABLE: usize = 4;

/// A run that is over, as its warnings see it.
struct Seen<'a> {
    work: Work,
    kernel: Kernel,
    width: usize,
    maxval: u16,
    before: &'a [u16],
    after: &'a [u16],
}

/// What rounding did to the pixels of a picture.
#[derive(Debug, PartialEq)]
struct Held {
    /// Those that an exact step would change: the average is another number.
    uneven: usize,
    /// Those of them that the first step rounds back, and that are the same at the end.
    held: usize,
}

impl Seen<'_> {
    fn warnings(&self) -> Vec<String> {
        let about_pixels = if self.after == self.before {
            Some(format!("no pixel changed: {}", self.why_unchanged()))
        } else {
            self.much_held()
        };
        let hollow = (self.kernel.weight(0, 0) == 0).then(|| self.without_centre());
        about_pixels.into_iter().chain(hollow).collect()
    }

    /// Why a picture is the same after the run. Where the first step keeps it, each one does: that is where it rounds back every
    /// pixel that an exact step would change.
    fn why_unchanged(&self) -> String {
        let found = self.held();
        if self.kernel.weight(0, 0) == self.kernel.sum {
            "the covariance is 0".to_owned()
        } else if found.uneven == 0 {
            "each already is the average of itself and its neighbours".to_owned()
        } else if found.held < found.uneven {
            "the steps changed some, and brought each of them back".to_owned()
        } else {
            let count = found.uneven;
            self.with_rounding(&format!(
                "rounding held all {count} that an exact step would change"
            ))
        }
    }

    /// A warning where rounding held a considerable part, by differences that this kernel is sure to hold.
    fn much_held(&self) -> Option<String> {
        let Held { uneven, held } = self.held();
        let holds_some = held_difference(&self.kernel).is_some_and(|units| units > 0);
        (holds_some && CONSIDERABLE * held >= uneven).then(|| {
            self.with_rounding(&format!(
                "rounding held {held} of {uneven} pixels that an exact step would change"
            ))
        })
    }

    /// What rounding did, then the differences that it is sure to hold, and what helps.
    fn with_rounding(&self, what: &str) -> String {
        let mut text = what.to_owned();
        if let Some(units) = held_difference(&self.kernel).filter(|units| *units > 0) {
            let (steps, units) = (steps_text(self.work.steps), units_text(units));
            text += &format!("; at {steps} it holds differences up to {units}");
            text += &self.with_fewer_steps();
        }
        match u16::MAX / self.maxval {
            0 | 1 => text,
            factor => {
                let maxval = factor * self.maxval;
                text + &format!("; more units help: pixels times {factor}, maxval {maxval}")
            }
        }
    }

    /// The same of the fewest steps that can be recommended: those with weight at the centre.
    fn with_fewer_steps(&self) -> String {
        let Work { choice, shape, .. } = self.work;
        let fewer = fewest_with_centre(choice, shape).filter(|fewer| *fewer < self.work.steps);
        let Some(steps) = fewer else {
            return String::new();
        };
        let with_fewer = Work { steps, ..self.work };
        match with_fewer.kernel().map(|found| held_difference(&found)) {
            Ok(Some(units)) => format!(" (at {}: {units})", steps_text(steps)),
            _ => String::new(),
        }
    }

    /// What a kernel without weight at its centre does, and what gives it some.
    fn without_centre(&self) -> String {
        format!(
            "the kernel has no weight at its centre: each step takes all of a lone bright pixel to its neighbours, which leaves rings or checkerboards; {}",
            self.with_centre()
        )
    }

    /// What gives the centre weight: the other choice of f, unless a variance is all that the steps can carry, and more steps.
    fn with_centre(&self) -> String {
        let Work {
            choice,
            shape,
            steps,
        } = self.work;
        let full = format!(
            "the larger variance is all of M = {UNITS} × {steps}, so no choice of f gives it some"
        );
        let fewest = fewest_with_centre(choice, shape).map(steps_text);
        match (has_centre(self.work.by(Choice::Binomial)), fewest) {
            (true, Some(steps)) => {
                format!("it has some without --choice smallest, or with {steps}")
            }
            (true, None) => "it has some without --choice smallest".to_owned(),
            (false, Some(steps)) => format!("{full}; with {steps} it has some"),
            (false, None) => format!("{full}, and no number of steps does"),
        }
    }

    fn held(&self) -> Held {
        let sum = self.kernel.sum as i64;
        let mut found = Held { uneven: 0, held: 0 };
        let pairs = self.before.iter().zip(self.after).enumerate();
        for (place, (before, after)) in pairs {
            let change = self.change(place);
            // Nearest, halves up: a rise begins at a half, a fall above a half.
            let rounds_back = (-sum..sum).contains(&(2 * change));
            found.uneven += usize::from(change != 0);
            found.held += usize::from(change != 0 && rounds_back && before == after);
        }
        found
    }

    /// What an exact step adds to the pixel at a place, times the sum of the weights.
    fn change(&self, place: usize) -> i64 {
        let height = self.before.len() / self.width;
        let (x, y) = (place % self.width, place / self.width);
        let columns = [x.saturating_sub(1), x, (x + 1).min(self.width - 1)];
        let rows = [y.saturating_sub(1), y, (y + 1).min(height - 1)];
        let pixel = i64::from(self.before[place]);
        let mut change = 0;
        for (row, weights) in rows.into_iter().zip(self.kernel.weights.chunks(3)) {
            for (column, weight) in columns.into_iter().zip(weights) {
                let other = i64::from(self.before[row * self.width + column]);
                change += *weight as i64 * (other - pixel);
            }
        }
        change
    }
}
