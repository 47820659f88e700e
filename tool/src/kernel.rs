//! `kernel`: the nine weights of a shape and a step count, or why there are none.

use crate::error::{refusal_text, Failure, Outcome};
use crate::files;
use crate::numbers::Fraction;
use crate::shape::{self, choice_name, other_choice, RunOptions, Work, MOST_STEPS, UNITS};
use vokhsaot::{covariance, Choice, Covariance, Error, Kernel, Shape};

/// Print a shape's kernel, or why there is none
#[derive(clap::Args)]
#[command(
    before_help = "\
Prints the 3 × 3 kernel as fractions, the covariance worked back from it, the
free number f and the choice that it comes from; or the condition that fails, by
how much, and how many steps (at most 64) would be enough. Without a kernel, which
the choice has no part in, the exit status is 1.",
    after_help = "\
Examples:
  $ vokhsaot kernel --matrix 4097,0,4096 --steps 2
  $ vokhsaot kernel --matrix 4097,0,4096 --steps 2 --choice smallest
  $ vokhsaot kernel --matrix 4097,0,4096 --steps 1"
)]
pub struct Options {
    #[command(flatten)]
    run: RunOptions,
}

pub fn command(options: &Options) -> Result<Outcome, Failure> {
    let work = options.run.read("kernel")?;
    let entries = covariance(work.shape)?;
    let (text, outcome) = match work.kernel() {
        Ok(found) => (table_text(&found, work)?, Outcome::Good),
        Err(Error::NoKernel) => (no_kernel_text(entries, work.steps), Outcome::Differs),
        Err(refusal) => return Err(refusal.into()),
    };
    let head = format!("covariance {}\n", covariance_text(entries));
    files::print((head + &text).as_bytes())?;
    Ok(outcome)
}

fn covariance_text(entries: Covariance) -> String {
    let Covariance { xx, xy, yy } = entries;
    format!("xx {xx}, xy {xy}, yy {yy} (in 1/4096 square pixel)")
}

/// M, which a variance must not exceed.
fn most_variance(steps: u32) -> i128 {
    i128::from(UNITS) * i128::from(steps)
}

fn no_kernel_text(entries: Covariance, steps: u32) -> String {
    let mut text = format!(
        "no kernel with steps {steps}, M = {}\n",
        most_variance(steps)
    );
    for reason in reasons(entries, steps) {
        text += &format!("  {reason}\n");
    }
    text + &format!("{}\n", refusal_text(Error::NoKernel))
}

fn table_text(kernel: &Kernel, work: Work) -> Result<String, Error> {
    let steps = work.steps;
    let cell = |dx, dy| Fraction::new(kernel.weight(dx, dy).into(), kernel.sum.into());
    let cells = [-1, 0, 1].map(|dy| [-1, 0, 1].map(|dx| cell(dx, dy).to_string()));
    let width = cells.iter().flatten().map(String::len).max().unwrap_or(0);
    let mut text = format!("steps {steps}, M = {}\n", most_variance(steps));
    text += &format!("f = {}\n", free_number(kernel, steps));
    text += &format!("{}\n", choice_text(kernel, work)?);
    text +=
        "weights, columns x-1, x, x+1 from left to right; y grows with the row number, downward:\n";
    let names = ["row y-1 (above)", "row y", "row y+1 (below)"];
    for (name, [left, middle, right]) in names.iter().zip(&cells) {
        text += &format!("  {name:<15}  {left:>width$}  {middle:>width$}  {right:>width$}\n");
    }
    text += "covariance of these weights, in 1/4096 square pixel:\n";
    let [xx, xy, yy] = worked_back(kernel).map(|moment| moment.times(UNITS.into()));
    text += &format!("  one step: xx {xx}, xy {xy}, yy {yy}\n");
    let [xx, xy, yy] = [xx, xy, yy].map(|entry| entry.times(steps.into()));
    Ok(text + &format!("  all steps: xx {xx}, xy {xy}, yy {yy}\n"))
}

/// The choice of a kernel, and the f of the other choice: where that is the same, so is all the rest.
fn choice_text(kernel: &Kernel, work: Work) -> Result<String, Error> {
    let other = other_choice(work.choice);
    let others = work.by(other).kernel()?;
    let f = match others == *kernel {
        true => "the same f".to_owned(),
        false => format!("f = {}", free_number(&others, work.steps)),
    };
    let (choice, other) = (choice_name(work.choice), choice_name(other));
    Ok(format!("choice {choice} ({f} with {other})"))
}

/// A refusal of a run as it is told: with the reasons where there is no kernel.
pub fn explained(refusal: Error, work: Work) -> Failure {
    match (refusal, covariance(work.shape)) {
        (Error::NoKernel, Ok(entries)) => {
            let sentence = refusal_text(refusal);
            let reasons = reasons(entries, work.steps).join("; ");
            Failure::Input(format!("{}: {reasons}", sentence.trim_end_matches('.')))
        }
        _ => refusal.into(),
    }
}

/// Whether there is a kernel, and it has weight at its centre. The library is asked: which kernels are hollow is the matter of
/// its choices of f.
pub fn has_centre(work: Work) -> bool {
    work.kernel().is_ok_and(|found| found.weight(0, 0) > 0)
}

/// The fewest steps with which a shape's kernel has weight at its centre, where 64 are enough.
pub fn fewest_with_centre(choice: Choice, shape: Shape) -> Option<u32> {
    (1..=MOST_STEPS).find(|steps| {
        has_centre(Work {
            choice,
            shape,
            steps: *steps,
        })
    })
}

/// The largest difference that rounding holds for certain: a step leaves a pixel as it is where no neighbour differs from
/// it by more. None where it leaves every pixel as it is, whatever the difference.
///
/// A step adds the sum of weight × difference over the sum of weights to a pixel. With differences of at most d that is at
/// most (sum − centre) × d / sum. A half goes up, so it must be less than a half, and falls need more than a half.
pub fn held_difference(kernel: &Kernel) -> Option<u64> {
    let around = kernel.sum - kernel.weight(0, 0);
    (kernel.sum - 1).checked_div(2 * around)
}

/// f as the table shows it: the weights of (1, 1) and (1, −1) are f + xy and f − xy over 4 × M.
fn free_number(kernel: &Kernel, steps: u32) -> Fraction {
    let corners = kernel.weight(1, 1) + kernel.weight(1, -1);
    Fraction::new(corners.into(), 2 * i128::from(kernel.sum)).times(4 * most_variance(steps))
}

/// The covariance of one step in square pixels, by its definition from the nine weights: the mean is not assumed.
fn worked_back(kernel: &Kernel) -> [Fraction; 3] {
    let mean = |value: fn(i32, i32) -> i32| {
        let mut total = 0;
        for (dx, dy) in (0..9).map(|place| (place % 3 - 1, place / 3 - 1)) {
            total += i128::from(value(dx, dy)) * i128::from(kernel.weight(dx, dy));
        }
        Fraction::new(total, kernel.sum.into())
    };
    let (x, y) = (mean(|dx, _| dx), mean(|_, dy| dy));
    [
        mean(|dx, _| dx * dx).less(x.product(x)),
        mean(|dx, dy| dx * dy).less(x.product(y)),
        mean(|_, dy| dy * dy).less(y.product(y)),
    ]
}

/// Why there is no kernel: which of the two conditions fail, by how much, and the steps that would do. Steps are 1 to 64
/// here: they are refused before.
pub fn reasons(entries: Covariance, steps: u32) -> Vec<String> {
    let [xx, xy, yy] = [entries.xx, entries.xy, entries.yy].map(i128::from);
    let (smaller, larger) = (xx.min(yy), xx.max(yy));
    let leans_too_far = xy.abs() - smaller;
    let m = most_variance(steps);
    let mut reasons = Vec::new();
    if smaller < 0 {
        reasons.push(format!("the variance {smaller} is negative"));
    } else if leans_too_far > 0 {
        reasons.push(format!(
            "|xy| = {} is {leans_too_far} more than the smaller variance {smaller}",
            xy.abs()
        ));
    }
    if larger > m {
        let more = larger - m;
        reasons.push(format!(
            "the larger variance {larger} is {more} more than M = 4096 × {steps}"
        ));
    }
    let enough = shape::fewest_steps(entries);
    reasons.push(match (leans_too_far > 0, enough <= MOST_STEPS) {
        (true, _) => "no number of steps is enough".to_owned(),
        (false, true) => format!("{enough} steps would be enough"),
        (false, false) => format!("{MOST_STEPS} steps are not enough"),
    });
    reasons
}

#[cfg(test)]
mod tests {
    use super::*;

    /// A table of no kernel of ours: its mean is not zero, which a second moment alone would not show.
    #[test]
    fn covariance_is_about_the_mean() {
        // Half at (0, 0), half at (1, 1): mean 1/2, each entry 1/2 − 1/4.
        let lopsided = Kernel {
            weights: [0, 0, 0, 0, 1, 0, 0, 0, 1],
            sum: 2,
        };
        assert_eq!(worked_back(&lopsided), [Fraction::new(1, 4); 3]);
    }

    /// By hand: the centre has 1 − 1/n of the weights, so a difference of d moves a pixel by at most d/n.
    #[test]
    fn held_differences() {
        for (sum, centre, held) in [
            (64, 62, Some(15)), // 16/32 is a half
            (64, 61, Some(10)), // 10 × 3/64 is less than a half, 11 × 3/64 is more
            (8, 4, Some(0)),    // 1/2 is a half
            (9, 5, Some(1)),    // 4/9 is less, 8/9 is more
            (4, 0, Some(0)),    // no centre at all
            (4, 4, None),       // nothing but a centre
        ] {
            let mut weights = [0; 9];
            (weights[0], weights[4]) = (sum - centre, centre);
            assert_eq!(held_difference(&Kernel { weights, sum }), held);
        }
    }
}
