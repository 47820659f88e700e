//! Shapes, step counts and choices of f as options (`--oval 4,1,30`), and shapes as words of a list (`oval 4 1 30`).

use crate::error::Failure;
use crate::numbers::{float, unsigned, whole};
use vokhsaot::{
    covariance, kernel_by, run_by, shown, smooth_in_place_by, Choice, Covariance, Direction, Error,
    Kernel, Shape,
};

pub use vokhsaot::{MOST_STEPS, UNITS_PER_SQUARE_PIXEL as UNITS};

/// The options of a command that takes a shape.
#[derive(clap::Args, Clone)]
pub struct ShapeOptions {
    /// The covariance, whole numbers in 1/4096 square pixel; exactly one of the three shapes is wanted
    #[arg(long, value_name = "XX,XY,YY", value_parser = matrix, allow_hyphen_values = true)]
    matrix: Option<Shape>,
    /// One variance in square pixels, 0 to 64
    #[arg(long, value_name = "VARIANCE", value_parser = round, allow_hyphen_values = true)]
    round: Option<Shape>,
    /// Variances along and across a direction in degrees, which turn from x (right) towards y (down, with the row number);
    /// LONG,SHORT,COSINE,SINE is taken too
    #[arg(long, value_name = "LONG,SHORT,DEGREES", value_parser = oval, allow_hyphen_values = true)]
    oval: Option<Shape>,
}

impl ShapeOptions {
    /// The shape that is given; where none may be, `None`.
    pub fn optional(&self, command: &'static str) -> Result<Option<Shape>, Failure> {
        let given = [self.matrix, self.round, self.oval];
        let given: Vec<Shape> = given.into_iter().flatten().collect();
        match given.as_slice() {
            [] => Ok(None),
            [only] => Ok(Some(*only)),
            _ => Err(exactly_one(command)),
        }
    }

    pub fn needed(&self, command: &'static str) -> Result<Shape, Failure> {
        self.optional(command)?.ok_or_else(|| exactly_one(command))
    }
}

fn exactly_one(command: &'static str) -> Failure {
    Failure::Usage {
        command: Some(command),
        message: "exactly one of --matrix, --round, --oval is wanted".to_owned(),
    }
}

/// How many steps are asked for.
#[derive(Clone, Copy, Debug, PartialEq, Eq)]
pub enum StepCount {
    Exactly(u32),
    /// The fewest with which the shape has a kernel.
    Auto,
}

impl StepCount {
    /// The number of steps for a shape. Where no number gives a kernel, one that the library refuses for that.
    pub fn of(self, shape: Shape) -> Result<u32, Error> {
        match self {
            StepCount::Exactly(steps) => Ok(steps),
            StepCount::Auto => Ok(fewest_steps(covariance(shape)?).min(MOST_STEPS)),
        }
    }
}

/// The steps that the larger variance asks for: it is at most 4096 × steps. More than 64 where it asks for more.
pub fn fewest_steps(entries: Covariance) -> u32 {
    let larger = entries.xx.max(entries.yy).max(1);
    (larger as u32).div_ceil(UNITS as u32)
}

/// A number of steps in a sentence.
pub fn steps_text(steps: u32) -> String {
    match steps {
        1 => "1 step".to_owned(),
        _ => format!("{steps} steps"),
    }
}

/// A step count, or `auto`.
pub fn step_count(text: &str) -> Result<StepCount, String> {
    match text {
        "auto" => Ok(StepCount::Auto),
        _ => match unsigned(text) {
            Ok(steps) => Ok(StepCount::Exactly(steps)),
            Err(_) => Err(format!(
                "\"{text}\" is no number of steps: 1 to 64, or auto"
            )),
        },
    }
}

/// A choice of f as it is typed.
#[derive(clap::ValueEnum, Clone, Copy)]
enum ChoiceName {
    Binomial,
    Smallest,
}

/// The option of a command that takes a shape and a step count, so makes a kernel.
#[derive(clap::Args, Clone)]
pub struct ChoiceOption {
    /// How the kernel's free number f is chosen: so that the centre has at least twice the weight of each pixel beside, above
    /// and below it where any f does that, or the smallest
    #[arg(long, value_name = "CHOICE", value_enum, default_value_t = ChoiceName::Binomial, requires = "steps")]
    choice: ChoiceName,
}

impl ChoiceOption {
    /// The choice that is named, or the one of who names none.
    pub fn read(&self) -> Choice {
        match self.choice {
            ChoiceName::Binomial => Choice::Binomial,
            ChoiceName::Smallest => Choice::Smallest,
        }
    }
}

/// The choice of a name, in a list.
pub fn choice(name: &str) -> Result<Choice, String> {
    let choices = [Choice::Binomial, Choice::Smallest];
    let found = choices
        .into_iter()
        .find(|choice| choice_name(*choice) == name);
    found.ok_or_else(|| {
        let names = choices.map(choice_name).join(", ");
        format!("\"{name}\" is none of {names}")
    })
}

/// A choice by the name under which it is typed.
pub fn choice_name(choice: Choice) -> &'static str {
    match choice {
        Choice::Binomial => "binomial",
        Choice::Smallest => "smallest",
    }
}

/// The choice that is not this one.
pub fn other_choice(choice: Choice) -> Choice {
    match choice {
        Choice::Binomial => Choice::Smallest,
        Choice::Smallest => Choice::Binomial,
    }
}

/// What a run is asked for beside its picture.
#[derive(Clone, Copy)]
pub struct Work {
    pub choice: Choice,
    pub shape: Shape,
    pub steps: u32,
}

impl Work {
    /// The same with another choice of f.
    pub fn by(self, choice: Choice) -> Work {
        Work { choice, ..self }
    }

    /// The library's kernel.
    pub fn kernel(&self) -> Result<Kernel, Error> {
        kernel_by(self.choice, self.shape, self.steps)
    }

    /// The library's run between two pictures.
    pub fn run(
        &self,
        width: u32,
        height: u32,
        first: &mut [u16],
        second: &mut [u16],
    ) -> Result<(), Error> {
        let Work {
            choice,
            shape,
            steps,
        } = *self;
        run_by(choice, shape, steps, width, height, first, second)
    }

    /// The picture after the library's run between two pictures.
    pub fn run_of(&self, width: u32, height: u32, pixels: &[u16]) -> Result<Vec<u16>, Error> {
        let (mut first, mut second) = (pixels.to_vec(), vec![0; pixels.len()]);
        self.run(width, height, &mut first, &mut second)?;
        shown(self.steps, &first, &second).map(<[u16]>::to_vec)
    }

    /// The library's run within one picture.
    pub fn run_in_place(&self, width: u32, height: u32, picture: &mut [u16]) -> Result<(), Error> {
        let Work {
            choice,
            shape,
            steps,
        } = *self;
        smooth_in_place_by(choice, shape, steps, width, height, picture)
    }
}

/// The options of a command that takes a shape and a step count.
#[derive(clap::Args, Clone)]
pub struct RunOptions {
    #[command(flatten)]
    shape: ShapeOptions,
    /// The number of steps, 1 to 64, or auto: the fewest with which the shape has a kernel
    #[arg(long, value_name = "K", value_parser = step_count, allow_hyphen_values = true)]
    steps: StepCount,
    #[command(flatten)]
    choice: ChoiceOption,
}

impl RunOptions {
    /// The shape, the step count and the choice.
    pub fn read(&self, command: &'static str) -> Result<Work, Failure> {
        let shape = self.shape.needed(command)?;
        Ok(Work {
            choice: self.choice.read(),
            shape,
            steps: self.steps.of(shape)?,
        })
    }

    /// Whether the number of steps was left to the tool.
    pub fn is_auto(&self) -> bool {
        self.steps == StepCount::Auto
    }
}

fn matrix(text: &str) -> Result<Shape, String> {
    from_fields("matrix", &fields(text))
}

fn round(text: &str) -> Result<Shape, String> {
    from_fields("round", &fields(text))
}

fn oval(text: &str) -> Result<Shape, String> {
    from_fields("oval", &fields(text))
}

fn fields(text: &str) -> Vec<&str> {
    text.split(',').collect()
}

/// A shape of a kind with its numbers as text.
pub fn from_fields(kind: &str, fields: &[&str]) -> Result<Shape, String> {
    let entry = |text: &str| whole(text, i32::MIN.into()..=i32::MAX.into());
    match (kind, fields) {
        ("matrix", [xx, xy, yy]) => Ok(Shape::Matrix {
            xx: entry(xx)?,
            xy: entry(xy)?,
            yy: entry(yy)?,
        }),
        ("round", [variance]) => Ok(Shape::Round(float(variance)?)),
        ("oval", [long, short, degrees]) => Ok(Shape::Oval {
            long_variance: float(long)?,
            short_variance: float(short)?,
            direction: Direction::from_degrees(float(degrees)?),
        }),
        ("oval", [long, short, cosine, sine]) => Ok(Shape::Oval {
            long_variance: float(long)?,
            short_variance: float(short)?,
            direction: Direction {
                cosine: float(cosine)?,
                sine: float(sine)?,
            },
        }),
        _ => Err(format!(
            "{} is wanted, not \"{}\"",
            match kind {
                "matrix" => "XX,XY,YY",
                "round" => "one variance",
                _ => "LONG,SHORT,DEGREES or LONG,SHORT,COSINE,SINE",
            },
            fields.join(",")
        )),
    }
}

/// Whether a word of a list names a kind of shape.
pub fn is_kind(word: &str) -> bool {
    ["matrix", "round", "oval"].contains(&word)
}

/// A shape as the words of a list. Rust writes a float so that reading gives the same one again.
pub fn words(shape: Shape) -> String {
    match shape {
        Shape::Matrix { xx, xy, yy } => format!("matrix {xx} {xy} {yy}"),
        Shape::Round(variance) => format!("round {variance}"),
        Shape::Oval {
            long_variance,
            short_variance,
            direction: Direction { cosine, sine },
        } => format!("oval {long_variance} {short_variance} {cosine} {sine}"),
    }
}

/// A direction as an option's value: degrees, or a cosine and a sine.
pub fn direction(text: &str) -> Result<Direction, String> {
    match text.split_once(',') {
        None => Ok(Direction::from_degrees(float(text)?)),
        Some((cosine, sine)) => Ok(Direction {
            cosine: float(cosine)?,
            sine: float(sine)?,
        }),
    }
}

#[cfg(test)]
mod tests {
    use super::*;

    #[test]
    fn words_read_back() {
        for text in [
            "matrix -1 0 2147483647",
            "round 0.1",
            "oval 4 0.5 0.8 -0.6",
            "round NaN",
        ] {
            let fields: Vec<&str> = text.split(' ').collect();
            let shape = from_fields(fields[0], &fields[1..]).unwrap();
            assert_eq!(words(shape), text);
            assert!(is_kind(fields[0]));
        }
        assert!(from_fields("matrix", &["1", "2"]).is_err());
        assert!(from_fields("matrix", &["1", "2", "2147483648"]).is_err());
    }
}
