//! Runs within one picture: pixel for pixel those of the independent program, which overwrites one pixel after the other, and those of
//! the proved run between two pictures. The lent picture stands among others' pixels, which no run changes; a refused one leaves the
//! picture as it was too.

mod common;

use common::kinds::{Work, KINDS};
use common::{inputs, numbered, shape_of, times, CHOICES};
use reference::error_code::ErrorCode;
use reference::generate::{random_half, random_pixels, random_shape};
use reference::in_place as model;
use reference::kernel::Choice as ModelChoice;
use reference::lists::random_work;
use reference::random::Random;
use reference::shape::{Direction, Shape};
use vokhsaot::{run_by, shown, smooth, smooth_by, smooth_in_place, smooth_in_place_by, Choice};

/// Pixels that a run holds beside the picture in one line, and so the most that a band of whole rows has.
const LINE: u32 = 1024;

/// A lent picture with others' pixels on both sides, more than a row or a band of them.
struct Lent(Vec<u16>);

impl Lent {
    const BESIDE: [u16; LINE as usize + 1] = [43981; LINE as usize + 1];

    fn of(picture: &[u16]) -> Lent {
        Lent([&Lent::BESIDE, picture, &Lent::BESIDE].concat())
    }

    fn picture(&mut self) -> &mut [u16] {
        let end = self.0.len() - Lent::BESIDE.len();
        &mut self.0[Lent::BESIDE.len()..end]
    }

    /// The picture, where the pixels beside it are as they were.
    fn left(mut self, name: &str) -> Vec<u16> {
        let picture = self.picture().to_vec();
        assert!(self.0.starts_with(&Lent::BESIDE), "{name}: before it");
        assert!(self.0.ends_with(&Lent::BESIDE), "{name}: behind it");
        picture
    }
}

/// What a run is told.
#[derive(Clone, Copy, Debug)]
struct Told {
    choice: (Choice, ModelChoice),
    shape: Shape,
    steps: u32,
    width: u32,
    height: u32,
}

impl Told {
    fn of(work: Work, choice: (Choice, ModelChoice), width: u32, height: u32) -> Told {
        Told {
            choice,
            shape: Shape::Matrix(work.covariance),
            steps: work.steps,
            width,
            height,
        }
    }

    /// What the run answers for a picture, of a right length or not, and what it leaves of it.
    fn compare(&self, picture: &[u16]) -> Result<Vec<u16>, ErrorCode> {
        let name = &format!("{self:?} of {} pixels", picture.len());
        let Told {
            steps,
            width,
            height,
            ..
        } = *self;
        let shape = shape_of(self.shape);
        let mut lent = Lent::of(picture);
        let given = smooth_in_place_by(self.choice.0, shape, steps, width, height, lent.picture());
        let left = lent.left(name);

        let mut expected = picture.to_vec();
        let lent = &mut expected;
        let answer = model::run_in_place_by(self.choice.1, self.shape, steps, width, height, lent);
        assert_eq!(numbered(given), answer, "{name}");
        self.same(&left, &expected, "the independent program");

        let (mut first, mut second) = (picture.to_vec(), picture.to_vec());
        let lent = (&mut first, &mut second);
        let between = run_by(self.choice.0, shape, steps, width, height, lent.0, lent.1);
        assert_eq!(given, between, "{name}");
        let last = match given {
            Ok(()) => shown(steps, &first, &second).unwrap(),
            Err(_) => picture,
        };
        self.same(&left, last, "the run between two pictures");
        answer.map(|()| left)
    }

    /// Two pictures that have to be the same; a million pixels are too many to be printed.
    fn same(&self, left: &[u16], expected: &[u16], of: &str) {
        assert_eq!(left.len(), expected.len(), "{self:?}");
        if let Some(place) = (0..left.len()).find(|place| left[*place] != expected[*place]) {
            let (x, y) = (
                place as u32 % self.width.max(1),
                place as u32 / self.width.max(1),
            );
            let pixels = (left[place], expected[place]);
            panic!(
                "{self:?}: {} at ({x}, {y}), and {} by {of}",
                pixels.0, pixels.1
            );
        }
    }

    /// Both choices, since a shape's two kernels may be of two kinds.
    fn compare_by_both(work: Work, width: u32, height: u32, picture: &[u16]) {
        for choice in CHOICES {
            let left = Told::of(work, choice, width, height).compare(picture);
            assert!(left.is_ok(), "{work:?} {width} {height}");
        }
    }
}

/// Kinds of pictures, by their names.
const PICTURES: [&str; 8] = [
    "any pixels",
    "few or far units",
    "all white",
    "a bright pixel",
    "a dark pixel",
    "a checkerboard",
    "black and white",
    "black and white rows",
];

fn picture_of(random: &mut Random, kind: usize, width: u32, height: u32) -> Vec<u16> {
    let (columns, rows) = (width as usize, height as usize);
    let area = columns * rows;
    let with = |level, place: u64, pixel| {
        let mut picture = vec![level; area];
        picture[place as usize] = pixel;
        picture
    };
    let white = |is| if is { 65535 } else { 0 };
    match PICTURES[kind] {
        "any pixels" => (0..area).map(|_| random.bits() as u16).collect(),
        "few or far units" => random_pixels(random, area),
        "all white" => vec![65535; area],
        "a bright pixel" => with(0, random.below(area as u64), 65535),
        "a dark pixel" => with(65535, random.below(area as u64), 0),
        "a checkerboard" => (0..area)
            .map(|place| white((place % columns + place / columns) % 2 == 1))
            .collect(),
        "black and white" => (0..area).map(|_| white(random.once_in(2))).collect(),
        "black and white rows" => (0..area)
            .map(|place| white(place / columns % 2 == 1))
            .collect(),
        other => panic!("no picture is called {other}"),
    }
}

/// Kernels of each kind: so many of few steps, and so many of more.
struct Works {
    few: [Vec<Work>; KINDS.len()],
    more: [Vec<Work>; KINDS.len()],
}

impl Works {
    const OF_EACH: usize = 40;
    const FEW: u32 = 5;

    fn random(random: &mut Random) -> Works {
        let mut works = Works {
            few: Default::default(),
            more: Default::default(),
        };
        let mut tries = 0;
        while (works.few.iter().chain(&works.more)).any(|list| list.len() < Works::OF_EACH) {
            tries += 1;
            assert!(tries < 5_000_000, "kernels of each kind are not found");
            let Some((work, kind)) = Work::random(random) else {
                continue;
            };
            let lists = match work.steps {
                1..=Works::FEW => &mut works.few,
                _ => &mut works.more,
            };
            if lists[kind].len() < Works::OF_EACH {
                lists[kind].push(work);
            }
        }
        works
    }

    /// One of a kind, of 1 to 5 steps; where there may be many, sometimes of 8 to 64.
    fn of(&self, random: &mut Random, kind: usize, many: bool) -> Work {
        let lists = match many && random.once_in(12) {
            true => &self.more,
            false => &self.few,
        };
        random.pick(&lists[kind])
    }
}

/// Every width and height up to 40, each with a kernel of every kind.
#[test]
fn every_small_picture() {
    let mut random = inputs(60);
    let works = Works::random(&mut random);
    let mut met = [[0; PICTURES.len()]; KINDS.len()];
    let mut many = 0;
    for round in 0..times(1) as usize {
        for width in 1..=40 {
            for height in 1..=40 {
                for (kind, met) in met.iter_mut().enumerate() {
                    let which = (round + (width + height) as usize + kind) % PICTURES.len();
                    let picture = picture_of(&mut random, which, width, height);
                    let work = works.of(&mut random, kind, true);
                    Told::compare_by_both(work, width, height, &picture);
                    met[which] += 1;
                    many += u32::from(work.steps == 64);
                }
            }
        }
    }
    assert!(met.iter().flatten().all(|count| *count > 50), "{met:?}");
    assert!(many > 50, "{many}");
}

/// Rows of up to the longest, few of them: a band is one row or two, and the last one may be the first.
#[test]
fn long_rows() {
    let mut random = inputs(61);
    let works = Works::random(&mut random);
    for _ in 0..times(1) {
        for width in [1, 2, 3, 511, 512, 513, 1023, LINE] {
            for height in 1..=5 {
                for (kind, _) in KINDS.iter().enumerate() {
                    for which in 0..PICTURES.len() {
                        let picture = picture_of(&mut random, which, width, height);
                        let work = works.of(&mut random, kind, false);
                        Told::compare_by_both(work, width, height, &picture);
                    }
                }
            }
        }
    }
}

/// Heights at which a band more is begun, or ends, and the longest columns: bands are whole rows of at most 1024 pixels.
#[test]
fn around_the_bands() {
    let mut random = inputs(62);
    let works = Works::random(&mut random);
    let widths = [
        1, 2, 3, 5, 7, 9, 31, 32, 33, 63, 64, 65, 100, 127, 128, 129, 204, 205, 256, 257, 341, 342,
        500, 511, 512, 513, 700, 1000, LINE,
    ];
    for _ in 0..times(1) {
        for width in widths {
            let rows = LINE / width;
            let edges =
                (1..=3).flat_map(|bands| [bands * rows - 1, bands * rows, bands * rows + 1]);
            let heights = edges.chain((width <= 9).then_some(LINE));
            for height in heights.filter(|height| (1..=LINE).contains(height)) {
                for which in 0..PICTURES.len() {
                    let picture = picture_of(&mut random, which, width, height);
                    let kind = random.below(KINDS.len() as u64) as usize;
                    let work = works.of(&mut random, kind, false);
                    Told::compare_by_both(work, width, height, &picture);
                }
            }
        }
    }
}

#[test]
fn the_largest_picture() {
    let mut random = inputs(63);
    let works = Works::random(&mut random);
    for _ in 0..times(1) {
        for which in 0..PICTURES.len() {
            let picture = picture_of(&mut random, which, LINE, LINE);
            let kind = random.below(KINDS.len() as u64) as usize;
            let work = works.of(&mut random, kind, false);
            Told::compare_by_both(work, LINE, LINE, &picture);
        }
    }
}

/// Lengths that a picture of so many pixels may be lent with, right and wrong: one off, twice, half, none, a line more.
fn lengths(area: usize) -> [usize; 8] {
    [
        area,
        area - 1,
        area + 1,
        2 * area,
        area / 2,
        0,
        area + LINE as usize,
        area.saturating_sub(LINE as usize),
    ]
}

/// Shapes of all three forms, with refused ones, over sides and lengths that are wrong now and then.
#[test]
fn any_runs() {
    let mut random = inputs(64);
    let mut answers = [0; 12];
    for _ in 0..times(8000) {
        let (shape, steps) = match random.below(5) {
            0 => random_shape(&mut random),
            1 => {
                let (covariance, steps) = random_half(&mut random);
                (Shape::Matrix(covariance), steps)
            }
            _ => random_work(&mut random, 24),
        };
        let (width, height) = match random.below(16) {
            0 => random.pick(&[(0, 3), (3, 0), (0, 0), (1025, 1), (1, 1025)]),
            1 => random.pick(&[(1024, 2), (2, 1024), (40, 33), (700, 3)]),
            _ => (random.between(1, 12) as u32, random.between(1, 12) as u32),
        };
        let area = ((width * height) as usize).max(1);
        let length = match random.below(8) {
            0 => random.pick(&lengths(area)),
            _ => area,
        };
        let picture = random_pixels(&mut random, length);
        let choice = random.pick(&CHOICES);
        let told = Told {
            choice,
            shape,
            steps,
            width,
            height,
        };
        let answer = told.compare(&picture);
        answers[usize::from(answer.clone().err().unwrap_or(0))] += 1;
        if choice.0 == Choice::Binomial {
            without_choice(&told, &picture, &answer);
        }
        let smoothed = smooth_by(choice.0, shape_of(shape), steps, width, height, &picture);
        assert_eq!(numbered(smoothed), answer, "{told:?}");
    }
    for answer in [0, 3, 4, 5, 6, 9, 11] {
        assert!(answers[answer] > 40, "{answer}: {answers:?}");
    }
}

/// Who names no choice gets the first of the two, in the independent program as well.
fn without_choice(told: &Told, picture: &[u16], answer: &Result<Vec<u16>, ErrorCode>) {
    let Told {
        steps,
        width,
        height,
        ..
    } = *told;
    let shape = shape_of(told.shape);
    let mut lent = Lent::of(picture);
    let given = smooth_in_place(shape, steps, width, height, lent.picture());
    let left = lent.left("no choice");
    assert_eq!(numbered(given).map(|()| left), *answer, "{told:?}");
    let mut expected = picture.to_vec();
    let given = model::run_in_place(told.shape, steps, width, height, &mut expected);
    assert_eq!(given.map(|()| expected), *answer, "{told:?}");
    let smoothed = smooth(shape, steps, width, height, picture);
    assert_eq!(numbered(smoothed), *answer, "{told:?}");
}

/// All lengths up to twice the right one and past it: that one alone is taken.
#[test]
fn every_length() {
    for width in 1..=6 {
        for height in 1..=6 {
            for length in 0..=2 * width * height + 2 {
                let picture: Vec<u16> = (0..length as u16).map(|n| 1000 * n + 7).collect();
                for choice in CHOICES {
                    let shape = Shape::matrix(3000, -700, 2000);
                    let told = Told {
                        choice,
                        shape,
                        steps: 2,
                        width,
                        height,
                    };
                    let answer = told.compare(&picture).map(|_| ());
                    let expected = if length == width * height {
                        Ok(())
                    } else {
                        Err(9)
                    };
                    assert_eq!(answer, expected, "{told:?} {length}");
                }
            }
        }
    }
}

/// The refusals of a run within one picture, in the order in which they are checked.
const REFUSALS: [ErrorCode; 6] = [3, 4, 5, 6, 9, 11];

/// A run that is refused for these of them, each in one of its ways, with the length of its picture; of a form of shape that can be.
fn refused_for(random: &mut Random, form: usize, due: impl Fn(ErrorCode) -> bool) -> (Told, usize) {
    let nan = f64::NAN;
    let far = random.pick(&[-1.0, -f64::MIN_POSITIVE, 64.000_000_1, nan, f64::INFINITY]);
    // 64 square pixels need 64 steps, and are asked for in 4
    let fine = if due(11) { 64.0 } else { 1.0 };
    let variances = match (due(3), random.below(3)) {
        (false, _) => (fine, fine),
        (true, 0) => (far, fine),
        (true, 1) => (fine, far),
        (true, _) => (far, far),
    };
    let (cosine, sine) = match due(4) {
        false => (0.6, 0.8),
        true => random.pick(&[
            (1.0, 1.0),
            (0.0, 0.0),
            (nan, 1.0),
            (1.0, nan),
            (1.000_1, 0.0),
            (0.5, 0.5),
        ]),
    };
    let shape = match form {
        0 if due(11) => random.pick(&[
            (0, 1, 0),
            (-1, 0, 0),
            (16385, 0, 16384),
            (i32::MIN, 0, 5),
            (9, 10, 11),
        ]),
        _ => (2048, 1000, 4096),
    };
    let shape = match form {
        0 => Shape::matrix(shape.0, shape.1, shape.2),
        1 => Shape::Round(if due(3) { far } else { fine }),
        _ => Shape::Oval {
            long: variances.0,
            short: variances.1,
            direction: Direction { cosine, sine },
        },
    };
    let steps = match due(5) {
        true => random.pick(&[0, 65, 1 << 16, u32::MAX]),
        false => 4,
    };
    let (width, height) = match due(6) {
        true => random.pick(&[
            (0, 4),
            (5, 0),
            (1025, 1),
            (1, 1025),
            (0, 0),
            (u32::MAX, u32::MAX),
            (1 << 16, 1 << 16),
        ]),
        false => random.pick(&[(5, 4), (1, 1), (1024, 2), (33, 32), (3, 1)]),
    };
    // where the sides are refused there is no right length, and any is lent
    let area = u64::from(width) * u64::from(height);
    let area = if (1..=1 << 20).contains(&area) {
        area as usize
    } else {
        20
    };
    let length = match due(9) {
        true => random.pick(&lengths(area)[1..5]),
        false => area,
    };
    let choice = random.pick(&CHOICES);
    (
        Told {
            choice,
            shape,
            steps,
            width,
            height,
        },
        length,
    )
}

/// Every set of the refusals that a form of shape can meet: the first in order is answered, and the picture is as it was.
#[test]
fn refusals_in_order() {
    let mut random = inputs(65);
    for (form, possible) in [&REFUSALS[2..], &[3, 5, 6, 9, 11], &REFUSALS]
        .into_iter()
        .enumerate()
    {
        for set in 0u32..1 << possible.len() {
            let places = possible.iter().enumerate();
            let due: Vec<ErrorCode> = places
                .filter(|(place, _)| set >> place & 1 == 1)
                .map(|(_, refusal)| *refusal)
                .collect();
            for _ in 0..times(60) {
                let (told, length) =
                    refused_for(&mut random, form, |refusal| due.contains(&refusal));
                let picture: Vec<u16> = (0..length).map(|_| random.bits() as u16).collect();
                let answer = told.compare(&picture).map(|_| ());
                let expected = due.first().map_or(Ok(()), |refusal| Err(*refusal));
                assert_eq!(answer, expected, "{due:?} {told:?} {length}");
            }
        }
    }
}
