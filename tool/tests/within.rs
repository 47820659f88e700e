//! `smooth` works within one picture. What it writes is the library's run between two pictures and the independent program's, and
//! what it refuses is refused as by that run.

mod common;

use common::{option, plain, Folder, CHOICES};
use reference::generate::random_pixels;
use reference::kernel::Choice;
use reference::random::Random;
use reference::shape::{Direction, Shape};
use reference::smooth;

/// Sides around those of a band, which has whole rows and at most 1024 pixels: many rows, two of 512 pixels, one of more.
const SIDES: [(u32, u32); 18] = [
    (1, 1),
    (1, 7),
    (7, 1),
    (32, 32),
    (33, 31),
    (31, 33),
    (33, 32),
    (1024, 1),
    (1024, 2),
    (1024, 5),
    (1, 1024),
    (2, 513),
    (3, 1000),
    (512, 5),
    (513, 4),
    (511, 6),
    (100, 64),
    (64, 100),
];

fn oval(long: f64, short: f64, cosine: f64, sine: f64) -> Shape {
    Shape::Oval {
        long,
        short,
        direction: Direction { cosine, sine },
    }
}

/// Shapes that reach up, down and sideways, lean, or do only one of these, with steps that leave the last one in either picture.
fn works() -> Vec<(Shape, u32)> {
    let leaning = oval(3.0, 1.0, 0.8, 0.6);
    vec![
        (Shape::Round(0.5), 1),
        (Shape::Round(2.0), 4),
        (leaning, 3),
        (leaning, 8),
        (Shape::matrix(1000, -1000, 1000), 1),
        (Shape::matrix(0, 0, 4096), 1),
        (Shape::matrix(4096, 0, 0), 2),
        (Shape::matrix(4097, 0, 4096), 2),
        (Shape::matrix(0, 0, 0), 5),
    ]
}

/// The library's run between two pictures.
fn between_two(
    choice: Choice,
    shape: Shape,
    steps: u32,
    width: u32,
    height: u32,
    pixels: &[u16],
) -> Result<Vec<u16>, vokhsaot::Error> {
    let (mut first, mut second) = (pixels.to_vec(), vec![0; pixels.len()]);
    let (one, other) = (&mut first, &mut second);
    vokhsaot::run_by(
        libraries_choice(choice),
        libraries_shape(shape),
        steps,
        width,
        height,
        one,
        other,
    )?;
    vokhsaot::shown(steps, &first, &second).map(<[u16]>::to_vec)
}

fn libraries_choice(choice: Choice) -> vokhsaot::Choice {
    match choice {
        Choice::Binomial => vokhsaot::Choice::Binomial,
        Choice::Smallest => vokhsaot::Choice::Smallest,
    }
}

fn libraries_shape(shape: Shape) -> vokhsaot::Shape {
    match shape {
        Shape::Matrix(entries) => vokhsaot::Shape::Matrix {
            xx: entries.xx,
            xy: entries.xy,
            yy: entries.yy,
        },
        Shape::Round(variance) => vokhsaot::Shape::Round(variance),
        Shape::Oval {
            long,
            short,
            direction,
        } => vokhsaot::Shape::Oval {
            long_variance: long,
            short_variance: short,
            direction: vokhsaot::Direction {
                cosine: direction.cosine,
                sine: direction.sine,
            },
        },
    }
}

/// A picture as the tool writes it.
fn written(width: u32, height: u32, maxval: u16, pixels: &[u16]) -> Vec<u8> {
    let mut bytes = format!("P5\n{width} {height}\n{maxval}\n").into_bytes();
    for pixel in pixels {
        match maxval {
            0..=255 => bytes.push(*pixel as u8),
            _ => bytes.extend(pixel.to_be_bytes()),
        }
    }
    bytes
}

/// Noise, a single bright pixel, and rows of the two extremes in turn, which a row that is overwritten too early spoils most.
fn pictures(random: &mut Random, width: u32, height: u32) -> [Vec<u16>; 3] {
    let count = (width * height) as usize;
    let mut spot = vec![0; count];
    spot[random.below(count as u64) as usize] = 65535;
    let stripes = (0..count).map(|place| match place / width as usize % 2 {
        0 => 65535,
        _ => 0,
    });
    [random_pixels(random, count), spot, stripes.collect()]
}

#[test]
fn pictures_of_the_run_between_two() {
    let mut random = Random::new(51);
    let folder = Folder::new("within");
    let (mut changed, mut apart) = (0, 0);
    for (width, height) in SIDES {
        for (number, (shape, steps)) in works().into_iter().enumerate() {
            let pixels = &pictures(&mut random, width, height)[number % 3];
            folder.file("in.pgm", plain(width, height, 65535, pixels));
            let [binomial, _, smallest] = CHOICES.map(|(choice, choice_option)| {
                let due = between_two(choice, shape, steps, width, height, pixels).unwrap();
                let (mut first, mut second) = (pixels.clone(), vec![0; pixels.len()]);
                let (one, other) = (&mut first, &mut second);
                smooth::run_by(choice, shape, steps, width, height, one, other).unwrap();
                assert_eq!(due, smooth::shown(steps, &first, &second));
                let work = format!("{} --steps {steps} {choice_option}", option(shape));
                let bytes = written(width, height, 65535, &due);
                let said = folder.run(&format!("smooth {work} in.pgm"), b"");
                assert_eq!(said.status, 0, "{work}: {}", said.stderr);
                assert!(said.stdout == bytes, "{width} × {height}: {work}");
                // Without warnings the picture as it was is not kept.
                let quiet = folder.run(&format!("smooth --quiet {work} in.pgm"), b"");
                assert!(quiet.good() == bytes, "{width} × {height}: {work}");
                due
            });
            changed += usize::from(binomial != *pixels);
            apart += usize::from(binomial != smallest);
        }
    }
    assert!(changed > 100 && apart > 20, "{changed} {apart}");
}

/// One byte a pixel, and a file that is input and output.
#[test]
fn written_over_the_input() {
    let folder = Folder::new("over");
    let pixels: Vec<u16> = (0..35 * 40).map(|place| place * 7 % 256).collect();
    let due = between_two(Choice::Binomial, Shape::Round(1.0), 3, 35, 40, &pixels).unwrap();
    assert_ne!(due, pixels);
    folder.file("in.pgm", written(35, 40, 255, &pixels));
    for work in ["--round 1 --steps 3", "--quiet --matrix 0,0,0 --steps 1"] {
        folder
            .run(&format!("smooth {work} in.pgm in.pgm"), b"")
            .good();
        assert_eq!(folder.read("in.pgm"), written(35, 40, 255, &due));
    }
    assert_eq!(folder.names(), ["in.pgm"]);
}

/// `compare` makes the run between two pictures, and finds a row that was written over too early.
#[test]
fn compare_judges_by_the_run_between_two() {
    let folder = Folder::new("judged");
    folder.file("column.pgm", plain(1, 4, 1600, &[1600, 0, 0, 0]));
    let work = "--matrix 0,0,2048 --steps 1";
    let line = format!("smooth {work} column.pgm right.pgm");
    folder.run(&line, b"").good();
    assert_eq!(
        folder.read("right.pgm"),
        written(1, 4, 1600, &[1200, 400, 0, 0])
    );
    // By hand, from row to row: a quarter of the new row above, half of the row, a quarter of the row below.
    folder.file("wrong.pgm", plain(1, 4, 1600, &[1200, 300, 75, 19]));
    for (other, status, end) in [
        ("right.pgm", 0, "library's run, steps 1: equal\n"),
        (
            "wrong.pgm",
            1,
            "library's run, steps 1: 3 of 4 pixels DIFFER, first in column 0, row 1\n",
        ),
    ] {
        let ran = folder.run(&format!("compare {work} column.pgm {other}"), b"");
        let text = String::from_utf8(ran.stdout).unwrap();
        assert_eq!(ran.status, status, "{text}");
        assert!(text.ends_with(end), "{text}");
    }
}

/// The refusals that a picture in a file can meet, and of two the one that comes first. None leaves a picture.
#[test]
fn refusals_of_the_run_between_two() {
    let folder = Folder::new("refused");
    folder.file("in.pgm", plain(3, 2, 65535, &[1, 2, 3, 4, 5, 6]));
    folder.file("kept.pgm", "old");
    for (shape, steps, number) in [
        (Shape::Round(64.5), 64, 3),
        (Shape::Round(-1.0), 0, 3),
        (oval(65.0, 1.0, 1.0, 1.0), 65, 3),
        (oval(1.0, 1.0, 1.0, 1.0), 64, 4),
        (oval(1.0, 1.0, 0.5, 0.5), 0, 4),
        (Shape::Round(1.0), 0, 5),
        (Shape::Round(1.0), 65, 5),
        (Shape::matrix(9, 10, 9), 65, 5),
        (Shape::matrix(9, 10, 9), 1, 11),
        (Shape::matrix(4097, 0, 4096), 1, 11),
        (Shape::matrix(-1, 0, 0), 64, 11),
    ] {
        for (choice, choice_option) in CHOICES {
            let refusal = between_two(choice, shape, steps, 3, 2, &[0; 6]).unwrap_err();
            assert_eq!(refusal.number(), number, "{shape:?}");
            let sentence = refusal.to_string();
            let start = sentence.trim_end_matches('.');
            for quiet in ["", "--quiet"] {
                let work = format!("{} --steps {steps} {choice_option}", option(shape));
                for output in ["-", "none.pgm", "kept.pgm"] {
                    let line = format!("smooth {quiet} {work} in.pgm {output}");
                    let ran = folder.run(&line, b"");
                    let due = format!("vokhsaot: refused ({number}): {start}");
                    assert!(ran.stderr.starts_with(&due), "{line}: {}", ran.stderr);
                    assert_eq!(ran.stderr.lines().count(), 1);
                    assert_eq!((ran.status, ran.stdout.len()), (2, 0), "{line}");
                }
            }
        }
    }
    assert_eq!(folder.names(), ["in.pgm", "kept.pgm"]);
    assert_eq!(folder.read("kept.pgm"), b"old");
}
