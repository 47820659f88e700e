//! The heights of a pixel step by step, against the independent program.

mod common;

use common::{option, plain, Folder, CHOICES};
use reference::extrema::{is_hollow, is_peak};
use reference::generate::{random_heights, random_shape};
use reference::kernel::Kernel;
use reference::random::Random;
use reference::shape::{shape_kernel_by, Shape};
use reference::smooth::{at, step};

/// The longest bar.
const BAR: u32 = 50;

/// A line: the step, the height, the length of its bar, and the word after it.
type Line = (u32, u16, u32, String);

/// The lines as they are printed, and no others.
fn lines(text: &str) -> Vec<Line> {
    let line = |line: &str| {
        assert!(line.chars().count() <= 80 && line.trim() == line, "{line}");
        let mut words = line.split_whitespace().peekable();
        assert_eq!(words.next(), Some("step"));
        let step = words.next().unwrap().parse().unwrap();
        let height = words.next().unwrap().parse().unwrap();
        let bar = words.next_if(|word| word.bytes().all(|byte| byte == b'#'));
        let bar = bar.map_or(0, |bar| bar.len() as u32);
        let word = words.collect::<Vec<&str>>().join(" ");
        (step, height, bar, word)
    };
    text.lines().map(line).collect()
}

/// The same by the plainest way: the whole picture after every step.
fn expected(
    kernel: &Kernel,
    steps: u32,
    picture: Vec<u16>,
    (width, height): (u32, u32),
    (x, y): (u32, u32),
) -> Vec<Line> {
    let mut picture = picture;
    let mut found: Vec<Line> = Vec::new();
    for done in 0..=steps {
        if done > 0 {
            picture = step(kernel, &picture, width, height);
        }
        let (x, y) = (x.into(), y.into());
        let word = match (
            is_peak(&picture, width, height, x, y),
            is_hollow(&picture, width, height, x, y),
        ) {
            (true, true) => "flat",
            (true, false) => "peak",
            (false, true) => "hollow",
            (false, false) => "",
        };
        let pixel = *at(&picture, width, height, x, y);
        found.push((done, pixel, 0, word.to_owned()));
    }
    let largest = found.iter().map(|line| line.1).max().unwrap();
    for (_, height, bar, _) in &mut found {
        // The fewest characters that are not fewer than their share.
        let share = BAR * u32::from(*height);
        *bar = (0..=BAR)
            .find(|length| length * u32::from(largest) >= share)
            .unwrap();
    }
    found
}

/// A shape with a kernel, its steps, and the kernel of each choice with its option.
fn work(random: &mut Random) -> (Shape, u32, [(Kernel, &'static str); 3]) {
    loop {
        let (shape, steps) = random_shape(random);
        let kernels = CHOICES.map(|(choice, option)| {
            let kernel = shape_kernel_by(choice, shape, steps).ok();
            kernel.map(|kernel| (kernel, option))
        });
        if let [Some(one), Some(two), Some(three)] = kernels {
            return (shape, steps, [one, two, three]);
        }
    }
}

/// A place of a side: at an end, beside it, or anywhere.
fn place(random: &mut Random, side: u32) -> u32 {
    let any = random.below(side.into()) as u32;
    random.pick(&[0, side - 1, 1.min(side - 1), any, any, any])
}

/// One run by each choice at one place; the words that came up.
fn compare(random: &mut Random, sides: (u32, u32)) -> Vec<String> {
    let (shape, steps, kernels) = work(random);
    let (width, height) = sides;
    let (x, y) = (place(random, width), place(random, height));
    let picture = random_heights(random, width, height);
    let folder = Folder::new("compared");
    let input = plain(width, height, 65535, &picture);
    let mut words = Vec::new();
    for (kernel, choice) in kernels {
        let shape = option(shape);
        let line = format!("steps {shape} --steps {steps} {choice} --at {x},{y} -");
        let given = lines(&folder.run(&line, input.as_bytes()).text());
        let expected = expected(&kernel, steps, picture.clone(), sides, (x, y));
        assert_eq!(given, expected, "{line} of {width} × {height}");
        words.extend(given.into_iter().map(|line| line.3));
    }
    words
}

#[test]
fn small_pictures_of_the_independent_program() {
    let mut random = Random::new(8);
    let mut words = Vec::new();
    for _ in 0..400 {
        let mut side = |most| random.between(1, most) as u32;
        let small = (side(12), side(12));
        let (row, column) = ((side(200), 1), (1, side(200)));
        let sides = random.pick(&[small, small, small, row, column, (1, 1)]);
        words.append(&mut compare(&mut random, sides));
    }
    for word in ["peak", "hollow", "flat", ""] {
        let count = words.iter().filter(|other| *other == word).count();
        assert!(count > 300, "{word:?}: {count}");
    }
}

/// Pictures of more than one tile, and places around which the window has several on each side.
#[test]
fn large_pictures_of_the_independent_program() {
    let mut random = Random::new(9);
    for round in 0..60 {
        let any = (1 + random.below(160) as u32, 1 + random.below(120) as u32);
        let sides = [(150, 90), (90, 150), (33, 33), (32, 65), any, any];
        compare(&mut random, sides[round % sides.len()]);
    }
}

/// The largest picture with all steps, where the window around the place is a small part of it.
#[test]
fn the_largest_picture() {
    let mut random = Random::new(10);
    let (side, steps) = (1024, 64);
    let pixels: Vec<u16> = (0..side * side).map(|_| random.bits() as u16).collect();
    let mut file = format!("P5 {side} {side} 65535\n").into_bytes();
    file.extend(pixels.iter().flat_map(|pixel| pixel.to_be_bytes()));
    let folder = Folder::new("largest");
    folder.file("large.pgm", file);
    // The two choices have other kernels here.
    let shape = Shape::matrix(150_000, -40_000, 90_000);
    let [kernel, _, smallest] =
        CHOICES.map(|(choice, _)| shape_kernel_by(choice, shape, steps).unwrap());
    assert_ne!(kernel, smallest);
    for (x, y, kernel, choice) in [
        (500, 700, kernel, ""),
        (500, 700, smallest, "--choice smallest"),
        (1023, 0, kernel, "--choice binomial"),
        (1023, 0, smallest, "--choice smallest"),
        (3, 1022, smallest, "--choice smallest"),
    ] {
        let shape = option(shape);
        let line = format!("steps {shape} --steps 64 {choice} --at {x},{y} large.pgm");
        let given = lines(&folder.run(&line, b"").text());
        // Twice the steps on each side, cut off at the picture's own borders.
        let near = |place: u32| place.saturating_sub(128)..(place + 129).min(side);
        let (columns, rows) = (near(x), near(y));
        let part = rows
            .clone()
            .flat_map(|row| columns.clone().map(move |column| row * side + column))
            .map(|place| pixels[place as usize])
            .collect();
        let sides = (columns.len() as u32, rows.len() as u32);
        let inside = (x - columns.start, y - rows.start);
        assert_eq!(
            given,
            expected(&kernel, steps, part, sides, inside),
            "{line}"
        );
    }
}

/// The row 8 0 64: a peak falls, is none any more, and rises above where it began.
#[test]
fn a_peak_that_rises_later() {
    let folder = Folder::new("later");
    let row = plain(3, 1, 64, &[8, 0, 64]);
    let heights = |x: u32, choice: &str| {
        let line = format!("steps --matrix 4096,0,0 --steps 2 {choice} --at {x},0 -");
        let lines = lines(&folder.run(&line, row.as_bytes()).text());
        lines
            .into_iter()
            .map(|(_, height, _, word)| (height, word))
            .collect::<Vec<_>>()
    };
    let word = |height, word: &str| (height, word.to_owned());
    for (_, choice) in CHOICES {
        assert_eq!(
            heights(0, choice),
            [word(8, "peak"), word(6, "hollow"), word(9, "hollow")]
        );
        assert_eq!(
            heights(2, choice),
            [word(64, "peak"), word(48, "peak"), word(41, "peak")]
        );
    }
}

/// Case a, where the choices differ at the first step: 400 of 1600 are left, or none.
#[test]
fn a_spot_by_both_choices() {
    let folder = Folder::new("choices");
    let spot = plain(3, 3, 1600, &[0, 0, 0, 0, 1600, 0, 0, 0, 0]);
    for (choice, after) in [
        ("", (400, "peak")),
        ("--choice binomial", (400, "peak")),
        ("--choice smallest", (0, "hollow")),
    ] {
        let line = format!("steps --matrix 2048,0,2048 --steps 1 {choice} --at 1,1 -");
        let lines = lines(&folder.run(&line, spot.as_bytes()).text());
        let given: Vec<(u16, &str)> = lines.iter().map(|line| (line.1, line.3.as_str())).collect();
        assert_eq!(given, [(1600, "peak"), after], "{choice}");
    }
}

/// What cannot be done is said as `smooth` says it, whatever the place: a place outside comes last.
#[test]
fn refusals_whatever_the_place() {
    let folder = Folder::new("refused");
    folder.file("good.pgm", plain(3, 2, 9, &[1, 2, 3, 4, 5, 6]));
    folder.file("wide.pgm", plain(1025, 1, 1, &[1; 1025]));
    folder.file("short.pgm", "P2 3 2 9 1 2 3");
    for (work, input, refusal) in [
        ("--round 64.5 --steps 0", "good.pgm", "refused (3)"),
        ("--oval 1,1,1,1 --steps 0", "good.pgm", "refused (4)"),
        ("--matrix -1,0,0 --steps 0", "good.pgm", "refused (5)"),
        ("--matrix -1,0,0 --steps 65", "good.pgm", "refused (5)"),
        (
            "--matrix -1,0,0 --steps 4294967295",
            "good.pgm",
            "refused (5)",
        ),
        (
            "--matrix -1,0,0 --steps 1",
            "wide.pgm",
            "wide.pgm: 1025 × 1 pixels: refused (6)",
        ),
        ("--matrix -1,0,0 --steps 1", "good.pgm", "refused (11)"),
        ("--round 1 --steps 2", "short.pgm", "short.pgm: "),
        ("--round 1 --steps 2", "none.pgm", "none.pgm: "),
    ] {
        let smooth = folder.run(&format!("smooth {work} {input} -"), b"");
        let start = format!("vokhsaot: {refusal}");
        assert!(smooth.stderr.starts_with(&start), "{}", smooth.stderr);
        assert_eq!(smooth.status, 2);
        for (_, choice) in CHOICES {
            for place in ["0,0", "3,0", "4294967295,4294967295"] {
                let line = format!("steps {work} {choice} --at {place} {input}");
                assert_eq!(folder.run(&line, b""), smooth, "{line}");
            }
        }
    }
    assert_eq!(folder.names().len(), 3);
}

#[test]
fn places_outside() {
    let folder = Folder::new("outside");
    folder.file("good.pgm", plain(3, 2, 9, &[1, 2, 3, 4, 5, 6]));
    for place in ["3,0", "0,2", "3,2", "4294967295,0"] {
        let line = format!("steps --round 1 --steps 2 --at {place} good.pgm");
        let message =
            format!("{place} lies outside the picture: it has 3 × 2 pixels, counted from 0");
        folder.run(&line, b"").assert_failed(2, &message);
    }
    assert_eq!(folder.names(), ["good.pgm"]);
}
