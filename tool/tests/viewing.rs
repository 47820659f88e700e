//! `show`, `compare` and `stats`: by hand, and against the plainest way to the same numbers.

mod common;

use common::{netpbm, numbers, option, plain, Folder, CHOICES};
use reference::generate::{random_heights, random_pixels, random_shape};
use reference::kernel::{Choice, Kernel};
use reference::natural::Natural;
use reference::random::Random;
use reference::shape::{shape_kernel_by, Shape};
use reference::smooth::{exact_run, rounded_run, within_half_per_step};

/// A picture of the test.
#[derive(Clone)]
struct Picture {
    width: u32,
    height: u32,
    pixels: Vec<u16>,
}

impl Picture {
    fn random(random: &mut Random, most: u32) -> Picture {
        let mut side = || 1 + random.below(most.into()) as u32;
        let (width, height) = (side(), side());
        let mut pixels = random_heights(random, width, height);
        // Few greys, many greys, or one.
        let kept = random.pick(&[0, 3, 15, 15, 16]);
        pixels
            .iter_mut()
            .for_each(|pixel| *pixel &= ((1u32 << kept) - 1) as u16);
        Picture {
            width,
            height,
            pixels,
        }
    }

    fn file(&self) -> String {
        plain(self.width, self.height, 65535, &self.pixels)
    }

    fn at(&self, x: u32, y: u32) -> u16 {
        self.pixels[(y * self.width + x) as usize]
    }
}

/// The spot of the manual, and what a step of case a makes of it, by the choice smallest and by the other.
const SPOT: &str = "P2 3 3 1600  0 0 0  0 1600 0  0 0 0";
const SMOOTH: &str = "P2 3 3 1600  0 400 0  400 0 400  0 400 0";
const BINOMIAL: &str = "P2 3 3 1600  100 200 100  200 400 200  100 200 100";

#[test]
fn characters_by_hand() {
    let folder = Folder::new("characters");
    folder.file("spot.pgm", SPOT);
    folder.file("smooth.pgm", SMOOTH);
    let shown = |line: &str| folder.run(&format!("show {line}"), b"").text();
    assert_eq!(
        shown("spot.pgm"),
        "......\n..@@..\n......\n\
         scale: .:-=+x*#%@ from 0 to 1600; a pixel is 2 characters wide\n"
    );
    // 400 of 1600 is 2.25 of nine levels on the scale of both, and the highest on its own.
    assert_eq!(
        shown("spot.pgm smooth.pgm"),
        "......  ..--..\n..@@..  --..--\n......  ..--..\n\
         scale: .:-=+x*#%@ from 0 to 1600; a pixel is 2 characters wide\n"
    );
    assert_eq!(
        shown("smooth.pgm"),
        "..@@..\n@@..@@\n..@@..\n\
         scale: .:-=+x*#%@ from 0 to 400; a pixel is 2 characters wide\n"
    );
    // Ten greys are the ten characters.
    folder.file(
        "ramp.pgm",
        plain(10, 1, 100, &[10, 11, 12, 13, 14, 15, 16, 17, 18, 19]),
    );
    assert_eq!(
        shown("ramp.pgm --columns 20"),
        "..::--==++xx**##%%@@\n\
         scale: .:-=+x*#%@ from 10 to 19; a pixel is 2 characters wide\n"
    );
    // 0 to 35 in six rows of six, two of them in a line: averages of 3 to 8, 15 to 20 and 27 to 32, each of 29 units
    // nine levels.
    let counted: Vec<u16> = (0..36).collect();
    folder.file("counted.pgm", plain(6, 6, 99, &counted));
    assert_eq!(
        shown("counted.pgm --columns 11"),
        "..:::-\n+++xxx\n#%%%@@\n\
         scale: .:-=+x*#%@ from 3 to 32; a character is 1 × 2 pixels\n"
    );
    // Eight pixels with one of 80 are 10 each; in the row that is left two with one of 41 are 20.5, and halves go up.
    let mut corners = vec![0; 12 * 5];
    (corners[0], corners[59]) = (80, 41);
    folder.file("corners.pgm", plain(12, 5, 99, &corners));
    assert_eq!(
        shown("corners.pgm --columns 10"),
        "+.....\n.....@\n\
         scale: .:-=+x*#%@ from 0 to 21; a character is 2 × 4 pixels\n"
    );
    // Less high on the left, and on the right.
    folder.file("row.pgm", "P2 2 1 9 0 9");
    assert_eq!(
        shown("row.pgm spot.pgm --columns 14")
            .lines()
            .take(3)
            .collect::<Vec<_>>(),
        ["....  ......", "      ..@@..", "      ......"]
    );
    assert_eq!(
        shown("spot.pgm row.pgm")
            .lines()
            .take(3)
            .collect::<Vec<_>>(),
        ["......  ....", "..@@..", "......"]
    );
    folder.file("flat.pgm", plain(2, 2, 9, &[7; 4]));
    assert_eq!(
        shown("flat.pgm"),
        "....\n....\nscale: . is 7 everywhere; a pixel is 2 characters wide\n"
    );
    // One of two comes from standard input.
    let piped = folder.run("show spot.pgm -", SMOOTH.as_bytes()).text();
    assert_eq!(piped, shown("spot.pgm smooth.pgm"));
}

/// The columns that pictures of some widths take with so many pixels for a character; none for two characters a pixel.
fn needed(widths: &[u32], pixels: u32) -> u32 {
    let widths = widths.iter().map(|width| match pixels {
        0 => 2 * width,
        _ => width.div_ceil(pixels),
    });
    let gaps = 2 * (widths.len() as u32 - 1);
    widths.sum::<u32>() + gaps
}

/// The grey of a character: the sum of the pixels that fall there, by their number, nearest, halves up.
fn grey(picture: &Picture, pixels: u32, column: u32, row: u32) -> Option<u16> {
    let (wide, high) = if pixels == 0 {
        (1, 1)
    } else {
        (pixels, 2 * pixels)
    };
    let (mut sum, mut count) = (0u64, 0u64);
    for y in 0..picture.height {
        for x in 0..picture.width {
            if (x / wide, y / high) == (column, row) {
                sum += u64::from(picture.at(x, y));
                count += 1;
            }
        }
    }
    (count > 0).then(|| ((sum as f64 / count as f64) + 0.5).floor() as u16)
}

/// The level nearest to a grey, of those from low to high in equal steps; the higher one of two.
fn nearest_level(grey: u16, low: u16, high: u16, most: u32) -> u32 {
    let [grey, low, high] = [grey, low, high].map(i64::from);
    let distance =
        |level: &u32| ((grey - low) * i64::from(most) - i64::from(*level) * (high - low)).abs();
    // The first of several that are least.
    (0..=most)
        .rev()
        .min_by_key(distance)
        .filter(|_| high > low)
        .unwrap_or(0)
}

/// The whole text by the plainest way.
fn expected_characters(pictures: &[Picture], columns: u32) -> String {
    let widths: Vec<u32> = pictures.iter().map(|picture| picture.width).collect();
    let pixels = (0..)
        .find(|pixels| needed(&widths, *pixels) <= columns)
        .unwrap();
    let (characters, high) = if pixels == 0 { (2, 1) } else { (1, 2 * pixels) };
    let lines = pictures
        .iter()
        .map(|picture| picture.height.div_ceil(high))
        .max()
        .unwrap();
    let mut greys = Vec::new();
    for row in 0..lines {
        let mut line: Vec<Option<u16>> = Vec::new();
        for (place, picture) in pictures.iter().enumerate() {
            line.extend([None; 2].iter().take(2 * place));
            for character in 0..needed(&[picture.width], pixels) {
                line.push(grey(picture, pixels, character / characters, row));
            }
        }
        greys.push(line);
    }
    let known = || greys.iter().flatten().flatten().copied();
    let (low, high_grey) = (known().min().unwrap(), known().max().unwrap());
    let mut text = String::new();
    for line in greys {
        let line: String = line
            .into_iter()
            .map(|grey| match grey {
                None => ' ',
                Some(grey) => {
                    char::from(b".:-=+x*#%@"[nearest_level(grey, low, high_grey, 9) as usize])
                }
            })
            .collect();
        text += line.trim_end();
        text += "\n";
    }
    let greys = match low == high_grey {
        true => format!(". is {low} everywhere"),
        false => format!(".:-=+x*#%@ from {low} to {high_grey}"),
    };
    let size = match pixels {
        0 => "a pixel is 2 characters wide".to_owned(),
        _ => format!("a character is {pixels} × {} pixels", 2 * pixels),
    };
    text + &format!("scale: {greys}; {size}\n")
}

#[test]
fn characters_of_random_pictures() {
    let mut random = Random::new(31);
    let folder = Folder::new("random-characters");
    for round in 0..150 {
        let most = random.pick(&[4, 12, 60]);
        let pictures: Vec<Picture> = (0..1 + round % 2)
            .map(|_| Picture::random(&mut random, most))
            .collect();
        let columns = random.between(10, 70) as u32;
        for (place, picture) in pictures.iter().enumerate() {
            folder.file(&format!("{place}.pgm"), picture.file());
        }
        let names = ["0.pgm", "0.pgm 1.pgm"][pictures.len() - 1];
        let shown = folder
            .run(&format!("show {names} --columns {columns}"), b"")
            .text();
        assert_eq!(shown, expected_characters(&pictures, columns));
        let lines: Vec<&str> = shown.lines().collect();
        assert!(lines[..lines.len() - 1]
            .iter()
            .all(|line| line.len() <= columns as usize));
    }
}

/// The pixels of a view, as netpbm reads it.
fn view(folder: &Folder, line: &str) -> Vec<u32> {
    assert_eq!(
        folder
            .run(&format!("show {line} --png view.png"), b"")
            .good(),
        b""
    );
    let file = folder.read("view.png");
    // 8 bits of greyscale.
    assert_eq!(file[24..26], [8, 0]);
    numbers(&netpbm("pngtopnm", &file).unwrap()).unwrap()
}

#[test]
fn views_by_hand() {
    let folder = Folder::new("views");
    folder.file("pair.pgm", "P2 2 1 1000  100 300");
    let pair = view(&folder, "pair.pgm");
    assert_eq!(pair[..3], [512, 256, 255]);
    let row = [vec![0; 256], vec![255; 256]].concat();
    assert_eq!(pair[3..], row.repeat(256));
    // Three rows of at most 170 pixels.
    folder.file("column.pgm", "P2 1 3 1000  200 100 300");
    folder.file("single.pgm", "P2 1 1 1000  150");
    let two = view(&folder, "column.pgm single.pgm");
    assert_eq!(two[..3], [170 + 8 + 170, 3 * 170, 255]);
    let line = |left, right| [vec![left; 170], vec![128; 8], vec![right; 170]].concat();
    // A hundred of two hundred is 127.5, fifty 63.75.
    let lines = [line(128, 64), line(0, 128), line(255, 128)].map(|line| line.repeat(170));
    assert_eq!(two[3..], lines.concat());
    // Standard output, and a picture that is large enough.
    folder
        .run("horizon --width 1024 --height 2 --seed 1 large.pgm", b"")
        .good();
    let large = folder.run("show large.pgm --png -", b"").good();
    let large = numbers(&netpbm("pngtopnm", &large).unwrap()).unwrap();
    assert_eq!(large[..3], [1024, 2, 255]);
    assert_eq!(
        (large[3..].iter().min(), large[3..].iter().max()),
        (Some(&0), Some(&255))
    );
}

#[test]
fn views_of_random_pictures() {
    let mut random = Random::new(32);
    let folder = Folder::new("random-views");
    for _ in 0..40 {
        let most = random.pick(&[3, 40, 300]);
        let [one, other] = [0; 2].map(|_| Picture::random(&mut random, most));
        folder.file("one.pgm", one.file());
        folder.file("other.pgm", other.file());
        let found = view(&folder, "one.pgm other.pgm");
        let (width, height) = (found[0], found[1]);
        let highest = one.height.max(other.height);
        let factor = height / highest;
        assert_eq!(height, factor * highest);
        assert_eq!(width, factor * (one.width + other.width) + 8);
        // One more would be too much, and one is always there.
        let fits =
            |factor: u32| factor * highest <= 512 && factor * (one.width + other.width) + 8 <= 512;
        assert!(!fits(factor + 1) && (factor == 1 || fits(factor)));
        let all = || one.pixels.iter().chain(&other.pixels).copied();
        let (low, high) = (all().min().unwrap(), all().max().unwrap());
        for (place, pixel) in found[3..].iter().enumerate() {
            let (x, y) = (place as u32 % width, place as u32 / width);
            let left = factor * one.width;
            let (picture, x) = if x < left {
                (Some(&one), x)
            } else {
                (Some(&other), x.wrapping_sub(left + 8))
            };
            let picture =
                picture.filter(|picture| x / factor < picture.width && y / factor < picture.height);
            let expected = picture.map_or(128, |picture| {
                nearest_level(picture.at(x / factor, y / factor), low, high, 255)
            });
            assert_eq!(*pixel, expected, "{x} {y}");
        }
    }
}

#[test]
fn differences_by_hand() {
    let folder = Folder::new("compared");
    folder.file("spot.pgm", SPOT);
    folder.file("smooth.pgm", SMOOTH);
    let ran = folder.run("compare spot.pgm smooth.pgm", b"");
    // 4 × 400 up and 1600 down.
    let text = "5 of 9 pixels differ\n\
                largest difference 1600 in column 1, row 1: 1600 and 0\n\
                mean difference 355.556, with signs 0.000\n";
    assert_eq!(
        (String::from_utf8(ran.stdout).unwrap().as_str(), ran.status),
        (text, 1)
    );
    let smallest = "--matrix 2048,0,2048 --choice smallest";
    let line = format!("compare {smallest} --steps 1 spot.pgm smooth.pgm");
    let ran = folder.run(&line, b"");
    let run =
        "exact run, steps 1: largest distance 0.000 in column 0, row 0 (at most 0.5: within)\n\
               library's run, steps 1: equal\n";
    assert_eq!(ran.text(), format!("{text}{run}"));
    // The same by the fewest steps, and from standard input.
    let line = format!("compare {smallest} --steps auto spot.pgm");
    let ran = folder.run(&line, SMOOTH.as_bytes());
    assert_eq!(ran.text(), format!("{text}{run}"));
    // One unit too much in one place: the run is exact there.
    let wrong = SMOOTH.replacen("400", "401", 1);
    let line = format!("compare {smallest} --steps 1 spot.pgm -");
    let ran = folder.run(&line, wrong.as_bytes());
    let run = "exact run, steps 1: largest distance 1.000 in column 1, row 0 (MORE than 0.5)\n\
               library's run, steps 1: 1 of 9 pixels DIFFER, first in column 1, row 0\n";
    let said = String::from_utf8(ran.stdout).unwrap();
    assert!(said.ends_with(run), "{said}");
    assert_eq!((ran.status, ran.stderr.as_str()), (1, ""));
    // Halves go up: 0 and 1 in a row become 1 and 1. Two zeros are as near to the exact run, but are not the run.
    folder.file("row.pgm", "P2 2 1 9 0 1");
    for (_, choice) in CHOICES {
        let line = format!("compare --matrix 4096,0,0 --steps 1 {choice} row.pgm");
        let ran = folder.run(&line, b"P2 2 1 9 0 0");
        let run =
            "exact run, steps 1: largest distance 0.500 in column 0, row 0 (at most 0.5: within)\n\
               library's run, steps 1: 2 of 2 pixels DIFFER, first in column 0, row 0\n";
        let said = String::from_utf8(ran.stdout).unwrap();
        assert!(said.ends_with(run), "{said}");
        assert_eq!(ran.status, 1);
    }
}

/// A picture of the other choice differs, and is told to be that.
#[test]
fn runs_of_the_other_choice() {
    let folder = Folder::new("other-choice");
    folder.file("spot.pgm", SPOT);
    folder.file("smallest.pgm", SMOOTH);
    folder.file("binomial.pgm", BINOMIAL);
    for (_, option) in CHOICES {
        let own = option.strip_prefix("--choice ").unwrap_or("binomial");
        let other = ["binomial", "smallest"]
            .into_iter()
            .find(|name| *name != own);
        let other = other.unwrap();
        let compare = format!("compare --matrix 2048,0,2048 --steps 1 {option} spot.pgm");
        let equal = folder.run(&format!("{compare} {own}.pgm"), b"").text();
        assert!(
            equal.ends_with("library's run, steps 1: equal\n"),
            "{equal}"
        );
        let ran = folder.run(&format!("{compare} {other}.pgm"), b"");
        let said = String::from_utf8(ran.stdout).unwrap();
        // The centre is 400 in the one and 0 in the other; so are the pixels beside it, 200 apart.
        let run = format!(
            "exact run, steps 1: largest distance 400.000 in column 1, row 1 (MORE than 0.5)\n\
             library's run, steps 1: 9 of 9 pixels DIFFER, first in column 0, row 0; equal with --choice {other}\n"
        );
        assert!(said.ends_with(&run), "{said}");
        assert_eq!((ran.status, ran.stderr.as_str()), (1, ""));
    }
}

/// Equal pixels are equal, whatever the files are otherwise; other sides are an error.
#[test]
fn equal_pictures_and_other_sides() {
    let folder = Folder::new("equal");
    folder.file("a.pgm", "P2 2 1 255 7 9");
    folder.file("b.pgm", "P5 2 1 65535\n\0\x07\0\x09");
    folder
        .run("smooth --quiet --matrix 0,0,0 --steps 1 a.pgm c.png", b"")
        .good();
    for names in ["a.pgm a.pgm", "a.pgm b.pgm", "b.pgm c.png", "c.png a.pgm"] {
        let text = folder.run(&format!("compare {names}"), b"").text();
        assert_eq!(
            text,
            "0 of 2 pixels differ\n\
             largest difference 0 in column 0, row 0: 7 and 7\n\
             mean difference 0.000, with signs 0.000\n"
        );
    }
    folder.file("tall.pgm", "P2 1 2 255 7 9");
    let message = "a.pgm has 2 × 1 pixels, and tall.pgm has 1 × 2";
    folder
        .run("compare a.pgm tall.pgm", b"")
        .assert_failed(2, message);
    let message = "tall.pgm has 1 × 2 pixels, and standard input has 2 × 1";
    folder
        .run("compare tall.pgm -", &folder.read("a.pgm"))
        .assert_failed(2, message);
    for (work, message) in [
        ("--round 65 --steps 1", "refused (3): "),
        ("--oval 1,1,1,1 --steps 1", "refused (4): "),
        ("--round 1 --steps 0", "refused (5): "),
        ("--round 2 --steps 1", "refused (11): "),
        ("--matrix -1,0,0 --steps auto", "refused (11): "),
    ] {
        let ran = folder.run(&format!("compare a.pgm b.pgm {work}"), b"");
        assert!(
            ran.stderr.starts_with(&format!("vokhsaot: {message}")),
            "{work}: {ran:?}"
        );
        assert_eq!((ran.status, ran.stdout.len()), (2, 0));
    }
}

/// A number to three decimals, nearest, halves away from zero, from whole numbers.
fn thousandths(sum: i64, count: usize) -> String {
    let count = count as i64;
    let size = (sum.abs() * 1000 * 2 + count) / (2 * count);
    let sign = if sum < 0 && size > 0 { "-" } else { "" };
    format!("{sign}{}.{:03}", size / 1000, size % 1000)
}

/// What `compare` prints first, by the plainest way.
fn expected_differences(one: &Picture, other: &Picture) -> String {
    let pairs: Vec<(i64, i64)> = one
        .pixels
        .iter()
        .zip(&other.pixels)
        .map(|(a, b)| ((*a).into(), (*b).into()))
        .collect();
    let differing = pairs.iter().filter(|(a, b)| a != b).count();
    let largest = pairs.iter().map(|(a, b)| (a - b).abs()).max().unwrap();
    let place = pairs
        .iter()
        .position(|(a, b)| (a - b).abs() == largest)
        .unwrap();
    let width = one.width as usize;
    let total: i64 = pairs.iter().map(|(a, b)| (a - b).abs()).sum();
    let signed: i64 = pairs.iter().map(|(a, b)| b - a).sum();
    format!(
        "{differing} of {} pixels differ\nlargest difference {largest} in column {}, row {}: {} and {}\n\
         mean difference {}, with signs {}\n",
        pairs.len(),
        place % width,
        place / width,
        pairs[place].0,
        pairs[place].1,
        thousandths(total, pairs.len()),
        thousandths(signed, pairs.len())
    )
}

/// A run of a picture by a choice, and a picture that is nearly its result.
struct Trial {
    shape: Shape,
    steps: u32,
    choice_option: &'static str,
    kernel: Kernel,
    /// The other choice by name, and its kernel.
    other_name: &'static str,
    other_kernel: Kernel,
    one: Picture,
    other: Picture,
    /// The pixel that may differ from the run's.
    place: u32,
}

impl Trial {
    fn random(random: &mut Random) -> Trial {
        let (choice, choice_option) = random.pick(&CHOICES);
        let (other_choice, other_name) = match choice {
            Choice::Binomial => (Choice::Smallest, "smallest"),
            Choice::Smallest => (Choice::Binomial, "binomial"),
        };
        let (shape, steps, kernel, other_kernel) = loop {
            let (shape, steps) = random_shape(random);
            let kernel = |choice| shape_kernel_by(choice, shape, steps);
            if let (Ok(kernel), Ok(other)) = (kernel(choice), kernel(other_choice)) {
                break (shape, steps, kernel, other);
            }
        };
        let (width, height) = (1 + random.below(7) as u32, 1 + random.below(7) as u32);
        let pixels = random_pixels(random, (width * height) as usize);
        let mut other = rounded_run(&kernel, &pixels, width, height, steps);
        let most = random.pick(&[0, 1, 2 + steps / 2, 100]);
        let place = random.below(other.len() as u64) as usize;
        other[place] = other[place].saturating_add(random.below(u64::from(most) + 1) as u16);
        let [one, other] = [pixels, other].map(|pixels| Picture {
            width,
            height,
            pixels,
        });
        Trial {
            shape,
            steps,
            choice_option,
            kernel,
            other_name,
            other_kernel,
            one,
            other,
            place: place as u32,
        }
    }

    /// The picture after the run by a kernel.
    fn run(&self, kernel: &Kernel) -> Vec<u16> {
        let Picture {
            width,
            height,
            pixels,
        } = &self.one;
        rounded_run(kernel, pixels, *width, *height, self.steps)
    }

    /// The line about the library's run, and how many pixels differ from it.
    fn equality(&self) -> (String, usize) {
        let run = self.run(&self.kernel);
        let pairs = run.iter().zip(&self.other.pixels);
        let differing = pairs.filter(|(one, other)| one != other).count();
        let is_other = match self.run(&self.other_kernel) == self.other.pixels {
            true => format!("; equal with --choice {}", self.other_name),
            false => String::new(),
        };
        let (x, y) = (self.place % self.one.width, self.place / self.one.width);
        let told = match differing {
            0 => "equal".to_owned(),
            _ => format!(
                "{differing} of {} pixels DIFFER, first in column {x}, row {y}{is_other}",
                run.len()
            ),
        };
        let line = format!("library's run, steps {}: {told}", self.steps);
        (line, differing)
    }

    /// Whether the picture is near the exact run, by its line.
    fn check_exact(&self, line: &str) -> bool {
        let (Picture { width, height, .. }, steps) = (&self.one, self.steps);
        let exact = exact_run(&self.kernel, &self.one.pixels, *width, *height, steps);
        let sum = self.kernel.sum;
        let is_near = within_half_per_step(&self.other.pixels, &exact, sum, steps);
        let scale = Natural::power(sum, steps);
        let distances: Vec<Natural> = self
            .other
            .pixels
            .iter()
            .zip(&exact)
            .map(|(pixel, exact)| scale.times((*pixel).into()).distance(exact))
            .collect();
        let largest = distances.iter().max().unwrap().ratio(&scale);
        check_distance(line, steps, *width, largest, is_near, &distances, &scale);
        is_near
    }

    /// Compares the pictures; whether the other is near the exact run, and how many of its pixels differ from the run's.
    fn check(&self, folder: &Folder) -> (bool, usize) {
        folder.file("one.pgm", self.one.file());
        folder.file("other.pgm", self.other.file());
        let work = format!("{} --steps {}", option(self.shape), self.steps);
        let line = format!("compare {work} {} one.pgm other.pgm", self.choice_option);
        let ran = folder.run(&line, b"");
        let said = String::from_utf8(ran.stdout).unwrap();
        let lines: Vec<&str> = said.lines().collect();
        assert_eq!(
            format!("{}\n", lines[..3].join("\n")),
            expected_differences(&self.one, &self.other)
        );
        let is_near = self.check_exact(lines[3]);
        let (expected, differing) = self.equality();
        assert_eq!((lines[4], lines.len()), (expected.as_str(), 5), "{line}");
        let good = is_near && differing == 0;
        assert_eq!((ran.status, ran.stderr.as_str()), (i32::from(!good), ""));
        (is_near, differing)
    }
}

#[test]
fn runs_of_the_independent_program() {
    let mut random = Random::new(33);
    let folder = Folder::new("runs");
    let (mut near_and_equal, mut near, mut far) = (0, 0, 0);
    for _ in 0..240 {
        match Trial::random(&mut random).check(&folder) {
            (true, 0) => near_and_equal += 1,
            (true, _) => near += 1,
            (false, _) => far += 1,
        }
    }
    assert!(
        near_and_equal > 40 && near > 20 && far > 40,
        "{near_and_equal} {near} {far}"
    );
}

/// The line about the exact run: the distance to three decimals, a place that has it, and whether it is near.
fn check_distance(
    line: &str,
    steps: u32,
    width: u32,
    largest: f64,
    is_near: bool,
    distances: &[Natural],
    scale: &Natural,
) {
    let start = format!("exact run, steps {steps}: largest distance {largest:.3} in column ");
    let rest = line
        .strip_prefix(&start)
        .unwrap_or_else(|| panic!("{line}, not {start}"));
    let half = f64::from(steps) / 2.0;
    let end = match is_near {
        true => format!(" (at most {half:.1}: within)"),
        false => format!(" (MORE than {half:.1})"),
    };
    let place = rest
        .strip_suffix(&end)
        .unwrap_or_else(|| panic!("{line}, not {end}"));
    let (column, row) = place.split_once(", row ").unwrap();
    let [column, row] = [column, row].map(|text| text.parse::<u32>().unwrap());
    let there = distances[(row * width + column) as usize].ratio(scale);
    assert!((there - largest).abs() < 1e-6, "{line}");
}

#[test]
fn numbers_by_hand() {
    let folder = Folder::new("numbers");
    let text = folder.run("stats --bins 4", SPOT.as_bytes()).text();
    // The mean is 1600/9, the deviation 1600 × √8 / 9; 1601 greys in four ranges.
    assert_eq!(
        text,
        format!(
            "3 × 3 pixels, maxval 1600\n\
             minimum 0, first in column 0, row 0\n\
             maximum 1600, first in column 1, row 1\n\
             mean 177.778\n\
             standard deviation 502.831\n\
             median 0\n   \
             0 to  399  8  {}\n \
             400 to  799  0\n \
             800 to 1199  0\n\
             1200 to 1600  1  #######\n",
            "#".repeat(50)
        )
    );
    let text = folder.run("stats", b"P2 2 2 9 5 4 4 5").text();
    assert_eq!(
        text,
        format!(
            "2 × 2 pixels, maxval 9\n\
             minimum 4, first in column 1, row 0\n\
             maximum 5, first in column 0, row 0\n\
             mean 4.500\n\
             standard deviation 0.500\n\
             median 4.5\n\
             4 to 4  2  {0}\n\
             5 to 5  2  {0}\n",
            "#".repeat(50)
        )
    );
}

#[test]
fn numbers_of_random_pictures() {
    let mut random = Random::new(34);
    let folder = Folder::new("random-numbers");
    for _ in 0..150 {
        let most = random.pick(&[3, 20, 60]);
        let picture = Picture::random(&mut random, most);
        let any = 1 + random.below(40) as usize;
        let bins = random.pick(&[1, 16, any, 65536]);
        let text = folder
            .run(&format!("stats --bins {bins}"), picture.file().as_bytes())
            .text();
        check_numbers(&picture, bins, &text);
    }
}

/// What is printed about a picture, against loops over its pixels.
fn check_numbers(picture: &Picture, bins: usize, text: &str) {
    let lines: Vec<&str> = text.lines().collect();
    assert!(lines
        .iter()
        .all(|line| line.chars().count() <= 80 && line.trim_end() == *line));
    let pixels = &picture.pixels;
    let place = |grey: u16| {
        let first = pixels.iter().position(|pixel| *pixel == grey).unwrap() as u32;
        format!(
            "first in column {}, row {}",
            first % picture.width,
            first / picture.width
        )
    };
    let (low, high) = (*pixels.iter().min().unwrap(), *pixels.iter().max().unwrap());
    assert_eq!(
        lines[0],
        format!(
            "{} × {} pixels, maxval 65535",
            picture.width, picture.height
        )
    );
    assert_eq!(lines[1], format!("minimum {low}, {}", place(low)));
    assert_eq!(lines[2], format!("maximum {high}, {}", place(high)));
    let sum: i64 = pixels.iter().map(|pixel| i64::from(*pixel)).sum();
    assert_eq!(lines[3], format!("mean {}", thousandths(sum, pixels.len())));
    let mean = sum as f64 / pixels.len() as f64;
    let squares: f64 = pixels
        .iter()
        .map(|pixel| (f64::from(*pixel) - mean).powi(2))
        .sum();
    let deviation = (squares / pixels.len() as f64).sqrt();
    let found: f64 = lines[4]
        .strip_prefix("standard deviation ")
        .unwrap()
        .parse()
        .unwrap();
    assert!((found - deviation).abs() < 0.0006, "{found} {deviation}");
    let median: f64 = lines[5].strip_prefix("median ").unwrap().parse().unwrap();
    let below = pixels
        .iter()
        .filter(|pixel| f64::from(**pixel) < median)
        .count();
    let above = pixels
        .iter()
        .filter(|pixel| f64::from(**pixel) > median)
        .count();
    assert!(2 * below <= pixels.len() && 2 * above <= pixels.len());
    check_histogram(pixels, low, high, bins, &lines[6..]);
}

/// The ranges follow on each other from the smallest pixel to the largest; the counts are those of their pixels.
fn check_histogram(pixels: &[u16], low: u16, high: u16, bins: usize, lines: &[&str]) {
    let greys = usize::from(high - low) + 1;
    assert_eq!(lines.len(), bins.min(greys));
    let mut next = low.into();
    let mut found = Vec::new();
    for line in lines {
        let words: Vec<&str> = line.split_whitespace().collect();
        let [first, last, count] = [0, 2, 3].map(|place| words[place].parse::<usize>().unwrap());
        assert_eq!((first, words[1]), (next, "to"));
        assert!((last + 1 - first).abs_diff(greys / lines.len()) <= 1);
        let inside = |pixel: &&u16| (first..=last).contains(&usize::from(**pixel));
        assert_eq!(count, pixels.iter().filter(inside).count());
        found.push((count, words.get(4).map_or(0, |bar| bar.len())));
        next = last + 1;
    }
    assert_eq!(next, usize::from(high) + 1);
    assert_eq!(
        found.iter().map(|(count, _)| count).sum::<usize>(),
        pixels.len()
    );
    let largest = found.iter().map(|(count, _)| *count).max().unwrap();
    for (count, bar) in found {
        // The shortest bar that is not less than its share of fifty.
        assert!(bar * largest >= 50 * count && (bar == 0 || (bar - 1) * largest < 50 * count));
    }
}
