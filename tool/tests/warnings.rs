//! What `smooth` says beside the picture: the steps of `auto`, and warnings, by hand and against the independent program.

mod common;

use common::{full_shape, numbers, option, plain, Folder, Ran, CHOICES};
use reference::generate::{random_pixels, random_shape};
use reference::kernel::{Choice, Kernel};
use reference::random::Random;
use reference::shape::{covariance, shape_kernel, shape_kernel_by, Shape};
use reference::smooth::{exact_start, exact_step, rounded_run, step};

const HOLLOW: &str = "warning: the kernel has no weight at its centre: each step takes all of a lone bright pixel to its neighbours, which leaves rings or checkerboards";

/// Smooths a picture in an empty folder: what is said, and the pixels.
fn smooth(options: &str, picture: &str) -> (Vec<String>, Vec<u16>) {
    let Ran {
        status,
        stdout,
        stderr,
    } = Folder::new("warnings").run(&format!("smooth {options}"), picture.as_bytes());
    assert_eq!(status, 0, "{options}: {stderr}");
    let lines = stderr.lines().map(|line| {
        let line = line.strip_prefix("vokhsaot: ");
        line.expect("the program's name").to_owned()
    });
    let pixels = numbers(&stdout).unwrap().split_off(3);
    let pixels = pixels.into_iter().map(|pixel| pixel as u16);
    (lines.collect(), pixels.collect())
}

/// What is said about a picture, which does not depend on whether it may be said.
fn said(options: &str, picture: &str) -> Vec<String> {
    let (lines, pixels) = smooth(options, picture);
    let quiet = smooth(&format!("{options} --quiet"), picture);
    assert_eq!(quiet, (Vec::new(), pixels.clone()), "{options}");
    assert_eq!(smooth(&format!("-q {options}"), picture), quiet);
    lines
}

/// What is said by each choice of f, where that is the same.
fn said_by_each(options: &str, picture: &str) -> Vec<String> {
    let said = CHOICES.map(|(_, choice)| said(&format!("{options} {choice}"), picture));
    assert!(said.iter().all(|lines| *lines == said[0]), "{said:?}");
    said[0].clone()
}

/// The advice where the larger variance is all that the steps can carry.
fn full(steps: u32) -> String {
    format!("{HOLLOW}; the larger variance is all of M = 4096 × {steps}, so no choice of f gives it some")
}

#[test]
fn steps_of_auto_are_told() {
    let spot = plain(3, 1, 65535, &[0, 60000, 0]);
    let two = "2 steps, the fewest with a kernel".to_owned();
    let shape = "--matrix 4097,0,4096";
    assert_eq!(said(&format!("{shape} --steps auto"), &spot), [two.clone()]);
    assert_eq!(said(&format!("{shape} --steps 2"), &spot), [""; 0]);
    let hollow = format!("{HOLLOW}; it has some without --choice smallest, or with 3 steps");
    let smallest = format!("{shape} --choice smallest");
    assert_eq!(
        said(&format!("{smallest} --steps auto"), &spot),
        [two.clone(), hollow.clone()]
    );
    assert_eq!(said(&format!("{smallest} --steps 2"), &spot), [hollow]);
    // A variance of whole square pixels has no centre with the fewest steps.
    let whole = "--matrix 8192,0,4096 --steps auto";
    let hollow = format!("{}; with 3 steps it has some", full(2));
    assert_eq!(said(whole, &spot), [two, hollow]);
    assert_eq!(
        said_by_each("--matrix 2000,0,2000 --steps auto", &spot),
        ["1 step, the fewest with a kernel"]
    );
    for (_, choice) in CHOICES {
        let line = format!("kernel {shape} --steps auto {choice}");
        let table = Folder::new("auto").run(&line, b"");
        assert!(table.text().contains("\nsteps 2, M = 8192\n"));
    }
}

/// Where there is no kernel at any number of steps the line says so, and nothing is written.
#[test]
fn auto_without_a_kernel() {
    let folder = Folder::new("none");
    folder.file("in.pgm", plain(1, 1, 1, &[1]));
    for (shape, reasons) in [
        (
            "1000,1001,1000",
            "|xy| = 1001 is 1 more than the smaller variance 1000; no number of steps is enough",
        ),
        (
            "262145,0,0",
            "the larger variance 262145 is 1 more than M = 4096 × 64; 64 steps are not enough",
        ),
        (
            "-1,0,8193",
            "the variance -1 is negative; no number of steps is enough",
        ),
    ] {
        for (_, choice) in CHOICES {
            let work = format!("--matrix {shape} --steps auto {choice}");
            let line = format!("smooth {work} in.pgm out.pgm");
            let message = format!("refused (11): No kernel exists: {reasons}");
            folder.run(&line, b"").assert_failed(2, &message);
            assert_eq!(folder.run(&format!("kernel {work}"), b"").status, 1);
        }
    }
    // What is refused before the kernel stays so.
    let sides = plain(1025, 1, 1, &[0; 1025]);
    let ran = folder.run(
        "smooth --matrix 9,10,9 --steps auto - out.pgm",
        sides.as_bytes(),
    );
    ran.assert_failed(
        2,
        "standard input: 1025 × 1 pixels: refused (6): A width or height is not 1 to 1024.",
    );
    assert_eq!(folder.names(), ["in.pgm"]);
}

/// The fewest steps are those that the independent program finds by trying all.
#[test]
fn auto_takes_the_fewest() {
    let mut random = Random::new(31);
    let (mut found, mut none) = (0, 0);
    while found < 120 || none < 30 {
        let (shape, _) = random_shape(&mut random);
        let folder = Folder::new("fewest");
        let (_, choice) = CHOICES[(found + none) % 3];
        let line = format!("smooth {} --steps auto {choice} - -", option(shape));
        let ran = folder.run(&line, b"P2 1 1 1 0");
        match (1..=64).find(|steps| shape_kernel(shape, *steps).is_ok()) {
            Some(steps) => {
                let plural = if steps == 1 { "" } else { "s" };
                let first = format!("vokhsaot: {steps} step{plural}, the fewest with a kernel\n");
                assert!(ran.stderr.starts_with(&first), "{line}: {}", ran.stderr);
                found += 1;
            }
            None => {
                assert_eq!((ran.status, ran.stdout.len()), (2, 0), "{line}");
                none += 1;
            }
        }
    }
}

#[test]
fn no_pixel_changed() {
    let row = plain(3, 1, 255, &[7, 9, 200]);
    assert_eq!(
        said_by_each("--matrix 0,0,0 --steps 64", &row),
        ["warning: no pixel changed: the covariance is 0"]
    );
    // Rows of one grey each have nothing that could be smoothed along them.
    let rows = plain(2, 2, 255, &[7, 7, 200, 200]);
    let even =
        "warning: no pixel changed: each already is the average of itself and its neighbours";
    assert_eq!(said_by_each("--matrix 2048,0,0 --steps 1", &rows), [even]);
    // A unit of difference at weights of 1/4: 7.25 and 7.75 are rounded back. The fewest steps are taken already, so only
    // more units help; where there are none to be had nothing does.
    let small = plain(2, 1, 255, &[7, 8]);
    let held = "warning: no pixel changed: rounding held all 2 that an exact step would change";
    let more = "; more units help: pixels times 257, maxval 65535";
    assert_eq!(
        said_by_each("--matrix 2048,0,0 --steps 1", &small),
        [format!("{held}{more}")]
    );
    let full = plain(2, 1, 65535, &[7, 8]);
    assert_eq!(said_by_each("--matrix 2048,0,0 --steps 1", &full), [held]);
    // At 3 steps 1/6 of the weights is beside the centre: 2 units move by 1/3, 3 by 1/2.
    let three = "; at 3 steps it holds differences up to 2 units (at 1 step: 0)";
    assert_eq!(
        said_by_each("--matrix 2048,0,0 --steps 3", &full),
        [format!("{held}{three}")]
    );
    let middling = plain(2, 1, 1000, &[7, 8]);
    assert_eq!(
        said("--matrix 2048,0,0 --steps 3", &middling),
        [format!(
            "{held}{three}; more units help: pixels times 65, maxval 65000"
        )]
    );
}

/// Rounded steps may go to and fro between two pictures: half of the pixel above on the left and half of the one below on
/// the right, with halves up.
#[test]
fn pixels_that_come_back() {
    let one = [3, 3, 3, 4, 4, 3, 3, 3, 4, 4, 3, 3, 3, 3, 3, 3, 3, 3, 3, 3];
    let other = [3, 3, 4, 4, 4, 3, 3, 3, 3, 4, 3, 3, 3, 3, 4, 3, 3, 3, 3, 3];
    let hollow = format!("{}; with 3 steps it has some", full(2));
    let back = "warning: no pixel changed: the steps changed some, and brought each of them back";
    let picture = plain(5, 4, 65535, &one);
    for (_, choice) in CHOICES {
        assert_eq!(
            smooth(
                &format!("--matrix 8192,8192,8192 --steps 2 {choice}"),
                &picture
            ),
            (vec![back.to_owned(), hollow.clone()], one.to_vec())
        );
        let line = format!("--matrix 4096,4096,4096 --steps 1 {choice}");
        let (_, after) = smooth(&line, &picture);
        assert_eq!(after, other);
    }
}

/// Halves go up: 3 steps have 1/12 on each side, so 10 between two 7s is 9.5 and stays, and 7 between two 10s is 8.5 and
/// rises. The pixels at the end change in any case, with the one before them.
#[test]
fn halves_are_held_from_above_only() {
    let held = |count: u32| {
        format!("warning: rounding held {count} of 6 pixels that an exact step would change; at 3 steps it holds differences up to 2 units (at 1 step: 0)")
    };
    let options = "--matrix 2048,0,0 --steps 3";
    let (lines, after) = smooth(
        options,
        &plain(11, 1, 65535, &[7, 10, 7, 7, 7, 7, 7, 7, 7, 0, 100]),
    );
    assert_eq!((lines, &after[..3]), (vec![held(3)], &[7, 10, 7][..]));
    let (lines, after) = smooth(
        options,
        &plain(11, 1, 65535, &[10, 7, 10, 10, 10, 10, 10, 10, 10, 0, 100]),
    );
    assert_eq!((lines, &after[..3]), (vec![held(2)], &[10, 8, 10][..]));
}

/// Noise of up to 4 units: at 64 steps 1/32 of the weights is around the centre, and 15 units move by less than a half. That
/// is so by either choice of f, which is 0. The fewest steps with a centre are 2 by the one, 3 by the other.
#[test]
fn noise_that_is_held() {
    for (choice, fewest) in [("", 2), ("--choice binomial", 2), ("--choice smallest", 3)] {
        check_held_noise(choice, fewest);
    }
}

fn check_held_noise(choice: &str, fewest: u32) {
    let noise: Vec<u16> = (0..192).map(|i| 96 + i * 7 % 9).collect();
    let mut picture = noise.clone();
    let text = plain(16, 12, 255, &picture);
    let many = format!("--round 1 --steps 64 {choice}");
    let [warning] = &said(&many, &text)[..] else {
        panic!("one warning");
    };
    let start = "warning: no pixel changed: rounding held all ";
    let end = format!(" that an exact step would change; at 64 steps it holds differences up to 15 units (at {fewest} steps: 0); more units help: pixels times 257, maxval 65535");
    assert!(
        warning.starts_with(start) && warning.ends_with(&end),
        "{warning}"
    );
    // A spot changes with its neighbours, and all else is held.
    picture[16 * 5 + 8] = 255;
    let text = plain(16, 12, 255, &picture);
    let [warning] = &said(&many, &text)[..] else {
        panic!("one warning");
    };
    assert!(warning.starts_with("warning: rounding held 1"), "{warning}");
    assert!(warning.ends_with(&end), "{warning}");
    // What is advised helps: the fewest steps, or more units.
    let text = plain(16, 12, 255, &noise);
    let few = format!("--round 1 --steps {fewest} {choice}");
    assert_eq!(said(&few, &text), [""; 0]);
    let wide: Vec<u16> = noise.iter().map(|pixel| 257 * pixel).collect();
    let (lines, after) = smooth(&many, &plain(16, 12, 65535, &wide));
    assert_eq!(lines, [""; 0]);
    let same = after.iter().zip(&wide).filter(|(one, other)| one == other);
    assert!(same.count() < 192 / 10);
}

/// A lone pixel in the middle of 9 × 9.
fn lone_pixel() -> String {
    let mut spot = [0u16; 81];
    spot[40] = 65535;
    plain(9, 9, 65535, &spot)
}

/// By the smallest f a lone pixel has nothing of itself after one step, and a checkerboard stands around it after four. What is
/// advised helps: another choice, or five steps.
#[test]
fn kernels_without_a_centre() {
    let picture = lone_pixel();
    let (lines, after) = smooth("--round 2 --steps 4 --choice smallest", &picture);
    let advice = "it has some without --choice smallest, or with 5 steps";
    assert_eq!(lines, [format!("{HOLLOW}; {advice}")]);
    for (place, pixel) in after.iter().enumerate() {
        assert!(place % 2 == 0 || *pixel == 0, "{place}: {pixel}");
    }
    assert!(after[40] > 0 && after[38] > 0 && after[50] > 0);
    assert_eq!(said_by_each("--round 2 --steps 5", &picture), [""; 0]);
    for choice in ["", "--choice binomial"] {
        let (lines, after) = smooth(&format!("--round 2 --steps 4 {choice}"), &picture);
        assert_eq!(lines, [""; 0]);
        // Rows and columns through the middle fall from it on, and nothing is left out.
        assert!(after[40..=44].windows(2).all(|pair| pair[0] > pair[1]));
        assert!(after[..=40].chunks(9).map(|row| row[4]).is_sorted());
        assert!(after.iter().all(|pixel| *pixel > 0), "{after:?}");
    }
    // Where even 64 steps are too few by the smallest f, only the other choice helps.
    let wide = "--matrix 262143,0,262143 --steps 64";
    let smallest = said(&format!("{wide} --choice smallest"), &picture);
    assert_eq!(
        smallest,
        [format!("{HOLLOW}; it has some without --choice smallest")]
    );
    assert_eq!(said(wide, &picture), [""; 0]);
}

/// Where a variance is all that the steps can carry every kernel is hollow, and only more steps help.
#[test]
fn kernels_without_a_centre_by_any_choice() {
    let picture = lone_pixel();
    for (choice, fewest) in [("", 3), ("--choice binomial", 3), ("--choice smallest", 5)] {
        let (lines, after) = smooth(&format!("--round 2 --steps 2 {choice}"), &picture);
        let advice = format!("with {fewest} steps it has some");
        assert_eq!(lines, [format!("{}; {advice}", full(2))]);
        // Two steps to the corners: every second column of every second row.
        for (place, pixel) in after.iter().enumerate() {
            let is_reached = place / 9 % 2 == 0 && place % 9 % 2 == 0;
            assert!(is_reached || *pixel == 0, "{place}: {pixel}");
        }
        assert!(after[40] > 0 && after[38] > 0 && after[40 + 18] > 0);
        let line = format!("--round 2 --steps {fewest} {choice}");
        assert_eq!(said(&line, &picture), [""; 0]);
    }
    // With a variance at its most even 64 steps have none.
    assert_eq!(
        said_by_each("--matrix 262144,0,1 --steps 64", &picture),
        [format!("{}, and no number of steps does", full(64))]
    );
}

/// The difference that is sure to be held, by trying: one pixel among neighbours that are all higher, or all lower.
fn tried(kernel: &Kernel) -> u16 {
    let kept = |around: u16| {
        let mut picture = [around; 9];
        picture[4] = 30_000;
        step(kernel, &picture, 3, 3)[4] == 30_000
    };
    let held = (1..30_000).take_while(|units| kept(30_000 + units) && kept(30_000 - units));
    held.last().unwrap_or(0)
}

/// A matrix with much weight at its centre, which is where rounding holds.
fn calm_shape(random: &mut Random) -> (Shape, u32) {
    let steps = random.between(1, 64) as u32;
    let most = 4096 * i64::from(steps) / random.pick(&[3, 8, 40, 400]);
    let (xx, yy) = (random.between(0, most), random.between(0, most));
    let xy = random.between(-xx.min(yy), xx.min(yy));
    (Shape::matrix(xx as i32, xy as i32, yy as i32), steps)
}

/// Within the difference that the tool names no pixel changes, and it is the largest such.
#[test]
fn differences_that_are_held() {
    let mut random = Random::new(17);
    let mut done = 0;
    while done < 160 {
        let (shape, steps) = calm_shape(&mut random);
        let (choice, choice_option) = random.pick(&CHOICES);
        let kernel = shape_kernel_by(choice, shape, steps).expect("a kernel");
        let held = tried(&kernel);
        if held == 0 || kernel.weights[4] == kernel.sum {
            continue;
        }
        let (width, height) = (random.between(2, 9) as u32, random.between(2, 9) as u32);
        let level = random.between(0, 65535 - i64::from(held)) as u16;
        let pixels: Vec<u16> = (0..width * height)
            .map(|_| level + random.below(u64::from(held) + 1) as u16)
            .collect();
        let options = format!("{} --steps {steps} {choice_option}", option(shape));
        let (lines, after) = smooth(&options, &plain(width, height, 65535, &pixels));
        assert_eq!(after, pixels, "{options}");
        let even =
            "warning: no pixel changed: each already is the average of itself and its neighbours";
        let plural = if held == 1 { "" } else { "s" };
        let text = format!(" it holds differences up to {held} unit{plural}");
        let [line] = &lines[..] else {
            panic!("{options}: {lines:?}");
        };
        assert!(line == even || line.contains(&text), "{options}: {line}");
        // One unit more, all around one pixel, and it rises.
        let mut hole = [held + 1; 9];
        hole[4] = 0;
        let (_, after) = smooth(&options, &plain(3, 3, 65535, &hole));
        assert_ne!(after[4], 0, "{options}");
        done += 1;
    }
}

/// How many pixels an exact step would change, and how many of them one rounded step and the whole run leave.
fn counted(kernel: &Kernel, steps: u32, pixels: &[u16], width: u32, height: u32) -> (usize, usize) {
    let exact = exact_step(kernel, &exact_start(pixels), width, height);
    let still = exact_start(pixels)
        .into_iter()
        .map(|one| one.times(kernel.sum));
    let first = step(kernel, pixels, width, height);
    let last = rounded_run(kernel, pixels, width, height, steps);
    let (mut uneven, mut held) = (0, 0);
    for (place, still) in still.enumerate() {
        let is_uneven = exact[place] != still;
        let is_held = first[place] == pixels[place] && last[place] == pixels[place];
        uneven += usize::from(is_uneven);
        held += usize::from(is_uneven && is_held);
    }
    (uneven, held)
}

/// The whole warning of a hollow centre, where the kernel is hollow, by trying all steps of both choices.
fn hollow_warning(choice: Choice, shape: Shape, steps: u32) -> Option<String> {
    let has_centre = |choice, steps| {
        shape_kernel_by(choice, shape, steps).is_ok_and(|kernel| kernel.weights[4] > 0)
    };
    if has_centre(choice, steps) {
        return None;
    }
    let more = (1..=64).find(|steps| has_centre(choice, *steps));
    let entries = covariance(shape).unwrap();
    let is_full = i64::from(entries.xx.max(entries.yy)) == 4096 * i64::from(steps);
    assert_ne!(is_full, has_centre(Choice::Binomial, steps));
    Some(match (is_full, more) {
        (true, Some(more)) => format!("{}; with {more} steps it has some", full(steps)),
        (true, None) => format!("{}, and no number of steps does", full(steps)),
        (false, Some(more)) => {
            format!("{HOLLOW}; it has some without --choice smallest, or with {more} steps")
        }
        (false, None) => format!("{HOLLOW}; it has some without --choice smallest"),
    })
}

/// A shape and its steps, a choice, and a picture.
struct Trial {
    shape: Shape,
    steps: u32,
    choice: Choice,
    choice_option: &'static str,
    width: u32,
    height: u32,
    pixels: Vec<u16>,
}

impl Trial {
    fn random(random: &mut Random) -> Trial {
        let (shape, steps) = match random.below(6) {
            0 | 1 => random_shape(random),
            2 => full_shape(random),
            _ => calm_shape(random),
        };
        let (choice, choice_option) = random.pick(&CHOICES);
        let (width, height) = (random.between(1, 12) as u32, random.between(1, 12) as u32);
        let count = (width * height) as usize;
        let pixels: Vec<u16> = match random.below(3) {
            0 => random_pixels(random, count),
            1 => (0..count).map(|_| random.below(300) as u16).collect(),
            _ => (0..count).map(|_| random.below(30) as u16).collect(),
        };
        Trial {
            shape,
            steps,
            choice,
            choice_option,
            width,
            height,
            pixels,
        }
    }

    /// Smooths the picture, and compares what is said with what the independent program finds: whether no pixel changed,
    /// whether rounding held many, and whether the centre is hollow. Nothing where there is no kernel.
    fn check(&self) -> Option<[usize; 3]> {
        let Trial {
            shape,
            steps,
            choice,
            choice_option,
            width,
            height,
            ..
        } = *self;
        let pixels = &self.pixels[..];
        let kernel = shape_kernel_by(choice, shape, steps).ok()?;
        let options = format!("{} --steps {steps} {choice_option}", option(shape));
        let (lines, after) = smooth(&options, &plain(width, height, 65535, pixels));
        let last = rounded_run(&kernel, pixels, width, height, steps);
        assert_eq!(after, last, "{options}");
        let (uneven, held) = counted(&kernel, steps, pixels, width, height);
        let is_much = last != pixels && held > 0 && 4 * held >= uneven && tried(&kernel) > 0;
        let hollow = hollow_warning(choice, shape, steps);
        assert_eq!(hollow.is_some(), kernel.weights[4] == 0);
        let starts = [
            (last == pixels).then(|| "warning: no pixel changed: ".to_owned()),
            is_much.then(|| format!("warning: rounding held {held} of {uneven} pixels that an exact step would change; at ")),
            hollow,
        ];
        let due: Vec<&String> = starts.iter().flatten().collect();
        assert_eq!(lines.len(), due.len(), "{options}: {lines:?}");
        for (line, start) in lines.iter().zip(due) {
            let is_whole = !start.starts_with(HOLLOW) || line == start;
            assert!(line.starts_with(start) && is_whole, "{options}: {line}");
        }
        Some(starts.map(|start| usize::from(start.is_some())))
    }
}

/// Each warning stands exactly where the independent program finds what it tells, by either choice.
#[test]
fn warnings_of_random_pictures() {
    let mut random = Random::new(23);
    let mut counts = [[0; 4]; 2];
    for _ in 0..1500 {
        let trial = Trial::random(&mut random);
        let Some(said) = trial.check() else {
            continue;
        };
        let counts = &mut counts[usize::from(trial.choice == Choice::Smallest)];
        let [unchanged, much_held, hollow] = said;
        let silent = usize::from(said == [0; 3]);
        for (count, more) in counts
            .iter_mut()
            .zip([unchanged, much_held, hollow, silent])
        {
            *count += more;
        }
    }
    assert!(
        counts.iter().flatten().all(|count| *count >= 10),
        "{counts:?}"
    );
}
