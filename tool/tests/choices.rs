//! The choice of a kernel's free number f: both of them against the independent program, and what does not depend on it.

mod common;

use common::{full_shape, numbers, option, plain, Folder, CHOICES};
use reference::generate::{random_half, random_pixels, random_shape};
use reference::kernel::{free_number_by, Choice, Covariance, Kernel, UNITS};
use reference::random::Random;
use reference::shape::{covariance, shape_kernel_by, Shape};
use reference::smooth::{run_by, shown};

/// The entries of a shape's covariance.
fn entries(shape: Shape) -> [i64; 3] {
    let Covariance { xx, xy, yy } = covariance(shape).unwrap();
    [xx, xy, yy].map(i64::from)
}

/// A shape with a kernel, and its steps; often one near where the two choices part, or where every centre is hollow.
fn work(random: &mut Random) -> (Shape, u32) {
    loop {
        let (shape, steps) = match random.below(5) {
            0 => full_shape(random),
            1 | 2 => random_shape(random),
            _ => {
                let (covariance, steps) = random_half(random);
                (Shape::Matrix(covariance), steps)
            }
        };
        if shape_kernel_by(Choice::Binomial, shape, steps).is_ok() {
            return (shape, steps);
        }
    }
}

/// A printed fraction, or a whole number, as a share of a sum.
fn share(text: &str, sum: u64) -> u64 {
    let (above, below) = text.split_once('/').unwrap_or((text, "1"));
    let [above, below] = [above, below].map(|number| number.parse::<u64>().unwrap());
    assert_eq!(above * sum % below, 0, "{text} of {sum}");
    above * sum / below
}

/// What `kernel` prints of the nine weights, times their sum.
fn printed_weights(text: &str, sum: u64) -> Vec<u64> {
    let rows = text.lines().filter_map(|line| line.strip_prefix("  row "));
    let cells = rows.flat_map(|row| row.split_whitespace().rev().take(3).collect::<Vec<_>>());
    let mut weights: Vec<u64> = cells.map(|cell| share(cell, sum)).collect();
    weights.chunks_mut(3).for_each(<[u64]>::reverse);
    weights
}

/// One kernel by one choice, in all that is printed of it.
fn check_kernel(shape: Shape, steps: u32, choice: Choice, choice_option: &str) -> Kernel {
    let line = format!("kernel {} --steps {steps} {choice_option}", option(shape));
    let text = Folder::new("kernels").run(&line, b"").text();
    let kernel = shape_kernel_by(choice, shape, steps).unwrap();
    assert_eq!(printed_weights(&text, kernel.sum), kernel.weights, "{line}");
    let [xx, xy, yy] = entries(shape);
    let f = |choice| free_number_by(choice, xx, xy, yy, UNITS * i64::from(steps));
    let (own, other) = match choice {
        Choice::Binomial => ("binomial", "smallest"),
        Choice::Smallest => ("smallest", "binomial"),
    };
    let others = match choice {
        Choice::Binomial => f(Choice::Smallest),
        Choice::Smallest => f(Choice::Binomial),
    };
    let told = match others == f(choice) {
        true => format!("choice {own} (the same f with {other})"),
        false => format!("choice {own} (f = {others} with {other})"),
    };
    let lines: Vec<&str> = text.lines().skip(2).take(2).collect();
    assert_eq!(lines, [format!("f = {}", f(choice)), told], "{line}");
    kernel
}

/// What the usual choice is for: the centre has at least twice the weight of each pixel beside, above and below it, unless f is
/// the largest that there is; and the centre has none only where a variance is all of M.
fn check_centre(kernel: &Kernel, shape: Shape, steps: u32) {
    let [xx, xy, yy] = entries(shape);
    let m = UNITS * i64::from(steps);
    let f = free_number_by(Choice::Binomial, xx, xy, yy, m);
    let [above, beside, centre] = [1, 3, 4].map(|place| kernel.weights[place]);
    assert!(f == xx.min(yy) || centre >= 2 * above.max(beside));
    assert_eq!(centre == 0, xx.max(yy) == m);
}

#[test]
fn kernels_of_the_independent_program() {
    let mut random = Random::new(41);
    let (mut apart, mut hollow) = (0, [0; 2]);
    for _ in 0..400 {
        let (shape, steps) = work(&mut random);
        let [binomial, _, smallest] =
            CHOICES.map(|(choice, option)| check_kernel(shape, steps, choice, option));
        check_centre(&binomial, shape, steps);
        apart += usize::from(binomial != smallest);
        for (count, kernel) in hollow.iter_mut().zip([binomial, smallest]) {
            *count += usize::from(kernel.weights[4] == 0);
        }
    }
    // Often apart, and often not; the centre is hollow by the usual choice too, and more often by the other.
    assert!((80..=320).contains(&apart), "{apart}");
    assert!(hollow[0] >= 10 && hollow[1] >= 2 * hollow[0], "{hollow:?}");
}

/// Smooths a picture without a word: its pixels.
fn smoothed(work: &str, picture: &str) -> Vec<u16> {
    let line = format!("smooth --quiet {work}");
    let printed = Folder::new("pictures").run(&line, picture.as_bytes());
    let pixels = numbers(&printed.good()).unwrap().split_off(3);
    pixels.into_iter().map(|pixel| pixel as u16).collect()
}

#[test]
fn pictures_of_the_independent_program() {
    let mut random = Random::new(42);
    let mut apart = 0;
    for _ in 0..300 {
        let (shape, steps) = work(&mut random);
        let (width, height) = (1 + random.below(9) as u32, 1 + random.below(9) as u32);
        let pixels = random_pixels(&mut random, (width * height) as usize);
        let picture = plain(width, height, 65535, &pixels);
        let [binomial, _, smallest] = CHOICES.map(|(choice, choice_option)| {
            let (mut first, mut second) = (pixels.clone(), vec![0; pixels.len()]);
            let (one, two) = (&mut first, &mut second);
            run_by(choice, shape, steps, width, height, one, two).unwrap();
            let line = format!("{} --steps {steps} {choice_option}", option(shape));
            let given = smoothed(&line, &picture);
            assert_eq!(given, shown(steps, &first, &second), "{line}");
            given
        });
        apart += usize::from(binomial != smallest);
    }
    assert!((60..=240).contains(&apart), "{apart}");
}

/// What is refused is so by either choice, in the same words; who names the usual one gets what who names none gets.
#[test]
fn refusals_and_the_choice_of_who_names_none() {
    let mut random = Random::new(43);
    let (mut refused, mut done) = (0, 0);
    while refused < 100 || done < 100 {
        let (shape, steps) = random_shape(&mut random);
        let steps = random.pick(&[steps, steps, steps, 0, 65]);
        let picture = plain(3, 2, 65535, &random_pixels(&mut random, 6));
        for command in [
            "smooth --quiet",
            "kernel",
            "steps --at 1,1",
            "compare one.pgm",
        ] {
            let folder = Folder::new("refused");
            folder.file("one.pgm", &picture);
            let [unnamed, binomial, smallest] = CHOICES.map(|(_, choice)| {
                let line = format!("{command} {} --steps {steps} {choice}", option(shape));
                folder.run(&line, picture.as_bytes())
            });
            assert_eq!(unnamed, binomial, "{command} {shape:?} {steps}");
            assert_eq!(smallest.stderr, unnamed.stderr);
            let is_refused = shape_kernel_by(Choice::Smallest, shape, steps).is_err();
            if is_refused {
                assert_eq!(unnamed, smallest, "{command} {shape:?} {steps}");
                refused += 1;
            } else {
                assert_eq!(unnamed.stderr, "");
                done += 1;
            }
        }
    }
}

/// Each command that makes a kernel takes the option, and says of another value what it says of a shell's. The others have no
/// such option: they make none, or go by the service's choice.
#[test]
fn wrong_choices() {
    let folder = Folder::new("wrong");
    let known = "binomial, smallest";
    for command in ["smooth", "kernel", "steps", "compare"] {
        let operands = match command {
            "steps" => " --at 0,0 in.pgm",
            "compare" => " in.pgm in.pgm",
            _ => "",
        };
        let see = format!("(see vokhsaot {command} --help)");
        let line = format!("{command} --round 1 --steps 2{operands} --choice");
        for wrong in ["largest", "Smallest", "small", "1", "auto", "-1"] {
            let message = format!("--choice: \"{wrong}\" is none of {known} {see}");
            let ran = folder.run(&format!("{line}={wrong}"), b"");
            ran.assert_failed(2, &message);
        }
        let ran = folder.run(&line, b"");
        ran.assert_failed(2, &format!("--choice wants a value {see}"));
        let ran = folder.run(&format!("{line} smallest --choice binomial"), b"");
        ran.assert_failed(2, &format!("--choice is given twice {see}"));
        let ran = folder.run(&format!("{command}{operands} --choice smallest"), b"");
        ran.assert_failed(2, &format!("--steps is missing {see}"));
    }
    for command in [
        "difference",
        "show",
        "stats",
        "replay",
        "soak",
        "mixture",
        "horizon",
    ] {
        let ran = folder.run(&format!("{command} --choice smallest"), b"");
        let see = format!("(see vokhsaot {command} --help)");
        ran.assert_failed(2, &format!("there is no option --choice {see}"));
    }
}

#[test]
fn helps_name_the_choices() {
    let folder = Folder::new("helps");
    for command in ["smooth", "kernel", "steps", "compare"] {
        let help = folder.run(&format!("{command} --help"), b"").text();
        let words = help.split_whitespace().collect::<Vec<&str>>().join(" ");
        assert!(words.contains("--choice <CHOICE> How "), "{help}");
        let end = ", or the smallest: binomial, smallest [default: binomial]";
        assert!(words.contains(end), "{help}");
    }
}

/// What a service hands over is the run by the choice that the submit names, or of who names none, and mostly not by the other;
/// and so it is judged. A job from before a change-over has the smallest.
#[test]
fn jobs_go_by_their_choice() {
    let mut random = Random::new(44);
    let mut apart = 0;
    for _ in 0..40 {
        let (shape, steps) = work(&mut random);
        let pixels = random_pixels(&mut random, 35);
        let folder = Folder::new("service");
        folder.file("in.pgm", plain(7, 5, 65535, &pixels));
        let words = option(shape).replacen("--", "", 1).replace(',', " ");
        let half = steps / 2;
        for (named, change, choice, other) in [
            ("", "", "binomial", "smallest"),
            ("choice binomial ", "", "binomial", "smallest"),
            ("choice smallest ", "", "smallest", "binomial"),
            ("", "change over\n", "smallest", "binomial"),
        ] {
            let ticks = |count: u32| "tick\n".repeat(count as usize);
            let list = format!(
                "submit {words} steps {steps} {named}file in.pgm\n{}{change}{}collect 1 to handed.pgm\n",
                ticks(half),
                ticks(steps - half)
            );
            folder.file("one.list", list);
            let text = folder.run("replay --quiet one.list", b"").text();
            assert!(text.starts_with("verdict: good: "), "{text}");
            let compare = |choice: &str| {
                let work = format!("{} --steps {steps} --choice {choice}", option(shape));
                let ran = folder.run(&format!("compare {work} in.pgm handed.pgm"), b"");
                let text = String::from_utf8(ran.stdout).unwrap();
                (ran.status, text.lines().last().unwrap().to_owned())
            };
            let equal = format!("library's run, steps {steps}: equal");
            assert_eq!(compare(choice), (0, equal.clone()));
            let (status, told) = compare(other);
            if status == 1 {
                let end = format!("; equal with --choice {choice}");
                assert!(told.ends_with(&end), "{told}");
                apart += 1;
            } else {
                assert_eq!((status, told), (0, equal));
            }
        }
    }
    assert!((32..=128).contains(&apart), "{apart}");
}
