//! The worked cases of docs/REFERENCE.md (T0 to T10, S2.5, S2.6) by `kernel` and `smooth`, and other pictures against the
//! independent program.

mod common;

use common::{numbers, option, plain, Folder, CHOICES};
use reference::generate::{random_pixels, random_shape};
use reference::random::Random;
use reference::shape::shape_kernel_by;
use reference::smooth::rounded_run;

/// What `kernel` prints where there is one: f, its choice, the nine weights, and the covariance of one step and of all.
struct Table {
    f: String,
    choice: String,
    weights: Vec<String>,
    one_step: String,
    all_steps: String,
}

fn table(work: &str) -> Table {
    let line = format!("kernel --matrix {work}");
    let text = Folder::new("table").run(&line, b"").text();
    let after = |start: &str| -> String {
        let line = text.lines().find_map(|line| line.strip_prefix(start));
        line.unwrap_or_else(|| panic!("{start} in {text}"))
            .to_owned()
    };
    let rows = ["  row y-1 (above)", "  row y  ", "  row y+1 (below)"].map(after);
    Table {
        f: after("f = "),
        choice: after("choice "),
        weights: rows
            .iter()
            .flat_map(|row| row.split_whitespace().map(str::to_owned))
            .collect(),
        one_step: after("  one step: "),
        all_steps: after("  all steps: "),
    }
}

/// One kernel. The covariance is that of one step and that of all.
fn check(work: &str, f: &str, weights: [&str; 9], covariances: [&str; 2]) {
    let found = table(work);
    assert_eq!(found.f, f, "{work}");
    assert_eq!(found.weights, weights, "{work}");
    assert_eq!([found.one_step, found.all_steps], covariances, "{work}");
}

/// The same kernel, whatever the choice; and that is told.
fn check_each(work: &str, f: &str, weights: [&str; 9], covariances: [&str; 2]) {
    for (_, choice) in CHOICES {
        let work = format!("{work} {choice}");
        check(&work, f, weights, covariances);
        let told = table(&work).choice;
        assert!(told.contains(" (the same f with "), "{work}: {told}");
    }
}

#[test]
fn kernels_of_the_worked_cases() {
    // b
    let weights = ["0", "0", "0", "0", "1", "0", "0", "0", "0"];
    check_each("0,0,0 --steps 1", "0", weights, ["xx 0, xy 0, yy 0"; 2]);
    // c: 4096 of 16384
    let weights = ["1/4", "0", "1/4", "0", "0", "0", "1/4", "0", "1/4"];
    let covariance = "xx 4096, xy 0, yy 4096";
    check_each("4096,0,4096 --steps 1", "4096", weights, [covariance; 2]);
    // f: 2000 and 12384 of 16384, and leaning the other way
    let (lean, centre) = ("125/1024", "387/512");
    let weights = [lean, "0", "0", "0", centre, "0", "0", "0", lean];
    let covariance = "xx 1000, xy 1000, yy 1000";
    check_each("1000,1000,1000 --steps 1", "1000", weights, [covariance; 2]);
    let weights = ["0", "0", lean, "0", centre, "0", lean, "0", "0"];
    let covariance = "xx 1000, xy -1000, yy 1000";
    check_each(
        "1000,-1000,1000 --steps 1",
        "1000",
        weights,
        [covariance; 2],
    );
    // i: 2 × 262144 of 4 × 262144 beside
    let weights = ["0", "0", "0", "1/2", "0", "1/2", "0", "0", "0"];
    let covariances = ["xx 4096, xy 0, yy 0", "xx 262144, xy 0, yy 0"];
    check_each("262144,0,0 --steps 64", "0", weights, covariances);
}

/// Cases a and e, which S-2 is about, and one whose half is rounded up.
#[test]
fn kernels_that_a_choice_decides() {
    let covariances = ["xx 2048, xy 0, yy 2048"; 2];
    let hollow = ["0", "1/4", "0", "1/4", "0", "1/4", "0", "1/4", "0"];
    let (smallest, binomial) = (
        "2048,0,2048 --steps 1 --choice smallest",
        "2048,0,2048 --steps 1",
    );
    check(smallest, "0", hollow, covariances);
    assert_eq!(table(smallest).choice, "smallest (f = 1024 with binomial)");
    let [corner, side] = ["1/16", "1/8"];
    let weights = [
        corner, side, corner, side, "1/4", side, corner, side, corner,
    ];
    for choice in ["", " --choice binomial"] {
        let work = format!("{binomial}{choice}");
        check(&work, "1024", weights, covariances);
        assert_eq!(table(&work).choice, "binomial (f = 0 with smallest)");
    }
    // e: 1, 8190, 8192 and 0 of 32768; then 2049, 4094, 4096 and 8192
    let covariances = ["xx 4097/2, xy 0, yy 2048", "xx 4097, xy 0, yy 4096"];
    let (corner, above) = ("1/32768", "4095/16384");
    let weights = [
        corner, above, corner, "1/4", "0", "1/4", corner, above, corner,
    ];
    check(
        "4097,0,4096 --steps 2 --choice smallest",
        "1",
        weights,
        covariances,
    );
    let (corner, above) = ("2049/32768", "2047/16384");
    let weights = [
        corner, above, corner, "1/8", "1/4", "1/8", corner, above, corner,
    ];
    check("4097,0,4096 --steps 2", "2049", weights, covariances);
    // Half of 3 × 2049 − 4096 is 1025.5.
    assert_eq!(table("2049,0,2049 --steps 1").f, "1026");
    assert_eq!(table("2049,0,2049 --steps 1 --choice smallest").f, "2");
}

#[test]
fn refusals_of_the_worked_cases() {
    let folder = Folder::new("refusals");
    let steps = |steps: u32| format!("no kernel with steps {steps}, M = {}\n", 4096 * steps);
    for (shape, count, reasons) in [
        // d, g and h, whatever the choice
        ("4097,0,4096", 1, "  the larger variance 4097 is 1 more than M = 4096 × 1\n  2 steps would be enough\n"),
        ("1000,1001,1000", 1, "  |xy| = 1001 is 1 more than the smaller variance 1000\n  no number of steps is enough\n"),
        ("-1,0,0", 1, "  the variance -1 is negative\n  no number of steps is enough\n"),
        // The lean may be to either side; both conditions may fail; 64 steps are the most.
        ("7,-9,8", 3, "  |xy| = 9 is 2 more than the smaller variance 7\n  no number of steps is enough\n"),
        ("0,1,9000", 2, "  |xy| = 1 is 1 more than the smaller variance 0\n  the larger variance 9000 is 808 more than M = 4096 × 2\n  no number of steps is enough\n"),
        ("262144,0,0", 63, "  the larger variance 262144 is 4096 more than M = 4096 × 63\n  64 steps would be enough\n"),
        ("0,0,262145", 64, "  the larger variance 262145 is 1 more than M = 4096 × 64\n  64 steps are not enough\n"),
        ("2147483647,-2147483648,2147483647", 64, "  |xy| = 2147483648 is 1 more than the smaller variance 2147483647\n  the larger variance 2147483647 is 2147221503 more than M = 4096 × 64\n  no number of steps is enough\n"),
    ] {
        let told = steps(count) + reasons + "refused (11): No kernel exists.\n";
        let reasons: Vec<&str> = reasons.lines().map(str::trim_start).collect();
        let reasons = format!("refused (11): No kernel exists: {}", reasons.join("; "));
        for (_, choice) in CHOICES {
            let work = format!("--matrix {shape} --steps {count} {choice}");
            let ran = folder.run(&format!("kernel {work}"), b"");
            let text = String::from_utf8(ran.stdout).unwrap();
            assert_eq!(text.split_once('\n').unwrap().1, told);
            assert_eq!((ran.status, ran.stderr.as_str()), (1, ""));
            // A command that has nothing to print without a kernel says the same in one line.
            let ran = folder.run(&format!("smooth {work}"), b"P2 1 1 1 0");
            ran.assert_failed(2, &reasons);
        }
    }
}

/// Case i with 65 steps, and other refusals that come before that of the kernel.
#[test]
fn refusals_that_come_before() {
    let folder = Folder::new("before");
    let run = |line: &str| folder.run(line, b"");
    let steps = "refused (5): Steps are not 1 to 64.";
    run("kernel --matrix 262144,0,0 --steps 65").assert_failed(2, steps);
    run("kernel --matrix -1,0,0 --steps 0").assert_failed(2, steps);
    let variance =
        "refused (3): A variance of a Round or an Oval is not a number or lies outside 0 to 64.";
    run("kernel --round 64.5 --steps 0").assert_failed(2, variance);
    run("kernel --round NaN --steps 1").assert_failed(2, variance);
    run("kernel --oval 1,-1,0 --steps 1").assert_failed(2, variance);
    let direction = "refused (4): A cosine or sine is not a number or lies outside −1 to 1, or (c·c) + (s·s) lies outside 1023/1024 to 1025/1024.";
    run("kernel --oval 1,1,1,1 --steps 1").assert_failed(2, direction);
    run("kernel --oval 1,1,inf --steps 1").assert_failed(2, direction);
}

/// Smooths a picture by its numbers.
fn smoothed(work: &str, width: u32, height: u32, pixels: &[u16]) -> Vec<u32> {
    let folder = Folder::new("smoothed");
    let line = format!("smooth --quiet {work}");
    let picture = plain(width, height, 65535, pixels);
    let found = numbers(&folder.run(&line, picture.as_bytes()).good()).unwrap();
    assert_eq!(found[..3], [width, height, 65535]);
    found[3..].to_vec()
}

#[test]
fn pictures_of_the_worked_cases() {
    let spot = [0, 0, 0, 0, 1600, 0, 0, 0, 0];
    for (_, choice) in CHOICES {
        let one = |shape: &str| smoothed(&format!("{shape} --steps 1 {choice}"), 3, 3, &spot);
        let case_a = match choice {
            "--choice smallest" => [0, 400, 0, 400, 0, 400, 0, 400, 0],
            _ => [100, 200, 100, 200, 400, 200, 100, 200, 100],
        };
        assert_eq!(one("--matrix 2048,0,2048"), case_a);
        assert_eq!(one("--matrix 0,0,0"), [0, 0, 0, 0, 1600, 0, 0, 0, 0]);
        let corners = [400, 0, 400, 0, 0, 0, 400, 0, 400];
        assert_eq!(one("--matrix 4096,0,4096"), corners);
        let row = format!("--matrix 4096,0,0 --steps 1 {choice}");
        assert_eq!(smoothed(&row, 2, 1, &[0, 1]), [1, 1]);
        let leaning = format!("--matrix 1000,1000,1000 --steps 1 {choice}");
        let case_k = [14384, 2000, 2000, 2000];
        assert_eq!(smoothed(&leaning, 2, 2, &[16384, 0, 0, 0]), case_k);
        // Round and Oval to the same matrices: 0.5 is 2048, and 1 along a column is 4096 in yy.
        assert_eq!(one("--round 0.5"), case_a);
        for direction in ["90", "-90", "450", "0,1", "0,-1"] {
            let oval = format!("--oval 1,0,{direction} --steps 1 {choice}");
            assert_eq!(smoothed(&oval, 1, 2, &[0, 1]), [1, 1], "{oval}");
        }
    }
    let folder = Folder::new("wrong");
    let picture = plain(2, 1, 1, &[0, 1]);
    let refused = folder.run(
        "smooth --matrix 4096,0,0 --steps 65 - -",
        picture.as_bytes(),
    );
    refused.assert_failed(2, "refused (5): Steps are not 1 to 64.");
}

#[test]
fn pictures_of_the_independent_program() {
    let mut random = Random::new(5);
    let (mut done, mut refused) = (0, 0);
    while done < 180 || refused < 180 {
        let (shape, steps) = random_shape(&mut random);
        let (width, height) = (1 + random.below(9) as u32, 1 + random.below(9) as u32);
        let pixels = random_pixels(&mut random, (width * height) as usize);
        for (choice, choice_option) in CHOICES {
            let work = format!("{} --steps {steps} {choice_option}", option(shape));
            match shape_kernel_by(choice, shape, steps) {
                Ok(kernel) => {
                    let expected = rounded_run(&kernel, &pixels, width, height, steps);
                    let expected: Vec<u32> = expected.into_iter().map(u32::from).collect();
                    assert_eq!(smoothed(&work, width, height, &pixels), expected, "{work}");
                    done += 1;
                }
                Err(number) => {
                    let picture = plain(width, height, 65535, &pixels);
                    check_refused(&format!("smooth {work} - out.pgm"), &picture, number);
                    refused += 1;
                }
            }
        }
    }
}

/// A line that is refused by this number, in one line, and writes nothing.
fn check_refused(line: &str, picture: &str, number: u8) {
    let folder = Folder::new("random");
    let ran = folder.run(line, picture.as_bytes());
    let start = format!("vokhsaot: refused ({number}): ");
    assert!(ran.stderr.starts_with(&start), "{line}: {}", ran.stderr);
    assert_eq!(ran.stderr.lines().count(), 1, "{line}");
    assert_eq!((ran.status, folder.names().len()), (2, 0));
}
