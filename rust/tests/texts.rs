//! Job texts and the converter between their formats, against the independent program.

mod common;

use common::{inputs, numbered, times, CHOICES};
use reference::generate::{
    damaged_text, fullest_text, random_covariance, random_half, random_pixels, random_text,
    text_of_length, texts_that_are_no_jobs, without_choice, written, A_JOB, LARGE_SIDES, LONG,
    REFUSED_JOBS,
};
use reference::job_text::{self, answer, gcd, parse, print, Format, Job};
use reference::kernel::Choice;
use reference::random::Random;
use std::collections::BTreeSet;
use vokhsaot::{
    answer_text, convert_j_to_n, convert_j_to_n_into, convert_n_to_j, convert_n_to_j_into,
    kernel_by, smooth_by, Kernel, Shape, ANSWER_BYTES, ARCHIVED_TEXT_BYTES, CHOICE_BYTES,
    TEXT_BYTES,
};

/// The library's answer to a text, which is the independent program's.
fn compare(text: &[u8]) -> Vec<u8> {
    let expected = answer(text);
    assert!(expected.len() <= ANSWER_BYTES);
    let given = answer_text(text);
    assert!(given == expected, "{}", String::from_utf8_lossy(text));
    given
}

/// Both programs' converters from a format to the other, into an output of this length in the midst of other bytes. The outcome, all
/// of those bytes and the text are compared; what is refused has written nothing.
fn compare_lent(from: Format, text: &[u8], length: usize) -> Result<Vec<u8>, u8> {
    const BESIDE: usize = 5;
    let lent: Vec<u8> = (0..length + 2 * BESIDE)
        .map(|n| 128 + (n % 101) as u8)
        .collect();
    let (mut given, mut expected) = (lent.clone(), lent.clone());
    let place = BESIDE..BESIDE + length;
    let kept = text.to_vec();
    let (own, theirs) = (&mut given[place.clone()], &mut expected[place.clone()]);
    let (outcome, wanted) = match from {
        Format::J => (
            numbered(convert_j_to_n_into(text, own)),
            job_text::convert_j_to_n(text, theirs),
        ),
        Format::N => (
            numbered(convert_n_to_j_into(text, own)),
            job_text::convert_n_to_j(text, theirs),
        ),
    };
    let shown = || {
        format!(
            "{from:?}, {length} bytes lent: {}",
            String::from_utf8_lossy(text)
        )
    };
    assert_eq!(outcome, wanted, "{}", shown());
    assert!(given == expected, "{}", shown());
    assert!(text == kept, "{}", shown());
    assert!(outcome.is_ok() || given == lent, "{}", shown());
    outcome.map(|()| given[place].to_vec())
}

/// The length that the converter's output has to have.
fn right_length(from: Format, text: &[u8]) -> usize {
    match from {
        Format::J => text.len() + CHOICE_BYTES,
        Format::N => text.len().saturating_sub(CHOICE_BYTES),
    }
}

/// The same into outputs of the right length and of others, and by the call that makes the output itself.
fn compare_converter(from: Format, text: &[u8]) -> Result<Vec<u8>, u8> {
    let right = right_length(from, text);
    for length in [
        right + 1,
        right.saturating_sub(1),
        text.len(),
        right + 77,
        0,
    ] {
        let outcome = compare_lent(from, text, length);
        assert!(outcome.is_err() || length == right);
    }
    let outcome = compare_lent(from, text, right);
    let made = match from {
        Format::J => convert_j_to_n(text),
        Format::N => convert_n_to_j(text),
    };
    assert!(numbered(made) == outcome);
    outcome
}

/// S4.3 and its way back as the bytes have it, for a text that is a job.
fn spliced(from: Format, text: &[u8]) -> Vec<u8> {
    let end = text.iter().position(|byte| *byte == b'\n').unwrap();
    match from {
        Format::J => [b"N", &text[1..end], b"\ts", &text[end..]].concat(),
        Format::N => [b"J", &text[1..end - 2], &text[end..]].concat(),
    }
}

/// What the converter gives for a job by its choice: the text in the other format, from which the same bytes come back, or 14.
fn compare_job(from: Format, choice: Choice, text: &[u8]) {
    let outcome = compare_converter(from, text);
    let to = match from {
        Format::J => Format::N,
        Format::N => Format::J,
    };
    match choice {
        Choice::Binomial => assert_eq!(outcome, Err(14)),
        Choice::Smallest => {
            let converted = outcome.unwrap();
            assert!(converted == spliced(from, text));
            assert!(compare_converter(to, &converted).unwrap() == text);
            // The other format's text is none of this one.
            assert_eq!(compare_converter(to, text), Err(1));
        }
    }
}

/// A job of the largest size or close to it, as its text.
fn large_text(random: &mut Random, format: Format) -> Vec<u8> {
    let (covariance, steps) = random_covariance(random);
    let (width, height) = random.pick(&[
        (50, 50),
        (1024, 2),
        (2, 1024),
        (90, 88),
        (1, 1024),
        (88, 90),
    ]);
    let most = random.pick(&[9, 9, 99, 65535]);
    let mut pixels = random_pixels(random, (width * height) as usize);
    for pixel in &mut pixels {
        *pixel = u16::min(*pixel, most);
    }
    print(
        format,
        &Job {
            covariance,
            steps,
            width,
            height,
            choice: random.pick(format.choices()),
            pixels,
        },
    )
}

/// Each listed text through the bench program's work and, with outputs of every length, through both converters.
#[test]
fn listed_texts() {
    for format in Format::ALL {
        let no_jobs = texts_that_are_no_jobs(format);
        for text in &no_jobs {
            assert_eq!(compare_converter(format, text), Err(1));
            if format == Format::N {
                assert_eq!(compare(text), b"R\t1\n");
            }
        }
        let jobs = format.choices().iter().map(|choice| {
            let text = written(format, *choice, A_JOB);
            compare(&text);
            compare_job(format, *choice, &text);
            text
        });
        for text in jobs.chain(no_jobs) {
            for length in 0..text.len() + 6 {
                compare_lent(Format::J, &text, length).ok();
                compare_lent(Format::N, &text, length).ok();
            }
        }
    }
}

/// Steps, sides and shapes that the bench program refuses: the converter takes them, and the bench program no archived text.
#[test]
fn the_converter_checks_nothing_else() {
    for (text, number) in REFUSED_JOBS {
        let archived = written(Format::J, Choice::Smallest, text);
        assert_eq!(compare(&archived), b"R\t1\n");
        compare_job(Format::J, Choice::Smallest, &archived);
        for choice in Choice::ALL {
            let new = written(Format::N, choice, text);
            assert_eq!(compare(&new), format!("R\t{number}\n").as_bytes());
            compare_job(Format::N, choice, &new);
        }
    }
}

#[test]
fn jobs_and_damaged_jobs() {
    let mut random = inputs(6);
    let mut jobs = [0; 2];
    for _ in 0..times(3000) {
        for (format, jobs) in Format::ALL.into_iter().zip(&mut jobs) {
            let text = random_text(&mut random, format);
            let job = parse(format, &text).unwrap();
            let given = compare(&text);
            assert!(format == Format::N || given == b"R\t1\n");
            compare_job(format, job.choice, &text);
            let damaged = damaged_text(&mut random, &text);
            *jobs += u32::from(parse(format, &damaged).is_some());
            compare(&damaged);
            compare_converter(Format::J, &damaged).ok();
            compare_converter(Format::N, &damaged).ok();
        }
        let text = random_text(&mut random, Format::N);
        let wrong = without_choice(&mut random, &text);
        assert_eq!(compare(&wrong), b"R\t1\n");
        assert_eq!(compare_converter(Format::N, &wrong), Err(1));
        assert_eq!(compare_converter(Format::J, &wrong), Err(1));
    }
    assert!(jobs.into_iter().all(|jobs| jobs > 100), "{jobs:?}");
    for _ in 0..times(60) {
        compare(&large_text(&mut random, Format::N));
        for format in Format::ALL {
            let text = large_text(&mut random, format);
            let choice = parse(format, &text).map(|job| job.choice);
            match choice {
                Some(choice) => compare_job(format, choice, &text),
                None => assert_eq!(compare_converter(format, &text), Err(1)),
            }
        }
    }
}

/// Every text that differs from a job's by one byte, of whichever value and wherever it stands, and every beginning of it.
#[test]
fn every_damage_of_a_byte() {
    let mut jobs = 0;
    let mut all = |text: &[u8]| {
        compare(text);
        for format in Format::ALL {
            let right = right_length(format, text);
            compare_lent(format, text, right).ok();
            jobs += u32::from(parse(format, text).is_some());
        }
    };
    for format in Format::ALL {
        for choice in format.choices() {
            let text = written(format, *choice, A_JOB);
            for place in 0..text.len() {
                all(&text[..place]);
                let mut shorter = text.clone();
                shorter.remove(place);
                all(&shorter);
                let (mut changed, mut longer) = (text.clone(), text.clone());
                longer.insert(place, 0);
                for byte in 0..=255 {
                    changed[place] = byte;
                    all(&changed);
                    longer[place] = byte;
                    all(&longer);
                }
            }
            for byte in 0..=255 {
                all(&[&text[..], &[byte]].concat());
            }
        }
    }
    assert!(jobs > 1000, "{jobs}");
}

/// Case a of docs/REFERENCE.md by both choices, whole, and the kernel lines of case e.
#[test]
fn the_listing() {
    let spot = "0\t0\t0\n0\t1600\t0\n0\t0\t0\n";
    for (line_one, printed) in [
        (
            "N\t2048\t0\t2048\t1\t3\t3\tb\n",
            "K\t16\t1\t2\t1\t2\t4\t2\t1\t2\t1\nP\t3\t3\n100\t200\t100\n200\t400\t200\n100\t200\t100\n",
        ),
        (
            "N\t2048\t0\t2048\t1\t3\t3\ts\n",
            "K\t4\t0\t1\t0\t1\t0\t1\t0\t1\t0\nP\t3\t3\n0\t400\t0\n400\t0\t400\n0\t400\t0\n",
        ),
        ("J\t2048\t0\t2048\t1\t3\t3\n", "R\t1\n"),
    ] {
        let text = line_one.to_string() + spot;
        assert_eq!(compare(text.as_bytes()), printed.as_bytes());
    }
    for (text, printed) in [
        (
            &b"N\t4097\t0\t4096\t2\t1\t1\tb\n5\n"[..],
            "K\t32768\t2049\t4094\t2049\t4096\t8192\t4096\t2049\t4094\t2049\nP\t1\t1\n5\n",
        ),
        (
            b"N\t4097\t0\t4096\t2\t1\t1\ts\n5\n",
            "K\t32768\t1\t8190\t1\t8192\t0\t8192\t1\t8190\t1\nP\t1\t1\n5\n",
        ),
    ] {
        assert_eq!(compare(text), printed.as_bytes());
    }
}

/// The numbers of a line, without its letter.
fn numbers(line: &str) -> Vec<u64> {
    let fields = line.split('\t').filter(|field| *field != "K");
    fields.map(|field| field.parse().unwrap()).collect()
}

/// The sum and the weights, divided by their common divisor.
fn reduced(kernel: Kernel) -> Vec<u64> {
    let own = [&[kernel.sum][..], &kernel.weights].concat();
    let divisor = own.iter().copied().fold(0, gcd);
    own.iter().map(|number| number / divisor).collect()
}

/// The kernel line and the pixels of a text are both the library's own by the choice that it names.
#[test]
fn texts_go_by_their_choice() {
    let mut random = inputs(15);
    let (mut compared, mut differ) = (0, 0);
    for _ in 0..times(2000) {
        let (covariance, steps) = match random.below(2) {
            0 => random_covariance(&mut random),
            _ => random_half(&mut random),
        };
        let (width, height) = (random.between(1, 6) as u32, random.between(1, 6) as u32);
        let pixels = random_pixels(&mut random, (width * height) as usize);
        let (xx, xy, yy) = (covariance.xx, covariance.xy, covariance.yy);
        let shape = Shape::Matrix { xx, xy, yy };
        let answers = CHOICES.map(|(own, choice)| {
            let pixels = pixels.clone();
            let smoothed = smooth_by(own, shape, steps, width, height, &pixels).ok()?;
            let text = print(
                Format::N,
                &Job {
                    covariance,
                    steps,
                    width,
                    height,
                    choice,
                    pixels,
                },
            );
            let answer = String::from_utf8(answer_text(&text)).unwrap();
            let mut lines = answer.lines();
            let weights = reduced(kernel_by(own, shape, steps).unwrap());
            assert_eq!(numbers(lines.next().unwrap()), weights, "{shape:?} {steps}");
            let after: Vec<u64> = lines.skip(1).flat_map(numbers).collect();
            assert!(smoothed.into_iter().map(u64::from).eq(after));
            Some(answer)
        });
        compared += u32::from(answers[0].is_some());
        differ += u32::from(answers[0] != answers[1]);
    }
    assert!(compared > 1000 && differ > 300, "{compared} {differ}");
}

/// The common divisor of a kernel's sum and weights, which the sum of its line tells, and whether a weight is 0.
fn divided_by(steps: u32, answer: &[u8]) -> Option<(u64, bool)> {
    let line = String::from_utf8(answer.to_vec()).unwrap();
    let printed = numbers(line.lines().next()?.strip_prefix("K\t")?);
    let sum = 16384 * u64::from(steps);
    assert_eq!(sum % printed[0], 0, "{line}");
    Some((sum / printed[0], printed.contains(&0)))
}

/// Kernels whose sum and weights have a common divisor: of each step count, with a shape of multiples of each number that divides the
/// largest variance. Some have weights of 0.
#[test]
fn printed_kernels_are_in_lowest_terms() {
    let mut random = inputs(17);
    let (mut divisors, mut with_zero) = (BTreeSet::new(), BTreeSet::new());
    for steps in 1..=64 {
        let most = 4096 * i64::from(steps);
        for divisor in (1..=most).filter(|divisor| most % divisor == 0) {
            let mut variance = || random.between(0, most / divisor);
            let (a, b) = (variance(), variance());
            let c = match random.below(3) {
                0 => 0,
                1 => a.min(b),
                _ => random.between(-a.min(b), a.min(b)),
            };
            let (xx, xy, yy) = (a * divisor, c * divisor, b * divisor);
            for choice in ["s", "b"] {
                let text = format!("N\t{xx}\t{xy}\t{yy}\t{steps}\t1\t1\t{choice}\n7\n");
                let (found, zero) = divided_by(steps, &compare(text.as_bytes())).unwrap();
                divisors.insert(found);
                with_zero.extend(zero.then_some(found));
            }
        }
    }
    let counts = (divisors.len(), with_zero.len());
    assert!(counts.0 > 400 && counts.1 > 400, "{counts:?}");
    // All but the centre is 0, so that the divisor is the sum.
    assert_eq!(
        compare(b"N\t0\t0\t0\t1\t1\t1\tb\n7\n"),
        b"K\t1\t0\t0\t0\t0\t1\t0\t0\t0\t0\nP\t1\t1\n7\n"
    );
}

/// Every length around the longest of both formats, in pictures of several forms, and the text with the most pixels.
#[test]
fn the_longest_texts() {
    let limits = [ARCHIVED_TEXT_BYTES, TEXT_BYTES];
    assert_eq!(limits, [16_384, 16_386]);
    for (format, most) in Format::ALL.into_iter().zip(limits) {
        for choice in format.choices() {
            for (length, sides) in LONG.flat_map(|n| LARGE_SIDES.map(|sides| (n, sides))) {
                let text = text_of_length(format, *choice, sides, length);
                assert_eq!(text.len(), length);
                let given = compare(&text);
                if length <= most {
                    compare_job(format, *choice, &text);
                } else {
                    assert_eq!(compare_converter(format, &text), Err(1));
                }
                let taken = format == Format::N && length <= most;
                assert_eq!(given != b"R\t1\n", taken, "{sides:?} {length}");
            }
            let text = fullest_text(format, *choice);
            assert_eq!(text.len(), most);
            assert_eq!(compare(&text).starts_with(b"K\t"), format == Format::N);
            compare_job(format, *choice, &text);
            // A job and more after it.
            let longer = [&text[..], b"0\n"].concat();
            assert_eq!(compare(&longer), b"R\t1\n");
            assert_eq!(compare_converter(format, &longer), Err(1));
        }
    }
}
