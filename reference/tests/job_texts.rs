//! The bench program's texts and the converter's: what is a job in either
//! format, what is printed, and what goes over into the other format.

use reference::generate::{
    damaged_text, fullest_text, random_half, random_job, random_text, text_of_length,
    texts_that_are_no_jobs, without_choice, written, A_JOB, LARGE_SIDES, LEANING, LONG,
    REFUSED_JOBS,
};
use reference::job_text::{
    answer, convert_j_to_n, convert_n_to_j, gcd, parse, print, reduced, run_job, Format, Job,
};
use reference::kernel::{kernel, kernel_by, Choice};
use reference::random::Random;
use reference::smooth::rounded_run;

fn refusal(text: &[u8]) -> Option<u8> {
    let printed = String::from_utf8(answer(text)).unwrap();
    let number = printed.strip_prefix("R\t")?.strip_suffix('\n')?;
    Some(number.parse().unwrap())
}

/// The converter from a format to the other.
fn convert(from: Format, text: &[u8], out: &mut [u8]) -> Result<(), u8> {
    match from {
        Format::J => convert_j_to_n(text, out),
        Format::N => convert_n_to_j(text, out),
    }
}

/// The length that the converter's output has to have.
fn converted_length(from: Format, text: &[u8]) -> usize {
    match from {
        Format::J => text.len() + 2,
        Format::N => text.len().saturating_sub(2),
    }
}

/// What the converter writes into an output of the right length.
fn converted(from: Format, text: &[u8]) -> Result<Vec<u8>, u8> {
    let mut out = vec![b'?'; converted_length(from, text)];
    let kept = out.clone();
    match convert(from, text, &mut out) {
        Ok(()) => Ok(out),
        Err(number) => {
            assert_eq!(out, kept, "{number}");
            Err(number)
        }
    }
}

/// S4.3 and its way back as the bytes have it, for a text that is a job.
fn spliced(from: Format, text: &[u8]) -> Vec<u8> {
    let end = text.iter().position(|byte| *byte == b'\n').unwrap();
    match from {
        Format::J => [b"N", &text[1..end], b"\ts", &text[end..]].concat(),
        Format::N => [b"J", &text[1..end - 2], &text[end..]].concat(),
    }
}

#[test]
fn texts_that_are_no_jobs_are_refused() {
    for format in Format::ALL {
        for choice in format.choices() {
            let text = written(format, *choice, A_JOB);
            assert_eq!(parse(format, &text).unwrap().choice, *choice);
        }
        for text in texts_that_are_no_jobs(format) {
            let shown = String::from_utf8_lossy(&text);
            assert_eq!(parse(format, &text), None, "{format:?} {shown:?}");
            assert_eq!(converted(format, &text), Err(1), "{format:?} {shown:?}");
            if format == Format::N {
                assert_eq!(refusal(&text), Some(1), "{shown:?}");
            }
        }
        for pixel in [&b"\xff"[..], b"0\0", "\u{661}".as_bytes()] {
            let mut text = written(format, Choice::Smallest, "@\t0\t0\t0\t1\t1\t1%\n");
            text.extend([pixel, b"\n"].concat());
            assert_eq!(parse(format, &text), None);
        }
    }
}

/// The eighth field, byte by byte: s or b right before line one's newline.
#[test]
fn the_field_of_the_choice() {
    for (line_one, choice) in [
        ("N\t2048\t0\t2048\t1\t1\t1\ts", Some(Choice::Smallest)),
        ("N\t2048\t0\t2048\t1\t1\t1\tb", Some(Choice::Binomial)),
        ("N\t2048\t0\t2048\t1\t1\t1\tS", None),
        ("N\t2048\t0\t2048\t1\t1\t1\tB", None),
        ("N\t2048\t0\t2048\t1\t1\t1\tsb", None),
        ("N\t2048\t0\t2048\t1\t1\t1\tbs", None),
        ("N\t2048\t0\t2048\t1\t1\t1\t", None),
        ("N\t2048\t0\t2048\t1\t1\t1", None),
        ("N\t2048\t0\t2048\t1\t1\t1s", None),
        ("N\t2048\t0\t2048\t1\t1\t1 s", None),
        ("N\t2048\t0\t2048\t1\t1\t1\ts ", None),
        ("N\t2048\t0\t2048\t1\t1\t1\ts\t", None),
        ("N\t2048\t0\t2048\t1\t1\t1\ts\r", None),
        ("N\t2048\t0\t2048\t1\t1\t1\t0\ts", None),
        ("N\t2048\t0\t2048\t1\t1\ts", None),
        ("J\t2048\t0\t2048\t1\t1\t1\ts", None),
        ("J\t2048\t0\t2048\t1\t1\t1", None),
        ("n\t2048\t0\t2048\t1\t1\t1\ts", None),
    ] {
        let text = format!("{line_one}\n7\n");
        let found = parse(Format::N, text.as_bytes()).map(|job| job.choice);
        assert_eq!(found, choice, "{line_one:?}");
        assert_eq!(refusal(text.as_bytes()).is_none(), choice.is_some());
        // Line one goes on where it should end.
        assert_eq!(parse(Format::N, format!("{line_one}7\n").as_bytes()), None);
    }
    // Line one ends without its newline, or with the text.
    assert_eq!(parse(Format::N, b"N\t0\t0\t0\t1\t0\t0\ts"), None);
    assert!(parse(Format::N, b"N\t0\t0\t0\t1\t0\t0\ts\n").is_some());
    assert_eq!(parse(Format::J, b"J\t0\t0\t0\t1\t0\t0"), None);
    assert!(parse(Format::J, b"J\t0\t0\t0\t1\t0\t0\n").is_some());
    // An archived text has seven fields and its own letter.
    assert!(parse(Format::J, b"J\t0\t0\t0\t1\t1\t1\n7\n").is_some());
    assert_eq!(parse(Format::J, b"J\t0\t0\t0\t1\t1\t1\ts\n7\n"), None);
    assert_eq!(parse(Format::J, b"N\t0\t0\t0\t1\t1\t1\n7\n"), None);
    assert_eq!(parse(Format::J, b"N\t0\t0\t0\t1\t1\t1\ts\n7\n"), None);
}

/// Refused by the bench program by their numbers, and by the converter not.
#[test]
fn jobs_outside_their_limits() {
    let wide = format!("@\t-1\t0\t0\t1\t1025\t1%\n{}0\n", "0\t".repeat(1024));
    let high = format!("@\t0\t0\t0\t1\t1\t1025%\n{}", "0\n".repeat(1025));
    for (text, number) in REFUSED_JOBS
        .iter()
        .copied()
        .chain([(&wide[..], 6), (&high, 6)])
    {
        let [archived, small, rule] = [
            written(Format::J, Choice::Smallest, text),
            written(Format::N, Choice::Smallest, text),
            written(Format::N, Choice::Binomial, text),
        ];
        assert_eq!(refusal(&small), Some(number), "{text:?}");
        assert_eq!(refusal(&rule), Some(number), "{text:?}");
        assert_eq!(refusal(&archived), Some(1), "{text:?}");
        assert_eq!(converted(Format::J, &archived), Ok(small.clone()));
        assert_eq!(converted(Format::N, &small), Ok(archived));
        assert_eq!(converted(Format::N, &rule), Err(14));
    }
}

/// Both ways by texts that are written down whole.
#[test]
fn converted_texts() {
    for (archived, new) in [
        (
            "J\t2048\t0\t2048\t1\t3\t3\n0\t0\t0\n0\t1600\t0\n0\t0\t0\n",
            "N\t2048\t0\t2048\t1\t3\t3\ts\n0\t0\t0\n0\t1600\t0\n0\t0\t0\n",
        ),
        (
            "J\t-5\t0\t7\t0\t1\t1\n65535\n",
            "N\t-5\t0\t7\t0\t1\t1\ts\n65535\n",
        ),
        (
            "J\t0\t0\t0\t1\t4000000000\t0\n",
            "N\t0\t0\t0\t1\t4000000000\t0\ts\n",
        ),
        ("J\t0\t0\t0\t0\t0\t0\n", "N\t0\t0\t0\t0\t0\t0\ts\n"),
        (
            "J\t1000\t1001\t1000\t4294967295\t1\t2\n1\n2\n",
            "N\t1000\t1001\t1000\t4294967295\t1\t2\ts\n1\n2\n",
        ),
    ] {
        assert_eq!(converted(Format::J, archived.as_bytes()), Ok(new.into()));
        assert_eq!(converted(Format::N, new.as_bytes()), Ok(archived.into()));
        assert_eq!(converted(Format::N, archived.as_bytes()), Err(1));
        assert_eq!(converted(Format::J, new.as_bytes()), Err(1));
    }
}

/// 1, then 14, then 9; what is lent keeps its bytes.
#[test]
fn refusals_of_the_converter() {
    let archived = &b"J\t0\t0\t0\t1\t1\t1\n7\n"[..];
    let small = &b"N\t0\t0\t0\t1\t1\t1\ts\n7\n"[..];
    let rule = &b"N\t0\t0\t0\t1\t1\t1\tb\n7\n"[..];
    let damaged = &b"N\t0\t0\t0\t1\t1\t1\tb\n7"[..];
    for (from, text, length, expected) in [
        (Format::J, archived, 18, Ok(())),
        (Format::J, archived, 17, Err(9)),
        (Format::J, archived, 19, Err(9)),
        (Format::J, archived, 16, Err(9)),
        (Format::J, archived, 0, Err(9)),
        (Format::J, small, 20, Err(1)),
        (Format::J, small, 0, Err(1)),
        (Format::J, rule, 20, Err(1)),
        (Format::J, &archived[..15], 17, Err(1)),
        (Format::J, b"", 2, Err(1)),
        (Format::J, b"", 0, Err(1)),
        (Format::N, small, 16, Ok(())),
        (Format::N, small, 15, Err(9)),
        (Format::N, small, 17, Err(9)),
        (Format::N, small, 18, Err(9)),
        (Format::N, small, 20, Err(9)),
        (Format::N, small, 0, Err(9)),
        (Format::N, rule, 16, Err(14)),
        (Format::N, rule, 18, Err(14)),
        (Format::N, rule, 0, Err(14)),
        (Format::N, damaged, 15, Err(1)),
        (Format::N, damaged, 0, Err(1)),
        (Format::N, archived, 14, Err(1)),
        (Format::N, b"", 0, Err(1)),
    ] {
        let mut out = vec![b'?'; length];
        let shown = String::from_utf8_lossy(text);
        assert_eq!(
            convert(from, text, &mut out),
            expected,
            "{shown:?} {length}"
        );
        if expected.is_err() {
            assert_eq!(out, vec![b'?'; length], "{shown:?} {length}");
        }
    }
}

/// Every length around both limits, which differ by the two bytes of a choice.
#[test]
fn the_longest_texts() {
    assert_eq!(Format::ALL.map(Format::max_text), [16_384, 16_386]);
    for format in Format::ALL {
        for choice in format.choices() {
            for (length, sides) in LONG.flat_map(|n| LARGE_SIDES.map(|sides| (n, sides))) {
                let text = text_of_length(format, *choice, sides, length);
                assert_eq!(text.len(), length);
                let fits = match format {
                    Format::J => length <= 16_384,
                    Format::N => length <= 16_386,
                };
                let expected = match (fits, choice) {
                    (false, _) => Err(1),
                    (true, Choice::Binomial) => Err(14),
                    (true, Choice::Smallest) => Ok(spliced(format, &text)),
                };
                assert!(converted(format, &text) == expected, "{format:?} {length}");
                let refused = match (format, fits, sides) {
                    (Format::J, _, _) | (_, false, _) => Some(1),
                    (_, _, (8170, _) | (_, 8170)) => Some(6),
                    _ => None,
                };
                assert_eq!(refusal(&text), refused, "{format:?} {sides:?} {length}");
            }
            let text = fullest_text(format, *choice);
            assert_eq!(text.len(), format.max_text());
            assert!(parse(format, &text).is_some());
            // A job and more after it.
            assert_eq!(parse(format, &[&text[..], b"0\n"].concat()), None);
        }
    }
    // 40 × 40 runs: neither 9 nor 10.
    let row = vec!["7"; 40].join("\t") + "\n";
    let large = "N\t0\t0\t0\t1\t40\t40\ts\n".to_string() + &row.repeat(40);
    assert_eq!(refusal(large.as_bytes()), None);
}

#[test]
fn divisors() {
    for a in 0..60 {
        for b in 0..60 {
            let g = gcd(a, b);
            if (a, b) == (0, 0) {
                assert_eq!(g, 0);
            } else {
                assert!(a % g == 0 && b % g == 0);
                assert!((g + 1..60).all(|d| a % d != 0 || b % d != 0));
            }
        }
    }
    let lean = kernel(LEANING, 1).unwrap();
    assert_eq!(reduced(&lean), [1024, 125, 0, 0, 0, 774, 0, 0, 0, 125]);
}

#[test]
fn printed_jobs_are_read_back() {
    let mut random = Random::new(9);
    for _ in 0..2000 {
        let archived = random_job(&mut random, Format::J);
        let text = print(Format::J, &archived);
        assert_eq!(parse(Format::J, &text), Some(archived));

        let job = random_job(&mut random, Format::N);
        let text = print(Format::N, &job);
        assert_eq!(parse(Format::N, &text).as_ref(), Some(&job));
        let printed = answer(&text);
        match run_job(&job) {
            Ok((kernel, pixels)) => {
                // The answer's picture is itself the rows of a job.
                let after = Job { pixels, ..job };
                let rows = |text: &[u8], lines: usize| -> Vec<u8> {
                    let mut parts = text.splitn(lines + 1, |byte| *byte == b'\n');
                    parts.nth(lines).unwrap().to_vec()
                };
                assert_eq!(rows(&printed, 2), rows(&print(Format::N, &after), 1));
                assert_eq!(kernel.weights.iter().sum::<u64>(), kernel.sum);
            }
            Err(number) => assert_eq!(printed, format!("R\t{number}\n").into_bytes()),
        }
    }
}

/// Kernel and pixels are both by the choice that the text names.
#[test]
fn jobs_go_by_their_choice() {
    let mut random = Random::new(12);
    let (mut accepted, mut differ) = (0, 0);
    for _ in 0..3000 {
        let (covariance, steps) = random_half(&mut random);
        let (width, height) = (random.between(1, 5) as u32, random.between(1, 5) as u32);
        let pixels: Vec<u16> = (0..width * height).map(|_| random.bits() as u16).collect();
        let [by_rule, by_smallest] = Choice::ALL.map(|choice| {
            let job = Job {
                covariance,
                steps,
                width,
                height,
                choice,
                pixels: pixels.clone(),
            };
            let expected = kernel_by(choice, covariance, steps).map(|kernel| {
                let after = rounded_run(&kernel, &pixels, width, height, steps);
                (kernel, after)
            });
            assert_eq!(run_job(&job), expected, "{covariance:?} {steps} {choice:?}");
            expected
        });
        if let (Ok((kernel, after)), Ok((other, other_after))) = (by_rule, by_smallest) {
            accepted += 1;
            differ += u32::from(kernel != other && after != other_after);
        }
    }
    assert!(accepted > 2000 && differ > 800, "{accepted} {differ}");
}

/// One byte changed, left out or added: what is still read is printed back
/// the same, so a job has no second spelling.
#[test]
fn damaged_texts() {
    let mut random = Random::new(10);
    let mut jobs = [0; 2];
    for _ in 0..50_000 {
        for (format, jobs) in Format::ALL.into_iter().zip(&mut jobs) {
            let choice = random.pick(format.choices());
            let text = damaged_text(&mut random, &written(format, choice, A_JOB));
            if let Some(job) = parse(format, &text) {
                *jobs += 1;
                assert_eq!(print(format, &job), text);
            }
        }
    }
    assert!(jobs.into_iter().all(|jobs| jobs > 1000), "{jobs:?}");
}

/// Jobs of any numbers go over byte by byte, and back to the same bytes; with
/// something else in place of the choice they are no jobs.
#[test]
fn round_trips() {
    let mut random = Random::new(13);
    let mut kept = 0;
    for _ in 0..5000 {
        let archived = random_text(&mut random, Format::J);
        let new = converted(Format::J, &archived).unwrap();
        assert_eq!(new, spliced(Format::J, &archived));
        assert_eq!(converted(Format::N, &new), Ok(archived));

        let new = random_text(&mut random, Format::N);
        match parse(Format::N, &new).unwrap().choice {
            Choice::Binomial => assert_eq!(converted(Format::N, &new), Err(14)),
            Choice::Smallest => {
                let archived = converted(Format::N, &new).unwrap();
                assert_eq!(archived, spliced(Format::N, &new));
                assert_eq!(converted(Format::J, &archived), Ok(new.clone()));
                kept += 1;
            }
        }
        let wrong = without_choice(&mut random, &new);
        assert_eq!(refusal(&wrong), Some(1));
        assert_eq!(converted(Format::N, &wrong), Err(1));
    }
    assert!((1000..4000).contains(&kept), "{kept}");
}
