//! Differences: by hand, and against the independent program.

mod common;

use common::{numbers, plain, Folder};
use reference::difference::{difference, directional, Difference};
use reference::generate::random_pixels;
use reference::random::Random;
use reference::shape::Direction;

/// The rows of a text of numbers.
fn rows(text: &str) -> Vec<Vec<f64>> {
    let number = |word: &str| word.parse().expect("a number");
    text.lines()
        .map(|line| line.split('\t').map(number).collect())
        .collect()
}

#[test]
fn a_picture_by_hand() {
    // 1 2 4 / 0 9 0: in y a row outside is the nearest one.
    let picture = plain(3, 2, 9, &[1, 2, 4, 0, 9, 0]);
    for (which, expected) in [
        ("--x", "1\t3\t2\n9\t0\t-9\n"),
        ("--y", "-1\t7\t-4\n-1\t7\t-4\n"),
        ("--xx", "1\t1\t-2\n9\t-18\t9\n"),
        ("--yy", "-1\t7\t-4\n1\t-7\t4\n"),
        // In both rows the second row's differences in x less the first one's: 9 − 1, 0 − 3, −9 − 2.
        ("--xy", "8\t-3\t-11\n8\t-3\t-11\n"),
        ("--direction 0", "1\t3\t2\n9\t0\t-9\n"),
        ("--direction 270", "1\t-7\t4\n1\t-7\t4\n"),
        ("--direction 0,1", "-1\t7\t-4\n-1\t7\t-4\n"),
    ] {
        let folder = Folder::new("by-hand");
        let line = format!("difference {which} - out.pgm --numbers numbers.txt");
        assert_eq!(folder.run(&line, picture.as_bytes()).good(), b"");
        assert_eq!(folder.read("numbers.txt"), expected.as_bytes(), "{which}");
    }
    let folder = Folder::new("by-hand-picture");
    folder
        .run("difference --xx - out.pgm", picture.as_bytes())
        .good();
    // The largest size is −18, so 32768 levels are 18 units: 9 is half of them, 1 is 1820.4, −2 is 3640.9.
    let expected = vec![3, 2, 65535, 34588, 34588, 29127, 49152, 0, 49152];
    assert_eq!(numbers(&folder.read("out.pgm")), Some(expected));
    assert_eq!(folder.names(), ["out.pgm"]);
}

#[test]
fn refusals() {
    let folder = Folder::new("refused");
    let picture = plain(1, 1, 1, &[1]);
    let line = "difference --direction 1,1 - out.pgm --numbers n";
    let ran = folder.run(line, picture.as_bytes());
    assert!(ran
        .stderr
        .starts_with("vokhsaot: refused (4): A cosine or sine "));
    assert_eq!((ran.status, folder.names().len()), (2, 0));
    let wide = plain(1, 1025, 1, &[1; 1025]);
    let ran = folder.run("difference --x - -", wide.as_bytes());
    let refusal = "refused (6): A width or height is not 1 to 1024.";
    ran.assert_failed(2, &format!("standard input: 1 × 1025 pixels: {refusal}"));
}

#[test]
fn pictures_of_the_independent_program() {
    let mut random = Random::new(6);
    let options = ["--x", "--y", "--xx", "--yy", "--xy"];
    for round in 0..60 {
        let (width, height) = (1 + random.below(8) as u32, 1 + random.below(8) as u32);
        let pixels = random_pixels(&mut random, (width * height) as usize);
        let picture = plain(width, height, 65535, &pixels);
        let folder = Folder::new(&format!("random-{round}"));
        let mut floats = vec![0.0; pixels.len()];
        let option = if round % 6 == 5 {
            let t = random.fraction();
            let (cosine, sine) = ((1.0 - t * t) / (1.0 + t * t), -2.0 * t / (1.0 + t * t));
            let direction = Direction { cosine, sine };
            directional(direction, &pixels, width, height, &mut floats).unwrap();
            format!("--direction {cosine},{sine}")
        } else {
            let mut found = vec![0; pixels.len()];
            let which = Difference::ALL[round % 6];
            difference(which, &pixels, width, height, &mut found).unwrap();
            floats = found.into_iter().map(f64::from).collect();
            options[round % 6].to_owned()
        };
        let line = format!("difference {option} - out.pgm --numbers -");
        let text = folder.run(&line, picture.as_bytes()).text();
        let given = rows(&text);
        assert!(given.iter().all(|row| row.len() == width as usize));
        assert_eq!(given.concat(), floats, "{line}");
        check_viewed(&numbers(&folder.read("out.pgm")).unwrap()[3..], &floats);
    }
}

/// Zero is mid-grey, signs and order are kept, and the largest size is at an end.
fn check_viewed(greys: &[u32], differences: &[f64]) {
    for (grey, difference) in greys.iter().zip(differences) {
        let size = differences
            .iter()
            .fold(0.0f64, |size, other| size.max(other.abs()));
        if size == 0.0 {
            assert_eq!(*grey, 32768);
            continue;
        }
        // Within a level of a scale of 32767 to 32768 levels for the largest size.
        let about = 32768.0 + difference / size * 32767.5;
        assert!(
            (f64::from(*grey) - about).abs() <= 1.01,
            "{grey} for {difference}"
        );
    }
    if differences.iter().any(|difference| *difference != 0.0) {
        assert!(greys.iter().any(|grey| [0, 65535].contains(grey)));
    }
}
