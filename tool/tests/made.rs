//! `even`, `noise` and `show --numbers`: pictures by hand, and by the plainest way to the same numbers.

mod common;

use common::{numbers, plain, Folder};
use reference::generate::random_pixels;
use reference::random::Random;

/// The pixels that `show --numbers` prints, by rows.
fn shown(folder: &Folder, picture: &str) -> String {
    folder.run(&format!("show --numbers {picture}"), b"").text()
}

#[test]
fn numbers_are_the_pixels() {
    let folder = Folder::new("numbers");
    folder.file("small.pgm", plain(3, 2, 100, &[0, 50, 100, 7, 0, 99]));
    assert_eq!(shown(&folder, "small.pgm"), "0\t50\t100\n7\t0\t99\n");
    folder.file("one.pgm", plain(1, 1, 65535, &[65535]));
    assert_eq!(shown(&folder, "one.pgm"), "65535\n");
    let mut random = Random::new(1);
    for (width, height) in [(1, 9), (9, 1), (13, 7), (1024, 2), (300, 40)] {
        let pixels = random_pixels(&mut random, (width * height) as usize);
        folder.file("any.pgm", plain(width, height, 65535, &pixels));
        let printed = shown(&folder, "any.pgm");
        assert_eq!(printed.lines().count() as u32, height);
        let rows = printed.lines().map(|line| line.split('\t').count() as u32);
        assert!(rows.into_iter().all(|columns| columns == width));
        let words = printed.split_whitespace();
        let found: Vec<u16> = words.map(|word| word.parse().unwrap()).collect();
        assert_eq!(found, pixels);
        // From standard input and from PNG it is the same.
        let piped = folder.run("show --numbers", &folder.read("any.pgm")).text();
        assert_eq!(piped, printed);
        let line = "smooth --quiet --matrix 0,0,0 --steps 1 any.pgm any.png";
        folder.run(line, b"").good();
        assert_eq!(shown(&folder, "any.png"), printed);
    }
}

#[test]
fn numbers_are_of_one_picture() {
    let folder = Folder::new("one-picture");
    folder.file("in.pgm", plain(1, 1, 9, &[7]));
    let see = "(see vokhsaot show --help)";
    for (words, other) in [
        ("in.pgm in.pgm", "OTHER"),
        ("in.pgm --columns 20", "--columns"),
        ("in.pgm --png out.png", "--png"),
    ] {
        let ran = folder.run(&format!("show --numbers {words}"), b"");
        ran.assert_failed(2, &format!("--numbers cannot stand with {other} {see}"));
    }
    assert_eq!(folder.names(), ["in.pgm"]);
}

/// The one pixel that is not 9 stands in the middle, or right and below of it.
#[test]
fn spots_stand_in_the_middle() {
    let folder = Folder::new("spots");
    for (width, height, place) in [
        (1, 1, 0),
        (2, 1, 1),
        (1, 2, 1),
        (2, 2, 3),
        (3, 3, 4),
        (4, 3, 6),
        (15, 9, 67),
        (1024, 1, 512),
    ] {
        let sides = format!("--width {width} --height {height}");
        let made = folder.run(&format!("even {sides} --grey 9 --spot 65535"), b"");
        let mut expected = vec![9; width * height];
        expected[place] = 65535;
        let mut header = vec![width as u32, height as u32, 65535];
        header.extend(expected);
        assert_eq!(numbers(&made.good()), Some(header), "{sides}");
    }
}

#[test]
fn greys_and_their_maxval() {
    let folder = Folder::new("greys");
    let made = |words: &str| {
        let line = format!("even --width 2 --height 1 {words}");
        numbers(&folder.run(&line, b"").good()).unwrap()
    };
    assert_eq!(made("--grey 0"), [2, 1, 65535, 0, 0]);
    assert_eq!(made("--grey 255 --maxval 255"), [2, 1, 255, 255, 255]);
    assert_eq!(made("--grey 1 --maxval 1 --spot 0"), [2, 1, 1, 1, 0]);
    // A name in .png makes it PNG.
    let line = "even --width 2 --height 1 --grey 7 --maxval 255 two.png";
    folder.run(line, b"").good();
    assert!(folder.read("two.png").starts_with(b"\x89PNG"));
    assert_eq!(shown(&folder, "two.png"), "7\t7\n");
    let see = "(see vokhsaot even --help)";
    for (words, message) in [
        (
            "--grey 256 --maxval 255",
            "a pixel of 256 is more than the maxval 255",
        ),
        (
            "--grey 0 --spot 2 --maxval 1",
            "a pixel of 2 is more than the maxval 1",
        ),
        (
            "--grey 65536",
            "--grey: \"65536\" is not a whole number from 0 to 65535",
        ),
        (
            "--grey -1",
            "--grey: \"-1\" is not a whole number from 0 to 65535",
        ),
        (
            "--grey 0 --maxval 0",
            "--maxval: \"0\" is not a whole number from 1 to 65535",
        ),
        ("", "--grey is missing"),
    ] {
        let ran = folder.run(&format!("even --width 2 --height 1 {words} out.pgm"), b"");
        ran.assert_failed(2, &format!("{message} {see}"));
    }
    for sides in ["--width 0 --height 1", "--width 1 --height 1025"] {
        let ran = folder.run(&format!("even {sides} --grey 1 out.pgm"), b"");
        ran.assert_failed(2, "refused (6): A width or height is not 1 to 1024.");
    }
    assert_eq!(folder.names(), ["two.png"]);
}

/// Each pixel is the one before, moved by the generator's next number from −N to N, and kept to 0 and the maxval.
#[test]
fn noise_is_the_generators() {
    let folder = Folder::new("noise");
    let mut random = Random::new(5);
    for (maxval, spread) in [
        (255, 4),
        (255, 300),
        (1, 1),
        (65535, 1),
        (65535, 65535),
        (9, 0),
    ] {
        let seed = random.bits();
        let before = random_pixels(&mut random, 77).into_iter();
        let before: Vec<u16> = before.map(|pixel| pixel.min(maxval)).collect();
        folder.file("in.pgm", plain(11, 7, maxval, &before));
        let line = format!("noise --spread {spread} --seed {seed} in.pgm");
        let mut noise = Random::new(seed);
        let mut expected = vec![11, 7, maxval.into()];
        for pixel in before {
            let moved = i64::from(pixel) + noise.between(-spread, spread);
            expected.push(moved.max(0).min(maxval.into()) as u32);
        }
        let made = folder.run(&line, b"").good();
        assert_eq!(numbers(&made), Some(expected), "{line}");
        assert_eq!(folder.run(&line, b"").good(), made);
    }
}

#[test]
fn noise_that_cannot_be() {
    let folder = Folder::new("no-noise");
    folder.file("in.pgm", plain(1, 1, 9, &[7]));
    let see = "(see vokhsaot noise --help)";
    for (words, message) in [
        ("--seed 1", "--spread is missing"),
        ("--spread 1", "--seed is missing"),
        (
            "--seed 1 --spread 65536",
            "--spread: \"65536\" is not a whole number from 0 to 65535",
        ),
    ] {
        let ran = folder.run(&format!("noise {words} in.pgm out.pgm"), b"");
        ran.assert_failed(2, &format!("{message} {see}"));
    }
    let ran = folder.run("noise --spread 1 --seed 1 none.pgm out.pgm", b"");
    ran.assert_failed(2, "none.pgm: No such file or directory (os error 2)");
    assert_eq!(folder.names(), ["in.pgm"]);
}
