//! PGM and PNG files of netpbm, damaged ones and endless ones: the right pixels, or an error and no output.

mod common;

use common::{fed, netpbm, numbers, Folder, TOOL};
use reference::random::Random;
use std::process::Command;
use std::sync::atomic::{AtomicUsize, Ordering};
use std::thread;

/// A kernel of the centre alone keeps each pixel.
const KEEP: &str = "smooth --quiet --matrix 0,0,0 --steps 1";

fn kept(picture: &[u8]) -> Vec<u8> {
    Folder::new("kept")
        .run(&format!("{KEEP} - -"), picture)
        .good()
}

#[test]
fn pictures_of_netpbm_come_through_unchanged() {
    for maxval in [1, 2, 254, 255, 256, 257, 1000, 32767, 65535] {
        for made in ["pgmramp -lr", "pgmramp -ellipse"] {
            for sides in ["7 5", "1024 3"] {
                let line = format!("{made} -maxval={maxval} {sides}");
                let raw = netpbm(&line, b"").unwrap();
                assert!(raw.starts_with(b"P5"));
                assert!(kept(&raw) == raw, "{line}");
                for plainer in ["pnmtoplainpnm", "pamtopnm -plain", "pgmtopgm -plain"] {
                    let plain = netpbm(plainer, &raw).unwrap();
                    // Two of them make a bitmap (P1) of a picture of two greys.
                    assert!(plain.starts_with(b"P2") || maxval == 1);
                    if plain.starts_with(b"P2") {
                        assert!(kept(&plain) == raw, "{line}, {plainer}");
                    }
                }
            }
        }
    }
    let grey = netpbm("pgmmake -maxval=65535 0.25 6 4", b"").unwrap();
    assert_eq!(kept(&grey), grey);
    for depth in [1, 255, 256, 65535] {
        let other = netpbm(&format!("pamdepth {depth}"), &grey).unwrap();
        let other = netpbm("pgmtopgm", &other).unwrap();
        assert_eq!(kept(&other), other, "{depth}");
    }
}

/// Two bytes a pixel, the most significant first: 258 is 1 and 2, and 513 would be the other order.
#[test]
fn byte_order() {
    assert_eq!(
        kept(b"P2 2 1 65535 258 3"),
        b"P5\n2 1\n65535\n\x01\x02\x00\x03"
    );
    assert_eq!(kept(b"P2 2 1 255 2 3"), b"P5\n2 1\n255\n\x02\x03");
    // A maxval of 256 takes two bytes, though 255 of its pixels fit one.
    assert_eq!(kept(b"P5 1 1 256 \x00\x07"), b"P5\n1 1\n256\n\x00\x07");
    // Both orders are pixels up to 65535, so a file from a tool with the other order reads as other pixels, as in netpbm.
    let swapped = b"P5 2 1 65535 \x02\x01\x03\x00";
    assert_eq!(numbers(&kept(swapped)), Some(vec![2, 1, 65535, 513, 768]));
    assert_eq!(numbers(swapped), Some(vec![2, 1, 65535, 513, 768]));
}

/// Where comments and whitespace are traps, the tool reads what netpbm reads.
#[test]
fn comments_as_netpbm_reads_them() {
    for file in [
        &b"P5\n# made by hand\n2 1\n# 7 7\n255\nAB"[..],
        b"P5#a\n2#b\n1#c\n255#d\nAB",
        b"P5 2 1 255 #\n",
        b"P5 2 1 255\n\n\n",
        b"P5 2 1 255\r\n\r",
        b"P5\r2\r1\r255\rAB",
        b"P5\t2\t1\t65535\tA#B\n",
        b"P5 #\n#\n # x\r 2 1 255\n#!",
        b"P2 2 1 255 1#\n2",
        b"P2 2 1 255#c\n1 2\n",
        b"P2\n# c\n2 1\n255\n# 9 9\n7 # 8\n 9\n",
        b"P2 02 001 0255 0000000001 2 ",
    ] {
        let name = String::from_utf8_lossy(file);
        let expected = numbers(file).unwrap_or_else(|| panic!("netpbm refuses {name:?}"));
        assert_eq!(numbers(&kept(file)).unwrap(), expected, "{name:?}");
    }
}

/// One of several good files, each with something that damage may hit.
fn good_file(random: &mut Random) -> Vec<u8> {
    random
        .pick(&[
            &b"P5\n3 2\n255\nABCDEF"[..],
            b"P5\n# c\n2 2\n65535\n\x01\x02\x03\x04\x05\x06\x07\x08",
            b"P5 2 3 100\nABCABC",
            b"P5 1 2 300#c\n\x00\x01\x01\x02",
            b"P2\n3 2\n9\n1 2 3\n4 5 6\n",
            b"P2 2 2 65535 # c\n1 22 333 # d\n65535",
        ])
        .to_vec()
}

fn damaged(random: &mut Random) -> Vec<u8> {
    let mut file = good_file(random);
    for _ in 0..=random.below(2) {
        if file.is_empty() {
            break;
        }
        let place = random.below(file.len() as u64) as usize;
        match random.below(6) {
            0 => file[place] = random.bits() as u8,
            1 => file[place] = random.pick(b"P0123456789 \n\r\t#-+.\0\xff"),
            2 => file.insert(place, random.pick(b"0123456789 \n\r\t#-\0\xff")),
            3 => drop(file.remove(place)),
            4 => file.truncate(place),
            _ => file.extend((0..=random.below(4)).map(|_| random.bits() as u8)),
        }
    }
    file
}

/// One damaged file: where the tool takes it, netpbm does too and sees the same picture; where not, the output of before
/// stays as it was and nothing lies beside it.
fn check_damaged(folder: &Folder, file: &[u8]) -> bool {
    folder.file("out.pgm", "old");
    let ran = folder.run(&format!("{KEEP} - out.pgm"), file);
    assert_eq!(folder.names(), ["out.pgm"]);
    let taken = ran.status == 0;
    let name = String::from_utf8_lossy(file);
    if taken {
        assert_eq!(numbers(&folder.read("out.pgm")), numbers(file), "{name:?}");
    } else {
        assert_eq!(ran.status, 2, "{name:?}");
        assert!(ran.stderr.starts_with("vokhsaot: "), "{name:?}");
        assert_eq!(ran.stderr.lines().count(), 1, "{name:?}");
        assert_eq!(folder.read("out.pgm"), b"old", "{name:?}");
    }
    taken
}

#[test]
fn thousands_of_damaged_files() {
    let taken = AtomicUsize::new(0);
    thread::scope(|scope| {
        for part in 0..2 {
            let taken = &taken;
            scope.spawn(move || {
                let folder = Folder::new(&format!("damaged-{part}"));
                let mut random = Random::new(100 + part);
                for _ in 0..2000 {
                    let file = damaged(&mut random);
                    taken.fetch_add(check_damaged(&folder, &file).into(), Ordering::Relaxed);
                }
            });
        }
    });
    let taken = taken.into_inner();
    assert!((200..3800).contains(&taken), "{taken} taken");
}

/// A raw picture of random pixels.
fn random_file(random: &mut Random, width: u32, height: u32, maxval: u16) -> Vec<u8> {
    let mut file = format!("P5\n{width} {height}\n{maxval}\n").into_bytes();
    for _ in 0..width * height {
        let pixel = random.below(u64::from(maxval) + 1) as u16;
        let unused = usize::from(maxval <= 255);
        file.extend(&pixel.to_be_bytes()[unused..]);
    }
    file
}

/// What netpbm makes PNG of is read as it was, whatever its filters and interlacing, and few bits for few greys.
#[test]
fn png_files_of_netpbm() {
    let mut random = Random::new(11);
    for maxval in [1, 3, 15, 255, 65535] {
        for (width, height) in [(1, 1), (7, 5), (9, 16), (130, 33), (1024, 2)] {
            let raw = random_file(&mut random, width, height, maxval);
            for options in [
                "-interlace",
                "-nofilter -compression=0",
                "-sub",
                "-up",
                "-avg",
                "-paeth",
                "-gamma=0.45 -srgbintent=perceptual",
            ] {
                let png = netpbm(&format!("pnmtopng -force {options}"), &raw);
                let png = png.unwrap_or_else(|| panic!("pnmtopng {options}"));
                // One grey alone is written with fewer bits; that is netpbm's part.
                if u32::from(png[24]) == maxval.count_ones() {
                    assert!(kept(&png) == raw, "{width} × {height}, {maxval}, {options}");
                } else {
                    assert_eq!((width, height), (1, 1));
                }
            }
        }
    }
}

/// A name in .png makes PNG, which netpbm reads as the picture it was; every other name makes PGM.
#[test]
fn png_files_for_netpbm() {
    let mut random = Random::new(12);
    let folder = Folder::new("to-png");
    for (maxval, written) in [
        (1, 255),
        (100, 255),
        (255, 255),
        (256, 65535),
        (65535, 65535),
    ] {
        let (width, height) = (1 + random.below(40) as u32, 1 + random.below(40) as u32);
        let raw = random_file(&mut random, width, height, maxval);
        folder.file("in.pgm", &raw);
        for name in ["out.png", "OUT.PNG", ".png", "a.Png"] {
            folder.run(&format!("{KEEP} in.pgm {name}"), b"").good();
            let png = folder.read(name);
            assert!(png.starts_with(b"\x89PNG\r\n\x1a\n"), "{name}");
            let pnm = netpbm("pngtopnm", &png).unwrap();
            let mut expected = numbers(&raw).unwrap();
            expected[2] = written;
            assert_eq!(numbers(&pnm), Some(expected), "{name} {maxval}");
            // The same out of PNG again.
            let again = folder.run(&format!("{KEEP} {name} again.pgm"), b"");
            assert_eq!(again.good(), b"");
            assert_eq!(numbers(&folder.read("again.pgm")), numbers(&pnm));
        }
        for name in ["out.pgm", "png", "out.png.pgm"] {
            folder.run(&format!("{KEEP} in.pgm {name}"), b"").good();
            assert_eq!(folder.read(name), raw);
        }
    }
}

/// A smoothed PNG picture is that of the PGM picture.
#[test]
fn png_through_smooth() {
    let mut random = Random::new(13);
    let folder = Folder::new("png-smooth");
    for maxval in [255, 65535] {
        let raw = random_file(&mut random, 60, 45, maxval);
        folder.file("in.pgm", &raw);
        folder.file("in.png", netpbm("pnmtopng -force", &raw).unwrap());
        let line = "smooth --oval 4,1,30 --steps 8";
        let expected = folder.run(&format!("{line} in.pgm"), b"").good();
        assert_eq!(folder.run(&format!("{line} in.png"), b"").good(), expected);
        folder.run(&format!("{line} in.png out.png"), b"").good();
        assert_eq!(netpbm("pngtopnm", &folder.read("out.png")), Some(expected));
    }
}

#[test]
fn files_that_are_no_such_pictures() {
    let folder = Folder::new("no-such");
    let grey = netpbm("pgmramp -lr -maxval=255 9 9", b"").unwrap();
    let colours = netpbm("pgmtoppm red-blue", &grey).unwrap();
    folder.file("grey.pgm", &grey);
    folder.file("colours.ppm", &colours);
    folder.file("colours.png", netpbm("pnmtopng -force", &colours).unwrap());
    folder.file("palette.png", netpbm("pnmtopng", &colours).unwrap());
    let mask = folder.path().join("grey.pgm");
    let transparent = netpbm(&format!("pnmtopng -force -alpha={}", mask.display()), &grey);
    folder.file("alpha.png", transparent.unwrap());
    let transparent = netpbm("pnmtopng -force -transparent rgb:00/00/00", &grey);
    folder.file("transparent.png", transparent.unwrap());
    folder.file("text", "A text.\n");
    folder.file("empty", "");
    folder.file("two.pgm", grey.repeat(2));
    let png = netpbm("pnmtopng -force", &grey).unwrap();
    folder.file("two.png", png.repeat(2));
    let taken = "only greyscale of 1, 2, 4, 8 or 16 bits is taken";
    for (name, message) in [
        (
            "colours.png",
            format!("this PNG picture has colours: {taken}"),
        ),
        (
            "palette.png",
            format!("this PNG picture has a palette: {taken}"),
        ),
        (
            "alpha.png",
            format!("this PNG picture has an alpha channel: {taken}"),
        ),
        (
            "transparent.png",
            format!("this PNG picture has a transparent grey: {taken}"),
        ),
        (
            "colours.ppm",
            "this is P6: of the PNM files only P2 and P5 are read".to_owned(),
        ),
        ("text", "this is neither a PGM nor a PNG file".to_owned()),
        ("empty", "the file is empty".to_owned()),
        ("none", "No such file or directory (os error 2)".to_owned()),
        (".", "Is a directory (os error 21)".to_owned()),
    ] {
        let message = format!("{name}: {message}");
        folder
            .run(&format!("{KEEP} {name} out.pgm"), b"")
            .assert_failed(2, &message);
    }
    for name in ["two.pgm", "two.png"] {
        let ran = folder.run(&format!("{KEEP} {name} out.pgm"), b"");
        let message = format!("vokhsaot: {name}: the file goes on after the picture (bytes: ");
        assert!(ran.stderr.starts_with(&message), "{}", ran.stderr);
        assert_eq!(ran.status, 2);
    }
    assert!(!folder.names().contains(&"out.pgm".to_owned()));
}

/// Damaged PNG files, none of which is taken: one line, and the output of before stays.
#[test]
fn damaged_png_files() {
    let mut random = Random::new(14);
    let folder = Folder::new("damaged-png");
    let good: Vec<Vec<u8>> = [1, 15, 255, 65535]
        .iter()
        .map(|maxval| random_file(&mut random, 5, 4, *maxval))
        .map(|raw| netpbm("pnmtopng -force -gamma=0.45", &raw).unwrap())
        .collect();
    for round in 0..500 {
        let mut file = good[round % good.len()].clone();
        let place = random.below(file.len() as u64) as usize;
        match random.below(3) {
            0 => file[place] ^= 1 << random.below(8),
            1 => file.truncate(place),
            _ => drop(file.remove(place)),
        }
        folder.file("out.pgm", "old");
        let ran = folder.run(&format!("{KEEP} - out.pgm"), &file);
        assert_eq!((ran.status, ran.stderr.lines().count()), (2, 1), "{ran:?}");
        assert_eq!(
            (folder.read("out.pgm"), folder.names().len()),
            (b"old".to_vec(), 1)
        );
    }
}

/// Claims of pictures that fill no memory: an error at once.
#[test]
fn huge_claims() {
    let folder = Folder::new("huge");
    for (file, sides) in [
        (
            "P5 4294967295 4294967295 65535 A",
            "4294967295 × 4294967295",
        ),
        (
            "P2 4294967295 4294967295 65535 1",
            "4294967295 × 4294967295",
        ),
        ("P5 1000000 1000000 255 A", "1000000 × 1000000"),
        ("P5 1025 1", "1025 × 1"),
    ] {
        let ran = folder.run(&format!("{KEEP} - out.pgm"), file.as_bytes());
        let refusal = "refused (6): A width or height is not 1 to 1024.";
        ran.assert_failed(2, &format!("standard input: {sides} pixels: {refusal}"));
    }
    assert!(folder.names().is_empty());
}

/// What a command of the shell without an end leads to: an error soon, in little memory.
#[test]
fn endless_inputs() {
    let folder = Folder::new("endless");
    let signature = r"\211PNG\r\n\032\n";
    let large = r"\0\0\0\015IHDR\0\0\352\140\0\0\352\140\020\0\0\0\0\365\051\366\335";
    for (endless, message) in [
        (
            "printf 'P5 60000 60000 65535\n'; cat /dev/zero",
            "60000 × 60000 pixels: refused (6): A width or height is not 1 to 1024.",
        ),
        (
            &format!("printf '{signature}{large}'; cat /dev/zero"),
            "60000 × 60000 pixels: refused (6): A width or height is not 1 to 1024.",
        ),
        (
            "printf 'P5 60 60 65535\n'; cat /dev/zero",
            "the file goes on after the picture (bytes: 4096 or more)",
        ),
        (
            "printf 'P5 '; yes '#'",
            "the header is longer than 65536 bytes",
        ),
        (
            "printf 'P2 '; yes ' '",
            "the header is longer than 65536 bytes",
        ),
        (
            "printf 'P2 9 9 9'; yes '#'",
            "the plain picture is longer than 16777216 bytes",
        ),
        ("yes '#'", "this is neither a PGM nor a PNG file"),
        ("cat /dev/zero", "this is neither a PGM nor a PNG file"),
    ] {
        let mut command = Command::new("sh");
        let script =
            format!("({endless}) 2> /dev/null | (ulimit -v 100000; timeout 20 '{TOOL}' stats)");
        command.args(["-c", &script]).current_dir(folder.path());
        let output = fed(command, b"");
        let said = String::from_utf8(output.stderr).unwrap();
        assert_eq!(said, format!("vokhsaot: standard input: {message}\n"));
        assert_eq!((output.status.code(), output.stdout.len()), (Some(2), 0));
    }
}
