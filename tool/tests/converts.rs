//! `convert`: texts and whole folders of them, both ways; what is refused is told and left out, and nothing is overwritten.

mod common;

use common::{fed, Folder, Ran, TOOL};
use reference::random::Random;
use std::collections::BTreeMap;
use std::ffi::OsStr;
use std::fs;
use std::os::unix::ffi::OsStrExt;
use std::os::unix::fs::{symlink, MetadataExt};
use std::path::{Path, PathBuf};
use std::process::{Command, Stdio};

/// Texts of one job in both formats, by hand: case a, and jobs that no other call would take.
const PAIRS: [(&str, &str); 7] = [
    (
        "J\t2048\t0\t2048\t1\t3\t3\n0\t0\t0\n0\t1600\t0\n0\t0\t0\n",
        "N\t2048\t0\t2048\t1\t3\t3\ts\n0\t0\t0\n0\t1600\t0\n0\t0\t0\n",
    ),
    ("J\t0\t0\t0\t1\t1\t1\n7\n", "N\t0\t0\t0\t1\t1\t1\ts\n7\n"),
    // No steps, no kernel, sides out of range: the converter does not ask.
    ("J\t0\t0\t0\t0\t1\t1\n7\n", "N\t0\t0\t0\t0\t1\t1\ts\n7\n"),
    (
        "J\t-2147483648\t2147483647\t-1\t65\t2\t1\n0\t65535\n",
        "N\t-2147483648\t2147483647\t-1\t65\t2\t1\ts\n0\t65535\n",
    ),
    (
        "J\t0\t0\t0\t1\t4000000000\t0\n",
        "N\t0\t0\t0\t1\t4000000000\t0\ts\n",
    ),
    (
        "J\t0\t0\t0\t1\t0\t4294967295\n",
        "N\t0\t0\t0\t1\t0\t4294967295\ts\n",
    ),
    ("J\t1\t2\t3\t4\t0\t0\n", "N\t1\t2\t3\t4\t0\t0\ts\n"),
];

const WITH_B: &str = "N\t2048\t0\t2048\t1\t3\t3\tb\n0\t0\t0\n0\t1600\t0\n0\t0\t0\n";
const NO_JOB: &str = "refused (1): The text is not a job";
const NO_WAY_BACK: &str = "refused (14): An N text with b cannot go back to J.";

/// Writes a file below a folder, with the folders that it lies in.
fn put(folder: &Folder, name: impl AsRef<OsStr>, bytes: impl AsRef<[u8]>) {
    let path = folder.path().join(name.as_ref());
    fs::create_dir_all(path.parent().unwrap()).unwrap();
    fs::write(path, bytes).unwrap();
}

/// All that lies below a folder, by names from there: the bytes of a file, and what else is there in words.
fn tree(folder: &Folder, name: &str) -> BTreeMap<PathBuf, Vec<u8>> {
    let root = folder.path().join(name);
    let (mut found, mut left) = (BTreeMap::new(), vec![root.clone()]);
    while let Some(place) = left.pop() {
        for entry in fs::read_dir(&place).unwrap() {
            let entry = entry.unwrap();
            let (path, kind) = (entry.path(), entry.file_type().unwrap());
            let held = if kind.is_dir() {
                left.push(path.clone());
                b"(folder)".to_vec()
            } else if kind.is_file() {
                fs::read(&path).unwrap()
            } else {
                b"(something else)".to_vec()
            };
            found.insert(path.strip_prefix(&root).unwrap().to_owned(), held);
        }
    }
    found
}

/// A run's status and what it printed on standard output and standard error.
fn told(ran: Ran) -> (i32, String, String) {
    let text = String::from_utf8(ran.stdout).unwrap();
    (ran.status, text, ran.stderr)
}

#[test]
fn one_text_both_ways() {
    let folder = Folder::new("one");
    for (number, (archived, todays)) in PAIRS.iter().enumerate() {
        for (to, from, due) in [("n", archived, todays), ("j", todays, archived)] {
            for format in [to.to_owned(), to.to_uppercase()] {
                for names in ["", "-", "- -"] {
                    let line = format!("convert --to {format} {names}");
                    let ran = folder.run(&line, from.as_bytes());
                    assert_eq!(ran.text(), *due, "{line}");
                }
            }
            let input = folder.file(&format!("{number}.{to}.old"), from);
            let output = format!("{number}.{to}.new");
            let ran = folder.run(&format!("convert --to {to} {input} {output}"), b"");
            assert_eq!(ran.text(), "");
            assert_eq!(folder.read(&output), due.as_bytes());
            // Only whole files of these names are there.
            assert_eq!(folder.read(&input), from.as_bytes());
        }
    }
    assert_eq!(folder.names().len(), 4 * PAIRS.len());
}

/// A text that is refused, the format asked for, and what is said of it.
const REFUSED: [(&str, &str, &str); 12] = [
    ("", "n", ": it is empty"),
    ("", "j", ": it is empty"),
    (PAIRS[0].1, "n", ": it is an N text already"),
    (WITH_B, "n", ": it is an N text already"),
    (PAIRS[0].0, "j", ": it is a J text already"),
    (
        "J\t0\t0\t0\t1\t1\t1\n7",
        "n",
        ": line 2 has no newline at its end",
    ),
    (
        "J\t0\t0\t0\t1\t1\t1\r\n7\r\n",
        "n",
        ": line 1, field 7 (h): \"1\\r\" has a carriage return",
    ),
    (
        "J\t0\t0\t0\t1\t2\t1\n7\t007\n",
        "n",
        ": line 2, field 2: \"007\" has a leading zero",
    ),
    (
        "N\t0\t0\t0\t1\t1\t1\tS\n7\n",
        "j",
        ": line 1, field 8 (the choice): \"S\" is neither s nor b",
    ),
    (
        "N\t0\t0\t0\t1\t1\t1\n7\n",
        "j",
        ": line 1 has 7 fields, and 8 are due",
    ),
    // 1 comes before 14.
    (
        "N\t0\t0\t0\t1\t1\t1\tb\n7",
        "j",
        ": line 2 has no newline at its end",
    ),
    (
        "a\x1b[1mletter\u{7}",
        "j",
        ": line 1, field 1: \"a\\x1b[1mletter\\x07\" is not N",
    ),
];

#[test]
fn one_text_that_is_refused() {
    let folder = Folder::new("refused");
    for (text, to, why) in REFUSED {
        let line = format!("convert --to {to} old.txt new.txt");
        folder.file("old.txt", text);
        let said = format!("old.txt: {NO_JOB}{why}");
        folder.run(&line, b"").assert_failed(1, &said);
        let said = format!("standard input: {NO_JOB}{why}");
        let ran = folder.run(&format!("convert --to {to}"), text.as_bytes());
        ran.assert_failed(1, &said);
        assert_eq!(folder.names(), ["old.txt"]);
        assert_eq!(folder.read("old.txt"), text.as_bytes());
    }
    folder.file("old.txt", WITH_B);
    let ran = folder.run("convert --to j old.txt new.txt", b"");
    ran.assert_failed(1, &format!("old.txt: {NO_WAY_BACK}"));
    assert_eq!(folder.names(), ["old.txt"]);
}

/// A text of one row that has so many bytes; each pixel takes 6 of them, the last ones fewer.
fn long_text(length: usize) -> String {
    let width = length / 6;
    let head = format!("J\t0\t0\t0\t1\t{width}\t1\n");
    let mut room = length - head.len();
    let pixels = (0..width).rev().map(|left| {
        let bytes = (room - 2 * left).min(6);
        room -= bytes;
        "1".repeat(bytes - 1)
    });
    let row: Vec<String> = pixels.collect();
    head + &row.join("\t") + "\n"
}

/// The longest texts, both ways, and those of one byte more.
#[test]
fn long_texts() {
    let folder = Folder::new("long");
    for length in [16_383, 16_384] {
        let archived = long_text(length);
        assert_eq!(archived.len(), length);
        let todays = folder.run("convert --to n", archived.as_bytes()).text();
        assert_eq!(todays.len(), length + 2);
        assert!(todays.starts_with("N\t") && todays.contains("\t1\ts\n1"));
        let back = folder.run("convert --to j", todays.as_bytes()).text();
        assert_eq!(back, archived);
    }
    let archived = long_text(16_385);
    let todays = archived.replacen('J', "N", 1).replacen('\n', "\ts\n", 1);
    for (to, text, most) in [
        ("n", &archived, "a J text has at most 16384"),
        ("j", &todays, "an N text has at most 16386"),
    ] {
        let ran = folder.run(&format!("convert --to {to}"), text.as_bytes());
        ran.assert_failed(
            1,
            &format!("standard input: {NO_JOB}: {most} bytes, and it has more"),
        );
    }
}

/// Of a file that is too long no more is read than is needed to see that: there is not the memory for more.
#[test]
fn endless_files() {
    let folder = Folder::new("endless");
    fs::create_dir(folder.path().join("archive")).unwrap();
    let endless = fs::File::create(folder.path().join("archive/endless")).unwrap();
    // Zeros from end to end, and no block on the disk.
    endless.set_len(1 << 40).unwrap();
    let run = |names: &str| {
        let mut command = Command::new("sh");
        let script = format!("ulimit -v 1000000; exec '{TOOL}' convert --to j {names} 2>&1");
        command.args(["-c", &script]).current_dir(folder.path());
        let output = fed(command, b"");
        (
            output.status.code(),
            String::from_utf8(output.stdout).unwrap(),
        )
    };
    let said = format!("{NO_JOB}: an N text has at most 16386 bytes, and it has more\n");
    let last = "1 file: 0 converted to J, 1 refused with 1\n";
    for (names, due) in [
        (
            "archive/endless new.txt",
            format!("vokhsaot: archive/endless: {said}"),
        ),
        ("/dev/zero new.txt", format!("vokhsaot: /dev/zero: {said}")),
        (
            "- new.txt < /dev/zero",
            format!("vokhsaot: standard input: {said}"),
        ),
        ("archive new", format!("archive/endless: {said}{last}")),
    ] {
        assert_eq!(run(names), (Some(1), due), "{names}");
    }
}

/// A random archived text, and the one that it converts to.
fn random_pair(random: &mut Random) -> (String, String) {
    let shape = [i64::from(i32::MIN), -4096, 0, 1, 2048, i64::from(i32::MAX)];
    let [xx, xy, yy] = std::array::from_fn(|_| random.pick(&shape));
    let steps = random.pick(&[0, 1, 64, u32::MAX]);
    let (width, height) = (random.below(9), random.below(9));
    let mut rows = String::new();
    for _ in 0..if width == 0 { 0 } else { height } {
        let row = (0..width).map(|_| (random.below(65536) >> random.below(17)).to_string());
        rows += &(row.collect::<Vec<String>>().join("\t") + "\n");
    }
    let numbers = format!("{xx}\t{xy}\t{yy}\t{steps}\t{width}\t{height}");
    (
        format!("J\t{numbers}\n{rows}"),
        format!("N\t{numbers}\ts\n{rows}"),
    )
}

/// An archive without a fault, with names of every kind: there and back it is the same, byte for byte and name for name.
#[test]
fn archives_both_ways() {
    let folder = Folder::new("archives");
    let mut random = Random::new(11);
    let mut due = BTreeMap::new();
    let mut names: Vec<Vec<u8>> = [
        "case a.txt",
        ".hidden",
        "-to",
        "deep/er/and/deeper.txt",
        "line\nbreak",
        "ü/ö",
        "a/b",
        "a.b",
        "a-b/c",
    ]
    .map(|name| name.as_bytes().to_vec())
    .to_vec();
    names.push(b"no \xff text/\xfe".to_vec());
    names.extend((0..300).map(|number| format!("many/{}/{number}", number % 7).into_bytes()));
    for name in &names {
        let name = OsStr::from_bytes(name);
        let (archived, todays) = random_pair(&mut random);
        put(&folder, Path::new("archive").join(name), archived);
        due.insert(PathBuf::from(name), todays.into_bytes());
    }
    fs::create_dir_all(folder.path().join("archive/empty/too")).unwrap();
    let before = tree(&folder, "archive");
    let summary = |letter| format!("310 files: 310 converted to {letter}\n");
    let ran = folder.run("convert --to n archive new", b"");
    assert_eq!(ran.text(), summary("N"));
    let mut found = tree(&folder, "new");
    found.retain(|_, held| held != b"(folder)");
    assert_eq!(found, due);
    let ran = folder.run("convert --to j --quiet new/ ./back/", b"");
    assert_eq!(ran.text(), summary("J"));
    assert_eq!(tree(&folder, "back"), before);
    // Into a folder that is there, by a link, and with another text in it.
    fs::create_dir(folder.path().join("there")).unwrap();
    put(&folder, "there/other", "other");
    symlink("there", folder.path().join("link")).unwrap();
    symlink("archive", folder.path().join("input")).unwrap();
    let ran = folder.run("convert --to n input link", b"");
    assert_eq!(ran.text(), summary("N"));
    assert_eq!(tree(&folder, "there").len(), tree(&folder, "new").len() + 1);
    assert_eq!(tree(&folder, "archive"), before);
    assert_eq!(
        folder.names(),
        ["archive", "back", "input", "link", "new", "there"]
    );
}

/// What cannot be converted is named in order, with its refusal and the place, and left out; the last line counts.
#[test]
fn archives_with_faults() {
    let folder = Folder::new("faults");
    put(&folder, "archive/1", PAIRS[0].1);
    put(&folder, "archive/2/good", PAIRS[1].1);
    put(&folder, "archive/2/with b", WITH_B);
    put(&folder, "archive/3", WITH_B);
    put(&folder, "archive/4.pgm", "P2 1 1 1 0\n");
    put(&folder, "archive/5", PAIRS[1].0);
    put(&folder, "archive/6/cut", &PAIRS[0].1[..30]);
    put(&folder, OsStr::from_bytes(b"archive/7\n\xff"), "");
    let (status, text, said) = told(folder.run("convert --to j archive new", b""));
    let due = format!(
        "archive/2/with b: {NO_WAY_BACK}\n\
         archive/3: {NO_WAY_BACK}\n\
         archive/4.pgm: {NO_JOB}: line 1, field 1: \"P2 1 1 1 0\" is not N\n\
         archive/5: {NO_JOB}: it is a J text already\n\
         archive/6/cut: {NO_JOB}: line 3 has no newline at its end\n\
         archive/7?\u{fffd}: {NO_JOB}: it is empty\n\
         8 files: 2 converted to J, 4 refused with 1, 2 refused with 14\n"
    );
    assert_eq!(
        (status, text.as_str(), said.as_str()),
        (1, due.as_str(), "")
    );
    let names: Vec<PathBuf> = tree(&folder, "new").into_keys().collect();
    assert_eq!(names, ["1", "2", "2/good", "6"].map(PathBuf::from));
    // The other way only one of them goes.
    let (status, text, _) = told(folder.run("convert --to n -q archive other", b""));
    assert_eq!(
        (status, text.as_str()),
        (1, "8 files: 1 converted to N, 7 refused with 1\n")
    );
    // A folder without a file is hardly the one that was meant.
    fs::create_dir_all(folder.path().join("empty/folder")).unwrap();
    let (status, text, _) = told(folder.run("convert --to n empty none", b""));
    assert_eq!((status, text.as_str()), (1, "0 files: 0 converted to N\n"));
}

/// Whatever has the name of a target is left as it is, and told.
#[test]
fn nothing_is_overwritten() {
    let folder = Folder::new("overwritten");
    for name in ["due", "folder", "link", "new", "nowhere", "other"] {
        put(&folder, format!("archive/{name}"), PAIRS[0].0);
    }
    put(&folder, "new/due", PAIRS[0].1);
    put(&folder, "new/other", "other");
    put(&folder, "elsewhere", "elsewhere");
    fs::create_dir(folder.path().join("new/folder")).unwrap();
    symlink("../elsewhere", folder.path().join("new/link")).unwrap();
    symlink("../none", folder.path().join("new/nowhere")).unwrap();
    let inode = |name: &str| fs::metadata(folder.path().join(name)).unwrap().ino();
    let before = (inode("new/due"), inode("new/other"));
    let (status, text, said) = told(folder.run("convert --to n archive new", b""));
    let there = |name: &str, how: &str| {
        format!("archive/{name}: not written: new/{name} is there already, {how}\n")
    };
    let due = there("due", "with the bytes that are due")
        + &there("folder", "and is no file")
        + &there("link", "and is no file")
        + &there("nowhere", "and is no file")
        + &there("other", "with other bytes")
        + "6 files: 1 converted to N, 5 with a target that is there already\n";
    assert_eq!(
        (status, text.as_str(), said.as_str()),
        (1, due.as_str(), "")
    );
    assert_eq!(folder.read("new/new"), PAIRS[0].1.as_bytes());
    assert_eq!(folder.read("new/other"), b"other");
    assert_eq!(folder.read("elsewhere"), b"elsewhere");
    assert_eq!(before, (inode("new/due"), inode("new/other")));
    let link = |name: &str| fs::read_link(folder.path().join(name)).unwrap();
    assert_eq!(link("new/nowhere"), Path::new("../none"));
    assert_eq!(folder.names(), ["archive", "elsewhere", "new"]);
    // A single text alike.
    for name in ["due", "link", "nowhere", "other"] {
        let ran = folder.run(&format!("convert --to n archive/due new/{name}"), b"");
        let said = format!("new/{name}: this is there already, and is left as it is");
        ran.assert_failed(1, &said);
    }
    assert_eq!(folder.read("new/other"), b"other");
    assert_eq!(tree(&folder, "new").len(), 6);
}

/// An output that is the input, by whatever name, is told before anything is written.
#[test]
fn outputs_apart_from_inputs() {
    let folder = Folder::new("apart");
    put(&folder, "all/archive/deep/text", PAIRS[0].0);
    put(&folder, "all/text", PAIRS[0].0);
    symlink("all/archive", folder.path().join("link")).unwrap();
    symlink("all", folder.path().join("above")).unwrap();
    symlink("all/text", folder.path().join("link.txt")).unwrap();
    fs::hard_link(
        folder.path().join("all/text"),
        folder.path().join("hard.txt"),
    )
    .unwrap();
    let before = tree(&folder, ".");
    let inside = "this folder is INPUT, or lies in it";
    let around = "INPUT lies in this folder";
    for (names, name, message) in [
        ("all/archive all/archive", "all/archive", inside),
        (
            "all/archive ./all/../all/archive/",
            "./all/../all/archive/",
            inside,
        ),
        ("all/archive link", "link", inside),
        ("link all/archive", "all/archive", inside),
        ("all/archive all/archive/new", "all/archive/new", inside),
        ("all/archive link/deep", "link/deep", inside),
        ("all/archive link/deep/new", "link/deep/new", inside),
        ("above all/archive", "all/archive", inside),
        ("all/archive all", "all", around),
        ("all/archive .", ".", around),
        ("link above", "above", around),
        ("all/text all/text", "all/text", "this is the input itself"),
        ("all/text link.txt", "link.txt", "this is the input itself"),
        ("all/text hard.txt", "hard.txt", "this is the input itself"),
        ("link.txt all/text", "all/text", "this is the input itself"),
        (
            "all/archive all/text",
            "all/text",
            "this is no folder, and INPUT is one",
        ),
        ("all/text all/archive", "all/archive", "this is a folder"),
        (
            "all/archive none/new",
            "none/new",
            "No such file or directory (os error 2)",
        ),
        (
            "all/text none/new",
            "none/new",
            "No such file or directory (os error 2)",
        ),
        ("none new", "none", "No such file or directory (os error 2)"),
        ("all/text new/", "new/", "this is no file's name"),
    ] {
        let ran = folder.run(&format!("convert --to n {names}"), b"");
        ran.assert_failed(2, &format!("{name}: {message}"));
        assert_eq!(tree(&folder, "."), before, "{names}");
    }
    for names in ["all/archive", "all/archive -"] {
        let ran = folder.run(&format!("convert --to n {names}"), b"");
        let said = "INPUT is a folder, and OUTPUT is none (see vokhsaot convert --help)";
        ran.assert_failed(2, said);
    }
    // Side by side they may be, also where one name begins with the other.
    let ran = folder.run("convert --to n all/archive all/archive-new", b"");
    assert_eq!(ran.text(), "1 file: 1 converted to N\n");
}

/// Links are not followed and pipes not opened, in the input; in the output no link is a folder.
#[test]
fn links_and_pipes() {
    let folder = Folder::new("links");
    put(&folder, "archive/a", PAIRS[0].0);
    put(&folder, "outside/text", PAIRS[0].0);
    for (leads_to, name) in [("a", "b"), ("../outside", "c"), (".", "d"), ("none", "e")] {
        symlink(leads_to, folder.path().join("archive").join(name)).unwrap();
    }
    let made = Command::new("mkfifo")
        .arg(folder.path().join("archive/f"))
        .status();
    assert!(made.unwrap().success());
    let (status, text, said) = told(folder.run("convert --to n archive new", b""));
    let mut due = String::new();
    for name in ["b", "c", "d", "e"] {
        due += &format!("archive/{name}: left out: this is a link, and links are not followed\n");
    }
    due += "archive/f: left out: this is a pipe\n\
            6 files: 1 converted to N, 5 left out (links, pipes, devices)\n";
    assert_eq!(
        (status, text.as_str(), said.as_str()),
        (1, due.as_str(), "")
    );
    assert_eq!(tree(&folder, "new").len(), 1);
    // The folder of a target may not lead elsewhere, least of all among the inputs.
    put(&folder, "deep/one/text", PAIRS[0].0);
    put(&folder, "deep/one/two/text", PAIRS[1].0);
    put(&folder, "deep/three", PAIRS[2].0);
    put(&folder, "deep/zero/text", PAIRS[0].0);
    fs::create_dir(folder.path().join("out")).unwrap();
    symlink("../deep", folder.path().join("out/one")).unwrap();
    put(&folder, "out/zero", "a file");
    let before = tree(&folder, "deep");
    let (status, text, said) = told(folder.run("convert --to n deep out", b""));
    let due = "deep/one: out/one: this is there already, and is no folder\n\
               deep/one/text: its folder could not be made\n\
               deep/one/two/text: its folder could not be made\n\
               deep/zero: out/zero: this is there already, and is no folder\n\
               deep/zero/text: its folder could not be made\n\
               4 files: 1 converted to N, 3 not read or not written, 2 folders not read or not made\n";
    assert_eq!(text, due);
    let due = "vokhsaot: deep: 5 of its files and folders could not be read or written\n";
    assert_eq!((status, said.as_str()), (2, due));
    assert_eq!(tree(&folder, "deep"), before);
}

/// Standard output, devices and pipes are written to; a device is no text.
#[test]
fn streams() {
    let folder = Folder::new("streams");
    folder.file("old.txt", PAIRS[0].0);
    for output in ["-", "/dev/stdout"] {
        let ran = folder.run(&format!("convert --to n old.txt {output}"), b"");
        assert_eq!(ran.text(), PAIRS[0].1);
    }
    let ran = folder.run("convert --to n /dev/stdin new.txt", PAIRS[0].0.as_bytes());
    assert_eq!(ran.text(), "");
    assert_eq!(folder.read("new.txt"), PAIRS[0].1.as_bytes());
    assert_eq!(
        folder.run("convert --to n old.txt /dev/null", b"").text(),
        ""
    );
    // A file of that name is not what - stands for.
    folder.file("-", PAIRS[1].0);
    assert_eq!(folder.run("convert --to n ./- -", b"").text(), PAIRS[1].1);
    let ran = folder.run("convert --to n - -", PAIRS[0].0.as_bytes());
    assert_eq!(ran.text(), PAIRS[0].1);
    let ran = folder.run("convert --to n /dev/null other.txt", b"");
    ran.assert_failed(1, &format!("/dev/null: {NO_JOB}: it is empty"));
    let mut command = Command::new("sh");
    let script = format!("'{TOOL}' convert --to n old.txt > /dev/full; echo $?");
    command.args(["-c", &script]).current_dir(folder.path());
    let output = fed(command, b"");
    let said = "vokhsaot: standard output: No space left on device (os error 28)\n";
    assert_eq!(String::from_utf8_lossy(&output.stderr), said);
    assert_eq!(output.stdout, b"2\n");
    // Nobody types a text: a terminal is a name that was forgotten.
    let mut command = Command::new("script");
    let script = format!("'{TOOL}' convert --to n");
    command.args(["-qec", &script, "/dev/null"]);
    let output = fed(command, b"");
    let said = "vokhsaot: no text is named, and standard input is a terminal\r\n";
    assert_eq!(String::from_utf8_lossy(&output.stdout), said);
    assert_eq!(output.status.code(), Some(2));
}

/// So many files have this fate by a last line.
fn counted(text: &str, fate: &str) -> usize {
    let last = text.lines().next_back().unwrap();
    let (_, parts) = last.split_once(": ").unwrap();
    let count = parts.split(", ").find_map(|part| part.strip_suffix(fate));
    count.map_or(0, |count| count.trim().parse().unwrap())
}

/// Two conversions into one folder at once: each target is written by one of them, and whole.
#[test]
fn two_at_once() {
    let folder = Folder::new("two");
    let mut random = Random::new(12);
    let mut due = BTreeMap::new();
    for number in 0..2000 {
        let (archived, todays) = random_pair(&mut random);
        put(&folder, format!("archive/{number}"), archived);
        due.insert(PathBuf::from(number.to_string()), todays.into_bytes());
    }
    let start = || {
        let mut command = Command::new(TOOL);
        let words = ["convert", "--to", "n", "--quiet", "archive", "new"];
        command.args(words).current_dir(folder.path());
        command.stdout(Stdio::piped()).stderr(Stdio::piped());
        command.spawn().unwrap()
    };
    fs::create_dir(folder.path().join("new")).unwrap();
    let running = [start(), start()];
    let texts = running.map(|child| {
        let output = child.wait_with_output().unwrap();
        assert_eq!(String::from_utf8_lossy(&output.stderr), "");
        String::from_utf8(output.stdout).unwrap()
    });
    let all = |fate| texts.iter().map(|text| counted(text, fate)).sum::<usize>();
    assert_eq!(all("converted to N"), due.len(), "{texts:?}");
    assert_eq!(
        all("with a target that is there already"),
        due.len(),
        "{texts:?}"
    );
    assert_eq!(tree(&folder, "new"), due);
}

/// Stopped in the midst, it tells how far it came, and every target is whole; run again, it does the rest.
#[test]
fn interrupts() {
    let folder = Folder::new("interrupts");
    // Bad ones between the good fill a pipe that nobody reads, so it is in the midst of them when it is stopped.
    for number in 0..4000 {
        let name = format!("archive/{number:04}-{}", "long name ".repeat(8));
        put(
            &folder,
            name,
            if number % 2 == 0 { PAIRS[0].0 } else { "bad" },
        );
    }
    let script = format!(
        "mkfifo pipe; (exec 3< pipe; sleep 3; cat <&3 > report) & reader=$!
         set -m; '{TOOL}' convert --to n archive new > pipe & tool=$!
         sleep 1; kill -INT $tool; wait $tool; echo $?; wait $reader"
    );
    let mut command = Command::new("bash");
    command.args(["-c", &script]).current_dir(folder.path());
    let output = fed(command, b"");
    let report = String::from_utf8(folder.read("report")).unwrap();
    assert_eq!(String::from_utf8_lossy(&output.stdout), "1\n", "{output:?}");
    let last = report.lines().next_back().unwrap();
    assert!(
        last.starts_with("4000 files: ") && last.ends_with(", stopped"),
        "{last}"
    );
    let (done, refused) = (
        counted(&report, "converted to N"),
        counted(&report, "refused with 1"),
    );
    let left = counted(&report, "not reached");
    assert!(done > 0 && left > 0, "{last}");
    assert_eq!(done + refused + left, 4000);
    let written = tree(&folder, "new");
    assert_eq!(written.len(), done);
    assert!(written.values().all(|held| held == PAIRS[0].1.as_bytes()));
    let (status, text, _) = told(folder.run("convert --to n --quiet archive new", b""));
    assert_eq!(status, 1);
    let due = format!(
        "4000 files: {} converted to N, 2000 refused with 1, {done} with a target that is there already\n",
        2000 - done
    );
    assert_eq!(text, due);
    assert_eq!(tree(&folder, "new").len(), 2000);
}

/// Ended at once, in the midst of the files: none is left that is not whole. Whoever interrupts twice does not want to wait.
#[test]
fn ended_at_once() {
    let folder = Folder::new("at-once");
    for number in 0..10_000 {
        put(&folder, format!("archive/{number}"), PAIRS[0].0);
    }
    // From the first target on; two different signals, since two of a kind may be told as one.
    let script = format!(
        "set -m
         for run in 1 2 3 4 5 6 7 8; do
             '{TOOL}' convert --to n archive new-$run > /dev/null & tool=$!
             while [ ! -e new-$run/0 ] && kill -0 $tool; do :; done
             kill -INT $tool; kill -TERM $tool; wait $tool; echo $?
         done 2> /dev/null"
    );
    let mut command = Command::new("bash");
    command.args(["-c", &script]).current_dir(folder.path());
    let output = fed(command, b"");
    let statuses = String::from_utf8(output.stdout).unwrap();
    assert!(statuses.contains("130\n"), "{statuses}");
    for run in 1..=8 {
        let found = tree(&folder, &format!("new-{run}"));
        let is_whole = |(name, held): (&PathBuf, &Vec<u8>)| {
            let is_target = !name.to_string_lossy().starts_with('.');
            is_target && held == PAIRS[0].1.as_bytes()
        };
        assert!(
            !found.is_empty() && found.iter().all(is_whole),
            "{statuses}"
        );
    }
}
