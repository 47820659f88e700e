//! Command lines and outputs: what is wrong gets its message and status, and no error touches a file.

mod common;

use common::{fed, plain, Folder, TOOL};
use std::fs;
use std::os::unix::fs::{symlink, FileTypeExt, PermissionsExt};
use std::process::Command;

const SMOOTH: &str = "smooth --round 1 --steps 3";

fn picture() -> String {
    plain(2, 1, 100, &[0, 100])
}

/// Runs the tool in a shell, for redirections; what is printed, errors included.
fn shell(folder: &Folder, line: &str) -> String {
    shell_with(folder, "", line)
}

/// The same after other commands.
fn shell_with(folder: &Folder, prepared: &str, line: &str) -> String {
    let mut command = Command::new("sh");
    let script = format!("exec 2>&1\n{prepared}\n'{TOOL}' {line}");
    command.args(["-c", &script]).current_dir(folder.path());
    String::from_utf8(fed(command, b"").stdout).unwrap()
}

/// A wrong command line and what is said about it.
const WRONG: &str = "\
|a command is missing (see vokhsaot --help)
smoothe|there is no command \"smoothe\"; did you mean smooth? (see vokhsaot --help)
frobnicate|there is no command \"frobnicate\" (see vokhsaot --help)
--steps 3|there is no option --steps (see vokhsaot --help)
smooth --round 1 in.pgm out.pgm|--steps is missing (see vokhsaot smooth --help)
smooth --steps 1 in.pgm out.pgm|exactly one of --matrix, --round, --oval is wanted (see vokhsaot smooth --help)
smooth --round 1 --oval 1,1,0 --steps 1 in.pgm out.pgm|exactly one of --matrix, --round, --oval is wanted (see vokhsaot smooth --help)
smooth --round 1 --steps 1 --steps 2 in.pgm out.pgm|--steps is given twice (see vokhsaot smooth --help)
smooth --round 1 --steps|--steps wants a value (see vokhsaot smooth --help)
smooth --round 1 --step 1 in.pgm out.pgm|there is no option --step; did you mean --steps? (see vokhsaot smooth --help)
smooth --round 1 --steps 1 in.pgm out.pgm more|\"more\" is one word too many (see vokhsaot smooth --help)
smooth --round 1 --steps -1 in.pgm out.pgm|--steps: \"-1\" is no number of steps: 1 to 64, or auto (see vokhsaot smooth --help)
smooth --round 1 --steps 1.5 in.pgm out.pgm|--steps: \"1.5\" is no number of steps: 1 to 64, or auto (see vokhsaot smooth --help)
smooth --round one --steps 1 in.pgm out.pgm|--round: \"one\" is not a number (see vokhsaot smooth --help)
smooth --matrix 1,2 --steps 1 in.pgm out.pgm|--matrix: XX,XY,YY is wanted, not \"1,2\" (see vokhsaot smooth --help)
smooth --matrix 1,2,2147483648 --steps 1 in.pgm out.pgm|--matrix: \"2147483648\" is not a whole number from -2147483648 to 2147483647 (see vokhsaot smooth --help)
smooth --oval 1,1 --steps 1 in.pgm out.pgm|--oval: LONG,SHORT,DEGREES or LONG,SHORT,COSINE,SINE is wanted, not \"1,1\" (see vokhsaot smooth --help)
smooth --round 1 --steps 1 --fast in.pgm out.pgm|there is no option --fast (see vokhsaot smooth --help)
steps --round 1 --steps 1 in.pgm|--at is missing (see vokhsaot steps --help)
steps --round 1 --at 0,0 in.pgm|--steps is missing (see vokhsaot steps --help)
steps --steps 1 --at 0,0 in.pgm|exactly one of --matrix, --round, --oval is wanted (see vokhsaot steps --help)
steps --round 1 --steps 1 --at 0 in.pgm|--at: \"0\" is not a column and a row (see vokhsaot steps --help)
steps --round 1 --steps 1 --at 0,-1 in.pgm|--at: \"-1\" is not a whole number from 0 to 4294967295 (see vokhsaot steps --help)
steps --round 1 --steps 1 --at x,0 in.pgm|--at: \"x\" is not a whole number from 0 to 4294967295 (see vokhsaot steps --help)
steps --round 1 --steps 1 --at 0,0,0 in.pgm|--at: \"0,0\" is not a whole number from 0 to 4294967295 (see vokhsaot steps --help)
steps --round 1 --steps 1 --at 0,0 in.pgm out.pgm|\"out.pgm\" is one word too many (see vokhsaot steps --help)
difference in.pgm out.pgm|exactly one of --x, --y, --xx, --yy, --xy, --direction is wanted (see vokhsaot difference --help)
difference --x --y in.pgm out.pgm|exactly one of --x, --y, --xx, --yy, --xy, --direction is wanted (see vokhsaot difference --help)
difference --direction 1,2,3 in.pgm out.pgm|--direction: \"2,3\" is not a number (see vokhsaot difference --help)
mixture --seed 1|--calls is missing (see vokhsaot mixture --help)
horizon --width 1 --height 1 out.pgm|--seed is missing (see vokhsaot horizon --help)
show - -|PICTURE and OTHER are both standard input (see vokhsaot show --help)
show in.pgm in.pgm in.pgm|\"in.pgm\" is one word too many (see vokhsaot show --help)
show in.pgm --columns 9|--columns: \"9\" is not a whole number from 10 to 1000 (see vokhsaot show --help)
show in.pgm --columns 20 --png out.png|--columns cannot stand with --png (see vokhsaot show --help)
compare|ONE is missing (see vokhsaot compare --help)
compare -|ONE and OTHER are both standard input (see vokhsaot compare --help)
compare in.pgm in.pgm --round 1|a shape and --steps are wanted together, or neither (see vokhsaot compare --help)
compare in.pgm in.pgm --steps 1|a shape and --steps are wanted together, or neither (see vokhsaot compare --help)
compare in.pgm in.pgm --round 1 --matrix 1,1,1|exactly one of --matrix, --round, --oval is wanted (see vokhsaot compare --help)
stats --bins 0 in.pgm|--bins: \"0\" is not a whole number from 1 to 65536 (see vokhsaot stats --help)
stats in.pgm in.pgm|\"in.pgm\" is one word too many (see vokhsaot stats --help)
";

#[test]
fn wrong_command_lines() {
    let folder = Folder::new("wrong");
    folder.file("in.pgm", picture());
    for wrong in WRONG.lines() {
        let (line, message) = wrong.split_once('|').unwrap();
        folder.run(line, b"").assert_failed(2, message);
        assert_eq!(folder.names(), ["in.pgm"], "{line}");
    }
}

#[test]
fn files_that_cannot_be_read_or_written() {
    let folder = Folder::new("unreadable");
    folder.file("in.pgm", picture());
    fs::create_dir(folder.path().join("folder")).unwrap();
    for (names, message) in [
        (
            "none.pgm out.pgm",
            "none.pgm: No such file or directory (os error 2)",
        ),
        ("folder out.pgm", "folder: Is a directory (os error 21)"),
        ("in.pgm folder", "folder: this is a folder"),
        (
            "in.pgm none/out.pgm",
            "none/out.pgm: No such file or directory (os error 2)",
        ),
        (
            "in.pgm in.pgm/out.pgm",
            "in.pgm/out.pgm: Not a directory (os error 20)",
        ),
        ("in.pgm none.pgm/", "none.pgm/: this is no file's name"),
    ] {
        folder
            .run(&format!("{SMOOTH} {names}"), b"")
            .assert_failed(2, message);
        assert_eq!(folder.names(), ["folder", "in.pgm"], "{names}");
    }
    // Names that would leave nothing to read, or more than a line.
    for (name, message) in [
        ("''", "\"\": No such file or directory (os error 2)\n"),
        ("'a\nb'", "a?b: No such file or directory (os error 2)\n"),
    ] {
        let said = shell(&folder, &format!("stats {name}"));
        assert_eq!(said, format!("vokhsaot: {message}"));
    }
}

/// A file that nobody may write stays as it is, also for root, and no other output appears before that is known.
#[test]
fn write_protected_files() {
    let folder = Folder::new("protected");
    folder.file("in.pgm", picture());
    for name in ["out.pgm", "out.png", "n.txt"] {
        folder.file(name, "old");
        let mode = fs::Permissions::from_mode(0o444);
        fs::set_permissions(folder.path().join(name), mode).unwrap();
    }
    symlink("out.pgm", folder.path().join("link.pgm")).unwrap();
    let names = folder.names();
    for (line, name) in [
        (format!("{SMOOTH} in.pgm out.pgm"), "out.pgm"),
        (format!("{SMOOTH} in.pgm link.pgm"), "link.pgm"),
        (format!("{SMOOTH} in.pgm out.png"), "out.png"),
        ("show in.pgm --png out.png".to_owned(), "out.png"),
        (
            "horizon --width 1 --height 1 --seed 1 out.pgm".to_owned(),
            "out.pgm",
        ),
        (
            "difference --x in.pgm - --numbers n.txt".to_owned(),
            "n.txt",
        ),
        (
            "difference --x in.pgm new.pgm --numbers n.txt".to_owned(),
            "n.txt",
        ),
        (
            "difference --x in.pgm out.pgm --numbers new.txt".to_owned(),
            "out.pgm",
        ),
    ] {
        let message = format!("{name}: this file is write-protected");
        folder.run(&line, b"").assert_failed(2, &message);
        assert_eq!(folder.names(), names, "{line}");
    }
    for name in ["out.pgm", "out.png", "n.txt"] {
        assert_eq!(folder.read(name), b"old");
    }
    // One who may write is enough.
    let mode = fs::Permissions::from_mode(0o464);
    fs::set_permissions(folder.path().join("out.pgm"), mode).unwrap();
    folder.run(&format!("{SMOOTH} in.pgm out.pgm"), b"").good();
    assert!(folder.read("out.pgm").starts_with(b"P5"));
}

/// Without names, pictures come from standard input and go to standard output.
#[test]
fn names_left_out() {
    let folder = Folder::new("left-out");
    folder.file("in.pgm", picture());
    for command in [SMOOTH, "difference --x"] {
        let whole = folder.run(&format!("{command} in.pgm -"), b"").good();
        assert!(whole.starts_with(b"P5"));
        for names in ["", "-", "- -"] {
            let line = format!("{command} {names}");
            let ran = folder.run(&line, picture().as_bytes());
            assert_eq!(ran.good(), whole, "{line}");
        }
    }
    for command in ["stats", "show", "steps --round 1 --steps 2 --at 0,0"] {
        let whole = folder.run(&format!("{command} in.pgm"), b"").good();
        for name in ["", "-"] {
            let line = format!("{command} {name}");
            let ran = folder.run(&line, picture().as_bytes());
            assert_eq!(ran.good(), whole, "{line}");
        }
    }
    let line = "horizon --width 3 --height 2 --seed 1";
    let made = folder.run(line, b"").good();
    assert!(made.starts_with(b"P5\n3 2\n65535\n"));
    assert_eq!(folder.names(), ["in.pgm"]);
}

#[test]
fn two_outputs() {
    let folder = Folder::new("two-outputs");
    folder.file("in.pgm", picture());
    for numbers in ["out.pgm", "./out.pgm"] {
        let line = format!("difference --x in.pgm out.pgm --numbers {numbers}");
        let message = format!("{numbers}: two outputs would go there");
        folder.run(&line, b"").assert_failed(2, &message);
    }
    let line = "difference --x in.pgm - --numbers -";
    folder
        .run(line, b"")
        .assert_failed(2, "-: two outputs would go there");
    // The second output's fault leaves the first one as it was.
    folder.file("out.pgm", "old");
    let line = "difference --x in.pgm out.pgm --numbers none/n.txt";
    assert_eq!(folder.run(line, b"").status, 2);
    let line = "difference --x in.pgm out.pgm --numbers - > /dev/full; echo $? > status";
    let said = shell(&folder, line);
    let message = "vokhsaot: standard output: No space left on device (os error 28)\n";
    assert_eq!(
        (said.as_str(), folder.read("status").as_slice()),
        (message, &b"2\n"[..])
    );
    assert_eq!(folder.read("out.pgm"), b"old");
    assert_eq!(folder.names(), ["in.pgm", "out.pgm", "status"]);
}

#[test]
fn outputs_in_place() {
    let folder = Folder::new("in-place");
    let expected = folder
        .run(&format!("{SMOOTH} - -"), picture().as_bytes())
        .good();
    // The input itself, with its mode kept.
    folder.file("a.pgm", picture());
    let path = folder.path().join("a.pgm");
    fs::set_permissions(&path, fs::Permissions::from_mode(0o640)).unwrap();
    folder.run(&format!("{SMOOTH} a.pgm a.pgm"), b"").good();
    assert_eq!(folder.read("a.pgm"), expected);
    assert_eq!(
        fs::metadata(&path).unwrap().permissions().mode() & 0o777,
        0o640
    );
}

#[test]
fn outputs_that_are_no_plain_files() {
    let folder = Folder::new("no-plain-files");
    let expected = folder
        .run(&format!("{SMOOTH} - -"), picture().as_bytes())
        .good();
    // A link stays one, and leads to the new picture.
    folder.file("b.pgm", picture());
    symlink("b.pgm", folder.path().join("link.pgm")).unwrap();
    folder
        .run(&format!("{SMOOTH} - link.pgm"), picture().as_bytes())
        .good();
    assert!(fs::symlink_metadata(folder.path().join("link.pgm"))
        .unwrap()
        .is_symlink());
    assert_eq!(folder.read("b.pgm"), expected);
    // A pipe stays a pipe, and is written to. (So is a device; a test that fails must not cost the machine one.)
    folder.file("in.pgm", picture());
    let line = format!("{SMOOTH} in.pgm pipe; wait");
    let prepared = "mkfifo pipe; timeout 20 cat pipe > got &";
    assert_eq!(shell_with(&folder, prepared, &line), "");
    assert_eq!(folder.read("got"), expected);
    let pipe = fs::metadata(folder.path().join("pipe")).unwrap();
    assert!(pipe.file_type().is_fifo());
    // Standard output by its name as a file, here a pipe.
    let line = format!("{SMOOTH} - /dev/stdout");
    assert_eq!(folder.run(&line, picture().as_bytes()).good(), expected);
    // A name that begins with a minus.
    folder
        .run(&format!("{SMOOTH} -- - -c.pgm"), picture().as_bytes())
        .good();
    assert_eq!(folder.read("-c.pgm"), expected);
}

/// A link that leads nowhere gets the file that it leads to; a link to such a link is told.
#[test]
fn links_that_lead_nowhere() {
    let folder = Folder::new("nowhere");
    fs::create_dir(folder.path().join("folder")).unwrap();
    symlink("folder/new.pgm", folder.path().join("link.pgm")).unwrap();
    symlink("link.pgm", folder.path().join("twice.pgm")).unwrap();
    let line = format!("{SMOOTH} - twice.pgm");
    let message = "twice.pgm: this link leads to a link that leads nowhere";
    folder
        .run(&line, picture().as_bytes())
        .assert_failed(2, message);
    let line = format!("{SMOOTH} - link.pgm");
    folder.run(&line, picture().as_bytes()).good();
    let link = fs::symlink_metadata(folder.path().join("link.pgm"));
    assert!(link.unwrap().is_symlink());
    assert!(folder.path().join("folder/new.pgm").is_file());
}

/// A reader that goes away before the end ends a command without a word, however much there is still to do; the exit status
/// tells it.
#[test]
fn closed_pipes() {
    let folder = Folder::new("closed");
    let first = "# vokhsaot mixture --seed 1 --calls 18446744073709551615\n";
    let line = "mixture --seed 1 --calls 18446744073709551615 | head -n 1";
    assert_eq!(shell(&folder, line), first);
    let line = "replay < endless | head -n 1";
    let prepared = "mkfifo endless; yes tick > endless 2> /dev/null &";
    assert_eq!(
        shell_with(&folder, prepared, line),
        "call 1, line 1: tick: idle [16 free]\n"
    );
    let line = "mixture --seed 1 --calls 1000000 2> said; echo $? > status) | head -n 1 > first";
    let script = shell_with(&folder, "(", line);
    assert_eq!(script, "");
    assert_eq!(
        (folder.read("status"), folder.read("said")),
        (b"2\n".to_vec(), Vec::new())
    );
    assert_eq!(shell(&folder, "--version >&-"), "");
}

/// Standard error that cannot be written changes no exit status.
#[test]
fn messages_that_nobody_reads() {
    let folder = Folder::new("unread");
    let line = "stats none.pgm 2> /dev/full; echo $?";
    assert_eq!(shell(&folder, line), "2\n");
}

/// Whoever ends the tool from outside finds no file that is not whole; a soak tells what it has judged so far.
#[test]
fn interrupts() {
    let folder = Folder::new("interrupts");
    let line = "soak --seed 1 --time 1h & sleep 2; kill -INT $!; wait $!; echo $?";
    // A shell's job in the background does not get an interrupt unless it is asked to.
    let script = format!("exec 2>&1; set -m; '{TOOL}' {line}");
    let mut command = Command::new("bash");
    command.args(["-c", &script]).current_dir(folder.path());
    let said = String::from_utf8(fed(command, b"").stdout).unwrap();
    assert!(said.starts_with("verdict: good: "), "{said}");
    assert!(
        said.contains(", stopped\n") && said.ends_with("\n0\n"),
        "{said}"
    );
    assert!(folder.names().is_empty());
    // In the midst of an output: a reader that never reads keeps the tool at its work.
    folder.file("in.pgm", picture());
    let line = "difference --x in.pgm pipe --numbers out.txt & for i in $(seq 200); do ls -A | grep tmp > found && break; sleep 0.1; done; wc -l < found; rm found; kill -TERM $!; wait $!; echo $?";
    let script = format!("exec 2>&1; mkfifo pipe; '{TOOL}' {line}");
    let mut command = Command::new("bash");
    command.args(["-c", &script]).current_dir(folder.path());
    let said = String::from_utf8(fed(command, b"").stdout).unwrap();
    assert_eq!(said, "1\n130\n");
    assert_eq!(folder.names(), ["in.pgm", "pipe"]);
}

/// A picture is not poured over a terminal.
#[test]
fn no_bytes_on_a_terminal() {
    let folder = Folder::new("bytes");
    folder.file("in.pgm", picture());
    let message = "vokhsaot: no output is named, and standard output is a terminal\r\n";
    for line in [
        format!("{SMOOTH} in.pgm"),
        "difference --x in.pgm".to_owned(),
    ] {
        let said = (message.to_owned(), Some(2));
        assert_eq!(on_a_terminal(&folder, "true", &line), said, "{line}");
    }
}

/// Where lists cannot be written a soak says so before its first call, and what it finds is told in any case.
#[test]
fn lists_that_cannot_be_written() {
    let folder = Folder::new("lists");
    let soak = "practice 7 soak --seed 1 --calls 20000";
    let ran = folder.run(&format!("{soak} --out none/found"), b"");
    ran.assert_failed(2, "none/found.list: No such file or directory (os error 2)");
    for name in ["", "-"] {
        let line = format!("soak --seed 1 --out={name}");
        let message = "--out: a file's name is wanted (see vokhsaot soak --help)";
        folder.run(&line, b"").assert_failed(2, message);
    }
    folder.file("found.list", "old");
    let path = folder.path().join("found.list");
    fs::set_permissions(&path, fs::Permissions::from_mode(0o444)).unwrap();
    let ran = folder.run(&format!("{soak} --out found"), b"");
    ran.assert_failed(2, "found.list: this file is write-protected");
    assert_eq!(folder.names(), ["found.list"]);
}

/// Runs the tool on a terminal that `script` lends; what it prints there, and its exit status.
fn on_a_terminal(folder: &Folder, prepared: &str, line: &str) -> (String, Option<i32>) {
    let mut command = Command::new("script");
    let script = format!("{prepared}; '{TOOL}' {line}");
    command
        .args(["-qec", &script, "/dev/null"])
        .current_dir(folder.path());
    let output = fed(command, b"");
    (
        String::from_utf8(output.stdout).unwrap(),
        output.status.code(),
    )
}

/// The scale of a difference is for people: on a terminal, and nowhere else.
#[test]
fn scale_on_a_terminal() {
    let folder = Folder::new("terminal");
    folder.file("in.pgm", picture());
    let line = "difference --x in.pgm out.pgm";
    assert_eq!(folder.run(line, b"").good(), b"");
    let said = "vokhsaot: scale: grey = 32768 + difference × 32767 / 100\r\n".to_owned();
    assert_eq!(on_a_terminal(&folder, "true", line), (said, Some(0)));
}

/// Nobody types a picture: without a name the tool does not wait for a terminal.
#[test]
fn no_picture_on_a_terminal() {
    let folder = Folder::new("no-picture");
    let message = "vokhsaot: no picture is named, and standard input is a terminal\r\n";
    for line in [
        "stats",
        "stats -",
        "show",
        "smooth --round 1 --steps 2 - out.pgm",
    ] {
        let said = (message.to_owned(), Some(2));
        assert_eq!(on_a_terminal(&folder, "true", line), said, "{line}");
    }
    assert!(folder.names().is_empty());
}

/// A picture is as wide as the terminal lets it be.
#[test]
fn columns_of_a_terminal() {
    let folder = Folder::new("columns");
    folder
        .run("horizon --width 200 --height 20 --seed 1 wide.pgm", b"")
        .good();
    for (columns, pixels) in [(200, 1), (199, 2), (100, 2), (50, 4), (45, 5), (7, 20)] {
        let prepared = format!("stty rows 24 cols {columns}");
        let (said, status) = on_a_terminal(&folder, &prepared, "show wide.pgm");
        assert_eq!(status, Some(0));
        let first = said.lines().next().unwrap();
        assert_eq!(first.len(), 200usize.div_ceil(pixels), "{columns}");
    }
    // Elsewhere 80.
    let text = folder.run("show wide.pgm", b"").text();
    assert_eq!(text.lines().next().unwrap().len(), 67);
}
