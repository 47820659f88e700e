//! Command lines: what is wrong is said in one line; help, version, manual and completions; progress on a terminal.

mod common;

use common::{fed, Folder, TOOL};
use std::ffi::{OsStr, OsString};
use std::os::unix::ffi::OsStrExt;
use std::path::Path;
use std::process::Command;
use std::time::{Duration, Instant};

const TOOL_FOLDER: &str = env!("CARGO_MANIFEST_DIR");

/// Runs the tool with words that no line of blanks could hold, where it fails with one line and nothing else: that line.
fn failed(words: &[OsString]) -> String {
    let mut command = Command::new(TOOL);
    command.args(words);
    let output = fed(command, b"");
    assert_eq!(output.status.code(), Some(2), "{words:?}");
    assert_eq!(output.stdout, b"", "{words:?}");
    let said = String::from_utf8(output.stderr).unwrap();
    let line = said.strip_suffix('\n').expect("a whole line");
    assert_eq!(line.lines().count(), 1, "{words:?}: {line}");
    let message = line.strip_prefix("vokhsaot: ").expect("the program's name");
    message.to_owned()
}

/// A wrong command line, where "" is an empty word; what is wrong with it; and the command whose help tells more.
const WRONG: &str = r#"
|a command is missing|
""|there is no command ""|
smoothe|there is no command "smoothe"; did you mean smooth?|
kernell --round 1|there is no command "kernell"; did you mean kernel?|
help|there is no command "help"|
help smooth|there is no command "help"|
--versoin|there is no option --versoin; did you mean --version?|
-x|there is no option -x|
--help=yes|--help takes no value|
-- smooth|"smooth" is one word too many|
smooth --round 1|--steps is missing| smooth
kernel|--steps is missing| kernel
horizon --height 1|--width and --seed are missing| horizon
horizon|--width, --height and --seed are missing| horizon
completions|SHELL is missing| completions
smooth --round|--round wants a value| smooth
smooth --round 1 --steps|--steps wants a value| smooth
completions ""|SHELL wants a value| completions
smooth --round 1 --steps 1 --steps 2|--steps is given twice| smooth
smooth --round 1 --steps 1 --round 2|--round is given twice| smooth
smooth -q --round 1 --steps 1 --quiet|--quiet is given twice| smooth
smooth --round 1 --matrix 1,0,1 --steps 1|exactly one of --matrix, --round, --oval is wanted| smooth
smooth --steps 1|exactly one of --matrix, --round, --oval is wanted| smooth
smooth --round 1 --steps 1 a b c|"c" is one word too many| smooth
smooth --round 1 --steps 1 -- -a -b -c|"-c" is one word too many| smooth
kernel --round 1 --steps 1 a|"a" is one word too many| kernel
manual page|"page" is one word too many| manual
convert|--to is missing| convert
convert old new|--to is missing| convert
convert --to|--to wants a value| convert
convert --to k old new|--to: "k" is none of n, j| convert
convert --to n --to j old new|--to is given twice| convert
convert --to n old new more|"more" is one word too many| convert
completions bash zsh|"zsh" is one word too many| completions
smooth --rond=1 --steps 1|there is no option --rond; did you mean --round?| smooth
smooth --round 1 --step 1|there is no option --step; did you mean --steps?| smooth
smooth --round 1 --steps 1 --fast|there is no option --fast| smooth
smooth --round 1 --steps 1 -zq|there is no option -z| smooth
smooth --round 1 --steps 1 --quiet=1|--quiet takes no value| smooth
smooth --round 1 --steps ""|--steps: "" is no number of steps: 1 to 64, or auto| smooth
smooth --round 1 --steps=|--steps: "" is no number of steps: 1 to 64, or auto| smooth
smooth --round 1 --steps Auto|--steps: "Auto" is no number of steps: 1 to 64, or auto| smooth
smooth --round 1 --steps -1|--steps: "-1" is no number of steps: 1 to 64, or auto| smooth
smooth --round "" --steps 1|--round: "" is not a number| smooth
smooth --round --steps 1|--round: "--steps" is not a number| smooth
kernel --matrix 1,2 --steps 1|--matrix: XX,XY,YY is wanted, not "1,2"| kernel
kernel --matrix 1,,2 --steps 1|--matrix: "" is not a whole number from -2147483648 to 2147483647| kernel
kernel --oval 1,2,3,4,5 --steps 1|--oval: LONG,SHORT,DEGREES or LONG,SHORT,COSINE,SINE is wanted, not "1,2,3,4,5"| kernel
completions tcsh|SHELL: "tcsh" is none of bash, elvish, fish, powershell, zsh| completions
smooth --round 1 --steps 1 --choice largest|--choice: "largest" is none of binomial, smallest| smooth
kernel --round 1 --steps 1 --choice ""|--choice wants a value| kernel
kernel --round 1 --steps 1 --choise smallest|there is no option --choise; did you mean --choice?| kernel
compare a b --choice smallest|--steps is missing| compare
"#;

#[test]
fn wrong_command_lines() {
    for wrong in WRONG.trim_start().lines() {
        let fields: Vec<&str> = wrong.split('|').collect();
        let [line, message, command] = fields[..] else {
            panic!("{wrong}");
        };
        let words = line.split_whitespace().map(|word| match word {
            "\"\"" => OsString::new(),
            _ => OsString::from(word),
        });
        let said = failed(&words.collect::<Vec<_>>());
        assert_eq!(said, format!("{message} (see vokhsaot{command} --help)"));
    }
}

/// Bytes that are no text, and letters that would end a line.
#[test]
fn words_that_are_no_plain_text() {
    let bytes = |bytes: &'static [u8]| OsStr::from_bytes(bytes).to_owned();
    let cases: [(&[&[u8]], &str); 6] = [
        (&[b"\xff"], "there is no command \"\u{fffd}\" (see vokhsaot --help)"),
        (
            &[b"kernel", b"--round", b"1\xff", b"--steps", b"1"],
            "\"1\\xFF\" is no UTF-8 text (see vokhsaot kernel --help)",
        ),
        (
            &[b"smooth", b"--\xff", b"1"],
            "there is no option --\u{fffd} (see vokhsaot smooth --help)",
        ),
        (
            &[b"completions", b"\xff"],
            "SHELL: \"\u{fffd}\" is none of bash, elvish, fish, powershell, zsh (see vokhsaot completions --help)",
        ),
        (&[b"one\ntwo"], "there is no command \"one\\ntwo\" (see vokhsaot --help)"),
        (
            &[b"kernel", b"--round", b"1\r\x1b[1m", b"--steps", b"1"],
            "--round: \"1\\r\\u{1b}[1m\" is not a number (see vokhsaot kernel --help)",
        ),
    ];
    for (words, message) in cases {
        let words: Vec<OsString> = words.iter().map(|word| bytes(word)).collect();
        assert_eq!(failed(&words), message);
    }
}

/// The commands that a help lists.
fn commands(help: &str) -> Vec<String> {
    let Some((_, list)) = help.split_once("\nCommands:\n") else {
        return Vec::new();
    };
    let lines = list.lines().take_while(|line| !line.is_empty());
    // A line that goes on stands further in.
    let lines = lines.filter(|line| !line.starts_with("   "));
    let names = lines.map(|line| line.split_whitespace().next().unwrap());
    names.map(str::to_owned).collect()
}

/// Every help: usage first, short lines, and nothing after the examples.
#[test]
fn helps() {
    let folder = Folder::new("helps");
    let mut left = vec![String::new()];
    let mut seen = Vec::new();
    while let Some(line) = left.pop() {
        let help = folder.run(&format!("{line} --help"), b"").text();
        assert_eq!(
            help,
            folder.run(&format!("{line} -h"), b"").text(),
            "{line}"
        );
        // Between the names of a command within a command there may be a number.
        let mut usage = help.lines().next().unwrap().split(' ');
        assert!(usage.next() == Some("Usage:") && usage.next() == Some("vokhsaot"));
        let names = line.split_whitespace();
        assert!(
            names.into_iter().all(|name| usage.any(|word| word == name)),
            "{help}"
        );
        assert!(help.ends_with('\n') && !help.contains("\n\n\n"), "{help}");
        let lines: Vec<&str> = help.lines().collect();
        assert!(
            lines.iter().all(|line| line.chars().count() <= 80),
            "{help}"
        );
        if let Some((_, examples)) = help.split_once("\nExamples:\n") {
            assert!(
                examples.lines().all(|line| line.starts_with("  $ ")),
                "{help}"
            );
        }
        left.extend(commands(&help).iter().map(|name| format!("{line} {name}")));
        seen.push((line, help));
    }
    for name in ["", " smooth", " kernel", " completions", " manual"] {
        let found = seen.iter().find(|(line, _)| line == name);
        let (_, help) = found.unwrap_or_else(|| panic!("{name} is listed"));
        assert!(help.contains("\nExamples:\n  $ vokhsaot "), "{help}");
    }
    // The text before the options is there, filled.
    let (_, smooth) = seen.iter().find(|(line, _)| line == " smooth").unwrap();
    assert!(smooth.contains("\n\nWarns where no pixel changed, where rounding held many (each step rounds to\nwhole units,"), "{smooth}");
}

/// What git says in the tool's folder, where it is one of a repository.
fn git(arguments: &[&str]) -> Option<String> {
    let output = Command::new("git")
        .args(arguments)
        .current_dir(TOOL_FOLDER)
        .output()
        .ok()?;
    let text = String::from_utf8(output.stdout).unwrap();
    output.status.success().then(|| text.trim().to_owned())
}

#[test]
fn version_names_the_commit() {
    let folder = Folder::new("version");
    let commit = git(&["rev-parse", "HEAD"]);
    let sources = "src build.rs Cargo.toml Cargo.lock ../rust/src ../rust/build.rs ../reference/src ../crates";
    let mut status = vec!["status", "--porcelain", "--untracked-files=no", "--"];
    status.extend(sources.split(' '));
    let commit = match (commit, git(&status).as_deref()) {
        (None, _) => "unknown".to_owned(),
        (Some(commit), Some("")) => commit[..12].to_owned(),
        (Some(commit), _) => format!("{} with changes", &commit[..12]),
    };
    for option in ["--version", "-V"] {
        let text = folder.run(option, b"").text();
        assert_eq!(text, format!("vokhsaot 0.6.1 (commit {commit})\n"));
    }
}

fn is_installed(program: &str) -> bool {
    let folders = std::env::var_os("PATH").unwrap_or_default();
    std::env::split_paths(&folders).any(|folder| folder.join(program).is_file())
}

/// The page is plain roff, and has what the helps have.
#[test]
fn manual() {
    let folder = Folder::new("manual");
    let page = folder.run("manual", b"").text();
    assert!(page.starts_with(".TH VOKHSAOT 1 \""), "{page}");
    assert!(page.is_ascii());
    let requests = [
        ".SH", ".SS", ".PP", ".TP", ".nf", ".fi", ".nh", ".ad", ".br",
    ];
    for line in page.lines().skip(1) {
        let first = line.split(' ').next().unwrap();
        assert!(
            !line.starts_with(['.', '\'']) || requests.contains(&first),
            "{line}"
        );
        let dashes = line.matches('-').count();
        assert_eq!(line.matches("\\-").count(), dashes, "{line}");
        assert!(!line.is_empty());
    }
    for name in commands(&folder.run("--help", b"").text()) {
        assert!(page.contains(&format!("\n.SS vokhsaot {name}\n")), "{name}");
    }
    for part in [
        "\n.SH NAME\nvokhsaot \\- ",
        "\n.SH SYNOPSIS\n",
        "\n.TP\n\\fB\\-q\\fR, \\fB\\-\\-quiet\\fR\n",
        "\n.TP\n\\fB\\-\\-matrix\\fR \\fIXX,XY,YY\\fR\nThe covariance, whole numbers in 1/4096 square pixel; exactly",
        "\n.TP\n\\fIINPUT\\fR\nThe picture to smooth [default: \\-]\n",
        "\nThe shell: bash, elvish, fish, powershell, zsh\n",
        "\n.SH EXIT STATUS\n.TP\n\\fB0\\fR\ndone, and nothing is amiss\n",
        "\n$ vokhsaot kernel \\-\\-matrix 4097,0,4096 \\-\\-steps 2\n",
    ] {
        assert!(page.contains(part), "{part} in {page}");
    }
    // Readers of such pages have nothing to say against it, where they are installed.
    for checker in ["groff -man -ww -z -Tutf8", "mandoc -Tlint -Wwarning"] {
        let mut words = checker.split(' ');
        let program = words.next().unwrap();
        if is_installed(program) {
            let mut command = Command::new(program);
            command.args(words);
            let output = fed(command, page.as_bytes());
            let said = [output.stdout, output.stderr].concat();
            assert_eq!(String::from_utf8_lossy(&said), "", "{checker}");
            assert!(output.status.success(), "{checker}");
        }
    }
}

/// What bash completes after some words, the last of them begun.
fn completed(script: &Path, words: &[&str]) -> String {
    let program = r#"
source "$1"; shift
COMP_WORDS=("$@"); COMP_CWORD=$(($# - 1)); COMPREPLY=()
_vokhsaot vokhsaot "${COMP_WORDS[COMP_CWORD]}" "${COMP_WORDS[COMP_CWORD - 1]}"
echo "${COMPREPLY[*]}""#;
    let mut command = Command::new("bash");
    command
        .args(["-c", program, "bash"])
        .arg(script)
        .args(words);
    let output = fed(command, b"");
    assert_eq!(String::from_utf8_lossy(&output.stderr), "");
    String::from_utf8(output.stdout)
        .unwrap()
        .trim_end()
        .to_owned()
}

#[test]
fn completions_of_bash() {
    let folder = Folder::new("completions");
    let script = folder.run("completions bash", b"").good();
    let name = folder.file("vokhsaot.bash", script);
    let script = folder.path().join(name);
    for (words, found) in [
        (vec!["vokhsaot", "sm"], "smooth"),
        (vec!["vokhsaot", "ker"], "kernel"),
        (vec!["vokhsaot", "smooth", "--r"], "--round"),
        (
            vec!["vokhsaot", "smooth", "--round", "1", "--st"],
            "--steps",
        ),
        (vec!["vokhsaot", "completions", "po"], "powershell"),
        (vec!["vokhsaot", "kernel", "--ch"], "--choice"),
        (
            vec!["vokhsaot", "kernel", "--choice", ""],
            "binomial smallest",
        ),
        (vec!["vokhsaot", "con"], "convert"),
        (vec!["vokhsaot", "convert", "--to", ""], "n j"),
        // The names of operands are no words to type: bash goes on with files.
        (vec!["vokhsaot", "smooth", "["], ""),
        (vec!["vokhsaot", "smooth", "spot"], ""),
    ] {
        assert_eq!(completed(&script, &words), found, "{words:?}");
    }
    assert!(completed(&script, &["vokhsaot", "smooth", ""]).starts_with("-q -h --matrix "));
}

/// Other shells get a script that they can read, where they are installed.
#[test]
fn completions_of_other_shells() {
    let folder = Folder::new("shells");
    for (shell, part) in [
        ("bash", "complete -F _vokhsaot "),
        ("zsh", "'::input -- The picture to smooth "),
        ("fish", "complete -c vokhsaot "),
        ("elvish", "'vokhsaot;smooth'"),
        ("powershell", "'vokhsaot;smooth'"),
    ] {
        let script = folder.run(&format!("completions {shell}"), b"").text();
        assert!(script.contains(part), "{shell}: {script}");
        if ["bash", "zsh", "fish"].contains(&shell) && is_installed(shell) {
            let mut command = Command::new(shell);
            command.arg("-n").arg(folder.file(shell, script));
            command.current_dir(folder.path());
            let output = fed(command, b"");
            assert!(output.status.success(), "{shell}: {output:?}");
        }
    }
}

/// Runs a line of the tool on a terminal that `script` lends, with its standard output elsewhere; what the terminal gets.
fn on_terminal(line: &str) -> String {
    let mut command = Command::new("script");
    let line = format!("'{TOOL}' {line} > /dev/null");
    command.args(["-qec", &line, "/dev/null"]);
    String::from_utf8(fed(command, b"").stdout).unwrap()
}

/// Long work shows how far it is, at what rate and for how long still, and leaves a clean line; short work says nothing,
/// and where standard error is no terminal none does.
#[test]
fn progress() {
    assert_eq!(on_terminal("mixture --seed 1 --calls 50"), "");
    let mut calls = 50_000;
    let (shown, taken) = loop {
        let start = Instant::now();
        let shown = on_terminal(&format!("mixture --seed 1 --calls {calls}"));
        let taken = start.elapsed();
        if taken > Duration::from_millis(1500) {
            break (shown, taken);
        }
        calls *= 2;
    };
    let lines: Vec<&str> = shown.split('\r').collect();
    let start = "line ";
    let found = lines
        .iter()
        .filter_map(|line| line.find(start).map(|at| &line[at..]));
    let found: Vec<&str> = found.collect();
    assert!(!found.is_empty(), "{taken:?}: {shown:?}");
    for line in found {
        assert!(line.contains(&format!(" of {calls} [")), "{line}");
        assert!(line.contains("/s, ") && line.ends_with(" left"), "{line}");
    }
    // The last thing that is written takes the line away.
    assert!(shown.ends_with("\r\x1b[2K"), "{shown:?}");
    let folder = Folder::new("unwatched");
    let ran = folder.run(&format!("mixture --seed 1 --calls {calls}"), b"");
    assert_eq!((ran.status, ran.stderr.as_str()), (0, ""));
}
