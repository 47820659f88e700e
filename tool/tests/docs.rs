//! What docs/TOOL.md and docs/COURSE.md say beside their blocks of commands, which tests/pages.py runs: every example of a help text
//! stands in the first; what the second cites and shows is there.

mod common;

use common::{netpbm, Folder, TOOL};
use std::ffi::OsString;
use std::fs;
use std::path::{Path, PathBuf};
use std::process::Command;

const REPOSITORY: &str = concat!(env!("CARGO_MANIFEST_DIR"), "/..");
const TOOL_PAGE: &str = include_str!("../../docs/TOOL.md");
const COURSE: &str = include_str!("../../docs/COURSE.md");
const REFERENCE: &str = include_str!("../../docs/REFERENCE.md");

/// The parts of a lesson, in order.
const PARTS: [&str; 5] = [
    "\n**Newcomers believe** ",
    "\n**Run.** ",
    "\n```sh\n",
    "\n**Why.** ",
    "\n**Settled by** ",
];
const MOST_PICTURE_BYTES: usize = 60_000;
const MOST_BYTES_OF_ALL: usize = 300_000;

/// A page's lines, each with the language of the fenced block that it stands in; none outside of blocks.
fn lines(page: &str) -> Vec<(Option<&str>, &str)> {
    let mut found = Vec::new();
    let mut language = None;
    for line in page.lines() {
        match (line.strip_prefix("```"), language) {
            (Some(named), None) => language = Some(named),
            (Some(_), Some(_)) => language = None,
            (None, _) => found.push((language, line)),
        }
    }
    found
}

/// PATH with the tool's folder before all others.
fn path() -> OsString {
    let tools = Path::new(TOOL).parent().unwrap().to_owned();
    let others = std::env::var_os("PATH").unwrap_or_default();
    let folders = std::iter::once(tools).chain(std::env::split_paths(&others));
    std::env::join_paths(folders).unwrap()
}

/// The lessons of the course, each from its heading on.
fn lessons() -> Vec<&'static str> {
    let lessons: Vec<&str> = COURSE.split("\n## ").skip(1).collect();
    assert_eq!(lessons.len(), 15);
    lessons
}

#[test]
fn lessons_have_the_same_parts() {
    for (number, lesson) in (1..).zip(lessons()) {
        assert!(lesson.starts_with(&format!("{number}. ")), "{lesson}");
        let places = PARTS.map(|part| lesson.find(part).expect(part));
        assert!(places.is_sorted(), "lesson {number}");
        let title = lesson.lines().next().unwrap();
        assert!(COURSE.contains(&format!("\n| {title} | ")), "{title}");
    }
}

/// Whether a source file declares a name: `name : ..`, or a record of that name.
fn declares(source: &str, name: &str) -> bool {
    source.lines().any(|line| {
        let mut words = line.split_whitespace().peekable();
        let mut is_record = false;
        while let Some(word) =
            words.next_if(|word| ["pub", "abbrev", "unfoldable", "record"].contains(word))
        {
            is_record |= word == "record";
        }
        words.next() == Some(name) && (is_record || words.next() == Some(":"))
    })
}

/// The edit of several wrong programs in a folder that has one of this label.
fn edit_with(folder: &Path, label: &str) -> Option<PathBuf> {
    let line = format!("# {label}");
    let edits = fs::read_dir(folder)
        .ok()?
        .map(|entry| entry.unwrap().path());
    edits
        .filter(|edit| edit.extension().is_some_and(|ending| ending == "edit"))
        .find(|edit| {
            fs::read_to_string(edit)
                .unwrap()
                .lines()
                .any(|one| one == line)
        })
}

/// The first of a cited path's meanings that is there: below crates/, the edit of that label, or from the root.
fn cited(path: &str) -> PathBuf {
    let root = Path::new(REPOSITORY);
    let crates = root.join("crates");
    let meanings = [
        crates.join(path),
        crates.join(format!("{path}.edit")),
        root.join(path),
    ];
    let found = meanings.into_iter().find(|place| place.exists());
    let label = |(folder, label): (&str, &str)| edit_with(&crates.join(folder), label);
    let found = found.or_else(|| path.rsplit_once('/').and_then(label));
    found.unwrap_or_else(|| panic!("COURSE.md cites {path}, which is not there"))
}

#[test]
fn course_cites_what_is_there() {
    for lesson in lessons() {
        let (_, settled) = lesson.split_once("\n**Settled by** ").unwrap();
        let paragraph = settled.split("\n\n").next().unwrap();
        let mut file = "";
        let mut source = String::new();
        let mut names = 0;
        for span in paragraph.split('`').skip(1).step_by(2) {
            if !span.contains('/') {
                assert!(declares(&source, span), "{file} declares no {span}");
                names += 1;
                continue;
            }
            let place = cited(span);
            if span.ends_with(".antt") {
                (file, source) = (span, fs::read_to_string(place).unwrap());
            }
        }
        assert!(names > 0, "{paragraph}");
    }
}

/// The pictures are small, each stands in the course, and the tool makes them anew pixel by pixel.
#[test]
fn pictures_of_the_course() {
    let folder = Folder::new("pictures");
    let shown = Path::new(REPOSITORY).join("docs/pictures");
    let made = Command::new("python3")
        .arg(shown.join("make.py"))
        .arg(folder.path())
        .env("PATH", path())
        .output()
        .unwrap();
    assert!(made.status.success(), "{made:?}");
    let links = COURSE.split("](pictures/").skip(1);
    let mut linked: Vec<&str> = links.map(|link| link.split_once(')').unwrap().0).collect();
    linked.sort();
    assert_eq!(folder.names(), linked);
    let kept = fs::read_dir(&shown)
        .unwrap()
        .map(|entry| entry.unwrap().path());
    let kept = kept.filter(|path| path.extension().is_some_and(|ending| ending == "png"));
    assert_eq!(kept.count(), linked.len(), "a picture that is not shown");
    let mut all = 0;
    for name in linked {
        let picture = fs::read(shown.join(name)).unwrap();
        assert!(picture.len() < MOST_PICTURE_BYTES, "{name}");
        all += picture.len();
        let pixels = |bytes: &[u8]| netpbm("pngtopnm", bytes).expect(name);
        assert!(pixels(&picture) == pixels(&folder.read(name)), "{name}");
    }
    assert!(all < MOST_BYTES_OF_ALL);
}

#[test]
fn help_texts() {
    let folder = Folder::new("help");
    let commands = lines(TOOL_PAGE).into_iter();
    let commands = commands.filter(|(language, _)| *language == Some("sh"));
    let shown: Vec<&str> = commands.map(|(_, line)| line).collect();
    let general = folder.run("--help", b"").text();
    let (_, commands) = general.split_once("Commands:\n").unwrap();
    let (commands, _) = commands.split_once("\n\n").unwrap();
    let mut helps = vec![general.clone()];
    for line in commands.lines() {
        let command = line.split_whitespace().next().unwrap();
        let help = folder.run(&format!("{command} --help"), b"").text();
        assert!(help.starts_with(&format!("Usage: vokhsaot {command}")));
        assert_eq!(help, folder.run(&format!("{command} -h"), b"").text());
        helps.push(help);
    }
    assert_eq!(helps.len(), 18);
    for help in helps {
        let (_, examples) = help.split_once("Examples:\n").expect("examples");
        assert!(!examples.is_empty());
        for line in examples.lines() {
            let command = line.strip_prefix("  $ ").expect(line);
            let is_shown = |other: &&str| other.trim_end_matches("; echo $?") == command;
            assert!(shown.iter().any(is_shown), "{command}");
        }
        assert!(
            help.lines().all(|line| line.chars().count() <= 80),
            "{help}"
        );
    }
}

/// The text of a page that is not code: neither in a fenced block nor between backquotes.
fn prose(page: &str) -> String {
    let lines = lines(page).into_iter();
    let lines = lines.filter(|(language, _)| language.is_none());
    let text: Vec<&str> = lines.map(|(_, line)| line).collect();
    let text = text.join("\n");
    text.split('`').step_by(2).collect()
}

fn words(text: &str) -> Vec<String> {
    let words = text.split(|letter: char| !letter.is_alphanumeric());
    words.map(str::to_lowercase).collect()
}

/// The ids in a pair of brackets that hold nothing else: `(K3, K4)`, `(S1.1)`.
fn ids(page: &str) -> Vec<String> {
    let text = prose(page);
    let mut found = Vec::new();
    for part in text.split('(').skip(1) {
        let held = part.split(')').next().unwrap();
        let ids: Vec<&str> = held.split(", ").filter(|word| is_id(word)).collect();
        found.extend(ids.into_iter().map(str::to_owned));
    }
    found
}

/// A capital and a number, or for a change request two with a dot between.
fn is_id(word: &str) -> bool {
    let Some(numbers) = word.strip_prefix(|letter: char| letter.is_ascii_uppercase()) else {
        return false;
    };
    let is_number = |part: &str| !part.is_empty() && part.bytes().all(|byte| byte.is_ascii_digit());
    numbers.split('.').count() <= 2 && numbers.split('.').all(is_number)
}

/// Where a lesson states a promise it names its id, and every id that is named has a sentence.
#[test]
fn ids_stand_in_the_reference() {
    assert_eq!(
        ids("text (V15) `(V16)` (refusal 9) (equation 85, S2.1) (L1 and more)\n```text\n(V17)\n```\n"),
        ["V15", "S2.1"]
    );
    let (find, report) = ("11. Finding a fault\n", "15. Reporting a suspected fault\n");
    let promising = |lesson: &&str| !lesson.starts_with(find) && !lesson.starts_with(report);
    let lessons: Vec<&str> = lessons().into_iter().filter(promising).collect();
    assert_eq!(lessons.len(), 13);
    for lesson in lessons {
        let named = ids(lesson);
        assert!(!named.is_empty(), "{lesson}");
        for id in named {
            let sentence = format!("\n- **{id}.** ");
            assert!(
                REFERENCE.contains(&sentence),
                "docs/REFERENCE.md has no {id}"
            );
        }
    }
}

/// The word of docs/REFERENCE.md is seat; the code's, which users do not read, is slot. The course says so once.
#[test]
fn one_word_for_a_seat() {
    let is_slot = |word: &String| word == "slot" || word == "slots";
    let slots = |text: &str| {
        words(&prose(text))
            .iter()
            .filter(|word| is_slot(word))
            .count()
    };
    assert_eq!(
        (
            slots("a `slot` of Slots"),
            slots("seat\n```text\nslot\n```\n")
        ),
        (1, 0)
    );
    assert_eq!(slots(COURSE), 1);
    let folder = Folder::new("seats");
    let manual = folder.run("manual", b"").text();
    let header = include_str!("../../c/include/vokhsaot.h");
    let library = ["lib.rs", "service.rs", "error.rs"].map(|name| {
        let path = Path::new(REPOSITORY).join("rust/src").join(name);
        fs::read_to_string(path).unwrap()
    });
    let mut seats = 0;
    for text in [TOOL_PAGE, &manual, header]
        .into_iter()
        .chain(library.iter().map(String::as_str))
    {
        // Of these everything is read, code included.
        let words = words(text);
        assert!(!words.iter().any(is_slot));
        seats += words.iter().filter(|word| word.starts_with("seat")).count();
    }
    assert!(seats > 10);
}
