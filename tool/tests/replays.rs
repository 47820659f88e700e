//! Lists of calls: worked ones line by line, and random ones against the independent program.

mod common;

use common::{numbers, plain, Folder, TOOL};
use reference::kernel::{Choice, Covariance};
use reference::lists::{Calls, Model};
use reference::random::Random;
use reference::service::{Rules, STORE_PIXELS};
use reference::shape::{Direction, Shape};
use std::collections::{BTreeMap, BTreeSet};
use std::io::{BufRead, BufReader, Write};
use std::process::{Command, Stdio};

/// What `replay` prints first for a list that opens by the old rules.
const OPENED_OLD: &str = "opened by the old rules: up to the change-over the independent program answers, since the earlier release is not linked\n";

/// What `replay` prints for a list that is judged good, without its verdict.
fn replay(list: &str) -> String {
    let ran = Folder::new("replay").run("replay -", list.as_bytes());
    let text = ran.text();
    let (lines, verdict) = split_verdict(&text);
    assert!(verdict.starts_with("verdict: good: "), "{verdict}");
    lines
}

/// All lines but the last, and the last.
fn split_verdict(text: &str) -> (String, String) {
    let text = text.trim_end_matches('\n');
    match text.rsplit_once('\n') {
        Some((lines, verdict)) => (format!("{lines}\n"), verdict.to_owned()),
        None => (String::new(), text.to_owned()),
    }
}

/// A list that hands no job over is no success, and says so.
#[test]
fn lists_that_judge_no_job() {
    let folder = Folder::new("nothing");
    for (list, lines, calls) in [
        ("", "", "0 calls (0 refused), 0 answers judged"),
        ("# nothing\n\n \t \n", "", "0 calls (0 refused), 0 answers judged"),
        (
            "free",
            "call 1, line 1: free: 16 [16 free]\n",
            "1 call (0 refused), 2 answers judged",
        ),
        (
            "submit round 64.5 steps 0 size 0 0 pixels\n",
            "call 1, line 1: submit: refused (3): A variance of a Round or an Oval is not a number or lies outside 0 to 64. [16 free]\n",
            "1 call (1 refused), 2 answers judged",
        ),
        (
            "submit round 0.5 steps 1 size 1 1 pixels 7\ntick",
            "call 1, line 1: submit: job 1 [14 free]\ncall 2, line 2: tick: job 1 [14 free]\n",
            "2 calls (0 refused), 4 answers judged",
        ),
    ] {
        let ran = folder.run("replay", list.as_bytes());
        let wait = match list.contains("tick") {
            true => "longest wait 1 of at most 8 ticks (13 %)",
            false => "no job finished",
        };
        let verdict = format!(
            "verdict: NO JOB JUDGED, none was handed over: {calls}, 0 jobs handed over, {wait}\n"
        );
        assert_eq!(String::from_utf8(ran.stdout).unwrap(), format!("{lines}{verdict}"));
        assert_eq!((ran.status, ran.stderr.as_str()), (1, ""), "{list}");
        let quiet = folder.run("replay --quiet -", list.as_bytes());
        assert_eq!(String::from_utf8(quiet.stdout).unwrap(), verdict);
        assert_eq!(quiet.status, 1);
    }
}

/// Nine jobs for eight seats, turns, a job that is not finished, and seats that are used again.
#[test]
fn a_full_service() {
    let submit = "submit matrix 4096 0 0 steps 2 size 2 1 pixels 0 1\n".repeat(9);
    let calls =
        "tick\ncollect 1\nwithdraw 1\nwithdraw 1\nsubmit round 0.25 steps 1 size 1 1 pixels 7\n\
                 tick 15\ncollect 9\ncollect 3 length 1\ncollect 3\ntick\nfree";
    let mut expected = String::new();
    for job in 1..=8 {
        expected += &format!(
            "call {job}, line {job}: submit: job {job} [{} free]\n",
            16 - 2 * job
        );
    }
    expected += "call 9, line 9: submit: refused (12): Fewer than two buffers are free. [0 free]\n\
        call 10, line 10: tick: job 1 [0 free]\n\
        call 11, line 11: collect 1: refused (8): The job has steps left. [0 free]\n\
        call 12, line 12: withdraw 1: job 1 [2 free]\n\
        call 13, line 13: withdraw 1: refused (7): No seat has this job number. [2 free]\n\
        call 14, line 14: submit: job 9 [0 free]\n";
    // Seat 0 was served last; its new job waits until the others had their turn.
    let turns = [2, 3, 4, 5, 6, 7, 8, 9, 2, 3, 4, 5, 6, 7, 8];
    for (call, job) in (15..).zip(turns) {
        expected += &format!("call {call}, line 15: tick: job {job} [0 free]\n");
    }
    expected += "call 30, line 16: collect 9: job 9 [2 free]\n\
        job 9: equals its lone run; 0.000 from the exact run (at most 0.5); finished by tick 8 (at most 8)\n\
        call 31, line 17: collect 3 length 1: refused (9): A lent picture's length is not w × h, or another lent slice has a wrong length. [2 free]\n\
        call 32, line 18: collect 3: job 3 [4 free]\n\
        job 3: equals its lone run; 0.375 from the exact run (at most 1.0); finished by tick 11 (at most 16)\n\
        call 33, line 19: tick: idle [4 free]\n\
        call 34, line 20: free: 4 [4 free]\n";
    let list = submit + calls;
    assert_eq!(replay(&list), expected);
    let quiet = Folder::new("quiet")
        .run("replay -q", list.as_bytes())
        .text();
    let counts = "34 calls (4 refused), 68 answers judged, 2 jobs handed over";
    let wait = "longest wait 16 of at most 16 ticks (100 %)";
    assert_eq!(quiet, format!("verdict: good: {counts}, {wait}\n"));
}

#[test]
fn refused_submits() {
    for (call, refusal) in [
        ("round 64.5 steps 0 size 0 0 pixels", "(3): A variance of a Round or an Oval is not a number or lies outside 0 to 64."),
        ("oval 1 1 0.5 0.5 steps 0 size 0 0 pixels", "(4): A cosine or sine is not a number or lies outside −1 to 1, or (c·c) + (s·s) lies outside 1023/1024 to 1025/1024."),
        ("oval 1 1 inf steps 0 size 0 0 pixels", "(4): A cosine or sine is not a number or lies outside −1 to 1, or (c·c) + (s·s) lies outside 1023/1024 to 1025/1024."),
        ("matrix -1 0 0 steps 65 size 0 0 pixels", "(5): Steps are not 1 to 64."),
        ("matrix -1 0 0 steps 1 size 4294967295 4294967295 seed 1", "(6): A width or height is not 1 to 1024."),
        ("matrix -1 0 0 steps 1 size 64 17 pixels 1", "(9): A lent picture's length is not w × h, or another lent slice has a wrong length."),
        ("matrix -1 0 0 steps 1 size 64 17 seed 1", "(10): A submitted picture has more than 1024 pixels."),
        ("matrix -1 0 0 steps 1 size 1024 1024 seed 1", "(10): A submitted picture has more than 1024 pixels."),
        ("matrix -1 0 0 steps 1 size 64 16 seed 1", "(11): No kernel exists."),
    ] {
        let good = "submit round 0.5 steps 1 size 1 1 pixels 7\ntick\ncollect 1\n";
        let expected = format!("call 4, line 4: submit: refused {refusal} [16 free]\n");
        let found = replay(&format!("{good}submit {call}"));
        assert!(found.ends_with(&expected), "{found} for {call}");
    }
}

/// 64 steps of the largest picture: the exact run's numbers have more than a thousand bits.
#[test]
fn the_longest_job() {
    let list = "submit round 20.5 steps 64 size 32 32 seed 3\ntick 64\ncollect 1";
    let text = replay(list);
    let job = text.lines().last().unwrap();
    assert!(job.starts_with("job 1: equals its lone run; "), "{job}");
    let end = " from the exact run (at most 32.0); finished by tick 64 (at most 512)";
    assert!(job.ends_with(end), "{job}");
}

#[test]
fn lines_that_are_no_calls() {
    let folder = Folder::new("no-calls");
    folder.file("bad.list", "free\n# good so far\n\ncollect one\ntock");
    let message = "bad.list: line 4: \"one\" is not a whole number from 0 to 18446744073709551615";
    folder.run("replay bad.list", b"").assert_failed(2, message);
    folder.file("bytes.list", b"free\n\xff\n");
    let message = "bytes.list: line 2: this is no UTF-8 text";
    folder
        .run("replay bytes.list", b"")
        .assert_failed(2, message);
    let message = "none.list: No such file or directory (os error 2)";
    folder
        .run("replay none.list", b"")
        .assert_failed(2, message);
    let message = ".: Is a directory (os error 21)";
    folder.run("replay .", b"").assert_failed(2, message);
    // Standard input is answered as it comes, up to the line that is no call.
    let ran = folder.run("replay -", b"free\n\xff\n");
    assert_eq!(ran.stdout, b"call 1, line 1: free: 16 [16 free]\n");
    assert_eq!(
        ran.stderr,
        "vokhsaot: standard input: line 2: this is no UTF-8 text\n"
    );
    assert_eq!(ran.status, 2);
}

/// Over a store of noise all is as over zeros; it is told before the first call.
#[test]
fn stores() {
    let list = "submit round 1 steps 3 size 5 4 seed 1\ntick 3\ncollect 1\n";
    let noise = format!("# noise\n\nstore seed 5\n{list}");
    let without_lines = |text: &str| -> Vec<String> {
        let lines = text.lines().map(|line| {
            let words = line.split(' ');
            words.filter(|word| !word.ends_with(':')).collect()
        });
        lines.collect()
    };
    let folder = Folder::new("stores");
    folder.file("noise.list", &noise);
    let zeros = replay(list);
    for text in [replay(&noise), folder.run("replay noise.list", b"").text()] {
        assert!(text.starts_with("call 1, line 4: submit: job 1"), "{text}");
        let same = without_lines(&text);
        assert!(same.starts_with(&without_lines(&zeros)), "{text}");
    }
    let late = folder.run("replay", b"free\nstore seed 1\n");
    let message = "vokhsaot: standard input: line 2: the store is told before all calls\n";
    assert_eq!((late.stderr.as_str(), late.status), (message, 2));
}

/// Each line is answered before the next one is written.
#[test]
fn answers_come_as_the_calls_do() {
    let mut child = Command::new(TOOL)
        .args(["replay", "-"])
        .stdin(Stdio::piped())
        .stdout(Stdio::piped())
        .spawn()
        .unwrap();
    let mut calls = child.stdin.take().unwrap();
    let mut answers = BufReader::new(child.stdout.take().unwrap()).lines();
    let mut next = || answers.next().unwrap().unwrap();
    for (call, answer) in [
        (
            "submit round 0.5 steps 1 size 1 1 pixels 7",
            "call 1, line 1: submit: job 1 [14 free]",
        ),
        ("tick", "call 2, line 2: tick: job 1 [14 free]"),
        ("collect 1", "call 3, line 3: collect 1: job 1 [16 free]"),
    ] {
        writeln!(calls, "{call}").unwrap();
        assert_eq!(next(), answer);
    }
    drop(calls);
    assert!(next().starts_with("job 1: equals its lone run; "));
    assert!(next().starts_with("verdict: good: 3 calls (0 refused), "));
    assert!(child.wait().unwrap().success());
}

/// A job is finished at the change-over, one half done; later submits name a choice or none. A second change-over is refused.
#[test]
fn a_change_over() {
    let spot = "size 3 3 pixels 0 0 0 0 1600 0 0 0 0";
    let list = format!(
        "submit round 0.5 steps 1 {spot}\n\
         submit round 1 steps 2 {spot}\n\
         tick 2\n\
         change over\n\
         submit round 0.5 steps 1 {spot}\n\
         submit round 0.5 steps 1 choice smallest {spot}\n\
         tick 3\n\
         change over\n\
         collect 1 to one.pgm\n\
         collect 2 to two.pgm\n\
         collect 3 to three.pgm\n\
         collect 4 to four.pgm\n"
    );
    let folder = Folder::new("change");
    folder.file("change.list", &list);
    let expected = format!(
        "{OPENED_OLD}\
         call 1, line 1: submit: job 1 [14 free]\n\
         call 2, line 2: submit: job 2 [12 free]\n\
         call 3, line 3: tick: job 1 [12 free]\n\
         call 4, line 3: tick: job 2 [12 free]\n\
         call 5, line 4: change over: done [12 free]\n\
         call 6, line 5: submit: job 3 [10 free]\n\
         call 7, line 6: submit: job 4 [8 free]\n\
         call 8, line 7: tick: job 3 [8 free]\n\
         call 9, line 7: tick: job 4 [8 free]\n\
         call 10, line 7: tick: job 2 [8 free]\n\
         call 11, line 8: change over: refused (2): The service record is not in order, or the store's length is not 16,384. [8 free]\n\
         call 12, line 9: collect 1 to one.pgm: job 1 [10 free]\n\
         job 1: equals its lone run; 0.000 from the exact run (at most 0.5); finished by tick 1 (at most 8)\n\
         call 13, line 10: collect 2 to two.pgm: job 2 [12 free]\n\
         job 2: equals its lone run; 0.000 from the exact run (at most 1.0); finished by tick 5 (at most 16)\n\
         call 14, line 11: collect 3 to three.pgm: job 3 [14 free]\n\
         job 3: equals its lone run; 0.000 from the exact run (at most 0.5); finished by tick 1 (at most 8)\n\
         call 15, line 12: collect 4 to four.pgm: job 4 [16 free]\n\
         job 4: equals its lone run; 0.000 from the exact run (at most 0.5); finished by tick 2 (at most 8)\n\
         verdict: good: 15 calls (1 refused; 4 by the old rules, made by the independent program), 30 answers judged, 4 jobs handed over, longest wait 3 of at most 8 ticks (38 %)\n"
    );
    assert_eq!(folder.run("replay change.list", b"").text(), expected);
    let pixels = |name: &str| numbers(&folder.read(name)).unwrap()[3..].to_vec();
    let hollow = [0, 400, 0, 400, 0, 400, 0, 400, 0];
    assert_eq!(pixels("one.pgm"), hollow);
    assert_eq!(
        pixels("two.pgm"),
        [200, 100, 200, 100, 400, 100, 200, 100, 200]
    );
    assert_eq!(
        pixels("three.pgm"),
        [100, 200, 100, 200, 400, 200, 100, 200, 100]
    );
    assert_eq!(pixels("four.pgm"), hollow);
    // Line by line it has to be said first; then all but the numbers of the lines is the same.
    let ran = folder.run("replay", list.as_bytes());
    let message = "vokhsaot: standard input: line 4: a list that comes line by line says \"rules old\" before all calls where it changes over (\"rules new\" where that is to be refused)\n";
    assert_eq!((ran.stderr.as_str(), ran.status), (message, 2));
    let told = folder.run("replay -q", format!("rules old\n{list}").as_bytes());
    assert_eq!(
        told.text(),
        expected.lines().last().unwrap().to_owned() + "\n"
    );
    // A choice before it is no call.
    folder.file(
        "early.list",
        format!(
            "{}{list}",
            list.replace("steps 1 ", "steps 1 choice smallest ")
        ),
    );
    let message = "early.list: line 1: a submit before the change-over names no choice: by the old rules its job has the smallest f";
    folder
        .run("replay early.list", b"")
        .assert_failed(2, message);
}

/// At the very beginning, at the end, and where a service by the old rules never changes over.
#[test]
fn change_overs_at_the_ends() {
    let job = "submit round 0.5 steps 1 size 1 1 pixels 7\ntick\ncollect 1\n";
    for (list, old, refused) in [
        (format!("rules old\nchange over\n{job}"), 0, 0),
        (format!("rules old\n{job}change over\n"), 3, 0),
        (format!("rules old\n{job}"), 3, 0),
        (format!("rules new\nchange over\n{job}"), 0, 1),
        (
            format!("rules old\nchange over\nchange over\n{job}change over\n"),
            0,
            2,
        ),
    ] {
        let ran = Folder::new("ends").run("replay -q", list.as_bytes());
        let (_, verdict) = split_verdict(&ran.text());
        let by_old = match old {
            0 => String::new(),
            _ => format!("; {old} by the old rules, made by the independent program"),
        };
        let counts = format!(" calls ({refused} refused{by_old}), ");
        assert!(
            verdict.starts_with("verdict: good: ") && verdict.contains(&counts),
            "{verdict}"
        );
    }
}

/// Pictures go in and out by their files, as the command line's do.
#[test]
fn pictures_through_the_service() {
    let folder = Folder::new("files");
    folder.file(
        "a b.pgm",
        plain(3, 3, 1600, &[0, 0, 0, 0, 1600, 0, 0, 0, 0]),
    );
    let list = "submit matrix 2048 0 2048 steps 1 file \"a b.pgm\"\n\
        submit oval 1 0 90 steps 1 file \"a b.pgm\"\n\
        submit oval 1 0 0 1 steps 1 size 3 3 pixels 0 0 0 0 1600 0 0 0 0\n\
        tick 3\ncollect 9 to none.pgm\ncollect 1 length 4 to none.pgm\n\
        collect 1 to one.pgm\ncollect 2 to two.pgm\ncollect 3 to three.pgm\n";
    let text = folder.run("replay", list.as_bytes()).text();
    assert!(
        text.contains("call 9, line 7: collect 1 to one.pgm: job 1 [12 free]\n"),
        "{text}"
    );
    assert_eq!(
        folder.names(),
        ["a b.pgm", "one.pgm", "three.pgm", "two.pgm"]
    );
    let numbers = |name: &str| numbers(&folder.read(name)).unwrap();
    assert_eq!(
        numbers("one.pgm"),
        [3, 3, 1600, 100, 200, 100, 200, 400, 200, 100, 200, 100]
    );
    assert_eq!(
        numbers("two.pgm"),
        [3, 3, 1600, 0, 800, 0, 0, 0, 0, 0, 800, 0]
    );
    // A picture of no file has the largest maxval.
    assert_eq!(numbers("three.pgm")[2], 65535);
    assert_eq!(numbers("two.pgm")[3..], numbers("three.pgm")[3..]);
    // The same as smooth does.
    folder.run(
        "smooth --oval 1,0,90 --steps 1 - smooth.pgm",
        &folder.read("a b.pgm"),
    );
    assert_eq!(folder.read("smooth.pgm"), folder.read("two.pgm"));
    // A file that cannot be written is told with its line, after what is to say of the job.
    let list = "submit round 0.5 steps 1 size 1 1 pixels 1\ntick\ncollect 1 to none/a.pgm\nfree\n";
    let ran = folder.run("replay", list.as_bytes());
    let last = String::from_utf8(ran.stdout).unwrap();
    assert!(
        last.lines()
            .last()
            .unwrap()
            .starts_with("job 1: equals its lone run"),
        "{last}"
    );
    let message = "vokhsaot: line 3: none/a.pgm: No such file or directory (os error 2)\n";
    assert_eq!((ran.stderr.as_str(), ran.status), (message, 2));
    // A picture that is not there is told before the first call, also where a collect would write.
    folder.file("bad.list", "submit round 0.5 steps 1 size 1 1 pixels 1\ntick\ncollect 1 to new.pgm\nsubmit round 1 steps 1 file none.pgm\n");
    let message = "bad.list: line 4: none.pgm: No such file or directory (os error 2)";
    folder.run("replay bad.list", b"").assert_failed(2, message);
    assert!(!folder.names().contains(&"new.pgm".to_owned()));
}

/// A list taken apart by other means than the tool's, and run on the independent program's service.
struct Other {
    model: Model,
    /// Pixels of each job accepted.
    lengths: BTreeMap<u64, usize>,
    seen: BTreeSet<String>,
}

impl Other {
    /// The answers to a line as `replay` should print them, without the free count.
    fn answers(&mut self, line: &str) -> Vec<String> {
        let words: Vec<&str> = line.split(' ').collect();
        let number = |place: usize| words[place].parse::<u64>().unwrap();
        let after = |word: &str| words.iter().position(|other| *other == word);
        let (name, count) = match words[0] {
            "tick" => ("tick", words.get(1).map_or(1, |_| number(1))),
            "submit" => ("submit", 1),
            _ => (line, 1),
        };
        let mut answers = Vec::new();
        for _ in 0..count {
            let answer = match words[0] {
                "submit" => self.submit(&words).map(|job| format!("job {job}")),
                "tick" => self
                    .model
                    .tick()
                    .map(|job| job.map_or("idle".to_owned(), |job| format!("job {job}"))),
                "collect" => {
                    let own = self.lengths.get(&number(1)).copied().unwrap_or(0);
                    let length = after("length").map_or(own, |place| number(place + 1) as usize);
                    self.model
                        .collect(number(1), &mut vec![0; length])
                        .map(|job| format!("job {job}"))
                }
                "withdraw" => self
                    .model
                    .withdraw(number(1))
                    .map(|job| format!("job {job}")),
                "free" => self.model.free().map(|count| count.to_string()),
                "change" => self.model.change_over().map(|()| "done".to_owned()),
                other => panic!("{other}"),
            };
            let answer = answer.unwrap_or_else(|refusal| format!("refused ({refusal})"));
            self.seen.insert(answer.clone());
            answers.push(format!("{name}: {answer}"));
        }
        answers
    }

    fn shape(words: &[&str]) -> Shape {
        let float = |place: usize| words[place].parse::<f64>().unwrap();
        match words[1] {
            "matrix" => {
                let [xx, xy, yy] = [2, 3, 4].map(|place| words[place].parse().unwrap());
                Shape::Matrix(Covariance { xx, xy, yy })
            }
            "round" => Shape::Round(float(2)),
            _ => Shape::Oval {
                long: float(2),
                short: float(3),
                direction: Direction {
                    cosine: float(4),
                    sine: float(5),
                },
            },
        }
    }

    fn submit(&mut self, words: &[&str]) -> Result<u64, u8> {
        let place = |word: &str| words.iter().position(|other| *other == word).unwrap();
        let shape = Other::shape(words);
        let whole = |place: usize| words[place].parse::<u32>().unwrap();
        let (steps, width, height) = (
            whole(place("steps") + 1),
            whole(place("size") + 1),
            whole(place("size") + 2),
        );
        let picture: Vec<u16> = if words.contains(&"seed") {
            let mut random = Random::new(words[place("seed") + 1].parse().unwrap());
            let area = if width.max(height) > 1024 {
                0
            } else {
                width * height
            };
            (0..area)
                .map(|_| (random.bits() / (1 << 48)) as u16)
                .collect()
        } else {
            let pixels = words[place("pixels") + 1..].iter();
            pixels.map(|word| word.parse().unwrap()).collect()
        };
        let choice = words.contains(&"choice").then(|| place("choice") + 1);
        let choice = choice.map(|place| match words[place] {
            "smallest" => Choice::Smallest,
            "binomial" => Choice::Binomial,
            other => panic!("{other}"),
        });
        let number = self
            .model
            .submit(choice, shape, steps, width, height, &picture)?;
        self.lengths.insert(number, picture.len());
        Ok(number)
    }
}

/// Replays a mixture, answer by answer as the independent program gives them; the answers that came up, and how many jobs were
/// handed over.
fn check_mixture(list: &str) -> (BTreeSet<String>, usize) {
    let rules = match list.lines().nth(1) {
        Some("rules old") => Rules::Old,
        Some("rules new") => Rules::New,
        other => panic!("{other:?}"),
    };
    let mut other = Other {
        model: Model::open(rules, vec![0; STORE_PIXELS]),
        lengths: BTreeMap::new(),
        seen: BTreeSet::new(),
    };
    let mut expected = Vec::new();
    for (place, line) in list.lines().enumerate().skip(2) {
        for answer in other.answers(line) {
            let call = expected.len() + 1;
            expected.push(format!("call {call}, line {}: {answer}", place + 1));
        }
    }
    let text = replay(list);
    let answers = text.strip_prefix(OPENED_OLD);
    assert_eq!(answers.is_some(), rules == Rules::Old);
    let (jobs, calls): (Vec<&str>, Vec<&str>) = answers
        .unwrap_or(&text)
        .lines()
        .partition(|line| line.starts_with("job "));
    assert_eq!(calls.len(), expected.len());
    for (given, expected) in calls.iter().zip(&expected) {
        assert!(given.starts_with(expected), "{given} for {expected}");
    }
    for job in &jobs {
        assert!(job.contains(": equals its lone run; "), "{job}");
        assert!(!job.contains("MORE") && !job.contains("NOT"), "{job}");
    }
    (other.seen, jobs.len())
}

#[test]
fn mixtures_of_the_independent_program() {
    let folder = Folder::new("mixtures");
    let mut seen = BTreeSet::new();
    for seed in 0..12 {
        let line = format!("mixture --seed {seed} --calls 400");
        let list = folder.run(&line, b"").text();
        assert_eq!(
            list.lines().next(),
            Some(format!("# vokhsaot {line}").as_str())
        );
        assert_eq!(list.lines().count(), 402);
        let again = format!("mixture --calls=400 --seed={seed}");
        assert_eq!(list, folder.run(&again, b"").text());
        let (mut answers, jobs) = check_mixture(&list);
        assert!(jobs > 20, "{jobs}");
        seen.append(&mut answers);
    }
    assert!(seen.contains("idle"));
    for refusal in 2..=12 {
        assert!(seen.contains(&format!("refused ({refusal})")), "{refusal}");
    }
}

/// A mixture with its change-over after each of its lines: the calls are the same wherever it stands.
#[test]
fn change_overs_at_every_place() {
    let folder = Folder::new("places");
    let calls = 120;
    let plain = |line: &str| match line {
        "change over" => "free".to_owned(),
        _ => line
            .replace(" choice binomial", "")
            .replace(" choice smallest", ""),
    };
    let mut same: Option<Vec<String>> = None;
    for place in 0..=calls {
        let line = format!("mixture --seed 5 --calls {calls} --change-over {place}");
        let list = folder.run(&line, b"").text();
        let mut lines: Vec<&str> = list.lines().collect();
        assert_eq!(lines[..2], [&format!("# vokhsaot {line}"), "rules old"]);
        assert_eq!(lines.remove(2 + place), "change over");
        assert!(!lines[2..2 + place].contains(&"change over"));
        let others: Vec<String> = lines[2..].iter().map(|line| plain(line)).collect();
        assert_eq!(same.get_or_insert(others.clone()), &others, "{place}");
        let (seen, jobs) = check_mixture(&list);
        assert!(seen.contains("done") && jobs > 3, "{jobs} at {place}");
    }
    let message = "--change-over: there are 120 lines (see vokhsaot mixture --help)";
    let line = format!("mixture --seed 5 --calls {calls} --change-over 121");
    folder.run(&line, b"").assert_failed(2, message);
}

#[test]
fn mixtures_with_few_jobs() {
    let folder = Folder::new("few-jobs");
    for jobs in [0, 1, 5] {
        let list = folder
            .run(&format!("mixture --seed 3 --calls 300 --jobs {jobs}"), b"")
            .text();
        let ran = folder.run("replay", list.as_bytes());
        assert_eq!(ran.status, i32::from(jobs == 0));
        let text = String::from_utf8(ran.stdout).unwrap();
        let accepted = text.lines().filter(|line| line.contains(": submit: job "));
        assert_eq!(accepted.count(), jobs, "{jobs}");
    }
}
