//! The services to practise on, at the command line. What each of them does wrong is tested beside its code.

mod common;

use common::{Folder, Ran};

/// How many there are, as the command says it.
fn count() -> usize {
    let text = Folder::new("practice").run("practice", b"").text();
    let number = text.strip_prefix("There are ").unwrap().split(' ').next();
    number.unwrap().parse().unwrap()
}

fn printed(ran: &Ran) -> String {
    String::from_utf8(ran.stdout.clone()).unwrap()
}

/// The verdict of a run that printed no error.
fn verdict(ran: &Ran) -> String {
    assert_eq!(ran.stderr, "");
    printed(ran).lines().last().unwrap().to_owned()
}

#[test]
fn there_are_enough() {
    assert!(count() >= 20);
    let text = Folder::new("practice").run("practice", b"").text();
    for command in [
        "NUMBER replay LIST",
        "NUMBER soak --seed S",
        "--answer NUMBER",
    ] {
        assert!(text.contains(&format!("\n  vokhsaot practice {command} ")));
    }
    assert!(text.lines().all(|line| line.chars().count() <= 80));
}

#[test]
fn numbers_that_are_not_there() {
    let folder = Folder::new("no-practice");
    let count = count();
    for number in ["0", "-1", "x", "1.5", &(count + 1).to_string()] {
        let message = format!(
            "\"{number}\" is not a whole number from 1 to {count} (see vokhsaot practice --help)"
        );
        for line in [
            format!("practice {number}"),
            format!("practice {number} replay -"),
            format!("practice {number} soak --seed 1"),
            format!("practice --answer {number}"),
        ] {
            folder.run(&line, b"").assert_failed(2, &message);
        }
    }
    assert_eq!(folder.names(), [""; 0]);
}

#[test]
fn wrong_command_lines() {
    let folder = Folder::new("wrong-practice");
    for (line, message) in [
        ("practice 1", "replay or soak is missing after 1"),
        ("practice replay -", "the number of a service is missing"),
        ("practice 1 --answer 1", "--answer stands alone"),
        ("practice --answer 1 replay -", "--answer stands alone"),
        ("practice --answer", "--answer wants a value"),
        ("practice 1 2", "\"2\" is neither replay nor soak"),
    ] {
        let message = format!("{message} (see vokhsaot practice --help)");
        folder.run(line, b"").assert_failed(2, &message);
    }
    let message = "--seed is missing (see vokhsaot soak --help)";
    folder.run("practice 1 soak", b"").assert_failed(2, message);
    let message = "\"b\" is one word too many (see vokhsaot replay --help)";
    folder
        .run("practice 1 replay a b", b"")
        .assert_failed(2, message);
}

/// Each answer is a list that shows the fault on its own service, and none on the proved one.
#[test]
fn answers_are_lists() {
    let folder = Folder::new("answers");
    for number in 1..=count() {
        let answer = folder
            .run(&format!("practice --answer {number}"), b"")
            .text();
        let faulty = folder.run(&format!("practice {number} replay -"), answer.as_bytes());
        let start = verdict(&faulty);
        assert!(start.starts_with("verdict: BAD, "), "{number}: {start}");
        assert_eq!(faulty.status, 1, "{number}");
        // What the answer calls broken is what replay prints.
        for line in answer.lines().filter(|line| line.starts_with("# Broken: ")) {
            let (name, sentence) = line["# Broken: ".len()..].split_once(": ").unwrap();
            let text = printed(&faulty);
            let mut lines = text.lines();
            assert!(
                lines.any(|line| line.contains(&format!(": {name}: ")) && line.ends_with(sentence)),
                "{number}: {line}"
            );
        }
        let good = folder.run("replay --quiet -", answer.as_bytes());
        assert!(verdict(&good).starts_with("verdict: good: "), "{number}");
        assert_eq!(good.status, 0, "{number}");
    }
}

/// Soak stops at the fault and writes lists that show it when they are replayed, and show nothing on the proved service.
#[test]
fn soak_writes_lists_that_show_it() {
    let folder = Folder::new("soaked");
    for number in 1..=count() {
        let soak = format!("practice {number} soak --seed 1 --calls 20000 --out found");
        let soaked = folder.run(&soak, b"");
        assert_eq!(soaked.status, 1, "{number}");
        let text = printed(&soaked);
        let (_, after) = text.split_once(": ").unwrap();
        let (name, _) = after.split_once(": ").unwrap();
        for list in ["found.list", "found-short.list"] {
            assert!(text.contains(&format!("\nwritten: {list}: ")), "{text}");
            let again = folder.run(&format!("practice {number} replay {list}"), b"");
            assert_eq!(again.status, 1, "{number}");
            let text = printed(&again);
            assert!(text.contains(&format!(": {name}: ")), "{number}: {name}");
            let proved = folder.run(&format!("replay {list}"), b"");
            assert!(!printed(&proved).contains("Broken"), "{number}");
        }
        // The shorter one has the calls that hand jobs over beside those that show the fault.
        let good = folder.run("replay found-short.list", b"").status;
        assert_eq!(good, 0, "{number}");
        let showing = |name: &str| {
            let list = String::from_utf8(folder.read(name)).unwrap();
            let calls = list.split("# The rest").next().unwrap().lines();
            calls.filter(|line| !line.starts_with('#')).count()
        };
        let (short, long) = (showing("found-short.list"), showing("found.list"));
        assert!(0 < short && short <= long, "{number}");
    }
}

/// The calls that find every fault above find none in the proved service.
#[test]
fn proved_service_is_good() {
    let folder = Folder::new("proved");
    for seed in 1..=3 {
        let ran = folder.run(&format!("soak --seed {seed} --calls 200000"), b"");
        assert!(verdict(&ran).starts_with("verdict: good: 200000 calls ("));
        assert_eq!(ran.status, 0);
    }
    assert_eq!(folder.names(), [""; 0]);
}
