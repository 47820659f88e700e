//! Every service for practice has the fault that its answer tells, and the proved one has none.

use super::faults::{CollectFault, Fault, FreeFault, StepFault, TurnFault};
use super::*;
use crate::judge::{Judge, Judged, Verdict};
use crate::list::{self, Call, List, Pixels, Store, Submission};
use crate::mixture::{follow, Mixture};
use crate::model::Model;
use crate::rules::Rule;
use crate::services::{choice_by, proved, Opening};
use crate::soak::Lives;
use std::collections::{BTreeMap, BTreeSet};
use vokhsaot::{smooth_by, Direction, Error, Shape};

/// By number, rules that the calls of an answer break. The first is among those that a soak finds broken first.
const BROKEN: [&[Rule]; 44] = [
    &[Rule::FinishedCollected],
    &[Rule::SubmitAccepted],
    &[Rule::TickStore, Rule::LoneRun],
    &[Rule::IdleChangesNothing],
    &[Rule::FreeBuffers],
    &[Rule::LoneRun],
    &[Rule::TickStore, Rule::LoneRun, Rule::LoneService],
    &[Rule::LeaveStore],
    &[Rule::TickStore],
    &[Rule::IdleWithStepsLeft],
    &[Rule::NumberTwice],
    &[Rule::TickStore],
    &[Rule::FreeBuffers],
    &[Rule::RefusalOrder],
    &[Rule::TickStore, Rule::LoneRun],
    &[Rule::WithdrawAccepted],
    &[Rule::RefusalChangesNothing],
    &[Rule::RefusalChangesNothing],
    &[Rule::TickStore, Rule::LoneRun],
    &[Rule::FreeBuffers],
    &[Rule::SubmitStore, Rule::LoneRun],
    &[Rule::TickStore, Rule::LoneRun],
    &[Rule::SubmitAccepted],
    &[Rule::TickStore, Rule::LoneRun],
    &[Rule::WithdrawRecord],
    &[Rule::TickStore, Rule::LoneRun, Rule::LoneService],
    &[Rule::Turn],
    &[Rule::TickStore, Rule::LoneRun],
    &[Rule::NotRefused],
    &[Rule::SubmitRecord],
    &[Rule::Turn, Rule::Wait],
    &[Rule::LoneRun],
    &[Rule::IdleWithStepsLeft],
    &[Rule::ChangedF, Rule::EarlierJob, Rule::LoneService],
    &[Rule::TickStore, Rule::LoneRun],
    &[Rule::ChangedTurn, Rule::WaitAcross],
    &[Rule::SubmitF, Rule::LoneRun],
    &[Rule::ChangedTurn, Rule::NumberTwice],
    &[Rule::FreeAcross, Rule::FreeBuffers],
    &[
        Rule::ChangedFields,
        Rule::ServedWithoutSteps,
        Rule::EarlierJob,
    ],
    &[Rule::FinishedCollected],
    &[Rule::ChangedF, Rule::FreeAcross],
    &[Rule::IdleWithStepsLeft],
    &[Rule::ChangeRefused, Rule::LoneRun],
];

/// The numbers and their services.
fn numbered() -> impl Iterator<Item = (usize, &'static Exercise)> {
    (1..).zip(&EXERCISES)
}

fn read(text: &str) -> List {
    list::read(text, &|name| Err(name.to_owned())).unwrap()
}

fn rules(judged: &Judged) -> BTreeSet<Rule> {
    judged.differences.iter().map(|found| found.rule).collect()
}

/// The rules that a list shows to be broken, and whether `replay` would call it good.
fn judged(opening: Opening, list: &str) -> (BTreeSet<Rule>, bool) {
    let list = read(list);
    let (mut judge, differences) = Judge::new(opening, list.start);
    assert_eq!(differences, []);
    let mut broken = BTreeSet::new();
    for line in list.lines {
        for _ in 0..line.call.times() {
            broken.append(&mut rules(&judge.call(&line.call)));
        }
    }
    let verdict = Verdict {
        counts: judge.counts(),
        longest: judge.longest_wait(),
        first: None,
    };
    (broken, verdict.is_good())
}

const MOST_CALLS: u64 = 20_000;

/// What `soak` finds first with this seed: at which call, and the rules that are broken there.
fn soaked(opening: Opening, seed: u64) -> Option<(u64, BTreeSet<Rule>)> {
    let mut lives = Lives::new(seed, MOST_CALLS);
    let mut calls = 0;
    while calls < MOST_CALLS {
        let mut life = lives.next();
        let (mut judge, differences) = Judge::new(opening, life.start);
        assert_eq!(differences, []);
        while let Some(call) = life.call(&judge) {
            for _ in 0..call.times() {
                calls += 1;
                let broken = rules(&judge.call(&call));
                if !broken.is_empty() {
                    return Some((calls, broken));
                }
            }
        }
    }
    None
}

fn submit(service: &mut dyn Service, trial: &Submission) -> Result<u64, Error> {
    service.submit(trial.lending(&trial.picture()))
}

fn collect(service: &mut dyn Service, trial: &Submission, number: u64) -> Result<Vec<u16>, Error> {
    let mut picture = vec![0; trial.picture().len()];
    service.collect(number, &mut picture).map(|_| picture)
}

/// The picture that the library's run by the choice of a job shows.
fn run_of(trial: &Submission) -> Vec<u16> {
    let Submission {
        choice,
        shape,
        steps,
        width,
        height,
        ..
    } = *trial;
    let choice = choice_by(Rules::New, choice);
    smooth_by(choice, shape, steps, width, height, &trial.picture()).unwrap()
}

/// An odd number of steps, the job of the course's lesson on lone jobs.
const ROUND: Submission = Submission {
    choice: None,
    shape: Shape::Round(1.0),
    steps: 3,
    width: 8,
    height: 8,
    pixels: Pixels::Seeded(5),
};

/// An even number of steps, a shape that leans, and sides that differ.
const LEANING: Submission = Submission {
    choice: None,
    shape: Shape::Oval {
        long_variance: 2.0,
        short_variance: 1.0,
        direction: Direction {
            cosine: 0.8,
            sine: 0.6,
        },
    },
    steps: 4,
    width: 8,
    height: 6,
    pixels: Pixels::Seeded(6),
};

/// Ticks until one is idle; whether that came in the time that three jobs of at most 4 steps need.
fn ticks_until_idle(service: &mut dyn Service) -> bool {
    (0..=3 * 4).any(|_| service.tick() == Ok(None))
}

/// Three jobs, ticks until idle, collects of all: all is accepted, all buffers are free, and the service is idle.
fn passes_panel(opening: Opening) -> bool {
    let mut service = opening(Rules::New, Store::Zeros.pixels());
    let service = service.as_mut();
    let trials = [ROUND, LEANING, ROUND];
    let Ok(numbers) = trials
        .iter()
        .map(|trial| submit(service, trial))
        .collect::<Result<Vec<u64>, Error>>()
    else {
        return false;
    };
    let is_idle = ticks_until_idle(service);
    let mut jobs = trials.iter().zip(numbers);
    let collected = jobs.all(|(trial, number)| collect(service, trial, number).is_ok());
    is_idle && collected && service.free() == Ok(16) && service.tick() == Ok(None)
}

/// Each alone in a new service, handed over as the library's run shows it.
fn passes_lone_jobs(opening: Opening) -> bool {
    [ROUND, LEANING].iter().all(|trial| {
        let mut service = opening(Rules::New, Store::Zeros.pixels());
        let service = service.as_mut();
        let Ok(number) = submit(service, trial) else {
            return false;
        };
        ticks_until_idle(service) && collect(service, trial, number) == Ok(run_of(trial))
    })
}

/// What two services can differ in.
#[derive(Clone, Copy, Debug, PartialEq, Eq, PartialOrd, Ord)]
enum Part {
    Answer,
    Free,
    Record,
    Store,
    Picture,
}

/// Does a call; its answer as text, and the picture that was lent to it.
fn done(
    service: &mut dyn Service,
    call: &Call,
    areas: &BTreeMap<u64, usize>,
) -> (String, Vec<u16>) {
    match call {
        Call::Submit(submission) => {
            let picture = submission.picture();
            let answer = service.submit(submission.lending(&picture));
            (format!("{answer:?}"), picture)
        }
        Call::Tick(_) => (format!("{:?}", service.tick()), Vec::new()),
        Call::Collect { number, length, .. } => {
            let own = areas.get(number).copied().unwrap_or(0);
            let mut picture = vec![0x1234; length.unwrap_or(own)];
            let answer = service.collect(*number, &mut picture);
            (format!("{answer:?}"), picture)
        }
        Call::Withdraw(number) => (format!("{:?}", service.withdraw(*number)), Vec::new()),
        Call::Free => (format!("{:?}", service.free()), Vec::new()),
        Call::ChangeOver => (format!("{:?}", service.change_over()), Vec::new()),
    }
}

/// In what a service differs from the proved one in a mixture of calls with a change-over early on.
fn apart(opening: Opening, seed: u64) -> BTreeSet<Part> {
    let store = || Store::Zeros.pixels();
    let (mut one, mut other) = (opening(Rules::Old, store()), proved(Rules::Old, store()));
    let mut model = Model::open(Rules::Old, store());
    let mut mixture = Mixture::varied(seed);
    let mut areas = BTreeMap::new();
    let mut apart = BTreeSet::new();
    for line in 0..2000 {
        let call = match line {
            40 => Call::ChangeOver,
            _ => mixture.call(model.record()),
        };
        for _ in 0..call.times() {
            let (answer, picture) = done(one.as_mut(), &call, &areas);
            let (due_answer, due_picture) = done(other.as_mut(), &call, &areas);
            if let (Some(number), Call::Submit(submission)) = (follow(&mut model, &call), &call) {
                areas.insert(number, submission.picture().len());
            }
            let differs = [
                (Part::Answer, call != Call::Free && answer != due_answer),
                (Part::Free, one.free() != other.free()),
                (Part::Record, one.words() != other.words()),
                (Part::Store, one.store() != other.store()),
                (Part::Picture, picture != due_picture),
            ];
            apart.extend(
                differs
                    .iter()
                    .filter(|(_, differs)| *differs)
                    .map(|(part, _)| *part),
            );
        }
    }
    apart
}

fn exercise_of(fault: Fault) -> &'static Exercise {
    let found = EXERCISES.iter().find(|exercise| exercise.fault == fault);
    found.expect("the fault has a number")
}

/// With any of some seeds, within so many calls.
#[test]
fn soak_finds_each_number() {
    for (number, exercise) in numbered() {
        for seed in 1..=3 {
            let (call, broken) = soaked(&|rules, store| exercise.open(rules, store), seed)
                .unwrap_or_else(|| panic!("{number} is not found with seed {seed}"));
            // A job from before the change-over has sentences of its own, and a free count right after it.
            let across = [Rule::EarlierJob, Rule::FreeAcross];
            let first = BROKEN[number - 1][0];
            assert!(
                broken.contains(&first) || across.iter().any(|rule| broken.contains(rule)),
                "{number} at call {call}: {broken:?}"
            );
        }
    }
}

#[test]
fn answers_show_each_number() {
    for (number, exercise) in numbered() {
        let list = exercise.list();
        let (broken, is_good) = judged(&|rules, store| exercise.open(rules, store), &list);
        assert!(!is_good, "{number}");
        for rule in BROKEN[number - 1] {
            assert!(broken.contains(rule), "{number}: {rule:?} of {broken:?}");
        }
        let told: BTreeSet<Rule> = exercise.broken().into_iter().collect();
        assert_eq!(told, broken, "{number}");
        assert_eq!(judged(&proved, &list), (BTreeSet::new(), true), "{number}");
    }
}

/// An answer is a list as it stands.
#[test]
fn answers_can_be_replayed() {
    for (number, exercise) in numbered() {
        let text = answer_text(number - 1);
        let calls = |text: &str| -> Vec<Call> {
            let lines = read(text).lines.into_iter();
            lines.map(|line| line.call).collect()
        };
        assert_eq!(calls(&text), calls(&exercise.list()), "{number}");
        assert_eq!(read(&text).start, read(&exercise.list()).start, "{number}");
        assert!(text.starts_with(&format!("# Service {number}: ")), "{text}");
        assert!(!text.contains("slot"), "{text}");
    }
}

#[test]
fn panel_and_lone_jobs_show_what_the_answers_say() {
    for (number, exercise) in numbered() {
        let opening = |rules, store| exercise.open(rules, store);
        let passes = (passes_panel(&opening), passes_lone_jobs(&opening));
        let shown = (exercise.shown_by_panel, exercise.shown_by_lone_job);
        assert_eq!(passes, (!shown.0, !shown.1), "{number}");
    }
    let quiet = EXERCISES
        .iter()
        .filter(|exercise| !exercise.shown_by_panel && !exercise.shown_by_lone_job);
    assert!(quiet.count() >= 12);
}

#[test]
fn proved_service_passes_all() {
    assert!(passes_panel(&proved));
    assert!(passes_lone_jobs(&proved));
    assert_eq!(soaked(&proved, 1), None);
    assert_eq!(apart(&proved, 1), BTreeSet::new());
}

/// The panel and the lone jobs can fail: each has services that it alone shows, or shows as well.
#[test]
fn trials_can_fail() {
    let refusing = exercise_of(Fault::Collect(CollectFault::RefusesAll));
    assert!(!passes_panel(&|rules, store| refusing.open(rules, store)));
    let grey = exercise_of(Fault::Step(StepFault::EvenGrey));
    assert!(passes_panel(&|rules, store| grey.open(rules, store)));
    assert!(!passes_lone_jobs(&|rules, store| grey.open(rules, store)));
}

/// Five services that `replay` once passed, or found by their pixels alone, and the sentences that they have to break in a
/// short list.
#[test]
fn services_that_once_passed() {
    let list = "submit round 1 steps 2 size 3 1 pixels 0 500 9\ntick 2\ncollect 1\n";
    for (fault, rule) in [
        (Fault::Free(FreeFault::AlwaysSixteen), Rule::FreeBuffers),
        (
            Fault::Turn(TurnFault::IdleHalfDone),
            Rule::IdleWithStepsLeft,
        ),
        (
            Fault::Collect(CollectFault::RefusesAll),
            Rule::FinishedCollected,
        ),
        (Fault::Step(StepFault::EvenGrey), Rule::LoneRun),
        (Fault::Step(StepFault::CountsOnly), Rule::LoneRun),
    ] {
        let exercise = exercise_of(fault);
        let (broken, is_good) = judged(&|rules, store| exercise.open(rules, store), list);
        assert!(broken.contains(&rule) && !is_good, "{fault:?}: {broken:?}");
    }
    assert_eq!(judged(&proved, list), (BTreeSet::new(), true));
}

/// A fault of the pixels keeps answers and record right, one of the free count all but that count. Where the store is all
/// that differs, no answer and no picture ever tells.
#[test]
fn faults_keep_to_their_part() {
    for (number, exercise) in numbered() {
        let parts = apart(&|rules, store| exercise.open(rules, store), 1);
        let due: &[Part] = match exercise.fault {
            Fault::Step(StepFault::AllStepsEarly | StepFault::PixelsInPairs)
            | Fault::Collect(CollectFault::ClearsBuffers) => &[Part::Store],
            Fault::Step(_) => &[Part::Store, Part::Picture],
            Fault::Collect(
                CollectFault::SecondBuffer
                | CollectFault::StepBefore
                | CollectFault::WritesUnfinished,
            ) => &[Part::Picture],
            Fault::Free(_) => &[Part::Free],
            // Other answers make other records, and so on.
            Fault::Submit(_)
            | Fault::Turn(_)
            | Fault::Withdraw(_)
            | Fault::Collect(_)
            | Fault::Change(_) => continue,
        };
        assert_eq!(parts, due.iter().copied().collect(), "{number}");
    }
}

/// Neighbours have their faults in different calls, so that a number says nothing about the next.
#[test]
fn numbers_tell_nothing() {
    let kind = |exercise: &Exercise| std::mem::discriminant(&exercise.fault);
    assert!(EXERCISES.len() >= 20);
    for pair in EXERCISES.windows(2) {
        assert_ne!(kind(&pair[0]), kind(&pair[1]), "{:?}", pair[0].fault);
    }
    for (place, exercise) in EXERCISES.iter().enumerate() {
        let later = &EXERCISES[place + 1..];
        assert!(later.iter().all(|other| other.fault != exercise.fault));
    }
}
