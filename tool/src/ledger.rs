//! Demand 3 on a list itself: jobs, held, steps left, finished and free as docs/REFERENCE.md (L6) takes them from the calls
//! and their answers, never from the record.

use crate::exact::{Farthest, Run};
use crate::list::Submission;
use crate::model::{choice_of, shape_of};
use crate::numbers::counted;
use crate::rules::{Difference, Rule};
use crate::services::choice_by;
use reference::kernel::Kernel;
use reference::service::Rules;
use reference::shape::{covariance, shape_kernel_by};
use reference::smooth::rounded_run;
use std::collections::{BTreeMap, HashSet};
use vokhsaot::{Choice, Error, SEATS};

/// The most ticks that a step takes.
const TICKS_PER_STEP: u64 = SEATS as u64;

/// An accepted submit.
#[derive(Clone, Debug)]
pub struct Job {
    pub submission: Submission,
    /// By which rules it was submitted, and so what choice it has.
    pub rules: Rules,
    pub picture: Vec<u16>,
    /// Ticks that answered its number.
    served: u32,
    /// Ticks of the list at its submit, and at each tick that served it.
    moments: Vec<u64>,
    /// By this tick of the list it has to be finished, and by which rules the service went where that counts from.
    deadline: u64,
    counts_from: Rules,
}

impl Job {
    fn new(submission: &Submission, rules: Rules, picture: Vec<u16>, ticks: u64) -> Job {
        let mut job = Job {
            submission: submission.clone(),
            rules,
            picture,
            served: 0,
            moments: Vec::new(),
            deadline: u64::MAX,
            counts_from: rules,
        };
        job.note(ticks, rules);
        job
    }

    /// The choice of f that its pixels are held to, from its submit alone.
    fn choice(&self) -> Choice {
        choice_by(self.rules, self.submission.choice)
    }

    fn kernel(&self) -> Option<Kernel> {
        kernel_of(&self.submission, self.choice())
    }

    pub fn steps_left(&self) -> u32 {
        self.submission.steps.saturating_sub(self.served)
    }

    pub fn is_finished(&self) -> bool {
        self.steps_left() == 0
    }

    /// A place from which the wait counts: the first one with so many steps left.
    fn note(&mut self, ticks: u64, rules: Rules) {
        self.moments.push(ticks);
        let deadline = ticks + TICKS_PER_STEP * u64::from(self.steps_left());
        if deadline < self.deadline {
            self.deadline = deadline;
            self.counts_from = rules;
        }
    }

    /// The tick after its submit by which it was finished.
    pub fn finished_by(&self) -> Option<u64> {
        let last = self.moments.get(self.submission.steps as usize)?;
        Some(last - self.moments[0])
    }

    /// The most that the wait allows it after its submit.
    pub fn most_ticks(&self) -> u64 {
        TICKS_PER_STEP * u64::from(self.submission.steps)
    }

    /// The longest of a finished job's waits as a share of what is promised, from each place on.
    fn longest_wait(&self) -> Option<Wait> {
        // A service with a fault may serve it further.
        let moments = self.moments.get(..=self.submission.steps as usize)?;
        let end = *moments.last()?;
        let waits = (1..=self.submission.steps).zip(moments.iter().rev().skip(1));
        let waits = waits.map(|(left, moment)| Wait {
            ticks: end - moment,
            promised: TICKS_PER_STEP * u64::from(left),
        });
        waits.max_by(|one, other| one.compared(other))
    }
}

/// The kernel of a submit by a choice, where there is one.
fn kernel_of(submission: &Submission, choice: Choice) -> Option<Kernel> {
    let Submission { shape, steps, .. } = *submission;
    shape_kernel_by(choice_of(choice), shape_of(shape), steps).ok()
}

/// Ticks that a job waited, and the most that it is promised.
#[derive(Clone, Copy, Debug, PartialEq, Eq)]
pub struct Wait {
    pub ticks: u64,
    pub promised: u64,
}

impl Wait {
    /// By their shares.
    fn compared(&self, other: &Wait) -> std::cmp::Ordering {
        let share = |one: &Wait, other: &Wait| u128::from(one.ticks) * u128::from(other.promised);
        share(self, other).cmp(&share(other, self))
    }

    /// The one with the larger share of its promise.
    pub fn longer(one: Option<Wait>, other: Option<Wait>) -> Option<Wait> {
        let waits = one.into_iter().chain(other);
        waits.max_by(|one, other| one.compared(other))
    }

    /// In percent, rounded up: 100 means that nothing is left.
    pub fn percent(&self) -> u64 {
        (100 * self.ticks).div_ceil(self.promised)
    }
}

/// What a job was handed over, beside what it gets alone.
#[derive(Clone, Debug, PartialEq)]
pub struct Handed {
    /// The first pixel that differs, with what was due, and how many do.
    pub differing: Option<(usize, u16, usize)>,
    pub farthest: Farthest,
    pub finished_by: Option<u64>,
    pub most_ticks: u64,
    pub steps: u32,
}

/// A list so far.
pub struct Ledger {
    /// By which rules the next call goes: the old ones from such an opening on, until a change-over is accepted.
    rules: Rules,
    held: BTreeMap<u64, Job>,
    given: HashSet<u64>,
    ticks: u64,
    longest: Option<Wait>,
}

impl Ledger {
    pub fn new(rules: Rules) -> Ledger {
        Ledger {
            rules,
            held: BTreeMap::new(),
            given: HashSet::new(),
            ticks: 0,
            longest: None,
        }
    }

    pub fn rules(&self) -> Rules {
        self.rules
    }

    pub fn held(&self, number: u64) -> Option<&Job> {
        self.held.get(&number)
    }

    pub fn longest_wait(&self) -> Option<Wait> {
        self.longest
    }

    /// The refusal that a submit meets by the sentences one by one; 12 where all seats are taken, 13 where all numbers are.
    fn submit_refusal(&self, submission: &Submission, length: usize) -> Option<Error> {
        let Submission {
            shape,
            steps,
            width,
            height,
            ..
        } = *submission;
        let shape_refusal = covariance(shape_of(shape)).err();
        let area = u64::from(width) * u64::from(height);
        let side_fits = |side| (1..=1024).contains(&side);
        let tests = [
            (shape_refusal == Some(3), Error::VarianceOutOfRange),
            (shape_refusal == Some(4), Error::NotADirection),
            (!(1..=64).contains(&steps), Error::StepsOutOfRange),
            (
                !(side_fits(width) && side_fits(height)),
                Error::SideOutOfRange,
            ),
            (length as u64 != area, Error::WrongLength),
            (area > 1024, Error::TooManyPixels),
        ];
        let first = tests.iter().find(|(applies, _)| *applies);
        if let Some((_, refusal)) = first {
            return Some(*refusal);
        }
        let choice = choice_by(self.rules, submission.choice);
        if kernel_of(submission, choice).is_none() {
            return Some(Error::NoKernel);
        }
        let all_given = self.given.len() as u64 == u64::MAX;
        let full = self.held.len() >= SEATS;
        full.then_some(Error::NoFreeBuffers)
            .or(all_given.then_some(Error::NumbersUsedUp))
    }

    pub fn submit(
        &mut self,
        submission: &Submission,
        picture: &[u16],
        answer: Result<u64, Error>,
    ) -> Vec<Difference> {
        let due = self.submit_refusal(submission, picture.len());
        let mut differences = self.submit_differences(answer, due);
        if let Ok(number) = answer {
            if !self.given.insert(number) {
                let detail = format!("job {number} was accepted before");
                differences.push(Difference::new(Rule::NumberTwice, detail));
            }
            let job = Job::new(submission, self.rules, picture.to_vec(), self.ticks);
            self.held.insert(number, job);
        }
        differences
    }

    /// Whether a submit was accepted, or refused by the number that was due.
    fn submit_differences(
        &self,
        answer: Result<u64, Error>,
        due: Option<Error>,
    ) -> Vec<Difference> {
        let found = match (answer, due) {
            (Ok(number), Some(refusal)) => {
                let refusal = refusal.number();
                let detail = format!("accepted as job {number}; refusal {refusal} applies");
                Difference::new(Rule::NotRefused, detail)
            }
            (Err(given), None) => {
                let (given, held) = (given.number(), self.held.len());
                let detail = format!(
                    "refused ({given}); no refusal applies, and {held} of {SEATS} seats are taken"
                );
                Difference::new(Rule::SubmitAccepted, detail)
            }
            (Err(given), Some(refusal)) if given != refusal => {
                let (given, refusal) = (given.number(), refusal.number());
                let detail = format!("refused ({given}); ({refusal}) comes first");
                Difference::new(Rule::RefusalOrder, detail)
            }
            _ => return Vec::new(),
        };
        vec![found]
    }

    pub fn tick(&mut self, answer: Result<Option<u64>, Error>) -> Vec<Difference> {
        let mut differences = Vec::new();
        let waiting: Vec<u64> = self
            .held
            .iter()
            .filter(|(_, job)| !job.is_finished())
            .map(|(number, _)| *number)
            .collect();
        self.ticks += 1;
        match answer {
            Ok(None) if !waiting.is_empty() => differences.push(Difference::new(
                Rule::IdleWithStepsLeft,
                format!("idle; steps are left of {}", jobs(&waiting)),
            )),
            Ok(Some(number)) if !waiting.contains(&number) => differences.push(Difference::new(
                Rule::ServedWithoutSteps,
                match waiting.is_empty() {
                    true => format!("job {number}; no job has steps left"),
                    false => format!("job {number}; steps are left of {} only", jobs(&waiting)),
                },
            )),
            Err(refusal) => differences.push(Difference::new(
                Rule::RefusalOrder,
                format!("refused ({}); no refusal applies", refusal.number()),
            )),
            _ => {}
        }
        if let Ok(Some(number)) = answer {
            let (ticks, rules) = (self.ticks, self.rules);
            if let Some(job) = self.held.get_mut(&number) {
                job.served += 1;
                job.note(ticks, rules);
                if job.is_finished() {
                    self.longest = Wait::longer(self.longest, job.longest_wait());
                }
            }
        }
        differences.extend(self.late());
        differences
    }

    /// The jobs whose wait is over, each told once for a place from which it counts.
    fn late(&mut self) -> Vec<Difference> {
        let mut differences = Vec::new();
        for (number, job) in &mut self.held {
            if !job.is_finished() && self.ticks >= job.deadline {
                let left = counted(job.steps_left().into(), "step");
                let detail = format!("job {number} has {left} left after all its ticks");
                let rule = match job.counts_from == self.rules {
                    true => Rule::Wait,
                    false => Rule::WaitAcross,
                };
                differences.push(Difference::new(rule, detail));
                job.deadline = u64::MAX;
            }
        }
        differences
    }

    /// The job that is no longer held where the collect is accepted.
    pub fn collect(
        &mut self,
        number: u64,
        length: usize,
        answer: Result<u64, Error>,
    ) -> (Vec<Difference>, Option<Job>) {
        let due = match self.held.get(&number) {
            None => Err(Error::NoSuchJob),
            Some(job) if !job.is_finished() => Err(Error::StepsAreLeft),
            Some(job) if job.picture.len() != length => Err(Error::WrongLength),
            Some(_) => Ok(number),
        };
        self.leave(Rule::FinishedCollected, number, due, answer)
    }

    pub fn withdraw(
        &mut self,
        number: u64,
        answer: Result<u64, Error>,
    ) -> (Vec<Difference>, Option<Job>) {
        let due = match self.held.get(&number) {
            None => Err(Error::NoSuchJob),
            Some(_) => Ok(number),
        };
        self.leave(Rule::WithdrawAccepted, number, due, answer)
    }

    fn leave(
        &mut self,
        rule: Rule,
        number: u64,
        due: Result<u64, Error>,
        answer: Result<u64, Error>,
    ) -> (Vec<Difference>, Option<Job>) {
        let rule = match (answer, due) {
            (Ok(_), Ok(_)) => Rule::OwnNumber,
            (Err(_), Err(_)) => Rule::RefusalOrder,
            // That no collect is accepted before the job is finished is a sentence of its own.
            (Ok(_), Err(Error::StepsAreLeft)) => Rule::CollectedEarly,
            (Ok(_), Err(_)) => Rule::NotRefused,
            _ => rule,
        };
        let mut differences = Vec::new();
        if answer != due {
            let text = |answer: Result<u64, Error>| match answer {
                Ok(number) => format!("job {number}"),
                Err(refusal) => format!("refused ({})", refusal.number()),
            };
            let detail = format!("{}; by the list {} was due", text(answer), text(due));
            differences.push(Difference::new(rule, detail));
        }
        let left = answer.ok().and_then(|_| self.held.remove(&number));
        (differences, left)
    }

    /// One by the old rules is accepted, since its record comes from an opening; after that no record is an old one.
    pub fn change_over(&mut self, answer: Result<(), Error>) -> Vec<Difference> {
        let due = match self.rules {
            Rules::Old => Ok(()),
            Rules::New => Err(Error::RecordOutOfOrder),
        };
        if answer.is_ok() {
            self.rules = Rules::New;
        }
        if answer == due {
            return Vec::new();
        }
        let text = |answer: Result<(), Error>| match answer {
            Ok(()) => "accepted".to_owned(),
            Err(refusal) => format!("refused ({})", refusal.number()),
        };
        let rule = match due {
            Ok(()) => Rule::ChangeAccepted,
            Err(_) => Rule::ChangeRefused,
        };
        let detail = format!("{}; by the list {} was due", text(answer), text(due));
        vec![Difference::new(rule, detail)]
    }

    /// The free count at a place, by the sentence that is about it there.
    pub fn free(&self, answer: Result<u32, Error>, rule: Rule) -> Vec<Difference> {
        let due = 2 * (SEATS.saturating_sub(self.held.len())) as u32;
        if answer == Ok(due) {
            return Vec::new();
        }
        let given = match answer {
            Ok(count) => count.to_string(),
            Err(refusal) => format!("refused ({})", refusal.number()),
        };
        let held = counted(self.held.len() as u64, "job");
        let detail = format!("{given}; {due} are free with {held} held");
        vec![Difference::new(rule, detail)]
    }
}

/// Some numbers of jobs, as text.
fn jobs(numbers: &[u64]) -> String {
    let texts: Vec<String> = numbers.iter().map(u64::to_string).collect();
    format!("job {}", texts.join(", "))
}

impl Job {
    /// Judges what the job was handed over by its sentences, but for that of a service opened for it only.
    pub fn judge(&self, picture: &[u16]) -> (Vec<Difference>, Option<Handed>) {
        // A job that should not have been accepted has no run to be compared with.
        let Some(kernel) = self
            .kernel()
            .filter(|_| picture.len() == self.picture.len())
        else {
            return (Vec::new(), None);
        };
        let Submission {
            steps,
            width,
            height,
            ..
        } = self.submission;
        let alone = rounded_run(&kernel, &self.picture, width, height, steps);
        let run = Run {
            kernel,
            start: &self.picture,
            width,
            height,
            steps,
        };
        let handed = Handed {
            differing: first_difference(picture, &alone),
            farthest: run.farthest(picture),
            finished_by: self.finished_by(),
            most_ticks: self.most_ticks(),
            steps,
        };
        let lone_run = match self.rules {
            Rules::Old => Rule::EarlierJob,
            Rules::New => Rule::LoneRun,
        };
        (handed.differences(picture, width, lone_run), Some(handed))
    }
}

/// The first place where two pictures differ, with the second one's pixel, and how many such places there are.
pub fn first_difference(given: &[u16], due: &[u16]) -> Option<(usize, u16, usize)> {
    let place = given
        .iter()
        .zip(due)
        .position(|(one, other)| one != other)?;
    let count = given.iter().zip(due).filter(|(one, other)| one != other);
    Some((place, due[place], count.count()))
}

impl Handed {
    fn differences(&self, picture: &[u16], width: u32, lone_run: Rule) -> Vec<Difference> {
        let mut differences = Vec::new();
        if let Some((place, due, count)) = self.differing {
            let detail = format!(
                "{}; {due} was due, and {count} of {} pixels differ",
                pixel_text(picture, width, place),
                picture.len()
            );
            differences.push(Difference::new(lone_run, detail));
        }
        if !self.farthest.is_near {
            let Farthest {
                distance, place, ..
            } = self.farthest;
            let half = f64::from(self.steps) / 2.0;
            let detail = format!(
                "{}, {distance:.3} from the exact run's; {half:.1} is the most",
                pixel_text(picture, width, place)
            );
            differences.push(Difference::new(Rule::HalfPerStep, detail));
        }
        differences
    }

    /// One line on a job, promises that are broken in capitals.
    pub fn text(&self) -> String {
        let equal = match self.differing {
            None => "equals its lone run",
            Some(_) => "DIFFERS from its lone run",
        };
        let near = match self.farthest.is_near {
            true => "at most",
            false => "MORE than",
        };
        let half = f64::from(self.steps) / 2.0;
        let most = self.most_ticks;
        let ticks = match self.finished_by {
            Some(ticks) if ticks <= most => format!("finished by tick {ticks} (at most {most})"),
            Some(ticks) => format!("finished by tick {ticks} (MORE than {most})"),
            None => format!("NOT finished by its ticks (at most {most})"),
        };
        let distance = self.farthest.distance;
        format!("{equal}; {distance:.3} from the exact run ({near} {half:.1}); {ticks}")
    }
}

/// A pixel with its column and row.
pub fn pixel_text(picture: &[u16], width: u32, place: usize) -> String {
    let width = (width as usize).max(1);
    let (x, y) = (place % width, place / width);
    format!("the pixel in column {x}, row {y} is {}", picture[place])
}
