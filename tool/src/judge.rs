//! A service under test beside the independent one of `reference/`: each call is done by both, and its answer, the free
//! count after it, the record's words, the store and the picture handed over are compared. The sentences of demand 3 are
//! checked on the list itself, by the ledger.
//!
//! After a difference the independent service goes on from the state that the other one is in, so that each difference is
//! told at the call that makes it; what follows from it for the whole list is the ledger's to tell.

use crate::error::refusal_text;
use crate::ledger::{first_difference, pixel_text, Handed, Job, Ledger, Wait};
use crate::list::{Call, Start, Submission};
use crate::model::Model;
use crate::numbers::counted;
use crate::rules::{Difference, Rule};
use crate::services::{Opening, Service, Unit};
use crate::watch;
use reference::service::Rules;
use reference::words::{record_words, slot_words};
use std::cell::Cell;
use std::panic::{self, AssertUnwindSafe};
use std::sync::Once;
use vokhsaot::{Error, BUFFER_PIXELS, SEATS, STORE_PIXELS};

/// The answer to a call that was not refused.
#[derive(Clone, Copy, Debug, PartialEq, Eq)]
pub enum Answer {
    Job(u64),
    Idle,
    Free(u32),
    /// Changed over.
    Done,
}

/// An answer, or a refusal.
pub type Answered = Result<Answer, Error>;

/// An answer as it is printed.
pub fn answer_text(answer: Answered) -> String {
    match answer {
        Ok(Answer::Job(number)) => format!("job {number}"),
        Ok(Answer::Idle) => "idle".to_owned(),
        Ok(Answer::Free(count)) => count.to_string(),
        Ok(Answer::Done) => "done".to_owned(),
        Err(refusal) => refusal_text(refusal),
    }
}

/// The same without the refusal's sentence.
fn short_text(answer: Answered) -> String {
    match answer {
        Err(refusal) => format!("refused ({})", refusal.number()),
        answer => answer_text(answer),
    }
}

/// What a call came to.
pub struct Judged {
    /// None where the service did not come back with one.
    pub answer: Option<Answered>,
    pub free: Option<Result<u32, Error>>,
    pub differences: Vec<Difference>,
    /// Of an accepted collect, where the list has such a job.
    pub handed_over: Option<HandedOver>,
}

/// A job that was handed over.
pub struct HandedOver {
    pub number: u64,
    pub job: Job,
    pub picture: Vec<u16>,
    /// None where the job has no run to be compared with.
    pub handed: Option<Handed>,
}

/// What was judged so far.
#[derive(Clone, Copy, Debug, Default, PartialEq, Eq)]
pub struct Counts {
    pub calls: u64,
    /// Calls by the old rules, which the independent program made.
    pub old: u64,
    /// Calls that were refused, as was due or not.
    pub refused: u64,
    pub answers: u64,
    pub jobs: u64,
    pub differences: u64,
}

impl Counts {
    pub fn add(&mut self, other: Counts) {
        self.calls += other.calls;
        self.old += other.old;
        self.refused += other.refused;
        self.answers += other.answers;
        self.jobs += other.jobs;
        self.differences += other.differences;
    }
}

/// A service under judgement, from its opening on.
pub struct Judge<'a> {
    opening: Opening<'a>,
    service: Box<dyn Service>,
    model: Model,
    ledger: Ledger,
    counts: Counts,
}

/// A call with what it lends: made once for all that do it.
struct Lent<'a> {
    call: &'a Call,
    /// The submitted picture, or the one that a collect writes to.
    pixels: Vec<u16>,
}

/// What a lent picture holds before a collect, and the store of a service opened for one job: not zeros, so that zeros would
/// show.
const UNWRITTEN: u16 = 0x5a5a;

impl<'a> Judge<'a> {
    /// Opens the service, and judges the opening itself.
    pub fn new(opening: Opening<'a>, start: Start) -> (Judge<'a>, Vec<Difference>) {
        let Start { rules, store } = start;
        let opened = answered(|| opening(rules, store.pixels()));
        let is_open = opened.is_some();
        let mut judge = Judge {
            opening,
            service: opened.unwrap_or_else(|| Box::new(Closed)),
            model: Model::open(rules, store.pixels()),
            ledger: Ledger::new(rules),
            counts: Counts::default(),
        };
        let differences = match is_open {
            true => judge.judge_opening(),
            false => vec![no_answer("the opening")],
        };
        judge.settle(&differences);
        // Counted are the calls' own answers and the free counts after them.
        judge.counts.answers = 0;
        (judge, differences)
    }

    /// The independent service, which has done the same calls.
    pub fn model(&self) -> &Model {
        &self.model
    }

    pub fn counts(&self) -> Counts {
        self.counts
    }

    pub fn longest_wait(&self) -> Option<Wait> {
        self.ledger.longest_wait()
    }

    fn judge_opening(&mut self) -> Vec<Difference> {
        let mut differences = self.compare_state(|_| Rule::Opening, Rule::Opening);
        self.judge_free(Rule::FreeBuffers, true, &mut differences);
        differences
    }

    /// Does a call on both services and judges it; of a line of several ticks one.
    pub fn call(&mut self, call: &Call) -> Judged {
        let lent = Lent {
            call,
            pixels: self.lent_pixels(call),
        };
        let mut given_pixels = lent.pixels.clone();
        let mut due_pixels = lent.pixels.clone();
        let before = self.service.words().to_vec();
        let is_old = self.ledger.rules() == Rules::Old && *call != Call::ChangeOver;
        let due = on_model(&mut self.model, call, &mut due_pixels);
        self.counts.calls += 1;
        self.counts.old += u64::from(is_old);
        self.counts.answers += 1;
        watch::number(self.counts.calls);
        let answer = answered(|| on_service(self.service.as_mut(), call, &mut given_pixels));
        self.counts.refused += u64::from(matches!(answer, Some(Err(_))));
        let mut differences = Vec::new();
        let handed_over = match answer {
            None => {
                differences.push(no_answer("the call"));
                None
            }
            Some(answer) => self.judge_answer(&lent, answer, due, given_pixels, &mut differences),
        };
        // After another answer than was due the independent service is in another state, which tells nothing.
        let is_due = answer == Some(due);
        if is_due {
            let (record, store) = state_rules(call, due);
            let is_f_alone = self.is_f_alone();
            let record = |place| match (call, due) {
                (Call::ChangeOver, Ok(_)) => changed_word_rule(place),
                (Call::Submit(_), Ok(_)) if is_f_alone => Rule::SubmitF,
                _ => record,
            };
            differences.extend(self.compare_state(record, store));
        } else if matches!(answer, Some(Err(_))) && self.service.words() != before {
            let detail = words_text(self.service.words(), &before);
            differences.push(Difference::new(Rule::RefusalChangesNothing, detail));
        }
        let free_rule = match call {
            Call::ChangeOver => Rule::FreeAcross,
            _ => Rule::FreeBuffers,
        };
        let free = self.judge_free(free_rule, is_due, &mut differences);
        self.settle(&differences);
        Judged {
            answer,
            free,
            differences,
            handed_over,
        }
    }

    /// An answer by the list, beside the independent service's, and with the lent picture as it came back; the job that was
    /// handed over by it.
    fn judge_answer(
        &mut self,
        lent: &Lent,
        answer: Answered,
        due: Answered,
        pixels: Vec<u16>,
        differences: &mut Vec<Difference>,
    ) -> Option<HandedOver> {
        let left = self.enter(lent, answer, differences);
        self.compare_answers(lent.call, answer, due, differences);
        if answer.is_err() && pixels != lent.pixels {
            differences.push(changed_picture(&pixels, &lent.pixels));
        }
        match (lent.call, left) {
            (Call::Collect { number, .. }, Some(job)) => {
                Some(self.judge_job(*number, job, pixels, differences))
            }
            _ => None,
        }
    }

    fn lent_pixels(&self, call: &Call) -> Vec<u16> {
        match call {
            Call::Submit(submission) => submission.picture(),
            Call::Collect { number, length, .. } => {
                let own = self.ledger.held(*number).map_or(0, |job| job.picture.len());
                vec![UNWRITTEN; length.unwrap_or(own)]
            }
            _ => Vec::new(),
        }
    }

    /// Takes a call and its answer up in the ledger; the job that leaves by it.
    fn enter(
        &mut self,
        lent: &Lent,
        answer: Answered,
        differences: &mut Vec<Difference>,
    ) -> Option<Job> {
        let number = answer.map(|answer| match answer {
            Answer::Job(number) => number,
            _ => 0,
        });
        let (found, left) = match lent.call {
            Call::Submit(submission) => {
                let found = self.ledger.submit(submission, &lent.pixels, number);
                (found, None)
            }
            Call::Tick(_) => {
                let served = number.map(|number| (number != 0).then_some(number));
                (self.ledger.tick(served), None)
            }
            Call::Collect { number: job, .. } => {
                self.ledger.collect(*job, lent.pixels.len(), number)
            }
            Call::Withdraw(job) => self.ledger.withdraw(*job, number),
            Call::Free => (Vec::new(), None),
            Call::ChangeOver => (self.ledger.change_over(answer.map(|_| ())), None),
        };
        differences.extend(found);
        left
    }

    /// The answer beside the independent service's.
    fn compare_answers(
        &self,
        call: &Call,
        answer: Answered,
        due: Answered,
        differences: &mut Vec<Difference>,
    ) {
        let rule = answer_rule(call, answer, due);
        if answer == due || differences.iter().any(|found| found.rule == rule) {
            return;
        }
        let detail = format!("{}; {} was due", short_text(answer), short_text(due));
        differences.push(Difference::new(rule, detail));
    }

    fn judge_job(
        &mut self,
        number: u64,
        job: Job,
        picture: Vec<u16>,
        differences: &mut Vec<Difference>,
    ) -> HandedOver {
        let (found, handed) = job.judge(&picture);
        differences.extend(found);
        if handed.is_some() {
            self.counts.jobs += 1;
            differences.extend(self.judge_alone(&job, &picture));
        }
        HandedOver {
            number,
            job,
            picture,
            handed,
        }
    }

    /// A service of the same kind opened for the job only, by the rules that its submit followed.
    fn judge_alone(&self, job: &Job, picture: &[u16]) -> Option<Difference> {
        let differs = |detail: String| Some(Difference::new(Rule::LoneService, detail));
        let Submission { steps, width, .. } = job.submission;
        let alone = answered(|| {
            let mut service = (self.opening)(job.rules, vec![UNWRITTEN; STORE_PIXELS]);
            let number = service.submit(job.submission.lending(&job.picture))?;
            for _ in 0..steps {
                service.tick()?;
            }
            let mut alone = vec![UNWRITTEN; picture.len()];
            service.collect(number, &mut alone).map(|_| alone)
        });
        match alone {
            None => differs("it did not answer".to_owned()),
            Some(Err(refusal)) => differs(format!("it refused ({})", refusal.number())),
            Some(Ok(alone)) => match first_difference(picture, &alone) {
                None => None,
                Some((place, pixel, count)) => differs(format!(
                    "{}, and {pixel} from a service opened for it only; {count} of {} pixels differ",
                    pixel_text(picture, width, place),
                    picture.len()
                )),
            },
        }
    }

    /// Whether the record has another f in a seat than the independent service's, and nothing else.
    fn is_f_alone(&self) -> bool {
        let places = differing(self.service.words(), &self.model.words());
        let is_f = |place: &usize| changed_word_rule(*place) == Rule::ChangedF;
        !places.is_empty() && places.iter().all(is_f)
    }

    /// The words and the store beside the independent service's. Which sentence a word breaks its place tells.
    fn compare_state(&self, record: impl Fn(usize) -> Rule, store: Rule) -> Vec<Difference> {
        let mut differences = Vec::new();
        let (words, due) = (self.service.words(), self.model.words());
        let mut rules: Vec<Rule> = differing(words, &due).into_iter().map(&record).collect();
        rules.sort();
        rules.dedup();
        for rule in rules {
            let detail = words_text_of(words, &due, |place| record(place) == rule);
            differences.push(Difference::new(rule, detail));
        }
        if self.service.store() != self.model.store() {
            let detail = store_text(self.service.store(), self.model.store(), &due);
            differences.push(Difference::new(store, detail));
        }
        differences
    }

    /// The free count after a call, and that asking for it changes nothing. It is compared with the independent service's
    /// where that one is in the same state.
    fn judge_free(
        &mut self,
        rule: Rule,
        is_same: bool,
        differences: &mut Vec<Difference>,
    ) -> Option<Result<u32, Error>> {
        let before = self.service.words().to_vec();
        let free = answered(|| self.service.free());
        self.counts.answers += 1;
        if self.service.words() != before {
            let detail = words_text(self.service.words(), &before);
            differences.push(Difference::new(Rule::CountChangesNothing, detail));
        }
        match free {
            None => differences.push(no_answer("the free count")),
            Some(count) => {
                differences.extend(self.ledger.free(count, rule));
                let due = self.model.free();
                let told = differences.iter().any(|found| found.rule == rule);
                if is_same && count != due && !told {
                    let text = |count: Result<u32, Error>| short_text(count.map(Answer::Free));
                    let detail = format!("{}; {} was due", text(count), text(due));
                    differences.push(Difference::new(rule, detail));
                }
            }
        }
        free
    }

    /// After a difference the independent service goes on from the other one's state.
    fn settle(&mut self, differences: &[Difference]) {
        self.counts.differences += differences.len() as u64;
        if !differences.is_empty() {
            self.model
                .take_over(self.service.words(), self.service.store());
        }
    }
}

fn on_model(model: &mut Model, call: &Call, pixels: &mut [u16]) -> Answered {
    match call {
        Call::Submit(submission) => model.submit(submission.lending(pixels)).map(Answer::Job),
        Call::Tick(_) => model.tick().map(tick_answer),
        Call::Collect { number, .. } => model.collect(*number, pixels).map(Answer::Job),
        Call::Withdraw(number) => model.withdraw(*number).map(Answer::Job),
        Call::Free => model.free().map(Answer::Free),
        Call::ChangeOver => model.change_over().map(|()| Answer::Done),
    }
}

fn on_service(service: &mut dyn Service, call: &Call, pixels: &mut [u16]) -> Answered {
    match call {
        Call::Submit(submission) => service.submit(submission.lending(pixels)).map(Answer::Job),
        Call::Tick(_) => service.tick().map(tick_answer),
        Call::Collect { number, .. } => service.collect(*number, pixels).map(Answer::Job),
        Call::Withdraw(number) => service.withdraw(*number).map(Answer::Job),
        Call::Free => service.free().map(Answer::Free),
        Call::ChangeOver => service.change_over().map(|()| Answer::Done),
    }
}

fn tick_answer(answer: Option<u64>) -> Answer {
    answer.map_or(Answer::Idle, Answer::Job)
}

thread_local! {
    /// Whether a panic is an answer that did not come, and nothing to print.
    static EXPECTED: Cell<bool> = const { Cell::new(false) };
}

/// Does a call of the service under test. The Rust crate panics where the library's number is no refusal.
fn answered<T>(call: impl FnOnce() -> T) -> Option<T> {
    static QUIET: Once = Once::new();
    QUIET.call_once(|| {
        let loud = panic::take_hook();
        panic::set_hook(Box::new(move |info| {
            if !EXPECTED.get() {
                loud(info);
            }
        }));
    });
    EXPECTED.set(true);
    let answer = panic::catch_unwind(AssertUnwindSafe(|| watch::over(call)));
    EXPECTED.set(false);
    answer.ok()
}

fn no_answer(what: &str) -> Difference {
    let detail = format!("{what} came back with a number that is no refusal");
    Difference::new(Rule::Ends, detail)
}

/// Stands for a service that did not open: it answers nothing.
struct Closed;

impl Service for Closed {
    fn within(&self) -> &Unit {
        panic!("the service did not open")
    }

    fn within_mut(&mut self) -> &mut Unit {
        panic!("the service did not open")
    }

    fn words(&self) -> &[u64] {
        &[]
    }

    fn store(&self) -> &[u16] {
        &[]
    }
}

/// The sentence that an answer breaks where another one was due.
fn answer_rule(call: &Call, answer: Answered, due: Answered) -> Rule {
    match (call, answer, due) {
        (Call::Free, ..) => Rule::FreeBuffers,
        (Call::ChangeOver, _, Ok(_)) => Rule::ChangeAccepted,
        (Call::ChangeOver, _, Err(_)) => Rule::ChangeRefused,
        (_, Err(_), Err(_)) => Rule::RefusalOrder,
        (Call::Submit(_) | Call::Withdraw(_), Ok(_), Err(_)) => Rule::NotRefused,
        (Call::Collect { .. }, Ok(_), Err(refusal)) if refusal != Error::StepsAreLeft => {
            Rule::NotRefused
        }
        (Call::Submit(_), Ok(_), Ok(_)) => Rule::NextNumber,
        (Call::Submit(_), ..) => Rule::SubmitAccepted,
        (Call::Tick(_), Ok(Answer::Job(_)), Ok(Answer::Job(_))) => Rule::Turn,
        (Call::Tick(_), Ok(Answer::Idle), Ok(_)) => Rule::IdleWithStepsLeft,
        (Call::Tick(_), Ok(_), Ok(_)) => Rule::ServedWithoutSteps,
        (Call::Tick(_), ..) => Rule::RefusalOrder,
        (_, Ok(_), Ok(_)) => Rule::OwnNumber,
        (Call::Collect { .. }, Ok(_), _) => Rule::CollectedEarly,
        (Call::Collect { .. }, ..) => Rule::FinishedCollected,
        (Call::Withdraw(_), ..) => Rule::WithdrawAccepted,
    }
}

/// The sentences that a wrong record and a wrong store break after a call.
fn state_rules(call: &Call, due: Answered) -> (Rule, Rule) {
    match (call, due) {
        (_, Err(_)) => (Rule::RefusalChangesNothing, Rule::RefusalChangesNothing),
        (Call::Submit(_), _) => (Rule::SubmitRecord, Rule::SubmitStore),
        (Call::Tick(_), Ok(Answer::Idle)) => (Rule::IdleChangesNothing, Rule::IdleChangesNothing),
        (Call::Tick(_), _) => (Rule::TickRecord, Rule::TickStore),
        (Call::Free, _) => (Rule::CountChangesNothing, Rule::CountChangesNothing),
        (Call::Collect { .. }, _) => (Rule::CollectRecord, Rule::LeaveStore),
        // Of its record's words each has a sentence of its own.
        (Call::ChangeOver, _) => (Rule::ChangedFields, Rule::ChangeStore),
        _ => (Rule::WithdrawRecord, Rule::LeaveStore),
    }
}

fn changed_picture(given: &[u16], due: &[u16]) -> Difference {
    let detail = match first_difference(given, due) {
        Some((place, due, count)) => format!(
            "{} of the lent picture, the first at {place}: {} (due: {due})",
            counted(count as u64, "pixel"),
            given[place]
        ),
        None => "the lent picture's length".to_owned(),
    };
    Difference::new(Rule::RefusalChangesNothing, detail)
}

/// By which rules a record of so many words is; where it is none, as by the new ones.
fn rules_of(count: usize) -> Rules {
    match count == record_words(Rules::Old) {
        true => Rules::Old,
        false => Rules::New,
    }
}

/// The seat and the field of a word, by rules; none after the seats.
fn seat_place(rules: Rules, place: usize) -> Option<(usize, usize)> {
    let size = slot_words(rules);
    (place < SEATS * size).then_some((place / size, place % size))
}

/// The sentence that a word of the record breaks which a change-over left.
fn changed_word_rule(place: usize) -> Rule {
    match seat_place(Rules::New, place) {
        None => Rule::ChangedTurn,
        Some((_, FIELD_OF_F)) => Rule::ChangedF,
        Some(_) => Rule::ChangedFields,
    }
}

/// The words of a seat; the last is there by the new rules alone.
const FIELDS: [&str; 9] = [
    "number",
    "xx",
    "xy",
    "yy",
    "steps",
    "steps left",
    "width",
    "height",
    "f",
];
const FIELD_OF_F: usize = 8;

/// A word of the record by its name.
fn word_name(rules: Rules, place: usize) -> String {
    const NAMED: [&str; 3] = [
        "the last number given",
        "the seat last filled",
        "the seat last served",
    ];
    match seat_place(rules, place) {
        Some((seat, field)) => format!("seat {seat}'s {}", FIELDS[field]),
        None => NAMED[place - SEATS * slot_words(rules)].to_owned(),
    }
}

/// A word's value: of xx, xy and yy with their sign.
fn word_value(rules: Rules, place: usize, word: u64) -> String {
    let field = seat_place(rules, place).map(|(_, field)| field);
    let is_entry = field.is_some_and(|field| (1..=3).contains(&field));
    match u32::try_from(word) {
        Ok(bits) if is_entry => (bits as i32).to_string(),
        _ => word.to_string(),
    }
}

/// The places of the words that differ; the first where one has more words than the other.
fn differing(words: &[u64], due: &[u64]) -> Vec<usize> {
    if words.len() != due.len() {
        return vec![0];
    }
    let places = words.iter().zip(due).enumerate();
    places
        .filter(|(_, (one, other))| one != other)
        .map(|(place, _)| place)
        .collect()
}

/// The first words that differ.
fn words_text(words: &[u64], due: &[u64]) -> String {
    words_text_of(words, due, |_| true)
}

/// The first that differ of some words.
fn words_text_of(words: &[u64], due: &[u64], is_one: impl Fn(usize) -> bool) -> String {
    /// More would not be read.
    const MOST: usize = 3;
    if words.len() != due.len() {
        return format!("there are {} words (due: {})", words.len(), due.len());
    }
    let rules = rules_of(words.len());
    let mut differing = differing(words, due);
    differing.retain(|place| is_one(*place));
    let texts = differing.iter().take(MOST).map(|place| {
        let value = |words: &[u64]| word_value(rules, *place, words[*place]);
        format!(
            "{} is {} (due: {})",
            word_name(rules, *place),
            value(words),
            value(due)
        )
    });
    let mut text = texts.collect::<Vec<String>>().join(", ");
    if differing.len() > MOST {
        let more = counted((differing.len() - MOST) as u64, "more word");
        text += &format!(", and {more}");
    }
    text
}

/// The first buffer that differs, with the seat that it belongs to and the job there.
fn store_text(store: &[u16], due: &[u16], words: &[u64]) -> String {
    let Some((place, pixel, count)) = first_difference(store, due) else {
        return "the store has another length".to_owned();
    };
    let (buffer, place_there) = (place / BUFFER_PIXELS, place % BUFFER_PIXELS);
    let seat = buffer / 2;
    let job = match words[seat * slot_words(rules_of(words.len()))] {
        0 => "empty".to_owned(),
        number => format!("job {number}"),
    };
    format!(
        "buffer {buffer} (seat {seat}, {job}): pixel {place_there} is {} (due: {pixel}), the first of {count} that differ",
        store[place]
    )
}

/// The last line of a judgement: what was judged, and what came of it.
pub struct Verdict {
    pub counts: Counts,
    pub longest: Option<Wait>,
    /// Where the first difference is, as text.
    pub first: Option<String>,
}

impl Verdict {
    pub fn is_good(&self) -> bool {
        self.counts.differences == 0 && self.counts.jobs > 0
    }

    pub fn text(&self) -> String {
        let Counts {
            calls,
            old,
            refused,
            answers,
            jobs,
            differences,
        } = self.counts;
        let head = match (&self.first, jobs) {
            (Some(first), _) => {
                let differences = counted(differences, "difference");
                format!("BAD, {differences}, the first at {first}")
            }
            (None, 0) => "NO JOB JUDGED, none was handed over".to_owned(),
            (None, _) => "good".to_owned(),
        };
        let wait = match self.longest {
            None => "no job finished".to_owned(),
            Some(wait) => format!(
                "longest wait {} of at most {} ticks ({} %)",
                wait.ticks,
                wait.promised,
                wait.percent()
            ),
        };
        let old = match old {
            0 => String::new(),
            old => format!("; {old} by the old rules, made by the independent program"),
        };
        let calls = counted(calls, "call");
        let answers = counted(answers, "answer");
        let jobs = counted(jobs, "job");
        format!("verdict: {head}: {calls} ({refused} refused{old}), {answers} judged, {jobs} handed over, {wait}")
    }
}

#[cfg(test)]
mod tests {
    use super::*;
    use crate::list;
    use crate::services::{proved, Submitted};
    use vokhsaot::{WORD_LAST_FILLED, WORD_LAST_SERVED};

    /// What is wrong with a service; the practice services have other faults.
    #[derive(Clone, Copy, PartialEq)]
    enum Bend {
        Panics,
        PanicsCounting,
        OtherNumber,
        IdleMoves,
        CopiesLess,
        CountMoves,
        LeavesJunk,
        Opening,
        SkipsNumber,
        BusyWhenDone,
        ForgetsTurn,
        ChangeRefuses,
        ChangeClears,
        ChangeMiscounts,
        ChangeKeepsWords,
    }

    struct Bent {
        inner: Unit,
        bend: Bend,
        /// The words after a free count that changes them, and whether there was one.
        moved: Vec<u64>,
        has_moved: Cell<bool>,
    }

    impl Bent {
        fn open(bend: Bend, rules: Rules, store: Vec<u16>) -> Bent {
            let inner = Unit::open(rules, store);
            let mut moved = inner.words().to_vec();
            *moved.last_mut().unwrap() = 0;
            let mut bent = Bent {
                inner,
                bend,
                moved,
                has_moved: Cell::new(false),
            };
            if bend == Bend::Opening {
                bent.edit(|words, _| words[WORD_LAST_FILLED] = 0);
            }
            bent
        }

        fn edit(&mut self, edit: impl Fn(&mut [u64], &mut [u16])) {
            let (mut words, mut store) = (self.inner.words().to_vec(), self.inner.store().to_vec());
            edit(&mut words, &mut store);
            self.inner = Unit::Library(vokhsaot::Service::from_parts(words, store));
        }
    }

    impl Service for Bent {
        fn within(&self) -> &Unit {
            &self.inner
        }

        fn within_mut(&mut self) -> &mut Unit {
            &mut self.inner
        }

        fn submit(&mut self, submitted: Submitted) -> Result<u64, Error> {
            let number = self.inner.submit(submitted)?;
            if self.bend == Bend::CopiesLess {
                self.edit(|_, store| store[0] = 9);
            }
            Ok(number + u64::from(self.bend == Bend::SkipsNumber))
        }

        fn tick(&mut self) -> Result<Option<u64>, Error> {
            assert!(self.bend != Bend::Panics, "no refusal has this number");
            let answer = self.inner.tick()?;
            if self.bend == Bend::IdleMoves && answer.is_none() {
                self.edit(|words, _| words[WORD_LAST_SERVED] = (words[WORD_LAST_SERVED] + 1) % 8);
            }
            if self.bend == Bend::ForgetsTurn {
                self.edit(|words, _| words[WORD_LAST_SERVED] = 7);
            }
            Ok(match self.bend {
                Bend::BusyWhenDone => answer.or(Some(1)),
                _ => answer,
            })
        }

        fn collect(&mut self, number: u64, picture: &mut [u16]) -> Result<u64, Error> {
            let number = self.inner.collect(number, picture)?;
            if self.bend == Bend::LeavesJunk {
                self.edit(|_, store| store[2000] = 1);
            }
            Ok(number)
        }

        fn withdraw(&mut self, number: u64) -> Result<u64, Error> {
            let number = self.inner.withdraw(number)?;
            Ok(number + u64::from(self.bend == Bend::OtherNumber))
        }

        fn free(&self) -> Result<u32, Error> {
            assert!(
                self.bend != Bend::PanicsCounting,
                "no refusal has this number"
            );
            self.has_moved.set(self.bend == Bend::CountMoves);
            let is_bent =
                self.bend == Bend::ChangeMiscounts && rules_of(self.words().len()) == Rules::New;
            self.inner.free().map(|count| count + u32::from(is_bent))
        }

        fn change_over(&mut self) -> Result<(), Error> {
            let kept = self.inner.clone();
            self.inner.change_over()?;
            match self.bend {
                Bend::ChangeRefuses => {
                    self.inner = kept;
                    return Err(Error::RecordOutOfOrder);
                }
                Bend::ChangeKeepsWords => self.inner = kept,
                Bend::ChangeClears => self.edit(|_, store| store[0] = 9),
                _ => {}
            }
            Ok(())
        }

        fn words(&self) -> &[u64] {
            match self.has_moved.get() {
                true => &self.moved,
                false => self.inner.words(),
            }
        }
    }

    const LIST: &str = "\
rules new
submit matrix 4096 0 0 steps 1 size 2 1 pixels 0 1
submit matrix 4096 0 0 steps 1 size 2 1 pixels 0 1
tick 3
collect 1
withdraw 2
change over
";

    const CHANGE: &str = "\
submit matrix 4096 0 0 steps 2 size 2 1 pixels 0 1
tick
change over
tick
collect 1
change over
";

    /// The first difference of a list, with the number of its call.
    fn first(opening: Opening) -> Option<(u64, Difference)> {
        first_in(LIST, opening)
    }

    fn first_in(list: &str, opening: Opening) -> Option<(u64, Difference)> {
        let list = list::read(list, &|name| Err(name.to_owned())).unwrap();
        let (mut judge, differences) = Judge::new(opening, list.start);
        if let Some(found) = differences.into_iter().next() {
            return Some((0, found));
        }
        for line in list.lines {
            for _ in 0..line.call.times() {
                let judged = judge.call(&line.call);
                if let Some(found) = judged.differences.into_iter().next() {
                    return Some((judge.counts().calls, found));
                }
            }
        }
        None
    }

    #[test]
    fn nothing_of_the_proved_service() {
        assert_eq!(first(&proved), None);
        assert_eq!(first_in(CHANGE, &proved), None);
    }

    /// What a change-over leaves wrong beside its words, which the services to practise on have.
    #[test]
    fn each_difference_of_a_change_over() {
        for (bend, rule, detail) in [
            (
                Bend::ChangeRefuses,
                Rule::ChangeAccepted,
                "refused (2); by the list accepted was due",
            ),
            (
                Bend::ChangeClears,
                Rule::ChangeStore,
                "buffer 0 (seat 0, job 1): pixel 0 is 9 (due: 0), the first of 1 that differ",
            ),
            (
                Bend::ChangeMiscounts,
                Rule::FreeAcross,
                "15; 14 are free with 1 job held",
            ),
            (
                Bend::ChangeKeepsWords,
                Rule::ChangedFields,
                "there are 67 words (due: 75)",
            ),
        ] {
            let opening =
                |rules, store| -> Box<dyn Service> { Box::new(Bent::open(bend, rules, store)) };
            let expected = Difference::new(rule, detail);
            assert_eq!(first_in(CHANGE, &opening), Some((3, expected)));
            // The list goes on by the rules that the service is left with.
            let list = list::read(CHANGE, &|name| Err(name.to_owned())).unwrap();
            let (mut judge, _) = Judge::new(&opening, list.start);
            for line in &list.lines {
                judge.call(&line.call);
            }
            assert_eq!(judge.counts().calls, 6);
        }
    }

    /// Each word that a change-over leaves wrong by the sentence that is about it.
    #[test]
    fn words_of_a_change_over() {
        let fields = [Rule::ChangedFields; 8];
        let seat = [&fields[..], &[Rule::ChangedF]].concat();
        let all = [seat.repeat(SEATS), vec![Rule::ChangedTurn; 3]].concat();
        let found: Vec<Rule> = (0..vokhsaot::WORDS).map(changed_word_rule).collect();
        assert_eq!(found, all);
        let name = |place| word_name(Rules::New, place);
        assert_eq!([name(8), name(71)], ["seat 0's f", "seat 7's f"]);
        assert_eq!(
            [name(9), name(74)],
            ["seat 1's number", "the seat last served"]
        );
        let old = |place| word_name(Rules::Old, place);
        assert_eq!(
            [old(8), old(66)],
            ["seat 1's number", "the seat last served"]
        );
    }

    #[test]
    fn a_service_that_does_not_open() {
        let opening = |_, _| -> Box<dyn Service> { panic!("a refusal of no number") };
        assert_eq!(first(&opening), Some((0, no_answer("the opening"))));
        // Calls go on, and have no answer.
        let (mut judge, _) = Judge::new(&opening, Start::USUAL);
        let judged = judge.call(&Call::Tick(1));
        assert_eq!((judged.answer, judged.free), (None, None));
        assert_eq!(judged.differences[0], no_answer("the call"));
    }

    #[test]
    fn each_difference_at_its_call() {
        for (bend, call, rule, detail) in [
            (
                Bend::Opening,
                0,
                Rule::Opening,
                "the seat last filled is 0 (due: 7)",
            ),
            (
                Bend::PanicsCounting,
                0,
                Rule::Ends,
                "the free count came back with a number that is no refusal",
            ),
            (
                Bend::CountMoves,
                0,
                Rule::CountChangesNothing,
                "the seat last served is 0 (due: 7)",
            ),
            (
                Bend::CopiesLess,
                1,
                Rule::SubmitStore,
                "buffer 0 (seat 0, job 1): pixel 0 is 9 (due: 0), the first of 1 that differ",
            ),
            (
                Bend::Panics,
                3,
                Rule::Ends,
                "the call came back with a number that is no refusal",
            ),
            (
                Bend::IdleMoves,
                5,
                Rule::IdleChangesNothing,
                "the seat last served is 2 (due: 1)",
            ),
            (
                Bend::LeavesJunk,
                6,
                Rule::LeaveStore,
                "buffer 1 (seat 0, empty): pixel 976 is 1 (due: 0), the first of 1 that differ",
            ),
            (
                Bend::SkipsNumber,
                1,
                Rule::NextNumber,
                "job 2; job 1 was due",
            ),
            (
                Bend::ForgetsTurn,
                3,
                Rule::TickRecord,
                "the seat last served is 7 (due: 0)",
            ),
            (
                Bend::BusyWhenDone,
                5,
                Rule::ServedWithoutSteps,
                "job 1; no job has steps left",
            ),
            (
                Bend::OtherNumber,
                7,
                Rule::OwnNumber,
                "job 3; by the list job 2 was due",
            ),
        ] {
            let opening =
                |rules, store| -> Box<dyn Service> { Box::new(Bent::open(bend, rules, store)) };
            let expected = Difference::new(rule, detail);
            assert_eq!(first(&opening), Some((call, expected)));
        }
    }

    #[test]
    fn verdicts() {
        let mut verdict = Verdict {
            counts: Counts::default(),
            longest: None,
            first: None,
        };
        let nothing = "verdict: NO JOB JUDGED, none was handed over: 0 calls (0 refused), 0 answers judged, 0 jobs handed over, no job finished";
        assert_eq!(
            (verdict.text().as_str(), verdict.is_good()),
            (nothing, false)
        );
        verdict.counts = Counts {
            calls: 1,
            old: 0,
            refused: 0,
            answers: 2,
            jobs: 1,
            differences: 0,
        };
        verdict.longest = Some(Wait {
            ticks: 1,
            promised: 24,
        });
        let good = "verdict: good: 1 call (0 refused), 2 answers judged, 1 job handed over, longest wait 1 of at most 24 ticks (5 %)";
        assert_eq!((verdict.text().as_str(), verdict.is_good()), (good, true));
        verdict.counts.old = 1;
        let old = "verdict: good: 1 call (0 refused; 1 by the old rules, made by the independent program), 2 answers judged, 1 job handed over, longest wait 1 of at most 24 ticks (5 %)";
        assert_eq!((verdict.text().as_str(), verdict.is_good()), (old, true));
        verdict.counts.old = 0;
        verdict.counts.differences = 3;
        verdict.first = Some("call 1, line 7".to_owned());
        let bad = "verdict: BAD, 3 differences, the first at call 1, line 7: 1 call (0 refused), 2 answers judged, 1 job handed over, longest wait 1 of at most 24 ticks (5 %)";
        assert_eq!((verdict.text().as_str(), verdict.is_good()), (bad, false));
    }
}
