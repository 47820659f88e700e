//! From a list of calls that shows a difference to a shorter one that still shows it: calls are dropped while it stays.

use crate::interrupt;
use crate::judge::Judge;
use crate::list::{Call, Start, Store, Submission};
use crate::mixture::follow;
use crate::model::Model;
use crate::rules::{Difference, Rule};
use crate::services::Opening;
use reference::service::Rules;
use std::collections::HashMap;
use std::time::{Duration, Instant};
use vokhsaot::Choice;

/// Of a list that is much longer the last calls are tried first, so many and then twice as many.
const FEW: usize = 64;

/// A single call, whose job is named by the place of its submit, not by a number: where an earlier submit is dropped the
/// numbers change.
#[derive(Clone)]
struct Single {
    call: Call,
    /// This call's own place in the list.
    place: usize,
    /// Where the job that it collects or withdraws was submitted; none where no job had that number.
    submit: Option<usize>,
}

/// A shorter list.
pub struct Shortened {
    pub start: Start,
    pub calls: Vec<Call>,
    /// Whether no single call of it can be dropped; else the time was up.
    pub is_least: bool,
}

/// A difference that is to stay.
struct Search<'a> {
    opening: Opening<'a>,
    start: Start,
    rule: Rule,
    end: Instant,
}

/// Drops calls while a service still breaks the rule, and the store's pixels and the old rules where it does without them. The
/// list as it is must break it.
pub fn shorten(
    opening: Opening,
    start: Start,
    calls: &[Call],
    rule: Rule,
    patience: Duration,
) -> Shortened {
    let mut search = Search {
        opening,
        start,
        rule,
        end: Instant::now() + patience,
    };
    let mut singles = search.ending(singles(start.rules, calls));
    search.start.store = Store::Zeros;
    if search.run(&singles).is_none() {
        search.start.store = start.store;
    }
    search.drop_old_rules(&mut singles);
    let is_least = search.drop_all(&mut singles);
    let calls = search.run(&singles).map(|(_, calls)| calls);
    Shortened {
        start: search.start,
        calls: joined(calls.unwrap_or_default()),
        is_least,
    }
}

/// The calls one by one, with the submits that their numbers mean.
fn singles(rules: Rules, calls: &[Call]) -> Vec<Single> {
    let mut model = Model::open(rules, Store::Zeros.pixels());
    let mut submits = HashMap::new();
    let mut singles = Vec::new();
    for call in calls {
        for _ in 0..call.times() {
            let place = singles.len();
            let submit = match call {
                Call::Collect { number, .. } | Call::Withdraw(number) => submits.get(number),
                _ => None,
            };
            singles.push(Single {
                call: match call {
                    Call::Tick(_) => Call::Tick(1),
                    call => call.clone(),
                },
                place,
                submit: submit.copied(),
            });
            if let Some(number) = follow(&mut model, call) {
                submits.insert(number, place);
            }
        }
    }
    singles
}

impl Search<'_> {
    /// Runs a list up to its first difference: how many of the singles that took, and the calls with the numbers that
    /// they have now. None where it does not break the rule.
    fn run(&self, singles: &[Single]) -> Option<(usize, Vec<Call>)> {
        let (mut judge, opening) = Judge::new(self.opening, self.start);
        let mut calls = Vec::new();
        let mut numbers = HashMap::new();
        let breaks =
            |found: &[Difference]| found.iter().any(|difference| difference.rule == self.rule);
        if !opening.is_empty() {
            return breaks(&opening).then_some((0, calls));
        }
        for (done, single) in singles.iter().enumerate() {
            let Some(mut call) = single.renumbered(&numbers) else {
                continue;
            };
            // Where the change-over was dropped that stood before it, a submit names no choice.
            if let (Rules::Old, Call::Submit(submission)) = (judge.model().rules(), &mut call) {
                submission.choice = None;
            }
            let last = judge.model().record().last_number;
            let judged = judge.call(&call);
            let number = judge.model().record().last_number;
            if number != last {
                numbers.insert(single.place, number);
            }
            calls.push(call);
            if !judged.differences.is_empty() {
                return breaks(&judged.differences).then_some((done + 1, calls));
            }
        }
        None
    }

    fn is_over(&self) -> bool {
        interrupt::asked() || Instant::now() >= self.end
    }

    /// The fewest last calls that still break the rule, among some lengths, the change-over before them kept.
    fn ending(&self, mut singles: Vec<Single>) -> Vec<Single> {
        let change = singles.iter().position(Single::is_change);
        let change = change.filter(|_| self.start.rules == Rules::Old);
        let mut length = FEW;
        while length < singles.len() && !self.is_over() {
            let start = singles.len() - length;
            let change = change.filter(|place| *place < start);
            let change = change.map(|place| singles[place].clone());
            let fewer: Vec<Single> = change
                .into_iter()
                .chain(singles[start..].to_vec())
                .collect();
            if self.run(&fewer).is_some() {
                singles = fewer;
                break;
            }
            length *= 2;
        }
        if let Some((used, _)) = self.run(&singles) {
            singles.truncate(used);
        }
        singles
    }

    /// Opens by the new rules, where that breaks the rule too: without the change-over, and with the choice named that jobs from
    /// before it had.
    fn drop_old_rules(&mut self, singles: &mut Vec<Single>) {
        let Some(change) = singles.iter().position(Single::is_change) else {
            return;
        };
        if self.start.rules == Rules::New {
            return;
        }
        let mut fewer = singles.clone();
        fewer.remove(change);
        for single in &mut fewer[..change] {
            if let Call::Submit(submission) = &mut single.call {
                submission.choice = Some(Choice::Smallest);
            }
        }
        let start = self.start;
        self.start.rules = Rules::New;
        match self.run(&fewer) {
            Some((used, _)) => {
                fewer.truncate(used);
                *singles = fewer;
            }
            None => self.start = start,
        }
    }

    /// Drops parts of half the list, a quarter and so on down to single calls, until none can be dropped.
    fn drop_all(&self, singles: &mut Vec<Single>) -> bool {
        let mut size = singles.len().div_ceil(2).max(1);
        loop {
            let dropped = self.drop_parts(singles, size);
            if self.is_over() {
                return false;
            }
            if size == 1 && !dropped {
                return true;
            }
            size = size.div_ceil(2).min(singles.len().max(1));
        }
    }

    /// Drops what it can of the parts of a size, from the end on. Whether it dropped any.
    fn drop_parts(&self, singles: &mut Vec<Single>, size: usize) -> bool {
        let mut end = singles.len();
        let mut dropped = false;
        while end > 0 && !self.is_over() {
            let start = end.saturating_sub(size);
            let mut fewer = singles.clone();
            fewer.drain(start..end);
            if let Some((used, _)) = self.run(&fewer) {
                fewer.truncate(used);
                *singles = fewer;
                dropped = true;
            }
            end = start.min(singles.len());
        }
        dropped
    }
}

impl Single {
    fn is_change(&self) -> bool {
        self.call == Call::ChangeOver
    }

    /// The call with the number that its job has now; none where its submit is gone.
    fn renumbered(&self, numbers: &HashMap<usize, u64>) -> Option<Call> {
        let Some(submit) = self.submit else {
            return Some(self.call.clone());
        };
        let now = *numbers.get(&submit)?;
        match self.call.clone() {
            Call::Collect { length, to, .. } => Some(Call::Collect {
                number: now,
                length,
                to,
            }),
            Call::Withdraw(_) => Some(Call::Withdraw(now)),
            call => Some(call),
        }
    }
}

/// The calls that hand over what a list leaves held, so that a sound service is judged good on it; where nothing is held and
/// nothing was handed over, a small job. None are needed where a job was handed over.
pub fn rest(rules: Rules, calls: &[Call]) -> Vec<Call> {
    let mut model = Model::open(rules, Store::Zeros.pixels());
    let mut handed_over = false;
    for call in calls {
        for _ in 0..call.times() {
            let last = model.record().slots;
            follow(&mut model, call);
            handed_over |= matches!(call, Call::Collect { .. }) && model.record().slots != last;
        }
    }
    if handed_over {
        return Vec::new();
    }
    let mut rest = Vec::new();
    if model.record().slots.iter().all(|slot| slot.number == 0) {
        let submit = Call::Submit(Submission::small());
        follow(&mut model, &submit);
        rest.push(submit);
    }
    let held = model.record().slots.iter().filter(|slot| slot.number != 0);
    let ticks = held.clone().map(|slot| slot.steps_left).sum();
    if ticks > 0 {
        rest.push(Call::Tick(ticks));
    }
    let mut numbers: Vec<u64> = held.map(|slot| slot.number).collect();
    numbers.sort();
    rest.extend(numbers.into_iter().map(|number| Call::Collect {
        number,
        length: None,
        to: None,
    }));
    rest
}

/// Ticks that follow each other as one line.
pub fn joined(calls: Vec<Call>) -> Vec<Call> {
    let mut joined: Vec<Call> = Vec::new();
    for call in calls {
        match (joined.last_mut(), &call) {
            (Some(Call::Tick(count)), Call::Tick(more)) => *count += more,
            _ => joined.push(call),
        }
    }
    joined
}

#[cfg(test)]
mod tests {
    use super::*;
    use crate::list;
    use crate::services::{Service, Unit};
    use vokhsaot::Error;

    /// A service whose free count is one too small while the job with this many pixels is held.
    struct Miscounting(Unit, u64);

    impl Service for Miscounting {
        fn within(&self) -> &Unit {
            &self.0
        }

        fn within_mut(&mut self) -> &mut Unit {
            &mut self.0
        }

        fn free(&self) -> Result<u32, Error> {
            let wrong = jobs(&self.0).filter(|job| u64::from(job.width) == self.1);
            let wrong = wrong.count() as u32;
            self.0.free().map(|count| count.saturating_sub(wrong))
        }
    }

    /// The jobs that the library holds; none of the earlier release.
    fn jobs(unit: &Unit) -> impl Iterator<Item = vokhsaot::Job> {
        let jobs = match unit {
            Unit::Earlier(_) => Vec::new(),
            Unit::Library(service) => service.jobs(),
        };
        jobs.into_iter()
    }

    fn calls(text: &str) -> (Rules, Vec<Call>) {
        let list = list::read(text, &|name| Err(name.to_owned())).unwrap();
        let calls = list.lines.into_iter().map(|line| line.call);
        (list.start.rules, calls.collect())
    }

    /// What is left of a list over noise: the lines of a list over zeros, and whether it is the least.
    fn shortened(text: &str, opening: Opening, rule: Rule) -> (Vec<String>, bool) {
        let (rules, calls) = calls(text);
        let store = Store::Seeded(1);
        let start = Start { rules, store };
        let found = shorten(opening, start, &calls, rule, Duration::from_secs(60));
        assert_eq!(found.start.store, Store::Zeros);
        let head = found.start.lines(&found.calls);
        let lines = head.lines().map(str::to_owned);
        let lines = lines.chain(found.calls.iter().map(Call::to_string));
        (lines.collect(), found.is_least)
    }

    #[test]
    fn one_call_is_left() {
        let opening = |rules, store| -> Box<dyn Service> {
            Box::new(Miscounting(Unit::open(rules, store), 3))
        };
        let three = "submit round 0.5 steps 1 size 3 1 seed 1";
        let others = (1..=40).map(|number| {
            let submit = "submit round 0.5 steps 1 size 2 1 seed 1";
            format!("{submit}\ntick 3\ncollect {number}\nfree\n")
        });
        let list = others.collect::<String>() + three + "\ntick\n";
        let (lines, is_least) = shortened(&list, &opening, Rule::FreeBuffers);
        assert_eq!((lines, is_least), (vec![three.to_owned()], true));
        // Where the change-over has no part in it, the list opens by the new rules and names the choice of a job from before.
        let (lines, is_least) = shortened(
            &format!("{three}\ntick\nchange over\n"),
            &opening,
            Rule::FreeAcross,
        );
        assert_eq!(lines, ["rules old", three, "change over"]);
        assert!(is_least);
        let three = "submit round 0.5 steps 1 choice smallest size 3 1 seed 1";
        let list = format!("change over\n{three}\n");
        let (lines, is_least) = shortened(&list, &opening, Rule::FreeBuffers);
        assert_eq!((lines, is_least), (vec![three.to_owned()], true));
    }

    /// A service that refuses to withdraw a job that was served: the job's number changes as others are dropped.
    struct Keeping(Unit);

    impl Service for Keeping {
        fn within(&self) -> &Unit {
            &self.0
        }

        fn within_mut(&mut self) -> &mut Unit {
            &mut self.0
        }

        fn withdraw(&mut self, number: u64) -> Result<u64, Error> {
            match jobs(&self.0).find(|job| job.number == number) {
                Some(job) if job.steps_left < job.steps => Err(Error::NoSuchJob),
                _ => self.0.withdraw(number),
            }
        }
    }

    #[test]
    fn what_is_held_is_handed_over() {
        let submit = |steps| format!("submit round 0.5 steps {steps} size 2 1 seed 1\n");
        let rest = |text: &str| -> Vec<String> {
            let (rules, calls) = calls(text);
            let rest = super::rest(rules, &calls);
            rest.iter().map(Call::to_string).collect()
        };
        let two = submit(3) + &submit(2) + "tick\n";
        assert_eq!(rest(&two), ["tick 4", "collect 1", "collect 2"]);
        assert_eq!(rest(&(submit(1) + "tick\n")), ["collect 1"]);
        let small = "submit round 0.5 steps 1 size 1 1 pixels 7";
        assert_eq!(rest("tick\n"), [small, "tick", "collect 1"]);
        let withdrawn = submit(1) + "withdraw 1\n";
        assert_eq!(rest(&withdrawn), [small, "tick", "collect 2"]);
        // A refused collect hands nothing over.
        let refused = submit(1) + "tick\ncollect 1 length 3\n";
        assert_eq!(rest(&refused), ["collect 1"]);
        assert!(rest(&(submit(1) + "tick\ncollect 1\n")).is_empty());
    }

    #[test]
    fn numbers_follow_their_jobs() {
        let opening =
            |rules, store| -> Box<dyn Service> { Box::new(Keeping(Unit::open(rules, store))) };
        let submit = "submit round 0.5 steps 2 size 2 1 seed 1\n";
        let list = format!(
            "{submit}withdraw 1\n{submit}{submit}withdraw 9\ntick 5\ncollect 2\nwithdraw 3\n"
        );
        let (lines, is_least) = shortened(&list, &opening, Rule::WithdrawAccepted);
        assert_eq!(lines, [submit.trim_end(), "tick", "withdraw 1"]);
        assert!(is_least);
    }
}
