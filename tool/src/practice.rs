//! `practice`: services with one fault each, behind numbers, for testers to find.

mod exercises;
mod faults;
mod faulty;
mod seat;
#[cfg(test)]
mod tests;
mod wrong_steps;

use crate::error::{Failure, Outcome};
use crate::files;
use crate::judge::Judge;
use crate::list;
use crate::numbers::whole;
use crate::rules::Rule;
use crate::services::Service;
use crate::{replay, soak};
use clap::Subcommand;
use exercises::{Exercise, EXERCISES};
use faulty::Faulty;
use reference::service::Rules;
use std::collections::BTreeSet;

/// Find the fault of a service made for practice
#[derive(clap::Args)]
#[command(
    override_usage = "\
vokhsaot practice NUMBER replay [OPTIONS] [LIST]
       vokhsaot practice NUMBER soak [OPTIONS] --seed <S>
       vokhsaot practice --answer NUMBER
       vokhsaot practice",
    before_help = "\
Runs a service with one fault, the one that its number stands for: with replay
a list of calls, with soak random ones. The answer of a number tells what is
wrong, the sentences that are broken, whether a panel or a lone job would have
shown it, and calls that show it; it can be replayed as it is. Without a number
it says how many there are.",
    after_help = "\
Examples:
  $ vokhsaot practice
  $ vokhsaot practice 5 replay --quiet two-jobs.list
  $ vokhsaot practice 7 soak --seed 1 --calls 20000 --out found > found.txt
  $ vokhsaot practice --answer 5"
)]
pub struct Options {
    /// The number of the service
    #[arg(allow_negative_numbers = true)]
    number: Option<String>,
    /// Tell what is wrong with the service of this number
    #[arg(long, value_name = "NUMBER", allow_hyphen_values = true)]
    answer: Option<String>,
    #[command(subcommand)]
    run: Option<Run>,
}

/// What is run on a service for practice.
#[derive(Subcommand)]
pub enum Run {
    #[command(override_usage = "vokhsaot practice NUMBER replay [OPTIONS] [LIST]")]
    Replay(replay::Options),
    #[command(override_usage = "vokhsaot practice NUMBER soak [OPTIONS] --seed <S>")]
    Soak(soak::Options),
}

pub fn command(options: &Options) -> Result<Outcome, Failure> {
    let Options {
        number,
        answer,
        run,
    } = options;
    match (number, answer, run) {
        (None, None, None) => print(&overview()),
        (None, Some(number), None) => print(&answer_text(place_of(number)?)),
        (Some(number), None, Some(run)) => run_on(place_of(number)?, run),
        (Some(number), None, None) => {
            place_of(number)?;
            Err(usage(format!("replay or soak is missing after {number}")))
        }
        (None, None, Some(_)) => Err(usage("the number of a service is missing".to_owned())),
        (_, Some(_), _) => Err(usage("--answer stands alone".to_owned())),
    }
}

fn usage(message: String) -> Failure {
    Failure::Usage {
        command: Some("practice"),
        message,
    }
}

fn print(text: &str) -> Result<Outcome, Failure> {
    files::print(text.as_bytes())?;
    Ok(Outcome::Good)
}

/// The place of the service that has this number: they count from 1.
fn place_of(number: &str) -> Result<usize, Failure> {
    let number: usize = whole(number, 1..=EXERCISES.len() as i128).map_err(usage)?;
    Ok(number - 1)
}

fn run_on(place: usize, run: &Run) -> Result<Outcome, Failure> {
    let opening = |rules, store| EXERCISES[place].open(rules, store);
    match run {
        Run::Replay(options) => replay::on(options, &opening),
        Run::Soak(options) => {
            let command = format!("practice {} soak", place + 1);
            soak::on(options, &opening, &command)
        }
    }
}

impl Exercise {
    /// A newly opened service with the fault.
    fn open(&self, rules: Rules, store: Vec<u16>) -> Box<dyn Service> {
        Box::new(Faulty::new(self.fault, rules, store))
    }

    /// The rules that its calls show to be broken, each once, in their order.
    fn broken(&self) -> Vec<Rule> {
        let opening = |rules, store| self.open(rules, store);
        let list = list::read(&self.list(), &|name| Err(name.to_owned()));
        let list = list.expect("an answer is a list");
        let (mut judge, _) = Judge::new(&opening, list.start);
        let mut broken = Vec::new();
        for line in list.lines {
            for _ in 0..line.call.times() {
                let found = judge.call(&line.call).differences.into_iter();
                broken.extend(found.map(|difference| difference.rule));
            }
        }
        let mut seen = BTreeSet::new();
        broken.retain(|rule| seen.insert(*rule));
        broken
    }

    /// The list that shows the fault.
    fn list(&self) -> String {
        let lines = self.calls.iter();
        lines
            .map(|(times, line)| format!("{line}\n").repeat(*times))
            .collect()
    }
}

fn overview() -> String {
    format!(
        "\
There are {} services to practise on, by numbers from 1. Each has one fault.
  vokhsaot practice NUMBER replay LIST     runs a list of calls on it
  vokhsaot practice NUMBER soak --seed S   runs random calls until one differs
  vokhsaot practice --answer NUMBER        tells its fault, and how it shows
",
        EXERCISES.len()
    )
}

/// All that there is to say about a service, as a list of calls: what is no call is a comment.
fn answer_text(place: usize) -> String {
    let exercise = &EXERCISES[place];
    let shows = |shows: bool| if shows { "shows" } else { "does not show" };
    let mut text = format!("# Service {}: {}\n", place + 1, exercise.fault_text);
    for rule in exercise.broken() {
        text += &format!("# Broken: {}: {}\n", rule.name(), rule.cited());
    }
    text += &format!(
        "# The panel {} it (three jobs, ticks until idle, all collected, 16 free).\n\
         # A lone job {} it (its picture compared with the library's run).\n\
         # These calls show it:\n",
        shows(exercise.shown_by_panel),
        shows(exercise.shown_by_lone_job)
    );
    text + &exercise.list()
}
