//! `replay`: a list of calls on a new service, every answer judged beside the independent service.

use crate::error::{one_line, say, Failure, Outcome};
use crate::files;
use crate::judge::{answer_text, HandedOver, Judge, Judged, Verdict};
use crate::lines::{self, Lines};
use crate::list::{self, list_help, Call, Line, Reader, Start};
use crate::pictures::Picture;
use crate::rules::Difference;
use crate::services::{proved, Opening};
use reference::service::Rules;
use std::ffi::OsString;
use std::io::{self, IsTerminal};

/// Run a list of service calls and judge every answer
#[derive(clap::Args)]
#[command(
    before_help = concat!("\
Runs a list of calls on a newly opened service and prints each answer with the
number of free buffers after it. Beside it runs an independent service: answers,
free counts, the record, the store and the pictures handed over are compared, and
the promises are checked on the list itself. A difference is written in capitals
with the sentence that is broken. The last line is the verdict; the exit status is
0 only where it is good. Refused calls are no differences where they are due. A
list with a change-over opens by the old rules: until then the independent program
answers, since the earlier release is not linked; from the change-over on it is the
library. A list from standard input is answered line by line.

", list_help!()),
    after_help = "\
Examples:
  $ vokhsaot replay two-jobs.list
  $ vokhsaot replay change.list
  $ vokhsaot mixture --seed 2 --calls 200 | vokhsaot replay --quiet"
)]
pub struct Options {
    /// The list; - is standard input
    #[arg(default_value = "-")]
    list: OsString,
    /// Print the verdict alone
    #[arg(short, long)]
    quiet: bool,
}

pub fn command(options: &Options) -> Result<Outcome, Failure> {
    on(options, &proved)
}

/// The same for any service.
pub fn on(options: &Options, opening: Opening) -> Result<Outcome, Failure> {
    let mut replay = Replay {
        opening,
        judge: None,
        first: None,
        quiet: options.quiet,
    };
    let pictures =
        |name: &str| files::read_picture(name.as_ref()).map_err(|error| error.to_string());
    let fault = |message: String| lines::fault(&options.list, message);
    match lines::of(&options.list)? {
        // A file is understood as a whole before the first call.
        Lines::All(text) => {
            let list = list::read(&text, &pictures).map_err(fault)?;
            replay.open(list.start)?;
            list.lines.iter().try_for_each(|line| replay.line(line))?;
        }
        Lines::Each(lines) => {
            let is_typed = files::is_standard(&options.list) && io::stdin().is_terminal();
            let mut reader = Reader::new(&pictures);
            for text in lines {
                let entry = match text {
                    Ok(text) => reader.line(&text),
                    Err(message) => Err(reader.unreadable(&message)),
                };
                match entry.map_err(fault) {
                    // Who types calls may make a slip.
                    Err(failure) if is_typed => say(&failure.to_string()),
                    Err(failure) => return Err(failure),
                    Ok(None) => {}
                    Ok(Some(line)) => {
                        replay.open(reader.start())?;
                        replay.line(&line)?;
                    }
                }
            }
            replay.open(reader.start())?;
        }
    }
    replay.finish()
}

/// What is said where a list opens by the old rules.
const OPENED_OLD: &str = "\
opened by the old rules: up to the change-over the independent program answers, since the earlier release is not linked
";

/// A list in progress.
struct Replay<'a> {
    opening: Opening<'a>,
    /// None until it is known how the list opens its service: at the first call.
    judge: Option<Judge<'a>>,
    first: Option<String>,
    quiet: bool,
}

impl<'a> Replay<'a> {
    /// Opens the service, where it is not open yet.
    fn open(&mut self, start: Start) -> Result<(), Failure> {
        if self.judge.is_some() {
            return Ok(());
        }
        if start.rules == Rules::Old {
            self.print(OPENED_OLD)?;
        }
        let (judge, differences) = Judge::new(self.opening, start);
        self.judge = Some(judge);
        self.tell("the opening", &differences)
    }

    fn judge(&mut self) -> &mut Judge<'a> {
        self.judge.as_mut().expect("the list is open")
    }

    /// Does the calls of a line, each with its answer.
    fn line(&mut self, line: &Line) -> Result<(), Failure> {
        for _ in 0..line.call.times() {
            let judge = self.judge();
            let judged = judge.call(&line.call);
            let place = format!("call {}, line {}", judge.counts().calls, line.number);
            self.print(&answer_line(&place, &line.call, &judged))?;
            if let Some(HandedOver {
                number,
                handed: Some(handed),
                ..
            }) = &judged.handed_over
            {
                self.print(&format!("job {number}: {}\n", handed.text()))?;
            }
            // What differs is told before a file is written, which may fail.
            self.tell(&place, &judged.differences)?;
            let written = write_picture(&line.call, judged.handed_over.as_ref());
            written.map_err(|failure| failure.in_line(line.number))?;
        }
        Ok(())
    }

    fn tell(&mut self, place: &str, differences: &[Difference]) -> Result<(), Failure> {
        for difference in differences {
            self.first.get_or_insert_with(|| place.to_owned());
            self.print(&format!("{place}: {difference}\n"))?;
        }
        Ok(())
    }

    fn print(&self, text: &str) -> Result<(), Failure> {
        match self.quiet {
            true => Ok(()),
            false => files::print(text.as_bytes()),
        }
    }

    fn finish(mut self) -> Result<Outcome, Failure> {
        let judge = self.judge();
        let (counts, longest) = (judge.counts(), judge.longest_wait());
        let verdict = Verdict {
            counts,
            longest,
            first: self.first,
        };
        files::print(format!("{}\n", verdict.text()).as_bytes())?;
        Ok(Outcome::good_if(verdict.is_good()))
    }
}

/// Writes the picture of a job that was handed over, where the call names a file for it.
fn write_picture(call: &Call, job: Option<&HandedOver>) -> Result<(), Failure> {
    match (call, job) {
        (Call::Collect { to: Some(name), .. }, Some(job)) => {
            files::write_picture(name.as_ref(), &picture_of(job))
        }
        _ => Ok(()),
    }
}

/// A call's answer, with the free count that holds after it.
fn answer_line(place: &str, call: &Call, judged: &Judged) -> String {
    let name = match call {
        Call::Submit(_) => "submit".to_owned(),
        Call::Tick(_) => "tick".to_owned(),
        call => one_line(&call.to_string()),
    };
    let answer = match judged.answer {
        Some(answer) => answer_text(answer),
        None => "NO ANSWER".to_owned(),
    };
    let free = match judged.free {
        Some(Ok(count)) => format!("{count} free"),
        Some(Err(refusal)) => answer_text(Err(refusal)),
        None => "NO ANSWER".to_owned(),
    };
    format!("{place}: {name}: {answer} [{free}]\n")
}

/// A job's picture as it was handed over. A wrong pixel may be above what the submitted picture allowed.
fn picture_of(job: &HandedOver) -> Picture {
    let submission = &job.job.submission;
    let largest = job.picture.iter().copied().max().unwrap_or(0);
    Picture {
        width: submission.width,
        height: submission.height,
        maxval: submission.maxval().max(largest),
        pixels: job.picture.clone(),
    }
}
