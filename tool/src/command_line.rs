//! The command line: clap takes it apart and writes its help; what is wrong with it is said in one line.

use crate::error::{Failure, Outcome, TROUBLE};
use crate::files;
use crate::{compare, completions, convert, difference, even, horizon, kernel, manual, mixture};
use crate::{noise, practice, replay, show, smooth, soak, stats, steps};
use clap::builder::{Resettable, StyledStr, ValueParser};
use clap::error::{ContextKind, ContextValue, ErrorKind};
use clap::{Arg, CommandFactory, FromArgMatches, Parser, Subcommand, ValueHint};
use std::error::Error as _;
use std::ffi::OsString;

/// The testers' tool of the proved picture smoother.
#[derive(Parser)]
#[command(
    name = "vokhsaot",
    version = concat!(env!("CARGO_PKG_VERSION"), " (commit ", env!("VOKHSAOT_COMMIT"), ")"),
    disable_help_subcommand = true,
    after_help = after_help()
)]
struct CommandLine {
    #[command(subcommand)]
    command: Command,
}

/// The exit statuses with what they mean, for the help and the manual.
pub const EXIT_STATUSES: [(u8, &str); 3] = [
    (0, "done, and nothing is amiss"),
    (
        1,
        "something differs, a promise is broken, there is no kernel, a text was not converted, or nothing was judged",
    ),
    (
        TROUBLE,
        "a wrong command line, a refused number, or a file that is damaged or cannot be read or written",
    ),
];

fn after_help() -> String {
    let statuses = EXIT_STATUSES.map(|(status, meaning)| format!("{status} {meaning}"));
    format!(
        "vokhsaot COMMAND --help tells more.\n\nExit status: {}.\n\nExamples:\n  $ vokhsaot kernel --matrix 2048,0,2048 --steps 1",
        statuses.join("; ")
    )
}

/// What a command line asks for.
#[derive(Subcommand)]
pub enum Command {
    Smooth(smooth::Options),
    Steps(steps::Options),
    Kernel(kernel::Options),
    Difference(difference::Options),
    Show(show::Options),
    Compare(compare::Options),
    Stats(stats::Options),
    Replay(replay::Options),
    Soak(soak::Options),
    Practice(practice::Options),
    Convert(convert::Options),
    Mixture(mixture::Options),
    Horizon(horizon::Options),
    Even(even::Options),
    Noise(noise::Options),
    Completions(completions::Options),
    Manual(manual::Options),
}

impl Command {
    pub fn run(&self) -> Result<Outcome, Failure> {
        match self {
            Command::Smooth(options) => smooth::command(options),
            Command::Steps(options) => steps::command(options),
            Command::Kernel(options) => kernel::command(options),
            Command::Difference(options) => difference::command(options),
            Command::Show(options) => show::command(options),
            Command::Compare(options) => compare::command(options),
            Command::Stats(options) => stats::command(options),
            Command::Replay(options) => replay::command(options),
            Command::Soak(options) => soak::command(options),
            Command::Practice(options) => practice::command(options),
            Command::Convert(options) => convert::command(options),
            Command::Mixture(options) => mixture::command(options),
            Command::Horizon(options) => horizon::command(options),
            Command::Even(options) => even::command(options),
            Command::Noise(options) => noise::command(options),
            Command::Completions(options) => completions::command(options),
            Command::Manual(options) => manual::command(options),
        }
    }
}

/// A help begins with the usage, and no line of it is longer than a terminal of old.
const HELP: &str = "{usage-heading} {usage}\n\n{about}\n\n{before-help}{all-args}{after-help}";
const COLUMNS: usize = 80;

/// The whole command line as clap knows it: for reading, for completions and for the manual.
pub fn definition() -> clap::Command {
    with_help(CommandLine::command())
}

/// A command and its commands with our form of help.
pub fn with_help(command: clap::Command) -> clap::Command {
    let names: Vec<String> = command
        .get_subcommands()
        .map(|command| command.get_name().to_owned())
        .collect();
    let before = Resettable::from(command.get_before_help().map(filled_text));
    let after = Resettable::from(command.get_after_help().map(filled_text));
    let command = command.help_template(HELP).term_width(COLUMNS);
    let command = command.before_help(before).after_help(after);
    let command = with_told_arguments(command.disable_colored_help(true));
    names.into_iter().fold(command, |command, name| {
        command.mut_subcommand(name, with_help)
    })
}

/// All arguments of a command, each with what a shell and a reader want to know of it.
fn with_told_arguments(command: clap::Command) -> clap::Command {
    let arguments = command.get_arguments();
    let names: Vec<String> = arguments.map(|one| one.get_id().to_string()).collect();
    names.into_iter().fold(command, |command, name| {
        command.mut_arg(name, |argument| with_values(with_hint(argument)))
    })
}

/// The names of files are those that need not be UTF-8: shells are told, so that they complete them.
fn with_hint(argument: Arg) -> Arg {
    let file = ValueParser::os_string().type_id();
    if argument.get_value_parser().type_id() == file {
        argument.value_hint(ValueHint::FilePath)
    } else {
        argument
    }
}

/// Defaults and possible values stand in the help text itself: clap does not break a line before them.
fn with_values(argument: Arg) -> Arg {
    if !argument.get_action().takes_values() {
        return argument;
    }
    let mut help = text_of(argument.get_help());
    let possible = argument.get_possible_values();
    if !possible.is_empty() {
        let names: Vec<&str> = possible.iter().map(|value| value.get_name()).collect();
        help += &format!(": {}", names.join(", "));
    }
    for default in argument.get_default_values() {
        help += &format!(" [default: {}]", default.to_string_lossy());
    }
    let argument = argument.help(help).hide_possible_values(true);
    argument.hide_default_value(true)
}

/// A text of a definition, empty where there is none.
pub fn text_of(text: Option<&StyledStr>) -> String {
    text.map(ToString::to_string).unwrap_or_default()
}

fn filled_text(text: &StyledStr) -> StyledStr {
    StyledStr::from(filled(&text.to_string()))
}

/// A help text whose lines are as wide as they can be. Lines that stand further in are lists, tables and examples, and
/// stay. Other lines are joined up to the next empty one, and clap parts them again.
fn filled(text: &str) -> String {
    let mut found = String::new();
    for line in text.lines() {
        let last = found.lines().next_back().unwrap_or_default();
        let is_text = |line: &str| !line.is_empty() && !line.starts_with(' ');
        if is_text(line) && is_text(last) {
            found.pop();
            found.push(' ');
        }
        found += &format!("{line}\n");
    }
    found.trim_end().to_owned()
}

/// Takes a command line apart. Help and version are printed and end the program.
pub fn read(words: impl Iterator<Item = OsString>) -> Result<Command, Failure> {
    let mut definition = definition();
    let words: Vec<OsString> = words.collect();
    let found = definition
        .try_get_matches_from_mut(&words)
        .and_then(|matches| CommandLine::from_arg_matches(&matches));
    match found {
        Ok(line) => Ok(line.command),
        Err(error)
            if matches!(
                error.kind(),
                ErrorKind::DisplayHelp | ErrorKind::DisplayVersion
            ) =>
        {
            files::print(error.to_string().trim_end().as_bytes())?;
            files::print(b"\n")?;
            std::process::exit(0)
        }
        Err(error) => Err(Failure::Usage {
            command: command_named(&definition, &words),
            message: one_line(&message(&error, &words)),
        }),
    }
}

/// A message stays one line whatever was typed.
fn one_line(text: &str) -> String {
    let mut line = String::new();
    for letter in text.chars() {
        if letter.is_control() {
            line.extend(letter.escape_default());
        } else {
            line.push(letter);
        }
    }
    line
}

/// The command of a line, for the hint at its help.
fn command_named(definition: &clap::Command, words: &[OsString]) -> Option<&'static str> {
    let named = |word: &OsString| {
        let mut commands = definition.get_subcommands();
        commands.find(|command| word == command.get_name())
    };
    let found = named(words.get(1)?)?;
    // What a service for practice is run with has a help of its own.
    let inner = words.iter().skip(2).find_map(named);
    let inner = inner.filter(|inner| found.find_subcommand(inner.get_name()).is_some());
    let found = inner.unwrap_or(found);
    // The program ends with this message: nothing is kept back for long.
    Some(Box::leak(found.get_name().to_owned().into_boxed_str()))
}

/// Whether nothing is said of what a service for practice is run with.
fn lacks_run(words: &[OsString]) -> bool {
    let is_run = |word: &OsString| word == "replay" || word == "soak";
    words.get(1).is_some_and(|word| word == "practice") && !words.iter().any(is_run)
}

/// An option as it is typed: `--steps <K>` is `--steps`.
fn bare(argument: &str) -> &str {
    argument.split([' ', '=', '<']).next().unwrap_or(argument)
}

/// Whether a word stands only where no option is looked for: after `--`.
fn ends_options(words: &[OsString], word: &str) -> bool {
    let end = words.iter().position(|other| other == "--");
    let begins = |other: &OsString| other.to_string_lossy().starts_with(word);
    end.is_some_and(|end| !words[..end].iter().any(begins))
}

/// Names in a sentence: `a`, `a and b`, `a, b and c`.
fn listed(names: &[&str]) -> String {
    match names {
        [] => String::new(),
        [only] => (*only).to_owned(),
        [first @ .., last] => format!("{} and {last}", first.join(", ")),
    }
}

/// What is wrong.
fn message(error: &clap::Error, words: &[OsString]) -> String {
    let context = |kind| match error.get(kind) {
        Some(ContextValue::String(text)) => Some(text.clone()),
        Some(ContextValue::Strings(texts)) => Some(texts.join(", ")),
        _ => None,
    };
    let argument = context(ContextKind::InvalidArg).unwrap_or_default();
    let hint = |kind| match context(kind) {
        Some(other) => format!("; did you mean {other}?"),
        None => String::new(),
    };
    match error.kind() {
        ErrorKind::UnknownArgument
            if argument.starts_with('-') && !ends_options(words, &argument) =>
        {
            let hint = hint(ContextKind::SuggestedArg);
            format!("there is no option {argument}{hint}")
        }
        ErrorKind::UnknownArgument if lacks_run(words) => {
            format!("\"{argument}\" is neither replay nor soak")
        }
        ErrorKind::UnknownArgument => format!("\"{argument}\" is one word too many"),
        ErrorKind::InvalidSubcommand => {
            let word = context(ContextKind::InvalidSubcommand).unwrap_or_default();
            let hint = hint(ContextKind::SuggestedSubcommand);
            format!("there is no command \"{word}\"{hint}")
        }
        ErrorKind::MissingSubcommand | ErrorKind::DisplayHelpOnMissingArgumentOrSubcommand => {
            "a command is missing".to_owned()
        }
        ErrorKind::MissingRequiredArgument => {
            let missing: Vec<&str> = argument.split(", ").map(typed).collect();
            let verb = if missing.len() == 1 { "is" } else { "are" };
            format!("{} {verb} missing", listed(&missing))
        }
        ErrorKind::ValueValidation => {
            let why = error.source().map(ToString::to_string);
            format!("{}: {}", typed(&argument), why.unwrap_or_default())
        }
        ErrorKind::InvalidValue => match context(ContextKind::InvalidValue) {
            Some(value) if !value.is_empty() => {
                let known = context(ContextKind::ValidValue).unwrap_or_default();
                let name = typed(&argument);
                format!("{name}: \"{value}\" is none of {known}")
            }
            _ => format!("{} wants a value", typed(&argument)),
        },
        ErrorKind::TooManyValues => format!("{} takes no value", bare(&argument)),
        // Clap does not say which word it is; a file's name may be any.
        ErrorKind::InvalidUtf8 => {
            let words = words.iter().filter(|word| word.to_str().is_none());
            let words: Vec<String> = words.map(|word| format!("{word:?}")).collect();
            format!("{} is no UTF-8 text", words.join(" or "))
        }
        ErrorKind::ArgumentConflict => match context(ContextKind::PriorArg) {
            Some(prior) if prior != argument => {
                format!("{} cannot stand with {}", typed(&argument), typed(&prior))
            }
            _ => format!("{} is given twice", bare(&argument)),
        },
        _ => first_line(error),
    }
}

/// An option or an operand as the help names it: `<INPUT>` and `[INPUT]` are `INPUT`.
fn typed(argument: &str) -> &str {
    match argument.strip_prefix(['<', '[']) {
        Some(operand) => operand.trim_end_matches(['>', ']', '.']),
        None => bare(argument),
    }
}

/// Of clap's own message the first line, for what has no words of ours.
fn first_line(error: &clap::Error) -> String {
    let text = error.to_string();
    let line = text.lines().next().unwrap_or_default();
    line.strip_prefix("error: ").unwrap_or(line).to_owned()
}

#[cfg(test)]
mod tests {
    use super::*;

    /// Clap's own check of names, places and defaults.
    #[test]
    fn definition_is_sound() {
        definition().debug_assert();
    }

    #[test]
    fn text_is_filled_and_lists_are_kept() {
        let text = "One\ntwo:\n  a  1\n  b  2\nthree\nfour\n\nExamples:\n  $ five\n";
        let found = "One two:\n  a  1\n  b  2\nthree four\n\nExamples:\n  $ five";
        assert_eq!(filled(text), found);
        assert_eq!(filled(found), found);
        assert_eq!(filled(""), "");
    }

    /// A command and its commands.
    fn all(command: &clap::Command) -> Vec<clap::Command> {
        let inner = command.get_subcommands().flat_map(all);
        std::iter::once(command.clone()).chain(inner).collect()
    }

    /// Clap would break them: they are no text that it may fill.
    #[test]
    fn lists_and_examples_fit() {
        for command in all(&definition()) {
            let texts = [command.get_before_help(), command.get_after_help()].map(text_of);
            for line in texts.iter().flat_map(|text| text.lines()) {
                let fits = line.chars().count() <= COLUMNS;
                assert!(fits || !line.starts_with(' '), "{line}");
            }
        }
    }
}
