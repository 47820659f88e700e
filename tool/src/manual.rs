//! `manual`: the manual page, from the same definition as the help texts: neither can tell what the other does not.

use crate::command_line::{self, text_of, EXIT_STATUSES};
use crate::error::{Failure, Outcome};
use crate::files;
use clap::{Arg, Command};
use std::collections::BTreeSet;

/// Print the manual page
#[derive(clap::Args)]
#[command(
    before_help = "\
Prints the manual page as roff: vokhsaot manual | man -l - shows it, and in a
folder man1 of man's search path it is found by its name.",
    after_help = "\
Examples:
  $ vokhsaot manual > vokhsaot.1"
)]
pub struct Options {}

pub fn command(_options: &Options) -> Result<Outcome, Failure> {
    let mut definition = command_line::definition();
    // Names and usages of commands, and -h and -V, are there only when it is built.
    definition.build();
    files::print(Page::of(&definition).text.as_bytes())?;
    Ok(Outcome::Good)
}

/// What parts the examples from what is said before them, in a text after the options.
const EXAMPLES: &str = "Examples:\n";

/// The longest line of filled text, in bytes.
const LINE: usize = 78;

/// A page as far as it is written.
struct Page {
    text: String,
}

impl Page {
    fn of(program: &Command) -> Page {
        let name = program.get_name();
        let version = env!("CARGO_PKG_VERSION");
        let date = env!("VOKHSAOT_DATE");
        let mut page = Page {
            text: format!(
                ".TH {} 1 \"{date}\" \"{name} {version}\" \"User Commands\"\n",
                name.to_uppercase()
            ),
        };
        // Names of files and options stay in one piece, without blanks to fill their lines.
        page.request(".nh");
        page.request(".ad l");
        page.request(".SH NAME");
        page.line(&format!(
            "{} \\- {}",
            escaped(name),
            escaped(&about(program))
        ));
        page.request(".SH SYNOPSIS");
        page.line(&format!(
            "{} {} [{}] [{}]",
            bold(name),
            italic("COMMAND"),
            italic("OPTIONS"),
            italic("OPERANDS")
        ));
        page.request(".SH DESCRIPTION");
        page.filled(&format!("{}.", about(program)));
        page.help_text(&text_of(program.get_before_help()));
        for command in program.get_subcommands() {
            page.entry(&bold(command.get_name()), &about(command));
        }
        page.request(".SH OPTIONS");
        page.options(program, true);
        page.request(".SH COMMANDS");
        page.commands(program);
        page.request(".SH EXIT STATUS");
        for (status, meaning) in EXIT_STATUSES {
            page.entry(&bold(&status.to_string()), meaning);
        }
        page.request(".SH EXAMPLES");
        page.kept(&examples(program));
        page
    }

    /// A line that roff takes as a request.
    fn request(&mut self, line: &str) {
        self.text += &format!("{line}\n");
    }

    /// A line of text with its escapes, which is no request whatever it begins with.
    fn line(&mut self, line: &str) {
        if line.starts_with(['.', '\'']) {
            self.text += "\\&";
        }
        self.text += &format!("{line}\n");
    }

    /// Text that roff fills, in lines that are easy to read in the source too.
    fn filled(&mut self, text: &str) {
        let mut line = String::new();
        for word in escaped(text).split_whitespace() {
            if !line.is_empty() && line.len() + word.len() >= LINE {
                self.line(&std::mem::take(&mut line));
            }
            line += if line.is_empty() { "" } else { " " };
            line += word;
        }
        // An empty line would be a request for one.
        if !line.is_empty() {
            self.line(&line);
        }
    }

    /// The beginning of a paragraph; after a heading there is one already.
    fn paragraph(&mut self) {
        let last = self.text.lines().next_back().unwrap_or_default();
        if !last.starts_with(".SH") && !last.starts_with(".SS") {
            self.request(".PP");
        }
    }

    /// A word or two with what they mean, further in.
    fn entry(&mut self, tag: &str, meaning: &str) {
        self.request(".TP");
        self.line(tag);
        self.filled(meaning);
    }

    /// A section for each command, and for each command of a command.
    fn commands(&mut self, parent: &Command) {
        for command in parent.get_subcommands() {
            let name = command.get_bin_name().unwrap_or(command.get_name());
            self.request(&format!(".SS {}", escaped(name)));
            self.usages(command);
            self.paragraph();
            self.filled(&format!("{}.", about(command)));
            self.help_text(&text_of(command.get_before_help()));
            self.options(command, false);
            self.help_text(&notes(command));
            self.commands(command);
        }
    }

    /// How a command is called, as its help says it: a line for each way.
    fn usages(&mut self, command: &Command) {
        let usage = command.clone().render_usage().to_string();
        let usage = usage.strip_prefix("Usage: ").unwrap_or(&usage);
        for (number, way) in usage.trim_end().lines().enumerate() {
            if number > 0 {
                self.request(".br");
            }
            self.line(&bold(way.trim()));
        }
    }

    /// Operands, then options; -h and -V are told once.
    fn options(&mut self, command: &Command, all: bool) {
        let told =
            |argument: &&Arg| all || !["help", "version"].contains(&argument.get_id().as_str());
        let operands = command.get_positionals();
        let options = command
            .get_arguments()
            .filter(|argument| !argument.is_positional());
        for argument in operands
            .chain(options)
            .filter(told)
            .filter(|one| !one.is_hide_set())
        {
            self.entry(&tag(argument), &text_of(argument.get_help()));
        }
    }

    /// A help text: what stands further in is a list or a table, and keeps its lines; other lines are filled.
    fn help_text(&mut self, text: &str) {
        for paragraph in text.split("\n\n").filter(|paragraph| !paragraph.is_empty()) {
            let lines: Vec<&str> = paragraph.lines().collect();
            for part in lines.chunk_by(|one, next| one.starts_with(' ') == next.starts_with(' ')) {
                if part[0].starts_with(' ') {
                    self.kept(part);
                } else {
                    self.paragraph();
                    self.filled(&part.join(" "));
                }
            }
        }
    }

    /// Lines that stay lines, without the blanks that all of them begin with.
    fn kept<T: AsRef<str>>(&mut self, lines: &[T]) {
        let lines: Vec<&str> = lines.iter().map(AsRef::as_ref).collect();
        let blanks = |line: &&str| line.len() - line.trim_start().len();
        let common = lines.iter().map(blanks).min().unwrap_or(0);
        self.paragraph();
        self.request(".nf");
        lines
            .iter()
            .for_each(|line| self.line(&escaped(&line[common..])));
        self.request(".fi");
    }
}

fn about(command: &Command) -> String {
    let about = text_of(command.get_about());
    about.trim_end_matches('.').to_owned()
}

/// What a command's help says after the options and before the examples.
fn notes(command: &Command) -> String {
    let text = text_of(command.get_after_help());
    let notes = text.split(EXAMPLES).next().unwrap_or_default();
    notes.trim_end().to_owned()
}

/// The examples of a command, then those of its commands.
fn examples(command: &Command) -> Vec<String> {
    let text = text_of(command.get_after_help());
    let own = text.split_once(EXAMPLES).map(|(_, examples)| examples);
    let mut found: Vec<String> = own.unwrap_or_default().lines().map(str::to_owned).collect();
    for command in command.get_subcommands() {
        found.extend(examples(command));
    }
    // Some stand in the help of two commands.
    let mut seen = BTreeSet::new();
    found.retain(|example| seen.insert(example.clone()));
    found
}

/// An option or an operand as it is typed.
fn tag(argument: &Arg) -> String {
    let short = argument
        .get_short()
        .map(|letter| bold(&format!("-{letter}")));
    let long = argument.get_long().map(|name| bold(&format!("--{name}")));
    let names: Vec<String> = short.into_iter().chain(long).collect();
    let mut words = vec![names.join(", ")];
    if argument.is_positional() || argument.get_action().takes_values() {
        let values = argument.get_value_names().unwrap_or_default();
        words.extend(values.iter().map(|name| italic(name)));
    }
    words.retain(|word| !word.is_empty());
    words.join(" ")
}

fn bold(text: &str) -> String {
    format!("\\fB{}\\fR", escaped(text))
}

fn italic(text: &str) -> String {
    format!("\\fI{}\\fR", escaped(text))
}

/// A text as roff prints it: nothing in it is a request or an escape, and a minus can be copied as one.
fn escaped(text: &str) -> String {
    let mut found = String::new();
    for letter in text.chars() {
        match letter {
            '\\' => found += "\\e",
            '-' => found += "\\-",
            '\'' => found += "\\(aq",
            '`' => found += "\\(ga",
            '^' => found += "\\(ha",
            '~' => found += "\\(ti",
            '\n' => found.push(' '),
            _ if letter.is_ascii() => found.push(letter),
            _ => found += &format!("\\[u{:04X}]", u32::from(letter)),
        }
    }
    found
}

#[cfg(test)]
mod tests {
    use super::*;

    fn built(command: Command) -> String {
        let mut command = command_line::with_help(command);
        command.build();
        Page::of(&command).text
    }

    #[test]
    fn texts_are_escaped() {
        assert_eq!(
            escaped(r"a-b \n 'c' w × h"),
            r"a\-b \en \(aqc\(aq w \[u00D7] h"
        );
        let mut page = Page {
            text: String::new(),
        };
        page.line(".no request");
        page.line("in. line");
        assert_eq!(page.text, "\\&.no request\nin. line\n");
    }

    /// A made-up command line with everything that a page shows.
    #[test]
    fn every_part_of_a_definition_is_on_the_page() {
        let inner = Command::new("inner")
            .about("Inside")
            .override_usage("x outer N inner\n       x outer inner")
            .after_help("Examples:\n  $ x outer inner");
        let outer = Command::new("outer")
            .about("Do it")
            .before_help("Filled\ntext:\n  .kept  1\n    kept  2\nFilled again.\n\nMore.")
            .after_help("A note.\n\nExamples:\n  $ x outer -q <<'END'")
            .arg(
                clap::Arg::new("file")
                    .value_name("FILE")
                    .default_value("-")
                    .help("A file"),
            )
            .arg(
                clap::Arg::new("kind")
                    .long("kind")
                    .short('k')
                    .value_name("KIND")
                    .value_parser(["one", "two"])
                    .help("Which"),
            )
            .subcommand(inner);
        let page = built(
            Command::new("x")
                .version("9")
                .about("All of it.")
                .subcommand(outer),
        );
        for part in [
            ".SH NAME\nx \\- All of it\n.SH SYNOPSIS\n",
            ".SH DESCRIPTION\nAll of it.\n.TP\n\\fBouter\\fR\nDo it\n",
            ".SH OPTIONS\n.TP\n\\fB\\-h\\fR, \\fB\\-\\-help\\fR\n",
            ".SS x outer\n\\fBx outer [OPTIONS] [FILE] [COMMAND]\\fR\n.PP\nDo it.\n",
            ".PP\nFilled text:\n.PP\n.nf\n\\&.kept  1\n  kept  2\n.fi\n.PP\nFilled again.\n.PP\nMore.\n",
            ".TP\n\\fIFILE\\fR\nA file [default: \\-]\n",
            ".TP\n\\fB\\-k\\fR, \\fB\\-\\-kind\\fR \\fIKIND\\fR\nWhich: one, two\n",
            ".PP\nA note.\n.SS x outer inner\n\\fBx outer N inner\\fR\n.br\n\\fBx outer inner\\fR\n.PP\n",
            ".SH EXIT STATUS\n.TP\n\\fB0\\fR\n",
            ".SH EXAMPLES\n.nf\n$ x outer \\-q <<\\(aqEND\\(aq\n$ x outer inner\n.fi\n",
        ] {
            assert!(page.contains(part), "{part}\nin\n{page}");
        }
        assert_eq!(page.matches("\\-\\-help").count(), 1);
    }
}
