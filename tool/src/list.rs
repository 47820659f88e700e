//! Lists of service calls as text: one call a line, and written by `mixture` and `soak`.

use crate::numbers::{long_unsigned, unsigned, whole, MOST_SIDE};
use crate::pictures::Picture;
use crate::services::Submitted;
use crate::shape;
use reference::random::Random;
use reference::service::Rules;
use std::fmt;
use std::sync::Arc;
use vokhsaot::{Choice, Shape, STORE_PIXELS};

/// What a list is, for the help of the commands that take one.
macro_rules! list_help {
    () => {
        "\
A list has one call a line; # begins a comment, empty lines are passed over:
  submit SHAPE steps K [choice CHOICE] size W H pixels P P P ...
  submit SHAPE steps K [choice CHOICE] size W H seed S
  submit SHAPE steps K [choice CHOICE] file PICTURE
      SHAPE: matrix XX XY YY, or round VARIANCE, or oval LONG SHORT DEGREES,
      or oval LONG SHORT COSINE SINE
      CHOICE: binomial, which need not be named, or smallest
  tick [N]                     once, or N times (1 to 1000000)
  collect NUMBER [length N] [to PICTURE]
                               into w × h pixels, or into N (at most 1048576)
  withdraw NUMBER
  free
  change over                  from the old rules to the new ones
Before the first call may stand, for a store that is not all zeros:
  store seed S
and by which rules the service opens, where a change-over follows:
  rules old                    or new, where the change-over is to be refused
In a file a change-over says by itself that the service opens by the old rules.
Before it no submit names a choice: its job has the smallest f.
A name with blanks or # stands in double quotes."
    };
}
pub(crate) use list_help;

/// What the store holds when the service is opened.
#[derive(Clone, Copy, Debug, PartialEq, Eq)]
pub enum Store {
    Zeros,
    /// Pixels made from a seed, as a picture's.
    Seeded(u64),
}

impl Store {
    pub fn pixels(self) -> Vec<u16> {
        match self {
            Store::Zeros => vec![0; STORE_PIXELS],
            Store::Seeded(seed) => noise(seed, STORE_PIXELS),
        }
    }

    /// The line of a list; none where nothing has to be said.
    pub fn line(self) -> String {
        match self {
            Store::Zeros => String::new(),
            Store::Seeded(seed) => format!("store seed {seed}\n"),
        }
    }
}

/// How a list opens its service.
#[derive(Clone, Copy, Debug, PartialEq, Eq)]
pub struct Start {
    pub rules: Rules,
    pub store: Store,
}

impl Start {
    /// By the new rules, over zeros.
    pub const USUAL: Start = Start {
        rules: Rules::New,
        store: Store::Zeros,
    };

    /// The lines before these calls; none where nothing has to be said. A list may come line by line, so it says by which rules
    /// it opens wherever it changes over.
    pub fn lines(self, calls: &[Call]) -> String {
        let rules = match self.rules {
            Rules::Old => "rules old\n",
            Rules::New if calls.contains(&Call::ChangeOver) => "rules new\n",
            Rules::New => "",
        };
        format!("{rules}{}", self.store.line())
    }
}

/// Pixels of a seed: the upper 16 bits of each number of splitmix64.
fn noise(seed: u64, count: usize) -> Vec<u16> {
    let mut random = Random::new(seed);
    (0..count).map(|_| (random.bits() >> 48) as u16).collect()
}

/// The most ticks of one line, so that a slip of the hand does not print for hours.
const MOST_TICKS: i128 = 1_000_000;
/// The longest picture that a collect is lent.
const MOST_LENT: i128 = (MOST_SIDE as i128) * (MOST_SIDE as i128);

/// A call of the service.
#[derive(Clone, Debug, PartialEq)]
pub enum Call {
    Submit(Submission),
    Tick(u32),
    /// Into a picture of this length, or of the job's own; an accepted one goes to a file.
    Collect {
        number: u64,
        length: Option<usize>,
        to: Option<String>,
    },
    Withdraw(u64),
    Free,
    ChangeOver,
}

#[derive(Clone, Debug, PartialEq)]
pub struct Submission {
    /// None where the line names none.
    pub choice: Option<Choice>,
    pub shape: Shape,
    pub steps: u32,
    pub width: u32,
    pub height: u32,
    pub pixels: Pixels,
}

#[derive(Clone, Debug, PartialEq)]
pub enum Pixels {
    /// These, whatever the sides ask for.
    Listed(Vec<u16>),
    /// Width × height pixels: the upper 16 bits of each number of splitmix64 from this seed on.
    Seeded(u64),
    /// A picture's own, whose sides are the submission's, with the name of its file.
    File(String, Arc<Picture>),
}

impl Submission {
    /// The lent pixels. Where a side is not 1 to 1024 a seed gives none: such a submit is refused for its sides, and a
    /// picture of 2^64 pixels is not to be made for that.
    pub fn picture(&self) -> Vec<u16> {
        match &self.pixels {
            Pixels::Listed(pixels) => pixels.clone(),
            Pixels::File(_, picture) => picture.pixels.clone(),
            Pixels::Seeded(seed) => {
                let sides = [self.width, self.height];
                let fits = sides.iter().all(|side| *side <= MOST_SIDE);
                let area = if fits { self.width * self.height } else { 0 };
                noise(*seed, area as usize)
            }
        }
    }

    /// The submit itself, with the pixels that it lends.
    pub fn lending<'a>(&self, picture: &'a [u16]) -> Submitted<'a> {
        Submitted {
            choice: self.choice,
            shape: self.shape,
            steps: self.steps,
            width: self.width,
            height: self.height,
            picture,
        }
    }

    /// One pixel, one step.
    pub fn small() -> Submission {
        Submission {
            choice: None,
            shape: Shape::Round(0.5),
            steps: 1,
            width: 1,
            height: 1,
            pixels: Pixels::Listed(vec![7]),
        }
    }

    /// The largest pixel that the submitted picture may have, for the file that its job goes to.
    pub fn maxval(&self) -> u16 {
        match &self.pixels {
            Pixels::File(_, picture) => picture.maxval,
            _ => u16::MAX,
        }
    }
}

/// Reads the picture of a name.
pub type Pictures<'a> = &'a dyn Fn(&str) -> Result<Picture, String>;

/// A call and the number of its line, from 1.
#[derive(Clone, Debug, PartialEq)]
pub struct Line {
    pub number: usize,
    pub call: Call,
}

/// A list that is understood.
#[derive(Debug, PartialEq)]
pub struct List {
    pub start: Start,
    pub lines: Vec<Line>,
}

/// A list, or what the first line that is none of it lacks.
pub fn read(text: &str, pictures: Pictures) -> Result<List, String> {
    let mut reader = Reader::of_whole(text, pictures);
    let mut list = List {
        start: Start::USUAL,
        lines: Vec::new(),
    };
    for line in text.lines() {
        if let Some(line) = reader.line(line)? {
            list.check_order(&line)?;
            list.lines.push(line);
        }
    }
    list.start = reader.start();
    Ok(list)
}

impl List {
    /// All pictures of a list are read before its first call, so none may be one that it writes.
    fn check_order(&self, line: &Line) -> Result<(), String> {
        let Some(name) = line.call.picture() else {
            return Ok(());
        };
        let writes =
            |other: &&Line| matches!(&other.call, Call::Collect { to: Some(to), .. } if to == name);
        match self.lines.iter().find(writes) {
            None => Ok(()),
            Some(other) => Err(format!(
                "line {}: {name} is written by line {}, and read before the first call; from standard input it would be read in its turn",
                line.number, other.number
            )),
        }
    }
}

/// Reads a list line by line.
pub struct Reader<'a> {
    pictures: Pictures<'a>,
    /// Lines so far.
    number: usize,
    /// What the lines before the first call say.
    rules: Option<Rules>,
    store: Option<Store>,
    /// Of a list that is there as a whole, whether it changes over; of one that comes line by line nobody knows.
    changes_over: Option<bool>,
    /// Whether there was a call, and whether a change-over.
    has_begun: bool,
    has_changed: bool,
}

impl<'a> Reader<'a> {
    /// For a list that comes line by line.
    pub fn new(pictures: Pictures<'a>) -> Reader<'a> {
        Reader {
            pictures,
            number: 0,
            rules: None,
            store: None,
            changes_over: None,
            has_begun: false,
            has_changed: false,
        }
    }

    /// For a list of which all lines are there: a change-over in it tells by which rules it opens.
    fn of_whole(text: &str, pictures: Pictures<'a>) -> Reader<'a> {
        let changes = |line: &str| words_of(line).is_ok_and(|words| words == ["change", "over"]);
        Reader {
            changes_over: Some(text.lines().any(changes)),
            ..Reader::new(pictures)
        }
    }

    /// How the list opens its service, as far as it is told. Nothing of it changes after the first call.
    pub fn start(&self) -> Start {
        let usual = match self.changes_over {
            Some(true) => Rules::Old,
            _ => Rules::New,
        };
        Start {
            rules: self.rules.unwrap_or(usual),
            store: self.store.unwrap_or(Store::Zeros),
        }
    }

    /// The call of the next line; nothing where it is empty, or says how the service opens.
    pub fn line(&mut self, line: &str) -> Result<Option<Line>, String> {
        self.number += 1;
        // Some editors put an invisible mark before the first line.
        let mark = if self.number == 1 { "\u{feff}" } else { "" };
        let line = line.strip_prefix(mark).unwrap_or(line);
        let entry = words_of(line).and_then(|words| self.entry(words));
        entry.map_err(|message| self.fault(&message))
    }

    /// A line that is no text; what is wrong with it.
    pub fn unreadable(&mut self, message: &str) -> String {
        self.number += 1;
        self.fault(message)
    }

    fn fault(&self, message: &str) -> String {
        format!("line {}: {message}", self.number)
    }

    fn entry(&mut self, words: Vec<String>) -> Result<Option<Line>, String> {
        if words.is_empty() {
            return Ok(None);
        }
        let mut words = Words {
            words,
            next: 0,
            pictures: self.pictures,
        };
        let mut call = None;
        if words.is_next("store") {
            self.check_first("the store is", self.store.is_some())?;
            self.store = Some(words.store()?);
        } else if words.is_next("rules") {
            self.check_first("the rules are", self.rules.is_some())?;
            self.rules = Some(words.rules()?);
        } else {
            call = Some(words.call()?);
        }
        if let [extra, ..] = words.rest() {
            return Err(format!("\"{extra}\" is one word too many"));
        }
        let Some(call) = call else {
            return Ok(None);
        };
        self.check_rules(&call)?;
        self.has_begun = true;
        self.has_changed |= call == Call::ChangeOver;
        let number = self.number;
        Ok(Some(Line { number, call }))
    }

    /// What is told of the opening stands before it, once.
    fn check_first(&self, what: &str, is_told: bool) -> Result<(), String> {
        match (self.has_begun, is_told) {
            (true, _) => Err(format!("{what} told before all calls")),
            (false, true) => Err(format!("{what} told twice")),
            (false, false) => Ok(()),
        }
    }

    /// Whether a call can stand here by the rules.
    fn check_rules(&self, call: &Call) -> Result<(), String> {
        let is_old = self.start().rules == Rules::Old && !self.has_changed;
        match call {
            // Its calls were answered by the new rules already.
            Call::ChangeOver if self.rules.is_none() && self.changes_over.is_none() => Err(
                "a list that comes line by line says \"rules old\" before all calls where it changes over (\"rules new\" where that is to be refused)"
                    .to_owned(),
            ),
            Call::Submit(Submission {
                choice: Some(_), ..
            }) if is_old => Err(
                "a submit before the change-over names no choice: by the old rules its job has the smallest f"
                    .to_owned(),
            ),
            _ => Ok(()),
        }
    }
}

/// The words of a line up to its comment. Double quotes keep blanks and # in a word.
fn words_of(line: &str) -> Result<Vec<String>, String> {
    let mut words = Vec::new();
    let mut letters = line.chars().peekable();
    while let Some(letter) = letters.next_if(|letter| *letter != '#') {
        if letter.is_ascii_whitespace() {
            continue;
        }
        let mut word = String::new();
        if letter == '"' {
            loop {
                match letters.next() {
                    Some('"') => break,
                    Some(letter) => word.push(letter),
                    None => return Err("a double quote is missing".to_owned()),
                }
            }
        } else {
            word.push(letter);
            while let Some(letter) =
                letters.next_if(|letter| !letter.is_ascii_whitespace() && *letter != '#')
            {
                word.push(letter);
            }
        }
        words.push(word);
    }
    Ok(words)
}

/// The words of a line that are not read yet.
struct Words<'a> {
    words: Vec<String>,
    next: usize,
    pictures: Pictures<'a>,
}

impl Words<'_> {
    fn is_done(&self) -> bool {
        self.next == self.words.len()
    }

    fn word(&mut self, what: &str) -> Result<String, String> {
        let word = self.words.get(self.next).cloned();
        self.next += 1;
        word.ok_or_else(|| format!("{what} is missing"))
    }

    /// A picture's file. Standard input has the list, and standard output the answers.
    fn file(&mut self) -> Result<String, String> {
        match self.word("the picture's name")? {
            name if name == "-" => Err("a picture of a list is a file, not \"-\"".to_owned()),
            name => Ok(name),
        }
    }

    /// Whether the next word is this one; then it is read.
    fn is_next(&mut self, expected: &str) -> bool {
        let found = self
            .words
            .get(self.next)
            .is_some_and(|word| word == expected);
        self.next += usize::from(found);
        found
    }

    fn expect(&mut self, expected: &str) -> Result<(), String> {
        if self.is_next(expected) {
            return Ok(());
        }
        let word = self.word(&format!("\"{expected}\""))?;
        Err(format!("\"{expected}\" is expected, not \"{word}\""))
    }

    fn rest(&mut self) -> &[String] {
        let rest = &self.words[self.next..];
        self.next = self.words.len();
        rest
    }

    fn store(&mut self) -> Result<Store, String> {
        self.expect("seed")?;
        let seed = long_unsigned(&self.word("the seed")?)?;
        Ok(Store::Seeded(seed))
    }

    fn rules(&mut self) -> Result<Rules, String> {
        match self.word("\"old\" or \"new\"")?.as_str() {
            "old" => Ok(Rules::Old),
            "new" => Ok(Rules::New),
            word => Err(format!("\"old\" or \"new\" is expected, not \"{word}\"")),
        }
    }

    fn call(&mut self) -> Result<Call, String> {
        Ok(match self.word("a call")?.as_str() {
            "submit" => Call::Submit(self.submission()?),
            "tick" if self.is_done() => Call::Tick(1),
            "tick" => Call::Tick(whole(&self.word("a number")?, 1..=MOST_TICKS)?),
            "collect" => self.collect()?,
            "withdraw" => Call::Withdraw(long_unsigned(&self.word("the job number")?)?),
            "free" => Call::Free,
            "change" => {
                self.expect("over")?;
                Call::ChangeOver
            }
            word => return Err(format!("\"{word}\" is no call")),
        })
    }

    fn collect(&mut self) -> Result<Call, String> {
        let number = long_unsigned(&self.word("the job number")?)?;
        let length = match self.is_next("length") {
            true => Some(whole(&self.word("the length")?, 0..=MOST_LENT)?),
            false => None,
        };
        let to = match self.is_next("to") {
            true => Some(self.file()?),
            false => None,
        };
        Ok(Call::Collect { number, length, to })
    }

    /// A kind, and its numbers up to "steps".
    fn shape(&mut self) -> Result<Shape, String> {
        let kind = self.word("the shape")?;
        if !shape::is_kind(&kind) {
            return Err(format!("\"{kind}\" is no shape"));
        }
        let mut fields = Vec::new();
        while !self.is_next("steps") {
            fields.push(self.word("\"steps\"")?);
        }
        let fields: Vec<&str> = fields.iter().map(String::as_str).collect();
        shape::from_fields(&kind, &fields)
    }

    fn submission(&mut self) -> Result<Submission, String> {
        let shape = self.shape()?;
        let steps = unsigned(&self.word("the step count")?)?;
        let choice = match self.is_next("choice") {
            true => Some(shape::choice(&self.word("the choice")?)?),
            false => None,
        };
        if self.is_next("file") {
            let name = self.file()?;
            let picture = (self.pictures)(&name)?;
            return Ok(Submission {
                choice,
                shape,
                steps,
                width: picture.width,
                height: picture.height,
                pixels: Pixels::File(name, Arc::new(picture)),
            });
        }
        if self.is_done() {
            return Err("\"size\" or \"file\" is missing".to_owned());
        }
        self.expect("size")?;
        Ok(Submission {
            choice,
            shape,
            steps,
            width: unsigned(&self.word("the width")?)?,
            height: unsigned(&self.word("the height")?)?,
            pixels: self.pixels()?,
        })
    }

    fn pixels(&mut self) -> Result<Pixels, String> {
        match self.word("\"pixels\" or \"seed\"")?.as_str() {
            "seed" => Ok(Pixels::Seeded(long_unsigned(&self.word("the seed")?)?)),
            "pixels" => {
                let pixels = self.rest().iter();
                let pixels = pixels.map(|word| whole(word, 0..=u16::MAX.into()));
                Ok(Pixels::Listed(pixels.collect::<Result<_, _>>()?))
            }
            word => Err(format!(
                "\"pixels\" or \"seed\" is expected, not \"{word}\""
            )),
        }
    }
}

/// A name as a word of a list.
fn quoted(name: &str) -> String {
    let plain = !name.is_empty()
        && !name.contains(|c: char| c.is_ascii_whitespace() || c == '#' || c == '"');
    if plain {
        name.to_owned()
    } else {
        format!("\"{name}\"")
    }
}

impl Call {
    /// The name of the picture that it submits.
    fn picture(&self) -> Option<&str> {
        match self {
            Call::Submit(Submission {
                pixels: Pixels::File(name, _),
                ..
            }) => Some(name),
            _ => None,
        }
    }

    /// How many calls of the service its line stands for.
    pub fn times(&self) -> u32 {
        match self {
            Call::Tick(count) => *count,
            _ => 1,
        }
    }
}

/// The line that reads back as the same call.
impl fmt::Display for Call {
    fn fmt(&self, f: &mut fmt::Formatter<'_>) -> fmt::Result {
        match self {
            Call::Submit(submission) => write!(f, "submit {submission}"),
            Call::Tick(1) => write!(f, "tick"),
            Call::Tick(count) => write!(f, "tick {count}"),
            Call::Collect { number, length, to } => {
                write!(f, "collect {number}")?;
                if let Some(length) = length {
                    write!(f, " length {length}")?;
                }
                match to {
                    Some(name) => write!(f, " to {}", quoted(name)),
                    None => Ok(()),
                }
            }
            Call::Withdraw(number) => write!(f, "withdraw {number}"),
            Call::Free => write!(f, "free"),
            Call::ChangeOver => write!(f, "change over"),
        }
    }
}

impl fmt::Display for Submission {
    fn fmt(&self, f: &mut fmt::Formatter<'_>) -> fmt::Result {
        let shape = shape::words(self.shape);
        let (steps, width, height) = (self.steps, self.width, self.height);
        write!(f, "{shape} steps {steps}")?;
        if let Some(choice) = self.choice {
            write!(f, " choice {}", shape::choice_name(choice))?;
        }
        match &self.pixels {
            Pixels::File(name, _) => write!(f, " file {}", quoted(name)),
            Pixels::Seeded(seed) => write!(f, " size {width} {height} seed {seed}"),
            Pixels::Listed(pixels) => {
                write!(f, " size {width} {height} pixels")?;
                pixels.iter().try_for_each(|pixel| write!(f, " {pixel}"))
            }
        }
    }
}

#[cfg(test)]
mod tests {
    use super::*;

    /// Every picture is one of 2 × 1 pixels.
    fn read(text: &str) -> Result<Vec<Line>, String> {
        read_list(text).map(|list| list.lines)
    }

    fn read_list(text: &str) -> Result<List, String> {
        super::read(text, &|name| match name {
            "none.pgm" => Err("none.pgm: not there".to_owned()),
            _ => Ok(Picture {
                width: 2,
                height: 1,
                maxval: 99,
                pixels: vec![3, 4],
            }),
        })
    }

    #[test]
    fn lines_read_back() {
        for line in [
            "submit matrix 2048 0 2048 steps 1 size 3 1 pixels 0 1600 65535",
            "submit oval 4 1 0.8 -0.6 steps 8 size 4294967295 0 seed 18446744073709551615",
            "submit round 0.5 steps 0 size 1 1 pixels",
            "tick",
            "tick 1000000",
            "collect 1",
            "collect 18446744073709551615 length 0",
            "collect 1 to after.png",
            "collect 1 length 7 to \"my picture #1.pgm\"",
            "submit oval 4 1 0.8 -0.6 steps 8 file \"a b.pgm\"",
            "submit round 2 steps 8 file before.pgm",
            "withdraw 7",
            "free",
            "change over",
            "submit round 0.5 steps 1 choice smallest size 1 1 pixels 3",
            "submit round 0.5 steps 1 choice binomial size 1 1 seed 3",
            "submit round 2 steps 8 choice smallest file before.pgm",
        ] {
            let found = read(line).unwrap();
            assert_eq!(found[0].call.to_string(), line);
        }
    }

    #[test]
    fn comments_and_blanks() {
        let found = read("# a list\n\n  tick\t2 # twice\r\n#\nfree#x").unwrap();
        let calls: Vec<(usize, String)> = found
            .iter()
            .map(|line| (line.number, line.call.to_string()))
            .collect();
        assert_eq!(calls, [(3, "tick 2".to_owned()), (5, "free".to_owned())]);
        assert_eq!(read(""), Ok(Vec::new()));
    }

    #[test]
    fn stores() {
        assert_eq!(read_list("free").unwrap().start, Start::USUAL);
        let seeded = read_list("# noise\n\nstore seed 0 # so\nfree").unwrap();
        let store = seeded.start.store;
        assert_eq!((store, seeded.lines.len()), (Store::Seeded(0), 1));
        assert_eq!(store.line(), "store seed 0\n");
        // As the pixels of a picture, below.
        let pixels = store.pixels();
        assert_eq!(
            (&pixels[..2], pixels.len()),
            (&[0xe220, 0x6e78][..], STORE_PIXELS)
        );
        assert_eq!(Store::Zeros.pixels(), [0; STORE_PIXELS]);
    }

    /// A list opens by the old rules where it says so, and in a file where it changes over and says nothing.
    #[test]
    fn rules() {
        let submit = "submit round 0.5 steps 1 size 1 1 pixels 3\n";
        for (text, rules) in [
            ("tick\n", Rules::New),
            ("rules old\ntick\n", Rules::Old),
            ("rules new\ntick\n", Rules::New),
            ("tick\n  change\tover # at last\n", Rules::Old),
            ("change over\nchange over\n", Rules::Old),
            ("store seed 1\nrules new\nchange over\n", Rules::New),
            ("rules old\nstore seed 1\nchange over\n", Rules::Old),
            // No change-over, but a comment and a name.
            ("tick # change over\n", Rules::New),
            ("collect 1 to \"change over\"\n", Rules::New),
        ] {
            let list = read_list(&format!("{text}{submit}")).unwrap();
            assert_eq!(list.start.rules, rules, "{text}");
            // What a list is written with reads back as the same.
            let calls: Vec<Call> = list.lines.into_iter().map(|line| line.call).collect();
            let lines: String = calls.iter().map(|call| format!("{call}\n")).collect();
            let again = read_list(&format!("{}{lines}", list.start.lines(&calls))).unwrap();
            let same: Vec<Call> = again.lines.into_iter().map(|line| line.call).collect();
            assert_eq!((again.start, same), (list.start, calls), "{text}");
        }
        let choice = "submit round 0.5 steps 1 choice smallest size 1 1 pixels 3";
        let early = "a submit before the change-over names no choice: by the old rules its job has the smallest f";
        for (text, fault) in [
            (format!("{choice}\nchange over"), Some((1, early))),
            (format!("rules old\n{choice}"), Some((2, early))),
            (format!("change over\n{choice}"), None),
            (format!("rules new\n{choice}\nchange over"), None),
        ] {
            let fault = fault.map(|(line, message)| format!("line {line}: {message}"));
            assert_eq!(read(&text).err(), fault, "{text}");
        }
    }

    /// Line by line nobody knows what is to come.
    #[test]
    fn rules_line_by_line() {
        let pictures = |name: &str| Err(name.to_owned());
        let mut reader = Reader::new(&pictures);
        assert_eq!(reader.line("# first"), Ok(None));
        let message = "line 2: a list that comes line by line says \"rules old\" before all calls where it changes over (\"rules new\" where that is to be refused)";
        assert_eq!(reader.line("change over"), Err(message.to_owned()));
        // It was no call, so the rules can still be told.
        assert_eq!(reader.line("rules old"), Ok(None));
        assert_eq!(reader.start().rules, Rules::Old);
        let line = reader.line("change over").unwrap().unwrap();
        assert_eq!((line.number, line.call), (4, Call::ChangeOver));
        assert_eq!(reader.start().rules, Rules::Old);
        assert_eq!(
            reader.line("rules old"),
            Err("line 5: the rules are told before all calls".to_owned())
        );
    }

    #[test]
    fn pictures_that_the_list_writes() {
        let message = "line 3: a.pgm is written by line 2, and read before the first call; from standard input it would be read in its turn";
        let list = "free\ncollect 1 to a.pgm\nsubmit round 1 steps 1 file a.pgm";
        assert_eq!(read(list), Err(message.to_owned()));
        let other =
            "free\ncollect 1 to b.pgm\nsubmit round 1 steps 1 file a.pgm\ncollect 1 to a.pgm";
        assert_eq!(read(other).unwrap().len(), 4);
    }

    #[test]
    fn a_mark_before_the_first_line() {
        assert_eq!(read("\u{feff}tick\ntick").unwrap().len(), 2);
        assert!(read("tick\n\u{feff}tick").is_err());
    }

    #[test]
    fn pictures_of_files() {
        let found = read("submit oval 4 1 90 steps 8 file before.pgm").unwrap();
        let Call::Submit(submission) = &found[0].call else {
            panic!();
        };
        assert_eq!((submission.width, submission.height), (2, 1));
        assert_eq!(
            (submission.picture(), submission.maxval()),
            (vec![3, 4], 99)
        );
        let upright = "submit oval 4 1 0 1 steps 8 file before.pgm";
        assert_eq!(found[0].call.to_string(), upright);
    }

    /// A line that is no call and what is said about it.
    const FAULTS: &str = "\
tock|\"tock\" is no call
Tick|\"Tick\" is no call
tick 0|\"0\" is not a whole number from 1 to 1000000
tick 1 2|\"2\" is one word too many
store seed 1|the store is told before all calls
free 1|\"1\" is one word too many
collect|the job number is missing
collect -1|\"-1\" is not a whole number from 0 to 18446744073709551615
collect 1 2|\"2\" is one word too many
collect 1 to|the picture's name is missing
collect 1 to \"a|a double quote is missing
collect 1 to -|a picture of a list is a file, not \"-\"
submit round 1 steps 1 file -|a picture of a list is a file, not \"-\"
collect 1 to a.pgm length 3|\"length\" is one word too many
collect 1 length|the length is missing
withdraw x|\"x\" is not a whole number from 0 to 18446744073709551615
submit|the shape is missing
submit square 1|\"square\" is no shape
submit matrix 1 2|\"steps\" is missing
submit matrix 1 2 steps 1|XX,XY,YY is wanted, not \"1,2\"
submit round x steps 1|\"x\" is not a number
submit round 1 step 1|\"steps\" is missing
submit round 1 steps 1 file|the picture's name is missing
submit round 1 steps 1 file none.pgm|none.pgm: not there
submit round 1 steps 1 file a.pgm 1|\"1\" is one word too many
submit round 1 steps 1 files a.pgm|\"size\" is expected, not \"files\"
submit round 1 steps 1|\"size\" or \"file\" is missing
collect 1 to a.pgm 7|\"7\" is one word too many
tick\u{a0}3|\"tick\u{a0}3\" is no call
submit round 1 steps 1 size 1|the height is missing
submit round 1 steps 1 size 1 1|\"pixels\" or \"seed\" is missing
submit round 1 steps 1 size 1 1 pixels 65536|\"65536\" is not a whole number from 0 to 65535
submit round 1 steps 1 size 1 1 seed 1 2|\"2\" is one word too many
submit round 1 steps 1 choice|the choice is missing
submit round 1 steps 1 choice largest size 1 1 pixels 1|\"largest\" is none of binomial, smallest
submit round 1 steps 1 choice smallest|\"size\" or \"file\" is missing
submit round 1 steps 1 size 1 1 choice smallest pixels 1|\"pixels\" or \"seed\" is expected, not \"choice\"
change|\"over\" is missing
change it|\"over\" is expected, not \"it\"
change over 2|\"2\" is one word too many
rules old|the rules are told before all calls
";

    #[test]
    fn lines_that_are_no_calls() {
        for fault in FAULTS.lines() {
            let (line, message) = fault.split_once('|').unwrap();
            let expected = format!("line 2: {message}");
            assert_eq!(read(&format!("free\n{line}")), Err(expected), "{line}");
        }
        for (line, message) in [
            ("store", "\"seed\" is missing"),
            ("store 3", "\"seed\" is expected, not \"3\""),
            (
                "store seed x",
                "\"x\" is not a whole number from 0 to 18446744073709551615",
            ),
            ("store seed 1 2", "\"2\" is one word too many"),
            ("store seed 1\nstore seed 1", "the store is told twice"),
            ("rules", "\"old\" or \"new\" is missing"),
            ("rules fair", "\"old\" or \"new\" is expected, not \"fair\""),
            ("rules old 2", "\"2\" is one word too many"),
            ("rules old\nrules old", "the rules are told twice"),
        ] {
            let number = line.lines().count();
            assert_eq!(
                read(line),
                Err(format!("line {number}: {message}")),
                "{line}"
            );
        }
    }

    /// Splitmix64 from seed 0 begins with e220a8397b1dcdaf and 6e789e6aa1b965f4 (its published test vector).
    #[test]
    fn pixels_of_a_seed() {
        let Call::Submit(mut submission) = read("submit round 1 steps 1 size 1 2 seed 0").unwrap()
            [0]
        .call
        .clone() else {
            panic!();
        };
        assert_eq!(submission.picture(), [0xe220, 0x6e78]);
        submission.width = 1025;
        assert_eq!(submission.picture(), []);
        (submission.width, submission.height) = (1024, 1024);
        assert_eq!(submission.picture().len(), 1 << 20);
        (submission.width, submission.height) = (u32::MAX, u32::MAX);
        assert_eq!(submission.picture(), []);
    }
}
