//! The sentences of docs/REFERENCE.md that a service and the converter of texts are held to, and a difference from one of them.

use std::fmt;

/// A sentence that can be broken.
#[derive(Clone, Copy, Debug, PartialEq, Eq, PartialOrd, Ord)]
pub enum Rule {
    Ends,
    Opening,
    SubmitAccepted,
    NotRefused,
    RefusalOrder,
    NextNumber,
    NumberTwice,
    IdleWithStepsLeft,
    ServedWithoutSteps,
    Turn,
    FinishedCollected,
    CollectedEarly,
    WithdrawAccepted,
    OwnNumber,
    FreeBuffers,
    RefusalChangesNothing,
    IdleChangesNothing,
    SubmitRecord,
    SubmitF,
    SubmitStore,
    TickRecord,
    TickStore,
    CollectRecord,
    WithdrawRecord,
    LeaveStore,
    CountChangesNothing,
    LoneRun,
    EarlierJob,
    HalfPerStep,
    LoneService,
    Wait,
    WaitAcross,
    FreeAcross,
    ChangeAccepted,
    ChangeRefused,
    ChangedF,
    ChangedTurn,
    ChangedFields,
    ChangeStore,
    BackToTheSame,
}

/// What is wrong in capitals, and the sentences that are broken, with their ids.
type Texts = (&'static str, &'static [(&'static str, &'static str)]);

impl Rule {
    /// What is wrong, in capitals.
    pub fn name(self) -> &'static str {
        self.texts().0
    }

    /// The sentence that is broken, after its id; where what is seen does not part several sentences, that it is one of them.
    pub fn cited(self) -> String {
        let sentences = self.texts().1.iter();
        let cited = sentences.map(|(id, sentence)| format!("{id}, {sentence}."));
        let cited = cited.collect::<Vec<String>>();
        let before = if cited.len() > 1 { "one of " } else { "" };
        format!("{before}{}", cited.join(" "))
    }

    /// Sentences of docs/REFERENCE.md or parts of them, word for word; what stands in square brackets stands for other words.
    fn texts(self) -> Texts {
        match self {
            Rule::Ends => (
                "NO ANSWER",
                &[(
                    "D3",
                    "Whoever calls gets an answer or one numbered refusal, and the call ends",
                )],
            ),
            Rule::Opening => (
                "WRONG OPENING",
                &[("V9", "Opening: all empty, last number 0, both named seats 7")],
            ),
            Rule::SubmitAccepted => (
                "WRONG ANSWER",
                &[(
                    "L8",
                    "A submit is accepted where no refusal from 3 to 11 in checking order applies to it, fewer jobs are \
                     held than there are seats, and fewer than 2^64 − 1 jobs came before it",
                )],
            ),
            Rule::NotRefused => (
                "NOT REFUSED",
                &[(
                    "N0",
                    "Each call checks those [refusals] that concern it, in this order [(of a submit: O4, of a collect: \
                     O6, of a withdraw: O7)]",
                )],
            ),
            Rule::RefusalOrder => (
                "WRONG REFUSAL",
                &[(
                    "N0",
                    "Each call checks those [refusals] that concern it, in this order [(of a submit: O4, of a tick: O5, \
                     of a collect: O6, of a withdraw: O7)], and a refusal answers its number alone",
                )],
            ),
            Rule::NextNumber => ("WRONG NUMBER", &[("V12", "Submit gives the next number")]),
            Rule::NumberTwice => (
                "NUMBER GIVEN TWICE",
                &[("V26", "Numbers are not given twice from one opening")],
            ),
            Rule::IdleWithStepsLeft => ("IDLE WITH STEPS LEFT", IDLE),
            Rule::ServedWithoutSteps => ("SERVED A JOB WITHOUT STEPS LEFT", IDLE),
            Rule::Turn => (
                "OUT OF TURN",
                &[(
                    "V14",
                    "Tick serves, counted cyclically from the one after the seat last served, the first seat with steps \
                     left",
                )],
            ),
            Rule::FinishedCollected => (
                "WRONG ANSWER",
                &[(
                    "L13",
                    "While a job is held and finished, a collect of it with a lent picture of w × h pixels is accepted",
                )],
            ),
            Rule::CollectedEarly => (
                "WRONG ANSWER",
                &[("L14", "Before a job is finished no collect of it is accepted")],
            ),
            Rule::WithdrawAccepted => (
                "WRONG ANSWER",
                &[(
                    "L10",
                    "While [a job] is held, a withdraw of it is accepted",
                )],
            ),
            Rule::OwnNumber => (
                "WRONG NUMBER",
                &[("V23", "Collect and withdraw answer the job number")],
            ),
            Rule::FreeBuffers => (
                "WRONG FREE COUNT",
                &[(
                    "V25",
                    "From an opening on, free buffers are 16 less 2 for each job submitted and neither collected nor \
                     withdrawn",
                )],
            ),
            Rule::RefusalChangesNothing => (
                "A REFUSAL CHANGED SOMETHING",
                &[(
                    "D4",
                    "A refusal changes nothing: no record, no lent picture, store or result",
                )],
            ),
            Rule::IdleChangesNothing => (
                "AN IDLE TICK CHANGED SOMETHING",
                &[(
                    "V19",
                    "[Tick] answers idle where no seat has steps left, and only there, and then changes nothing",
                )],
            ),
            Rule::SubmitRecord => (
                "WRONG RECORD",
                &[
                    (
                        "V10",
                        "Submit fills the first empty seat counted on cyclically from the one after the seat last filled",
                    ),
                    (
                        "V13",
                        "Submit fills that seat with job number, xx, xy, yy, steps, steps left, w, h and f [of its \
                         choice], all steps being left, names it as the seat last filled, and changes nothing else of \
                         the record",
                    ),
                ],
            ),
            Rule::SubmitF => (
                "WRONG RECORD",
                &[(
                    "S3.10",
                    "[By the new rules] submit takes the choice of S-2: the seat gets the f of that choice, and one \
                     without a choice that of S2.1",
                )],
            ),
            Rule::SubmitStore => (
                "WRONG STORE",
                &[(
                    "V11",
                    "Submit copies the picture to the start of buffer 2i and changes no other pixel of the store",
                )],
            ),
            Rule::TickRecord => (
                "WRONG RECORD",
                &[(
                    "V17",
                    "Tick takes one off the steps left of the seat that it serves, names it as the seat last served, and \
                     changes nothing else of the record",
                )],
            ),
            Rule::TickStore => (
                "WRONG STORE",
                &[(
                    "V15",
                    "Tick does one step, from the buffer of the current picture to the seat's other one, w × h pixels \
                     only, by the kernel with the seat's f",
                )],
            ),
            Rule::CollectRecord => (
                "WRONG RECORD",
                &[
                    ("V21", "Collect writes it out and empties the seat"),
                    KEEPS,
                ],
            ),
            Rule::WithdrawRecord => (
                "WRONG RECORD",
                &[("V22", "Withdraw empties the seat, finished or not"), KEEPS],
            ),
            Rule::LeaveStore => (
                "WRONG STORE",
                &[("V23", "[Of collect and withdraw] neither changes the store")],
            ),
            Rule::CountChangesNothing => (
                "THE FREE COUNT CHANGED SOMETHING",
                &[("V24", "The free count changes nothing")],
            ),
            Rule::LoneRun => (
                "WRONG PICTURE",
                &[(
                    "L16",
                    "Alone [a job] gets its picture after k steps of its kernel, each rounded [to the nearest unit, halves \
                     up], and each pixel that a collect hands over equals what the job gets alone",
                )],
            ),
            Rule::EarlierJob => (
                "WRONG PICTURE",
                &[
                    ("S3.6", "Its jobs finish with the pixels they would have had before"),
                    (
                        "S3.9",
                        "A job from before the change-over has the smallest choice, in its lone run and in the exact one",
                    ),
                ],
            ),
            Rule::HalfPerStep => (
                "TOO FAR FROM THE EXACT RUN",
                &[(
                    "L18",
                    "Each pixel that a collect hands over for a job of k steps lies within k/2 units of an exact run of \
                     that job alone in fractions",
                )],
            ),
            Rule::LoneService => (
                "NOT AS ALONE",
                &[(
                    "L17",
                    "A service opened for [the job] only, with its submit, k ticks and a collect, hands over the same",
                )],
            ),
            Rule::Wait => (
                "WAITS TOO LONG",
                &[(
                    "L20",
                    "Where a held job has r steps left and 8 × r more ticks follow in the list, it is finished or was \
                     withdrawn by the last of them",
                )],
            ),
            Rule::WaitAcross => (
                "WAITS TOO LONG",
                &[(
                    "S3.13",
                    "The wait of 8 × r ticks holds with the change-over anywhere among them",
                )],
            ),
            Rule::FreeAcross => (
                "WRONG FREE COUNT",
                &[(
                    "S3.13",
                    "Free buffers are 16 less 2 for each job held at every place, right before [the change-over] and \
                     right after it too",
                )],
            ),
            Rule::ChangeAccepted => (
                "WRONG ANSWER",
                &[(
                    "S3.8",
                    "[The change-over] is accepted at every place by the old rules",
                )],
            ),
            Rule::ChangeRefused => (
                "NOT REFUSED",
                &[
                    ("S3.5", "[A record] not in order by the old rule gets 2"),
                    ("S3.8", "[A change-over] that comes after [one] is refused with 2"),
                ],
            ),
            Rule::ChangedF => (
                "WRONG RECORD",
                &[(
                    "S3.4",
                    "An old record becomes a new one with the smallest f in each filled seat and f 0 in each empty one",
                )],
            ),
            Rule::ChangedTurn => (
                "WRONG RECORD",
                &[(
                    "S3.7",
                    "Turn order and job numbers carry on: the last number and both named seats keep their values",
                )],
            ),
            Rule::ChangedFields => (
                "WRONG RECORD",
                &[(
                    "S3.4",
                    "An old record becomes a new one [in which] every other field [than f] is kept",
                )],
            ),
            Rule::ChangeStore => (
                "WRONG STORE",
                &[("W5", "[The change-over] is lent no store")],
            ),
            Rule::BackToTheSame => (
                "NOT THE SAME BACK",
                &[(
                    "S4.4",
                    "Every J text comes back as it was from the N text that it converts to, and every N text with s from \
                     the J text that it goes back to",
                )],
            ),
        }
    }
}

/// Of idle ticks, and of those that should have been.
const IDLE: &[(&str, &str)] = &[(
    "V19",
    "[Tick] answers idle where no seat has steps left, and only there",
)];

/// Of the record after a collect and after a withdraw.
const KEEPS: (&str, &str) = (
    "V23",
    "Collect and withdraw [both] keep the last number and the named seats",
);

/// A rule that was broken, with what came and what was due.
#[derive(Clone, Debug, PartialEq, Eq)]
pub struct Difference {
    pub rule: Rule,
    pub detail: String,
}

impl Difference {
    pub fn new(rule: Rule, detail: impl Into<String>) -> Difference {
        Difference {
            rule,
            detail: detail.into(),
        }
    }
}

impl fmt::Display for Difference {
    fn fmt(&self, f: &mut fmt::Formatter<'_>) -> fmt::Result {
        let Difference { rule, detail } = self;
        write!(f, "{}: {detail}. Broken: {}", rule.name(), rule.cited())
    }
}

#[cfg(test)]
mod tests {
    use super::*;

    const REFERENCE: &str = include_str!("../../docs/REFERENCE.md");

    const ALL: [Rule; 40] = [
        Rule::Ends,
        Rule::Opening,
        Rule::SubmitAccepted,
        Rule::NotRefused,
        Rule::RefusalOrder,
        Rule::NextNumber,
        Rule::NumberTwice,
        Rule::IdleWithStepsLeft,
        Rule::ServedWithoutSteps,
        Rule::Turn,
        Rule::FinishedCollected,
        Rule::CollectedEarly,
        Rule::WithdrawAccepted,
        Rule::OwnNumber,
        Rule::FreeBuffers,
        Rule::RefusalChangesNothing,
        Rule::IdleChangesNothing,
        Rule::SubmitRecord,
        Rule::SubmitF,
        Rule::SubmitStore,
        Rule::TickRecord,
        Rule::TickStore,
        Rule::CollectRecord,
        Rule::WithdrawRecord,
        Rule::LeaveStore,
        Rule::CountChangesNothing,
        Rule::LoneRun,
        Rule::EarlierJob,
        Rule::HalfPerStep,
        Rule::LoneService,
        Rule::Wait,
        Rule::WaitAcross,
        Rule::FreeAcross,
        Rule::ChangeAccepted,
        Rule::ChangeRefused,
        Rule::ChangedF,
        Rule::ChangedTurn,
        Rule::ChangedFields,
        Rule::ChangeStore,
        Rule::BackToTheSame,
    ];

    fn in_one_line(text: &str) -> String {
        text.split_whitespace().collect::<Vec<&str>>().join(" ")
    }

    /// The sentence of an id: from the id to the next list entry or empty line.
    fn sentence(id: &str) -> Option<String> {
        let (_, rest) = REFERENCE.split_once(&format!("\n- **{id}.** "))?;
        let end = ["\n- ", "\n\n"].iter().filter_map(|end| rest.find(end));
        Some(in_one_line(&rest[..end.min().unwrap_or(rest.len())]))
    }

    /// Whether a quotation's words stand in a sentence, in order; what is in brackets stands for other words. The first
    /// letter may be a capital here and none there.
    fn is_quoted(quotation: &str, sentence: &str) -> bool {
        let sentence = sentence.to_lowercase();
        let mut left = sentence.as_str();
        let parts = quotation
            .split(['[', ']'])
            .step_by(2)
            .map(str::to_lowercase);
        parts.into_iter().all(|part| {
            let found = left.find(part.trim());
            left = found.map_or("", |at| &left[at + part.trim().len()..]);
            found.is_some()
        })
    }

    #[test]
    fn rules_quote_the_reference() {
        assert_eq!(
            ALL.map(|rule| rule as usize).to_vec(),
            (0..ALL.len()).collect::<Vec<_>>()
        );
        assert_eq!(Rule::BackToTheSame as usize, ALL.len() - 1);
        for (id, quotation) in ALL.iter().flat_map(|rule| rule.texts().1) {
            let sentence = sentence(id).unwrap_or_else(|| panic!("docs/REFERENCE.md has no {id}"));
            assert!(
                is_quoted(quotation, &sentence),
                "{id}: {quotation}\n{sentence}"
            );
            assert!(!quotation.ends_with('.'), "{quotation}");
        }
    }

    #[test]
    fn quotations_are_word_for_word() {
        let sentence = "Tick: it answers the job number. It answers idle.";
        for good in [
            "Tick",
            "[A tick] answers idle",
            "It answers [that] number",
            "answers idle",
        ] {
            assert!(is_quoted(good, sentence), "{good}");
        }
        for wrong in [
            "A tick answers idle",
            "answers idle [and] number",
            "answers one idle",
        ] {
            assert!(!is_quoted(wrong, sentence), "{wrong}");
        }
        assert_eq!(self::sentence("V0"), None);
    }

    /// Two sentences are one after the other, each with its id.
    #[test]
    fn sentences_have_their_ids() {
        assert_eq!(
            Rule::NextNumber.cited(),
            "V12, Submit gives the next number."
        );
        let cited = Rule::WithdrawRecord.cited();
        assert!(
            cited.starts_with("one of V22, Withdraw ") && cited.contains(" or not. V23, Collect ")
        );
    }
}
