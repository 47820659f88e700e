//! The services to practise on, by number: the first is number 1. Their order tells nothing: neighbours have their faults
//! in different calls.

use super::faults::{
    ChangeFault, CollectFault, Fault, FreeFault, StepFault, SubmitFault, TurnFault, WithdrawFault,
};

/// A fault with its answer. The tests see that all of it is so.
pub struct Exercise {
    pub fault: Fault,
    /// What is wrong.
    pub fault_text: &'static str,
    /// Lines of a list that shows the fault, each with how often it stands there.
    pub calls: &'static [(usize, &'static str)],
    /// Whether three jobs, ticks until idle, collects of all and the free count would have shown it.
    pub shown_by_panel: bool,
    /// Whether one of two jobs, each alone in a new service, would have been handed over wrong, or not at all.
    pub shown_by_lone_job: bool,
}

/// The smallest job.
const ONE_PIXEL: &str = "submit round 1 steps 1 size 1 1 pixels 7";

/// A bright pixel, in a step of which the two choices of f differ: 0 with the smallest, 1024 with the other.
const SPOT: &str = "submit round 0.5 steps 1 size 3 3 pixels 0 0 0 0 1600 0 0 0 0";
const SPOT_BY_SMALLEST: &str =
    "submit round 0.5 steps 1 choice smallest size 3 3 pixels 0 0 0 0 1600 0 0 0 0";

/// By the old rules; an answer is read line by line, so it says so.
const OLD: &str = "rules old";
const CHANGE: &str = "change over";

pub const EXERCISES: [Exercise; 44] = [
    Exercise {
        fault: Fault::Collect(CollectFault::RefusesAll),
        fault_text: "Collect refuses every job, finished or not, with 8.",
        calls: &[(1, ONE_PIXEL), (1, "tick"), (1, "collect 1")],
        shown_by_panel: true,
        shown_by_lone_job: true,
    },
    Exercise {
        fault: Fault::Submit(SubmitFault::FullAtSeven),
        fault_text: "The eighth seat is never filled: with seven jobs held a submit is refused \
             with 12.",
        calls: &[(8, ONE_PIXEL), (1, "tick"), (1, "collect 1")],
        shown_by_panel: false,
        shown_by_lone_job: false,
    },
    Exercise {
        fault: Fault::Step(StepFault::OvalsLeanOver),
        fault_text: "Ovals lean the other way: xy has the wrong sign in their kernels. The \
             record has the right one.",
        calls: &[
            (
                1,
                "submit oval 2 1 0.8 0.6 steps 2 size 2 2 pixels 1000 0 0 0",
            ),
            (1, "tick 2"),
            (1, "collect 1"),
        ],
        shown_by_panel: false,
        shown_by_lone_job: true,
    },
    Exercise {
        fault: Fault::Turn(TurnFault::IdleMovesOn),
        fault_text: "An idle tick moves the seat last served on by one.",
        calls: &[(1, ONE_PIXEL), (1, "tick 2"), (1, "collect 1")],
        shown_by_panel: false,
        shown_by_lone_job: false,
    },
    Exercise {
        fault: Fault::Free(FreeFault::FinishedAreFree),
        fault_text: "The free count leaves out jobs that are finished and not collected yet.",
        calls: &[(1, ONE_PIXEL), (1, "tick"), (1, "collect 1")],
        shown_by_panel: false,
        shown_by_lone_job: false,
    },
    Exercise {
        fault: Fault::Collect(CollectFault::SecondBuffer),
        fault_text: "Collect hands over buffer 2i+1, also where the number of steps is even.",
        calls: &[
            (1, "submit round 1 steps 2 size 3 1 pixels 0 0 1000"),
            (1, "tick 2"),
            (1, "collect 1"),
        ],
        shown_by_panel: false,
        shown_by_lone_job: true,
    },
    Exercise {
        fault: Fault::Step(StepFault::KernelServedLast),
        fault_text: "Where another job was served between two steps of a job, the later one is \
             done with the other job's kernel.",
        calls: &[
            (1, "submit round 1 steps 2 size 2 1 pixels 0 1000"),
            (1, "submit round 0 steps 1 size 2 1 pixels 0 1000"),
            (1, "tick 3"),
            (1, "collect 1"),
        ],
        shown_by_panel: false,
        shown_by_lone_job: false,
    },
    Exercise {
        fault: Fault::Collect(CollectFault::ClearsBuffers),
        fault_text: "Collect clears the job's pixels in the store.",
        calls: &[(1, ONE_PIXEL), (1, "tick"), (1, "collect 1")],
        shown_by_panel: false,
        shown_by_lone_job: false,
    },
    Exercise {
        fault: Fault::Step(StepFault::PixelsInPairs),
        fault_text: "Pixels are written by twos: where w × h is odd, a tick changes one pixel \
             past the picture.",
        calls: &[(1, ONE_PIXEL), (1, "tick"), (1, "collect 1")],
        shown_by_panel: false,
        shown_by_lone_job: false,
    },
    Exercise {
        fault: Fault::Turn(TurnFault::IdleHalfDone),
        fault_text: "Tick is idle where it is the turn of a job that is half done.",
        calls: &[
            (1, "submit round 1 steps 2 size 1 1 pixels 7"),
            (1, "tick 2"),
            (1, "collect 1"),
        ],
        shown_by_panel: true,
        shown_by_lone_job: true,
    },
    Exercise {
        fault: Fault::Submit(SubmitFault::NumberAgain),
        fault_text: "After a withdraw of the job that was submitted last, its number is given \
             again.",
        calls: &[
            (1, ONE_PIXEL),
            (1, "withdraw 1"),
            (1, ONE_PIXEL),
            (1, "tick"),
            (1, "collect 2"),
        ],
        shown_by_panel: false,
        shown_by_lone_job: false,
    },
    Exercise {
        fault: Fault::Step(StepFault::AllStepsEarly),
        fault_text: "A job's first tick does all its steps; the later ones only count down. The \
             picture handed over is right.",
        calls: &[
            (1, "submit round 1 steps 2 size 2 1 pixels 0 1000"),
            (1, "tick 2"),
            (1, "collect 1"),
        ],
        shown_by_panel: false,
        shown_by_lone_job: false,
    },
    Exercise {
        fault: Fault::Free(FreeFault::AlwaysSixteen),
        fault_text: "The free count is always 16.",
        calls: &[(1, ONE_PIXEL), (1, "tick"), (1, "collect 1")],
        shown_by_panel: false,
        shown_by_lone_job: false,
    },
    Exercise {
        fault: Fault::Submit(SubmitFault::FullBeforeKernel),
        fault_text: "Where all seats are taken, a submit without a kernel is refused with 12; \
             11 comes first.",
        calls: &[
            (8, ONE_PIXEL),
            (1, "submit matrix -1 0 0 steps 1 size 1 1 pixels 7"),
            (1, "tick"),
            (1, "collect 1"),
        ],
        shown_by_panel: false,
        shown_by_lone_job: false,
    },
    Exercise {
        fault: Fault::Step(StepFault::HalvesDown),
        fault_text: "Where a pixel's average is half way between two whole numbers, the lower \
             one is taken.",
        calls: &[
            (1, "submit matrix 4096 0 0 steps 1 size 2 1 pixels 0 1"),
            (1, "tick"),
            (1, "collect 1"),
        ],
        shown_by_panel: false,
        shown_by_lone_job: true,
    },
    Exercise {
        fault: Fault::Withdraw(WithdrawFault::RefusesStarted),
        fault_text: "Withdraw refuses a job that has begun and is not finished, with 8.",
        calls: &[
            (1, "submit round 1 steps 2 size 1 1 pixels 7"),
            (1, ONE_PIXEL),
            (1, "tick 2"),
            (1, "withdraw 1"),
            (1, "collect 2"),
        ],
        shown_by_panel: false,
        shown_by_lone_job: false,
    },
    Exercise {
        fault: Fault::Collect(CollectFault::WritesUnfinished),
        fault_text: "A collect that is refused because steps are left has already written to \
             the lent picture.",
        calls: &[
            (1, "submit round 1 steps 2 size 1 1 pixels 7"),
            (1, "tick"),
            (1, "collect 1"),
            (1, "tick"),
            (1, "collect 1"),
        ],
        shown_by_panel: false,
        shown_by_lone_job: false,
    },
    Exercise {
        fault: Fault::Submit(SubmitFault::RefusalTakesNumber),
        fault_text: "A submit that is refused because all seats are taken uses up a number.",
        calls: &[(9, ONE_PIXEL), (1, "tick"), (1, "collect 1")],
        shown_by_panel: false,
        shown_by_lone_job: false,
    },
    Exercise {
        fault: Fault::Step(StepFault::RowBelow),
        fault_text: "Below a picture's last row stands what the store has next, not the last \
             row again.",
        calls: &[
            (1, "submit matrix 0 0 2048 steps 1 size 1 1 pixels 1000"),
            (1, "tick"),
            (1, "collect 1"),
        ],
        shown_by_panel: false,
        shown_by_lone_job: true,
    },
    Exercise {
        fault: Fault::Free(FreeFault::ForgetsWithdraws),
        fault_text: "The free count is 16 less 2 for each job submitted and not collected: jobs \
             withdrawn stay counted.",
        calls: &[
            (1, ONE_PIXEL),
            (1, "withdraw 1"),
            (1, ONE_PIXEL),
            (1, "tick"),
            (1, "collect 2"),
        ],
        shown_by_panel: false,
        shown_by_lone_job: false,
    },
    Exercise {
        fault: Fault::Submit(SubmitFault::LastPixelNotCopied),
        fault_text: "Of a picture of 1024 pixels submit does not copy the last one.",
        calls: &[
            (1, "submit round 0 steps 1 size 32 32 seed 1"),
            (1, "tick"),
            (1, "collect 1"),
        ],
        shown_by_panel: false,
        shown_by_lone_job: false,
    },
    Exercise {
        fault: Fault::Step(StepFault::EvenGrey),
        fault_text: "Each step makes the picture even grey, its mean.",
        calls: &[
            (1, "submit round 0 steps 1 size 2 1 pixels 0 1000"),
            (1, "tick"),
            (1, "collect 1"),
        ],
        shown_by_panel: false,
        shown_by_lone_job: true,
    },
    Exercise {
        fault: Fault::Submit(SubmitFault::EndHasNoKernel),
        fault_text: "Shapes at the very end of those that have a kernel are refused with 11: \
             |xy| equal to the smaller variance, or the larger variance equal to M.",
        calls: &[
            (1, "submit matrix 1000 1000 1000 steps 1 size 1 1 pixels 7"),
            (1, "submit matrix 1000 999 1000 steps 1 size 1 1 pixels 7"),
            (1, "tick 2"),
            (1, "collect 2"),
            (1, "collect 1"),
        ],
        shown_by_panel: false,
        shown_by_lone_job: false,
    },
    Exercise {
        fault: Fault::Step(StepFault::SumOf32Bits),
        fault_text: "The sum of weights times pixels has 32 bits: bright pixels of jobs of more \
             than four steps are wrong.",
        calls: &[
            (1, "submit round 1 steps 5 size 1 1 pixels 65535"),
            (1, "tick 5"),
            (1, "collect 1"),
        ],
        shown_by_panel: false,
        shown_by_lone_job: false,
    },
    Exercise {
        fault: Fault::Withdraw(WithdrawFault::MovesTurn),
        fault_text: "Withdraw makes the seat that it empties the one last served.",
        calls: &[
            (1, ONE_PIXEL),
            (1, "withdraw 1"),
            (1, ONE_PIXEL),
            (1, "tick"),
            (1, "collect 2"),
        ],
        shown_by_panel: false,
        shown_by_lone_job: false,
    },
    Exercise {
        fault: Fault::Step(StepFault::BufferOfWithdrawn),
        fault_text: "A job in a seat that was emptied by a withdraw after an odd number of \
             steps begins with that job's picture, not with its own.",
        calls: &[
            (1, "submit round 1 steps 2 size 1 1 pixels 9"),
            (7, ONE_PIXEL),
            (1, "tick"),
            (1, "withdraw 1"),
            (1, ONE_PIXEL),
            (1, "tick 8"),
            (1, "collect 9"),
        ],
        shown_by_panel: false,
        shown_by_lone_job: false,
    },
    Exercise {
        fault: Fault::Turn(TurnFault::SkipsFirst),
        fault_text: "After seat 7 the turn comes to seat 1: seat 0 is passed over where another \
             one has steps left.",
        calls: &[(2, ONE_PIXEL), (1, "tick 2"), (1, "collect 1")],
        shown_by_panel: false,
        shown_by_lone_job: false,
    },
    Exercise {
        fault: Fault::Step(StepFault::CountsOnly),
        fault_text: "Tick counts the steps and leaves all pixels of the store as they were.",
        calls: &[
            (1, "submit round 1 steps 1 size 2 1 pixels 0 1000"),
            (1, "tick"),
            (1, "collect 1"),
        ],
        shown_by_panel: false,
        shown_by_lone_job: true,
    },
    Exercise {
        fault: Fault::Collect(CollectFault::TakesLonger),
        fault_text: "Collect accepts a lent picture that is longer than w × h.",
        calls: &[
            (1, ONE_PIXEL),
            (1, "tick"),
            (1, "collect 1 length 2"),
            (1, "collect 1"),
        ],
        shown_by_panel: false,
        shown_by_lone_job: false,
    },
    Exercise {
        fault: Fault::Submit(SubmitFault::FillsFromFirst),
        fault_text: "Submit fills the first empty seat counted from seat 0, not from the one \
             after the seat last filled.",
        calls: &[
            (1, ONE_PIXEL),
            (1, "withdraw 1"),
            (1, ONE_PIXEL),
            (1, "tick"),
            (1, "collect 2"),
        ],
        shown_by_panel: false,
        shown_by_lone_job: false,
    },
    Exercise {
        fault: Fault::Turn(TurnFault::BeginsAtFirst),
        fault_text: "Tick serves the first seat with steps left counted from seat 0, so that a \
             long job there keeps all others waiting.",
        calls: &[
            (1, "submit round 1 steps 9 size 1 1 pixels 7"),
            (1, ONE_PIXEL),
            (1, "tick 10"),
            (1, "collect 1"),
            (1, "collect 2"),
        ],
        shown_by_panel: false,
        shown_by_lone_job: false,
    },
    Exercise {
        fault: Fault::Collect(CollectFault::StepBefore),
        fault_text: "Collect hands over the picture of the step before the last.",
        calls: &[
            (1, "submit round 1 steps 1 size 2 1 pixels 0 1000"),
            (1, "tick"),
            (1, "collect 1"),
        ],
        shown_by_panel: false,
        shown_by_lone_job: true,
    },
    Exercise {
        fault: Fault::Turn(TurnFault::IdleAtSeatSix),
        fault_text: "Tick is idle where seat 6 was served last and is the only one with steps \
             left.",
        calls: &[
            (6, ONE_PIXEL),
            (1, "submit round 1 steps 2 size 1 1 pixels 7"),
            (1, "tick 8"),
            (1, "collect 1"),
        ],
        shown_by_panel: false,
        shown_by_lone_job: false,
    },
    Exercise {
        fault: Fault::Change(ChangeFault::OtherF),
        fault_text: "The change-over gives each job held the f of the choice binomial, not the smallest.",
        calls: &[
            (1, OLD),
            (1, SPOT),
            (1, CHANGE),
            (1, "tick"),
            (1, "collect 1"),
        ],
        shown_by_panel: false,
        shown_by_lone_job: false,
    },
    Exercise {
        fault: Fault::Step(StepFault::UsualChoice),
        fault_text: "Tick makes the kernel anew from the shape, by the choice binomial, and does not heed the f of the seat.",
        calls: &[
            (1, SPOT_BY_SMALLEST),
            (1, "tick"),
            (1, "collect 1"),
        ],
        shown_by_panel: false,
        shown_by_lone_job: false,
    },
    Exercise {
        fault: Fault::Change(ChangeFault::ResetsNamedSeats),
        fault_text: "The change-over sets the seat last filled and the seat last served to 7, as an opening does.",
        calls: &[
            (1, OLD),
            (7, "submit round 1 steps 2 size 1 1 pixels 7"),
            (1, ONE_PIXEL),
            (1, "tick 7"),
            (1, CHANGE),
            (1, "tick 8"),
            (1, "collect 8"),
        ],
        shown_by_panel: false,
        shown_by_lone_job: false,
    },
    Exercise {
        fault: Fault::Submit(SubmitFault::SmallestForBoth),
        fault_text: "Submit stores the smallest f, whatever choice is named, or none.",
        calls: &[
            (1, SPOT),
            (1, "tick"),
            (1, "collect 1"),
        ],
        shown_by_panel: false,
        shown_by_lone_job: false,
    },
    Exercise {
        fault: Fault::Change(ChangeFault::RestartsNumbers),
        fault_text: "The change-over takes the largest number held for the last one given, so that later numbers are given again.",
        calls: &[
            (1, OLD),
            (2, ONE_PIXEL),
            (1, "withdraw 2"),
            (1, CHANGE),
            (1, ONE_PIXEL),
            (1, "tick 2"),
            (1, "collect 1"),
        ],
        shown_by_panel: false,
        shown_by_lone_job: false,
    },
    Exercise {
        fault: Fault::Free(FreeFault::ForgetsEarlierJobs),
        fault_text: "The free count leaves out jobs from before the change-over.",
        calls: &[
            (1, OLD),
            (1, ONE_PIXEL),
            (1, CHANGE),
            (1, "tick"),
            (1, "collect 1"),
        ],
        shown_by_panel: false,
        shown_by_lone_job: false,
    },
    Exercise {
        fault: Fault::Change(ChangeFault::RestartsJobs),
        fault_text: "The change-over gives a job that is half done all its steps again.",
        calls: &[
            (1, OLD),
            (1, "submit round 1 steps 3 size 2 1 pixels 0 1000"),
            (1, "tick 2"),
            (1, CHANGE),
            (1, "tick 3"),
            (1, "collect 1"),
        ],
        shown_by_panel: false,
        shown_by_lone_job: false,
    },
    Exercise {
        fault: Fault::Collect(CollectFault::RefusesEarlierJobs),
        fault_text: "Collect refuses finished jobs from before the change-over with 7.",
        calls: &[
            (1, OLD),
            (1, ONE_PIXEL),
            (1, "tick"),
            (1, CHANGE),
            (1, "collect 1"),
        ],
        shown_by_panel: false,
        shown_by_lone_job: false,
    },
    Exercise {
        fault: Fault::Change(ChangeFault::ZeroF),
        fault_text: "The change-over leaves f 0 in every seat: where that is none of a filled seat's, the record is out of order, and every later call is refused with 2.",
        calls: &[
            (1, OLD),
            (1, "submit matrix 1000 1000 1000 steps 1 size 1 1 pixels 7"),
            (1, CHANGE),
            (1, "tick"),
            (1, "collect 1"),
        ],
        shown_by_panel: false,
        shown_by_lone_job: false,
    },
    Exercise {
        fault: Fault::Turn(TurnFault::IdleUntilSubmit),
        fault_text: "After the change-over ticks are idle until a job is submitted.",
        calls: &[
            (1, OLD),
            (1, ONE_PIXEL),
            (1, CHANGE),
            (1, "tick"),
            (1, ONE_PIXEL),
            (1, "tick 2"),
            (1, "collect 1"),
        ],
        shown_by_panel: false,
        shown_by_lone_job: false,
    },
    Exercise {
        fault: Fault::Change(ChangeFault::AcceptedTwice),
        fault_text: "A change-over of a service that runs by the new rules is accepted, and gives each job held the smallest f.",
        calls: &[
            (1, "rules new"),
            (1, SPOT),
            (1, CHANGE),
            (1, "tick"),
            (1, "collect 1"),
        ],
        shown_by_panel: false,
        shown_by_lone_job: false,
    },
];
