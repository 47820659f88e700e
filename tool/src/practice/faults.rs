//! The faults, by the call that has them. What each does is told where it is done: in [`super::faulty`], and in
//! [`super::wrong_steps`] for a tick's pixels.

/// One fault of a service.
#[derive(Clone, Copy, Debug, PartialEq, Eq)]
pub enum Fault {
    Submit(SubmitFault),
    Turn(TurnFault),
    Step(StepFault),
    Collect(CollectFault),
    Withdraw(WithdrawFault),
    Free(FreeFault),
    Change(ChangeFault),
}

#[derive(Clone, Copy, Debug, PartialEq, Eq)]
pub enum SubmitFault {
    RefusalTakesNumber,
    NumberAgain,
    EndHasNoKernel,
    FullBeforeKernel,
    FullAtSeven,
    FillsFromFirst,
    LastPixelNotCopied,
    SmallestForBoth,
}

/// Of a tick: whose turn it is, and when it is idle.
#[derive(Clone, Copy, Debug, PartialEq, Eq)]
pub enum TurnFault {
    IdleAtSeatSix,
    IdleHalfDone,
    SkipsFirst,
    BeginsAtFirst,
    IdleMovesOn,
    IdleUntilSubmit,
}

/// Of a tick: the pixels that its step leaves.
#[derive(Clone, Copy, Debug, PartialEq, Eq)]
pub enum StepFault {
    KernelServedLast,
    BufferOfWithdrawn,
    CountsOnly,
    AllStepsEarly,
    HalvesDown,
    OvalsLeanOver,
    RowBelow,
    EvenGrey,
    PixelsInPairs,
    SumOf32Bits,
    UsualChoice,
}

#[derive(Clone, Copy, Debug, PartialEq, Eq)]
pub enum CollectFault {
    RefusesAll,
    TakesLonger,
    SecondBuffer,
    StepBefore,
    WritesUnfinished,
    ClearsBuffers,
    RefusesEarlierJobs,
}

#[derive(Clone, Copy, Debug, PartialEq, Eq)]
pub enum WithdrawFault {
    MovesTurn,
    RefusesStarted,
}

#[derive(Clone, Copy, Debug, PartialEq, Eq)]
pub enum FreeFault {
    AlwaysSixteen,
    ForgetsWithdraws,
    FinishedAreFree,
    ForgetsEarlierJobs,
}

/// Of the record that a change-over leaves.
#[derive(Clone, Copy, Debug, PartialEq, Eq)]
pub enum ChangeFault {
    OtherF,
    ZeroF,
    ResetsNamedSeats,
    RestartsNumbers,
    RestartsJobs,
    AcceptedTwice,
}
