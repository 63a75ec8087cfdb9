//! What the planner answers, in the terms of `docs/FORMAT.md` and `docs/MODEL.md`.
use core::fmt;

/// Reads or writes. They travel apart, each on a machine of its own with the same tree and budgets: a run or a wait is of one of them,
/// and a trace holds the requests of that one. The machine of a channel admits nothing of an accelerator whose job has 0 transactions
/// there.
#[derive(Clone, Copy, Debug, PartialEq, Eq, Hash)]
pub enum Channel {
    /// The reads of the jobs.
    Read,
    /// The writes of the jobs.
    Write,
}

impl Channel {
    /// Both, reads first.
    pub const BOTH: [Channel; 2] = [Channel::Read, Channel::Write];

    /// The number of this channel, as the archive takes it.
    pub const fn number(self) -> u8 {
        match self {
            Channel::Read => 0,
            Channel::Write => 1,
        }
    }
}

impl fmt::Display for Channel {
    /// The word by which the programs take it.
    fn fmt(&self, f: &mut fmt::Formatter<'_>) -> fmt::Result {
        f.write_str(match self {
            Channel::Read => "read",
            Channel::Write => "write",
        })
    }
}

/// Why a file or a call is refused (`docs/FORMAT.md`, F45). Each cause has a number: [`Cause::number`], and back by `from`. Later
/// versions may have more causes.
#[derive(Clone, Copy, Debug, PartialEq, Eq, Hash)]
#[non_exhaustive]
pub enum Cause {
    /// 1: a line of wrong shape: record name, count of fields, a malformed number, a missing last LF.
    Shape,
    /// 2: a value, a total or a size outside its limits.
    Range,
    /// 3: a record out of order, misnumbered, on an unknown interconnect, or missing.
    Order,
    /// 4: a port already taken.
    PortTaken,
    /// 5: a level above 4.
    Level,
    /// 6: a trace slot smaller than in the line before.
    Falling,
    /// 7: no such accelerator.
    Unknown,
    /// 8: phi transactions of the accelerator are outstanding. No function here answers it.
    Outstanding,
    /// 9: the accelerator's budget of this window is used. No function here answers it.
    Budget,
    /// 10: the slot count is at its end. No function here answers it.
    LastSlot,
    /// 11: the configuration, the state or the joiner breaks its rules, or a piece is answered out of turn or after the last. No file
    /// gives such a configuration.
    Broken,
    /// 12: the number of a transaction is 0, or the run serves fewer of its accelerator.
    NotServed,
    /// 13: the buffer is shorter than the text.
    TooShort,
    /// 14: the accelerator's job has 0 transactions on this channel. No function here answers it.
    NoJob,
    /// 15: a burst of 0 or over 256 beats, over 16 where the tree file begins with `bus3`, or a beat size that is no power of two from
    /// 1 to 128.
    Burst,
    /// 16: a burst that crosses a multiple of 4,096 bytes, or the end of the 32-bit addresses.
    Page,
    /// A number that is none of these, so that every number has its cause. The archive of this version answers none.
    Other(u8),
}

impl From<u8> for Cause {
    fn from(number: u8) -> Cause {
        match number {
            1 => Cause::Shape,
            2 => Cause::Range,
            3 => Cause::Order,
            4 => Cause::PortTaken,
            5 => Cause::Level,
            6 => Cause::Falling,
            7 => Cause::Unknown,
            8 => Cause::Outstanding,
            9 => Cause::Budget,
            10 => Cause::LastSlot,
            11 => Cause::Broken,
            12 => Cause::NotServed,
            13 => Cause::TooShort,
            14 => Cause::NoJob,
            15 => Cause::Burst,
            16 => Cause::Page,
            other => Cause::Other(other),
        }
    }
}

impl Cause {
    /// The number of this cause, as the archive and the programs answer it.
    pub const fn number(self) -> u8 {
        match self {
            Cause::Shape => 1,
            Cause::Range => 2,
            Cause::Order => 3,
            Cause::PortTaken => 4,
            Cause::Level => 5,
            Cause::Falling => 6,
            Cause::Unknown => 7,
            Cause::Outstanding => 8,
            Cause::Budget => 9,
            Cause::LastSlot => 10,
            Cause::Broken => 11,
            Cause::NotServed => 12,
            Cause::TooShort => 13,
            Cause::NoJob => 14,
            Cause::Burst => 15,
            Cause::Page => 16,
            Cause::Other(other) => other,
        }
    }
}

impl fmt::Display for Cause {
    fn fmt(&self, f: &mut fmt::Formatter<'_>) -> fmt::Result {
        f.write_str(match self {
            Cause::Shape => "a line of wrong shape",
            Cause::Range => "a value, a total or a size outside its limits",
            Cause::Order => "a record out of order, misnumbered, on an unknown interconnect, or missing",
            Cause::PortTaken => "a port already taken",
            Cause::Level => "a level above 4",
            Cause::Falling => "a slot smaller than in the line before",
            Cause::Unknown => "no such accelerator",
            Cause::Outstanding => "as many transactions outstanding as phi allows",
            Cause::Budget => "the budget of this window used",
            Cause::LastSlot => "the slot count at its end",
            Cause::Broken => "a configuration, a state or a joiner that breaks its rules, or a piece out of turn",
            Cause::NotServed => "the run serves no transaction of this number",
            Cause::TooShort => "a buffer shorter than the text",
            Cause::NoJob => "no transactions on this channel in the accelerator's job",
            Cause::Burst => {
                "no count of beats from 1 to 256 (on bus3 from 1 to 16), or no beat size of 1, 2, 4 up to 128"
            }
            Cause::Page => "a burst that crosses a multiple of 4,096 bytes",
            Cause::Other(_) => "an unknown cause",
        })
    }
}

/// A refusal: its cause, and its line, counted from 1, or 0 where it has none (the size of a file or of a buffer; a call).
#[derive(Clone, Copy, Debug, PartialEq, Eq, Hash)]
pub struct Refused {
    /// Why.
    pub cause: Cause,
    /// Where.
    pub line: u32,
}

impl Refused {
    /// The refusal of this number at this line.
    pub fn by(number: u8, line: u32) -> Refused {
        Refused { cause: Cause::from(number), line }
    }
}

impl fmt::Display for Refused {
    fn fmt(&self, f: &mut fmt::Formatter<'_>) -> fmt::Result {
        write!(f, "refused by {}", self.cause.number())?;
        if self.line > 0 {
            write!(f, " at line {}", self.line)?;
        }
        write!(f, ": {}", self.cause)
    }
}

impl core::error::Error for Refused {}

/// A refusal of a call with two files: a tree that is refused comes first. The size of the output buffer counts to the trace.
#[derive(Clone, Copy, Debug, PartialEq, Eq, Hash)]
pub enum FileRefused {
    /// The tree file is refused.
    Tree(Refused),
    /// The tree file is accepted; the trace file, or the size of the output buffer, is refused.
    Trace(Refused),
}

impl fmt::Display for FileRefused {
    fn fmt(&self, f: &mut fmt::Formatter<'_>) -> fmt::Result {
        match self {
            FileRefused::Tree(refused) => write!(f, "tree {refused}"),
            FileRefused::Trace(refused) => write!(f, "trace {refused}"),
        }
    }
}

impl core::error::Error for FileRefused {}

/// A refusal of a wait: of a file, as [`FileRefused`] has it, or of the accelerator or the number that the call names.
#[derive(Clone, Copy, Debug, PartialEq, Eq, Hash)]
pub enum WaitRefused {
    /// The tree file is refused.
    Tree(Refused),
    /// The tree file is accepted; the trace file, or the size of the output buffer, is refused.
    Trace(Refused),
    /// Both files are accepted; the tree has no such accelerator, or the run serves no transaction of this number. It has no line.
    Call(Refused),
}

impl fmt::Display for WaitRefused {
    fn fmt(&self, f: &mut fmt::Formatter<'_>) -> fmt::Result {
        match self {
            WaitRefused::Tree(refused) => write!(f, "tree {refused}"),
            WaitRefused::Trace(refused) => write!(f, "trace {refused}"),
            WaitRefused::Call(refused) => write!(f, "{refused}"),
        }
    }
}

impl core::error::Error for WaitRefused {}

/// Why a transaction waited.
#[derive(Clone, Copy, Debug, PartialEq, Eq, Hash)]
pub struct Wait<'a> {
    /// How many slots it waited, those that do not fit the buffer included: 0 where it is served in the slot of its admission.
    pub count: u32,
    /// The slot of its admission, counted from 0; `slot + count` is the one that serves it. For how long it was held before its
    /// admission is not said.
    pub slot: u32,
    /// The slots that it waited, from that of its admission on, as far as the buffer holds them: the accelerator served, then the
    /// deepest interconnect that both paths cross, or [`OWN`](crate::OWN) where it is an earlier one of the same accelerator.
    pub pairs: &'a [[u8; 2]],
}

/// How a run ended, with the number of slots used.
#[derive(Clone, Copy, Debug, PartialEq, Eq, Hash)]
pub enum Ending {
    /// Everything that the trace asks for is served.
    Done(u32),
    /// The buffer is full, and something is left. So it always is where the trace asks for an accelerator whose job has 0 transactions
    /// on the channel: such requests stay held.
    Stopped(u32),
}

/// The bounds of one accelerator, by the names of the report's columns.
#[derive(Clone, Copy, Debug, PartialEq, Eq, Hash)]
pub struct Bound {
    /// The level of the interconnect that it is on; the root has level 1.
    pub level: u8,
    /// Its share of the read channel: within how many slots of that channel, counted from its admission, a read with none of its own
    /// before it is served. An accelerator whose job has no reads counts 0 in the `sr` of others; its own is given all the same.
    pub sr: u64,
    /// Its share of the write channel, likewise.
    pub sw: u64,
    /// The interference of its reads, in slots of the read channel.
    pub yr: u64,
    /// The interference of its writes, in slots of the write channel.
    pub yw: u64,
    /// The response of a job, in clock cycles: an upper bound on its time. On each channel that the job has transactions on it counts the
    /// wait for new windows, ceil(N / budget) windows for N transactions. It does not count the wait until an earlier answer is home,
    /// where the tree has a return delay.
    pub response: u64,
    /// Its period, in clock cycles.
    pub period: u64,
    /// Whether the response is at most the period.
    pub meets: bool,
}
