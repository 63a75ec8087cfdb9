//! The response of an accelerator as the documents say it, each summand taken anew in numbers that cannot overflow.
use super::shares::{share, Sharing};
use razhikum::Channel;
use razhikum_bench::peer::read::Tree;

/// How a response is found: as the documents have it, or by a rule that is wrong.
#[derive(Clone, Copy, Debug, PartialEq)]
pub enum Responding {
    AsWritten,
    /// The wait for new windows is not counted, as before document 02's item 8.
    WindowsLeftOut,
    /// N / b is rounded down.
    RoundedDown,
    /// One more than N / b rounded down, also where b divides N.
    OneMore,
    /// A window is counted on a channel where N is 0.
    WindowWithoutJob,
    /// A window counts for one slot.
    WithoutP,
    /// A window counts with the slot time of the other channel.
    OtherSlotTime,
    /// A window counts with the time of a transaction alone.
    AloneTime,
    /// Each transaction waits for a window of its own, whatever the budget.
    WindowForEach,
    /// The windows of both channels pass at the same time, so that only those of the channel with more slots of waiting count.
    LongerChannel,
}

/// The windows that are counted for n transactions and budget b.
fn windows(n: u128, b: u128, responding: Responding) -> u128 {
    match responding {
        Responding::WindowsLeftOut => 0,
        Responding::RoundedDown => n / b,
        Responding::OneMore => n / b + 1,
        Responding::WindowWithoutJob if n == 0 => 1,
        Responding::WindowForEach => n,
        _ => n / b + u128::from(!n.is_multiple_of(b)),
    }
}

/// "C + Nr × alone read + Yr × slot read, plus the same for writes", and each channel "adds ceil(N / b) × P × slot time of that channel".
pub fn response(tree: &Tree, a: u8, responding: Responding) -> u128 {
    let (bus, job) = (&tree.bus, &tree.accelerators[a as usize]);
    let level = u128::from(tree.interconnects[job.interconnect as usize].level);
    let [ta, da, dd, db, pr, pw, td, tb, beats] =
        [bus.ta, bus.da, bus.dd, bus.db, bus.pr, bus.pw, bus.td, bus.tb, bus.burst].map(u128::from);
    let slot = [ta + pr + beats * td, ta + beats * td + pw + tb];
    let alone =
        [ta + level * da + pr + level * dd + beats * td, ta + level * da.max(dd) + beats * td + pw + tb + level * db];
    let (p, b) = (u128::from(bus.window), u128::from(job.budget));
    let jobs = [job.reads, job.writes].map(u128::from);
    let held = [0, 1].map(|c| {
        let window = match responding {
            Responding::WithoutP => slot[c],
            Responding::OtherSlotTime => p * slot[1 - c],
            Responding::AloneTime => p * alone[c],
            _ => p * slot[c],
        };
        windows(jobs[c], b, responding) * window
    });
    let waited = match responding {
        Responding::LongerChannel => held[0].max(held[1]),
        _ => held[0] + held[1],
    };
    let served = [0, 1].map(|c| {
        let share = u128::from(share(tree, Channel::BOTH[c], a, Sharing::AsWritten));
        jobs[c] * alone[c] + jobs[c] * (share - 1) * slot[c]
    });
    u128::from(job.computing) + served[0] + served[1] + waited
}
