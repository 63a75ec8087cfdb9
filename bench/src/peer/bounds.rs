//! Capacity, share, interference, response and verdict ("Bounds"; document 02, item 5, for the channels, and item 8 for the windows).
use crate::peer::read::{read_tree, Port, Tree};
use razhikum::{Bound, Channel, Refused};

/// A tree on a channel, with what may be outstanding beneath each interconnect: the sum of the limits down to the accelerators.
struct OnChannel<'a> {
    tree: &'a Tree,
    channel: Channel,
    beneath: [u64; 15],
}

impl<'a> OnChannel<'a> {
    fn of(tree: &'a Tree, channel: Channel) -> OnChannel<'a> {
        let mut beneath = [0; 15];
        for accelerator in &tree.accelerators {
            beneath[accelerator.interconnect as usize] += u64::from(accelerator.limit(channel));
        }
        // A parent is smaller than its child, so each sum is whole before it is passed up.
        for (i, interconnect) in tree.interconnects.iter().enumerate().skip(1).rev() {
            beneath[interconnect.parent as usize] += beneath[i];
        }
        OnChannel { tree, channel, beneath }
    }

    /// 1 + D at an interconnect for one of its ports: each other port counts for the smaller of g and its capacity.
    fn factor(&self, interconnect: u8, own_port: u8) -> u64 {
        let at = &self.tree.interconnects[interconnect as usize];
        let mut factor = 1;
        for (port, carried) in at.ports.iter().enumerate() {
            if port == own_port as usize {
                continue;
            }
            let capacity = match *carried {
                Port::Empty => 0,
                Port::Acc(a) => self.tree.accelerators[a as usize].limit(self.channel).into(),
                Port::Int(j) => self.beneath[j as usize],
            };
            factor += capacity.min(u64::from(at.granularity));
        }
        factor
    }

    fn share(&self, a: usize) -> u64 {
        let accelerator = &self.tree.accelerators[a];
        let mut interconnect = accelerator.interconnect;
        let mut share = self.factor(interconnect, accelerator.port);
        while interconnect != 0 {
            let at = &self.tree.interconnects[interconnect as usize];
            share *= self.factor(at.parent, at.port);
            interconnect = at.parent;
        }
        share
    }
}

/// The bounds of an accelerator, from the tree on the read channel and on the write channel.
fn bound_with([reads, writes]: &[OnChannel; 2], a: usize) -> Bound {
    let bus = &reads.tree.bus;
    let accelerator = &reads.tree.accelerators[a];
    let level = reads.tree.interconnects[accelerator.interconnect as usize].level;
    let l = u64::from(level);
    let (sr, sw) = (reads.share(a), writes.share(a));
    let yr = accelerator.reads * (sr - 1);
    let yw = accelerator.writes * (sw - 1);
    let words = bus.burst * bus.td;
    let alone_read = bus.ta + l * bus.da + bus.pr + l * bus.dd + words;
    let alone_write = bus.ta + l * bus.da.max(bus.dd) + words + bus.pw + bus.tb + l * bus.db;
    let slot_read = bus.ta + bus.pr + words;
    let slot_write = bus.ta + words + bus.pw + bus.tb;
    // In slots, "ceil(N / b) × P": so long a job may be held for new windows.
    let budget = u64::from(accelerator.budget);
    let held = |n: u64| n.div_ceil(budget) * u64::from(bus.window);
    let response = accelerator.computing
        + accelerator.reads * alone_read
        + (yr + held(accelerator.reads)) * slot_read
        + accelerator.writes * alone_write
        + (yw + held(accelerator.writes)) * slot_write;
    Bound { level, sr, sw, yr, yw, response, period: accelerator.period, meets: response <= accelerator.period }
}

/// The bounds of all accelerators, rising by number.
pub fn bounds(tree: &Tree) -> impl Iterator<Item = Bound> + '_ {
    let channels = Channel::BOTH.map(|channel| OnChannel::of(tree, channel));
    (0..tree.accelerators.len()).map(move |a| bound_with(&channels, a))
}

/// The bounds of an accelerator of a tree file: without one of this number 7, which has no line.
pub fn bound(text: &[u8], accelerator: u8) -> Result<Bound, Refused> {
    let tree = read_tree(text)?;
    if usize::from(accelerator) >= tree.accelerators.len() {
        return Err(Refused::by(7, 0));
    }
    Ok(bound_with(&Channel::BOTH.map(|channel| OnChannel::of(&tree, channel)), accelerator.into()))
}
