//! Single calls of the machine on a state that is handed in, with the numbers of their refusals ("Turns", "What is refused"; document 02,
//! items 2 and 5). Every sum is taken anew. The library does not export these calls, so that they are held to figures worked out by
//! hand, and its runs to lists of them.
use crate::peer::read::{Port, Tree};
use razhikum::Channel;

const UNKNOWN: u8 = 7;
const OUTSTANDING: u8 = 8;
const BUDGET: u8 = 9;
const LAST_SLOT: u8 = 10;
const BROKEN: u8 = 11;
const NO_JOB: u8 = 14;

/// A state of one channel. It may break its rules.
#[derive(Clone, Debug, PartialEq, Eq)]
pub struct State {
    pub waiting: [u8; 32],
    /// Bit d of an accelerator: one of its transactions was served d slots ago and is returning.
    pub returning: [u32; 32],
    pub admitted: [u16; 32],
    pub last: [u8; 15],
    pub allowance: [u8; 15],
    pub slot: u32,
    pub channel: Channel,
}

/// The fresh state of a channel.
pub fn fresh(tree: &Tree, channel: Channel) -> State {
    let mut last = [0; 15];
    last[..tree.interconnects.len()].fill(7);
    let (waiting, returning, admitted, allowance) = ([0; 32], [0; 32], [0; 32], [0; 15]);
    State { waiting, returning, admitted, last, allowance, slot: 0, channel }
}

impl State {
    fn waiting_under(&self, tree: &Tree, port: Port) -> u32 {
        match port {
            Port::Empty => 0,
            Port::Acc(a) => self.waiting[a as usize].into(),
            Port::Int(j) => {
                let ports = &tree.interconnects[j as usize].ports;
                ports.iter().map(|&port| self.waiting_under(tree, port)).sum()
            }
        }
    }

    /// What waits and what is returning.
    fn outstanding(&self, a: usize) -> u32 {
        u32::from(self.waiting[a]) + self.returning[a].count_ones()
    }

    /// Whether an accelerator keeps its rules. "A state where it has waiting or returning ones breaks its rules", where the job has 0
    /// transactions on the channel: what may be outstanding is then 0. Of what was admitted nothing is said.
    fn keeps_record(&self, tree: &Tree, a: usize) -> bool {
        let Some(accelerator) = tree.accelerators.get(a) else {
            return self.outstanding(a) == 0 && self.admitted[a] == 0;
        };
        let in_time = (1..=tree.bus.delay).fold(0, |bits, d| bits | 1 << d);
        self.outstanding(a) <= accelerator.limit(self.channel).into()
            && self.admitted[a] <= accelerator.budget
            && self.returning[a] & !in_time == 0
    }

    fn keeps_turn(&self, tree: &Tree, i: usize) -> bool {
        let (last, allowance) = (self.last[i], self.allowance[i]);
        let Some(interconnect) = tree.interconnects.get(i) else {
            return last == 0 && allowance == 0;
        };
        last < 8
            && allowance <= interconnect.granularity
            && u32::from(allowance) <= self.waiting_under(tree, interconnect.ports[last as usize])
    }

    pub fn keeps_rules(&self, tree: &Tree) -> bool {
        (0..32).all(|a| self.keeps_record(tree, a)) && (0..15).all(|i| self.keeps_turn(tree, i))
    }

    /// Offers one transaction: "11, 7, 8, 9", and "14 for an offer on a channel where the accelerator has 0 transactions, after 7 and
    /// before 8".
    pub fn offer(&mut self, tree: &Tree, a: u8) -> Result<(), u8> {
        if !self.keeps_rules(tree) {
            return Err(BROKEN);
        }
        let accelerator = tree.accelerators.get(usize::from(a)).ok_or(UNKNOWN)?;
        let a = usize::from(a);
        if accelerator.job(self.channel) == 0 {
            return Err(NO_JOB);
        }
        if self.outstanding(a) == u32::from(accelerator.phi) {
            return Err(OUTSTANDING);
        }
        if self.admitted[a] == accelerator.budget {
            return Err(BUDGET);
        }
        self.waiting[a] += 1;
        self.admitted[a] += 1;
        Ok(())
    }

    /// One slot: who is served, or nobody.
    pub fn serve(&mut self, tree: &Tree) -> Result<Option<u8>, u8> {
        if !self.keeps_rules(tree) {
            return Err(BROKEN);
        }
        if self.slot == u32::MAX {
            return Err(LAST_SLOT);
        }
        let served = (self.waiting_under(tree, Port::Int(0)) > 0).then(|| self.descend(tree, 0));
        if let Some(a) = served {
            self.waiting[a as usize] -= 1;
            self.returning[a as usize] |= 1;
        }
        let in_time = (1..=tree.bus.delay).fold(0, |bits, d| bits | 1 << d);
        for returning in &mut self.returning {
            *returning = *returning << 1 & in_time;
        }
        self.slot += 1;
        if self.slot.is_multiple_of(tree.bus.window) {
            self.admitted.fill(0);
        }
        Ok(served)
    }

    /// The accelerator that is chosen from an interconnect on.
    fn descend(&mut self, tree: &Tree, i: u8) -> u8 {
        let (interconnect, at) = (&tree.interconnects[i as usize], i as usize);
        if self.allowance[at] == 0 {
            let under = |port: u8| self.waiting_under(tree, interconnect.ports[port as usize]);
            let next = (1..=8).map(|step| (self.last[at] + step) % 8).find(|&port| under(port) > 0);
            let next = next.expect("something waits below");
            self.allowance[at] = under(next).min(interconnect.granularity.into()) as u8;
            self.last[at] = next;
        }
        self.allowance[at] -= 1;
        match interconnect.ports[self.last[at] as usize] {
            Port::Empty => unreachable!("nothing waits under an empty port"),
            Port::Acc(a) => a,
            Port::Int(j) => self.descend(tree, j),
        }
    }
}
