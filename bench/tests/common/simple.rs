//! A simulator that is plain to see to be right, and slow: queues of single transactions, and every sum taken anew in each
//! slot.
use razhikum::{Channel, Ending, OWN};
use razhikum_bench::peer::read::{Port, Request, Tree};
use std::collections::VecDeque;

/// How a run is made: as the documents have it, or by a rule that is wrong.
#[derive(Clone, Copy, Debug, PartialEq)]
pub enum Making {
    AsWritten,
    /// Admitted counts never return to 0, as in the planner that this one replaces.
    BudgetOfWholeRun,
    /// The return delay is not looked at.
    HomeAtOnce,
    HomeOneSlotEarly,
    HomeOneSlotLate,
    /// A new window brings home whatever is on its way.
    HomeWithWindow,
    /// A run goes on until everything is home.
    DoneWhenHome,
    /// What a job has on the channel is not looked at.
    AdmitsWithoutJob,
    /// What a job has on the other channel is looked at.
    OtherChannel,
    /// Only a job that is empty on both channels keeps an accelerator from being admitted.
    JobOfEither,
    /// What is asked for without a job on the channel goes, and the run may be done.
    DropsWithoutJob,
}

/// A transaction that is served, with the slots in which it was requested, admitted and served, and how many of its own were before it.
#[derive(Clone, Copy)]
pub struct Service {
    pub accelerator: u8,
    requested: usize,
    pub admitted: usize,
    pub served: usize,
    pub before: usize,
}

/// Which slots of a transaction are listed, and with which meeting point: as document 02 has it, or by a rule that is wrong.
#[derive(Clone, Copy, Debug, PartialEq)]
pub enum Rule {
    AsWritten,
    FromRequest,
    AfterAdmission,
    UntilService,
    MeetAtRoot,
    MeetAtOwnHome,
    OwnByInterconnect,
}

struct Machine<'a> {
    tree: &'a Tree,
    channel: Channel,
    making: Making,
    /// Of each accelerator what waits, oldest first: the slots of request and of admission, and how many waited before it.
    queues: Vec<VecDeque<(usize, usize, usize)>>,
    /// Of each accelerator what is returning: the slots at whose start it is home.
    returning: Vec<Vec<usize>>,
    admitted: Vec<u16>,
    last: Vec<usize>,
    allowance: Vec<usize>,
}

impl Machine<'_> {
    fn waiting_under(&self, port: Port) -> usize {
        match port {
            Port::Empty => 0,
            Port::Acc(a) => self.queues[a as usize].len(),
            Port::Int(j) => {
                let ports = self.tree.interconnects[j as usize].ports;
                ports.iter().map(|&p| self.waiting_under(p)).sum()
            }
        }
    }

    /// Whether the job has transactions on the channel.
    fn has_job(&self, a: usize) -> bool {
        let job = &self.tree.accelerators[a];
        let (here, there) = match self.channel {
            Channel::Read => (job.reads, job.writes),
            Channel::Write => (job.writes, job.reads),
        };
        match self.making {
            Making::AdmitsWithoutJob => true,
            Making::OtherChannel => there > 0,
            Making::JobOfEither => here > 0 || there > 0,
            _ => here > 0,
        }
    }

    fn offer(&mut self, a: usize, requested: usize, slot: usize) -> bool {
        let limits = &self.tree.accelerators[a];
        let outstanding = self.queues[a].len() + self.returning[a].len();
        if !self.has_job(a) {
            return self.making == Making::DropsWithoutJob;
        }
        if outstanding == limits.phi as usize || self.admitted[a] == limits.budget {
            return false;
        }
        let before = self.queues[a].len();
        self.queues[a].push_back((requested, slot, before));
        self.admitted[a] += 1;
        true
    }

    fn choose(&mut self, i: usize) -> usize {
        let here = self.tree.interconnects[i];
        if self.allowance[i] == 0 {
            let after_last = (1..=8).map(|step| (self.last[i] + step) % 8);
            let live = |p: &usize| self.waiting_under(here.ports[*p]) > 0;
            let port = after_last.clone().find(live).expect("something waits");
            self.last[i] = port;
            self.allowance[i] = self.waiting_under(here.ports[port]).min(here.granularity.into());
        }
        self.allowance[i] -= 1;
        match here.ports[self.last[i]] {
            Port::Empty => unreachable!("nothing waits under an empty port"),
            Port::Acc(a) => a as usize,
            Port::Int(j) => self.choose(j as usize),
        }
    }

    fn slot(&mut self, slot: usize) -> Option<Service> {
        if self.queues.iter().all(VecDeque::is_empty) {
            return None;
        }
        let a = self.choose(0);
        let (requested, admitted, before) = self.queues[a].pop_front().expect("the oldest transaction");
        let delay = match self.making {
            Making::HomeAtOnce => 0,
            Making::HomeOneSlotEarly => self.tree.bus.delay.saturating_sub(1),
            Making::HomeOneSlotLate => self.tree.bus.delay + 1,
            _ => self.tree.bus.delay,
        };
        self.returning[a].push(slot + 1 + delay as usize);
        Some(Service { accelerator: a as u8, requested, admitted, served: slot, before })
    }

    /// What is due at the start of this slot is home.
    fn bring_home(&mut self, slot: usize) {
        for returning in &mut self.returning {
            returning.retain(|&due| due > slot);
        }
    }

    fn open_window(&mut self) {
        if self.making != Making::BudgetOfWholeRun {
            self.admitted.fill(0);
        }
        if self.making == Making::HomeWithWindow {
            self.returning.iter_mut().for_each(Vec::clear);
        }
    }

    /// Whether nothing is left of what was admitted.
    fn is_empty(&self) -> bool {
        let none_waits = self.queues.iter().all(VecDeque::is_empty);
        none_waits && (self.making != Making::DoneWhenHome || self.returning.iter().all(Vec::is_empty))
    }
}

/// Runs the requests on a channel, one byte a slot, and gives what was served besides.
pub fn run(
    tree: &Tree,
    channel: Channel,
    requests: &[Request],
    out: &mut [u8],
    making: Making,
) -> (Ending, Vec<Service>) {
    let n = tree.accelerators.len();
    let mut machine = Machine {
        tree,
        channel,
        making,
        queues: vec![VecDeque::new(); n],
        returning: vec![Vec::new(); n],
        admitted: vec![0; n],
        last: vec![7; tree.interconnects.len()],
        allowance: vec![0; tree.interconnects.len()],
    };
    // Of each accelerator the slots in which its held requests were made.
    let mut held = vec![VecDeque::new(); n];
    let mut services = Vec::new();
    let mut lines: VecDeque<Request> = requests.iter().copied().collect();
    for slot in 0.. {
        machine.bring_home(slot);
        let none_held = held.iter().all(VecDeque::is_empty);
        if lines.is_empty() && none_held && machine.is_empty() {
            return (Ending::Done(slot as u32), services);
        }
        if slot == out.len() {
            break;
        }
        while lines.front().is_some_and(|line| line.slot as usize <= slot) {
            let line = lines.pop_front().expect("a line is due");
            held[line.accelerator as usize].extend(vec![slot; line.count.into()]);
        }
        for (a, held) in held.iter_mut().enumerate() {
            while held.front().is_some_and(|&requested| machine.offer(a, requested, slot)) {
                held.pop_front();
            }
        }
        let service = machine.slot(slot);
        out[slot] = service.map_or(255, |s| s.accelerator);
        services.extend(service);
        if (slot as u32 + 1).is_multiple_of(tree.bus.window) {
            machine.open_window();
        }
    }
    (Ending::Stopped(out.len() as u32), services)
}

/// The interconnects from that of an accelerator up to the root.
fn path(tree: &Tree, a: u8) -> Vec<u8> {
    let mut path = vec![tree.accelerators[a as usize].interconnect];
    while let Some(&below @ 1..) = path.last() {
        path.push(tree.interconnects[below as usize].parent);
    }
    path
}

fn met(tree: &Tree, a: u8, b: u8, rule: Rule) -> u8 {
    let (of_a, of_b) = (path(tree, a), path(tree, b));
    match rule {
        _ if a == b && rule != Rule::OwnByInterconnect => OWN,
        Rule::MeetAtRoot => 0,
        Rule::MeetAtOwnHome => of_a[0],
        _ => *of_a.iter().find(|i| of_b.contains(i)).expect("every path ends at the root"),
    }
}

/// The slot of admission and the pairs of the transaction of this number, from 1, of an accelerator: none where it is not served.
pub fn why(tree: &Tree, services: &[Service], a: u8, number: u32, rule: Rule) -> Option<(usize, Vec<[u8; 2]>)> {
    let at = usize::try_from(number).ok()?.checked_sub(1)?;
    let asked = services.iter().filter(|s| s.accelerator == a).nth(at)?;
    let from = match rule {
        Rule::FromRequest => asked.requested,
        Rule::AfterAdmission => asked.admitted + 1,
        _ => asked.admitted,
    };
    let until = asked.served + usize::from(rule == Rule::UntilService);
    let listed = services.iter().filter(|s| from <= s.served && s.served < until);
    let pairs = listed.map(|s| [s.accelerator, met(tree, a, s.accelerator, rule)]);
    Some((from, pairs.collect()))
}
