//! The machine of one channel with the held requests before it ("Turns"; document 02, items 2 and 5). What waits under each port and the
//! set of live ports of each interconnect are kept, and brought up to date along the one path that an admission or a service touches.
use crate::peer::read::{Port, Tree};
use razhikum::Channel;

const IDLE: u8 = 255;

#[derive(Clone, Copy, Default)]
struct Turn {
    /// What waits under each port.
    waiting: [u16; 8],
    ports: [Port; 8],
    /// One bit for each port with something waiting under it.
    live: u8,
    last: u8,
    allowance: u8,
    granularity: u8,
    parent: u8,
    port: u8,
}

#[derive(Clone, Copy, Default)]
struct Record {
    held: u32,
    admitted: u16,
    budget: u16,
    /// What waits and what is returning.
    outstanding: u8,
    /// How many may be outstanding on this channel: 0 where the job has none, so that none is ever admitted.
    limit: u8,
    interconnect: u8,
    port: u8,
}

pub struct Machine {
    turns: [Turn; 15],
    records: [Record; 32],
    /// One bit for each accelerator that holds requests.
    holding: u32,
    /// Of these, those whose next offer might be admitted.
    ready: u32,
    /// Who was served in each of the last 16 slots, slot s at place s % 16.
    served: [u8; 16],
    delay: u32,
    slot: u32,
    /// Slots left in this window.
    left: u32,
    window: u32,
}

/// The first live port after the last one, circling 7 to 0 and ending with the last one itself.
fn next_port(live: u8, last: u8) -> u8 {
    let first = (last + 1) % 8;
    (first + live.rotate_right(first.into()).trailing_zeros() as u8) % 8
}

impl Machine {
    /// The fresh state of a channel: nothing waits, and the last port of every interconnect is 7.
    pub fn fresh(tree: &Tree, channel: Channel) -> Machine {
        let mut turns = [Turn::default(); 15];
        for (turn, from) in turns.iter_mut().zip(&tree.interconnects) {
            turn.ports = from.ports;
            turn.last = 7;
            turn.granularity = from.granularity;
            turn.parent = from.parent;
            turn.port = from.port;
        }
        let mut records = [Record::default(); 32];
        for (record, from) in records.iter_mut().zip(&tree.accelerators) {
            record.budget = from.budget;
            record.limit = from.limit(channel);
            record.interconnect = from.interconnect;
            record.port = from.port;
        }
        let (delay, window) = (tree.bus.delay, tree.bus.window);
        Machine { turns, records, holding: 0, ready: 0, served: [IDLE; 16], delay, slot: 0, left: window, window }
    }

    pub fn slot(&self) -> u32 {
        self.slot
    }

    /// What accelerator a holds and what waits of it.
    pub fn pending(&self, a: u8) -> u32 {
        self.records[a as usize].held + self.waiting(a)
    }

    /// What waits of accelerator a: what waits under its own port.
    pub fn waiting(&self, a: u8) -> u32 {
        let record = &self.records[a as usize];
        self.turns[record.interconnect as usize].waiting[record.port as usize].into()
    }

    pub fn hold(&mut self, a: u8, count: u8) {
        self.records[a as usize].held += u32::from(count);
        self.holding |= 1 << a;
        self.ready |= 1 << a;
    }

    pub fn nothing_pending(&self) -> bool {
        self.holding == 0 && self.turns[0].live == 0
    }

    /// Accelerators in rising number offer until one offer is refused or none is left. An offer's answer depends only on
    /// its own record, so all that are admitted are admitted at once.
    pub fn offer(&mut self) {
        while self.ready != 0 {
            let a = self.ready.trailing_zeros();
            self.ready &= self.ready - 1;
            let record = &mut self.records[a as usize];
            let room = u32::from(record.limit - record.outstanding);
            let budget = u32::from(record.budget - record.admitted);
            let count = record.held.min(room).min(budget);
            if count == 0 {
                continue;
            }
            record.held -= count;
            record.outstanding += count as u8;
            record.admitted += count as u16;
            if record.held == 0 {
                self.holding &= !(1 << a);
            }
            let (mut i, mut port) = (record.interconnect, record.port);
            loop {
                let turn = &mut self.turns[i as usize];
                turn.waiting[port as usize] += count as u16;
                turn.live |= 1 << port;
                if i == 0 {
                    break;
                }
                (i, port) = (turn.parent, turn.port);
            }
        }
    }

    /// One slot: the accelerator served, or 255.
    pub fn serve(&mut self) -> u8 {
        let served = if self.turns[0].live == 0 { IDLE } else { self.descend() };
        self.bring_home(served);
        self.slot += 1;
        self.left -= 1;
        if self.left == 0 {
            self.left = self.window;
            for record in &mut self.records {
                record.admitted = 0;
            }
            self.ready = self.holding;
        }
        served
    }

    /// "A transaction served in slot s stops being outstanding at the start of slot s + 1 + r": the next slot begins, so it is the one
    /// served r slots ago.
    fn bring_home(&mut self, served: u8) {
        let home = if self.delay == 0 {
            served
        } else {
            self.served[self.slot as usize % 16] = served;
            self.served[self.slot.wrapping_sub(self.delay) as usize % 16]
        };
        if home != IDLE {
            self.records[home as usize].outstanding -= 1;
            self.ready |= self.holding & (1 << home);
        }
    }

    fn descend(&mut self) -> u8 {
        let mut i = 0;
        loop {
            let turn = &mut self.turns[i as usize];
            if turn.allowance == 0 {
                turn.last = next_port(turn.live, turn.last);
                let waiting = turn.waiting[turn.last as usize];
                turn.allowance = waiting.min(turn.granularity.into()) as u8;
            }
            turn.allowance -= 1;
            let port = turn.last as usize;
            turn.waiting[port] -= 1;
            if turn.waiting[port] == 0 {
                turn.live &= !(1 << port);
            }
            match turn.ports[port] {
                Port::Int(j) => i = j,
                Port::Acc(a) => return a,
                Port::Empty => unreachable!("nothing waits under an empty port"),
            }
        }
    }
}
