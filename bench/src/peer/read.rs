//! The readers of tree and trace files ("The tree on paper", "What is refused"; document 02, item 2, for the return delay, and item 7 for
//! the name of the bus record).
use razhikum::{Channel, Refused, LIMIT};

/// What the bus speaks: "AMBA AXI3 allows bursts of at most 16 beats, AXI4 incrementing bursts of up to 256".
#[derive(Clone, Copy, Debug, Default, PartialEq, Eq)]
pub enum Axi {
    Axi3,
    #[default]
    Axi4,
}

impl Axi {
    pub const BOTH: [Axi; 2] = [Axi::Axi3, Axi::Axi4];

    /// The name of its bus record.
    pub const fn name(self) -> &'static str {
        match self {
            Axi::Axi3 => "bus3",
            Axi::Axi4 => "bus",
        }
    }

    /// The most beats of a burst: of the nominal length B, and of what is cut to it.
    pub const fn beats(self) -> u32 {
        match self {
            Axi::Axi3 => 16,
            Axi::Axi4 => 256,
        }
    }
}

#[derive(Clone, Copy, Debug, Default, PartialEq, Eq)]
pub struct Bus {
    pub axi: Axi,
    pub window: u32,
    pub ta: u64,
    pub da: u64,
    pub dd: u64,
    pub db: u64,
    pub pr: u64,
    pub pw: u64,
    pub td: u64,
    pub tb: u64,
    pub burst: u64,
    /// The return delay, in slots.
    pub delay: u32,
}

#[derive(Clone, Copy, Debug, Default, PartialEq, Eq)]
pub enum Port {
    #[default]
    Empty,
    Acc(u8),
    Int(u8),
}

/// An interconnect. The root's own parent and port are 0 and mean nothing.
#[derive(Clone, Copy, Debug, Default, PartialEq, Eq)]
pub struct Interconnect {
    pub parent: u8,
    pub port: u8,
    pub granularity: u8,
    pub level: u8,
    pub ports: [Port; 8],
}

#[derive(Clone, Copy, Debug, Default, PartialEq, Eq)]
pub struct Accelerator {
    pub interconnect: u8,
    pub port: u8,
    pub phi: u8,
    pub budget: u16,
    pub reads: u64,
    pub writes: u64,
    pub computing: u64,
    pub period: u64,
}

impl Accelerator {
    /// The transactions of a job on a channel.
    pub fn job(&self, channel: Channel) -> u64 {
        match channel {
            Channel::Read => self.reads,
            Channel::Write => self.writes,
        }
    }

    /// How many may be outstanding on a channel. "On a channel where a job has 0 transactions, the capacity of that accelerator now counts
    /// 0", and the machine for that channel admits none.
    pub fn limit(&self, channel: Channel) -> u8 {
        if self.job(channel) == 0 {
            0
        } else {
            self.phi
        }
    }
}

#[derive(Clone, Debug, Default, PartialEq, Eq)]
pub struct Tree {
    pub bus: Bus,
    pub interconnects: Vec<Interconnect>,
    pub accelerators: Vec<Accelerator>,
}

#[derive(Clone, Copy, Debug, PartialEq, Eq)]
pub struct Request {
    pub slot: u32,
    pub accelerator: u8,
    pub count: u8,
}

const SHAPE: u8 = 1;
const VALUE: u8 = 2;
const ORDER: u8 = 3;
const TAKEN: u8 = 4;
const LEVEL: u8 = 5;
const FALLING: u8 = 6;
const UNKNOWN: u8 = 7;

/// A place in a file. Each step answers none where the line has not the shape that is asked for: that is always 1, so a
/// line can be read in one pass.
struct Cursor<'a> {
    text: &'a [u8],
    at: usize,
}

impl Cursor<'_> {
    fn is_at_end(&self) -> bool {
        self.at == self.text.len()
    }

    fn byte(&mut self, wanted: u8) -> Option<()> {
        if *self.text.get(self.at)? != wanted {
            return None;
        }
        self.at += 1;
        Some(())
    }

    /// Steps over a record name, or a part of one, if it comes next.
    fn name(&mut self, name: &[u8]) -> bool {
        let found = self.text[self.at..].starts_with(name);
        if found {
            self.at += name.len();
        }
        found
    }

    /// "Numbers are decimal, 1 to 10 digits, no sign, no leading zero except 0 itself."
    fn number(&mut self) -> Option<u64> {
        let start = self.at;
        let mut value = 0;
        while let Some(digit) = self.text.get(self.at).map(|b| b.wrapping_sub(b'0')) {
            if digit > 9 {
                break;
            }
            if self.at == start + 10 {
                return None;
            }
            value = value * 10 + u64::from(digit);
            self.at += 1;
        }
        let digits = self.at - start;
        if digits == 0 || (digits > 1 && self.text[start] == b'0') {
            return None;
        }
        Some(value)
    }

    /// A number, or "-" as none.
    fn number_or_dash(&mut self) -> Option<Option<u64>> {
        if self.byte(b'-').is_some() {
            return Some(None);
        }
        self.number().map(Some)
    }

    /// So many fields, each after its tab.
    fn fields(&mut self, values: &mut [u64]) -> Option<()> {
        for value in values {
            self.byte(b'\t')?;
            *value = self.number()?;
        }
        Some(())
    }

    /// The fields of a line up to its LF.
    fn numbers<const N: usize>(&mut self) -> Option<[u64; N]> {
        let mut values = [0; N];
        self.fields(&mut values)?;
        self.byte(b'\n')?;
        Some(values)
    }
}

fn in_limits(values: &[u64], limits: &[(u64, u64)]) -> Result<(), u8> {
    let fits = |(v, (low, high)): (&u64, &(u64, u64))| low <= v && v <= high;
    if values.iter().zip(limits).all(fits) {
        Ok(())
    } else {
        Err(VALUE)
    }
}

const U32: u64 = 4_294_967_295;

/// P, tA, dA, dD, dB, pR, pW, tD, tB, B, r. B is held besides to what the bus speaks.
const BUS: [(u64, u64); 11] = [
    (1, 65_535),
    (1, 255),
    (0, 255),
    (0, 255),
    (0, 255),
    (0, 4_095),
    (0, 4_095),
    (1, 255),
    (1, 255),
    (1, 256),
    (0, 15),
];
/// number, parent, port, g
const INT: [(u64, u64); 4] = [(0, 14), (0, 14), (0, 7), (1, 16)];
/// number, interconnect, port, phi, budget, Nr, Nw, C, T
const ACC: [(u64, u64); 9] =
    [(0, 31), (0, 14), (0, 7), (1, 16), (1, 1_024), (0, 65_535), (0, 65_535), (0, U32), (1, U32)];

/// A tree file as far as it is read.
#[derive(Default)]
struct Reading {
    bus: Option<Bus>,
    interconnects: Vec<Interconnect>,
    accelerators: [Option<Accelerator>; 32],
}

impl Reading {
    fn line(&mut self, cursor: &mut Cursor) -> Result<(), u8> {
        if cursor.name(b"bus") {
            let axi = if cursor.name(b"3") { Axi::Axi3 } else { Axi::Axi4 };
            self.bus_line(axi, bus_fields(cursor).ok_or(SHAPE)?)
        } else if cursor.name(b"int") {
            let (number, parent, port, granularity) = int_fields(cursor).ok_or(SHAPE)?;
            self.int_line(number, parent, port, granularity)
        } else if cursor.name(b"acc") {
            self.acc_line(cursor.numbers().ok_or(SHAPE)?)
        } else {
            Err(SHAPE)
        }
    }

    /// "bus3 is a record name beside bus, with its fields and its place, and means AXI3: there B is at most 16."
    fn bus_line(&mut self, axi: Axi, v: [u64; 11]) -> Result<(), u8> {
        in_limits(&v, &BUS)?;
        let [window, ta, da, dd, db, pr, pw, td, tb, burst, delay] = v;
        if burst > axi.beats().into() {
            return Err(VALUE);
        }
        if self.bus.is_some() {
            return Err(ORDER);
        }
        let (window, delay) = (window as u32, delay as u32);
        self.bus = Some(Bus { axi, window, ta, da, dd, db, pr, pw, td, tb, burst, delay });
        Ok(())
    }

    fn int_line(&mut self, number: u64, parent: Option<u64>, port: Option<u64>, granularity: u64) -> Result<(), u8> {
        let values = [number, parent.unwrap_or(0), port.unwrap_or(0), granularity];
        in_limits(&values, &INT)?;
        let comes_next = number == self.interconnects.len() as u64;
        if self.bus.is_none() || self.accelerators.iter().any(Option::is_some) || !comes_next {
            return Err(ORDER);
        }
        let mut new = Interconnect { granularity: granularity as u8, level: 1, ..Default::default() };
        match (number, parent, port) {
            (0, None, None) => {}
            (1.., Some(parent), Some(port)) if parent < number => {
                self.take_port(parent, port, Port::Int(number as u8))?;
                new.parent = parent as u8;
                new.port = port as u8;
                new.level = self.interconnects[parent as usize].level + 1;
                if new.level > 4 {
                    return Err(LEVEL);
                }
            }
            _ => return Err(ORDER),
        }
        self.interconnects.push(new);
        Ok(())
    }

    fn acc_line(&mut self, v: [u64; 9]) -> Result<(), u8> {
        in_limits(&v, &ACC)?;
        let [number, interconnect, port, phi, budget, reads, writes, computing, period] = v;
        if interconnect >= self.interconnects.len() as u64 {
            return Err(ORDER);
        }
        if self.accelerators[number as usize].is_some() {
            return Err(ORDER);
        }
        self.take_port(interconnect, port, Port::Acc(number as u8))?;
        self.accelerators[number as usize] = Some(Accelerator {
            interconnect: interconnect as u8,
            port: port as u8,
            phi: phi as u8,
            budget: budget as u16,
            reads,
            writes,
            computing,
            period,
        });
        Ok(())
    }

    fn take_port(&mut self, interconnect: u64, port: u64, what: Port) -> Result<(), u8> {
        let place = &mut self.interconnects[interconnect as usize].ports[port as usize];
        if *place != Port::Empty {
            return Err(TAKEN);
        }
        *place = what;
        Ok(())
    }

    /// "A record missing at the end of the file, an accelerator number in a gap too, is 3."
    fn finish(self) -> Option<Tree> {
        let given = self.accelerators.iter().flatten().count();
        let accelerators: Vec<_> = self.accelerators.into_iter().map_while(|a| a).collect();
        if self.interconnects.is_empty() || given == 0 || accelerators.len() < given {
            return None;
        }
        Some(Tree { bus: self.bus?, interconnects: self.interconnects, accelerators })
    }
}

/// The fields of a bus line of either name. The last one, the return delay, may be absent: that means 0.
fn bus_fields(cursor: &mut Cursor) -> Option<[u64; 11]> {
    let mut values = [0; 11];
    let (always, delay) = values.split_at_mut(10);
    cursor.fields(always)?;
    if cursor.byte(b'\n').is_none() {
        cursor.fields(delay)?;
        cursor.byte(b'\n')?;
    }
    Some(values)
}

type IntFields = (u64, Option<u64>, Option<u64>, u64);

fn int_fields(cursor: &mut Cursor) -> Option<IntFields> {
    cursor.byte(b'\t')?;
    let number = cursor.number()?;
    cursor.byte(b'\t')?;
    let parent = cursor.number_or_dash()?;
    cursor.byte(b'\t')?;
    let port = cursor.number_or_dash()?;
    cursor.byte(b'\t')?;
    let granularity = cursor.number()?;
    cursor.byte(b'\n')?;
    Some((number, parent, port, granularity))
}

pub fn read_tree(text: &[u8]) -> Result<Tree, Refused> {
    if text.len() > LIMIT {
        return Err(Refused::by(VALUE, 0));
    }
    let mut cursor = Cursor { text, at: 0 };
    let mut reading = Reading::default();
    let mut line = 1;
    while !cursor.is_at_end() {
        reading.line(&mut cursor).map_err(|number| Refused::by(number, line))?;
        line += 1;
    }
    reading.finish().ok_or(Refused::by(ORDER, line))
}

/// The requests of a trace on a tree of so many accelerators.
pub fn read_trace(accelerators: usize, text: &[u8]) -> Result<Vec<Request>, Refused> {
    if text.len() > LIMIT {
        return Err(Refused::by(VALUE, 0));
    }
    let mut cursor = Cursor { text, at: 0 };
    let mut requests = Vec::with_capacity(text.len() / 8);
    let mut totals = [0u32; 32];
    let mut last = 0;
    let mut line = 1;
    while !cursor.is_at_end() {
        let request =
            offer(&mut cursor, accelerators, last, &mut totals).map_err(|number| Refused::by(number, line))?;
        last = request.slot;
        requests.push(request);
        line += 1;
    }
    Ok(requests)
}

/// One line of a trace: "1, 2 by field, 7, 6, 2 by total".
fn offer(cursor: &mut Cursor, accelerators: usize, last: u32, totals: &mut [u32; 32]) -> Result<Request, u8> {
    if !cursor.name(b"o") {
        return Err(SHAPE);
    }
    let [slot, accelerator, count] = cursor.numbers().ok_or(SHAPE)?;
    if slot >= U32 || count == 0 || count > 16 {
        return Err(VALUE);
    }
    if accelerator >= accelerators as u64 {
        return Err(UNKNOWN);
    }
    if slot < u64::from(last) {
        return Err(FALLING);
    }
    let total = &mut totals[accelerator as usize];
    *total += count as u32;
    if *total > 65_535 {
        return Err(VALUE);
    }
    Ok(Request { slot: slot as u32, accelerator: accelerator as u8, count: count as u8 })
}
