//! Why a transaction of a channel waited (document 02, items 1 and 5).
use crate::peer::machine::Machine;
use crate::peer::read::{read_trace, read_tree, Request, Tree};
use crate::peer::run::hold_due;
use razhikum::{Channel, Refused, Wait, WaitRefused, LIMIT, OWN};
use std::collections::VecDeque;
use std::iter::repeat_n;

/// The deepest interconnect above both accelerator a and each other one.
fn meetings(tree: &Tree, a: u8) -> [u8; 32] {
    let mut beneath = [0u32; 15];
    for (b, accelerator) in tree.accelerators.iter().enumerate() {
        beneath[accelerator.interconnect as usize] |= 1 << b;
    }
    // A parent is smaller than its child, so each set is whole before it is passed up.
    for (i, interconnect) in tree.interconnects.iter().enumerate().skip(1).rev() {
        beneath[interconnect.parent as usize] |= beneath[i];
    }
    // Those above a, by rising number, go down from the root: the last one above both is the deepest.
    let mut met = [0; 32];
    for (i, set) in beneath.iter().enumerate().filter(|(_, set)| *set >> a & 1 == 1) {
        for (b, at) in met.iter_mut().enumerate() {
            if set >> b & 1 == 1 {
                *at = i as u8;
            }
        }
    }
    met
}

/// The bytes of the run up to the service of this transaction, and the slot of its admission: none where the run ends before.
fn until_served(tree: &Tree, channel: Channel, requests: &[Request], a: u8, number: u32) -> Option<(Vec<u8>, u32)> {
    let mut machine = Machine::fresh(tree, channel);
    let mut left = requests;
    let mut bytes = Vec::new();
    // The slots of admission of those of accelerator a that wait, oldest first.
    let mut queue = VecDeque::new();
    let mut served = 0;
    for slot in 0..LIMIT as u32 {
        if left.is_empty() && machine.nothing_pending() {
            return None;
        }
        left = hold_due(&mut machine, left, slot);
        machine.offer();
        queue.extend(repeat_n(slot, machine.waiting(a) as usize - queue.len()));
        let byte = machine.serve();
        if byte == a {
            let admission = queue.pop_front().expect("what is served was admitted");
            served += 1;
            if served == number {
                return Some((bytes, admission));
            }
        }
        bytes.push(byte);
    }
    None
}

/// "after all checks of the runner 7, then 12": what is written is written after these.
pub fn why<'a>(
    tree: &[u8],
    channel: Channel,
    trace: &[u8],
    accelerator: u8,
    number: u32,
    out: &'a mut [u8],
) -> Result<Wait<'a>, WaitRefused> {
    let tree = read_tree(tree).map_err(WaitRefused::Tree)?;
    if out.len() > LIMIT {
        return Err(WaitRefused::Trace(Refused::by(2, 0)));
    }
    let requests = read_trace(tree.accelerators.len(), trace).map_err(WaitRefused::Trace)?;
    if usize::from(accelerator) >= tree.accelerators.len() {
        return Err(WaitRefused::Call(Refused::by(7, 0)));
    }
    let told = until_served(&tree, channel, &requests, accelerator, number);
    let (bytes, slot) = told.ok_or(WaitRefused::Call(Refused::by(12, 0)))?;
    let waited = &bytes[slot as usize..];
    let met = meetings(&tree, accelerator);
    let pairs = out.as_chunks_mut().0;
    let mut listed = 0;
    for (pair, &b) in pairs.iter_mut().zip(waited) {
        *pair = [b, if b == accelerator { OWN } else { met[b as usize] }];
        listed += 1;
    }
    Ok(Wait { count: waited.len() as u32, slot, pairs: &pairs[..listed] })
}
