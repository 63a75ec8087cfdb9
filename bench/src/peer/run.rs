//! The runner ("Turns", last paragraph), of one channel. "In a run its held requests stay held, so that run is stopped": they are held by
//! the machine, which admits none of them, and a run is not done while any are.
use crate::peer::machine::Machine;
use crate::peer::read::{read_trace, read_tree, Request, Tree};
use razhikum::{Channel, Ending, FileRefused, Refused, LIMIT};

/// Holds the requests that are due in this slot, and gives those that are left.
pub fn hold_due<'a>(machine: &mut Machine, mut left: &'a [Request], slot: u32) -> &'a [Request] {
    while let Some((request, rest)) = left.split_first() {
        if request.slot > slot {
            break;
        }
        machine.hold(request.accelerator, request.count);
        left = rest;
    }
    left
}

/// Runs the requests from the fresh state of a channel, one byte a slot.
pub fn run_requests(tree: &Tree, channel: Channel, requests: &[Request], out: &mut [u8]) -> Ending {
    let mut machine = Machine::fresh(tree, channel);
    let mut left = requests;
    for (slot, byte) in out.iter_mut().enumerate() {
        if left.is_empty() && machine.nothing_pending() {
            return Ending::Done(slot as u32);
        }
        left = hold_due(&mut machine, left, slot as u32);
        machine.offer();
        *byte = machine.serve();
    }
    if left.is_empty() && machine.nothing_pending() {
        Ending::Done(out.len() as u32)
    } else {
        Ending::Stopped(out.len() as u32)
    }
}

/// Runs a trace file on a tree file. "the runner 11, buffer size, trace": a tree that is read keeps its rules.
pub fn run(tree: &[u8], channel: Channel, trace: &[u8], out: &mut [u8]) -> Result<Ending, FileRefused> {
    let tree = read_tree(tree).map_err(FileRefused::Tree)?;
    if out.len() > LIMIT {
        return Err(FileRefused::Trace(Refused::by(2, 0)));
    }
    let requests = read_trace(tree.accelerators.len(), trace).map_err(FileRefused::Trace)?;
    Ok(run_requests(&tree, channel, &requests, out))
}
