//! The Razhikum planner for Rust: whether the blocks of a tree of interconnects meet their periods, which block is served in
//! which slot of a channel, and why a burst waited; a tree written back; and long bursts cut to the tree's nominal length, with the
//! joiner of the pieces' answers. The work is done by the proved static library `librazhikum.a`, which `bash tools/archive` writes
//! for x86-64; this package wraps it: slices in, enums and structs out.
//!
//! No function of the library has a condition on the values that it is given, so every call is safe and answers every input,
//! files of any bytes included. What C passes as a pointer and a length comes from a slice here. Files are those of
//! `docs/FORMAT.md`; what is computed is in `docs/MODEL.md`. The stack that a call needs is said in `include/razhikum.h`.
//!
//! A tree file begins with a line `bus` for a board of AMBA AXI4, whose bursts have at most 256 beats, or `bus3` for one of AXI3, whose
//! bursts have at most 16. Its fields are the same. The name limits the nominal burst length B and what [`split`] takes, and is kept by
//! [`rewrite`]; nothing else depends on it.
//!
//! Any number of threads may call at the same time: the library has no memory of its own. It writes its caller's stack and the
//! buffer or the arrays that the call lends, and nothing else.
//!
//! ```
//! let tree = b"bus\t8\t1\t4\t2\t2\t30\t25\t1\t1\t16\n\
//!              int\t0\t-\t-\t1\n\
//!              acc\t0\t0\t0\t4\t2\t10\t5\t1000\t2000\n\
//!              acc\t1\t0\t3\t4\t2\t1\t0\t0\t100\n";
//! assert_eq!(razhikum::count(tree)?, 2);
//! let camera = razhikum::bound(tree, 0)?;
//! assert_eq!((camera.sr, camera.sw, camera.yr, camera.yw), (2, 1, 10, 0));
//! assert_eq!((camera.response, camera.period, camera.meets), (5157, 2000, false));
//!
//! use razhikum::{Channel, Ending};
//! let trace = b"o\t0\t0\t2\no\t0\t1\t1\n";
//! let mut served = [0; 4];
//! assert_eq!(razhikum::run(tree, Channel::Read, trace, &mut served)?, Ending::Done(3));
//! assert_eq!(served[..3], [0, 1, 0]);
//! // Accelerator 1 never writes: as a trace of writes this is stopped, with its request still held.
//! assert_eq!(razhikum::run(tree, Channel::Write, trace, &mut served)?, Ending::Stopped(4));
//! assert_eq!(served, [0, 0, razhikum::IDLE, razhikum::IDLE]);
//!
//! let mut list = [0; 16];
//! let wait = razhikum::why(tree, Channel::Read, trace, 0, 2, &mut list)?;
//! assert_eq!((wait.slot, wait.count), (0, 2));
//! assert_eq!(wait.pairs, [[0, razhikum::OWN], [1, 0]]);
//!
//! let mut text = [0; razhikum::TREE_TEXT];
//! assert_eq!(razhikum::rewrite(tree, &mut text)?, tree);
//!
//! // A burst of 40 beats of 4 bytes, cut to 16 beats, and the answers of its pieces.
//! use razhikum::{Burst, Joining, PIECES};
//! let (mut starts, mut beats) = ([0; PIECES], [0; PIECES]);
//! let pieces = razhikum::split(tree, Burst { start: 5, beats: 40, size: 4 }, &mut starts, &mut beats)?;
//! assert_eq!(pieces.iter().last(), Some(Burst { start: 132, beats: 8, size: 4 }));
//! let mut joiner = pieces.joiner();
//! assert_eq!([joiner.join(1)?, joiner.join(2)?, joiner.join(3)?], [Joining::Taken, Joining::Taken, Joining::Done]);
//!
//! let refused = razhikum::bound(tree, 2).unwrap_err();
//! assert_eq!(refused.cause, razhikum::Cause::Unknown);
//! # Ok::<(), Box<dyn std::error::Error>>(())
//! ```
#![no_std]
#![warn(missing_docs)]

mod answers;
mod bursts;
mod raw;

pub use answers::{Bound, Cause, Channel, Ending, FileRefused, Refused, Wait, WaitRefused};
pub use bursts::{split, Burst, Joiner, Joining, Pieces, PIECES};

/// The version of this wrapper: 10,000 for each first figure, 100 for each second, 1 for each third.
pub const VERSION: u32 = 30_000;

/// The size of the page that a report is put on, in bytes.
pub const PAGE: usize = 65_536;

/// The most bytes that a file and the buffer of a run, of a wait or of a tree's text may have; a run has as many slots.
pub const LIMIT: usize = 65_536;

/// The most bytes of a tree's text as [`rewrite`] writes it: a buffer of so many bytes is long enough for every tree.
pub const TREE_TEXT: usize = 1_973;

/// The byte of an idle slot.
pub const IDLE: u8 = 255;

/// In a pair of a wait, in place of an interconnect: the same accelerator is served.
pub const OWN: u8 = 255;

fn refusal(number: u8, line: u32) -> Result<(), Refused> {
    match number {
        0 => Ok(()),
        _ => Err(Refused::by(number, line)),
    }
}

/// The version of the archive that is linked. Where it is not [`VERSION`], wrapper and archive do not belong together.
pub fn version() -> u32 {
    unsafe { raw::razhikum_version() }
}

/// Whether a tree file is accepted.
pub fn read_tree(tree: &[u8]) -> Result<(), Refused> {
    let r = unsafe { raw::razhikum_read_tree(tree.as_ptr(), tree.len()) };
    refusal(r.number, r.line)
}

/// Whether a tree file and, on its tree, a trace file are accepted.
pub fn read_trace(tree: &[u8], trace: &[u8]) -> Result<(), FileRefused> {
    let r = unsafe { raw::razhikum_read_trace(tree.as_ptr(), tree.len(), trace.as_ptr(), trace.len()) };
    let why = Refused::by(r.number, r.line);
    match r.file {
        0 => Ok(()),
        1 => Err(FileRefused::Tree(why)),
        _ => Err(FileRefused::Trace(why)),
    }
}

/// How many accelerators a tree file has. They are numbered from 0 on.
pub fn count(tree: &[u8]) -> Result<u8, Refused> {
    let r = unsafe { raw::razhikum_count(tree.as_ptr(), tree.len()) };
    refusal(r.number, r.line)?;
    Ok(r.accelerators)
}

/// Puts the report of a tree file at the beginning of `page`, and gives that part of it. The bytes past it keep their contents;
/// on a refusal all do.
pub fn report<'a>(tree: &[u8], page: &'a mut [u8; PAGE]) -> Result<&'a [u8], Refused> {
    let r = unsafe { raw::razhikum_report(tree.as_ptr(), tree.len(), page.as_mut_ptr()) };
    refusal(r.number, r.line)?;
    Ok(&page[..r.bytes])
}

/// Writes the tree of a tree file back at the beginning of `out`, and gives that part of it: the bus line, with its name, `bus` or
/// `bus3`, and without a return delay of 0, the int lines by number, and the acc lines by interconnect and then by port, whatever their
/// order in the file. Read again it gives the same tree, and two files of one tree give the same bytes. The bytes past it keep their
/// contents; on a refusal all do.
///
/// Refused as the tree is, then by [`Cause::Range`] where `out` is longer than [`LIMIT`], then by [`Cause::TooShort`] where it is
/// shorter than the text.
pub fn rewrite<'a>(tree: &[u8], out: &'a mut [u8]) -> Result<&'a [u8], Refused> {
    let r = unsafe { raw::razhikum_rewrite(tree.as_ptr(), tree.len(), out.as_mut_ptr(), out.len()) };
    refusal(r.number, r.line)?;
    Ok(&out[..r.bytes])
}

/// Runs a trace on a tree, on one channel, and writes one byte a slot into `out`: the accelerator's number, or [`IDLE`]. The bytes
/// past the slots used keep their contents; on a refusal all do. With a return delay of r, the last field of the tree's bus line, a
/// transaction served in slot s is outstanding until slot s + 1 + r starts; a run may be done before that. Requests of an accelerator
/// whose job has 0 transactions on the channel stay held, so that such a run is stopped.
pub fn run(tree: &[u8], channel: Channel, trace: &[u8], out: &mut [u8]) -> Result<Ending, FileRefused> {
    let (room, bytes) = (out.as_mut_ptr(), out.len());
    let r = unsafe {
        raw::razhikum_run(tree.as_ptr(), tree.len(), channel.number(), trace.as_ptr(), trace.len(), room, bytes)
    };
    let why = Refused::by(r.number, r.line);
    // Kind 4, a channel that is neither, cannot come back.
    match r.kind {
        0 => Ok(Ending::Done(r.slots)),
        1 => Ok(Ending::Stopped(r.slots)),
        2 => Err(FileRefused::Tree(why)),
        _ => Err(FileRefused::Trace(why)),
    }
}

/// Lists why a transaction waited: that of this `number`, counted from 1, among those of the accelerator that the run serves. The
/// run is that of [`run`] on the same channel with a buffer of [`LIMIT`] bytes, whatever the length of `out`. The list is written
/// into `out`, two bytes a slot, oldest first, in whole pairs as far as they fit: [`Wait::pairs`] are these. The bytes past it keep
/// their contents; on a refusal all do.
///
/// Refused as a run is, then by [`Cause::Unknown`] where the tree has no such accelerator, then by [`Cause::NotServed`] where the
/// number is 0 or the run serves fewer. Each call makes the run anew, and keeps its bytes on the stack: of all calls it needs
/// the most.
pub fn why<'a>(
    tree: &[u8],
    channel: Channel,
    trace: &[u8],
    accelerator: u8,
    number: u32,
    out: &'a mut [u8],
) -> Result<Wait<'a>, WaitRefused> {
    let (room, bytes, c) = (out.as_mut_ptr(), out.len(), channel.number());
    let r = unsafe {
        raw::razhikum_why(tree.as_ptr(), tree.len(), c, trace.as_ptr(), trace.len(), accelerator, number, room, bytes)
    };
    let why = Refused::by(r.number, r.line);
    match r.kind {
        0 => {
            let (pairs, _) = out.as_chunks();
            let listed = pairs.len().min(r.count as usize);
            Ok(Wait { count: r.count, slot: r.slot, pairs: &pairs[..listed] })
        }
        2 => Err(WaitRefused::Tree(why)),
        3 => Err(WaitRefused::Trace(why)),
        _ => Err(WaitRefused::Call(why)),
    }
}

/// The bounds of an accelerator of a tree file: refused as the tree is, or by [`Cause::Unknown`] where the tree has no such
/// accelerator.
pub fn bound(tree: &[u8], accelerator: u8) -> Result<Bound, Refused> {
    let r = unsafe { raw::razhikum_bound(tree.as_ptr(), tree.len(), accelerator) };
    refusal(r.number, r.line)?;
    Ok(Bound {
        level: r.level,
        sr: r.sr,
        sw: r.sw,
        yr: r.yr,
        yw: r.yw,
        response: r.response,
        period: r.period,
        meets: r.meets,
    })
}
