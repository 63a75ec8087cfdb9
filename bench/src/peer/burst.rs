//! The burst splitter and the joiner (document 02, items 6 and 7), and a burst offered to the machine piece by piece. A burst is walked
//! along its addresses: a piece is taken off its front while beats are left.
use crate::peer::calls::State;
use crate::peer::read::{read_tree, Bus, Tree};
use razhikum::{Burst, Joiner, Joining, Pieces, Refused, PIECES};

const BROKEN: u8 = 11;
const BURST: u8 = 15;
const CROSSES: u8 = 16;
const PAGE: u32 = 4_096;

/// What is left of a burst that is cut to so many beats: it begins at this address.
#[derive(Clone, Copy, Debug)]
pub struct Cut {
    left: Burst,
    nominal: u32,
}

/// "15 for 0 or over 256 beats or a bad beat size, then 16 for a burst that crosses a multiple of 4,096"; on AXI3 "the splitter takes at
/// most 16 beats", and "anything over the older limit gets the number it gets today for the newer one". Every beat size divides a page, so
/// the bytes from the first beat's own beginning are in one page exactly if they fit between there and the page's end; the last page ends
/// with the addresses.
pub fn cut(burst: Burst, bus: &Bus) -> Result<Cut, u8> {
    let Burst { start, beats, size } = burst;
    if beats == 0 || beats > bus.axi.beats() || !matches!(size, 1 | 2 | 4 | 8 | 16 | 32 | 64 | 128) {
        return Err(BURST);
    }
    let into_page = (start % PAGE) & !(size - 1);
    if PAGE - into_page < beats * size {
        return Err(CROSSES);
    }
    Ok(Cut { left: burst, nominal: bus.burst as u32 })
}

impl Iterator for Cut {
    type Item = Burst;

    fn next(&mut self) -> Option<Burst> {
        let Burst { start, beats, size } = self.left;
        if beats == 0 {
            return None;
        }
        let piece = Burst { beats: beats.min(self.nominal), ..self.left };
        // Where the addresses end with the burst, what is left of it begins at address 0 and has no beats.
        let start = (start & !(size - 1)).wrapping_add(piece.beats * size);
        self.left = Burst { start, beats: beats - piece.beats, size };
        Some(piece)
    }
}

/// Cuts a burst on a tree file. A tree that is read keeps its rules, so 11 cannot be due.
pub fn split<'a>(
    tree: &[u8],
    burst: Burst,
    starts: &'a mut [u32; PIECES],
    beats: &'a mut [u32; PIECES],
) -> Result<Pieces<'a>, Refused> {
    let tree = read_tree(tree)?;
    let pieces = cut(burst, &tree.bus).map_err(|number| Refused::by(number, 0))?;
    (*starts, *beats) = ([0; PIECES], [0; PIECES]);
    let mut count = 0;
    for piece in pieces {
        (starts[count], beats[count]) = (piece.start, piece.beats);
        count += 1;
    }
    Ok(Pieces { starts: &starts[..count], beats: &beats[..count], size: burst.size })
}

/// Takes the answer of a piece: "numbered from 1, in order", done "at the last and only there"; "one out of turn, or after the last, is
/// refused 11". Those still to come are numbered from one more than is answered to the last, and the next of them is taken. Of trees it
/// knows nothing, so that up to 256 pieces are answered, whatever the bus speaks.
pub fn join(joiner: &mut Joiner, number: u32) -> Result<Joining, Refused> {
    let to_come = joiner.answered..joiner.pieces;
    if joiner.pieces > PIECES as u32 || to_come.is_empty() || number.checked_sub(1) != Some(to_come.start) {
        return Err(Refused::by(BROKEN, 0));
    }
    joiner.answered = number;
    Ok(if to_come.len() == 1 { Joining::Done } else { Joining::Taken })
}

impl State {
    /// Offers the pieces of a burst, those before piece `from`, counted from 0, left out: each is one transaction, and the first that is
    /// refused ends it. How many were admitted, and what refused the next one. "Checks: after 11, 15 .. then 16", then those of an offer.
    pub fn offer_burst(&mut self, tree: &Tree, a: u8, burst: Burst, from: u32) -> (u32, Result<(), u8>) {
        if !self.keeps_rules(tree) {
            return (0, Err(BROKEN));
        }
        let pieces = match cut(burst, &tree.bus) {
            Ok(pieces) => pieces,
            Err(refusal) => return (0, Err(refusal)),
        };
        let mut admitted = 0;
        for _ in pieces.skip(from as usize) {
            if let Err(refusal) = self.offer(tree, a) {
                return (admitted, Err(refusal));
            }
            admitted += 1;
        }
        (admitted, Ok(()))
    }
}
