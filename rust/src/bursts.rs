//! Bursts cut into pieces, and the joiner of their answers.
use crate::{raw, refusal, Refused};

/// The most pieces of a burst, and so the entries of each array that [`split`] writes. On a tree that begins with `bus3` a
/// burst has at most 16.
pub const PIECES: usize = 256;

/// A burst, or a piece of one. Any numbers may stand here; what is no burst [`split`] refuses.
#[derive(Clone, Copy, Debug, PartialEq, Eq, Hash)]
pub struct Burst {
    /// The start address. It need not be a multiple of the beat size: the first beat then has fewer bytes.
    pub start: u32,
    /// How many beats, 1 to 256, or 1 to 16 on a tree that begins with `bus3`.
    pub beats: u32,
    /// The bytes of a beat, 1, 2, 4 up to 128.
    pub size: u32,
}

/// The pieces of a burst, in order: 1 to [`PIECES`].
#[derive(Clone, Copy, Debug, PartialEq, Eq, Hash)]
pub struct Pieces<'a> {
    /// The start address of each piece.
    pub starts: &'a [u32],
    /// The beats of each piece: all but the last have as many as the tree's nominal burst length.
    pub beats: &'a [u32],
    /// The bytes of a beat, those of the burst.
    pub size: u32,
}

impl<'a> Pieces<'a> {
    /// How many there are. For a trace, a budget and phi each is one transaction.
    pub fn count(&self) -> u32 {
        self.starts.len() as u32
    }

    /// Each piece as a burst of its own.
    pub fn iter(&self) -> impl ExactSizeIterator<Item = Burst> + DoubleEndedIterator + 'a {
        let size = self.size;
        self.starts.iter().zip(self.beats).map(move |(&start, &beats)| Burst { start, beats, size })
    }

    /// The joiner of their answers, none of which has come.
    pub fn joiner(&self) -> Joiner {
        Joiner::of(self.count())
    }
}

/// Cuts a burst into pieces of as many beats as the nominal burst length B of a tree file; the last one has what is left, 1 to B. The
/// first piece keeps the start address; each later one starts at the start address rounded down to the beat size, plus the beats before
/// it times the beat size. Each beat is in exactly one piece, and no piece crosses a multiple of 4,096 bytes.
///
/// The pieces are written at the beginning of both arrays, and the entries after them become 0; on a refusal all entries keep their
/// contents.
///
/// Refused as the tree is, then with line 0 by [`Cause::Burst`](crate::Cause::Burst) where the beats are not 1 to 256, or not 1 to 16
/// where the tree file begins with `bus3`, or the size is no power of two from 1 to 128, then by [`Cause::Page`](crate::Cause::Page) where
/// the burst crosses a multiple of 4,096 bytes, or would have a byte past the last 32-bit address. One that ends on the last byte before
/// such a multiple does not cross it.
///
/// ```
/// use razhikum::{split, Burst, Cause, PIECES};
/// // B is 16, the last field of the bus line.
/// let tree = b"bus\t8\t1\t4\t2\t2\t30\t25\t1\t1\t16\nint\t0\t-\t-\t1\nacc\t0\t0\t0\t4\t2\t10\t5\t1000\t2000\n";
/// let (mut starts, mut beats) = ([0; PIECES], [0; PIECES]);
///
/// let burst = Burst { start: 5, beats: 40, size: 4 };
/// let pieces = split(tree, burst, &mut starts, &mut beats)?;
/// assert_eq!(pieces.count(), 3);
/// assert_eq!((pieces.starts, pieces.beats), (&[5, 68, 132][..], &[16, 16, 8][..]));
/// assert_eq!(pieces.iter().map(|piece| piece.beats).sum::<u32>(), burst.beats);
///
/// // Two beats end with the page, a third one is past it.
/// let burst = Burst { start: 4_092, beats: 2, size: 2 };
/// assert_eq!(split(tree, burst, &mut starts, &mut beats)?.iter().next(), Some(burst));
/// let refused = split(tree, Burst { beats: 3, ..burst }, &mut starts, &mut beats).unwrap_err();
/// assert_eq!(refused.cause, Cause::Page);
/// let refused = split(tree, Burst { size: 3, ..burst }, &mut starts, &mut beats).unwrap_err();
/// assert_eq!(refused.cause, Cause::Burst);
///
/// // The same tree on AXI3 takes at most 16 beats.
/// let tree = b"bus3\t8\t1\t4\t2\t2\t30\t25\t1\t1\t16\nint\t0\t-\t-\t1\nacc\t0\t0\t0\t4\t2\t10\t5\t1000\t2000\n";
/// let burst = Burst { start: 5, beats: 16, size: 4 };
/// assert_eq!(split(tree, burst, &mut starts, &mut beats)?.count(), 1);
/// let refused = split(tree, Burst { beats: 17, ..burst }, &mut starts, &mut beats).unwrap_err();
/// assert_eq!(refused.cause, Cause::Burst);
/// # Ok::<(), razhikum::Refused>(())
/// ```
pub fn split<'a>(
    tree: &[u8],
    burst: Burst,
    starts: &'a mut [u32; PIECES],
    beats: &'a mut [u32; PIECES],
) -> Result<Pieces<'a>, Refused> {
    let (s, l) = (starts.as_mut_ptr(), beats.as_mut_ptr());
    let r = unsafe { raw::razhikum_split(tree.as_ptr(), tree.len(), burst.start, burst.beats, burst.size, s, l) };
    refusal(r.number, r.line)?;
    let pieces = r.pieces as usize;
    Ok(Pieces { starts: &starts[..pieces], beats: &beats[..pieces], size: burst.size })
}

/// What the answer of a piece does.
#[derive(Clone, Copy, Debug, PartialEq, Eq, Hash)]
pub enum Joining {
    /// It is taken, and others are to come.
    Taken,
    /// It was that of the last piece: the burst is answered.
    Done,
}

/// Takes the answers of a burst's pieces in order. Any numbers may stand here; a joiner with no pieces, with more than [`PIECES`], or
/// with more answered than there are breaks its rules, and takes no answer. It knows no tree.
#[derive(Clone, Copy, Debug, PartialEq, Eq, Hash)]
pub struct Joiner {
    /// How many pieces the burst has.
    pub pieces: u32,
    /// How many of them are answered.
    pub answered: u32,
}

impl Joiner {
    /// The joiner of a burst of so many pieces, none of them answered.
    pub const fn of(pieces: u32) -> Joiner {
        Joiner { pieces, answered: 0 }
    }

    /// Takes the answer of the piece of this number, counted from 1, and says done at the last and only there. One out of turn or after
    /// the last, and every one for a joiner that breaks its rules, is refused by [`Cause::Broken`](crate::Cause::Broken) with line 0;
    /// that leaves the joiner as it was.
    ///
    /// ```
    /// use razhikum::{Cause, Joiner, Joining};
    /// let mut joiner = Joiner::of(3);
    /// assert_eq!(joiner.join(1)?, Joining::Taken);
    /// assert_eq!(joiner.join(3).unwrap_err().cause, Cause::Broken);
    /// assert_eq!(joiner.join(2)?, Joining::Taken);
    /// assert_eq!(joiner.join(3)?, Joining::Done);
    /// assert_eq!(joiner.join(4).unwrap_err().cause, Cause::Broken);
    /// assert_eq!(joiner, Joiner { pieces: 3, answered: 3 });
    /// # Ok::<(), razhikum::Refused>(())
    /// ```
    pub fn join(&mut self, number: u32) -> Result<Joining, Refused> {
        let r = unsafe { raw::razhikum_join(self.pieces, self.answered, number) };
        refusal(r.number, 0)?;
        *self = Joiner { pieces: r.pieces, answered: r.answered };
        Ok(if r.done { Joining::Done } else { Joining::Taken })
    }
}
