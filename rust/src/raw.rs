//! The structs and functions of `include/razhikum.h`.

#[repr(C)]
pub struct Reading {
    pub file: u8,
    pub number: u8,
    pub line: u32,
}

#[repr(C)]
pub struct Counted {
    pub number: u8,
    pub line: u32,
    pub accelerators: u8,
}

#[repr(C)]
pub struct Page {
    pub bytes: usize,
    pub number: u8,
    pub line: u32,
}

#[repr(C)]
pub struct Outcome {
    pub kind: u8,
    pub number: u8,
    pub line: u32,
    pub slots: u32,
}

#[repr(C)]
pub struct Wait {
    pub kind: u8,
    pub number: u8,
    pub line: u32,
    pub count: u32,
    pub slot: u32,
}

#[repr(C)]
pub struct Row {
    pub number: u8,
    pub line: u32,
    pub level: u8,
    pub meets: bool,
    pub sr: u64,
    pub sw: u64,
    pub yr: u64,
    pub yw: u64,
    pub response: u64,
    pub period: u64,
}

#[repr(C)]
pub struct Cut {
    pub number: u8,
    pub line: u32,
    pub pieces: u32,
}

#[repr(C)]
pub struct Joined {
    pub number: u8,
    pub done: bool,
    pub pieces: u32,
    pub answered: u32,
}

extern "C" {
    pub fn razhikum_version() -> u32;
    pub fn razhikum_read_tree(tree: *const u8, tree_bytes: usize) -> Reading;
    pub fn razhikum_read_trace(tree: *const u8, tree_bytes: usize, trace: *const u8, trace_bytes: usize) -> Reading;
    pub fn razhikum_count(tree: *const u8, tree_bytes: usize) -> Counted;
    pub fn razhikum_report(tree: *const u8, tree_bytes: usize, out: *mut u8) -> Page;
    pub fn razhikum_rewrite(tree: *const u8, tree_bytes: usize, out: *mut u8, out_bytes: usize) -> Page;
    pub fn razhikum_run(
        tree: *const u8,
        tree_bytes: usize,
        channel: u8,
        trace: *const u8,
        trace_bytes: usize,
        out: *mut u8,
        out_bytes: usize,
    ) -> Outcome;
    pub fn razhikum_why(
        tree: *const u8,
        tree_bytes: usize,
        channel: u8,
        trace: *const u8,
        trace_bytes: usize,
        accelerator: u8,
        number: u32,
        out: *mut u8,
        out_bytes: usize,
    ) -> Wait;
    pub fn razhikum_bound(tree: *const u8, tree_bytes: usize, accelerator: u8) -> Row;
    pub fn razhikum_split(
        tree: *const u8,
        tree_bytes: usize,
        start: u32,
        beats: u32,
        size: u32,
        starts: *mut u32,
        lengths: *mut u32,
    ) -> Cut;
    pub fn razhikum_join(pieces: u32, answered: u32, number: u32) -> Joined;
}

#[cfg(test)]
mod tests {
    use super::{razhikum_join, razhikum_run, razhikum_split, razhikum_why};

    const TREE: &[u8] =
        b"bus\t8\t1\t4\t2\t2\t30\t25\t1\t1\t16\nint\t0\t-\t-\t1\nacc\t0\t0\t0\t4\t2\t10\t5\t1000\t2000\n";
    const TRACE: &[u8] = b"o\t0\t0\t2\n";

    /// Kind, number, line and slots of a run, and the bytes of its buffer.
    fn run(tree: &[u8], channel: u8, trace: &[u8]) -> ((u8, u8, u32, u32), [u8; 4]) {
        let mut out = [99; 4];
        let (room, bytes) = (out.as_mut_ptr(), out.len());
        let r = unsafe { razhikum_run(tree.as_ptr(), tree.len(), channel, trace.as_ptr(), trace.len(), room, bytes) };
        ((r.kind, r.number, r.line, r.slots), out)
    }

    /// Kind, number, line, count and slot of the wait of number 2, and the bytes of its buffer.
    fn why(tree: &[u8], channel: u8, trace: &[u8]) -> ((u8, u8, u32, u32, u32), [u8; 4]) {
        let mut out = [99; 4];
        let (room, bytes) = (out.as_mut_ptr(), out.len());
        let r =
            unsafe { razhikum_why(tree.as_ptr(), tree.len(), channel, trace.as_ptr(), trace.len(), 0, 2, room, bytes) };
        ((r.kind, r.number, r.line, r.count, r.slot), out)
    }

    /// Every field of an answer, of which the safe calls drop some: a refused burst has no pieces, and a refused answer of a piece is
    /// never done and gives the joiner back.
    #[test]
    fn fields_of_bursts_and_joiners() {
        let split = |tree: &[u8], beats| {
            let (mut starts, mut lengths) = ([99; 256], [99; 256]);
            let (s, l) = (starts.as_mut_ptr(), lengths.as_mut_ptr());
            let r = unsafe { razhikum_split(tree.as_ptr(), tree.len(), 4_080, beats, 1, s, l) };
            (r.number, r.line, r.pieces, starts[0], lengths[0], starts[255], lengths[255])
        };
        assert_eq!(split(TREE, 16), (0, 0, 1, 4_080, 16, 0, 0));
        assert_eq!(split(TREE, 17), (16, 0, 0, 99, 99, 99, 99));
        assert_eq!(split(TREE, 0), (15, 0, 0, 99, 99, 99, 99));
        assert_eq!(split(b"", 0), (3, 1, 0, 99, 99, 99, 99));
        let join = |pieces, answered, number| {
            let r = unsafe { razhikum_join(pieces, answered, number) };
            (r.number, r.done, r.pieces, r.answered)
        };
        assert_eq!([join(2, 0, 1), join(2, 1, 2)], [(0, false, 2, 1), (0, true, 2, 2)]);
        assert_eq!(
            [join(2, 0, 2), join(2, 2, 2), join(2, 2, 3)],
            [(11, false, 2, 0), (11, false, 2, 2), (11, false, 2, 2)]
        );
        assert_eq!([join(0, 0, 1), join(257, 256, 257)], [(11, false, 0, 0), (11, false, 257, 256)]);
    }

    #[test]
    fn both_channels() {
        for channel in [0, 1] {
            assert_eq!(run(TREE, channel, TRACE), ((0, 0, 0, 2), [0, 0, 99, 99]));
            assert_eq!(why(TREE, channel, TRACE), ((0, 0, 0, 1, 0), [0, 255, 99, 99]));
        }
    }

    /// Which no safe call can pass: refused before the tree is read, and the buffer keeps its bytes.
    #[test]
    fn a_channel_that_is_neither() {
        for channel in 2..=255 {
            for tree in [TREE, b"", b"x"] {
                for trace in [TRACE, b"x"] {
                    assert_eq!(run(tree, channel, trace), ((4, 2, 0, 0), [99; 4]));
                    assert_eq!(why(tree, channel, trace), ((4, 2, 0, 0, 0), [99; 4]));
                }
            }
        }
    }
}
