//! The text of the report program (the end of "Figures to check by"; document 02, item 5: "the report's share column becomes two, reads
//! first, named sr and sw").
use crate::peer::bounds::bounds;
use crate::peer::read::read_tree;
use razhikum::Refused;

pub fn put_number(out: &mut Vec<u8>, mut n: u64) {
    let mut digits = [0; 20];
    let mut at = digits.len();
    loop {
        at -= 1;
        digits[at] = b'0' + (n % 10) as u8;
        n /= 10;
        if n == 0 {
            break;
        }
    }
    out.extend_from_slice(&digits[at..]);
}

fn put_numbers(out: &mut Vec<u8>, numbers: &[u64]) {
    for &n in numbers {
        put_number(out, n);
        out.push(b'\t');
    }
}

fn verdict(meets: bool) -> &'static [u8] {
    if meets {
        b"meets\n"
    } else {
        b"late\n"
    }
}

/// Writes the report of a tree file into `out`, in place of what is there; nothing on a refusal.
pub fn report(text: &[u8], out: &mut Vec<u8>) -> Result<(), Refused> {
    out.clear();
    let tree = read_tree(text)?;
    out.extend_from_slice(b"acc\tlevel\tsr\tsw\tyr\tyw\tresp\tperiod\tverdict\n");
    let mut all = true;
    for (a, b) in bounds(&tree).enumerate() {
        let level = b.level.into();
        let row = [a as u64, level, b.sr, b.sw, b.yr, b.yw, b.response, b.period];
        put_numbers(out, &row);
        out.extend_from_slice(verdict(b.meets));
        all &= b.meets;
    }
    out.extend_from_slice(b"all\t");
    out.extend_from_slice(verdict(all));
    Ok(())
}
