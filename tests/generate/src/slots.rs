//! The library's index of codes (crates/lookup), so that codes can be made against it.

use std::ops::Range;

const SLOTS: usize = 2_048;
const PROBES: usize = 32;

/// What the bytes of a code that were read come to.
struct Mix(u64, u64, u64, u64);

impl Mix {
    fn and(self, w: u64, v: u64) -> Mix {
        let p = (self.0 + w + 1) * (2 * self.1 + 1);
        let q = (self.2 + v + 1) * (2 * self.3 + 1);
        Mix(q >> 33, (p + 2 * v) % (1 << 30), p >> 33, (q + 2 * w) % (1 << 30))
    }
}

fn word(bytes: &[u8]) -> u64 {
    bytes.iter().rev().fold(0, |sum, byte| sum << 8 | u64::from(*byte))
}

/// The mark of a code of whole blocks of eight bytes.
fn mark(code: &[u8]) -> u64 {
    let start = Mix(314_159_265 + code.len() as u64, 764_620_624, 141_421_356, 992_991_361);
    let mixed = |m: Mix, block: &[u8]| m.and(word(&block[..4]), word(&block[4..]));
    let z = code.chunks(8).fold(start, mixed);
    ((z.0 + z.2) << 23) + z.1 + z.3
}

/// The slots in which a code is looked for, one after the other.
fn way(code: &[u8]) -> impl Iterator<Item = usize> {
    let onward = |x: &u64| Some(33_550_337 * (x % (1 << 31)) + (x >> 31));
    std::iter::successors(Some(mark(code)), onward).take(PROBES).map(|x| (x >> 23) as usize % SLOTS)
}

/// A code of 64 bytes, which differs from others in its last bytes only.
pub fn late_code(number: u32) -> Vec<u8> {
    let mut code = vec![b'Q'; 64];
    for (place, by) in [(60, 94 * 94 * 94), (61, 94 * 94), (62, 94), (63, 1)] {
        code[place] = 33 + (number / by % 94) as u8;
    }
    code
}

/// 255 late codes that lead to taken slots: of so many tries each, the one that
/// passes the most of them before it comes to an empty one.
pub fn codes(tries: usize) -> Vec<Vec<u8>> {
    let mut numbers: Range<u32> = 0..94u32.pow(4);
    let mut taken = [false; SLOTS];
    let mut all = Vec::new();
    for _ in 0..255 {
        let passed = |code: &Vec<u8>| way(code).take_while(|slot| taken[*slot]).count();
        let code = numbers.by_ref().take(tries).map(late_code).max_by_key(passed).unwrap();
        if let Some(slot) = way(&code).find(|slot| !taken[*slot]) {
            taken[slot] = true;
        }
        all.push(code);
    }
    all
}
