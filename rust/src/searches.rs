//! P-values for the hybrid curve, chosen by where the search for a free slot begins: for each peptide of a path that has them all,
//! the last k at which it is counted. They are for the level 1,000,000.

use crate::fast::Slots;

pub const LEVEL: u32 = 1_000_000;

/// The p-values with which each peptide of the path is counted up to its k, which is under m.
pub fn counted_up_to(path: &[u16], lasts: &[usize]) -> Vec<u32> {
    let m = path.len();
    let mut p_values = vec![0; m];
    for (peptide, last) in path.iter().zip(lasts) {
        // times m it is over 1,000,000 times k, by m at most
        p_values[*peptide as usize - 1] = (1_000_000 * last / m + 1) as u32;
    }
    p_values
}

/// As many k as peptides, such that the searches are long: each begins at one of the slots that are farthest from a free one, the
/// highest of them.
pub fn longest_searches(m: usize) -> Vec<usize> {
    let mut slots = Slots::new();
    let farthest = |slots: &Slots| {
        let mut ways = vec![0; m];
        for slot in 1..m {
            let below = slots.below(slot);
            if below != slot {
                ways[slot] = ways[below] + 1;
            }
        }
        (0..m).max_by_key(|slot| ways[*slot]).unwrap()
    };
    (0..m)
        .map(|_| {
            let last = farthest(&slots);
            slots.take(last as u16);
            last
        })
        .collect()
}
