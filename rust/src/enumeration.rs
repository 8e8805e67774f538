//! Every set of peptides of a small family: what a bound means, with no recursion over regions.

use crate::reference::{pieces, Family, Region};

/// The admissible sets, each as a number whose bit p - 1 says whether peptide p is in it.
pub struct Admissible {
    sets: Vec<u32>,
}

/// The peptides from `low` to `high`; none if that is just before `low`.
pub fn mask(low: usize, high: usize) -> u32 {
    (low..=high).map(|p| 1u32 << (p - 1)).sum()
}

impl Admissible {
    /// All sets with at most z peptides in each region. At most 20 peptides.
    pub fn of(family: &Family) -> Admissible {
        let m = family.peptides as usize;
        assert!(m <= 20);
        let regions: Vec<(u32, u32)> = pieces(family)
            .iter()
            .map(|r| (mask(r.low, r.high), r.z as u32))
            .collect();
        let sets = (0..1u32 << m)
            .filter(|set| regions.iter().all(|(r, z)| (set & r).count_ones() <= *z))
            .collect();
        Admissible { sets }
    }

    pub fn has(&self, set: u32) -> bool {
        self.sets.binary_search(&set).is_ok()
    }

    /// The largest count of the selection in any admissible set.
    pub fn bound(&self, selection: u32) -> u16 {
        self.sets
            .iter()
            .map(|set| (set & selection).count_ones())
            .max()
            .unwrap() as u16
    }

    /// The bound of every selection, by its number. What an admissible set has of a selection is itself admissible, so this
    /// is the largest admissible set inside each selection, found by leaving out one peptide after the other.
    pub fn all_bounds(&self, m: usize) -> Vec<u16> {
        let mut bounds = vec![0; 1 << m];
        for set in &self.sets {
            bounds[*set as usize] = set.count_ones() as u16;
        }
        for p in 1..=m {
            let peptide = mask(p, p) as usize;
            for selection in 0..1 << m {
                if selection & peptide != 0 {
                    bounds[selection] = bounds[selection].max(bounds[selection ^ peptide]);
                }
            }
        }
        bounds
    }
}

fn strictly_inside(r: &Region, q: &Region) -> bool {
    q.first <= r.first && r.last <= q.last && (r.first, r.last) != (q.first, q.last)
}

/// The taken regions by every set: the inside total of a region is the largest count of its selected peptides in any set
/// that respects what is strictly inside it by leaf numbers.
pub struct Taking<'a> {
    family: &'a Family,
    insides: Vec<Admissible>,
}

impl Taking<'_> {
    pub fn of(family: &Family) -> Taking<'_> {
        let inside = |q: &Region| {
            let mut inner = family.clone();
            inner.regions.retain(|r| strictly_inside(r, q));
            Admissible::of(&inner)
        };
        let insides = family.regions.iter().map(inside).collect();
        Taking { family, insides }
    }

    /// A byte for each region: 1 if its z is less than its inside total, and that of no region around it is.
    pub fn taken(&self, selection: u32) -> Vec<u8> {
        let regions = &self.family.regions;
        let full: Vec<bool> = pieces(self.family)
            .iter()
            .zip(&self.insides)
            .map(|(r, sets)| r.z < sets.bound(selection & mask(r.low, r.high)) as usize)
            .collect();
        let free = |i: usize| {
            let around = |j: usize| strictly_inside(&regions[i], &regions[j]);
            !(0..regions.len()).any(|j| full[j] && around(j))
        };
        (0..regions.len())
            .map(|i| (full[i] && free(i)) as u8)
            .collect()
    }
}

/// The selection's bytes.
pub fn bytes_of(selection: u32, m: usize) -> Vec<u8> {
    (0..m).map(|i| (selection >> i & 1) as u8).collect()
}
