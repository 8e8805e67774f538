//! Families beside a family: the same bounds written in another way, or bounds that are a little different.

use crate::enumeration::mask;
use crate::random::Random;
use crate::reference::{pieces, Family, Region};
use std::cmp::Reverse;
use std::collections::{BTreeMap, BTreeSet};

/// A region's first and last peptide; in file order.
type Place = (usize, Reverse<usize>);

/// A family by its peptides: where leaves end, and the smallest z of the regions at each place. Empty leaves and regions
/// without a peptide say nothing, and are left out.
struct Line {
    peptides: usize,
    ends: BTreeSet<usize>,
    regions: BTreeMap<Place, u16>,
}

impl Line {
    fn of(family: &Family) -> Line {
        let mut end = 0;
        let ends = family.lengths.iter().map(|length| {
            end += *length as usize;
            end
        });
        let mut line = Line {
            peptides: family.peptides as usize,
            ends: ends.collect(),
            regions: BTreeMap::new(),
        };
        for r in pieces(family).iter().filter(|r| r.low <= r.high) {
            let z = line.regions.entry((r.low, Reverse(r.high)));
            let z = z.or_insert(u16::MAX);
            *z = (*z).min(r.z as u16);
        }
        line
    }

    /// The family; leaves end where regions ask for it, too.
    fn family(&self) -> Family {
        let mut ends = self.ends.clone();
        ends.insert(self.peptides);
        for (low, Reverse(high)) in self.regions.keys() {
            ends.insert(*high);
            ends.insert(low - 1);
        }
        ends.remove(&0);
        let ends: Vec<usize> = ends.into_iter().collect();
        let before = |i: usize| if i == 0 { 0 } else { ends[i - 1] };
        let leaf_of = |p: usize| ends.partition_point(|end| *end < p) as u16 + 1;
        Family {
            peptides: self.peptides as u16,
            lengths: (0..ends.len())
                .map(|i| (ends[i] - before(i)) as u16)
                .collect(),
            regions: self
                .regions
                .iter()
                .map(|((low, Reverse(high)), z)| Region {
                    first: leaf_of(*low),
                    last: leaf_of(*high),
                    z: *z,
                })
                .collect(),
        }
    }

    /// Whether there is no region here, and none that crosses.
    fn is_free(&self, low: usize, high: usize) -> bool {
        self.regions.keys().all(|(other_low, Reverse(other_high))| {
            let disjoint = high < *other_low || *other_high < low;
            let inside = *other_low <= low && high <= *other_high;
            let around = low <= *other_low && *other_high <= high;
            disjoint || inside != around
        })
    }

    fn some_region(&self, random: &mut Random) -> Option<Place> {
        let count = self.regions.len();
        (count > 0).then(|| *self.regions.keys().nth(random.below(count)).unwrap())
    }

    fn some_free_place(&self, random: &mut Random) -> Option<Place> {
        let low = random.between(1, self.peptides);
        let high = random.between(low, self.peptides);
        self.is_free(low, high).then_some((low, Reverse(high)))
    }

    /// Moves a region's begin or end by one peptide, unless another region is in the way.
    fn move_an_end(&mut self, random: &mut Random, place: Place) {
        let (low, Reverse(high)) = place;
        let (low, high) = match random.below(4) {
            0 if low > 1 => (low - 1, high),
            1 if high < self.peptides => (low, high + 1),
            2 if low < high => (low + 1, high),
            3 if low < high => (low, high - 1),
            _ => return,
        };
        let z = self.regions.remove(&place).unwrap();
        let free = self.is_free(low, high);
        let new = if free { (low, Reverse(high)) } else { place };
        self.regions.insert(new, z);
    }
}

/// Puts a leaf without a peptide after so many others. No region begins or ends with it.
fn put_leaf(family: &mut Family, after: u16) {
    family.lengths.insert(after as usize, 0);
    for region in &mut family.regions {
        region.first += (region.first > after) as u16;
        region.last += (region.last > after) as u16;
    }
}

/// Puts a region with this leaf and what the other region has around that one. One of the two gets a z that says no more.
fn put_around(random: &mut Random, family: &mut Family, inner: usize, leaf: u16) {
    let inner = &mut family.regions[inner];
    let mut outer = Region {
        first: inner.first.min(leaf),
        last: inner.last.max(leaf),
        z: inner.z,
    };
    let looser = if random.chance(1, 2) {
        &mut outer
    } else {
        inner
    };
    looser.z = looser.z.saturating_add(random.below(3) as u16);
    family.regions.push(outer);
}

/// Puts an empty leaf into the family; with it a region that says nothing, or a second region for the peptides of a
/// region beside it.
fn put_empty_leaf(random: &mut Random, family: &mut Family) {
    let after = random.between(0, family.lengths.len()) as u16;
    put_leaf(family, after);
    let leaf = after + 1;
    // in file order the first of these is the outermost
    let before = family.regions.iter().position(|r| r.last == after);
    let behind = family.regions.iter().position(|r| r.first == leaf + 1);
    match (random.below(4), before, behind) {
        (0, _, _) => family.regions.push(Region {
            first: leaf,
            last: leaf,
            z: random.below(3) as u16,
        }),
        (1, Some(inner), _) | (2, _, Some(inner)) => put_around(random, family, inner, leaf),
        _ => {}
    }
    family.regions.sort_by_key(|r| (r.first, Reverse(r.last)));
}

/// The family with up to three empty leaves; all bounds stay what they are.
fn with_empty_leaves(random: &mut Random, mut family: Family) -> Family {
    for _ in 0..random.below(4) {
        put_empty_leaf(random, &mut family);
    }
    family
}

/// The bound of all peptides of a place.
fn bound_of(bounds: &[u16], (low, Reverse(high)): Place) -> u16 {
    bounds[mask(low, high) as usize]
}

/// The family in another way: all bounds stay what they are.
pub fn rewritten(random: &mut Random, family: &Family, bounds: &[u16]) -> Family {
    let mut line = Line::of(family);
    let free = line.some_free_place(random);
    match (random.below(5), free) {
        (0, _) => {
            line.ends.insert(random.between(1, line.peptides));
        }
        (1, _) => line.ends.clear(),
        (2, _) => {
            // every z as small as it can be
            for (place, z) in &mut line.regions {
                *z = bound_of(bounds, *place);
            }
        }
        (3, Some(place)) => {
            // a region that just says no more than the others do
            line.regions.insert(place, bound_of(bounds, place));
        }
        (_, Some(place)) => {
            let spare = random.between(1, 60_000) as u16;
            line.regions.insert(place, bound_of(bounds, place) + spare);
        }
        _ => {}
    }
    with_empty_leaves(random, line.family())
}

/// A family that says a little more or less; it may come to the same.
pub fn altered(random: &mut Random, family: &Family, bounds: &[u16]) -> Family {
    let mut line = Line::of(family);
    let region = line.some_region(random);
    let free = line.some_free_place(random);
    match (random.below(5), region, free) {
        (0, _, Some(place)) => {
            // one less than the bound of this place's peptides
            let z = bound_of(bounds, place).saturating_sub(1);
            line.regions.insert(place, z);
        }
        (1, Some(place), _) => {
            line.regions.remove(&place);
        }
        (2, Some(place), _) => {
            line.regions
                .entry(place)
                .and_modify(|z| *z = z.saturating_add(1));
        }
        (3, Some(place), _) => {
            line.regions
                .entry(place)
                .and_modify(|z| *z = z.saturating_sub(1));
        }
        (_, Some(place), _) => line.move_an_end(random, place),
        _ => {}
    }
    with_empty_leaves(random, line.family())
}
