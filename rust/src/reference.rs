//! A plain implementation of the scope document, written from its words alone, for clarity and not for speed: each region
//! is looked at with every other, and an entry of a curve is a bound of its own.

use std::collections::BTreeSet;

#[derive(Clone, Copy, Debug, PartialEq, Eq)]
pub struct Region {
    pub first: u16,
    pub last: u16,
    pub z: u16,
}

#[derive(Clone, Debug, PartialEq, Eq)]
pub struct Family {
    pub peptides: u16,
    pub lengths: Vec<u16>,
    pub regions: Vec<Region>,
}

/// The file of a family. It need not be an accepted one.
pub fn file_of(family: &Family) -> Vec<u8> {
    laid_out(b"PHFB", &[], family)
}

/// A family by level: its regions as they stand in the file, and how many regions of each level there are, from level 1 on.
#[derive(Clone, Debug, PartialEq, Eq)]
pub struct ByLevel {
    pub family: Family,
    pub counts: [u16; 64],
}

/// The file of a family by level. It need not be an accepted one.
pub fn level_file_of(by_level: &ByLevel) -> Vec<u8> {
    laid_out(b"PHFL", &by_level.counts, &by_level.family)
}

/// The mark, the header, what stands between that and the leaf lengths, the lengths and the regions.
fn laid_out(mark: &[u8; 4], between: &[u16], family: &Family) -> Vec<u8> {
    let start = 16 + 2 * between.len();
    let n = family.lengths.len();
    let k = family.regions.len();
    let mut file = mark.to_vec();
    let mut put = |number: usize| file.extend((number as u16).to_le_bytes());
    put(family.peptides as usize);
    put(n);
    put(k);
    put(start);
    put(start + 2 * n);
    put(start + 2 * n + 6 * k);
    for number in between.iter().chain(&family.lengths) {
        put(*number as usize);
    }
    for region in &family.regions {
        put(region.first as usize);
        put(region.last as usize);
        put(region.z as usize);
    }
    file
}

// Causes 1 to 10.

/// The family of an accepted file, or the number of the first cause that holds.
pub fn check(file: &[u8]) -> Result<Family, u16> {
    let family = read(file, b"PHFB", 16)?;
    let regions = &family.regions;
    if regions.windows(2).any(|two| !stands_after(two[1], two[0])) {
        return Err(8);
    }
    check_nesting(regions)?;
    Ok(family)
}

fn number_at(file: &[u8], offset: usize) -> usize {
    file[offset] as usize + 256 * file[offset + 1] as usize
}

/// What stands in a file with this mark whose leaf lengths begin at `start`: causes 1 to 7.
pub fn read(file: &[u8], mark: &[u8; 4], start: usize) -> Result<Family, u16> {
    if file.len() < 16 || file[0..4] != *mark {
        return Err(1);
    }
    let number = |offset: usize| number_at(file, offset);
    let (m, n, k) = (number(4), number(6), number(8));
    if m == 0 || m > 4096 {
        return Err(2);
    }
    if n == 0 || n > 4096 {
        return Err(3);
    }
    if k > 2 * n - 1 {
        return Err(4);
    }
    let middle = start + 2 * n;
    let total = middle + 6 * k;
    if number(10) != start || number(12) != middle || number(14) != total || file.len() != total {
        return Err(5);
    }
    let lengths: Vec<u16> = (0..n).map(|j| number(start + 2 * j) as u16).collect();
    let sum: usize = lengths.iter().map(|length| *length as usize).sum();
    if sum != m {
        return Err(6);
    }
    let regions: Vec<Region> = (0..k)
        .map(|i| {
            let at = middle + 6 * i;
            Region {
                first: number(at) as u16,
                last: number(at + 2) as u16,
                z: number(at + 4) as u16,
            }
        })
        .collect();
    if regions
        .iter()
        .any(|r| r.first == 0 || r.last < r.first || r.last as usize > n)
    {
        return Err(7);
    }
    Ok(Family {
        peptides: m as u16,
        lengths,
        regions,
    })
}

/// Causes 9 and 10 of regions, in any order, of which no two have the same leaves.
fn check_nesting(regions: &[Region]) -> Result<(), u16> {
    for (i, r) in regions.iter().enumerate() {
        for q in &regions[i + 1..] {
            let share = r.first <= q.last && q.first <= r.last;
            if share && !inside(q, r) && !inside(r, q) {
                return Err(9);
            }
        }
    }
    match regions.iter().any(|r| around(r, regions) > 63) {
        true => Err(10),
        false => Ok(()),
    }
}

fn stands_after(r: Region, before: Region) -> bool {
    r.first > before.first || (r.first == before.first && r.last < before.last)
}

fn inside(r: &Region, q: &Region) -> bool {
    q.first <= r.first && r.last <= q.last && !same_leaves(r, q)
}

fn same_leaves(r: &Region, q: &Region) -> bool {
    (r.first, r.last) == (q.first, q.last)
}

/// How many of the regions are around this one.
fn around(r: &Region, regions: &[Region]) -> usize {
    regions.iter().filter(|q| inside(r, q)).count()
}

// Causes 11 to 16.

/// Why a call declines: the number, and with 13 the first place, counted from 1, whose peptide stands earlier too, else 0.
#[derive(Clone, Copy, Debug, PartialEq, Eq)]
pub struct Refusal {
    pub number: u16,
    pub place: u16,
}

fn refusal(number: u16) -> Refusal {
    Refusal { number, place: 0 }
}

fn stands_earlier(path: &[u16], place: usize) -> bool {
    path[..place - 1].contains(&path[place - 1])
}

fn check_path(m: u16, path: &[u16]) -> Result<(), Refusal> {
    if path.len() > m as usize {
        return Err(refusal(11));
    }
    if path.iter().any(|p| *p == 0 || *p > m) {
        return Err(refusal(12));
    }
    match (1..=path.len()).find(|place| stands_earlier(path, *place)) {
        None => Ok(()),
        Some(place) => Err(Refusal {
            number: 13,
            place: place as u16,
        }),
    }
}

// Pieces of a line, each with its z: the regions of a family by their leaves or by their peptides, the stretches of a
// reduction by their peptides.

/// From one place of the line to another. One without a place ends just before it begins.
#[derive(Clone, Copy, Debug, PartialEq, Eq)]
pub struct Piece {
    pub low: usize,
    pub high: usize,
    pub z: usize,
}

impl Piece {
    fn has(&self, place: usize) -> bool {
        self.low <= place && place <= self.high
    }

    fn strictly_inside(&self, other: &Piece) -> bool {
        other.low <= self.low
            && self.high <= other.high
            && (other.low, other.high) != (self.low, self.high)
    }
}

/// How many peptides the leaves up to this one have.
fn up_to(family: &Family, leaf: usize) -> usize {
    family.lengths[..leaf].iter().map(|l| *l as usize).sum()
}

/// The peptides of each region, from first to last, in file order. Two regions can have the same, and a region none.
pub fn pieces(family: &Family) -> Vec<Piece> {
    family
        .regions
        .iter()
        .map(|r| Piece {
            low: up_to(family, r.first as usize - 1) + 1,
            high: up_to(family, r.last as usize),
            z: r.z as usize,
        })
        .collect()
}

/// The leaves of each region, in file order: nesting is judged on leaf numbers.
fn leaf_pieces(family: &Family) -> Vec<Piece> {
    family
        .regions
        .iter()
        .map(|r| Piece {
            low: r.first as usize,
            high: r.last as usize,
            z: r.z as usize,
        })
        .collect()
}

/// The leaf of each peptide, from peptide 1 on: the first leaf up to which the lengths add to at least its number.
fn leaves_of_peptides(family: &Family) -> Vec<usize> {
    let sums: Vec<usize> = (1..=family.lengths.len())
        .map(|leaf| up_to(family, leaf))
        .collect();
    (1..=family.peptides as usize)
        .map(|p| sums.iter().position(|sum| *sum >= p).unwrap() + 1)
        .collect()
}

/// Which pieces stand just inside which, and which peptides are in none of those.
pub struct Forest {
    pub pieces: Vec<Piece>,
    parents: Vec<Option<usize>>,
    just_inside: Vec<Vec<usize>>,
    outer: Vec<usize>,
    own: Vec<Vec<usize>>,
    loose: Vec<usize>,
}

impl Forest {
    /// Of pieces with a place at least; `places` has the place of each peptide, from peptide 1 on.
    fn new(places: &[usize], pieces: Vec<Piece>) -> Forest {
        let count = pieces.len();
        // the smallest piece strictly around each
        let parents: Vec<Option<usize>> = (0..count)
            .map(|i| {
                (0..count)
                    .filter(|j| pieces[i].strictly_inside(&pieces[*j]))
                    .min_by_key(|j| pieces[*j].high - pieces[*j].low)
            })
            .collect();
        let mut just_inside = vec![Vec::new(); count];
        let mut outer = Vec::new();
        for (i, parent) in parents.iter().enumerate() {
            match parent {
                Some(j) => just_inside[*j].push(i),
                None => outer.push(i),
            }
        }
        // each peptide counts at the smallest piece that has its place
        let mut own = vec![Vec::new(); count];
        let mut loose = Vec::new();
        for (i, place) in places.iter().enumerate() {
            let smallest = (0..count)
                .filter(|j| pieces[*j].has(*place))
                .min_by_key(|j| pieces[*j].high - pieces[*j].low);
            match smallest {
                Some(j) => own[j].push(i + 1),
                None => loose.push(i + 1),
            }
        }
        Forest {
            pieces,
            parents,
            just_inside,
            outer,
            own,
            loose,
        }
    }

    pub fn of(family: &Family) -> Forest {
        Forest::new(&leaves_of_peptides(family), leaf_pieces(family))
    }

    fn around(&self, i: usize) -> Vec<usize> {
        let mut found = Vec::new();
        let mut at = self.parents[i];
        while let Some(j) = at {
            found.push(j);
            at = self.parents[j];
        }
        found
    }

    /// The inside total of a piece; those of all pieces inside it are noted too.
    fn inside_total(&self, i: usize, selected: &[bool], totals: &mut Vec<usize>) -> usize {
        let inner: usize = self.just_inside[i]
            .iter()
            .map(|j| self.value(*j, selected, totals))
            .sum();
        let own = self.own[i].iter().filter(|p| selected[**p]).count();
        totals[i] = inner + own;
        totals[i]
    }

    fn value(&self, i: usize, selected: &[bool], totals: &mut Vec<usize>) -> usize {
        self.inside_total(i, selected, totals).min(self.pieces[i].z)
    }

    /// The bound of a selection (by peptide number, place 0 unused), and the inside total of each piece.
    pub fn bound(&self, selected: &[bool]) -> (usize, Vec<usize>) {
        let mut totals = vec![0; self.pieces.len()];
        let inner: usize = self
            .outer
            .iter()
            .map(|i| self.value(*i, selected, &mut totals))
            .sum();
        let loose = self.loose.iter().filter(|p| selected[**p]).count();
        (inner + loose, totals)
    }

    /// For each piece whether it is taken, from the inside totals.
    pub fn taken(&self, totals: &[usize]) -> Vec<bool> {
        let full = |i: usize| self.pieces[i].z < totals[i];
        (0..self.pieces.len())
            .map(|i| full(i) && !self.around(i).into_iter().any(full))
            .collect()
    }

    /// Every entry is the bound of its prefix.
    pub fn curve(&self, m: usize, path: &[u16]) -> Vec<u16> {
        let mut selected = vec![false; m + 1];
        let mut entries = vec![self.bound(&selected).0 as u16];
        for p in path {
            selected[*p as usize] = true;
            entries.push(self.bound(&selected).0 as u16);
        }
        entries
    }
}

/// Mark t is 1 exactly when entry t is one more than entry t - 1.
pub fn marks(entries: &[u16]) -> Vec<u8> {
    entries
        .windows(2)
        .map(|two| (two[1] == two[0] + 1) as u8)
        .collect()
}

/// The largest t at which entry t times b is at most a times t.
pub fn cut_of(entries: &[u16], a: u16, b: u16) -> u16 {
    (0..entries.len())
        .filter(|t| entries[*t] as u64 * b as u64 <= a as u64 * *t as u64)
        .max()
        .unwrap() as u16
}

// The calls.

/// The bound and the K taken bytes.
pub fn bound(file: &[u8], selection: &[u8], room: usize) -> Result<(u16, Vec<u8>), u16> {
    let family = check(file)?;
    let m = family.peptides as usize;
    if selection.len() != m || selection.iter().any(|byte| *byte > 1) {
        return Err(14);
    }
    if room < family.regions.len() {
        return Err(16);
    }
    let mut selected = vec![false];
    selected.extend(selection.iter().map(|byte| *byte == 1));
    let forest = Forest::of(&family);
    let (value, totals) = forest.bound(&selected);
    let taken = forest.taken(&totals).into_iter().map(u8::from).collect();
    Ok((value as u16, taken))
}

/// What a list of selections gives: the bound of each, what the call is charged, and the tally with that.
#[derive(Clone, Debug, PartialEq, Eq)]
pub struct List {
    pub values: Vec<u16>,
    pub charge: u16,
    pub tally: u32,
}

/// Byte p - 1 of a selection is that of peptide p; each selection begins m bytes behind the one before it.
pub fn bounds_list(
    file: &[u8],
    selections: &[u8],
    count: u16,
    tally: u32,
    room: usize,
) -> Result<List, u16> {
    let family = check(file)?;
    let m = family.peptides as usize;
    let count = count as usize;
    if selections.len() != count * m || selections.iter().any(|byte| *byte > 1) {
        return Err(14);
    }
    if room < count {
        return Err(16);
    }
    if count > 32 {
        return Err(24);
    }
    let charge = if count > 0 { family.regions.len() } else { 0 };
    let sum = tally as u64 + charge as u64;
    if sum > 4_294_967_295 {
        return Err(25);
    }
    let forest = Forest::of(&family);
    let bound_at = |i: usize| {
        let mut selected = vec![false; m + 1];
        for p in 1..=m {
            selected[p] = selections[i * m + p - 1] == 1;
        }
        forest.bound(&selected).0 as u16
    };
    Ok(List {
        values: (0..count).map(bound_at).collect(),
        charge: charge as u16,
        tally: sum as u32,
    })
}

/// The T + 1 values and the T marks.
pub fn curve(
    file: &[u8],
    path: &[u16],
    values_room: usize,
    marks_room: usize,
) -> Result<(Vec<u16>, Vec<u8>), Refusal> {
    let family = check(file).map_err(refusal)?;
    check_path(family.peptides, path)?;
    if values_room < path.len() + 1 || marks_room < path.len() {
        return Err(refusal(16));
    }
    let entries = Forest::of(&family).curve(family.peptides as usize, path);
    let marked = marks(&entries);
    Ok((entries, marked))
}

pub fn cut(file: &[u8], path: &[u16], a: u16, b: u16) -> Result<u16, Refusal> {
    let family = check(file).map_err(refusal)?;
    check_path(family.peptides, path)?;
    if b == 0 || a > b {
        return Err(refusal(15));
    }
    let entries = Forest::of(&family).curve(family.peptides as usize, path);
    Ok(cut_of(&entries, a, b))
}

pub fn reduce(file: &[u8], room: usize) -> Result<Family, u16> {
    let family = check(file)?;
    if room < file.len() {
        return Err(16);
    }
    Ok(reduced(&family))
}

pub fn same(first: &[u8], second: &[u8]) -> Result<bool, u16> {
    let one = check(first)?;
    let other = check(second).map_err(|number| number + 100)?;
    if one.peptides != other.peptides {
        return Ok(false);
    }
    Ok(reduced(&one) == reduced(&other))
}

// The reduction.

pub fn reduced(family: &Family) -> Family {
    let m = family.peptides as usize;
    let regions = pieces(family);
    // step 1, by peptide number; place 0 is no peptide
    let mut live = vec![true; m + 1];
    live[0] = false;
    for r in regions.iter().filter(|r| r.z == 0) {
        for p in r.low..=r.high {
            live[p] = false;
        }
    }
    let peptides: Vec<usize> = (1..=m).collect();
    let stretches = Forest::new(&peptides, stretches(&regions, &live));
    let mut kept: Vec<Piece> = Vec::new();
    // step 3: the room is the inside total of the live peptides
    let (_, rooms) = stretches.bound(&live);
    for (i, s) in stretches.pieces.iter().enumerate() {
        let larger_around = stretches
            .around(i)
            .into_iter()
            .all(|j| stretches.pieces[j].z > s.z);
        if s.z < rooms[i] && larger_around {
            kept.push(*s);
        }
    }
    // step 4
    kept.extend(dead_runs(m, &live));
    kept.sort_by_key(|s| (s.low, std::cmp::Reverse(s.high)));
    with_leaves(m, &kept)
}

// Step 2.
fn stretches(regions: &[Piece], live: &[bool]) -> Vec<Piece> {
    let mut found: Vec<Piece> = Vec::new();
    for r in regions.iter().filter(|r| r.z >= 1) {
        let alive: Vec<usize> = (r.low..=r.high).filter(|p| live[*p]).collect();
        let (Some(low), Some(high)) = (alive.first(), alive.last()) else {
            continue;
        };
        let coinciding = found.iter_mut().find(|s| (s.low, s.high) == (*low, *high));
        match coinciding {
            Some(s) => s.z = s.z.min(r.z),
            None => found.push(Piece {
                low: *low,
                high: *high,
                z: r.z,
            }),
        }
    }
    found
}

fn dead_runs(m: usize, live: &[bool]) -> Vec<Piece> {
    let mut runs = Vec::new();
    let mut p = 1;
    while p <= m {
        let low = p;
        while p <= m && !live[p] {
            p += 1;
        }
        if p > low {
            runs.push(Piece {
                low,
                high: p - 1,
                z: 0,
            });
        }
        p += 1;
    }
    runs
}

fn with_leaves(m: usize, pieces: &[Piece]) -> Family {
    let mut ends = BTreeSet::from([m]);
    for s in pieces {
        ends.insert(s.high);
        if s.low > 1 {
            ends.insert(s.low - 1);
        }
    }
    let ends: Vec<usize> = ends.into_iter().collect();
    let mut lengths = Vec::new();
    let mut before = 0;
    for end in &ends {
        lengths.push((end - before) as u16);
        before = *end;
    }
    // the leaf with a peptide is the first that ends at it or later
    let leaf_of = |p: usize| ends.iter().position(|end| p <= *end).unwrap() as u16 + 1;
    let regions = pieces
        .iter()
        .map(|s| Region {
            first: leaf_of(s.low),
            last: leaf_of(s.high),
            z: s.z as u16,
        })
        .collect();
    Family {
        peptides: m as u16,
        lengths,
        regions,
    }
}

// The choice of peptides by their rows: causes 2 and 17 to 19.

/// Which rows pass.
#[derive(Clone, Copy, Debug)]
pub enum Rule {
    /// p at or under the cut.
    AtMost(f64),
    /// p from the first cut to the second, both included.
    Between(f64, f64),
    /// p at or under the cut, and the fold outside a band: at least f, or at most -f.
    Volcano(f64, f64),
}

/// The places of 1 and of infinity.
const ONE: i64 = 0x3FF0_0000_0000_0000;
const INFINITY: i64 = 0x7FF0_0000_0000_0000;

/// The place of a number in the order of all of them, counted from zero; none for what is not a number. It is read off the
/// bits, sign and magnitude, so that no comparison of the processor has a part in it. Both zeros are at 0, and -x is as far
/// below them as x is above.
fn place(x: f64) -> Option<i64> {
    let bits = x.to_bits();
    let magnitude = (bits & (u64::MAX >> 1)) as i64;
    let negative = bits >> 63 == 1;
    (magnitude <= INFINITY).then_some(if negative { -magnitude } else { magnitude })
}

/// The places of numbers that are all from one place to another.
fn places(numbers: &[f64], least: i64, most: i64) -> Option<Vec<i64>> {
    numbers
        .iter()
        .map(|x| place(*x).filter(|at| least <= *at && *at <= most))
        .collect()
}

/// Whether a row passes, by the places of its numbers; nothing if a number of the rule is none, or f is under 0.
fn passes(rule: Rule, p: i64, fold: i64) -> Option<bool> {
    match rule {
        Rule::AtMost(cut) => Some(p <= place(cut)?),
        Rule::Between(low, high) => {
            let (low, high) = (place(low)?, place(high)?);
            Some(low <= p && p <= high)
        }
        Rule::Volcano(cut, f) => {
            let (cut, f) = (place(cut)?, place(f)?);
            (f >= 0).then_some(p <= cut && (fold >= f || fold <= -f))
        }
    }
}

/// The m bytes.
pub fn choose(
    m: u16,
    p_values: &[f64],
    folds: &[f64],
    rule: Rule,
    room: usize,
) -> Result<Vec<u8>, u16> {
    let rows = m as usize;
    if rows == 0 || rows > 4096 {
        return Err(2);
    }
    if p_values.len() != rows || folds.len() != rows || room < rows {
        return Err(17);
    }
    let p_places = places(p_values, 0, ONE).ok_or(18u16)?;
    let fold_places = places(folds, -INFINITY + 1, INFINITY - 1).ok_or(18u16)?;
    let rows = p_places.iter().zip(&fold_places);
    rows.map(|(p, fold)| passes(rule, *p, *fold).map(u8::from))
        .collect::<Option<Vec<u8>>>()
        .ok_or(19)
}

// The bounds from p-values: causes 1 to 10, 16 and 20 to 22.

/// 1 in millionths.
const MILLION: i128 = 1_000_000;

/// Whether v passes at a threshold with this gap and so many p-values over it.
fn passes_at(deviation_squared: u32, gap: i128, over: i128, v: i128) -> bool {
    let excess = v * gap - MILLION * over;
    excess <= 0 || excess * excess <= deviation_squared as i128 * v * MILLION
}

/// The largest v from 0 to the number of p-values that passes at 0 and at each p-value under 1,000,000.
pub fn z_of(deviation_squared: u32, p_values: &[u32]) -> u16 {
    let under = p_values.iter().copied().filter(|p| *p < 1_000_000);
    let thresholds: Vec<(i128, i128)> = std::iter::once(0)
        .chain(under)
        .map(|t| {
            let over = p_values.iter().filter(|p| **p > t).count();
            (MILLION - t as i128, over as i128)
        })
        .collect();
    let passes = |v: &i128| {
        thresholds
            .iter()
            .all(|(gap, over)| passes_at(deviation_squared, *gap, *over, *v))
    };
    (0..=p_values.len() as i128).rev().find(passes).unwrap() as u16
}

/// The given leaves and ranges with the z from the p-values.
pub fn with_z_from(family: &Family, p_values: &[u32], deviation_squared: u32) -> Family {
    let mut new = family.clone();
    for (region, piece) in new.regions.iter_mut().zip(pieces(family)) {
        region.z = z_of(deviation_squared, &p_values[piece.low - 1..piece.high]);
    }
    new
}

pub fn bounds_from_p(
    file: &[u8],
    p_values: &[u32],
    deviation_squared: u32,
    room: usize,
) -> Result<Family, u16> {
    let family = check(file)?;
    if room < file.len() {
        return Err(16);
    }
    if p_values.len() != family.peptides as usize {
        return Err(20);
    }
    if p_values.iter().any(|p| *p > 1_000_000) {
        return Err(21);
    }
    if deviation_squared > 100_000_000 {
        return Err(22);
    }
    Ok(with_z_from(&family, p_values, deviation_squared))
}

// The hybrid curve: causes 1 to 13, 16, 20, 21 and 23.

/// The Simes bounds of the first t peptides of a path, for t from 0 to its length: 0 for none, else the least over k from 1 to m
/// of k - 1 plus the count of these peptides with p times m greater than the level times k. The counts for the first t are those
/// for one less and, at each k, one more if the last of them is counted there.
pub fn simes(p_values: &[u32], level: u32, path: &[u16]) -> Vec<u16> {
    let m = p_values.len() as u64;
    let mut bounds = vec![0];
    let mut counts: Vec<(u64, u64)> = (1..=m).map(|k| (k, 0)).collect();
    for peptide in path {
        let p = p_values[*peptide as usize - 1] as u64;
        for (k, count) in &mut counts {
            *count += (p * m > level as u64 * *k) as u64;
        }
        let least = counts.iter().map(|(k, count)| k - 1 + count).min();
        bounds.push(least.unwrap() as u16);
    }
    bounds
}

/// The T + 1 values.
pub fn hybrid(
    file: &[u8],
    path: &[u16],
    p_values: &[u32],
    level: u32,
    room: usize,
) -> Result<Vec<u16>, Refusal> {
    let family = check(file).map_err(refusal)?;
    check_path(family.peptides, path)?;
    if room < path.len() + 1 {
        return Err(refusal(16));
    }
    if p_values.len() != family.peptides as usize {
        return Err(refusal(20));
    }
    if p_values.iter().any(|p| *p > 1_000_000) {
        return Err(refusal(21));
    }
    if level == 0 || level > 1_000_000 {
        return Err(refusal(23));
    }
    let entries = Forest::of(&family).curve(family.peptides as usize, path);
    let bounds = simes(p_values, level, path);
    let smaller = |(entry, bound): (&u16, &u16)| *entry.min(bound);
    Ok(entries.iter().zip(&bounds).map(smaller).collect())
}

// Families by level: causes 1 to 10 and 16 one way; 1 to 7, 9, 10, 16, 26 and 27 the other.

/// Level 1 has no region around it, level h has h - 1.
fn level(r: &Region, regions: &[Region]) -> usize {
    1 + around(r, regions)
}

pub fn to_levels(file: &[u8], room: usize) -> Result<ByLevel, u16> {
    let mut family = check(file)?;
    if room < file.len() + 128 {
        return Err(16);
    }
    let given = family.regions.clone();
    let mut counts = [0; 64];
    for r in &given {
        counts[level(r, &given) - 1] += 1;
    }
    family
        .regions
        .sort_by_cached_key(|r| (level(r, &given), r.first));
    Ok(ByLevel { family, counts })
}

pub fn from_levels(file: &[u8], room: usize) -> Result<Family, u16> {
    let mut family = read(file, b"PHFL", 144)?;
    let listed = family.regions.clone();
    let repeats = |i: usize| listed[..i].iter().any(|q| same_leaves(&listed[i], q));
    let distinct: Vec<Region> = (0..listed.len())
        .filter(|i| !repeats(*i))
        .map(|i| listed[i])
        .collect();
    check_nesting(&distinct)?;
    if room < file.len() - 128 {
        return Err(16);
    }
    let counts: Vec<usize> = (0..64).map(|h| number_at(file, 16 + 2 * h)).collect();
    if counts.iter().sum::<usize>() != listed.len() {
        return Err(26);
    }
    if distinct.len() < listed.len() {
        return Err(27);
    }
    let mut rest = &listed[..];
    for (h, count) in (1..=64).zip(counts) {
        let (stretch, behind) = rest.split_at(count);
        let elsewhere = stretch.iter().any(|r| level(r, &listed) != h);
        let rising = stretch.windows(2).all(|two| two[0].first < two[1].first);
        if elsewhere || !rising {
            return Err(27);
        }
        rest = behind;
    }
    family
        .regions
        .sort_by_key(|r| (r.first, std::cmp::Reverse(r.last)));
    Ok(family)
}
