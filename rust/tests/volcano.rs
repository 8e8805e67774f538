//! Choices by p-value and log fold change: every special number in every place, the first of several causes, what is left
//! unwritten, and the bound of what was chosen. What is expected is written beside each input, counted by hand, or known
//! from how the input is made; everything else is held to the reference, which compares bits.

use phf_tests::compare;
use phf_tests::families::{eight_peptides, random_family};
use phf_tests::guarded;
use phf_tests::random::{cases, Random};
use phf_tests::reference::{self, file_of, Rule};
use std::cell::RefCell;
use std::collections::BTreeMap;

const INFINITY: f64 = f64::INFINITY;
const NAN: f64 = f64::NAN;
/// The smallest number above 0.
const LEAST: f64 = 5e-324;

/// The byte of a row, or the number.
type Answer = Result<u8, u16>;

/// What is chosen from so many rows, with room for just these: the bytes, or the number.
fn chosen(p_values: &[f64], folds: &[f64], rule: Rule) -> Result<Vec<u8>, u16> {
    let m = p_values.len();
    let mut out = vec![77; m];
    let number = guarded::choose(m as u16, p_values, folds, rule, &mut out);
    if number == 0 {
        return Ok(out);
    }
    assert_eq!(out, vec![77; m]);
    Err(number)
}

/// The same for one row.
fn one(p: f64, fold: f64, rule: Rule) -> Answer {
    Ok(chosen(&[p], &[fold], rule)?[0])
}

/// The number for one row.
fn number(p: f64, fold: f64, rule: Rule) -> u16 {
    one(p, fold, rule).err().unwrap_or(0)
}

/// What is not a number: signalling and quiet, with the smallest payload, another one and the largest, and both signs.
fn not_numbers() -> Vec<f64> {
    let signalling = [
        0x7FF0_0000_0000_0001,
        0x7FF4_0000_0000_0000,
        0x7FF7_FFFF_FFFF_FFFF,
    ];
    let quiet = [
        0x7FF8_0000_0000_0000,
        0x7FF8_0000_0000_0001,
        0x7FFF_FFFF_FFFF_FFFF,
    ];
    let sign = 1 << 63;
    let all = signalling.into_iter().chain(quiet);
    all.flat_map(|bits| [bits, sign | bits])
        .map(f64::from_bits)
        .collect()
}

/// 13 numbers with both signs, in this order and each larger than the one before: zero, the edges of the subnormal and of the
/// normal numbers, a cut and 1 with their neighbours, 2, the largest and infinity. Then what is not a number.
///
/// So of these 38, 26 are numbers: 2 zeros, 12 above and 12 under them. 24 are finite, that is 2 zeros and 11 of either sign.
/// From 0 to 1 there are 10: the zeros and the first 8 above.
fn specials() -> Vec<f64> {
    let numbers = [
        0.0,
        LEAST,
        f64::MIN_POSITIVE.next_down(),
        f64::MIN_POSITIVE,
        0.05f64.next_down(),
        0.05,
        0.05f64.next_up(),
        1f64.next_down(),
        1.0,
        1f64.next_up(),
        2.0,
        f64::MAX,
        INFINITY,
    ];
    let signed = numbers.into_iter().flat_map(|x| [x, -x]);
    signed.chain(not_numbers()).collect()
}

/// How often each answer was given.
type Seen = BTreeMap<Answer, usize>;

/// Notes what one row is answered, and holds it to the reference.
fn note(seen: &mut Seen, p: f64, fold: f64, rule: Rule) {
    let answer = one(p, fold, rule);
    let expected = reference::choose(1, &[p], &[fold], rule, 1);
    assert_eq!(
        answer,
        expected.map(|bytes| bytes[0]),
        "p {p:?}, fold {fold:?}, {rule:?}"
    );
    *seen.entry(answer).or_default() += 1;
}

#[test]
fn at_most_of_every_p_fold_and_cut() {
    let all = specials();
    let mut seen = Seen::new();
    for p in &all {
        for fold in &all {
            for cut in &all {
                note(&mut seen, *p, *fold, Rule::AtMost(*cut));
            }
        }
    }
    // 14 cuts are at or above a zero; at or above the i-th number above 0 there are 13 - i, for i from 1 to 8
    let passing = 14 + 14 + (12 + 11 + 10 + 9 + 8 + 7 + 6 + 5);
    assert_eq!(seen[&Ok(1)], 24 * passing);
    assert_eq!(seen[&Ok(0)], 24 * (10 * 26 - passing));
    assert_eq!(seen[&Err(19)], 10 * 24 * 12);
    assert_eq!(seen[&Err(18)], (38 * 38 - 10 * 24) * 38);
    assert_eq!(seen.len(), 4);
}

#[test]
fn between_of_every_p_and_two_cuts() {
    let all = specials();
    let mut seen = Seen::new();
    for p in &all {
        for low in &all {
            for high in &all {
                note(&mut seen, *p, -0.5, Rule::Between(*low, *high));
            }
        }
    }
    // at or under the i-th number above 0 there are 14 + i, at or above it 13 - i; at or under a zero 14, and as many above
    let above: usize = (1..=8).map(|i| (14 + i) * (13 - i)).sum();
    let passing = 2 * 14 * 14 + above;
    assert_eq!(seen[&Ok(1)], passing);
    assert_eq!(seen[&Ok(0)], 10 * 26 * 26 - passing);
    assert_eq!(seen[&Err(19)], 10 * (38 * 38 - 26 * 26));
    assert_eq!(seen[&Err(18)], 28 * 38 * 38);
    assert_eq!(seen.len(), 4);
}

#[test]
fn volcano_of_every_p_fold_cut_and_f() {
    let all = specials();
    let mut seen = Seen::new();
    for p in &all {
        for fold in &all {
            for cut in &all {
                for f in &all {
                    note(&mut seen, *p, *fold, Rule::Volcano(*cut, *f));
                }
            }
        }
    }
    // as with a cut alone
    let under = 14 + 14 + (12 + 11 + 10 + 9 + 8 + 7 + 6 + 5);
    // each zero passes with both zeros as f; the i-th number above 0, and its negative, with these and the first i above 0
    let outside: usize = 2 * 2 + (1..=11).map(|i| 2 * (2 + i)).sum::<usize>();
    // 14 are an f: the zeros and those above
    assert_eq!(seen[&Ok(1)], under * outside);
    assert_eq!(seen[&Ok(0)], 10 * 24 * 26 * 14 - under * outside);
    assert_eq!(seen[&Err(19)], 10 * 24 * (38 * 38 - 26 * 14));
    assert_eq!(seen[&Err(18)], (38 * 38 - 10 * 24) * 38 * 38);
    assert_eq!(seen.len(), 4);
}

/// Three rows, and what each rule chooses of them.
const P_VALUES: [f64; 3] = [0.01, 0.05, 0.2];
const FOLDS: [f64; 3] = [-2.0, 0.5, 1.0];
const RULES: [(Rule, [u8; 3]); 3] = [
    (Rule::AtMost(0.05), [1, 1, 0]),
    (Rule::Between(0.05, 0.5), [0, 1, 1]),
    (Rule::Volcano(0.2, 1.0), [1, 0, 1]),
];

#[test]
fn each_special_among_plain_rows() {
    for (rule, plain) in RULES {
        assert_eq!(chosen(&P_VALUES, &FOLDS, rule), Ok(plain.to_vec()));
        for special in specials() {
            for at in 0..3 {
                let (mut p_values, mut folds) = (P_VALUES, FOLDS);
                p_values[at] = special;
                folds[at] = special;
                for (p_values, folds) in [(p_values, FOLDS), (P_VALUES, folds)] {
                    let answer = chosen(&p_values, &folds, rule);
                    assert_eq!(answer, reference::choose(3, &p_values, &folds, rule, 3));
                    let Ok(mut bytes) = answer else {
                        continue;
                    };
                    // the other rows are as they were
                    bytes[at] = plain[at];
                    assert_eq!(bytes, plain);
                }
            }
        }
    }
}

#[test]
fn each_special_in_each_rule_over_plain_rows() {
    for special in specials() {
        for rule in [
            Rule::AtMost(special),
            Rule::Between(special, 0.1),
            Rule::Between(0.05, special),
            Rule::Volcano(special, 1.0),
            Rule::Volcano(0.1, special),
        ] {
            compare::choose(3, &P_VALUES, &FOLDS, rule, 3);
        }
    }
}

// What is expected of one row, beside it.

#[test]
fn p_at_the_upper_cut() {
    for (p, cut, passes) in [
        (0.05, 0.05, 1),
        (0.05f64.next_up(), 0.05, 0),
        (0.05f64.next_down(), 0.05, 1),
        (0.05, 0.05f64.next_down(), 0),
        (1.0, 1.0, 1),
        (1.0, 1f64.next_down(), 0),
        (1f64.next_down(), 1.0, 1),
        (1.0, f64::MAX, 1),
        (1.0, INFINITY, 1),
        // both zeros are the same number
        (0.0, 0.0, 1),
        (0.0, -0.0, 1),
        (-0.0, 0.0, 1),
        (-0.0, -0.0, 1),
        (LEAST, 0.0, 0),
        (LEAST, -0.0, 0),
        (LEAST, LEAST, 1),
        (0.0, LEAST, 1),
        (-0.0, LEAST, 1),
        // no p is under 0
        (0.0, -LEAST, 0),
        (-0.0, -LEAST, 0),
        (0.0, f64::MIN, 0),
        (0.0, -INFINITY, 0),
        (-0.0, -INFINITY, 0),
    ] {
        for rule in [
            Rule::AtMost(cut),
            Rule::Between(-1.0, cut),
            Rule::Between(-INFINITY, cut),
            Rule::Volcano(cut, 0.0),
            Rule::Volcano(cut, 3.0),
        ] {
            assert_eq!(one(p, 3.0, rule), Ok(passes), "p {p:?}, {rule:?}");
        }
    }
}

#[test]
fn p_at_the_lower_cut() {
    for (p, low, passes) in [
        (0.05, 0.05, 1),
        (0.05f64.next_down(), 0.05, 0),
        (0.05f64.next_up(), 0.05, 1),
        (1.0, 1.0, 1),
        (1f64.next_down(), 1.0, 0),
        (1.0, 1f64.next_up(), 0),
        (1.0, INFINITY, 0),
        (0.0, 0.0, 1),
        (0.0, -0.0, 1),
        (-0.0, 0.0, 1),
        (-0.0, -0.0, 1),
        (LEAST, 0.0, 1),
        (LEAST, LEAST, 1),
        (0.0, LEAST, 0),
        (-0.0, LEAST, 0),
        (0.0, -LEAST, 1),
        (-0.0, -INFINITY, 1),
    ] {
        for high in [1.0, INFINITY] {
            let rule = Rule::Between(low, high);
            assert_eq!(one(p, 0.0, rule), Ok(passes), "p {p:?}, {rule:?}");
        }
    }
}

#[test]
fn between_equal_cuts() {
    let rows = [0.05f64.next_down(), 0.05, 0.05f64.next_up(), 0.0, -0.0, 1.0];
    let of = |cut: f64| chosen(&rows, &[0.0; 6], Rule::Between(cut, cut)).unwrap();
    assert_eq!(of(0.05), [0, 1, 0, 0, 0, 0]);
    assert_eq!(of(0.0), [0, 0, 0, 1, 1, 0]);
    assert_eq!(of(-0.0), [0, 0, 0, 1, 1, 0]);
    assert_eq!(of(1.0), [0, 0, 0, 0, 0, 1]);
    assert_eq!(of(INFINITY), [0; 6]);
    assert_eq!(of(-INFINITY), [0; 6]);
}

/// No refusal, and nothing is chosen, even where p is both cuts or between them.
#[test]
fn between_with_the_first_cut_above_the_second() {
    let rows = [0.05, 0.05f64.next_up(), 0.2, 0.5, 0.0, -0.0, 1.0, LEAST];
    for (low, high) in [
        (0.5, 0.05),
        (0.05f64.next_up(), 0.05),
        (0.05, 0.05f64.next_down()),
        (1.0, 0.0),
        (LEAST, 0.0),
        (LEAST, -0.0),
        (0.0, -LEAST),
        (1f64.next_up(), 1.0),
        (INFINITY, -INFINITY),
        (INFINITY, 1.0),
        (0.0, -INFINITY),
    ] {
        let rule = Rule::Between(low, high);
        assert_eq!(chosen(&rows, &[2.0; 8], rule), Ok(vec![0; 8]), "{rule:?}");
    }
}

#[test]
fn the_fold_at_the_band() {
    for (fold, f, passes) in [
        (1.0, 1.0, 1),
        (-1.0, 1.0, 1),
        (1f64.next_down(), 1.0, 0),
        (-(1f64.next_down()), 1.0, 0),
        (1f64.next_up(), 1.0, 1),
        (-(1f64.next_up()), 1.0, 1),
        (0.0, 1.0, 0),
        (-0.0, 1.0, 0),
        // every fold is outside of a band without width
        (0.0, 0.0, 1),
        (0.0, -0.0, 1),
        (-0.0, 0.0, 1),
        (-0.0, -0.0, 1),
        (LEAST, 0.0, 1),
        (LEAST, -0.0, 1),
        (-LEAST, 0.0, 1),
        (-LEAST, -0.0, 1),
        (LEAST, LEAST, 1),
        (-LEAST, LEAST, 1),
        (0.0, LEAST, 0),
        (-0.0, LEAST, 0),
        (f64::MAX, f64::MAX, 1),
        (f64::MIN, f64::MAX, 1),
        (f64::MAX.next_down(), f64::MAX, 0),
        (f64::MIN.next_up(), f64::MAX, 0),
        // and none of one that has no end
        (f64::MAX, INFINITY, 0),
        (f64::MIN, INFINITY, 0),
        (0.0, INFINITY, 0),
    ] {
        for (p, cut) in [(0.05, 0.05), (0.0, -0.0), (1.0, INFINITY)] {
            let rule = Rule::Volcano(cut, f);
            assert_eq!(one(p, fold, rule), Ok(passes), "fold {fold:?}, {rule:?}");
        }
        // a p over the cut is not chosen, whatever its fold, and the other rules do not look at the fold
        let over = 0.05f64.next_up();
        assert_eq!(one(over, fold, Rule::Volcano(0.05, f)), Ok(0));
        assert_eq!(one(0.05, fold, Rule::AtMost(0.05)), Ok(1));
        assert_eq!(one(over, fold, Rule::AtMost(0.05)), Ok(0));
        assert_eq!(one(0.05, fold, Rule::Between(0.05, 0.1)), Ok(1));
        assert_eq!(one(over, fold, Rule::Between(0.01, 0.05)), Ok(0));
    }
}

#[test]
fn cause_18_p_values() {
    for (rule, _) in RULES {
        for p in [0.0, -0.0, LEAST, 0.05, 1f64.next_down(), 1.0] {
            assert_eq!(number(p, 0.5, rule), 0, "p {p:?}, {rule:?}");
        }
        let outside = [-LEAST, -1.0, f64::MIN, -INFINITY];
        let above = [1f64.next_up(), 2.0, f64::MAX, INFINITY];
        for p in outside.into_iter().chain(above).chain(not_numbers()) {
            assert_eq!(number(p, 0.5, rule), 18, "p {p:?}, {rule:?}");
        }
    }
}

#[test]
fn cause_18_folds() {
    for (rule, _) in RULES {
        for fold in [0.0, -0.0, LEAST, -LEAST, 1e9, f64::MAX, f64::MIN] {
            assert_eq!(number(0.05, fold, rule), 0, "fold {fold:?}, {rule:?}");
            // a p over the cut is no reason to pass over its fold
            assert_eq!(number(1.0, fold, rule), 0, "fold {fold:?}, {rule:?}");
        }
        for fold in [INFINITY, -INFINITY].into_iter().chain(not_numbers()) {
            assert_eq!(number(0.05, fold, rule), 18, "fold {fold:?}, {rule:?}");
            assert_eq!(number(1.0, fold, rule), 18, "fold {fold:?}, {rule:?}");
        }
    }
}

#[test]
fn cause_19_cuts() {
    // any number is a cut, also one that no p can reach
    for cut in [
        0.0,
        -0.0,
        0.05,
        1.0,
        2.0,
        -LEAST,
        -1.0,
        INFINITY,
        -INFINITY,
        f64::MAX,
    ] {
        for rule in [
            Rule::AtMost(cut),
            Rule::Between(cut, 0.5),
            Rule::Between(0.5, cut),
            Rule::Between(cut, cut),
            Rule::Volcano(cut, 1.0),
        ] {
            assert_eq!(number(0.05, 2.0, rule), 0, "{rule:?}");
        }
    }
    for cut in not_numbers() {
        for rule in [
            Rule::AtMost(cut),
            Rule::Between(cut, 0.5),
            // p is under the first cut, or no p is between the two: the second is judged all the same
            Rule::Between(0.5, cut),
            Rule::Between(0.0, cut),
            Rule::Between(INFINITY, cut),
            Rule::Between(cut, -INFINITY),
            Rule::Between(cut, cut),
            Rule::Volcano(cut, 1.0),
            Rule::Volcano(cut, INFINITY),
        ] {
            assert_eq!(number(0.05, 2.0, rule), 19, "{rule:?}");
        }
    }
}

#[test]
fn cause_19_f() {
    // also where no p is at or under the cut
    for cut in [0.05, -1.0, INFINITY, -INFINITY] {
        for f in [0.0, -0.0, LEAST, 1.0, f64::MAX, INFINITY] {
            assert_eq!(number(0.05, 2.0, Rule::Volcano(cut, f)), 0, "f {f:?}");
        }
        let under = [-LEAST, -f64::MIN_POSITIVE, -1.0, f64::MIN, -INFINITY];
        for f in under.into_iter().chain(not_numbers()) {
            assert_eq!(number(0.05, 2.0, Rule::Volcano(cut, f)), 19, "f {f:?}");
        }
    }
    // the two cuts of the other rule are no f
    assert_eq!(one(0.05, 2.0, Rule::Between(-2.0, -1.0)), Ok(0));
    assert_eq!(one(0.05, 2.0, Rule::Between(-1.0, 0.05)), Ok(1));
    assert_eq!(one(0.05, 2.0, Rule::AtMost(-1.0)), Ok(0));
}

// Sizes, and several causes at once.

#[test]
fn cause_2_peptides() {
    for (m, expected) in [(0, 2), (1, 0), (4096, 0), (4097, 2), (65535, 2)] {
        for (rule, _) in RULES {
            let rows = vec![0.05; m];
            assert_eq!(
                compare::choose(m as u16, &rows, &rows, rule, m),
                expected,
                "{m} peptides"
            );
        }
    }
}

#[test]
fn cause_17_lengths() {
    let rows = vec![0.05; 70_000];
    for (rule, _) in RULES {
        let told = |m: u16, p: usize, f: usize, room| {
            compare::choose(m, &rows[..p], &rows[..f], rule, room)
        };
        for m in [1, 2, 5, 4096] {
            let count = m as u16;
            assert_eq!(told(count, m, m, m), 0);
            assert_eq!(told(count, m - 1, m, m), 17);
            assert_eq!(told(count, m + 1, m, m), 17);
            assert_eq!(told(count, m, m - 1, m), 17);
            assert_eq!(told(count, m, m + 1, m), 17);
            assert_eq!(told(count, m, m, m - 1), 17);
            // equally long, and not m
            assert_eq!(told(count, m - 1, m - 1, m - 1), 17);
            assert_eq!(told(count, m + 1, m + 1, m + 1), 17);
            // nothing at all
            assert_eq!(told(count, 0, m, m), 17);
            assert_eq!(told(count, m, 0, m), 17);
            assert_eq!(told(count, m, m, 0), 17);
            assert_eq!(told(count, 0, 0, 0), 17);
            // m in 16 bits only
            assert_eq!(told(count, 65_536 + m, m, m), 17);
            assert_eq!(told(count, m, 65_536 + m, m), 17);
            // an output may be longer by any number, also one that is 0 in 16 bits
            assert_eq!(told(count, m, m, m + 1), 0);
            assert_eq!(told(count, m, m, 65_536), 0);
        }
    }
}

/// What is wrong with a call.
#[derive(Clone, Copy, Debug, PartialEq)]
enum Fault {
    NoPeptides,
    TooManyPeptides,
    ShortP,
    LongP,
    ShortFolds,
    LongFolds,
    ShortOutput,
    BadP,
    BadFold,
    BadRule,
}

use Fault::*;

const FAULTS: [Fault; 10] = [
    NoPeptides,
    TooManyPeptides,
    ShortP,
    LongP,
    ShortFolds,
    LongFolds,
    ShortOutput,
    BadP,
    BadFold,
    BadRule,
];

impl Fault {
    fn number(self) -> u16 {
        match self {
            NoPeptides | TooManyPeptides => 2,
            ShortP | LongP | ShortFolds | LongFolds | ShortOutput => 17,
            BadP | BadFold => 18,
            BadRule => 19,
        }
    }
}

/// Every set of faults that one call can have.
fn fault_sets() -> Vec<Vec<Fault>> {
    let apart = [
        (NoPeptides, TooManyPeptides),
        (ShortP, LongP),
        (ShortFolds, LongFolds),
    ];
    (0..1 << FAULTS.len())
        .map(|set: usize| {
            let has = |i: &usize| set >> i & 1 == 1;
            (0..FAULTS.len()).filter(has).map(|i| FAULTS[i]).collect()
        })
        .filter(|set: &Vec<Fault>| {
            !apart
                .iter()
                .any(|(one, other)| set.contains(one) && set.contains(other))
        })
        .collect()
}

/// Where a bad number stands, and what it is.
#[derive(Clone, Copy)]
struct Bad {
    /// The first, a middle or the last place: 0, 1 or 2 halves of the way.
    halves: usize,
    p: f64,
    fold: f64,
    rule: Rule,
}

impl Bad {
    fn put(&self, numbers: &mut [f64], bad: f64) {
        let last = numbers.len() - 1;
        numbers[last * self.halves / 2] = bad;
    }
}

/// A slice of so many numbers, or of one less or more.
fn slice(rows: usize, number: f64, short: bool, long: bool) -> Vec<f64> {
    vec![number; rows + long as usize - short as usize]
}

/// Makes a call with these faults. Causes are tried in the order of their numbers, so the smallest one is expected.
fn with_faults(m: usize, faults: &[Fault], good: Rule, bad: Bad) {
    let has = |fault| faults.contains(&fault);
    // without a peptide the rows stay, so that cause 17 holds as well
    let rows = if has(TooManyPeptides) { 4097 } else { m };
    let count = if has(NoPeptides) { 0 } else { rows as u16 };
    let mut p_values = slice(rows, 0.05, has(ShortP), has(LongP));
    let mut folds = slice(rows, -2.0, has(ShortFolds), has(LongFolds));
    if has(BadP) {
        bad.put(&mut p_values, bad.p);
    }
    if has(BadFold) {
        bad.put(&mut folds, bad.fold);
    }
    let rule = if has(BadRule) { bad.rule } else { good };
    let room = rows - has(ShortOutput) as usize;
    let expected = faults.iter().map(|fault| fault.number()).min().unwrap_or(0);
    let found = compare::choose(count, &p_values, &folds, rule, room);
    assert_eq!(found, expected, "{faults:?}, {rule:?}");
}

/// Each rule with a number that is none, and f under 0.
const RULES_AND_BAD_ONES: [(Rule, Rule); 6] = [
    (Rule::AtMost(0.05), Rule::AtMost(NAN)),
    (Rule::Between(0.01, 0.05), Rule::Between(NAN, 0.05)),
    (Rule::Between(0.01, 0.05), Rule::Between(0.01, NAN)),
    (Rule::Volcano(0.05, 1.0), Rule::Volcano(NAN, 1.0)),
    (Rule::Volcano(0.05, 1.0), Rule::Volcano(0.05, NAN)),
    (Rule::Volcano(0.05, 1.0), Rule::Volcano(0.05, -LEAST)),
];

#[test]
fn the_first_of_several_causes() {
    let sets = fault_sets();
    // each of three pairs has none, one or the other
    assert_eq!(sets.len(), 3 * 3 * 3 * 16);
    for (good, bad_rule) in RULES_AND_BAD_ONES {
        for (halves, p, fold) in [
            (0, NAN, INFINITY),
            (1, -LEAST, NAN),
            (2, 1f64.next_up(), -INFINITY),
        ] {
            let bad = Bad {
                halves,
                p,
                fold,
                rule: bad_rule,
            };
            for faults in &sets {
                with_faults(5, faults, good, bad);
                with_faults(4096, faults, good, bad);
            }
        }
    }
}

/// Each place of up to 40 rows and some of 4,096: how many rows, and how many of them before it.
fn places() -> impl Iterator<Item = (usize, usize)> {
    let small = (1..=40).flat_map(|m| (0..m).map(move |at| (m, at)));
    let large = [0, 1, 2047, 2048, 4094, 4095].map(|at| (4096, at));
    small.chain(large)
}

#[test]
fn a_bad_number_at_each_place() {
    for (m, at) in places() {
        for (rule, _) in RULES {
            let rows = vec![0.05; m];
            let with = |bad: f64| {
                let mut changed = rows.clone();
                changed[at] = bad;
                changed
            };
            for p in [NAN, -LEAST, 1f64.next_up()] {
                assert_eq!(chosen(&with(p), &rows, rule), Err(18));
            }
            for fold in [-NAN, INFINITY, -INFINITY] {
                assert_eq!(chosen(&rows, &with(fold), rule), Err(18));
            }
        }
    }
}

/// One row that passes among those that do not, at each place, and the other way round.
#[test]
fn one_row_apart_at_each_place() {
    let (in_cut, over) = (0.05, 0.05f64.next_up());
    let (outside, in_band) = (-1.0, -(1f64.next_down()));
    let volcano = Rule::Volcano(0.05, 1.0);
    // p and fold, each of the one row and of the others, and the byte of the one
    for (rule, p, fold, byte) in [
        (Rule::AtMost(0.05), (in_cut, over), (0.0, 0.0), 1),
        (Rule::AtMost(0.05), (over, in_cut), (0.0, 0.0), 0),
        (Rule::Between(0.01, 0.05), (in_cut, over), (0.0, 0.0), 1),
        (Rule::Between(0.01, 0.05), (over, in_cut), (0.0, 0.0), 0),
        (volcano, (in_cut, over), (outside, outside), 1),
        (volcano, (in_cut, in_cut), (outside, in_band), 1),
        (volcano, (in_cut, in_cut), (in_band, outside), 0),
    ] {
        for (m, at) in places() {
            let (mut p_values, mut folds) = (vec![p.1; m], vec![fold.1; m]);
            let mut expected = vec![1 - byte; m];
            p_values[at] = p.0;
            folds[at] = fold.0;
            expected[at] = byte;
            assert_eq!(chosen(&p_values, &folds, rule), Ok(expected));
        }
    }
}

/// Only the first m bytes of an output are written.
#[test]
fn a_longer_output() {
    for m in [1, 2, 5, 4096] {
        for more in [1, 2, 8, 40, 5000] {
            for (rule, passes) in [
                (Rule::AtMost(0.05), 1),
                (Rule::AtMost(0.01), 0),
                (Rule::Between(0.05, 0.05), 1),
                (Rule::Between(0.06, 1.0), 0),
                (Rule::Volcano(0.05, 2.0), 1),
                (Rule::Volcano(0.05, 3.0), 0),
            ] {
                let mut out = vec![77; m + more];
                let answer =
                    guarded::choose(m as u16, &vec![0.05; m], &vec![-2.0; m], rule, &mut out);
                assert_eq!(answer, 0);
                assert_eq!(out[..m], vec![passes; m]);
                assert_eq!(out[m..], vec![77; more]);
            }
        }
    }
}

// Random rows.

/// A number, or one a step or two beside it.
fn near(random: &mut Random, x: f64) -> f64 {
    match random.below(5) {
        0 => x.next_down().next_down(),
        1 => x.next_down(),
        2 => x,
        3 => x.next_up(),
        _ => x.next_up().next_up(),
    }
}

fn some_cut(random: &mut Random) -> f64 {
    let common = [0.01, 0.05, 0.1, 0.5, 1.0];
    let rare = [0.0, -0.0, LEAST, -1.0, 2.0, INFINITY, -INFINITY];
    match random.below(5) {
        0 => rare[random.below(rare.len())],
        1 => random.fraction(),
        _ => common[random.below(common.len())],
    }
}

fn some_f(random: &mut Random) -> f64 {
    let rare = [0.0, -0.0, LEAST, f64::MAX, INFINITY];
    match random.below(5) {
        0 => rare[random.below(rare.len())],
        1 => 4.0 * random.fraction(),
        _ => 1.0,
    }
}

fn some_rule(random: &mut Random) -> Rule {
    match random.below(3) {
        0 => Rule::AtMost(some_cut(random)),
        1 => Rule::Between(some_cut(random), some_cut(random)),
        _ => Rule::Volcano(some_cut(random), some_f(random)),
    }
}

/// One of these edges or a number beside it, or else the other number.
fn at_an_edge_or(random: &mut Random, edges: &[f64], other: f64) -> f64 {
    if random.chance(1, 2) {
        return other;
    }
    let edge = edges[random.below(edges.len())];
    near(random, edge)
}

/// Rows that are accepted, many of them close to where the rule divides them.
fn some_rows(random: &mut Random, m: usize, rule: Rule) -> (Vec<f64>, Vec<f64>) {
    let (cuts, f) = match rule {
        Rule::AtMost(cut) => ([cut, 0.0], 1.0),
        Rule::Between(low, high) => ([low, high], 1.0),
        Rule::Volcano(cut, f) => ([cut, 1.0], f),
    };
    let row = |_| {
        let (any_p, any_fold) = (random.fraction(), 8.0 * random.fraction() - 4.0);
        let p = at_an_edge_or(random, &cuts, any_p);
        let fold = at_an_edge_or(random, &[f, -f, 0.0], any_fold);
        (p.clamp(0.0, 1.0), fold.clamp(f64::MIN, f64::MAX))
    };
    (0..m).map(row).unzip()
}

/// Accepted rows of up to 4,096 peptides, with outputs of just the size and longer ones. Each rule chooses some of them and
/// leaves others.
#[test]
fn rows_near_the_cuts() {
    let seen = RefCell::new([[0usize; 2]; 3]);
    let test = |random: &mut Random, m: usize| {
        let rule = some_rule(random);
        let (p_values, folds) = some_rows(random, m, rule);
        let room = m + random.below(3) * random.below(100);
        assert_eq!(
            compare::choose(m as u16, &p_values, &folds, rule, room),
            0,
            "{rule:?}"
        );
        let kind = match rule {
            Rule::AtMost(_) => 0,
            Rule::Between(..) => 1,
            Rule::Volcano(..) => 2,
        };
        for byte in chosen(&p_values, &folds, rule).unwrap() {
            seen.borrow_mut()[kind][byte as usize] += 1;
        }
    };
    cases(80, 5000, |random| {
        let m = random.between(1, 60);
        test(random, m);
    });
    cases(81, 200, |random| {
        let m = random.between(61, 4096);
        test(random, m);
    });
    cases(82, 30, |random| test(random, 4096));
    for times in seen.borrow().as_flattened() {
        assert!(*times >= 10_000, "{seen:?}");
    }
}

/// The rule with another number in place of its first or its last.
fn with_special(rule: Rule, first: bool, special: f64) -> Rule {
    match rule {
        Rule::AtMost(_) => Rule::AtMost(special),
        Rule::Between(_, high) if first => Rule::Between(special, high),
        Rule::Between(low, _) => Rule::Between(low, special),
        Rule::Volcano(_, f) if first => Rule::Volcano(special, f),
        Rule::Volcano(cut, _) => Rule::Volcano(cut, special),
    }
}

/// Puts a number at a place, if there is one.
fn put(numbers: &mut [f64], at: usize, number: f64) {
    if at < numbers.len() {
        numbers[at] = number;
    }
}

/// Calls with faults of any kind, often several, at any place.
#[test]
fn damaged_calls() {
    let seen = RefCell::new(BTreeMap::<u16, usize>::new());
    let specials = specials();
    cases(83, 30_000, |random| {
        let mut m = random.between(1, 40) as u16;
        let mut rule = some_rule(random);
        let (mut p_values, mut folds) = some_rows(random, m as usize, rule);
        let mut room = m as usize + random.below(2);
        for _ in 0..random.below(4) {
            let special = specials[random.below(specials.len())];
            let at = random.below(40);
            match random.below(9) {
                0 => m = [0, 4096, 4097, 65535, m ^ 1][random.below(5)],
                1 => drop(p_values.pop()),
                2 => p_values.push(special),
                3 => drop(folds.pop()),
                4 => folds.push(special),
                5 => room -= room.min(1),
                6 => put(&mut p_values, at, special),
                7 => put(&mut folds, at, special),
                _ => rule = with_special(rule, random.chance(1, 2), special),
            }
        }
        let number = compare::choose(m, &p_values, &folds, rule, room);
        *seen.borrow_mut().entry(number).or_default() += 1;
    });
    for number in [0, 2, 17, 18, 19] {
        let times = seen.borrow().get(&number).copied().unwrap_or(0);
        assert!(times >= 20, "number {number} was seen {times} times");
    }
}

/// No p is under 0, so a first cut of 0 leaves nothing out; and no fold is inside a band without width.
#[test]
fn rules_that_say_the_same() {
    cases(84, 3000, |random| {
        let cut = some_cut(random);
        let m = random.between(1, 200);
        let (p_values, folds) = some_rows(random, m, Rule::Volcano(cut, 0.0));
        let by = |rule| chosen(&p_values, &folds, rule).unwrap();
        let at_most = by(Rule::AtMost(cut));
        for zero in [0.0, -0.0] {
            assert_eq!(by(Rule::Between(zero, cut)), at_most);
            assert_eq!(by(Rule::Volcano(cut, zero)), at_most);
        }
        assert_eq!(by(Rule::Between(-INFINITY, cut)), at_most);
    });
}

/// p from low to high is p at most high and not at most the number before low.
#[test]
fn between_is_the_difference_of_two() {
    cases(85, 3000, |random| {
        let (low, high) = (some_cut(random), some_cut(random));
        let rule = Rule::Between(low, high);
        let m = random.between(1, 200);
        let (p_values, folds) = some_rows(random, m, rule);
        let by = |rule| chosen(&p_values, &folds, rule).unwrap();
        let up_to_high = by(Rule::AtMost(high));
        let under_low = by(Rule::AtMost(low.next_down()));
        // with low at minus infinity there is no number before it, and no p at most it
        let both = up_to_high.iter().zip(&under_low);
        let expected: Vec<u8> = both.map(|(upper, lower)| upper & (1 - lower)).collect();
        assert_eq!(by(rule), expected, "{rule:?}");
    });
}

/// The band lies evenly around 0: the folds with other signs give the same choice.
#[test]
fn other_signs_of_the_folds() {
    cases(86, 2000, |random| {
        let rule = Rule::Volcano(some_cut(random), some_f(random));
        let m = random.between(1, 200);
        let (p_values, folds) = some_rows(random, m, rule);
        let negated: Vec<f64> = folds.iter().map(|fold| -fold).collect();
        let positive: Vec<f64> = folds.iter().map(|fold| fold.abs()).collect();
        let of = |folds: &[f64]| chosen(&p_values, folds, rule).unwrap();
        assert_eq!(of(&negated), of(&folds));
        assert_eq!(of(&positive), of(&folds));
    });
}

// The bound of what was chosen.

#[test]
fn the_bound_of_a_choice() {
    let test = |random: &mut Random, m: usize| {
        let family = random_family(random, m);
        let rule = some_rule(random);
        let (p_values, folds) = some_rows(random, m, rule);
        let expected = reference::choose(m as u16, &p_values, &folds, rule, m).unwrap();
        let selection = chosen(&p_values, &folds, rule).unwrap();
        assert_eq!(selection, expected);
        let room = family.regions.len() + random.below(3);
        assert_eq!(compare::bound(&file_of(&family), &selection, room), 0);
    };
    cases(87, 2000, |random| {
        let m = random.between(1, 60);
        test(random, m);
    });
    cases(88, 6, |random| {
        let m = random.between(1000, 4096);
        test(random, m);
    });
}

/// Of eight peptides with these rows: what a rule chooses, the bound of that, and the regions that are taken for it.
fn holds_for_eight(rule: Rule, chosen: [u8; 8], bound: u16, taken: [u8; 5]) {
    let p_values = [0.001, 0.2, 0.01, 0.05, 0.04, 0.03, 0.02, 0.6];
    let folds = [2.0, -3.0, -1.5, 0.9, 0.5, -1.0, -2.5, 0.1];
    let file = file_of(&eight_peptides());
    let mut out = [77; 10];
    assert_eq!(guarded::choose(8, &p_values, &folds, rule, &mut out), 0);
    assert_eq!(out[..8], chosen);
    assert_eq!(out[8..], [77, 77]);
    let mut bytes = [9; 5];
    let answer = guarded::bound(&file, &out[..8], &mut bytes);
    assert_eq!((answer.number, answer.bound), (0, bound));
    assert_eq!(bytes, taken);
}

/// The regions have 1 to 5 (z = 3), 1 and 2 (2), 3 to 5 (1), 6 to 8 (3), and 7 and 8 (0).
#[test]
fn the_bound_of_a_choice_from_eight_peptides() {
    // 1; one of 3, 4 and 5; 6; not 7. Together these are 3, and of 1 to 5 two, which is under 3.
    let at_most = [1, 0, 1, 1, 1, 1, 1, 0];
    holds_for_eight(Rule::AtMost(0.05), at_most, 3, [0, 0, 1, 0, 1]);
    // 4 has just 0.05: one of 3 and 5 is left, with 1 and 6
    let under = Rule::AtMost(0.05f64.next_down());
    holds_for_eight(under, [1, 0, 1, 0, 1, 1, 1, 0], 3, [0, 0, 1, 0, 1]);
    // 7 has just 0.02, and 4 just 0.05: one of 4 and 5; 6; not 7
    let between = Rule::Between(0.02, 0.05);
    holds_for_eight(between, [0, 0, 0, 1, 1, 1, 1, 0], 2, [0, 0, 1, 0, 1]);
    // nothing between
    let crossed = Rule::Between(0.05, 0.02);
    holds_for_eight(crossed, [0; 8], 0, [0; 5]);
    // 4 and 5 are inside the band, 6 at its lower edge: 1, 3 and 6, and not 7; of 3 to 5 one is selected, which is no more
    // than 1
    let volcano = Rule::Volcano(0.05, 1.0);
    holds_for_eight(volcano, [1, 0, 1, 0, 0, 1, 1, 0], 3, [0, 0, 0, 0, 1]);
    // now 6 is inside, too
    let wider = Rule::Volcano(0.05, 1f64.next_up());
    holds_for_eight(wider, [1, 0, 1, 0, 0, 0, 1, 0], 2, [0, 0, 0, 0, 1]);
    // all: at most 2 of 1 and 2, 1 of 3 to 5, which are no more than 3; 6
    holds_for_eight(Rule::AtMost(1.0), [1; 8], 4, [0, 0, 1, 0, 1]);
}
