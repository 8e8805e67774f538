//! The calls of the library, as the tests make them: every buffer is a copy between sentinels, and after every call each
//! input is compared with what was given.

use crate::buffers::{reading, writing};
use crate::families::has_empty_leaf;
use crate::phf::{
    self, Bounded, Checked, Compared, Converted, Curved, Cutting, Listed, Part, Reduced,
};
use crate::reference::Rule;

pub fn check(file: &[u8]) -> Checked {
    reading(file, phf::check)
}

pub fn regions(file: &[u8]) -> Part {
    reading(file, phf::regions)
}

pub fn bounds_from_p(file: &[u8], p_values: &[u32], deviation_squared: u32, out: &mut [u8]) -> u16 {
    reading(file, |file| {
        reading(p_values, |p| {
            writing(out, |out| {
                phf::bounds_from_p(file, p, deviation_squared, out)
            })
        })
    })
}

/// The file with the z from accepted p-values, in a room just as long as that.
pub fn from_p(file: &[u8], p_values: &[u32], deviation_squared: u32) -> Vec<u8> {
    let mut out = vec![0xEE; file.len()];
    let number = bounds_from_p(file, p_values, deviation_squared, &mut out);
    assert_eq!(number, 0);
    out
}

pub fn bound(file: &[u8], selection: &[u8], taken: &mut [u8]) -> Bounded {
    reading(file, |file| {
        reading(selection, |selection| {
            writing(taken, |taken| phf::bound(file, selection, taken))
        })
    })
}

pub fn bounds_list(
    file: &[u8],
    selections: &[u8],
    count: u16,
    tally: u32,
    values: &mut [u16],
) -> Listed {
    reading(file, |file| {
        reading(selections, |selections| {
            writing(values, |values| {
                phf::bounds_list(file, selections, count, tally, values)
            })
        })
    })
}

/// The bounds of accepted selections, in room just as long as these.
pub fn list_of(file: &[u8], selections: &[Vec<u8>]) -> Vec<u16> {
    let count = selections.len();
    let mut values = vec![9999; count];
    let answer = bounds_list(file, &selections.concat(), count as u16, 0, &mut values);
    assert_eq!(answer.number, 0);
    values
}

pub fn curve(file: &[u8], path: &[u16], values: &mut [u16], marks: &mut [u8]) -> Curved {
    reading(file, |file| {
        reading(path, |path| {
            writing(values, |values| {
                writing(marks, |marks| phf::curve(file, path, values, marks))
            })
        })
    })
}

/// The values and the marks of an accepted file and path, in room just as long as these.
pub fn curve_of(file: &[u8], path: &[u16]) -> (Vec<u16>, Vec<u8>) {
    let mut values = vec![9999; path.len() + 1];
    let mut marks = vec![99; path.len()];
    let answer = curve(file, path, &mut values, &mut marks);
    assert_eq!((answer.number, answer.place), (0, 0));
    (values, marks)
}

pub fn cut(file: &[u8], path: &[u16], a: u16, b: u16) -> Cutting {
    reading(file, |file| {
        reading(path, |path| phf::cut(file, path, a, b))
    })
}

pub fn hybrid(
    file: &[u8],
    path: &[u16],
    p_values: &[u32],
    level: u32,
    values: &mut [u16],
) -> Curved {
    reading(file, |file| {
        reading(path, |path| {
            reading(p_values, |p| {
                writing(values, |values| phf::hybrid(file, path, p, level, values))
            })
        })
    })
}

/// The hybrid curve of accepted inputs, in room just as long as it.
pub fn hybrid_of(file: &[u8], path: &[u16], p_values: &[u32], level: u32) -> Vec<u16> {
    let mut values = vec![9999; path.len() + 1];
    let answer = hybrid(file, path, p_values, level, &mut values);
    assert_eq!((answer.number, answer.place), (0, 0));
    values
}

pub fn reduce(file: &[u8], out: &mut [u8]) -> Reduced {
    reading(file, |file| writing(out, |out| phf::reduce(file, out)))
}

/// The reduced file of an accepted one, in a room just as long as that. No leaf of it is empty.
pub fn reduced(file: &[u8]) -> Vec<u8> {
    let mut out = vec![0xEE; file.len()];
    let answer = reduce(file, &mut out);
    assert_eq!(answer.number, 0);
    out.truncate(answer.length as usize);
    assert_eq!(out[14..16], answer.length.to_le_bytes());
    assert_eq!(out[8..10], answer.regions.to_le_bytes());
    assert!(!has_empty_leaf(&out));
    out
}

pub fn same(first: &[u8], second: &[u8]) -> Compared {
    reading(first, |first| {
        reading(second, |second| phf::same(first, second))
    })
}

pub fn to_levels(file: &[u8], out: &mut [u8]) -> Converted {
    reading(file, |file| writing(out, |out| phf::to_levels(file, out)))
}

/// The file by level of an accepted one, in a room just as long as it.
pub fn by_level(file: &[u8]) -> Vec<u8> {
    let mut out = vec![0xEE; file.len() + 128];
    let answer = to_levels(file, &mut out);
    assert_eq!((answer.number, answer.length as usize), (0, out.len()));
    out
}

pub fn from_levels(file: &[u8], out: &mut [u8]) -> Converted {
    reading(file, |file| writing(out, |out| phf::from_levels(file, out)))
}

/// The family file of an accepted one by level, in a room just as long as it.
pub fn by_leaf(file: &[u8]) -> Vec<u8> {
    let mut out = vec![0xEE; file.len() - 128];
    let answer = from_levels(file, &mut out);
    assert_eq!((answer.number, answer.length as usize), (0, out.len()));
    out
}

/// The one of the three choices that the rule is of.
pub fn choose(m: u16, p_values: &[f64], folds: &[f64], rule: Rule, out: &mut [u8]) -> u16 {
    reading(p_values, |p| {
        reading(folds, |folds| {
            writing(out, |out| match rule {
                Rule::AtMost(cut) => phf::choose_at_most(m, p, folds, cut, out),
                Rule::Between(low, high) => phf::choose_between(m, p, folds, low, high, out),
                Rule::Volcano(cut, fold) => phf::choose_volcano(m, p, folds, cut, fold, out),
            })
        })
    })
}
