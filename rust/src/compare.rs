//! Each call of the library held to the reference: the answer, and every lent byte afterwards.

use crate::families::has_empty_leaf;
use crate::guarded;
use crate::phf;
use crate::reference;

/// What the lent places hold before a call: something different at each place, and nothing that a call would write.
fn before_u8(room: usize) -> Vec<u8> {
    (0..room).map(|i| 100 + (i % 100) as u8).collect()
}

fn before_u16(room: usize) -> Vec<u16> {
    (0..room).map(|i| 50_000 + (i % 10_000) as u16).collect()
}

/// The new elements at the start, and what was there behind them.
fn with_front<T: Copy>(new: &[T], old: &[T]) -> Vec<T> {
    let mut all = new.to_vec();
    all.extend_from_slice(&old[new.len()..]);
    all
}

/// The check and the place of the regions; the number.
pub fn check(file: &[u8]) -> u16 {
    let answer = guarded::check(file);
    let part = guarded::regions(file);
    match reference::check(file) {
        Ok(family) => {
            let expected = phf::Checked {
                number: 0,
                peptides: family.peptides,
                leaves: family.lengths.len() as u16,
                regions: family.regions.len() as u16,
            };
            assert_eq!(answer, expected);
            let offset = 16 + 2 * family.lengths.len();
            assert_eq!(part.offset as usize, offset);
            assert_eq!(part.length as usize, file.len() - offset);
        }
        Err(number) => {
            let expected = phf::Checked {
                number,
                peptides: 0,
                leaves: 0,
                regions: 0,
            };
            assert_eq!(answer, expected);
            assert_eq!(
                part,
                phf::Part {
                    offset: 0,
                    length: 0
                }
            );
        }
    }
    answer.number
}

/// The bounds from p-values into `room` places; the number.
pub fn bounds_from_p(file: &[u8], p_values: &[u32], deviation_squared: u32, room: usize) -> u16 {
    let before = before_u8(room);
    let mut out = before.clone();
    let answer = guarded::bounds_from_p(file, p_values, deviation_squared, &mut out);
    match reference::bounds_from_p(file, p_values, deviation_squared, room) {
        Ok(family) => {
            assert_eq!(answer, 0);
            assert_eq!(out, with_front(&reference::file_of(&family), &before));
        }
        Err(number) => {
            assert_eq!(answer, number);
            assert_eq!(out, before);
        }
    }
    answer
}

/// The bound with `room` places for taken bytes; the number.
pub fn bound(file: &[u8], selection: &[u8], room: usize) -> u16 {
    let before = before_u8(room);
    let mut taken = before.clone();
    let answer = guarded::bound(file, selection, &mut taken);
    match reference::bound(file, selection, room) {
        Ok((value, bytes)) => {
            let expected = phf::Bounded {
                number: 0,
                bound: value,
            };
            assert_eq!(answer, expected);
            assert_eq!(taken, with_front(&bytes, &before));
        }
        Err(number) => {
            assert_eq!(answer, phf::Bounded { number, bound: 0 });
            assert_eq!(taken, before);
        }
    }
    answer.number
}

/// The bounds of a list of selections with `room` places for values; the number.
pub fn bounds_list(file: &[u8], selections: &[u8], count: u16, tally: u32, room: usize) -> u16 {
    let before = before_u16(room);
    let mut values = before.clone();
    let answer = guarded::bounds_list(file, selections, count, tally, &mut values);
    match reference::bounds_list(file, selections, count, tally, room) {
        Ok(list) => {
            let expected = phf::Listed {
                number: 0,
                charge: list.charge,
                tally: list.tally,
            };
            assert_eq!(answer, expected);
            assert_eq!(values, with_front(&list.values, &before));
        }
        Err(number) => {
            let expected = phf::Listed {
                number,
                charge: 0,
                tally,
            };
            assert_eq!(answer, expected);
            assert_eq!(values, before);
        }
    }
    answer.number
}

/// The curve with so many places for values and marks; the number.
pub fn curve(file: &[u8], path: &[u16], values_room: usize, marks_room: usize) -> u16 {
    let values_before = before_u16(values_room);
    let marks_before = before_u8(marks_room);
    let mut values = values_before.clone();
    let mut marks = marks_before.clone();
    let answer = guarded::curve(file, path, &mut values, &mut marks);
    match reference::curve(file, path, values_room, marks_room) {
        Ok((entries, marked)) => {
            assert_eq!((answer.number, answer.place), (0, 0));
            assert_eq!(values, with_front(&entries, &values_before));
            assert_eq!(marks, with_front(&marked, &marks_before));
        }
        Err(refusal) => {
            assert_eq!((answer.number, answer.place), told(refusal));
            assert_eq!(values, values_before);
            assert_eq!(marks, marks_before);
        }
    }
    answer.number
}

/// The cut; the number.
pub fn cut(file: &[u8], path: &[u16], a: u16, b: u16) -> u16 {
    let answer = guarded::cut(file, path, a, b);
    match reference::cut(file, path, a, b) {
        Ok(cut) => {
            let expected = phf::Cutting {
                number: 0,
                place: 0,
                cut,
            };
            assert_eq!(answer, expected);
        }
        Err(refusal) => {
            assert_eq!((answer.number, answer.place), told(refusal));
            assert_eq!(answer.cut, 0);
        }
    }
    answer.number
}

/// The hybrid curve with `room` places for values; the number.
pub fn hybrid(file: &[u8], path: &[u16], p_values: &[u32], level: u32, room: usize) -> u16 {
    let before = before_u16(room);
    let mut values = before.clone();
    let answer = guarded::hybrid(file, path, p_values, level, &mut values);
    match reference::hybrid(file, path, p_values, level, room) {
        Ok(entries) => {
            assert_eq!((answer.number, answer.place), (0, 0));
            assert_eq!(values, with_front(&entries, &before));
        }
        Err(refusal) => {
            assert_eq!((answer.number, answer.place), told(refusal));
            assert_eq!(values, before);
        }
    }
    answer.number
}

/// The number and the place of a refusal.
fn told(refusal: reference::Refusal) -> (u16, u16) {
    (refusal.number, refusal.place)
}

/// The reduction into `room` places; the number.
pub fn reduce(file: &[u8], room: usize) -> u16 {
    let before = before_u8(room);
    let mut out = before.clone();
    let answer = guarded::reduce(file, &mut out);
    match reference::reduce(file, room) {
        Ok(family) => {
            let reduced = reference::file_of(&family);
            let expected = phf::Reduced {
                number: 0,
                length: reduced.len() as u16,
                regions: family.regions.len() as u16,
            };
            assert_eq!(answer, expected);
            assert_eq!(out, with_front(&reduced, &before));
            assert!(!has_empty_leaf(&out));
        }
        Err(number) => {
            let expected = phf::Reduced {
                number,
                length: 0,
                regions: 0,
            };
            assert_eq!(answer, expected);
            assert_eq!(out, before);
        }
    }
    answer.number
}

/// The comparison; the number and whether they are the same.
pub fn same(first: &[u8], second: &[u8]) -> (u16, u16) {
    let answer = guarded::same(first, second);
    match reference::same(first, second) {
        Ok(same) => assert_eq!((answer.number, answer.same), (0, same as u16)),
        Err(number) => assert_eq!((answer.number, answer.same), (number, 0)),
    }
    (answer.number, answer.same)
}

/// The conversion to a file by level into `room` places; the number.
pub fn to_levels(file: &[u8], room: usize) -> u16 {
    let written = reference::to_levels(file, room);
    let written = written.map(|by_level| reference::level_file_of(&by_level));
    conversion(guarded::to_levels, file, room, written)
}

/// The conversion of a file by level into `room` places; the number.
pub fn from_levels(file: &[u8], room: usize) -> u16 {
    let written = reference::from_levels(file, room);
    let written = written.map(|family| reference::file_of(&family));
    conversion(guarded::from_levels, file, room, written)
}

/// A conversion held to the file that it has to write, or to the number that it has to tell.
fn conversion(
    convert: fn(&[u8], &mut [u8]) -> phf::Converted,
    file: &[u8],
    room: usize,
    written: Result<Vec<u8>, u16>,
) -> u16 {
    let before = before_u8(room);
    let mut out = before.clone();
    let answer = convert(file, &mut out);
    match written {
        Ok(bytes) => {
            let expected = phf::Converted {
                number: 0,
                length: bytes.len() as u16,
            };
            assert_eq!(answer, expected);
            assert_eq!(out, with_front(&bytes, &before));
        }
        Err(number) => {
            assert_eq!(answer, phf::Converted { number, length: 0 });
            assert_eq!(out, before);
        }
    }
    answer.number
}

/// The choice into `room` places; the number.
pub fn choose(m: u16, p_values: &[f64], folds: &[f64], rule: reference::Rule, room: usize) -> u16 {
    let before = before_u8(room);
    let mut out = before.clone();
    let answer = guarded::choose(m, p_values, folds, rule, &mut out);
    match reference::choose(m, p_values, folds, rule, room) {
        Ok(bytes) => {
            assert_eq!(answer, 0);
            assert_eq!(out, with_front(&bytes, &before));
        }
        Err(number) => {
            assert_eq!(answer, number);
            assert_eq!(out, before);
        }
    }
    answer
}
