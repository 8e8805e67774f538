//! The proved library, as include/phf.h declares it.

#[repr(C)]
#[derive(Clone, Copy, Debug, PartialEq, Eq)]
pub struct Checked {
    pub number: u16,
    pub peptides: u16,
    pub leaves: u16,
    pub regions: u16,
}

#[repr(C)]
#[derive(Clone, Copy, Debug, PartialEq, Eq)]
pub struct Part {
    pub offset: u32,
    pub length: u32,
}

#[repr(C)]
#[derive(Clone, Copy, Debug, PartialEq, Eq)]
pub struct Bounded {
    pub number: u16,
    pub bound: u16,
}

#[repr(C)]
#[derive(Clone, Copy, Debug, PartialEq, Eq)]
pub struct Listed {
    pub number: u16,
    pub charge: u16,
    pub tally: u32,
}

#[repr(C)]
#[derive(Clone, Copy, Debug, PartialEq, Eq)]
pub struct Curved {
    pub number: u16,
    pub place: u16,
}

#[repr(C)]
#[derive(Clone, Copy, Debug, PartialEq, Eq)]
pub struct Cutting {
    pub number: u16,
    pub place: u16,
    pub cut: u16,
}

#[repr(C)]
#[derive(Clone, Copy, Debug, PartialEq, Eq)]
pub struct Reduced {
    pub number: u16,
    pub length: u16,
    pub regions: u16,
}

#[repr(C)]
#[derive(Clone, Copy, Debug, PartialEq, Eq)]
pub struct Compared {
    pub number: u16,
    pub same: u16,
}

#[repr(C)]
#[derive(Clone, Copy, Debug, PartialEq, Eq)]
pub struct Converted {
    pub number: u16,
    pub length: u16,
}

extern "C" {
    fn phf_check(file: *const u8, file_len: usize) -> Checked;
    fn phf_regions(file: *const u8, file_len: usize) -> Part;
    fn phf_bounds_from_p(
        file: *const u8,
        file_len: usize,
        p: *const u32,
        p_len: usize,
        deviation_squared: u32,
        out: *mut u8,
        out_len: usize,
    ) -> u16;
    fn phf_bound(
        file: *const u8,
        file_len: usize,
        selection: *const u8,
        selection_len: usize,
        taken: *mut u8,
        taken_len: usize,
    ) -> Bounded;
    fn phf_bounds_list(
        file: *const u8,
        file_len: usize,
        selections: *const u8,
        selections_len: usize,
        count: u16,
        tally: u32,
        values: *mut u16,
        values_len: usize,
    ) -> Listed;
    fn phf_curve(
        file: *const u8,
        file_len: usize,
        path: *const u16,
        path_len: usize,
        values: *mut u16,
        values_len: usize,
        marks: *mut u8,
        marks_len: usize,
    ) -> Curved;
    fn phf_cut(
        file: *const u8,
        file_len: usize,
        path: *const u16,
        path_len: usize,
        a: u16,
        b: u16,
    ) -> Cutting;
    fn phf_hybrid(
        file: *const u8,
        file_len: usize,
        path: *const u16,
        path_len: usize,
        p: *const u32,
        p_len: usize,
        level: u32,
        values: *mut u16,
        values_len: usize,
    ) -> Curved;
    fn phf_reduce(file: *const u8, file_len: usize, out: *mut u8, out_len: usize) -> Reduced;
    fn phf_same(
        first: *const u8,
        first_len: usize,
        second: *const u8,
        second_len: usize,
    ) -> Compared;
    fn phf_to_levels(file: *const u8, file_len: usize, out: *mut u8, out_len: usize) -> Converted;
    fn phf_from_levels(file: *const u8, file_len: usize, out: *mut u8, out_len: usize)
        -> Converted;
    fn phf_choose_at_most(
        m: u16,
        p: *const f64,
        p_len: usize,
        folds: *const f64,
        folds_len: usize,
        cut: f64,
        out: *mut u8,
        out_len: usize,
    ) -> u16;
    fn phf_choose_between(
        m: u16,
        p: *const f64,
        p_len: usize,
        folds: *const f64,
        folds_len: usize,
        low: f64,
        high: f64,
        out: *mut u8,
        out_len: usize,
    ) -> u16;
    fn phf_choose_volcano(
        m: u16,
        p: *const f64,
        p_len: usize,
        folds: *const f64,
        folds_len: usize,
        cut: f64,
        fold: f64,
        out: *mut u8,
        out_len: usize,
    ) -> u16;
}

// SAFETY, of each call: a slice is a pointer and a number of elements that are there, and a `&mut` slice overlaps no
// other. The library asks nothing else.

pub fn check(file: &[u8]) -> Checked {
    unsafe { phf_check(file.as_ptr(), file.len()) }
}

pub fn regions(file: &[u8]) -> Part {
    unsafe { phf_regions(file.as_ptr(), file.len()) }
}

pub fn bounds_from_p(file: &[u8], p_values: &[u32], deviation_squared: u32, out: &mut [u8]) -> u16 {
    unsafe {
        phf_bounds_from_p(
            file.as_ptr(),
            file.len(),
            p_values.as_ptr(),
            p_values.len(),
            deviation_squared,
            out.as_mut_ptr(),
            out.len(),
        )
    }
}

pub fn bound(file: &[u8], selection: &[u8], taken: &mut [u8]) -> Bounded {
    unsafe {
        phf_bound(
            file.as_ptr(),
            file.len(),
            selection.as_ptr(),
            selection.len(),
            taken.as_mut_ptr(),
            taken.len(),
        )
    }
}

pub fn bounds_list(
    file: &[u8],
    selections: &[u8],
    count: u16,
    tally: u32,
    values: &mut [u16],
) -> Listed {
    unsafe {
        phf_bounds_list(
            file.as_ptr(),
            file.len(),
            selections.as_ptr(),
            selections.len(),
            count,
            tally,
            values.as_mut_ptr(),
            values.len(),
        )
    }
}

pub fn curve(file: &[u8], path: &[u16], values: &mut [u16], marks: &mut [u8]) -> Curved {
    unsafe {
        phf_curve(
            file.as_ptr(),
            file.len(),
            path.as_ptr(),
            path.len(),
            values.as_mut_ptr(),
            values.len(),
            marks.as_mut_ptr(),
            marks.len(),
        )
    }
}

pub fn cut(file: &[u8], path: &[u16], a: u16, b: u16) -> Cutting {
    unsafe { phf_cut(file.as_ptr(), file.len(), path.as_ptr(), path.len(), a, b) }
}

pub fn hybrid(
    file: &[u8],
    path: &[u16],
    p_values: &[u32],
    level: u32,
    values: &mut [u16],
) -> Curved {
    unsafe {
        phf_hybrid(
            file.as_ptr(),
            file.len(),
            path.as_ptr(),
            path.len(),
            p_values.as_ptr(),
            p_values.len(),
            level,
            values.as_mut_ptr(),
            values.len(),
        )
    }
}

pub fn reduce(file: &[u8], out: &mut [u8]) -> Reduced {
    unsafe { phf_reduce(file.as_ptr(), file.len(), out.as_mut_ptr(), out.len()) }
}

pub fn same(first: &[u8], second: &[u8]) -> Compared {
    unsafe { phf_same(first.as_ptr(), first.len(), second.as_ptr(), second.len()) }
}

pub fn to_levels(file: &[u8], out: &mut [u8]) -> Converted {
    unsafe { phf_to_levels(file.as_ptr(), file.len(), out.as_mut_ptr(), out.len()) }
}

pub fn from_levels(file: &[u8], out: &mut [u8]) -> Converted {
    unsafe { phf_from_levels(file.as_ptr(), file.len(), out.as_mut_ptr(), out.len()) }
}

pub fn choose_at_most(m: u16, p_values: &[f64], folds: &[f64], cut: f64, out: &mut [u8]) -> u16 {
    unsafe {
        phf_choose_at_most(
            m,
            p_values.as_ptr(),
            p_values.len(),
            folds.as_ptr(),
            folds.len(),
            cut,
            out.as_mut_ptr(),
            out.len(),
        )
    }
}

pub fn choose_between(
    m: u16,
    p_values: &[f64],
    folds: &[f64],
    low: f64,
    high: f64,
    out: &mut [u8],
) -> u16 {
    unsafe {
        phf_choose_between(
            m,
            p_values.as_ptr(),
            p_values.len(),
            folds.as_ptr(),
            folds.len(),
            low,
            high,
            out.as_mut_ptr(),
            out.len(),
        )
    }
}

pub fn choose_volcano(
    m: u16,
    p_values: &[f64],
    folds: &[f64],
    cut: f64,
    fold: f64,
    out: &mut [u8],
) -> u16 {
    unsafe {
        phf_choose_volcano(
            m,
            p_values.as_ptr(),
            p_values.len(),
            folds.as_ptr(),
            folds.len(),
            cut,
            fold,
            out.as_mut_ptr(),
            out.len(),
        )
    }
}
