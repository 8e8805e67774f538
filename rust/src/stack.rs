//! A stack of a given size for a call, with memory below it that may not be touched, and how much of it the call has used.
//! For the processor that the library is built for, x86-64 under Linux.

use crate::families::{level_file, DEVIATION_SQUARED};
use crate::phf;
use crate::reference::read;
use std::arch::asm;
use std::ffi::c_void;
use std::ptr::null_mut;

extern "C" {
    fn mmap(at: *mut c_void, len: usize, prot: i32, flags: i32, fd: i32, off: i64) -> *mut c_void;
    fn mprotect(at: *mut c_void, len: usize, prot: i32) -> i32;
    fn munmap(at: *mut c_void, len: usize) -> i32;
}

const NOTHING: i32 = 0;
const READ_AND_WRITE: i32 = 1 | 2;
const PRIVATE_AND_ANONYMOUS: i32 = 2 | 0x20;

/// What lies on a stack that no call has used. No array of the library is filled with it.
const PAINT: u8 = 0xA5;
/// Below the stack: more than the largest frame, so that no call steps over it.
const GUARD: usize = 4 << 20;

pub struct Stack {
    memory: *mut u8,
    size: usize,
}

impl Stack {
    /// So many bytes, a multiple of 4,096.
    pub fn new(size: usize) -> Stack {
        assert_eq!(size % 4096, 0);
        // SAFETY: new memory, used by this value alone
        let memory = unsafe {
            let memory = mmap(
                null_mut(),
                GUARD + size,
                NOTHING,
                PRIVATE_AND_ANONYMOUS,
                -1,
                0,
            );
            assert_ne!(memory as isize, -1, "no memory for a stack");
            assert_eq!(mprotect(memory.add(GUARD), size, READ_AND_WRITE), 0);
            memory as *mut u8
        };
        Stack { memory, size }
    }

    fn bytes(&mut self) -> &mut [u8] {
        // SAFETY: the part that may be read and written, all of it set by mmap
        unsafe { std::slice::from_raw_parts_mut(self.memory.add(GUARD), self.size) }
    }

    /// Makes the call on this stack. It must not panic. A call that needs more than the stack ends the process.
    pub fn run<A>(&mut self, mut call: impl FnMut() -> A) -> A {
        let mut answer = None;
        let mut job = || answer = Some(call());
        run_on(self.top(), &mut job);
        answer.unwrap()
    }

    fn top(&self) -> *mut u8 {
        // SAFETY: the end of the memory
        unsafe { self.memory.add(GUARD + self.size) }
    }

    /// How many bytes a call has used, from the top of the stack to the lowest byte that it has changed.
    pub fn used<A>(&mut self, call: impl FnMut() -> A) -> usize {
        self.bytes().fill(PAINT);
        self.run(call);
        let changed = self.bytes().iter().position(|byte| *byte != PAINT);
        self.size - changed.unwrap_or(self.size)
    }
}

impl Drop for Stack {
    fn drop(&mut self) {
        // SAFETY: as it was mapped
        unsafe { munmap(self.memory as *mut c_void, GUARD + self.size) };
    }
}

fn run_on(top: *mut u8, job: &mut dyn FnMut()) {
    extern "C" fn start(job: &mut &mut dyn FnMut()) {
        job()
    }
    let mut job = job;
    // SAFETY: the old stack pointer is kept in a register that the callee restores, and the new one is a multiple of 16, as a
    // call wants it; `start` returns
    unsafe {
        asm!(
            "mov r12, rsp",
            "mov rsp, {top}",
            "call {start}",
            "mov rsp, r12",
            top = in(reg) top,
            start = in(reg) start as *const (),
            in("rdi") &mut job,
            out("r12") _,
            clobber_abi("C"),
        );
    }
}

/// A call to be made on a stack of its own.
pub struct Call<'a> {
    pub name: &'static str,
    /// The bytes of stack that include/phf.h states for it.
    pub stated: usize,
    /// Makes it, with room for every output, and gives back its number; for the part with the regions, which has none, 0 if
    /// it is not empty.
    pub make: Box<dyn FnMut() -> u16 + 'a>,
}

/// Every call of the library with one accepted family, by level where the call asks for that, and one path; everything is selected,
/// in each of 32 selections, the p-values rise from 0, and the choices are of 4,096 rows.
pub fn every_call<'a>(file: &'a [u8], path: &'a [u16]) -> Vec<Call<'a>> {
    let m = usize::from(u16::from_le_bytes([file[4], file[5]]));
    let (mut values, mut marks) = (vec![0; 4097], vec![0; 4096]);
    let (selection, mut taken, mut out) = (vec![1; m], vec![0; 8191], vec![0; 57354]);
    let mut calls = Vec::new();
    let mut add = |name, kilobytes: usize, make: Box<dyn FnMut() -> u16 + 'a>| {
        let stated = 1024 * kilobytes;
        calls.push(Call { name, stated, make });
    };
    add("phf_check", 28, Box::new(|| phf::check(file).number));
    let empty = |file| (phf::regions(file).length == 0) as u16;
    add("phf_regions", 28, Box::new(move || empty(file)));
    let p_values: Vec<u32> = (0..m as u32).map(|i| 240 * i).collect();
    let (p, mut bounded) = (p_values.clone(), out.clone());
    add(
        "phf_bounds_from_p",
        68,
        Box::new(move || phf::bounds_from_p(file, &p, DEVIATION_SQUARED, &mut bounded)),
    );
    add(
        "phf_bound",
        28,
        Box::new(move || phf::bound(file, &selection, &mut taken).number),
    );
    let (selections, mut bounds) = (vec![1; 32 * m], vec![0; 32]);
    add(
        "phf_bounds_list",
        28,
        Box::new(move || phf::bounds_list(file, &selections, 32, 0, &mut bounds).number),
    );
    add(
        "phf_curve",
        44,
        Box::new(move || phf::curve(file, path, &mut values, &mut marks).number),
    );
    add(
        "phf_cut",
        48,
        Box::new(|| phf::cut(file, path, 1, 10).number),
    );
    let mut smaller = vec![0; 4097];
    add(
        "phf_hybrid",
        56,
        Box::new(move || phf::hybrid(file, path, &p_values, 50_000, &mut smaller).number),
    );
    add(
        "phf_reduce",
        152,
        Box::new(move || phf::reduce(file, &mut out).number),
    );
    add("phf_same", 264, Box::new(|| phf::same(file, file).number));
    let mut by_level = vec![0; 57482];
    add(
        "phf_to_levels",
        44,
        Box::new(move || phf::to_levels(file, &mut by_level).number),
    );
    let leveled = level_file(&read(file, b"PHFB", 16).unwrap());
    let mut by_leaf = vec![0; 57354];
    add(
        "phf_from_levels",
        140,
        Box::new(move || phf::from_levels(&leveled, &mut by_leaf).number),
    );
    let rows = || (vec![0.05; 4096], vec![-2.0; 4096], vec![0; 4096]);
    let (p, folds, mut chosen) = rows();
    add(
        "phf_choose_at_most",
        4,
        Box::new(move || phf::choose_at_most(4096, &p, &folds, 0.05, &mut chosen)),
    );
    let (p, folds, mut chosen) = rows();
    add(
        "phf_choose_between",
        4,
        Box::new(move || phf::choose_between(4096, &p, &folds, 0.01, 0.05, &mut chosen)),
    );
    let (p, folds, mut chosen) = rows();
    add(
        "phf_choose_volcano",
        4,
        Box::new(move || phf::choose_volcano(4096, &p, &folds, 0.05, 1.0, &mut chosen)),
    );
    calls
}
