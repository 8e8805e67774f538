//! Buffers that are lent to a call between sentinels: after the call the sentinels are as they were, and so is an input.

use std::hint::black_box;

const AROUND: usize = 40;

/// What a buffer holds, and the sentinel around it.
pub trait Element: Copy {
    const SENTINEL: Self;

    fn same(self, other: Self) -> bool;
}

impl Element for u8 {
    const SENTINEL: u8 = 0xA5;

    fn same(self, other: u8) -> bool {
        self == other
    }
}

impl Element for u16 {
    const SENTINEL: u16 = 0xABCD;

    fn same(self, other: u16) -> bool {
        self == other
    }
}

impl Element for u32 {
    const SENTINEL: u32 = 0xABCD_1234;

    fn same(self, other: u32) -> bool {
        self == other
    }
}

impl Element for f64 {
    // not a number, with bits of its own behind that: no call would write it
    const SENTINEL: f64 = f64::from_bits(0x7FF8_A5A5_A5A5_A5A5);

    /// By the bits: the two zeros are not the same, and what is not a number is the same as itself.
    fn same(self, other: f64) -> bool {
        self.to_bits() == other.to_bits()
    }
}

fn all_same<T: Element>(one: &[T], other: &[T]) -> bool {
    one.len() == other.len() && one.iter().zip(other).all(|(x, y)| x.same(*y))
}

struct Lent<T> {
    all: Vec<T>,
}

impl<T: Element> Lent<T> {
    /// The contents, with sentinels before and after them.
    fn new(contents: &[T]) -> Lent<T> {
        let mut all = vec![T::SENTINEL; AROUND];
        all.extend_from_slice(contents);
        all.extend([T::SENTINEL; AROUND]);
        Lent { all }
    }

    fn contents(&mut self) -> &mut [T] {
        let end = self.all.len() - AROUND;
        // an input is handed on as one that is only read; what it holds afterwards is looked up all the same
        black_box(&mut self.all[AROUND..end])
    }

    /// The contents after a call; fails if a sentinel was written.
    fn returned(&self) -> &[T] {
        let end = self.all.len() - AROUND;
        let before = &self.all[..AROUND];
        let after = &self.all[end..];
        assert!(
            before.iter().chain(after).all(|x| x.same(T::SENTINEL)),
            "a place outside of a lent buffer was written"
        );
        &self.all[AROUND..end]
    }
}

/// Runs a call with a copy of an input; fails if the copy is another one afterwards.
pub fn reading<T: Element, A>(input: &[T], call: impl FnOnce(&[T]) -> A) -> A {
    let mut lent = Lent::new(input);
    let answer = call(lent.contents());
    assert!(all_same(lent.returned(), input), "an input was written");
    answer
}

/// Runs a call with a copy of an output, and takes over what the copy holds afterwards.
pub fn writing<T: Element, A>(output: &mut [T], call: impl FnOnce(&mut [T]) -> A) -> A {
    let mut lent = Lent::new(output);
    let answer = call(lent.contents());
    output.copy_from_slice(lent.returned());
    answer
}
