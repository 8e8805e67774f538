//! What the executed tests and the benchmarks of the C interface share.

pub mod buffers;
pub mod compare;
pub mod enumeration;
pub mod families;
pub mod fast;
pub mod guarded;
pub mod neighbours;
pub mod phf;
pub mod programs;
pub mod random;
pub mod reference;
pub mod searches;
pub mod stack;
