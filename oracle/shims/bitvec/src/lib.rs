//! Stand-in: the part of bitvec that allocator.rs and mod.rs use.
use std::marker::PhantomData;
pub struct Lsb0;
pub struct BitVec<T = usize, O = Lsb0> { words: Vec<u64>, len: usize, p: PhantomData<fn(T, O)> }
impl<T, O> Default for BitVec<T, O> { fn default() -> Self { Self::zeros(0) } }
impl<T, O> BitVec<T, O> {
    pub fn zeros(len: usize) -> Self { BitVec { words: vec![0; len.div_ceil(64)], len, p: PhantomData } }
    pub fn fill(&mut self, v: bool) { assert!(!v); self.words.fill(0) }
    pub fn set(&mut self, i: usize, v: bool) {
        assert!(i < self.len);
        if v { self.words[i / 64] |= 1 << (i % 64) } else { self.words[i / 64] &= !(1 << (i % 64)) }
    }
    /// Some(bit) inside, None outside: the caller's `.map(|_| ..)` ignores the bit.
    pub fn get(&self, i: usize) -> Option<bool> { (i < self.len).then(|| self.words[i / 64] >> (i % 64) & 1 == 1) }
    pub fn not_any(&self) -> bool { self.words.iter().all(|&w| w == 0) }
    pub fn iter_ones(&self) -> impl Iterator<Item = usize> + '_ {
        self.words.iter().enumerate().flat_map(|(k, &w)| {
            let mut w = w;
            std::iter::from_fn(move || {
                if w == 0 { return None }
                let b = w.trailing_zeros() as usize;
                w &= w - 1;
                Some(64 * k + b)
            })
        })
    }
}
#[macro_export]
macro_rules! bitvec { ($t:ty, $o:ty; 0; $n:expr) => { $crate::BitVec::<$t, $o>::zeros($n) }; }
pub mod prelude { pub use crate::{BitVec, Lsb0, bitvec}; }
