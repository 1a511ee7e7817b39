//! Stand-in: rayon in one thread and in order (what rayon itself does with one thread).
pub struct Seq<I>(I);
pub trait ParallelBridge: Iterator + Sized { fn par_bridge(self) -> Seq<Self> { Seq(self) } }
impl<I: Iterator> ParallelBridge for I {}
impl<I: Iterator> Seq<I> {
    pub fn map_init<T, R>(self, init: impl Fn() -> T, op: impl Fn(&mut T, I::Item) -> R) -> Seq<impl Iterator<Item = R>> {
        let mut t = init();
        Seq(self.0.map(move |x| op(&mut t, x)))
    }
    pub fn flatten(self) -> Seq<std::iter::Flatten<I>> where I::Item: IntoIterator { Seq(self.0.flatten()) }
}
pub trait ParallelExtend<T> { fn par_extend<I: Iterator<Item = T>>(&mut self, it: Seq<I>); }
impl<T> ParallelExtend<T> for Vec<T> { fn par_extend<I: Iterator<Item = T>>(&mut self, it: Seq<I>) { self.extend(it.0) } }
pub mod prelude { pub use crate::{ParallelBridge, ParallelExtend}; }
