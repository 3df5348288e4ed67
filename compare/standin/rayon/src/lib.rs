//! Stands in for rayon where it cannot be had: what src/par.rs of the original calls, one after another.

pub mod prelude {
    pub trait IntoParallelIterator: IntoIterator + Sized {
        fn into_par_iter(self) -> Self::IntoIter {
            self.into_iter()
        }
    }

    impl<I: IntoIterator> IntoParallelIterator for I {}

    pub trait ParallelIterator: Iterator + Sized {
        fn try_for_each_init<L, E>(mut self, init: impl Fn() -> L, f: impl Fn(&mut L, Self::Item) -> Result<(), E>) -> Result<(), E> {
            let mut local = init();
            self.try_for_each(|item| f(&mut local, item))
        }
    }

    impl<I: Iterator> ParallelIterator for I {}

    pub trait ParallelSliceMut<T> {
        fn par_sort_by_key<K: Ord>(&mut self, key: impl Fn(&T) -> K);

        fn par_iter_mut(&mut self) -> std::slice::IterMut<'_, T>;
    }

    impl<T> ParallelSliceMut<T> for [T] {
        fn par_sort_by_key<K: Ord>(&mut self, key: impl Fn(&T) -> K) {
            self.sort_by_key(key);
        }

        fn par_iter_mut(&mut self) -> std::slice::IterMut<'_, T> {
            self.iter_mut()
        }
    }
}

#[derive(Default)]
pub struct ThreadPoolBuilder;

pub struct ThreadPool;

impl ThreadPoolBuilder {
    pub fn new() -> Self {
        ThreadPoolBuilder
    }

    pub fn num_threads(self, _: usize) -> Self {
        self
    }

    pub fn build(self) -> Result<ThreadPool, std::convert::Infallible> {
        Ok(ThreadPool)
    }
}

impl ThreadPool {
    pub fn install<T>(&self, f: impl FnOnce() -> T) -> T {
        f()
    }
}
