//! What Rattle's std has and Rust's has not: vectors with an allocator, threads by a bound, floats by named casts.
use std::ops::{Deref, DerefMut};

#[derive(Clone, Copy, Debug)]
pub struct Global;

#[derive(Debug)]
pub struct Never;

pub type AllocError = Never;

#[derive(Debug)]
pub struct AllocFailed<T> {
    pub value: T,
}

impl<T> From<AllocFailed<T>> for Never {
    fn from(_failed: AllocFailed<T>) -> Never {
        Never
    }
}

#[derive(Debug)]
pub struct Vec<T>(std::vec::Vec<T>);

impl<T> Vec<T> {
    pub fn new(_alloc: Global) -> Vec<T> {
        Vec(std::vec::Vec::new())
    }

    pub fn with_capacity(_alloc: Global, n: usize) -> Result<Vec<T>, Never> {
        Ok(Vec(std::vec::Vec::with_capacity(n)))
    }

    pub fn filled(value: T, n: usize) -> Result<Vec<T>, Never>
    where
        T: Clone,
    {
        Ok(Vec(vec![value; n]))
    }

    pub fn allocator(&self) -> &Global {
        &Global
    }

    pub fn reserve(&mut self, n: usize) -> Result<(), Never> {
        self.0.reserve(n);
        Ok(())
    }

    pub fn reserve_exact(&mut self, n: usize) -> Result<(), Never> {
        self.0.reserve_exact(n);
        Ok(())
    }

    pub fn push(&mut self, value: T) -> Result<(), AllocFailed<T>> {
        self.0.push(value);
        Ok(())
    }

    pub fn insert(&mut self, i: usize, value: T) -> Result<(), AllocFailed<T>> {
        self.0.insert(i, value);
        Ok(())
    }

    pub fn push_reserved(&mut self, value: T) {
        self.0.push(value);
    }

    pub fn resize(&mut self, n: usize, value: T) -> Result<(), Never>
    where
        T: Clone,
    {
        self.0.resize(n, value);
        Ok(())
    }

    pub fn extend_from_slice(&mut self, values: &[T]) -> Result<(), Never>
    where
        T: Clone,
    {
        self.0.extend_from_slice(values);
        Ok(())
    }
}

impl<T> Deref for Vec<T> {
    type Target = std::vec::Vec<T>;

    fn deref(&self) -> &std::vec::Vec<T> {
        &self.0
    }
}

impl<T> DerefMut for Vec<T> {
    fn deref_mut(&mut self) -> &mut std::vec::Vec<T> {
        &mut self.0
    }
}

pub trait Threads {}

pub struct OneThread;

impl Threads for OneThread {}

/// One processor: the mirror draws on one thread.
pub fn available_parallelism<R>(_rt: &R) -> Result<std::num::NonZeroUsize, ()> {
    Ok(std::num::NonZeroUsize::MIN)
}

pub fn join_mut<R>(_rt: &R, first: &mut dyn FnMut(), second: &mut dyn FnMut()) {
    first();
    second();
}

pub fn for_each_mut<R, T>(_rt: &R, values: &mut [T], _threads: usize, act: &dyn Fn(usize, &mut T)) {
    for (i, value) in values.iter_mut().enumerate() {
        act(i, value);
    }
}

pub fn for_each_chunk_mut<R, T>(_rt: &R, values: &mut [T], size: usize, act: &dyn Fn(usize, &mut [T])) {
    for (i, part) in values.chunks_mut(size).enumerate() {
        act(i * size, part);
    }
}

pub fn nearest_i64_to_f64(n: i64) -> f64 {
    n as f64
}

pub fn nearest_u64_to_f64(n: u64) -> f64 {
    n as f64
}
