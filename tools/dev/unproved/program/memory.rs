//! What std of the proved language has and that of Rust hasn't: values whose calls may be refused memory.

use std::ops::{Deref, DerefMut};

#[derive(Clone, Copy)]
pub struct Global;

#[derive(Debug)]
pub struct AllocError;

/// What couldn't be stored, handed back.
pub struct AllocFailed<T>(T);

#[derive(Debug)]
pub struct Vec<T>(pub std::vec::Vec<T>);

/// A text that grows.
pub struct String(pub std::string::String);

/// A value of its own on the heap.
pub struct Box<T>(std::boxed::Box<T>);

/// A value that several own.
#[derive(Debug)]
pub struct Arc<T>(std::sync::Arc<T>);

impl<T> Arc<T> {
    pub fn new(_: Global, value: T) -> Result<Arc<T>, AllocError> {
        Ok(Arc(std::sync::Arc::new(value)))
    }

    pub fn try_clone(shared: &Arc<T>) -> Result<Arc<T>, AllocError> {
        Ok(Arc(shared.0.clone()))
    }

    pub fn into_inner(shared: Arc<T>) -> Option<T> {
        std::sync::Arc::into_inner(shared.0)
    }

    pub fn as_ref(&self) -> &T {
        &self.0
    }
}

impl<T> Deref for Arc<T> {
    type Target = T;

    fn deref(&self) -> &T {
        &self.0
    }
}

impl String {
    pub fn new(_: Global) -> String {
        String(std::string::String::new())
    }

    pub fn push_str(&mut self, text: &str) -> Result<(), AllocError> {
        self.0.push_str(text);
        Ok(())
    }

    pub fn as_str(&self) -> &str {
        &self.0
    }

    pub fn as_bytes(&self) -> &[u8] {
        self.0.as_bytes()
    }

    pub fn len(&self) -> usize {
        self.0.len()
    }

    pub fn clear(&mut self) {
        self.0.clear();
    }
}

impl<T> Box<T> {
    pub fn new(_: Global, value: T) -> Result<Box<T>, AllocError> {
        Ok(Box(std::boxed::Box::new(value)))
    }

    pub fn into_inner(value: Box<T>) -> T {
        *value.0
    }
}

impl<T> Deref for Box<T> {
    type Target = T;

    fn deref(&self) -> &T {
        &self.0
    }
}

impl<T> DerefMut for Box<T> {
    fn deref_mut(&mut self) -> &mut T {
        &mut self.0
    }
}

impl<T> Vec<T> {
    pub fn new(_: Global) -> Vec<T> {
        Vec(std::vec::Vec::new())
    }

    pub fn with_capacity(_: Global, count: usize) -> Result<Vec<T>, AllocError> {
        Ok(Vec(std::vec::Vec::with_capacity(count)))
    }

    #[inline]
    pub fn reserve(&mut self, more: usize) -> Result<(), AllocError> {
        self.0.reserve(more);
        Ok(())
    }

    pub fn push(&mut self, item: T) -> Result<(), AllocError> {
        self.0.push(item);
        Ok(())
    }

    pub fn as_slice(&self) -> &[T] {
        &self.0
    }

    pub fn as_mut_slice(&mut self) -> &mut [T] {
        &mut self.0
    }

    pub fn split_off(&mut self, at: usize) -> Result<Vec<T>, AllocError> {
        Ok(Vec(self.0.split_off(at)))
    }

    pub fn sort_by_key<K: Ord, F: FnMut(&T) -> K>(&mut self, key: F) -> Result<(), AllocError> {
        self.0.sort_by_key(key);
        Ok(())
    }
}

impl<T: Copy> Vec<T> {
    pub fn from_slice(_: Global, items: &[T]) -> Result<Vec<T>, AllocError> {
        Ok(Vec(items.to_vec()))
    }

    pub fn extend_from_slice(&mut self, items: &[T]) -> Result<(), AllocError> {
        self.0.extend_from_slice(items);
        Ok(())
    }

    pub fn clone(&self) -> Result<Vec<T>, AllocError> {
        Ok(Vec(self.0.clone()))
    }
}

impl<T> Deref for Vec<T> {
    type Target = std::vec::Vec<T>;

    #[inline]
    fn deref(&self) -> &std::vec::Vec<T> {
        &self.0
    }
}

impl<T> DerefMut for Vec<T> {
    #[inline]
    fn deref_mut(&mut self) -> &mut std::vec::Vec<T> {
        &mut self.0
    }
}

impl<T> IntoIterator for Vec<T> {
    type Item = T;
    type IntoIter = std::vec::IntoIter<T>;

    fn into_iter(self) -> Self::IntoIter {
        self.0.into_iter()
    }
}

impl<'a, T> IntoIterator for &'a Vec<T> {
    type Item = &'a T;
    type IntoIter = std::slice::Iter<'a, T>;

    fn into_iter(self) -> Self::IntoIter {
        self.0.iter()
    }
}

/// `collect(alloc)`, as the translation writes it.
pub trait CollectIn: Iterator + Sized {
    fn collect_in(self, _: Global) -> Result<Vec<Self::Item>, AllocError> {
        Ok(Vec(self.collect()))
    }
}

impl<I: Iterator> CollectIn for I {}

/// `vec![in alloc; ..]`, as the translation writes it.
macro_rules! vec_in {
    ($($items:tt)*) => {
        Ok::<_, crate::memory::AllocError>(crate::memory::Vec(std::vec![$($items)*]))
    };
}
pub(crate) use vec_in;

/// `format!(in alloc; ..)`, as the translation writes it.
macro_rules! format_in {
    ($($words:tt)*) => {
        Ok::<_, crate::memory::AllocError>(crate::memory::String(std::format!($($words)*)))
    };
}
pub(crate) use format_in;

pub fn nearest_i64_to_f32(number: i64) -> f32 {
    number as f32
}

pub fn nearest_u32_to_f32(number: u32) -> f32 {
    number as f32
}

pub fn nearest_usize_to_f32(number: usize) -> f32 {
    number as f32
}

pub fn saturating_f32_to_i64(number: f32) -> i64 {
    number as i64
}
