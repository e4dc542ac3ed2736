//! The vector with a fixed capacity.

use core::fmt;
use core::marker::PhantomData;
use core::ops::Deref;

use crate::{CapacityError, LenType};

/// As in heapless: the memory of a vector. Its size is the capacity.
pub trait VecStorage<T> {
    fn room(&self) -> &[T];
    fn room_mut(&mut self) -> &mut [T];
}

/// As in heapless: memory for N elements that the vector holds itself.
#[derive(Clone)]
pub struct OwnedVecStorage<T, const N: usize>([T; N]);

impl<T, const N: usize> VecStorage<T> for OwnedVecStorage<T, N> {
    fn room(&self) -> &[T] {
        &self.0
    }
    fn room_mut(&mut self) -> &mut [T] {
        &mut self.0
    }
}

/// As in heapless: the vector over any memory and any type of length; only its first `len` elements are held.
#[derive(Clone)]
pub struct VecInner<T, LenT, S> {
    len: LenT,
    storage: S,
    element: PhantomData<T>,
}

/// As in heapless: the vector that holds its own memory for N elements.
pub type Vec<T, const N: usize, LenT = usize> = VecInner<T, LenT, OwnedVecStorage<T, N>>;

impl<T: Copy + Default, LenT: LenType, const N: usize> Vec<T, N, LenT> {
    /// As in heapless: holds no element.
    pub fn new() -> Self {
        Self { len: LenT::ZERO, storage: OwnedVecStorage([T::default(); N]), element: PhantomData }
    }

    /// As in heapless: a copy of the slice, or an error if it is longer than the capacity.
    pub fn from_slice(slice: &[T]) -> Result<Self, CapacityError> {
        Self::try_from(slice)
    }
}

impl<T: Copy, LenT: LenType, S: VecStorage<T>> VecInner<T, LenT, S> {
    /// As in heapless: the most elements that it can hold.
    pub fn capacity(&self) -> usize {
        self.storage.room().len()
    }

    /// As in heapless: appends all of `other`, or nothing if that exceeds the capacity.
    pub fn extend_from_slice(&mut self, other: &[T]) -> Result<(), CapacityError> {
        let len = self.len.into_usize();
        if other.len() > self.capacity() - len {
            return Err(CapacityError);
        }
        let end = len + other.len();
        self.storage.room_mut()[len..end].copy_from_slice(other);
        self.len = LenT::from_usize(end);
        Ok(())
    }
}

/// As in heapless: derefs to the slice of the held elements.
impl<T, LenT: LenType, S: VecStorage<T>> Deref for VecInner<T, LenT, S> {
    type Target = [T];
    fn deref(&self) -> &[T] {
        &self.storage.room()[..self.len.into_usize()]
    }
}

/// As in heapless: the empty vector.
impl<T: Copy + Default, LenT: LenType, const N: usize> Default for Vec<T, N, LenT> {
    fn default() -> Self {
        Self::new()
    }
}

/// As in heapless: a copy of the slice, or an error if it is longer than the capacity.
impl<T: Copy + Default, LenT: LenType, const N: usize> TryFrom<&[T]> for Vec<T, N, LenT> {
    type Error = CapacityError;
    fn try_from(slice: &[T]) -> Result<Self, CapacityError> {
        let mut v = Self::new();
        v.extend_from_slice(slice)?;
        Ok(v)
    }
}

/// As in heapless: prints the slice of the held elements.
impl<T: fmt::Debug, LenT: LenType, S: VecStorage<T>> fmt::Debug for VecInner<T, LenT, S> {
    fn fmt(&self, f: &mut fmt::Formatter<'_>) -> fmt::Result {
        (**self).fmt(f)
    }
}

/// As in heapless: equal if the held elements are equal. Memory after them does not count.
impl<T: PartialEq, LenT: LenType, S: VecStorage<T>> PartialEq for VecInner<T, LenT, S> {
    fn eq(&self, other: &Self) -> bool {
        **self == **other
    }
}

/// As in heapless: `Eq` if the elements have it.
impl<T: Eq, LenT: LenType, S: VecStorage<T>> Eq for VecInner<T, LenT, S> {}
