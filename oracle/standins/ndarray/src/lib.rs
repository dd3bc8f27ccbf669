//! One-dimensional arrays: making, indexing, slicing, comparing, and adding one number to all.

mod slice;

pub use slice::{ArrayView1, Slice};

use std::fmt;
use std::ops::{Add, Index, IndexMut, Mul};

#[derive(Clone, Debug, PartialEq)]
pub struct Array1<T>(Vec<T>);

/// The numbers nought and one of a type.
pub trait Unit {
    const ZERO: Self;
    const ONE: Self;
}

impl Unit for usize {
    const ZERO: Self = 0;
    const ONE: Self = 1;
}

impl Unit for i64 {
    const ZERO: Self = 0;
    const ONE: Self = 1;
}

impl<T: Clone + Unit> Array1<T> {
    /// An array of `len` noughts.
    pub fn zeros(len: usize) -> Self {
        Array1(vec![T::ZERO; len])
    }

    /// An array of `len` ones.
    pub fn ones(len: usize) -> Self {
        Array1(vec![T::ONE; len])
    }
}

impl<T: Copy + Unit + Mul<Output = T>> Array1<T> {
    /// The product of all elements, one for none; it panics where it overflows on the way.
    pub fn product(&self) -> T {
        self.0.iter().fold(T::ONE, |product, &x| product * x)
    }
}

impl<T> Array1<T> {
    /// An array of the given elements.
    pub fn from_vec(elements: Vec<T>) -> Self {
        Array1(elements)
    }

    /// How many elements there are.
    pub fn len(&self) -> usize {
        self.0.len()
    }

    /// Whether there are no elements.
    pub fn is_empty(&self) -> bool {
        self.0.is_empty()
    }

    /// The element of a number, if there is one.
    pub fn get(&self, i: usize) -> Option<&T> {
        self.0.get(i)
    }

    /// The first element, if there is one.
    pub fn first(&self) -> Option<&T> {
        self.0.first()
    }

    /// All elements in order.
    pub fn iter(&self) -> std::slice::Iter<'_, T> {
        self.0.iter()
    }

    /// All elements in order, to be changed.
    pub fn iter_mut(&mut self) -> std::slice::IterMut<'_, T> {
        self.0.iter_mut()
    }

    /// A part of the array; it panics where an end of the part is past the array's.
    pub fn slice(&self, part: Slice) -> ArrayView1<'_, T> {
        ArrayView1::of(&self.0, part)
    }
}

impl<T> From<Vec<T>> for Array1<T> {
    /// An array of the given elements.
    fn from(elements: Vec<T>) -> Self {
        Array1(elements)
    }
}

impl<T> Index<usize> for Array1<T> {
    type Output = T;

    /// The element of a number; it panics where there is none.
    fn index(&self, i: usize) -> &T {
        &self.0[i]
    }
}

impl<T> IndexMut<usize> for Array1<T> {
    /// The element of a number, to be changed; it panics where there is none.
    fn index_mut(&mut self, i: usize) -> &mut T {
        &mut self.0[i]
    }
}

impl<T: PartialEq> PartialEq<Array1<T>> for &Array1<T> {
    /// Whether both have the same length and elements.
    fn eq(&self, other: &Array1<T>) -> bool {
        **self == *other
    }
}

impl<T: Copy + Add<Output = T>> Add<T> for Array1<T> {
    type Output = Self;

    /// The array with a number added to each element.
    fn add(mut self, number: T) -> Self {
        for x in self.iter_mut() {
            *x = *x + number;
        }
        self
    }
}

impl<T: fmt::Display> fmt::Display for Array1<T> {
    /// The elements in brackets, parted by commas.
    fn fmt(&self, f: &mut fmt::Formatter<'_>) -> fmt::Result {
        let elements: Vec<String> = self.iter().map(T::to_string).collect();
        write!(f, "[{}]", elements.join(", "))
    }
}
