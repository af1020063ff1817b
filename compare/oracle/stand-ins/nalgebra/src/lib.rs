//! The part of nalgebra that the firmware's files use.
//!
//! Operators act on one element after the other. A product's row is summed
//! from the left, beginning with its first product (not with 0.0). `norm` is
//! the root of the sum of squares, summed likewise.

use core::ops::{Add, Deref, DerefMut, Div, Index, IndexMut, Mul, Neg, Sub};

pub mod base {
    pub use crate::{SMatrix, SVector};
}

/// R rows and C columns, stored by columns.
#[derive(Clone, Copy, Debug, PartialEq)]
#[repr(transparent)]
pub struct SMatrix<T, const R: usize, const C: usize> {
    data: [[T; R]; C],
}

pub type SVector<T, const D: usize> = SMatrix<T, D, 1>;
pub type Vector2<T> = SVector<T, 2>;
pub type Vector3<T> = SVector<T, 3>;
pub type Vector4<T> = SVector<T, 4>;
pub type Matrix3<T> = SMatrix<T, 3, 3>;
pub type Matrix3x4<T> = SMatrix<T, 3, 4>;
pub type Matrix4x3<T> = SMatrix<T, 4, 3>;
pub type Matrix3x5<T> = SMatrix<T, 3, 5>;

/// nalgebra's own clamp: a value that is not above `min`, NaN included, gives `min`.
pub fn clamp<T: PartialOrd>(val: T, min: T, max: T) -> T {
    if val > min {
        if val < max {
            val
        } else {
            max
        }
    } else {
        min
    }
}

#[macro_export]
macro_rules! vector {
    ($($x:expr),* $(,)?) => {
        $crate::SVector::from_array([$($x),*])
    };
}

impl<T, const D: usize> SMatrix<T, D, 1> {
    pub const fn from_array(column: [T; D]) -> Self {
        Self { data: [column] }
    }
}

impl<const R: usize, const C: usize> SMatrix<f32, R, C> {
    pub fn from_fn(mut f: impl FnMut(usize, usize) -> f32) -> Self {
        let mut data = [[0.0; R]; C];
        for (c, column) in data.iter_mut().enumerate() {
            for (r, cell) in column.iter_mut().enumerate() {
                *cell = f(r, c);
            }
        }
        Self { data }
    }

    pub fn from_element(x: f32) -> Self {
        Self { data: [[x; R]; C] }
    }

    pub fn zeros() -> Self {
        Self::from_element(0.0)
    }

    pub fn from_row_slice(cells: &[f32]) -> Self {
        assert_eq!(cells.len(), R * C);
        Self::from_fn(|r, c| cells[r * C + c])
    }

    pub fn from_rows(rows: &[SMatrix<f32, 1, C>]) -> Self {
        assert_eq!(rows.len(), R);
        Self::from_fn(|r, c| rows[r][(0, c)])
    }

    pub fn transpose(&self) -> SMatrix<f32, C, R> {
        SMatrix::from_fn(|r, c| self[(c, r)])
    }

    pub fn column(&self, c: usize) -> SVector<f32, R> {
        SVector::from_array(self.data[c])
    }

    pub fn component_mul(&self, other: &Self) -> Self {
        Self::from_fn(|r, c| self[(r, c)] * other[(r, c)])
    }

    pub fn zip_zip_map(&self, b: &Self, c: &Self, mut f: impl FnMut(f32, f32, f32) -> f32) -> Self {
        Self::from_fn(|row, col| f(self[(row, col)], b[(row, col)], c[(row, col)]))
    }

    pub fn copy_from(&mut self, other: &Self) {
        *self = *other;
    }

    pub fn iter(&self) -> impl Iterator<Item = &f32> {
        self.data.iter().flatten()
    }

    pub fn norm(&self) -> f32 {
        let mut cells = self.iter();
        let mut sum = match cells.next() {
            Some(x) => x * x,
            None => 0.0,
        };
        for x in cells {
            sum += x * x;
        }
        sum.sqrt()
    }
}

impl<const D: usize> SVector<f32, D> {
    pub fn fixed_rows<const N: usize>(&self, first: usize) -> SVector<f32, N> {
        SVector::from_fn(|r, _| self[first + r])
    }
}

impl SVector<f32, 3> {
    pub fn xy(&self) -> SVector<f32, 2> {
        SVector::<f32, 2>::new(self[0], self[1])
    }
}

impl<const R: usize, const C: usize> Default for SMatrix<f32, R, C> {
    fn default() -> Self {
        Self::zeros()
    }
}

impl<const D: usize> From<SMatrix<f32, D, 1>> for [f32; D] {
    fn from(v: SMatrix<f32, D, 1>) -> Self {
        v.data[0]
    }
}

impl<const D: usize> From<[f32; D]> for SMatrix<f32, D, 1> {
    fn from(column: [f32; D]) -> Self {
        Self::from_array(column)
    }
}

// Indexing: by (row, column), and by place in column order.

impl<T, const R: usize, const C: usize> Index<(usize, usize)> for SMatrix<T, R, C> {
    type Output = T;
    fn index(&self, (r, c): (usize, usize)) -> &T {
        &self.data[c][r]
    }
}

impl<T, const R: usize, const C: usize> IndexMut<(usize, usize)> for SMatrix<T, R, C> {
    fn index_mut(&mut self, (r, c): (usize, usize)) -> &mut T {
        &mut self.data[c][r]
    }
}

impl<T, const R: usize, const C: usize> Index<usize> for SMatrix<T, R, C> {
    type Output = T;
    fn index(&self, i: usize) -> &T {
        &self.data[i / R][i % R]
    }
}

impl<T, const R: usize, const C: usize> IndexMut<usize> for SMatrix<T, R, C> {
    fn index_mut(&mut self, i: usize) -> &mut T {
        &mut self.data[i / R][i % R]
    }
}

// Operators.

macro_rules! elementwise {
    ($op:ident, $method:ident) => {
        impl<const R: usize, const C: usize> $op<&SMatrix<f32, R, C>> for &SMatrix<f32, R, C> {
            type Output = SMatrix<f32, R, C>;
            fn $method(self, other: &SMatrix<f32, R, C>) -> SMatrix<f32, R, C> {
                SMatrix::from_fn(|r, c| $op::$method(self[(r, c)], other[(r, c)]))
            }
        }
        impl<const R: usize, const C: usize> $op for SMatrix<f32, R, C> {
            type Output = SMatrix<f32, R, C>;
            fn $method(self, other: SMatrix<f32, R, C>) -> SMatrix<f32, R, C> {
                $op::$method(&self, &other)
            }
        }
    };
}
elementwise!(Add, add);
elementwise!(Sub, sub);

macro_rules! by_scalar {
    ($op:ident, $method:ident) => {
        impl<const R: usize, const C: usize> $op<f32> for SMatrix<f32, R, C> {
            type Output = SMatrix<f32, R, C>;
            fn $method(self, x: f32) -> SMatrix<f32, R, C> {
                SMatrix::from_fn(|r, c| $op::$method(self[(r, c)], x))
            }
        }
    };
}
by_scalar!(Mul, mul);
by_scalar!(Div, div);

impl<const R: usize, const C: usize> Mul<SMatrix<f32, R, C>> for f32 {
    type Output = SMatrix<f32, R, C>;
    fn mul(self, m: SMatrix<f32, R, C>) -> SMatrix<f32, R, C> {
        SMatrix::from_fn(|r, c| self * m[(r, c)])
    }
}

impl<const R: usize, const K: usize, const C: usize> Mul<SMatrix<f32, K, C>>
    for SMatrix<f32, R, K>
{
    type Output = SMatrix<f32, R, C>;
    fn mul(self, other: SMatrix<f32, K, C>) -> SMatrix<f32, R, C> {
        SMatrix::from_fn(|r, c| {
            let mut sum = self[(r, 0)] * other[(0, c)];
            for i in 1..K {
                sum += self[(r, i)] * other[(i, c)];
            }
            sum
        })
    }
}

impl<const R: usize, const C: usize> Neg for SMatrix<f32, R, C> {
    type Output = Self;
    fn neg(self) -> Self {
        Self::from_fn(|r, c| -self[(r, c)])
    }
}

// `new` and the named coordinates of short vectors.

macro_rules! coordinates {
    ($d:literal, $name:ident, $($field:ident),+) => {
        #[repr(C)]
        pub struct $name<T> { $(pub $field: T),+ }

        impl<T: Copy> SMatrix<T, $d, 1> {
            pub const fn new($($field: T),+) -> Self {
                Self { data: [[$($field),+]] }
            }
        }

        impl<T> Deref for SMatrix<T, $d, 1> {
            type Target = $name<T>;
            fn deref(&self) -> &$name<T> {
                // Both are $d values of T in a row.
                unsafe { &*(self as *const Self as *const $name<T>) }
            }
        }

        impl<T> DerefMut for SMatrix<T, $d, 1> {
            fn deref_mut(&mut self) -> &mut $name<T> {
                unsafe { &mut *(self as *mut Self as *mut $name<T>) }
            }
        }
    };
}
coordinates!(2, XY, x, y);
coordinates!(3, XYZ, x, y, z);
coordinates!(4, XYZW, x, y, z, w);
coordinates!(5, XYZWA, x, y, z, w, a);
coordinates!(6, XYZWAB, x, y, z, w, a, b);
