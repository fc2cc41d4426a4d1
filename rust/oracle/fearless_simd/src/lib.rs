//! A stand-in for the crate fearless_simd: the traits and operations that the reference uses, over arrays of any lane
//! count. Each operation is the scalar one at each lane, as IEEE 754 has it.

#![allow(non_camel_case_types)]

use std::array;
use std::cell::Cell;
use std::ops::{Add, BitAnd, BitOr, BitOrAssign, Deref, Div, Mul, Not, Sub};

/// The token of a lane count.
#[derive(Clone, Copy)]
pub struct Lanes<const N: usize>;

/// A vector: its lanes as an array.
#[derive(Clone, Copy)]
pub struct Vector<T, const N: usize>([T; N]);

/// A lane count, and its vectors of f32, u32 and truth values.
pub trait Simd: Copy {
    type f32s: SimdFloat<Self, Element = f32, Mask = Self::mask32s, Int = Self::u32s>;
    type u32s: SimdBase<Self, Element = u32>;
    type mask32s: SimdMask<Self> + Select<Self::f32s> + Select<Self::u32s>;
}

/// What every vector has. The lanes can be read as a slice.
pub trait SimdBase<S>: Copy + Deref<Target = [<Self as SimdBase<S>>::Element]> {
    type Element: Copy;
    const LEN: usize;
    fn splat(simd: S, value: Self::Element) -> Self;
    fn from_fn(simd: S, lane: impl FnMut(usize) -> Self::Element) -> Self;
    fn store_slice(&self, out: &mut [Self::Element]);
}

/// Arithmetic and comparison; the right side may be one f32 for all lanes.
pub trait SimdFloat<S>:
    SimdBase<S, Element = f32>
    + From<f32>
    + Add<f32, Output = Self>
    + Sub<f32, Output = Self>
    + Mul<f32, Output = Self>
    + Div<f32, Output = Self>
{
    type Mask;
    type Int;
    fn simd_eq(self, right: impl Into<Self>) -> Self::Mask;
    fn simd_lt(self, right: impl Into<Self>) -> Self::Mask;
    fn simd_le(self, right: impl Into<Self>) -> Self::Mask;
    fn simd_gt(self, right: impl Into<Self>) -> Self::Mask;
    fn simd_ge(self, right: impl Into<Self>) -> Self::Mask;
    fn abs(self) -> Self;
    fn floor(self) -> Self;
    /// Truncated toward zero; what does not fit becomes the nearest that does, and NaN 0.
    fn to_int_precise(self) -> Self::Int;
}

/// A truth value for each lane.
pub trait SimdMask<S>:
    SimdBase<S, Element = bool> + BitAnd<Output = Self> + BitOr<Output = Self> + BitOrAssign + Not<Output = Self>
{
    fn all_true(self) -> bool;
}

/// A choice for each lane.
pub trait Select<V> {
    fn select(self, if_true: V, if_false: V) -> V;
}

impl<const N: usize> Simd for Lanes<N> {
    type f32s = Vector<f32, N>;
    type u32s = Vector<u32, N>;
    type mask32s = Vector<bool, N>;
}

impl<T, const N: usize> Deref for Vector<T, N> {
    type Target = [T];
    fn deref(&self) -> &[T] {
        &self.0
    }
}

impl<T: Copy, const N: usize> SimdBase<Lanes<N>> for Vector<T, N> {
    type Element = T;
    const LEN: usize = N;
    fn splat(_: Lanes<N>, value: T) -> Self {
        Vector([value; N])
    }
    fn from_fn(_: Lanes<N>, lane: impl FnMut(usize) -> T) -> Self {
        Vector(array::from_fn(lane))
    }
    fn store_slice(&self, out: &mut [T]) {
        out.copy_from_slice(&self.0);
    }
}

impl<T: Copy, const N: usize> Vector<T, N> {
    fn each<U>(self, at: impl Fn(T) -> U) -> Vector<U, N> {
        Vector(self.0.map(at))
    }
    fn both<U>(self, right: Self, at: impl Fn(T, T) -> U) -> Vector<U, N> {
        Vector(array::from_fn(|i| at(self.0[i], right.0[i])))
    }
}

impl<const N: usize> From<f32> for Vector<f32, N> {
    fn from(value: f32) -> Self {
        Vector([value; N])
    }
}

impl<const N: usize> SimdFloat<Lanes<N>> for Vector<f32, N> {
    type Mask = Vector<bool, N>;
    type Int = Vector<u32, N>;
    fn simd_eq(self, right: impl Into<Self>) -> Self::Mask {
        self.both(right.into(), |x, y| x == y)
    }
    fn simd_lt(self, right: impl Into<Self>) -> Self::Mask {
        self.both(right.into(), |x, y| x < y)
    }
    fn simd_le(self, right: impl Into<Self>) -> Self::Mask {
        self.both(right.into(), |x, y| x <= y)
    }
    fn simd_gt(self, right: impl Into<Self>) -> Self::Mask {
        self.both(right.into(), |x, y| x > y)
    }
    fn simd_ge(self, right: impl Into<Self>) -> Self::Mask {
        self.both(right.into(), |x, y| x >= y)
    }
    fn abs(self) -> Self {
        self.each(f32::abs)
    }
    fn floor(self) -> Self {
        self.each(f32::floor)
    }
    fn to_int_precise(self) -> Self::Int {
        self.each(|x| x as u32)
    }
}

impl<const N: usize> SimdMask<Lanes<N>> for Vector<bool, N> {
    fn all_true(self) -> bool {
        self.0.iter().all(|&lane| lane)
    }
}

impl<T: Copy, const N: usize> Select<Vector<T, N>> for Vector<bool, N> {
    fn select(self, if_true: Vector<T, N>, if_false: Vector<T, N>) -> Vector<T, N> {
        Vector(array::from_fn(|i| if self.0[i] { if_true.0[i] } else { if_false.0[i] }))
    }
}

macro_rules! with_a_scalar {
    ($($operation:ident $method:ident $operator:tt)*) => { $(
        impl<const N: usize> $operation<f32> for Vector<f32, N> {
            type Output = Self;
            fn $method(self, right: f32) -> Self {
                self.each(|x| x $operator right)
            }
        }
    )* };
}

with_a_scalar! { Add add + Sub sub - Mul mul * Div div / }

impl<const N: usize> BitAnd for Vector<bool, N> {
    type Output = Self;
    fn bitand(self, right: Self) -> Self {
        self.both(right, |x, y| x & y)
    }
}

impl<const N: usize> BitOr for Vector<bool, N> {
    type Output = Self;
    fn bitor(self, right: Self) -> Self {
        self.both(right, |x, y| x | y)
    }
}

impl<const N: usize> BitOrAssign for Vector<bool, N> {
    fn bitor_assign(&mut self, right: Self) {
        *self = *self | right;
    }
}

impl<const N: usize> Not for Vector<bool, N> {
    type Output = Self;
    fn not(self) -> Self {
        self.each(|x| !x)
    }
}

thread_local! {
    static LANES: Cell<usize> = const { Cell::new(8) };
}

/// Runs `work` with `dispatch!` at 4, 8 or 16 lanes on this thread.
pub fn with_lanes<R>(lanes: usize, work: impl FnOnce() -> R) -> R {
    let before = LANES.replace(lanes);
    let result = work();
    LANES.set(before);
    result
}

/// The processor's level, in the real crate; here the lanes are those of `with_lanes`.
#[derive(Clone, Copy)]
pub struct Level;

#[allow(clippy::new_without_default)]
impl Level {
    pub fn new() -> Level {
        Level
    }
    pub fn lanes(self) -> usize {
        LANES.get()
    }
}

/// Runs the operation at the level's lane count.
#[macro_export]
macro_rules! dispatch {
    ($level:expr, $simd:ident => $operation:expr) => {
        match $level.lanes() {
            4 => {
                let $simd = $crate::Lanes::<4>;
                $operation
            }
            8 => {
                let $simd = $crate::Lanes::<8>;
                $operation
            }
            16 => {
                let $simd = $crate::Lanes::<16>;
                $operation
            }
            lanes => panic!("no lane count: {lanes}"),
        }
    };
}
