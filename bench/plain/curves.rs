//! Curves of degree seven in whole numbers: for the plain programs that cut them.
use std::ops::{Add, Mul, Shl, Sub};

/// Whole numbers, of 32 bits, 64 or 128.
pub trait Whole:
    Copy + Default + Ord + Add<Output = Self> + Sub<Output = Self> + Mul<Output = Self> + Shl<u32, Output = Self>
{
}

impl Whole for i32 {}
impl Whole for i64 {}
impl Whole for i128 {}

/// The control values of a curve.
pub type Curve<T> = [T; 8];

/// How many ways there are to choose k of n.
pub const CHOOSE: [[i64; 8]; 8] = {
    let mut rows = [[0; 8]; 8];
    let mut n = 0;
    while n < 8 {
        rows[n][0] = 1;
        let mut k = 1;
        while k <= n {
            rows[n][k] = rows[n - 1][k - 1] + rows[n - 1][k];
            k += 1;
        }
        n += 1;
    }
    rows
};

/// By degree, for each control value of degree seven, how often each control value goes into 5,040 times it.
const SHARES: [[[i32; 8]; 8]; 8] = {
    let mut shares = [[[0; 8]; 8]; 8];
    let mut n = 0;
    while n < 8 {
        let mut k = 0;
        while k < 8 {
            let mut j = 0;
            while j <= n {
                if j <= k && k - j <= 7 - n {
                    shares[n][k][j] = (5040 / CHOOSE[7][k] * CHOOSE[n][j] * CHOOSE[7 - n][k - j]) as i32;
                }
                j += 1;
            }
            k += 1;
        }
        n += 1;
    }
    shares
};

/// The control values raised to degree seven, times 5,040.
#[inline]
pub fn raised<T: Whole + From<i32>>(points: &[T]) -> Curve<T> {
    std::array::from_fn(|k| {
        let shares = SHARES[points.len() - 1][k].iter().zip(points);
        shares.fold(T::default(), |sum, (share, point)| sum + T::from(*share) * *point)
    })
}

/// Both halves, at a scale of 2^7 times the whole.
pub fn halves<T: Whole>(curve: &Curve<T>) -> (Curve<T>, Curve<T>) {
    let (mut row, mut left, mut right) = (*curve, [T::default(); 8], [T::default(); 8]);
    for k in 0..8 {
        let scale = 7 - k as u32;
        left[k] = row[0] << scale;
        right[7 - k] = row[7 - k] << scale;
        for j in 0..7 - k {
            row[j] = row[j] + row[j + 1];
        }
    }
    (left, right)
}

/// The widest step between neighbouring control values.
pub fn widest_step<T: Whole>(curve: &Curve<T>) -> T {
    curve.windows(2).map(|two| (two[1] - two[0]).max(two[0] - two[1])).max().unwrap_or_default()
}

/// The greatest of a step that was found and those of a curve's parts of a depth, where `step` is the whole curve's. A
/// half has no wider step than half its own, at 2^7 times its scale; the half with the wider one comes first.
pub fn widest(curve: &Curve<i128>, step: i128, depth: u32, found: i128) -> i128 {
    if step << (6 * depth) <= found {
        return found;
    }
    if depth == 0 {
        return step;
    }
    let (left, right) = halves(curve);
    let (first, second) = (widest_step(&left), widest_step(&right));
    if second <= first {
        widest(&right, second, depth - 1, widest(&left, first, depth - 1, found))
    } else {
        widest(&left, first, depth - 1, widest(&right, second, depth - 1, found))
    }
}
