//! The 98 directions: their weights, what weighted sums must reach, and what sums in lanes tell of it.
//!
//! Sums in lanes are rounded. Let u = 2^-24, the greatest relative error of one operation in f32; M no less than any
//! difference of two drones' raised control values; and W the sum of a direction's absolute weights, which f32 holds
//! exactly. Control values of parts lie between those of the whole, so M bounds them too.
//!
//! - A difference is exact in 32 bits and rounded once: u M.
//! - A control value of a half takes at most seven additions of two neighbours. Halving a sum is exact, since nothing
//!   is near the least exponent. So a halving adds at most 7 u M, and eight of them 56 u M, which makes 57 u M in all.
//! - A weighted sum is off by W times that, and by its own rounding, of at most three operations on the way of each
//!   product: 3 u M W.
//!
//! This is 60 u M W, and what the errors do to the errors is below 1 u M W. So 2^-18 M W = 64 u M W bounds the error at
//! every depth up to eight. Where a sum is within it of what it must reach, whole numbers decide.
use crate::curves::{halves, Curve};
use crate::fleet::Show;
use crate::lanes::{turned, Four};

pub const MOST_DEPTH: u32 = 8;

/// By axis, the first four control values and the last four.
pub type Rows = [[Four; 2]; 3];

/// By control value, x, y, z and 0.
pub type Points = [Four; 8];

/// The raised curves of a drone in a cue, in millimetres times 5,040.
pub type Raised = [Curve<i32>; 3];

/// The curves of the second drone less those of the first in a cue, and those curves.
pub struct Pair<'a> {
    pub rows: Rows,
    first: &'a Raised,
    second: &'a Raised,
}

impl<'a> Pair<'a> {
    pub fn new(first: &'a Raised, second: &'a Raised) -> Pair<'a> {
        let half = |axis: usize, k: usize| Four::difference(&first[axis][k..k + 4], &second[axis][k..k + 4]);
        Pair { rows: std::array::from_fn(|axis| [half(axis, 0), half(axis, 4)]), first, second }
    }
}

/// The control values by point.
pub fn points_of([x, y, z]: &Rows) -> Points {
    let none = Four::all(0.0);
    let ([a, b, c, d], [e, f, g, h]) = (turned([x[0], y[0], z[0], none]), turned([x[1], y[1], z[1], none]));
    [a, b, c, d, e, f, g, h]
}

/// The control values by axis.
pub fn rows_of(&[a, b, c, d, e, f, g, h]: &Points) -> Rows {
    let (first, last) = (turned([a, b, c, d]), turned([e, f, g, h]));
    std::array::from_fn(|axis| [first[axis], last[axis]])
}

/// A direction: the weights of the three axes, and what the weighted sums of raised curves must reach. In lanes, sums
/// that reach `sure` do, and sums that don't reach `likely` don't.
pub struct Direction {
    weights: [i64; 3],
    least: i64,
    lanes: [Four; 3],
    likely: f32,
    sure: Four,
}

impl Direction {
    /// A direction for drones whose raised curves differ by at most this.
    fn new(weights: [i64; 3], least: i64, widest: i64) -> Direction {
        let sum: i64 = weights.iter().map(|w| w.abs()).sum();
        // The second part is for the rounding of these two numbers themselves.
        let error = (sum * widest) as f64 / 2_f64.powi(18) + least as f64 / 2_f64.powi(22);
        let (likely, sure) = ((least as f64 - error) as f32, (least as f64 + error) as f32);
        Direction { weights, least, lanes: weights.map(|w| Four::all(w as f32)), likely, sure: Four::all(sure) }
    }

    /// Whether it separates a part of a pair, by its depth and its index.
    pub fn separates(&self, pair: &Pair, rows: &Rows, depth: u32, index: u32) -> bool {
        let half = |k: usize| self.lanes[0] * rows[0][k] + self.lanes[1] * rows[1][k] + self.lanes[2] * rows[2][k];
        let lowest = half(0).least(half(1));
        if lowest.reaches(self.sure) == 15 {
            return true;
        }
        lowest.reaches(Four::all(self.likely)) == 15 && self.separates_exactly(pair, depth, index)
    }

    /// The same in whole numbers: the weighed curve of the cue is halved on the way to the part.
    #[cold]
    fn separates_exactly(&self, pair: &Pair, depth: u32, index: u32) -> bool {
        let mut row: Curve<i128> = std::array::from_fn(|k| {
            let difference = |axis: usize| i64::from(pair.second[axis][k]) - i64::from(pair.first[axis][k]);
            (0..3).map(|axis| self.weights[axis] * difference(axis)).sum::<i64>().into()
        });
        for level in (0..depth).rev() {
            let (left, right) = halves(&row);
            row = if index >> level & 1 == 0 { left } else { right };
        }
        row.iter().all(|v| *v >= i128::from(self.least) << (7 * depth))
    }
}

/// The least whole number whose square is no less than this.
fn root_reaching(square: i64) -> i64 {
    let root = square.isqrt();
    if root * root < square { root + 1 } else { root }
}

/// The greatest number that divides both.
fn common(a: i64, b: i64) -> i64 {
    if b == 0 {
        a.abs()
    } else {
        common(b, a % b)
    }
}

/// What weighted sums in millimetres must reach along a way, for drones that move so far on each axis while one is
/// late.
fn threshold(show: &Show, way: [i64; 3], weights: [i64; 3], reach: [i64; 3]) -> i64 {
    let (r, h, stray) = (show.r, show.h, show.stray);
    let squares = |row: [i64; 3]| row.iter().map(|v| v * v).sum::<i64>();
    (4 * r * r * h * h * squares(way)).isqrt() + 1
        + root_reaching(4 * stray * stray * squares(weights))
        + (0..3).map(|axis| weights[axis].abs() * reach[axis]).sum::<i64>()
}

/// No weighted sum of a whole curve reaches this, whatever the half axes.
const UNREACHED: i64 = (1 << 42) - 1;

const HALF: usize = 49;
const BLOCKS: usize = (2 * HALF).div_ceil(4);

/// Four directions: the weights of each axis, and what sums must reach to be likely, for them and for their opposites.
struct Block {
    weights: [Four; 3],
    least: Four,
    most: Four,
}

impl Block {
    /// The directions of a block. Lanes beyond the last one are never likely.
    fn of(directions: &[Direction], block: usize) -> Block {
        let of = |value: &dyn Fn(&Direction) -> f32, other: f32| {
            Four::new(std::array::from_fn(|k| directions.get(4 * block + k).map_or(other, value)))
        };
        let least = of(&|it| it.likely, f32::INFINITY);
        let most = of(&|it| -it.likely, f32::NEG_INFINITY);
        Block { weights: std::array::from_fn(|axis| of(&|it| it.weights[axis] as f32, 0.0)), least, most }
    }

    #[inline(always)]
    fn weighed(&self, [x, y, z]: [Four; 3]) -> Four {
        self.weights[0] * x + self.weights[1] * y + self.weights[2] * z
    }
}

/// Some directions, by bits: k of `below` is the direction k, and k of `above` its opposite, 97 - k.
#[derive(Clone, Copy)]
pub struct Likely {
    below: u64,
    above: u64,
}

impl Likely {
    pub fn and(self, other: Likely) -> Likely {
        Likely { below: self.below & other.below, above: self.above & other.above }
    }

    pub fn is_none(&self) -> bool {
        self.below | self.above == 0
    }
}

impl Iterator for Likely {
    type Item = usize;

    /// The next direction, in the order of the table.
    fn next(&mut self) -> Option<usize> {
        if self.below > 0 {
            let k = self.below.trailing_zeros() as usize;
            self.below &= self.below - 1;
            Some(k)
        } else if self.above > 0 {
            let k = self.above.ilog2() as usize;
            self.above ^= 1 << k;
            Some(2 * HALF - 1 - k)
        } else {
            None
        }
    }
}

/// The 98 directions, the opposite of each as far from the end as it is from the beginning; and how far apart on each
/// axis are boxes in millimetres between which the direction of that axis tells enough.
pub struct Table {
    pub directions: Vec<Direction>,
    pub gaps: [i32; 3],
    blocks: [Block; BLOCKS],
}

impl Table {
    pub fn make(show: &Show, reach: [i64; 3]) -> Table {
        let widest = 5040 * show.widest();
        let (mut directions, mut gaps) = (Vec::new(), [i32::MAX; 3]);
        let ways = (0..125).map(|k| [k / 25 - 2, k / 5 % 5 - 2, k % 5 - 2]);
        for way in ways.filter(|way| common(common(way[0], way[1]), way[2]) == 1) {
            let weights = [way[0] * show.h, way[1] * show.h, way[2] * show.r];
            let threshold = threshold(show, way, weights, reach);
            if let Some(axis) = [[1, 0, 0], [0, 1, 0], [0, 0, 1]].iter().position(|it| *it == way) {
                gaps[axis] = i32::try_from((threshold + weights[axis] - 1) / weights[axis]).unwrap_or(i32::MAX);
            }
            directions.push(Direction::new(weights, UNREACHED.min(5040 * threshold), widest));
        }
        let blocks = std::array::from_fn(|block| Block::of(&directions, block));
        Table { directions, gaps, blocks }
    }

    /// The directions that may separate a part with a control value at this place.
    pub fn likely(&self, place: [Four; 3]) -> Likely {
        let mut likely = Likely { below: 0, above: 0 };
        for block in self.blocks[..HALF.div_ceil(4)].iter().rev() {
            let sums = block.weighed(place);
            likely.below = likely.below << 4 | u64::from(sums.reaches(block.least));
            likely.above = likely.above << 4 | u64::from(block.most.reaches(sums));
        }
        // The last of these blocks has three directions of the other half.
        let half = Likely { below: (1 << HALF) - 1, above: (1 << HALF) - 1 };
        likely.and(half)
    }

    /// The first direction that passes a test, of those that may separate a part with control values at both places.
    /// Four and four are weighed in the order of the table, so that most of them needn't be weighed.
    #[inline(always)]
    pub fn first(&self, [first, last]: [[Four; 3]; 2], test: impl Fn(usize) -> bool) -> Option<usize> {
        for (block, directions) in self.blocks.iter().enumerate() {
            let lowest = directions.weighed(first).least(directions.weighed(last));
            let mut likely = lowest.reaches(directions.least);
            while likely != 0 {
                let k = 4 * block + likely.trailing_zeros() as usize;
                if test(k) {
                    return Some(k);
                }
                likely &= likely - 1;
            }
        }
        None
    }
}
