//! Whether drones keep to regions.
use crate::curves::{halves, Curve, Whole};
use crate::fleet::Show;
use crate::text::Text;

const DEPTH: u32 = 6;

/// The bounds of a region are at most so many millimetres from the middle.
const FARTHEST: i64 = 100_000;

/// Up to this depth control values of single curves are below 2^63.
const NARROW_DEPTH: u32 = 5;

/// A box to stay out of, or a volume to stay in, by the bounds on each axis for the drones' middles, in millimetres.
struct Region {
    keepout: bool,
    low: [i64; 3],
    high: [i64; 3],
}

impl Region {
    /// The region of the next line, for drones that reach so far on each axis.
    fn read(text: &mut Text, by: [i64; 3]) -> Option<Region> {
        let keepout = match text.word() {
            b"" => return None,
            b"keepout" => true,
            b"volume" => false,
            _ => panic!("a region"),
        };
        let mut place = || [(); 3].map(|()| text.number(-FARTHEST, FARTHEST));
        let (low, high) = (place(), place());
        let by = if keepout { by } else { by.map(|it| -it) };
        let aside = |axis: usize, sign: i64| sign * by[axis];
        Some(Region {
            keepout,
            low: std::array::from_fn(|axis| low[axis] + aside(axis, -1)),
            high: std::array::from_fn(|axis| high[axis] + aside(axis, 1)),
        })
    }

    /// Whether what lies between bounds on each axis keeps to it. Bounds of its own are at this scale.
    fn keeps<T: Whole + From<i64>>(&self, bounds: &[[T; 2]; 3], scale: T) -> bool {
        let of = |v: i64| T::from(v) * scale;
        if self.keepout {
            (0..3).any(|axis| bounds[axis][1] < of(self.low[axis]) || bounds[axis][0] > of(self.high[axis]))
        } else {
            (0..3).all(|axis| of(self.low[axis]) <= bounds[axis][0] && bounds[axis][1] <= of(self.high[axis]))
        }
    }
}

/// The least and the greatest control value on each axis.
fn bounds<T: Whole>(part: &[Curve<T>; 3]) -> [[T; 2]; 3] {
    part.map(|row| row.iter().fold([row[0]; 2], |[low, high], v| [low.min(*v), high.max(*v)]))
}

/// The first part of the greatest depth that doesn't keep to a region, in a part of this depth.
fn entering<T: Whole + From<i64>>(region: &Region, part: &[Curve<T>; 3], depth: u32) -> Option<u32>
where
    i128: From<T>,
{
    if region.keeps(&bounds(part), T::from(5040) << (7 * depth)) {
        return None;
    }
    if depth == DEPTH {
        return Some(0);
    }
    if depth == NARROW_DEPTH && size_of::<T>() == 8 {
        return entering::<i128>(region, &part.map(|curve| curve.map(i128::from)), depth);
    }
    let [x, y, z] = [halves(&part[0]), halves(&part[1]), halves(&part[2])];
    let (left, right) = ([x.0, y.0, z.0], [x.1, y.1, z.1]);
    entering(region, &left, depth + 1)
        .or_else(|| entering(region, &right, depth + 1).map(|index| index + (1 << (DEPTH - depth - 1))))
}

/// The regions of a text, for drones that reach so far on each axis.
fn regions(mut text: Text, by: [i64; 3]) -> Vec<Region> {
    let mut out = Vec::new();
    while !text.is_done() {
        out.extend(Region::read(&mut text, by));
        text.end_line();
    }
    out
}

/// The line on regions.
pub fn judged(show: &Show, text: Text) -> Result<String, String> {
    let by = [show.r + show.stray, show.r + show.stray, show.h + show.stray];
    let regions = regions(text, by);
    for (k, region) in regions.iter().enumerate() {
        for (drone, name) in show.names.iter().enumerate() {
            if region.keeps(&show.bounds[drone].rows(), 1) {
                continue;
            }
            for (cue, segment) in show.flight(drone).enumerate() {
                if region.keeps(&segment.bounds.rows(), 1) {
                    continue;
                }
                let part = [0, 1, 2].map(|axis| segment.raised(axis).map(i64::from));
                if let Some(index) = entering(region, &part, 0) {
                    let (region, cue, parts) = (k + 1, cue + 1, 1 << DEPTH);
                    return Err(format!("error 15 region {region} drone {name} cue {cue} part {index} of {parts}\n"));
                }
            }
        }
    }
    Ok(format!("kept regions {}\n", regions.len()))
}
